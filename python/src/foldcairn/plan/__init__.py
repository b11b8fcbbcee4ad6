"""Plans: one file with all that a colleague, a nightly job or the page needs (docs/PLAN-FILE.md).

    from foldcairn.plan import Plan
    plan = Plan.read("plan.toml")
    network = plan.network(seed=1)

Tested, not proved.
"""

from .errors import PlanError
from .importing import of_scenario, of_tables
from .model import Battery, Event, Floor, Host, Link, Losses, Node, Requirement, Search, Settings, Stream
from .plan import Plan

__all__ = [
    "Battery", "Event", "Floor", "Host", "Link", "Losses", "Node", "Plan", "PlanError", "Requirement", "Search", "Settings", "Stream", "of_scenario",
    "of_tables",
]  # fmt: skip
