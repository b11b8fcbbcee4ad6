"""Whether what a plan lets a search choose is in it: hosts and backups are its nodes, and relays its candidates. Tested, not proved."""

from __future__ import annotations

from typing import TYPE_CHECKING

from .errors import PlanError, at, known
from .model import Search

if TYPE_CHECKING:
    from .plan import Plan

# The keys of `[search]` that have the values of which one is chosen.
WORDS = ("profile", "sends", "contend", "interval", "keep_alive", "hosts", "backups", "relays")


def given(search: Search) -> dict[str, list[object]]:
    """What may be chosen, by its key."""
    return {word: list(values) for word in WORDS if (values := getattr(search, word)) is not None}


def check(plan: Plan) -> None:
    """Raises `PlanError` where a key has no value or one twice, or names what is not there or is none of its kind."""
    search, where = plan.search, at(plan, "search", plan.search)
    for word, values in given(search).items():
        if not values:
            raise PlanError(where, f"`{word}` has no value, so there is no setting to try; leave it out for that of the plan")
        if twice := [value for place, value in enumerate(values) if value in values[:place]]:
            raise PlanError(where, f"`{word}` has {twice[0]!r} twice")
    for word in ("hosts", "backups"):
        names = getattr(search, word) or []
        known(where, word, names, plan.nodes)
        if places := [name for name in names if plan.nodes[name].candidate]:
            raise PlanError(where, f"`{word}` has {places[0]}, which is a candidate and no node yet; take `candidate` away to have it in the network")
    _relays(plan, where)
    profiles = search.profile or [plan.settings.profile]
    if any(search.contend or []) and 2 not in profiles:
        raise PlanError(where, "`contend` has more than 0, and profile 1 has one contention slot; write `profile = [2]`, or [1, 2] to try both")


def _relays(plan: Plan, where: str) -> None:
    places = [name for name, node in plan.nodes.items() if node.candidate]
    for name in plan.search.relays or []:
        if name in plan.nodes and name not in places:
            raise PlanError(where, f"`relays` has {name}, which is a node already and no candidate; write `candidate = true` in its row")
    known(where, "relays", plan.search.relays or [], places, "candidate")
