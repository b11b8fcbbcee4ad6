"""Whether a plan meets its requirements, and how sure that is (docs/REQUIREMENTS.md).

    from foldcairn.plan import Plan
    from foldcairn.requirements import verdicts
    print(verdicts(Plan.read("plan.toml")))

`judging` has the verdicts, `limits` the intervals, `looks` how repeated looks are paid for, and `measuring` what is counted of a draw. Tested, not
proved.
"""

from .judging import IMPOSSIBLE, MET, NOT_DECIDED, NOT_MET, Judgement, Rule, Unit, judge
from .verifying import status, verdicts

__all__ = ["IMPOSSIBLE", "MET", "NOT_DECIDED", "NOT_MET", "Judgement", "Rule", "Unit", "judge", "status", "verdicts"]
