"""Which settings of a plan meet its requirements at the longest battery life (docs/SEARCH.md).

    from foldcairn import planning
    from foldcairn.plan import Plan
    found = planning.search(Plan.read("plan.toml"), {"sends": [1, 2, 3], "interval": [0.4, 0.8]})
    print(found)

`space` has the settings and the plans that they make, `halving` which of them go on, `proposing` which are tried where there are many, and
`searching` the search. What a draw is, and how it is judged, is in `foldcairn.requirements`. Tested, not proved.
"""

from .found import Found
from .searching import search

__all__ = ["Found", "search"]
