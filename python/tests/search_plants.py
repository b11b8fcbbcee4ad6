"""Three made plants with what may be chosen in them, small enough that each setting can be verified."""

from __future__ import annotations

from plans import asked, plan

from foldcairn.plan import Plan

# Nearly all links pass nearly all, so that lives differ by the settings and not by the draws.
_CALM = {"near": 0.99}
# A tank further off, which two places reach.
_FAR = """
[[node]]
name = "far"
[[node]]
name = "east"
powered = "mains"
candidate = true
[[node]]
name = "west"
powered = "mains"
candidate = true
"""
_LINKS = "".join(
    f'[[link]]\nfrom = "{one}"\nto = "{other}"\nratio = {ratio}\nboth = true\n'
    for one, other, ratio in (("tank", "far", 0.35), ("valve", "east", 0.99), ("east", "far", 0.99), ("pump", "west", 0.9), ("west", "far", 0.6))
)
_STREAM = '[[stream]]\nname = "far away"\nfrom = "far"\nto = "hosts"\nevery = 25\ninterval = 10\nstart = 100\ndeadline = 35\n'
_SEARCHED = {
    "intervals": "[search]\nsends = [1, 2, 3]\ncontend = [0, 2, 4]\ninterval = [0.3, 0.5, 0.8, 1.0]\n",
    "hosts": '[search]\nsends = [1, 2]\ncontend = [0, 4]\ninterval = [0.4, 0.8]\nbackups = ["pump", "valve", "tank"]\n',
    "relays": '[search]\ncontend = [1, 4]\ninterval = [0.2, 0.4]\nrelays = ["east", "west"]\nrelays_most = 1\n',
}
_PLANTS = {
    "intervals": (asked("levels", tag="level", share=0.9, part=0.5), {}),
    "hosts": (asked("levels", tag="level", share=0.7, part=0.5) + asked("back", tag="level", outage=130, when="gateway fails", part=0.5), {}),
    "relays": (asked("far", streams=["far away"], share=0.85, part=0.5), {"nodes": _FAR, "links": _LINKS, "streams": _STREAM}),
}
NAMES = tuple(_PLANTS)


def plant(name: str) -> Plan:
    """One of them."""
    requirements, more = _PLANTS[name]
    return plan(requirements + _SEARCHED[name], **{**_CALM, **more})
