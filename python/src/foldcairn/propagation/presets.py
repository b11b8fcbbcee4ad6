"""Numbers of the log-distance path loss for kinds of sites, each with its source.

A preset is where a plan begins before anything is measured: sites of one kind differ by more than its numbers show. Tested, not proved.
"""

from __future__ import annotations

from dataclasses import dataclass

from ..common.arguments import one_of

# Free space over the first metre at 2.44 GHz, in dB: 20 log10(4 pi 2.44e9 / 299,792,458) = 40.196.
REFERENCE_DB = 40.2
# A thick wall of concrete or brick, in dB (COST 231, final report, chapter 4: 6.9 for a heavy wall, 3.4 for a light one, at 1.8 GHz).
WALL_DB = 6.9


@dataclass(frozen=True)
class Preset:
    """A kind of site: numbers of the path loss, with their source.

    Attributes
    ----------
    exponent : float
        The exponent of distance.
    deviation_db : float
        The deviation of shadowing in dB.
    first_floor_db : float
        The loss through one floor in dB.
    floor_db : float
        The loss through each further floor in dB.
    source : str
        Where the numbers are from.
    """

    exponent: float
    deviation_db: float
    first_floor_db: float
    floor_db: float
    source: str


_P1238 = "ITU-R P.1238-7, tables 2 to 4"
_FACTORY = (
    "T. S. Rappaport, Characterization of UHF multipath radio channels in factory buildings, IEEE Transactions on Antennas and Propagation "
    "37 (8), 1989, at 1.3 GHz"
)
_FLOORS = "floors as of offices, since the source has none"

PRESETS: dict[str, Preset] = {
    "office": Preset(3.0, 12.0, 15.0, 4.0, f"{_P1238}: exponent and floors at 1.8 to 2 GHz, deviation at 5.2 GHz (10 dB at 1.8 to 2 GHz)"),
    "residential": Preset(2.8, 8.0, 4.0, 4.0, f"{_P1238}, at 1.8 to 2 GHz"),
    "commercial": Preset(2.2, 10.0, 6.0, 3.0, f"{_P1238}, at 1.8 to 2 GHz"),
    "factory-in-sight": Preset(1.8, 4.5, 15.0, 4.0, f"{_FACTORY}: line of sight; {_FLOORS}"),
    "factory-light-clutter": Preset(2.4, 4.7, 15.0, 4.0, f"{_FACTORY}: no line of sight, light clutter; {_FLOORS}"),
    "factory-heavy-clutter": Preset(2.8, 8.1, 15.0, 4.0, f"{_FACTORY}: no line of sight, heavy clutter; {_FLOORS}"),
    "open-ground": Preset(
        2.4, 4.0, 15.0, 4.0,
        "worked out: the line from free space at 1 m to the loss over plane ground, 40 log10 d, between antennas 1 m high at 270 m; the "
        f"deviation is an assumption; {_FLOORS}",
    ),
}  # fmt: skip


def preset(name: str) -> Preset:
    """The preset of a name. Raises `ArgumentError` where there is none, with the nearest name."""
    return PRESETS[one_of("preset", name, PRESETS)]
