"""How the ratios of a plan's links come about: the words of its table `[losses]`. Tested, not proved."""

from __future__ import annotations

from collections.abc import Iterable, Sequence
from dataclasses import dataclass
from typing import Any

from ..common.arguments import ArgumentError, one_of, real
from .curve import LONGEST_PACKET, packet_bits
from .path_loss import NOISE_DBM
from .presets import PRESETS, REFERENCE_DB, WALL_DB, Preset, preset
from .walls import Wall, walls

SOURCES = ("survey", "positions", "both", "none")
UNKNOWNS = ("error", "positions", "none")
UNHEARD = ("none", "positions")


@dataclass(frozen=True)
class Losses:
    """From what ratios are drawn, and the numbers of the path loss.

    An exponent or deviation that is given goes before a fitted one, and that before the preset's; noise that is fitted goes before `noise_dbm`.

    Parameters
    ----------
    source : str
        "survey" (what was measured), "positions" (the path loss), "both" (measured where it was, else by positions) or "none" (each link of the
        survey passes everything). A plan file writes it as `from`.
    preset : str, optional
        A name of `PRESETS`.
    exponent : float, optional
        The exponent of distance, above 0 and up to 10.
    reference_db : float
        The loss over the first metre, 0 to 120 dB.
    deviation_db : float, optional
        The deviation of shadowing, 0 to 40 dB.
    floor_db : float, optional
        The loss through each floor, from 0 dB on; None: as of the preset.
    wall_db : float, optional
        The loss of walls without a number of their own, from 0 dB on; None: 6.9 dB.
    transmit_dbm : float
        The transmitted power, -60 to 30 dBm.
    noise_dbm : float
        The noise, -140 to 0 dBm.
    correlation : float
        That of the shadowing of both directions of a pair, 0 to 1.
    bytes : int
        The length of the packets, header and payload, 1 to 125; the longest has the lowest ratio.
    least : float
        Links with a lower ratio are left out, 0 to 1.
    unknown : str
        What becomes of links whose cells are blank: "error", "positions" (by the path loss), or "none" (no link). Never a ratio of 1.
    unheard : str
        With source "both", what becomes of a pair that has no row although its sender and its receiver are in others: "none" (nothing was received,
        so no link), or "positions".
    fit : bool
        Whether a survey gives the noise, where it has ratios with their RSSI, and with source "both" the exponent and the deviation.
    walls : iterable of Wall or sequence
        The walls, as `walls.Wall` or lists of x0, y0, x1, y1 in metres, dB from 0 on, floor; without a floor a wall is on all.

    Raises
    ------
    ArgumentError
        Where a value is out of its range.
    """

    source: str = "positions"
    preset: str | None = None
    exponent: float | None = None
    reference_db: float = REFERENCE_DB
    deviation_db: float | None = None
    floor_db: float | None = None
    wall_db: float | None = None
    transmit_dbm: float = 0.0
    noise_dbm: float = NOISE_DBM
    correlation: float = 1.0
    bytes: int = LONGEST_PACKET
    least: float = 0.05
    unknown: str = "error"
    unheard: str = "none"
    fit: bool = True
    walls: Iterable[Wall | Sequence[Any]] = ()

    def __post_init__(self) -> None:
        one_of("from", self.source, SOURCES)
        one_of("unknown", self.unknown, UNKNOWNS)
        one_of("unheard", self.unheard, UNHEARD)
        if self.preset:
            preset(self.preset)
        if self.exponent is not None:
            real("exponent", self.exponent, 0.0, 10.0, above=0.0)
        for name, low, high in _RANGES:
            if getattr(self, name) is not None:
                real(name, getattr(self, name), low, high)
        packet_bits(self.bytes)
        # A frozen dataclass sets its own fields so.
        object.__setattr__(self, "walls", walls(self.walls, WALL_DB if self.wall_db is None else self.wall_db))

    @property
    def kind(self) -> Preset | None:
        """The preset, or None where none is named."""
        return preset(self.preset) if self.preset else None

    @property
    def bits(self) -> int:
        """The bits of a packet that have to be received."""
        return packet_bits(self.bytes)

    @property
    def plan(self) -> tuple[Wall, ...]:
        """The walls."""
        return tuple(self.walls)  # type: ignore[arg-type]

    def floors(self) -> tuple[float, float]:
        """The loss through floors.

        Returns
        -------
        tuple of float
            The loss through a first floor and through each further one, in dB.

        Raises
        ------
        ArgumentError
            Where neither `floor_db` nor a preset is given.
        """
        if self.floor_db is not None:
            return self.floor_db, self.floor_db
        if self.kind is None:
            raise ArgumentError(f"nodes are on several floors: `floor_db` is not given, nor a `preset` ({', '.join(PRESETS)})")
        return self.kind.first_floor_db, self.kind.floor_db


_RANGES = (
    ("reference_db", 0.0, 120.0), ("deviation_db", 0.0, 40.0), ("floor_db", 0.0, None), ("wall_db", 0.0, None), ("transmit_dbm", -60.0, 30.0),
    ("noise_dbm", -140.0, 0.0), ("correlation", 0.0, 1.0), ("least", 0.0, 1.0),
)  # fmt: skip
