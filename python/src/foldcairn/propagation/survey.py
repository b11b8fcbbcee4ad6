"""What was measured of links: ratios, counts, RSSI, and series of them over time.

A row gives one of these, the first that it has: `sent` with `received` (or with `ratio`), `ratio` alone, or `rssi` in dBm. Counts are of one
experiment, so 20 probes say less than 2,000: with Jeffreys' prior the ratio has the distribution Beta(received + 1/2, sent - received +
1/2). Source: L. D. Brown, T. T. Cai and A. DasGupta, Interval estimation for a binomial proportion, Statistical Science 16 (2), 2001.
Tested, not proved.
"""

from __future__ import annotations

from collections.abc import Iterable
from dataclasses import dataclass
from datetime import datetime
from typing import Any, NamedTuple

from scipy import special

from ..common.arguments import ArgumentError, real, whole
from .curve import ratio_of_snr

Node = str | int
Pair = tuple[Node, Node]

# How tables write that a value is not known, in lower case.
UNKNOWN = ("", "-", "–", "—", "?", "n/a", "na", "nan", "none", "null", "unknown")

# What a receiver may tell, in dBm: 85 for -85 would be a link without losses.
_RSSI = (-150.0, 30.0)


@dataclass(frozen=True)
class Row:
    """A row of a survey: what a node received of another.

    A cell may be a text of a table; one that is blank, `n/a` or a dash is not known. Cells are checked where they are read, by `LinkModel`.

    Parameters
    ----------
    sender : str or int
        The name of the node that sent.
    receiver : str or int
        The name of the node that received.
    ratio : float or str, optional
        The reception ratio, 0 to 1.
    sent : int or str, optional
        How many packets were sent, from 0 on.
    received : int or str, optional
        How many of them were received, 0 to `sent`, which has to be given too.
    rssi : float or str, optional
        The RSSI in dBm, -150 to 30.
    at : float, str or datetime.datetime, optional
        From when on the row holds: seconds of the run, or a time stamp as 2026-01-31 14:05:00 or of `datetime`.
    both : bool
        Whether the row holds for both directions.
    where : str
        Where the row is from, for errors.
    """

    sender: Node
    receiver: Node
    ratio: Any = None
    sent: Any = None
    received: Any = None
    rssi: Any = None
    at: Any = None
    both: bool = False
    where: str = ""


class Sample(NamedTuple):
    """What was measured of a link from `seconds` of the run on: its mean ratio, and where they are known the counts and the RSSI in dBm. A
    ratio that comes from the RSSI was not counted."""

    seconds: float
    ratio: float
    received: int | None = None
    sent: int | None = None
    rssi: float | None = None
    is_counted: bool = True


class Posterior(NamedTuple):
    """The mean of a ratio of which packets were counted, and the interval that it lies in with the given confidence."""

    mean: float
    low: float
    high: float


def beta(received: Any, sent: Any, confidence: float = 0.95) -> Posterior:
    """What is known of the ratio of a link, by Jeffreys, when `received` of `sent` packets arrived.

    Raises `ArgumentError` where these are no whole numbers from 0 on, more were received than sent, or `confidence` is not above 0 and
    below 1.
    """
    total = whole("sent", sent, 0)
    arrived = whole("received", received, 0, total)
    outside = (1 - real("confidence", confidence, 0.0, 1.0)) / 2
    low, high = special.betaincinv(arrived + 0.5, total - arrived + 0.5, [outside, 1 - outside])
    return Posterior((arrived + 0.5) / (total + 1), float(low), float(high))


def known(name: str, cell: Any) -> float | None:
    """The number of a cell, or None where it is not known: it is blank, `n/a`, a dash or not a number (NaN).

    Raises `ArgumentError` where it is something else that is no number.
    """
    if isinstance(cell, str):
        if cell.strip().lower() in UNKNOWN:
            return None
        try:
            cell = float(cell)
        except ValueError:
            raise ArgumentError(f"`{name}` is {cell!r}, and has to be a number, or blank, n/a or a dash where it is not known") from None
    if cell is None or type(cell).__name__ in ("NAType", "NaTType") or cell != cell:
        return None
    return real(name, cell)


def sample(row: Row, seconds: float, noise_dbm: float, bits: int) -> Sample | None:
    """What a row measured, or None where it is not known. Of an RSSI the ratio is that of packets of `bits` bits, by the curve.

    Raises `ArgumentError` where a cell is out of its range: a ratio from 0 to 1, counts from 0 on, `received` at most `sent`, an RSSI from
    -150 to 30 dBm.
    """
    ratio, sent, received, rssi = (known(name, getattr(row, name)) for name in ("ratio", "sent", "received", "rssi"))
    if ratio is not None:
        real("ratio", ratio, 0.0, 1.0)
    if rssi is not None:
        real("rssi", rssi, *_RSSI)
    if received is not None and sent is None:
        raise ArgumentError(f"`received` is {received:g}, and `sent` is not given: write how many packets were sent")
    if sent is not None and (received is not None or ratio is not None):
        total = whole("sent", sent, 0)
        arrived = whole("received", received, 0, total) if received is not None else round((ratio or 0.0) * total)
        if total:
            return Sample(seconds, beta(arrived, total).mean, arrived, total, rssi)
    elif ratio is not None:
        return Sample(seconds, ratio, rssi=rssi)
    if rssi is not None:
        return Sample(seconds, float(ratio_of_snr(rssi - noise_dbm, bits)), rssi=rssi, is_counted=False)
    return None


def place(row: Row, number: int) -> str:
    """Where a row is, for errors; `number` is its place in the list, from 1 on."""
    return row.where or f"row {number} of the survey"


class Survey(NamedTuple):
    """What was measured of each link, in the order of time, and the links of which there are rows and nothing is known."""

    links: dict[Pair, tuple[Sample, ...]]
    unknown: dict[Pair, str]


def read(rows: Iterable[Row], noise_dbm: float, bits: int) -> Survey:
    """What rows measured. Rows of one link at different times are a series; counts of one link at one time are added up.

    Raises `ArgumentError`, with the place of the row, where a cell is wrong, or two rows of a link have no different times and disagree.
    """
    given = list(rows)
    places = [place(row, number) for number, row in enumerate(given, 1)]
    found: dict[Pair, dict[float | None, Sample]] = {}
    unknown: dict[Pair, str] = {}
    for row, where, seconds in zip(given, places, _seconds(given, places)):
        try:
            one = sample(row, seconds or 0.0, noise_dbm, bits)
            for pair in [(row.sender, row.receiver), (row.receiver, row.sender)][: 1 + bool(row.both)]:
                if one is None:
                    unknown.setdefault(pair, where)
                else:
                    _add(found.setdefault(pair, {}), pair, seconds, one)
        except ArgumentError as error:
            raise ArgumentError(f"{where}, {row.sender} to {row.receiver}: {error}") from error
    links = {pair: tuple(samples[time] for time in sorted(samples, key=lambda time: time or 0.0)) for pair, samples in found.items()}
    return Survey(links, {pair: where for pair, where in unknown.items() if pair not in links})


def _add(samples: dict[float | None, Sample], pair: Pair, seconds: float | None, one: Sample) -> None:
    """Adds a sample to those of its link."""
    if pair[0] == pair[1]:
        raise ArgumentError("a node has no link to itself")
    if samples and (seconds is None) != (None in samples):
        raise ArgumentError("this row has a time and others of the link have none, or conversely; give all of them times, or none")
    earlier = samples.get(seconds)
    if earlier is None or (earlier == one and one.sent is None):
        samples[seconds] = one
        return
    if one.sent is None or one.received is None or earlier.sent is None or earlier.received is None:
        raise ArgumentError(
            f"the link has the ratio {one.ratio:.4g} here and {earlier.ratio:.4g} in another row, at the same time; write one row with their mean, "
            "`sent` and `received` of each, or a time for each (`at`), which makes them a series"
        )
    sent, received = earlier.sent + one.sent, earlier.received + one.received
    samples[seconds] = Sample(one.seconds, beta(received, sent).mean, received, sent, one.rssi if earlier.rssi is None else earlier.rssi)


def _seconds(rows: list[Row], places: list[str]) -> list[float | None]:
    """The time of each row in seconds of the run, or None where it has none. The first of all time stamps is the start of the run."""
    times = [_time(row.at, where) for row, where in zip(rows, places)]
    stamps = [time for time in times if isinstance(time, datetime)]
    if not stamps:
        return [time for time in times if not isinstance(time, datetime)]
    for time, where in zip(times, places):
        if isinstance(time, float):
            raise ArgumentError(f"{where}: `at` is {time:g}, and other rows have time stamps; write all times alike")
    try:
        start = min(stamps)
    except TypeError:
        raise ArgumentError("some time stamps (`at`) have a time zone and others have none; write all alike") from None
    return [(time - start).total_seconds() if isinstance(time, datetime) else None for time in times]


def _time(at: Any, where: str) -> float | datetime | None:
    """A time as seconds or as a time stamp; None where there is none."""
    if isinstance(at, datetime):
        return at
    if isinstance(at, str):
        if at.strip().lower() in UNKNOWN:
            return None
        try:
            return float(at)
        except ValueError:
            pass
        try:
            return datetime.fromisoformat(at.strip())
        except ValueError:
            raise ArgumentError(f"{where}: `at` is {at!r}, and has to be seconds or a time stamp as 2026-01-31 14:05:00") from None
    try:
        number = known("at", at)
        return None if number is None else real("at", number, 0.0)
    except ArgumentError as error:
        raise ArgumentError(f"{where}: {error}") from None
