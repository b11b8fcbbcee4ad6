"""The ratios of a network's links as a distribution: their means, and what each seed draws.

Each link is known in one of three ways: by the path loss between places, whose shadowing is normal in dB; by counts, whose ratio has a beta
distribution; or by a ratio or an RSSI, which is taken as it is. A seed draws a number for each pair of names and for nothing else, so a
node that is added moves no other link. Tested, not proved.
"""

from __future__ import annotations

import functools
from collections.abc import Iterable, Sequence
from typing import Any

import numpy
from numpy.typing import ArrayLike, NDArray

from ..common.arguments import ArgumentError, did_you_mean, real, whole
from . import draws, fit, survey
from .curve import Numbers, expected_ratio, ratio_of_snr
from .pairs import Positions, positions
from .posterior import Posteriors
from .settings import Losses
from .survey import Node, Pair, Sample

# The greatest seed, as of the program's `sample`.
GREATEST_SEED = 9_999_999_999_999
Pieces = list[tuple[float, float]]


class LinkModel:
    """The links between named nodes: their mean ratios, and those that each seed draws.

    Parameters
    ----------
    names : sequence of str or int
        The names of the nodes, which differ.
    places : array_like
        A row of x and y in metres for each node; NaN where the place is not known.
    floors : array_like or None
        The floor of each node, a whole number; None: all 0.
    losses : Losses
        From what the ratios come.
    rows : iterable of Row
        The survey, as `Row` or as rows with the same fields.
    height : float
        How far floors are apart, in metres, above 0.

    Attributes
    ----------
    fitted : fit.Fit or None
        The exponent and deviation that were fitted to the survey; None where none were.
    noise_dbm : float
        The noise in dBm, as given, or where `losses.fit` is set as it fits ratios that were measured together with their RSSI.
    unheard : int
        How many pairs have no row in the survey although both nodes took part in it, and are taken for no link.

    Raises
    ------
    ArgumentError
        Where a name is there twice, a value is out of its range, a row names another node or what it says is not known, or a number of the path
        loss is missing.
    """

    fitted: fit.Fit | None
    noise_dbm: float
    unheard: int

    def __init__(
        self, names: Sequence[Node], places: ArrayLike, floors: ArrayLike | None, losses: Losses, rows: Iterable[Any] = (), height: float = 3.0
    ) -> None:
        self.names = list(names)
        where = _where(self.names, places, floors)
        self.losses = losses
        number = {name: place for place, name in enumerate(self.names)}
        measured, self.noise_dbm = _measured(rows, losses, number)
        self._series = {pair: samples for pair, samples in measured.links.items() if len(samples) > 1}
        self._modelled: Positions = positions(self.names, where, losses, measured, real("height", height, 0.0, above=0.0), self.noise_dbm)
        self.fitted, self.unheard = self._modelled.fitted, self._modelled.unheard
        hashes = numpy.array([draws.name_hash(name) for name in self.names], dtype=numpy.uint64)
        self._ends = hashes[self._modelled.senders], hashes[self._modelled.receivers]
        samples = [(pair, place, one) for pair, those in measured.links.items() for place, one in enumerate(those)]
        self._samples = _Samples(samples, {name: hashes[place] for name, place in number.items()})
        self._pairs = self._modelled.pairs + list(measured.links)

    def mean(self) -> dict[Pair, float]:
        """The mean ratio of each link: over shadowing, and over what counts leave open.

        Returns
        -------
        dict
            By (sender, receiver) the ratio, of the links for which that is at least `least`. Of a series it is the mean of its samples.
        """
        modelled = self._modelled
        return self._kept(expected_ratio(modelled.snr_db, modelled.deviation_db, self.losses.bits), self._samples.means)

    def draw(self, seed: int) -> dict[Pair, float]:
        """The ratios that a seed draws.

        Parameters
        ----------
        seed : int
            The seed, 0 to 9,999,999,999,999.

        Returns
        -------
        dict
            By (sender, receiver) the ratio, of the links for which that is at least `least`. Of a series it is the mean of its samples.

        Raises
        ------
        ArgumentError
            Where the seed is no whole number from 0 to 9,999,999,999,999.
        """
        seed = _seed(seed)
        return self._kept(self._drawn(seed), self._samples.drawn(seed))

    def series(self, seed: int | None = None) -> dict[Pair, Pieces]:
        """The ratios over time of each link that was measured at several times.

        Parameters
        ----------
        seed : int, optional
            The seed that draws them, 0 to 9,999,999,999,999; None: means.

        Returns
        -------
        dict
            By (sender, receiver) a list of pairs: from when on a ratio holds, in seconds of the run, and the ratio. The first holds from 0 s on. Links
            none of whose ratios is at least `least` are left out.

        Raises
        ------
        ArgumentError
            Where the seed is no whole number from 0 to 9,999,999,999,999.
        """
        ratios = self._samples.means if seed is None else self._samples.drawn(_seed(seed))
        found = {pair: self._samples.of(pair, ratios) for pair in self._series}
        return {
            pair: [(one.seconds if place else 0.0, float(ratio)) for place, (one, ratio) in enumerate(zip(self._series[pair], those))]
            for pair, those in found.items()
            if max(those) >= self.losses.least
        }

    def left_out(self, seed: int | None = None) -> int:
        """How many links are left out because their ratio is below `least`.

        Parameters
        ----------
        seed : int, optional
            The seed that draws the ratios, 0 to 9,999,999,999,999; None: by the means.

        Returns
        -------
        int
            The number of these links.

        Raises
        ------
        ArgumentError
            Where the seed is no whole number from 0 to 9,999,999,999,999.
        """
        return len(self._pairs) - len(self.mean() if seed is None else self.draw(seed))

    def _drawn(self, seed: int) -> Numbers:
        """The ratios that a seed draws by the path loss."""
        modelled, (senders, receivers) = self._modelled, self._ends
        shared = draws.normal_of_pair(seed, senders, receivers) * modelled.shared
        shadowing = shared + draws.normal(seed, draws.ONE_WAY, senders, receivers) * modelled.own
        return ratio_of_snr(modelled.snr_db + shadowing, self.losses.bits)

    def _kept(self, modelled: Numbers, measured: Numbers) -> dict[Pair, float]:
        """The links whose ratio is at least `least`, with it."""
        ratios = numpy.concatenate([modelled, self._samples.averages(measured)])
        most = numpy.concatenate([modelled, self._samples.greatest(measured)])
        kept = most >= self.losses.least
        if kept.all():
            return dict(zip(self._pairs, ratios.tolist()))
        return {pair: ratio for pair, ratio, keep in zip(self._pairs, ratios.tolist(), kept.tolist()) if keep}


class _Samples:
    """All that was measured, one number for each sample, those of a link one after another."""

    def __init__(self, samples: list[tuple[Pair, int, Sample]], hashes: dict[Node, numpy.uint64]) -> None:
        self.means: Numbers = numpy.array([one.ratio for _, _, one in samples], dtype=float)
        self._firsts = numpy.array([place for place, (_, number, _) in enumerate(samples) if number == 0], dtype=int)
        self._counts = numpy.diff(self._firsts, append=len(samples))
        self._slices = {samples[first][0]: slice(first, first + count) for first, count in zip(self._firsts, self._counts)}
        counted = [(place, pair, number, one) for place, (pair, number, one) in enumerate(samples) if one.sent is not None]
        self._counted = numpy.array([place for place, _, _, _ in counted], dtype=int)
        self._purposes = numpy.array([draws.MEASURED + number for _, _, number, _ in counted], dtype=numpy.uint64)
        self._senders = numpy.array([hashes[pair[0]] for _, pair, _, _ in counted], dtype=numpy.uint64)
        self._receivers = numpy.array([hashes[pair[1]] for _, pair, _, _ in counted], dtype=numpy.uint64)
        self._received = numpy.array([one.received for _, _, _, one in counted], dtype=float)
        self._sent = numpy.array([one.sent for _, _, _, one in counted], dtype=float)

    @functools.cached_property
    def _posteriors(self) -> Posteriors:
        """The distributions of what was counted, made when a seed draws first."""
        return Posteriors(self._received, self._sent)

    def drawn(self, seed: int) -> Numbers:
        """What a seed draws for each sample."""
        ratios = self.means.copy()
        if len(self._counted):
            ratios[self._counted] = self._posteriors.quantiles(draws.uniform(seed, self._purposes, self._senders, self._receivers))
        return ratios

    def averages(self, ratios: Numbers) -> Numbers:
        """The mean over the samples of each link."""
        found: Numbers = numpy.add.reduceat(ratios, self._firsts) / self._counts if len(ratios) else ratios
        return found

    def greatest(self, ratios: Numbers) -> Numbers:
        """The greatest of the samples of each link."""
        return numpy.maximum.reduceat(ratios, self._firsts) if len(ratios) else ratios

    def of(self, pair: Pair, ratios: Numbers) -> Numbers:
        """The ratios of the samples of one link."""
        return ratios[self._slices[pair]]


def _seed(seed: Any) -> int:
    return whole("seed", seed, 0, GREATEST_SEED)


def _where(names: list[Node], places: ArrayLike, floors: ArrayLike | None) -> NDArray[numpy.float64]:
    """A row for each node: x, y and floor."""
    plane = numpy.asarray(places, dtype=float)
    texts = [str(name) for name in names]
    twice = {name for name in texts if texts.count(name) > 1}
    if twice:
        raise ArgumentError(f"`names` has {', '.join(sorted(twice))} twice; names have to differ")
    if plane.shape != (len(names), 2):
        raise ArgumentError(f"`places` has the shape {plane.shape}, and has to have a row of x and y for each of the {len(names)} nodes")
    storeys = numpy.zeros(len(names)) if floors is None else numpy.asarray(floors, dtype=float)
    if storeys.shape != (len(names),) or not (storeys == numpy.rint(storeys)).all():
        raise ArgumentError(f"`floors` has to be a whole number for each of the {len(names)} nodes")
    return numpy.column_stack([plane, storeys])


def _measured(rows: Iterable[Any], losses: Losses, names: dict[Node, int]) -> tuple[survey.Survey, float]:
    """What a survey says, as far as `losses` takes it, and the noise in dBm."""
    given = list(rows)
    for number, row in enumerate(given, 1):
        for name in (row.sender, row.receiver):
            if name not in names:
                raise ArgumentError(f"{survey.place(row, number)}: there is no node {name}{did_you_mean(name, map(str, names))}")
    if losses.source == "positions":
        return survey.Survey({}, {}), losses.noise_dbm
    if losses.source == "none":
        pairs = [(row.sender, row.receiver) for row in given] + [(row.receiver, row.sender) for row in given if row.both]
        return survey.Survey({pair: (Sample(0.0, 1.0),) for pair in pairs}, {}), losses.noise_dbm
    found = survey.read(given, losses.noise_dbm, losses.bits)
    both = [one for samples in found.links.values() for one in samples if one.rssi is not None and one.is_counted]
    noise = fit.noise([one.rssi for one in both if one.rssi is not None], [one.ratio for one in both], losses.bits) if losses.fit else None
    if noise is not None:
        found = survey.read(given, noise, losses.bits)
    if found.unknown and losses.unknown == "error":
        pair, where = next(iter(found.unknown.items()))
        raise ArgumentError(
            f"{where}, {pair[0]} to {pair[1]}: nothing is given that was measured; write a ratio, `sent` and `received`, or an RSSI, take the row out, or "
            'set unknown = "positions" or "none"'
        )
    return found, losses.noise_dbm if noise is None else noise
