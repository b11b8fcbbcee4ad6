"""A plant of which half was surveyed: do draws have as many good links as it has? Its receivers are not those of the curve."""

from __future__ import annotations

import math

import numpy
import pytest

from foldcairn.propagation import LinkModel, Losses, Row
from foldcairn.propagation.survey import Pair

# 48 nodes in 120 m by 60 m on two floors; the west of it was surveyed, by 500 packets from each node.
COUNT, EAST, PACKETS = 48, 62.0, 500


def plant() -> tuple[list[str], numpy.ndarray, numpy.ndarray, dict[Pair, tuple[float, float]]]:
    """Names, places, floors, and of each link its RSSI in dBm and its ratio. By a receiver that needs -90 dBm for every other packet, as a
    logistic curve, and links of exponent 3 with 14 dB a floor and a deviation of 5 dB."""
    generator = numpy.random.default_rng(2026)
    names, floors = [f"N-{place:02}" for place in range(COUNT)], numpy.arange(COUNT) % 2
    places = generator.uniform([0, 0], [120, 60], (COUNT, 2))
    links = {}
    for one in range(COUNT):
        for other in range(one):
            metres = math.dist((*places[one], 6 * floors[one]), (*places[other], 6 * floors[other]))
            mean = -40 - 30 * math.log10(max(1.0, metres)) - 14 * abs(floors[one] - floors[other]) + generator.normal(0, 5)
            for ends in ((one, other), (other, one)):
                rssi = mean + generator.normal(0, 1)
                links[names[ends[0]], names[ends[1]]] = rssi, 1 / (1 + math.exp(-0.9 * (rssi + 90)))
    return names, places, floors, links


def rows(names: list[str], places: numpy.ndarray, links: dict[Pair, tuple[float, float]], with_rssi: bool) -> list[Row]:
    """The survey: what arrived at all between nodes of the west."""
    generator = numpy.random.default_rng(7)
    west = {name for name, place in zip(names, places) if place[0] < EAST}
    counted = [(pair, rssi, int(generator.binomial(PACKETS, ratio))) for pair, (rssi, ratio) in links.items() if west >= set(pair)]
    return [Row(*pair, sent=PACKETS, received=received, rssi=rssi if with_rssi else None) for pair, rssi, received in counted if received > 10]


@pytest.mark.parametrize("with_rssi", [True, False])
def test_draws_have_as_many_good_links_as_the_plant(with_rssi: bool) -> None:
    names, places, floors, links = plant()
    survey = rows(names, places, links, with_rssi)
    losses = Losses(source="both", preset="factory-heavy-clutter", floor_db=14, bytes=40)
    model = LinkModel(names, places, floors, losses, survey, height=6.0)
    assert model.fitted is not None and 300 < len(survey) < 48 * 47 / 3 < model.left_out() + model.unheard
    if with_rssi:
        assert abs(model.fitted.exponent - 3) < 0.15 and abs(model.fitted.deviation_db - 5.1) < 0.7 and abs(model.noise_dbm + 90) < 1.5
    good = sum(ratio >= 0.5 for _, ratio in links.values())
    drawn = [sum(ratio >= 0.5 for ratio in model.draw(seed).values()) for seed in range(1, 21)]
    assert abs(numpy.mean(drawn) / good - 1) < 0.1
    # With the noise of a receiver that nothing disturbs, and what was heard alone, there are far too many.
    rosy = LinkModel(names, places, floors, Losses(source="positions", preset="factory-heavy-clutter", floor_db=14, bytes=40), height=6.0)
    assert numpy.mean([sum(ratio >= 0.5 for ratio in rosy.draw(seed).values()) for seed in range(1, 21)]) > 1.5 * good
