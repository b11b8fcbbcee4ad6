"""Colours of one picture are told apart by all readers: as they are, with deuteranopia (Machado, Oliveira and Fernandes, 2009),
and in grey. Differences are distances in CIELAB, and in grey of its lightness: some 2.3 are just noticeable side by side."""

from __future__ import annotations

import itertools

import numpy as np
import pytest
from matplotlib import colormaps
from matplotlib.colors import to_rgb

from foldcairn.draw import charts, style

_DEUTERANOPIA = np.array([[0.367322, 0.860646, -0.227968], [0.280085, 0.672501, 0.047413], [-0.011820, 0.042940, 0.968881]])
_TO_XYZ = np.array([[0.4124564, 0.3575761, 0.1804375], [0.2126729, 0.7151522, 0.0721750], [0.0193339, 0.1191920, 0.9503041]])


def linear(colour: str) -> np.ndarray:
    value = np.array(to_rgb(colour))
    return np.where(value <= 0.04045, value / 12.92, ((value + 0.055) / 1.055) ** 2.4)


def lab(light: np.ndarray) -> np.ndarray:
    parts = _TO_XYZ @ light / np.array([0.95047, 1.0, 1.08883])
    x, y, z = np.where(parts > (6 / 29) ** 3, np.cbrt(parts), parts / (3 * (6 / 29) ** 2) + 4 / 29)
    return np.array([116 * y - 16, 500 * (x - y), 200 * (y - z)])


def differences(one: str, other: str) -> tuple[float, float, float]:
    """As they are, with deuteranopia, and in grey."""
    seen = [(lab(linear(colour)), lab(np.clip(_DEUTERANOPIA @ linear(colour), 0, 1))) for colour in (one, other)]
    (a, a_deuteranope), (b, b_deuteranope) = seen
    return float(np.linalg.norm(a - b)), float(np.linalg.norm(a_deuteranope - b_deuteranope)), float(abs(a[0] - b[0]))


def test_the_differences_are_those_of_known_colours() -> None:
    assert differences("#ffffff", "#000000") == pytest.approx((100, 100, 100), abs=0.1)
    # The red and green of a traffic light are two browns of about one lightness to a reader with deuteranopia.
    as_seen, deuteranope, grey = differences("#d9302c", "#3f8a3a")
    assert as_seen > 80 and deuteranope < 30 and grey < 6


@pytest.mark.parametrize(
    ("colours", "least"),
    [
        (style.PURPOSES, (25, 20, 10)),
        (style.RANKS, (25, 20, 10)),
        ((style.TRANSMITS, style.RECEIVES, style.LISTENS), (25, 20, 10)),
        (tuple(colour for _, colour, _ in style.RATIOS), (25, 20, 10)),
        *((tuple(style.hops(most)), (11, 8, 8)) for most in range(1, 9)),
        *((tuple(style.hops(most)), (8, 5, 5)) for most in range(9, 13)),
    ],
)
def test_colours_of_one_picture(colours: tuple[str, ...], least: tuple[float, float, float]) -> None:
    for one, other in itertools.combinations(colours, 2):
        for got, wanted in zip(differences(one, other), least):
            assert got >= wanted, (one, other, differences(one, other))


def test_good_and_bad_are_not_red_and_green() -> None:
    """Ratios go from dark to light for all readers: in the heat map, and of links, which also differ in width."""
    scale = [colormaps[charts.SCALE](part / 10) for part in range(11)]
    lightness = [lab(linear(colour))[0] for colour in scale]
    assert np.all(np.diff(lightness) > 3)
    seen = [lab(np.clip(_DEUTERANOPIA @ linear(colour), 0, 1))[0] for colour in scale]
    assert np.all(np.diff(seen) > 3)
    links = [lab(linear(colour))[0] for _, colour, _ in style.RATIOS]
    assert np.all(np.diff(links) > 8)
    widths = [width for _, _, width in style.RATIOS]
    assert widths == sorted(widths, reverse=True) and len(set(widths)) == len(widths)


def test_letters_can_be_read_on_their_ground() -> None:
    for colour in (*style.hops(12), *(colormaps[charts.SCALE](part / 10) for part in range(11))):
        grey = lab(linear(style.ink_on(colour)))[0]
        assert abs(grey - lab(linear(colour))[0]) > 38, colour
