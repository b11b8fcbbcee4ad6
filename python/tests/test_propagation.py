"""The parts of the propagation model against the table of cases, and what holds for all values."""

from __future__ import annotations

from typing import Any

import numpy
import pytest
from propagation_cases import TABLE, cases, near

from foldcairn.common.arguments import ArgumentError
from foldcairn.propagation import PRESETS, Losses, curve, draws, fit, path_loss, presets, walls

# The curve.


@pytest.mark.parametrize("section", ["curve_of_ns3", "curve"])
def test_curve(section: str) -> None:
    for snr_db, bits, ratio in cases(section):
        assert float(curve.ratio_of_snr(snr_db, bits)) == near(section, ratio)


def test_bit_errors() -> None:
    for snr_db, errors in cases("bit_errors"):
        assert float(curve.bit_error_ratio(snr_db)) == near("bit_errors", errors)
    assert curve.bit_error_ratio([-numpy.inf, numpy.inf]).tolist() == [0.5, 0.0]


def test_the_signal_of_a_ratio() -> None:
    found = [(snr_db, bits, ratio) for snr_db, bits, ratio in cases("curve_of_ns3") + cases("curve") if 0.01 < ratio < 0.99]
    assert len(found) > 20
    for snr_db, bits, ratio in found:
        assert float(curve.snr_of_ratio(ratio, bits)) == pytest.approx(snr_db, abs=1e-4)


def test_packet_bits() -> None:
    assert [curve.packet_bits(length) for length, _ in cases("packet_bits")] == [bits for _, bits in cases("packet_bits")]


@pytest.mark.parametrize("length", [0, 126, 1.5, "40", None])
def test_lengths_that_no_packet_has(length: Any) -> None:
    with pytest.raises(ArgumentError, match="`bytes` is .*, and has to be a whole number from 1 to 125"):
        curve.packet_bits(length)


def test_more_signal_and_fewer_bits_never_lose_more() -> None:
    signals = numpy.arange(-30, 30, 0.01)
    for bits in (72, 384, 1064):
        assert (numpy.diff(curve.ratio_of_snr(signals, bits)) >= 0).all()
        assert (curve.ratio_of_snr(signals, bits) >= curve.ratio_of_snr(signals, bits + 8)).all()


def test_expected_ratio() -> None:
    for snr_db, deviation_db, bits, ratio in cases("expected_ratio"):
        assert float(curve.expected_ratio(snr_db, deviation_db, bits)) == near("expected_ratio", ratio)


def test_expected_ratio_without_deviation_is_the_curve() -> None:
    signals = numpy.arange(-10, 10, 0.5)
    assert curve.expected_ratio(signals, 0.0, 384) == pytest.approx(curve.ratio_of_snr(signals, 384), abs=1e-12)


# Path loss.


def test_received_power() -> None:
    for metres, exponent, reference, transmit, through_walls, through_floors, dbm in cases("received_dbm"):
        found = path_loss.received_dbm(metres, exponent, reference, transmit, through_walls, through_floors)
        assert float(found) == near("received_dbm", dbm)


def test_links_by_distance() -> None:
    for metres, exponent, noise, length, snr_db, ratio in cases("link"):
        snr = float(path_loss.received_dbm(metres, exponent)) - noise
        assert snr == near("link", snr_db)
        assert float(curve.ratio_of_snr(snr, curve.packet_bits(length))) == near("link", ratio)


def test_the_loss_over_the_first_metre_is_that_of_free_space() -> None:
    assert presets.REFERENCE_DB == TABLE["free_space_db"]["rounded"] == pytest.approx(TABLE["free_space_db"]["value"], abs=0.05)


def test_distances() -> None:
    for one, other, height, metres in cases("metres"):
        assert float(path_loss.metres(one, other, height)) == float(path_loss.metres(other, one, height)) == near("metres", metres)


def test_floors() -> None:
    for kind, count, decibels in cases("floors_db"):
        losses = Losses(preset=kind) if isinstance(kind, str) else Losses(exponent=3, floor_db=kind)
        assert float(path_loss.floors_db(count, *losses.floors())) == near("floors_db", decibels)


def test_walls() -> None:
    for one, other, plan, decibels in cases("walls"):
        ends = numpy.array([one, other], dtype=float)
        found = walls.loss_db(ends[:1], ends[1:], walls.walls(plan, presets.WALL_DB))
        assert found.tolist() == [near("walls", decibels)]
        assert walls.loss_db(ends[1:], ends[:1], walls.walls(plan, presets.WALL_DB)).tolist() == found.tolist()


def test_walls_on_decimal_places_are_crossed_or_not_alike() -> None:
    # Along a wall, in 0.1 m steps of which binary numbers have none: it is never crossed. Across it, it always is.
    steps = numpy.arange(1, 60) / 10
    along = numpy.column_stack([steps, steps * 3, steps * 0])
    wall = walls.walls([[0, 0, 0.7 * 9, 2.1 * 9, 5]], presets.WALL_DB)
    assert not walls.loss_db(along, along[::-1].copy(), wall).any()
    left, right = along + [-0.1, 0.1, 0], along + [0.1, -0.1, 0]
    assert (walls.loss_db(left, right, wall) == 5).all()


def test_walls_without_decibels() -> None:
    assert walls.walls([[0, 0, 1, 1], walls.Wall(0, 0, 2, 2, 3, 1)], 4.5) == (walls.Wall(0, 0, 1, 1, 4.5), walls.Wall(0, 0, 2, 2, 3, 1))
    assert Losses(preset="office", walls=[[0, 0, 1, 1]]).plan[0].db == 6.9


@pytest.mark.parametrize(
    ("wall", "says"),
    [
        ([0, 0, 1], r"`walls\[2\]` is \[0, 0, 1\], and has to be a list of x0, y0, x1, y1"),
        (7, r"`walls\[2\]` is 7, and has to be a list"),
        ("0011", r"`walls\[2\]` is '0011', and has to be a list"),
        ([0, 0, 1, "b"], r"`walls\[2\] y1` is 'b', and has to be a number"),
        ([0, 0, 1, 1, -3], r"`walls\[2\] dB` is -3, and has to be a number of at least 0"),
        ([0, 0, 1, 1, 3, 0.5], r"`walls\[2\] floor` is 0.5, and has to be a whole number"),
    ],
)
def test_walls_that_are_none(wall: Any, says: str) -> None:
    with pytest.raises(ArgumentError, match=says):
        Losses(preset="office", walls=[[0, 0, 1, 1], wall])


# Presets.


def test_presets() -> None:
    assert list(PRESETS) == [name for name, *_ in cases("presets")]
    for name, *numbers in cases("presets"):
        one = PRESETS[name]
        assert [one.exponent, one.deviation_db, one.first_floor_db, one.floor_db] == near("presets", numbers)
        assert one.source


def test_the_preset_of_open_ground_is_its_derivation() -> None:
    # Plane ground, 40 log10 d - 20 log10(1 x 1): at 270 m 97.3 dB, where 0 dBm is 0.7 dB above -98 dBm.
    exponent = (40 * numpy.log10(270) - 40.2) / (10 * numpy.log10(270))
    assert PRESETS["open-ground"].exponent == pytest.approx(exponent, abs=0.1)


def test_a_preset_that_is_none() -> None:
    with pytest.raises(ArgumentError, match="`preset` is 'ofice', and not one of office, .*; did you mean office?"):
        Losses(preset="ofice")


# What seeds draw.


def test_mix_and_hash() -> None:
    words = numpy.array([int(state) for state, _ in cases("mix")], dtype=numpy.uint64)
    assert draws.mix(words).tolist() == [int(output) for _, output in cases("mix")]
    assert [draws.name_hash(name) for name, _ in cases("name_hash")] == [int(number) for _, number in cases("name_hash")]


def test_draws() -> None:
    for seed, one, other, both, one_way, measured in cases("draws"):
        first, last = (numpy.array([draws.name_hash(name)], dtype=numpy.uint64) for name in (one, other))
        assert draws.normal_of_pair(seed, first, last)[0] == near("draws", both)
        assert draws.normal(seed, draws.ONE_WAY, first, last)[0] == near("draws", one_way)
        assert draws.uniform(seed, draws.MEASURED, first, last)[0] == near("draws", measured)


def test_draws_are_as_independent_normals() -> None:
    hashes = numpy.array([draws.name_hash(f"N-{number:02}") for number in range(40)], dtype=numpy.uint64)
    one, other = (hashes[ends] for ends in numpy.triu_indices(40, 1))
    drawn = numpy.array([draws.normal_of_pair(seed, one, other) for seed in range(1, 301)])
    count = drawn.size
    # Within five standard errors, as the moments of so many independent normals are.
    assert abs(drawn.mean()) < 5 / count**0.5
    assert abs(drawn.var() - 1) < 5 * (2 / count) ** 0.5
    assert abs((drawn**4).mean() - 3) < 5 * (96 / count) ** 0.5
    assert abs((drawn[1:] * drawn[:-1]).mean()) < 5 / count**0.5
    assert abs((drawn[:, 1:] * drawn[:, :-1]).mean()) < 5 / count**0.5


# Fits.


def test_a_fit_of_exact_losses() -> None:
    metres = numpy.linspace(5, 60, 12)
    found = fit.exponent(metres, 10 * 2.7 * numpy.log10(metres))
    assert found.exponent == pytest.approx(2.7) and found.deviation_db == pytest.approx(0, abs=1e-9) and found.links == 12


def test_fits() -> None:
    for metres, losses, slope, error, deviation in cases("fits"):
        assert fit.exponent(metres, losses) == near("fits", (slope, error, deviation, len(metres), 0))


def test_a_fit_by_hand() -> None:
    # At 10 m and 100 m the slope is (10 a + 20 b) / 500, of losses 32 and 58 six times each: 1480 / 500 = 2.96; 2.4 and -1.2 dB are
    # left over, so the squares are 6 (5.76 + 1.44) = 43.2, and the variance 43.2 / 11.
    found = fit.exponent([10, 100] * 6, [32, 58] * 6)
    assert found == pytest.approx((2.96, (43.2 / 11 / 3000) ** 0.5, (43.2 / 11) ** 0.5, 12, 0))
    kept = fit.exponent([10, 100] * 6, [32, 58] * 6, fixed=3.0)
    assert kept == pytest.approx((3.0, 0.0, (6 * (4 + 4) / 12) ** 0.5, 12, 0))


def test_a_fit_finds_what_was_drawn() -> None:
    generator = numpy.random.default_rng(11)
    metres = generator.uniform(3, 80, 600)
    found = fit.exponent(metres, 10 * 2.4 * numpy.log10(metres) + generator.normal(0, 6, 600))
    assert abs(found.exponent - 2.4) < 4 * found.error and 0.01 < found.error < 0.03
    assert abs(found.deviation_db - 6) < 4 * 6 / (2 * 600) ** 0.5


def test_a_fit_knows_of_links_that_were_not_heard() -> None:
    generator = numpy.random.default_rng(12)
    metres = generator.uniform(3, 80, 800)
    losses = 10 * 3.0 * numpy.log10(metres) + generator.normal(0, 6, 800)
    heard = losses < 48
    low, high = numpy.minimum(losses, 48), numpy.where(heard, losses, numpy.inf)
    lucky, found = fit.exponent(metres[heard], losses[heard]), fit.exponent(metres, low, most_db=high)
    assert lucky.exponent < 2.85 and lucky.deviation_db < 5.7
    assert abs(found.exponent - 3.0) < 4 * found.error and abs(found.deviation_db - 6) < 0.8 and found.bounds == (~heard).sum() > 200
    assert abs(fit.exponent(metres, low, 3.0, high).deviation_db - 6) < 0.8 and fit.exponent(metres, low, 3.0, high).exponent == 3.0


def test_a_fit_of_bounds_on_both_sides() -> None:
    # As of ratios without RSSI: a loss is known within a few dB, and else only whether it is more or less.
    generator = numpy.random.default_rng(14)
    metres = generator.uniform(3, 80, 1500)
    losses = 10 * 2.5 * numpy.log10(metres) + generator.normal(0, 5, 1500)
    more, less = losses > 41, losses < 38
    low = numpy.select([more, less], [41, -numpy.inf], losses)
    found = fit.exponent(metres, low, most_db=numpy.select([more, less], [numpy.inf, 38], losses))
    assert abs(found.exponent - 2.5) < 0.06 and abs(found.deviation_db - 5) < 0.6 and found.links == 1500 - found.bounds < 500


def test_bounds_that_are_sure_change_no_fit() -> None:
    # At 1 km a loss of more than 1 dB is sure, so the likelihood is that of the known ones: their mean square, not divided by one less.
    low, high = [32, 58] * 6 + [1] * 5, [32, 58] * 6 + [numpy.inf] * 5
    found = fit.exponent([10, 100] * 6 + [1000] * 5, low, most_db=high)
    assert found.exponent == pytest.approx(2.96, abs=1e-4) and found.deviation_db == pytest.approx((43.2 / 12) ** 0.5, rel=1e-4)


def test_the_noise_of_ratios_with_their_rssi() -> None:
    power = numpy.arange(-100, -80, 0.5)
    ratios = curve.ratio_of_snr(power + 91.25, 384)
    assert fit.noise(power, ratios, 384) == pytest.approx(-91.25, abs=0.02)
    # Some packets count for less of the noise than for its 4 dB of steep curve: of 50 each the error stays below 0.2 dB.
    counted = numpy.random.default_rng(13).binomial(50, ratios) / 50
    assert fit.noise(power, counted, 384) == pytest.approx(-91.25, abs=0.2)
    # All received, or too few: nothing says how much noise there is.
    assert fit.noise(power, numpy.ones(len(power)), 384) is fit.noise(power[:9], ratios[:9], 384) is None


@pytest.mark.parametrize(
    ("metres", "losses", "says"),
    [
        ([10.0] * 9, [30.0] * 9, "has 9 links, 9 of them with a known loss, and a fit takes at least 10, 5 of them with one"),
        ([0.5] * 10, [0.0] * 10, "has no link that is longer than 1 m"),
        ([10.0] * 10, [30.0] * 9, "there are 10 distances, and 9 losses up to 9"),
        ([10.0] * 10, [numpy.nan] * 10, "each link has a finite distance and a loss"),
    ],
)
def test_fits_of_too_little(metres: Any, losses: Any, says: str) -> None:
    with pytest.raises(ArgumentError, match=says):
        fit.exponent(metres, losses)


# Settings.


@pytest.mark.parametrize(
    ("settings", "says"),
    [
        ({"source": "surveys"}, "`from` is 'surveys', and not one of survey, positions, both, none; did you mean survey?"),
        ({"unknown": "1"}, "`unknown` is '1', and not one of error, positions, none"),
        ({"unheard": "no"}, "`unheard` is 'no', and not one of none, positions"),
        ({"exponent": 0}, "`exponent` is 0, and has to be a number from 0.0 to 10.0 above 0"),
        ({"exponent": 30}, "`exponent` is 30, and has to be a number from 0.0 to 10.0"),
        ({"deviation_db": -1}, "`deviation_db` is -1, and has to be a number from 0.0 to 40.0"),
        ({"correlation": 1.2}, "`correlation` is 1.2, and has to be a number from 0.0 to 1.0"),
        ({"noise_dbm": 98}, "`noise_dbm` is 98, and has to be a number from -140.0 to 0.0"),
        ({"transmit_dbm": "0"}, "`transmit_dbm` is '0', and has to be a number from -60.0 to 30.0; write 0 without quotes"),
        ({"least": 5}, "`least` is 5, and has to be a number from 0.0 to 1.0"),
        ({"bytes": 126}, "`bytes` is 126, and has to be a whole number from 1 to 125"),
        ({"floor_db": float("nan")}, "`floor_db` is nan, and has to be a number of at least 0"),
    ],
)
def test_settings_out_of_range(settings: dict[str, Any], says: str) -> None:
    with pytest.raises(ArgumentError) as raised:
        Losses(**settings)
    assert str(raised.value).startswith(says)
