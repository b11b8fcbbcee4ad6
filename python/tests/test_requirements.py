"""Verdicts on requirements, against values that statsmodels gives and error rates of planted draws."""

import json
import math
from typing import Any

import numpy as np
import pytest
import worked_verdicts
from foldcairn.requirements import judging, limits, looks
from foldcairn.requirements.judging import Rule, Unit
from foldcairn.requirements.limits import Spread

TABLE = json.loads(worked_verdicts.TABLE.read_text())


def _unit(given: dict[str, Any]) -> Unit:
    if "values" in given:
        return Unit(given["name"], given["values"])
    return Unit(given["name"], [came / due if due else None for came, due in zip(given["came"], given["due"])], given.get("packets", given["due"]))


@pytest.mark.parametrize("case", TABLE["cases"], ids=[case["name"] for case in TABLE["cases"]])
def test_case_of_the_table(case: dict[str, Any]) -> None:
    """Each row of the table that the planner's page is held to as well."""
    rule = Rule(case["wanted"], case["share"], case["at_least"], case["part"], case["confidence"], case["most"], case["own_networks"])
    found = judging.judge(rule, [_unit(unit) for unit in case["units"]])
    expected = {name: math.nan if value is None and name == "value" else value for name, value in case["expect"].items()}
    for name, end in (("low", -math.inf), ("high", math.inf)):
        expected[name] = end if expected[name] is None else expected[name]
    for name in ("value", "low", "high"):
        assert getattr(found, name) == pytest.approx(expected[name], rel=1e-9, abs=1e-12, nan_ok=True), name
    assert (found.verdict, found.worst, found.draws, found.packets, found.needs) == tuple(
        expected[name] for name in ("verdict", "worst", "draws", "packets", "needs")
    )


def test_the_table_is_the_worked_one() -> None:
    """The rows that are soon worked out say what the formulas give."""
    for case, told in zip(worked_verdicts.cases(), TABLE["cases"], strict=True):
        assert {**case, "expect": told["expect"]} == told
        if told["expect"]["verdict"] != "not decided":
            assert worked_verdicts.worked(case) == told["expect"]


def test_rule_of_three() -> None:
    """Of 3,000 packets that all came 95 % to one side is 99.9 %: the exact end is 0.05^(1/3000)."""
    low, high = limits.of_share(Spread(3000, 1.0, 0.0, 3000), 0.05)
    assert (low, high) == (pytest.approx(0.05 ** (1 / 3000), rel=1e-12), 1.0)
    assert low == pytest.approx(0.99900, abs=5e-6)


def test_clopper_and_pearson_worked_by_tails() -> None:
    """At the ends of the interval of 18 of 20 the two tails of the binomial distribution are the error."""
    low, high = limits.of_part(18, 20, 0.025)

    def at_least(hits: int, share: float) -> float:
        return sum(math.comb(20, count) * share**count * (1 - share) ** (20 - count) for count in range(hits, 21))

    assert at_least(18, low) == pytest.approx(0.025, rel=1e-9)
    assert 1 - at_least(19, high) == pytest.approx(0.025, rel=1e-9)


def test_clusters_are_worth_less_than_their_packets() -> None:
    """Twenty draws of 100 packets, half of which lose 20: the mean is 0.9, the variance of a draw 0.01 * 20 / 19. So the packets are worth
    0.09 / (0.01 / 19), which is 171, before the quantiles of Student's distribution."""
    values = [1.0, 0.8] * 10
    spread = Spread.of(values, 2000)
    assert spread.variance == pytest.approx(0.01 * 20 / 19)
    worth = 171 * (1.9611 / 2.0930) ** 2  # t of 1,999 and of 19 degrees of freedom at 0.975, from printed tables
    assert limits.of_share(spread, 0.025)[0] == pytest.approx(limits.of_part(0.9 * worth, worth, 0.025)[0], abs=2e-5)


def test_what_no_network_showed() -> None:
    """Of 36 networks of their own that all are good, 10 % of all may be otherwise with an error of 2 * 0.9^36, half of which is for that."""
    low, _ = limits.of_share(Spread(36, 1.0, 0.0, 36 * 100_000), 2 * 0.9**36, own_networks=True)
    assert low == pytest.approx(0.9, abs=1e-4)


@pytest.mark.parametrize("most", [1, 2, 7, 8, 15, 16, 31, 100, 1000, 10_000])
def test_looks_spend_the_error_once(most: int) -> None:
    """All looks together spend the whole error, and the last at least half of it."""
    found = looks.looks(most)
    assert found == sorted(set(found)) and found[-1] == most
    assert sum(looks.spent(draws, most) for draws in found) == pytest.approx(1)
    assert looks.spent(most, most) >= 0.5


def test_looks_of_a_hundred() -> None:
    assert looks.looks(100) == [8, 16, 32, 100]
    assert [looks.spent(draws, 100) for draws in (8, 16, 32, 100)] == pytest.approx([0.08, 0.08, 0.16, 0.68])


def _called(rule: Rule, draw: Any, tries: int, due: int) -> dict[str, int]:
    """How often each verdict comes, where draws are added until one does."""
    found = {judging.MET: 0, judging.NOT_MET: 0, judging.NOT_DECIDED: 0}
    for number in range(tries):
        generator = np.random.default_rng([number, 7])
        values = draw(generator, rule.most)
        for count in looks.looks(rule.most):
            unit = Unit("L-01", values[:count].tolist(), [due] * count)
            if judging.is_decided(rule, [unit]) or count == rule.most:
                found[judging.judge(rule, [unit]).verdict if judging.is_decided(rule, [unit]) else judging.NOT_DECIDED] += 1
                break
    return found


def _coins(share: float, due: int) -> Any:
    return lambda generator, draws: generator.binomial(due, share, draws) / due


def _clusters(share: float, due: int, spread: float) -> Any:
    return lambda generator, draws: generator.binomial(due, generator.beta(share / spread, (1 - share) / spread, draws)) / due


def _rare(share: float) -> Any:
    """Draws in which all packets are in time, or none."""
    return lambda generator, draws: (generator.random(draws) < share).astype(float)


@pytest.mark.parametrize("draw, own", [
    (_coins(0.98, 720), False), (_coins(0.98, 10), False), (_clusters(0.98, 360, 0.02), False), (_clusters(0.98, 360, 0.05), True),
    (_rare(0.98), True),
])  # fmt: skip
@pytest.mark.parametrize("most", [32, 100, 1000])
def test_a_plan_that_misses_by_one_percent_is_never_met(draw: Any, own: bool, most: int) -> None:
    """98 % where 99 % is wanted, 200 times."""
    assert _called(Rule(0.99, most=most, own_networks=own), draw, 200, 720)[judging.MET] == 0


def test_a_plan_on_the_edge_is_seldom_called_either_way() -> None:
    """A share that is just what is wanted: each verdict is wrong then in 2.5 % of all tries at most, and 10 of 200 would be by chance in
    less than 3 of 1,000 then."""
    found = _called(Rule(0.99, most=200), _coins(0.99 - 1e-6, 100), 200, 100)
    assert found[judging.MET] <= 10
    found = _called(Rule(0.99, most=200), _coins(0.99, 100), 200, 100)
    assert found[judging.NOT_MET] <= 10


def test_a_good_plan_is_met() -> None:
    """99.9 % where 99 % is wanted is found, with 720 packets a draw, by the first look that can."""
    found = _called(Rule(0.99, most=100), _coins(0.999, 720), 50, 720)
    assert found[judging.MET] == 50


def test_a_failure_in_which_it_is_met_needs_no_more_draws() -> None:
    """Two failures: 32 draws show that it holds in one, and 64 do not yet in the other, of which the worst is. With one that is bad it is not met,
    however good the others are; the error of that is divided by the streams of all failures."""
    rule = Rule(0.9, most=1000)
    good, fair, bad = Unit("a", [1.0] * 32, [10] * 32), Unit("b", [1.0, 0.8] * 32, [10] * 64), Unit("c", [0.5] * 8, [10] * 8)
    assert judging.verdicts_of(rule, [[good], [fair]]) == ["met", "not decided"]
    found = judging.judge(rule, [good], [fair])
    assert (found.verdict, found.worst, found.draws, found.packets) == ("not decided", "b", 64, 960)
    # The mean is just what is wanted, so no number of draws decides it.
    assert found.needs is None
    alone, among = judging.judge(rule, [bad]), judging.judge(rule, [bad], [good], [fair])
    assert (alone.verdict, among.verdict, among.worst) == ("not met", "not met", "c") and among.high > alone.high and among.low <= alone.low
    part = Rule(0.9, part=0.5, most=32)
    assert judging.judge(part, [good], [Unit("b", [1.0] * 8 + [0.5] * 24)]).value == 0.25


def test_draws_without_number_or_of_different_numbers_are_rejected() -> None:
    for units in ([], [Unit("a", [])], [Unit("a", [1.0]), Unit("b", [1.0, 1.0])]):
        with pytest.raises(ValueError, match="verdicts are of one unit or more"):
            judging.judge(Rule(0.9), units)
