"""Verdicts worked out anew from the formulas of docs/REQUIREMENTS.md, by the intervals of statsmodels and the quantiles of `scipy.stats`: slow,
without any code of the package. It makes the table of cases that the package and the planner's page are both held to.

`python3 worked_verdicts.py` writes `cases/verdicts.json`.
"""

from __future__ import annotations

import json
import math
from pathlib import Path
from typing import Any

import numpy as np
from scipy import stats
from statsmodels.stats.proportion import proportion_confint

TABLE = Path(__file__).parent / "cases" / "verdicts.json"


def _error(draws: int, most: int, confidence: float) -> float:
    """The error of one end in the look after so many draws."""
    looked, look = [], 8
    while look <= most / 2:
        looked.append(look)
        look *= 2
    before = max([look for look in [*looked, most] if look < draws], default=0)
    return (1 - confidence) / 2 * (draws - before) / most


def _pearson(share: float, count: float, error: float) -> tuple[float, float]:
    low, high = proportion_confint(share * count, count, alpha=2 * error, method="beta")
    return (0.0 if share == 0 else float(low)), (1.0 if share == 1 else float(high))


def _share(values: Any, packets: float, times: float, error: float, own: bool) -> tuple[float, float]:
    values = np.array(values, dtype=float)
    draws, share = len(values) * times, values.mean()
    if draws < 2:
        return 0.0, 1.0
    total = packets * times
    if own:
        low, high = _grubb(values, share, draws, total, error / 2)
        return low * (error / 2) ** (1 / draws), 1 - (1 - high) * (error / 2) ** (1 / draws)
    return _grubb(values, share, draws, total, error)


def _grubb(values: Any, share: float, draws: float, total: float, error: float) -> tuple[float, float]:
    variance = values.var(ddof=1) / draws if len(values) > 1 else 0.0
    binomial = share * (1 - share) / total
    worth = total / max(1.0, variance / binomial) if binomial > 0 else total
    if total > draws:
        worth *= (stats.t.ppf(1 - error, total - 1) / stats.t.ppf(1 - error, draws - 1)) ** 2
    return _pearson(share, worth, error)


def _mean(values: Any, times: float, error: float) -> tuple[float, float]:
    values = np.array(values, dtype=float)
    draws = len(values) * times
    if draws < 2:
        return 0.0, math.inf
    half = stats.t.ppf(1 - error, draws - 1) * math.sqrt((values.var(ddof=1) if len(values) > 1 else 0.0) / draws)
    return max(0.0, float(values.mean() - half)), float(values.mean() + half)


def _values(unit: dict[str, Any]) -> tuple[list[float | None], int]:
    """The values of the draws, and the number of packets."""
    if "values" in unit:
        return list(unit["values"]), 0
    shares = [came / due if due else None for came, due in zip(unit["came"], unit["due"])]
    return shares, sum(unit.get("packets", unit["due"]))


def _ends(case: dict[str, Any], draws: int, count: int, error: float) -> tuple[float, float]:
    """The interval, if `count` draws are as those that there are."""
    holds, units = _held(case), [_values(unit) for unit in case["units"]]
    if case["part"] is not None:
        return _pearson(holds / draws, count, error)
    if any(not [value for value in values if value is not None] for values, _ in units):
        return 0.0, 1.0 if case["share"] else math.inf
    found = []
    for level in (error, error / len(units)):
        ends = []
        for values, packets in units:
            known = [value for value in values if value is not None]
            ends.append(_share(known, packets, count / draws, level, case["own_networks"]) if case["share"] else _mean(known, count / draws, level))
        found.append(ends)
    if case["at_least"]:
        return min(low for low, _ in found[0]), min(high for _, high in found[1])
    return max(low for low, _ in found[1]), max(high for _, high in found[0])


def _good(case: dict[str, Any], value: float | None) -> bool:
    if value is None:
        return True
    return value >= case["wanted"] - 1e-12 if case["at_least"] else value <= case["wanted"] + 1e-12


def _held(case: dict[str, Any]) -> int:
    rows = zip(*(_values(unit)[0] for unit in case["units"]))
    return sum(all(_good(case, value) for value in row) for row in rows)


def _verdict(case: dict[str, Any], count: int, ends: tuple[float, float]) -> str:
    bound = case["wanted"] if case["part"] is None else case["part"]
    upwards = case["at_least"] or case["part"] is not None
    if (ends[0] >= bound if upwards else ends[1] <= bound) and (case["part"] is not None or count >= 30):
        return "met"
    return "not met" if (ends[1] < bound if upwards else ends[0] > bound) else "not decided"


def _worst(case: dict[str, Any]) -> tuple[str, float | None]:
    units = [(unit["name"], [value for value in _values(unit)[0] if value is not None]) for unit in case["units"]]
    sign = 1 if case["at_least"] else -1
    if case["part"] is not None:
        order = [(-sum(not _good(case, value) for value in known), sign * float(np.mean(known)), place, name) for place, (name, known) in enumerate(units)]
        return min(order)[-1], _held(case) / len(_values(case["units"][0])[0])
    for name, known in units:
        if not known:
            return name, None
    name, known = min(units, key=lambda unit: sign * float(np.mean(unit[1])))
    return name, float(np.mean(known))


def worked(case: dict[str, Any], most_needed: int = 100_000) -> dict[str, Any]:
    """What is expected of a case."""
    draws = len(_values(case["units"][0])[0])
    ends = _ends(case, draws, draws, _error(draws, case["most"], case["confidence"]))
    verdict, (name, value) = _verdict(case, draws, ends), _worst(case)
    needs: int | None = draws
    if verdict == "not decided":
        error = (1 - case["confidence"]) / 2 / 2
        tried = (count for count in range(draws + 1, most_needed) if _verdict(case, count, _ends(case, draws, count, error)) != "not decided")
        needs = next(tried, None)
    low, high = (None if math.isinf(end) else end for end in ends)
    packets = sum(_values(unit)[1] for unit in case["units"])
    return {"verdict": verdict, "value": value, "low": low, "high": high, "worst": name, "draws": draws, "packets": packets, "needs": needs}


def _case(name: str, wanted: float, units: Any, **given: Any) -> dict[str, Any]:
    usual = {"share": True, "at_least": True, "part": None, "confidence": 0.95, "most": 100, "own_networks": False}
    return {"name": name, "wanted": wanted, **usual, **given, "units": units}


def _unit(name: str, came: Any, due: Any, packets: Any = None) -> dict[str, Any]:
    more = {} if packets is None else {"packets": list(packets)}
    return {"name": name, "came": list(came), "due": list(due), **more}


def _planted(seed: int, draws: int, due: int, share: float, spread: float = 0.0) -> Any:
    """Numbers that came, of `due` in each draw: by a coin for each packet, or with a share of each draw's own."""
    generator = np.random.default_rng(seed)
    shares = generator.beta(share / spread, (1 - share) / spread, draws) if spread else share
    return generator.binomial(due, shares, draws).tolist()


def cases() -> list[dict[str, Any]]:
    """The cases, without what is expected of them."""
    return [
        _case("ten alarms a draw, all of 100 draws in time: 99.9 % is not decided", 0.999, [_unit("AL-01", [10] * 100, [10] * 100)]),
        _case("ten alarms a draw, 400 draws in time", 0.999, [_unit("AL-01", [10] * 400, [10] * 400)], most=400),
        _case("one draw says nothing", 0.9, [_unit("L-01", [720], [720])], most=1),
        _case("ten of ten, once more", 0.5, [_unit("L-01", [5, 5], [5, 5])], most=2),
        _case("720 packets a draw, all in time, the first look", 0.99, [_unit("L-01", [720] * 8, [720] * 8)]),
        _case("720 packets a draw, all in time, the third look of 200", 0.99, [_unit("L-01", [720] * 32, [720] * 32)], most=200),
        _case("none of 8 draws in time", 0.99, [_unit("L-01", [0] * 8, [720] * 8)]),
        _case("all draws the same, none whole: 0.8", 0.7, [_unit("AL-02", [8] * 32, [10] * 32)], most=64),
        _case("one packet a draw", 0.9, [_unit("T-01", [1] * 95 + [0] * 5, [1] * 100)]),
        _case("draws that differ by coins alone, 99.5 % for 99 %", 0.99, [_unit("L-02", _planted(1, 100, 720, 0.995), [720] * 100)]),
        _case("draws that differ by coins alone, 98 % for 99 %", 0.99, [_unit("L-02", _planted(2, 32, 720, 0.98), [720] * 32)]),
        _case("draws that differ by themselves: 97 % for 95 %", 0.95, [_unit("L-03", _planted(3, 100, 360, 0.97, 0.05), [360] * 100)]),
        _case("draws that differ much: 97 % for 95 %", 0.95, [_unit("L-03", _planted(4, 16, 360, 0.97, 0.5), [360] * 16)]),
        _case("two draws of 100 lose all", 0.99, [_unit("L-04", [720] * 98 + [0] * 2, [720] * 100)]),
        _case("networks of their own, all in time: 100 draws do not show 99 %", 0.99, [_unit("L-05", [720] * 100, [720] * 100)], own_networks=True),
        _case("networks of their own, all of 600 in time", 0.99, [_unit("L-05", [720] * 600, [720] * 600)], own_networks=True, most=600),
        _case("networks of their own, 97 % for 99 %", 0.99, [_unit("L-05", _planted(5, 32, 720, 0.97), [720] * 32)], own_networks=True),
        _case("three streams, the worst counts", 0.98, [
            _unit("L-01", [720] * 32, [720] * 32), _unit("L-02", _planted(6, 32, 720, 0.99), [720] * 32), _unit("L-03", [72] * 32, [72] * 32)],
            most=64),
        _case("eighteen streams, one of them fails", 0.99, [
            *(_unit(f"L-{number:02}", [360] * 16, [360] * 16) for number in range(1, 18)), _unit("L-18", _planted(7, 16, 360, 0.96), [360] * 16)]),
        _case("pairs of a packet and three receivers are one packet", 0.95, [_unit("S-1", [30] * 31 + [27], [30] * 32, [10] * 32)], most=32),
        _case("draws in which nothing was due are left out", 0.9, [_unit("AL-03", [4, 0, 3, 5] * 8, [4, 0, 3, 5] * 8)], most=32),
        _case("a stream of which nothing was ever due", 0.9, [_unit("AL-03", [4] * 8, [4] * 8), _unit("AL-04", [0] * 8, [0] * 8)], most=8),
        _case("in 95 % of the draws: all of 100", 0.99, [_unit("L-01", [720] * 100, [720] * 100)], part=0.95),
        _case("in 95 % of the draws: all of 32", 0.99, [_unit("L-01", [720] * 32, [720] * 32)], part=0.95),
        _case("in 95 % of the draws: 60 of 64", 0.99, [_unit("L-01", [720] * 60 + [700] * 4, [720] * 64)], part=0.95, most=1000),
        _case("in 95 % of the draws each of two streams", 0.9, [
            _unit("L-01", [8] * 3 + [10] * 13, [10] * 16), _unit("L-02", [10] * 11 + [7] * 5, [10] * 16)], part=0.95, most=16),
        _case("years of a battery", 2.0, [{"name": "T-01", "values": [2.31, 2.28, 2.35, 2.3] * 8}, {"name": "T-02", "values": [2.11, 2.14, 2.12, 2.09] * 8}],
              share=False, most=32),
        _case("years of a battery, not met", 2.0, [{"name": "T-01", "values": [0.31, 0.28, 0.35, 0.3] * 2}], share=False),
        _case("years that differ much", 2.0, [{"name": "T-01", "values": [0.1, 0.1, 0.1, 0.4, 0.1, 0.1, 0.1, 0.1]}], share=False),
        _case("years of one draw", 2.0, [{"name": "T-01", "values": [2.5]}], share=False, most=1),
        _case("seconds to join, at most", 60.0, [{"name": "T-01", "values": [50.0, 55.0, 45.0, 60.0] * 8}, {"name": "T-02", "values": [30.0] * 32}],
              share=False, at_least=False, most=64),
        _case("seconds to join, too long", 60.0, [{"name": "T-01", "values": [70.0, 75.0, 65.0, 80.0] * 2}, {"name": "T-02", "values": [30.0] * 8}],
              share=False, at_least=False, most=64),
        _case("seconds without service in 90 % of the draws", 120.0, [{"name": "L-01", "values": [110.0] * 30 + [150.0] * 2}], share=False,
              at_least=False, part=0.9, most=32),
        _case("with a confidence of 99 %", 0.99, [_unit("L-02", _planted(8, 64, 720, 0.993), [720] * 64)], confidence=0.99, most=128),
        _case("a share of 1 is never shown", 1.0, [_unit("L-01", [720] * 100, [720] * 100)]),
    ]  # fmt: skip


def main() -> None:
    """Writes the table."""
    about = (
        "Cases of verdicts: what was counted in each draw (`came` of `due`; `packets` where several receivers make pairs; or `values`), what is "
        "required (`wanted` of each unit; `part` of the draws, or null for the mean; `most` draws allowed), and the verdict that follows by the "
        "formulas of docs/REQUIREMENTS.md. Numbers agree to 9 digits. null is a number that there is not."
    )
    # None is needed where no number of draws decides; the worked search is cut where it takes too long.
    table = [{**case, "expect": worked(case, 3_000)} for case in cases()]
    TABLE.parent.mkdir(exist_ok=True)
    TABLE.write_text(json.dumps({"about": about, "cases": table}).replace('}, {"name"', '},\n {"name"').replace('"cases": [', '"cases": [\n ') + "\n")


if __name__ == "__main__":
    main()
