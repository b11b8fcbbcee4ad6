"""The page's model of propagation and its verdicts, by the tables of cases that Python's own pass too."""

from __future__ import annotations

import json
import math
from typing import Any

import pytest
from studio_modules import HERE, calls, needs_node

pytestmark = needs_node
_CASES = HERE / "cases"


def _section(name: str) -> Any:
    return json.loads((_CASES / "propagation.json").read_text())[name]


def _same(section: Any, found: list[Any], due: list[float], floor: float = 1e-300) -> None:
    relative, absolute = section.get("relative", 0), section.get("absolute", floor)
    for one, other in zip(found, due, strict=True):
        assert one == pytest.approx(other, rel=max(relative, 1e-13), abs=absolute)


@pytest.mark.parametrize("name", ["curve", "curve_of_ns3"])
def test_curve(name: str) -> None:
    section = _section(name)
    _same(section, calls([("curve", "ratioOfSnr", [snr, bits]) for snr, bits, _ in section["cases"]]), [ratio for *_, ratio in section["cases"]])


def test_bit_errors_bits_and_expected_ratios() -> None:
    section = _section("bit_errors")
    _same(section, calls([("curve", "bitErrorRatio", [snr]) for snr, _ in section["cases"]]), [one for _, one in section["cases"]])
    section = _section("packet_bits")
    assert calls([("curve", "packetBits", [length]) for length, _ in section["cases"]]) == [bits for _, bits in section["cases"]]
    section = _section("expected_ratio")
    _same(section, calls([("curve", "expectedRatio", case[:3]) for case in section["cases"]]), [case[3] for case in section["cases"]])
    rough = calls([("curve", "tabledRatio", case[:3]) for case in section["cases"]])
    assert rough == pytest.approx([case[3] for case in section["cases"]], abs=2e-4)


def test_walls_floors_and_distances() -> None:
    section = _section("walls")
    _same(section, calls([("propagation", "wallsDb", case[:3]) for case in section["cases"]]), [case[3] for case in section["cases"]], 1e-12)
    section = _section("metres")
    _same(section, calls([("propagation", "metresApart", case[:3]) for case in section["cases"]]), [case[3] for case in section["cases"]])
    presets = {name: numbers for name, *numbers in _section("presets")["cases"]}
    section = _section("floors_db")
    asked = [([floors, kind, kind] if isinstance(kind, (int, float)) else [floors, *presets[kind][2:]]) for kind, floors, _ in section["cases"]]
    _same(section, calls([("propagation", "floorsDb", one) for one in asked]), [case[2] for case in section["cases"]])


def test_draws_are_those_of_python() -> None:
    section = _section("name_hash")
    assert calls([("draws", "nameHash", [name]) for name, _ in section["cases"]]) == [int(number) for _, number in section["cases"]]
    section = _section("mix")
    assert calls([("draws", "mix", [{"$big": state}]) for state, _ in section["cases"]]) == [int(number) for _, number in section["cases"]]
    section = _section("draws")
    for seed, one, other, both, one_way, measured in section["cases"]:
        hashes = [{"$big": str(number)} for number in calls([("draws", "nameHash", [one]), ("draws", "nameHash", [other])])]
        found = calls([
            ("draws", "normalOfPair", [seed, one, other]), ("draws", "normal", [seed, 1, one, other]), ("draws", "uniform", [seed, 2, *hashes]),
        ])  # fmt: skip
        assert found == pytest.approx([both, one_way, measured], abs=1e-11)


def test_counts() -> None:
    section = _section("beta")
    for received, sent, mean, low, high in section["cases"]:
        shape = [received + 0.5, sent - received + 0.5]
        found = calls([
            ("survey", "countedRatio", [received, sent]), ("special", "betaQuantile", [*shape, 0.025]), ("special", "betaQuantile", [*shape, 0.975]),
        ])  # fmt: skip
        assert found == pytest.approx([mean, low, high], rel=1e-9)
    special = pytest.importorskip("scipy.special")
    stats = pytest.importorskip("scipy.stats")
    # Between the places of the table a ratio is within 0.00002 of the exact one.
    shares = [0.001, 0.03, 0.5, 0.77, 0.9999]
    found = calls([("posterior", "countedQuantile", [18, 20, share]) for share in shares])
    assert found == pytest.approx(stats.beta.ppf(shares, 18.5, 2.5), abs=2e-5)
    # By mpmath: scipy 1.10 is off by 3e-9 here.
    degrees = {(1, 0.975): 12.7062047361747, (29, 0.9): 1.31143364730155, (29, 0.6): 0.255683634571257, (3.5, 0.5): 0.0}
    found = calls([("special", "studentQuantile", [one, share]) for one, share in degrees])
    assert found == pytest.approx(list(degrees.values()), rel=1e-13)
    places = [-8.0, -3.1, -2.9, -0.2, 0.0, 1.7, 5.0]
    assert calls([("special", "normalBelow", [z]) for z in places]) == pytest.approx(special.ndtr(places), rel=1e-12)
    assert calls([("special", "normalQuantile", [float(special.ndtr(z))]) for z in places]) == pytest.approx(special.ndtri(special.ndtr(places)), rel=1e-12)


def test_verdicts() -> None:
    cases = json.loads((_CASES / "verdicts.json").read_text())["cases"]
    asked = []
    for case in cases:
        rule = {
            "wanted": case["wanted"], "isShare": case["share"], "atLeast": case["at_least"], "part": case["part"], "confidence": case["confidence"],
            "most": case["most"], "ownNetworks": case.get("own_networks", False),
        }  # fmt: skip
        asked.append(("verdicts", "judged", [rule, [_unit(unit) for unit in case["units"]]]))
    for case, found in zip(cases, calls(asked), strict=True):
        assert not isinstance(found, Exception), (case["name"], found)
        expected = case["expect"]
        for key in ("verdict", "worst", "needs", "draws", "packets"):
            assert found[key] == expected[key], (case["name"], key)
        for key in ("value", "low", "high"):
            due = expected[key]
            if due is None:
                assert not math.isfinite(found[key]), (case["name"], key)
            else:
                assert found[key] == pytest.approx(due, rel=1e-9, abs=1e-12), (case["name"], key)


def _unit(given: Any) -> Any:
    if "values" in given:
        return {"name": given["name"], "values": given["values"], "packets": given.get("packets", [0] * len(given["values"]))}
    values = [None if due == 0 else came / due for came, due in zip(given["came"], given["due"])]
    return {"name": given["name"], "values": values, "packets": given.get("packets", given["due"])}
