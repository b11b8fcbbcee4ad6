"""What all tables share: one clock, one type for ids and counts, and numbers that are worked out once."""

from __future__ import annotations

import cProfile

import pandas as pd
import pytest
from networks import FAILOVER, LINE

from foldcairn import planning
from foldcairn.answers import radio, rounds, schema, timing
from foldcairn.model.scenario import Scenario
from foldcairn.runs import results

EMPTY = "frames 1\nsends 1\nnode 1 0\nnode 2 0\nhost 0 1\n"


def all_tables(text: str) -> dict[str, pd.DataFrame]:
    log, bus, returned = results.log(text), results.bus(text), results.returns(text)
    more = {
        "deliveries": log.deliveries, "drops": log.drops, "energy": log.energy, "transmissions": log.transmissions,
        "receptions": log.receptions, "tunings": log.tunings, "on air": log.packets, "initiations": log.initiations,
        "bus": bus.deliveries, "cost": bus.energy, "rounds": planning.rounds(log), "data slots": planning.data_slots(log),
        "windows": radio.tunings(log), "slots": timing.slots(log), "spells": timing.spells(log), "pauses": timing.pauses(log),
        "stamps": results.times(text), "returns": returned.returns, "probes": returned.probes,
        "fates by stream": planning.fates(log), "radio time by node": planning.radio_time(log),
    }  # fmt: skip
    return {**planning.tables(log), **more}


@pytest.fixture(scope="module")
def full() -> dict[str, pd.DataFrame]:
    return all_tables(FAILOVER)


@pytest.fixture(scope="module")
def empty() -> dict[str, pd.DataFrame]:
    return all_tables(EMPTY)


def types(table: pd.DataFrame) -> dict[str, str]:
    levels = [table.index.get_level_values(name) for name in table.index.names if name is not None]
    return {**table.dtypes.astype(str), **{str(level.name): str(level.dtype) for level in levels}}


def test_ids_and_counts_are_int64_also_without_rows(full: dict[str, pd.DataFrame], empty: dict[str, pd.DataFrame]) -> None:
    # What a product of narrow columns gives in users' hands: frame 1497 of uint16 times 5000 is 13,896.
    assert full["deliveries"].assign(frame=1497).eval("frame * 5000").tolist()[0] == 7_485_000
    for tables in (full, empty):
        for name, table in tables.items():
            for column, dtype in types(table).items():
                assert dtype in ("int64", "float64", "bool", "category", "object"), (name, column)
                assert dtype == "int64" or dtype == "bool" or column not in schema.WHOLE, (name, column, dtype)
                assert dtype == "float64" or not column.endswith("_seconds"), (name, column, dtype)


def test_a_table_without_rows_has_the_types_of_one_with_rows(
    full: dict[str, pd.DataFrame], empty: dict[str, pd.DataFrame]
) -> None:
    for name, table in empty.items():
        with_rows = types(full[name])
        assert {column: dtype for column, dtype in types(table).items() if with_rows.get(column, dtype) != dtype} == {}, name


def test_an_index_has_the_type_of_one_with_rows(full: dict[str, pd.DataFrame], empty: dict[str, pd.DataFrame]) -> None:
    for name, table in empty.items():
        assert table.index.dtype == full[name].index.dtype or len(full[name]) == 0 and table.index.dtype == "int64", name


@pytest.mark.parametrize("name", [name for name in planning.__all__ if "seconds" in (getattr(planning, name).__doc__ or "")])
def test_each_answer_says_by_which_clock_its_times_are(name: str) -> None:
    told = " ".join((getattr(planning, name).__doc__ or "").split())
    assert "true time" in told or "by plan" in told


def test_an_index_has_one_type_and_totals_are_calls_of_their_own() -> None:
    log = results.log(FAILOVER)
    assert planning.radio_time(log).index.tolist() == [1, 2, 3]
    assert planning.fates(log).index.tolist() == [(3, 0)]
    pd.testing.assert_series_equal(planning.radio_time(log, "all").iloc[0], planning.radio_time(log).sum(), check_names=False)
    assert planning.fates(log, "all").to_dict("records") == [{"puts": 2, "delivered": 2}]
    assert planning.radio_time(log, "all", shares=True)[list(radio.PURPOSES)].sum(axis=1).tolist() == pytest.approx([1.0])


def drifting() -> results.Log:
    """An hour in which the host's clock loses 20 ppm: its frames come later, in the end by 73 ms."""
    made = Scenario(910).node(1, ppm=-20).node(2).host(0, 1).pair(1, 2).on().stream(2, 4)
    for second in range(60, 3_600, 60):
        made.put(2, b"a", seconds=second)
    return results.log(made)


def test_no_packet_is_delivered_before_it_is_sent() -> None:
    log = drifting()
    packets = planning.packets(log)
    assert (packets["fate"] == "delivered").all() and len(packets) == 59
    assert (packets["put_seconds"] <= packets["sent_seconds"]).all()
    assert (packets["sent_seconds"] < packets["first_seconds"]).all()
    assert (packets["first_seconds"] <= packets["last_seconds"]).all()
    # By plan they would be earlier, by up to 20 ppm of the hour.
    ahead = log.deliveries["delivered_seconds"] - log.deliveries["planned_seconds"]
    assert 0.06 < ahead.max() < 0.08
    waited = planning.latencies(log)
    assert (waited["latency_seconds"] == waited["delivered_seconds"] - waited["put_seconds"]).all()
    assert waited["delivered_seconds"].tolist() == log.deliveries["delivered_seconds"].tolist()


def test_an_answer_is_worked_out_once_for_a_log(monkeypatch: pytest.MonkeyPatch) -> None:
    log = results.log(FAILOVER)
    calls = []
    inner = rounds.rounds.__wrapped__  # type: ignore[attr-defined]
    monkeypatch.setattr(pd.DataFrame, "set_index", _counting(pd.DataFrame.set_index, calls))
    planning.summary(log)
    once = calls.count(("frame", "rank"))
    inner(log)
    # Its openings and closings, each by frame and rank.
    assert once == calls.count(("frame", "rank")) - once == 2


def test_a_summary_of_a_small_run_takes_few_calls() -> None:
    """Of functions, whose number no load of the machine changes: it was 640,000, most of them for joins of tables with a few rows."""
    profile = cProfile.Profile()
    profile.runcall(planning.summary, results.log(FAILOVER))
    assert sum(entry.callcount for entry in profile.getstats()) < 400_000


def _counting(call, calls: list[object]):  # type: ignore[no-untyped-def]
    def counted(self, keys, *rest, **named):  # type: ignore[no-untyped-def]
        calls.append(tuple(keys) if isinstance(keys, list) else keys)
        return call(self, keys, *rest, **named)

    return counted


def test_what_an_answer_gives_is_the_callers_own() -> None:
    log = results.log(LINE)
    first = planning.rounds(log)
    first["frame"] = 0
    assert planning.rounds(log)["frame"].tolist() == [5, 9]
    assert planning.delivery_ratio(log, receivers=[1, 2]).equals(planning.delivery_ratio(log, receivers=(1, 2)))
