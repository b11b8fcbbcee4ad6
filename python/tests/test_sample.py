"""Samples of many seeds: the worked example of docs/RATIOS.md by hand, the answers of each seed by its report, how seeds are dealt out and
kept, and the command."""

from __future__ import annotations

import io
import itertools
import json
import os
import re
import subprocess
import sys
import threading
import time
from collections import Counter
from collections.abc import Callable
from concurrent.futures import Executor, ProcessPoolExecutor, ThreadPoolExecutor
from pathlib import Path
from typing import Any

import numpy as np
import pandas as pd
import pytest
from conftest import REPOSITORY
from scipy import stats
from statsmodels.stats.proportion import proportion_confint
from test_outcome import small_network
from test_sweep import network as swept_network

from foldcairn import planning
from foldcairn.__main__ import main
from foldcairn.cli import plans
from foldcairn.common.arguments import ArgumentError
from foldcairn.many import counts, seeds, sweep, tallies
from foldcairn.many.sample import Sample
from foldcairn.model.scenario import Scenario
from foldcairn.pages import report
from foldcairn.runs import columns, losses, program, results

WORKED = REPOSITORY / "tests" / "worked" / "three-in-a-line.network"
SPREAD = ["seeds", "mean", "error", "low", "high", "least", "p5", "p50", "p95", "greatest"]


@pytest.fixture(scope="module")
def pool() -> Any:
    with ThreadPoolExecutor(2) as executor:
        yield executor


@pytest.fixture(scope="module")
def worked(pool: Executor) -> Sample:
    return planning.sample(Scenario.read(WORKED), [7, 8], deadline=30, executor=pool, progress=False)


def told(table: pd.DataFrame, *names: str) -> list[list[Any]]:
    return table[[*names]].values.tolist()


# The worked example: seed 7 delivers nothing, seed 8 two of three packets at both other nodes, in the 3rd and the 9th frame after the put.


def test_the_worked_example_by_hand(worked: Sample) -> None:
    whole = worked.network().set_index("quantity")
    assert list(whole.columns) == ["packets", *SPREAD]
    # Three packets with each seed, and of other numbers there are none.
    assert whole.loc[["ratio_of_put", "within_deadline", "waiting", "latency_median_seconds", "duty_cycle"], "packets"].tolist() == [6, 6, 6, 0, 0]
    # 0 of 6 and 4 of 6 pairs; their standard error is half of their difference, and 12.7 of these are more than all there can be.
    assert whole.loc["ratio_of_put", SPREAD].tolist() == pytest.approx([2, 1 / 3, 1 / 3, 0, 1, 0, 1 / 30, 1 / 3, 19 / 30, 2 / 3])
    # One second into the frame, then 41 slots of 33 ms: 3 frames of 4 s are 14.353 s, and 9 of them 38.353 s, too late for 30 s.
    assert told(whole.loc[["latency_median_seconds", "latency_p90_seconds"]], "seeds", "mean") == [[1, pytest.approx(14.353)], [1, pytest.approx(38.353)]]
    assert whole.loc[["latency_median_seconds", "latency_p90_seconds"], ["error", "low", "high"]].isna().all(axis=None)
    assert whole.loc["within_deadline", "greatest"] == pytest.approx(1 / 3) and whole.loc["within_deadline", "mean"] == pytest.approx(1 / 6)
    # With both seeds none is dropped: of six packets that is no more than 45.9 %, by 0.025^(1/6).
    assert whole.loc["dropped", ["mean", "error", "low", "high"]].tolist() == pytest.approx([0, 0, 0, 1 - 0.025 ** (1 / 6)])
    # With seed 7 all three wait, with seed 8 all are sent.
    assert told(whole.loc[["dropped", "sent", "waiting", "cleared"]], "least", "greatest") == [[0, 0], [0, 1], [0, 1], [0, 0]]
    # The nodes search in 5, 10 and 14 or 18 frames of 4 s.
    assert whole.loc["scanned_frames", "mean"] == pytest.approx((5 + 10 + 16) / 3)
    searching = 5 * 4 + 10 * 4
    windows = {7: (28841344 + 30585600 + 27545472) / 64e6, 8: (46748032 + 44741632 + 47950592) / 64e6}
    on = [(windows[7] + searching + 56) / 3, (windows[8] + searching + 72) / 3]
    assert whole.loc["on_seconds", ["least", "greatest"]].tolist() == pytest.approx(on)
    assert whole.loc["duty_cycle", ["least", "greatest"]].tolist() == pytest.approx([one / 120 for one in on])
    assert whole.loc["duty_cycle_in_rounds", ["least", "greatest"]].tolist() == pytest.approx([one / 360 for one in windows.values()])


def test_the_tables_of_streams_and_nodes_by_hand(worked: Sample) -> None:
    assert told(worked.delivery_ratio(), "source", "stream", "quantity", "mean") == [[3, 0, "ratio_of_put", pytest.approx(1 / 3)]]
    assert told(worked.delivery_ratio("node"), "node", "greatest") == [[1, pytest.approx(2 / 3)], [2, pytest.approx(2 / 3)]]
    assert told(worked.deadline("node"), "node", "mean") == [[1, pytest.approx(1 / 6)], [2, pytest.approx(1 / 6)]]
    waited = told(worked.latency("stream"), "quantity", "p50")
    assert waited == [["latency_median_seconds", pytest.approx(14.353)], ["latency_p90_seconds", pytest.approx(38.353)]]
    assert told(worked.fates(), "quantity", "mean") == [["dropped", 0], ["sent", 0.5], ["waiting", 0.5], ["cleared", 0]]
    assert told(worked.fates("all"), "mean") == [[0], [0.5], [0.5], [0]]
    searched = worked.search().set_index(["node", "quantity"])
    assert searched.loc[(3, "scanned_frames"), ["mean", "error", "least", "greatest"]].tolist() == [16, 2, 14, 18]
    assert searched.loc[(2, "searching_seconds"), SPREAD].tolist() == [2, 40, 0, 40, 40, 40, 40, 40, 40, 40]
    # Node 1 with seed 7, with the currents of a CC2420: 12.7 ms of transmission, and the rest of its time with the radio on.
    sent, on = 811008 / 64e6, 28841344 / 64e6 + 20
    days = 2600 / ((sent * 17.4 + (on - sent) * 18.8) / 120) / 24
    lives = worked.battery_life().set_index(["node", "quantity"])
    assert lives.loc[(1, "days"), "least"] < days == pytest.approx(lives.loc[(1, "days"), "greatest"])
    # The shortest life is that of node 3, and half the capacity is half of it.
    assert worked.battery_life("all", capacity_mah=1300)["mean"][0] == pytest.approx(lives.loc[(3, "days"), "mean"] / 2)
    assert worked.network(capacity_mah=1300).set_index("quantity").loc["days", "mean"] == pytest.approx(lives.loc[(3, "days"), "mean"] / 2)
    assert worked.runs["days"].tolist() == pytest.approx(lives.loc[(3, "days"), ["greatest", "least"]].tolist())
    # A node on mains has no battery, so the shortest life is that of another one.
    apart = worked.battery_life(mains=[3]).set_index(["node", "quantity"])
    assert apart.loc[(3, "days"), "seeds"] == 0 and apart.loc[(1, "days")].equals(lives.loc[(1, "days")])
    shortest = min(lives.loc[(1, "days"), "least"], lives.loc[(2, "days"), "least"])
    assert worked.network(mains=[3]).set_index("quantity").loc["days", "least"] == pytest.approx(shortest)


def test_the_object_says_what_it_is(worked: Sample) -> None:
    text = worked.origin["text"]["scenario"]
    assert repr(worked) == f"<Sample: 3 nodes, 120 s, 2 seeds, text {text[:12]}>" and (worked.deadline_seconds, worked.receivers) == (30, "all other nodes")
    assert "<td>ratio_of_put</td>" in worked._repr_html_() and worked.runs["seed"].tolist() == [7, 8]
    tables = worked.tables()
    assert len(tables) == 11 and all(list(table.columns[-10:]) == SPREAD for table in tables.values())
    assert tables["delivery-by-node"].attrs["seeds"] == [7, 8] and tables["network"].attrs["planner"] == program.checksum(program.find_planner())
    for call in (worked.delivery_ratio, worked.latency, worked.deadline, worked.fates, worked.duty_cycle, worked.search, worked.battery_life):
        with pytest.raises(ArgumentError, match="`by` is 'host', and not one of"):
            call("host")


def test_shares_near_1_are_no_surer_than_their_packets_are_many(pool: Executor) -> None:
    """Node 3 gets two packets at the same times in each seed, and its links lose hardly any: 80 of 80 are at most some 95.5 % sure."""
    network = Scenario(30).node(1).node(2).node(3).host(0, 1).pair(1, 2, 0.7).pair(1, 3, 0.999999).pair(2, 3, 0.7).on().stream(2, 8).stream(3, 8)
    network.labels = {1: "roof", 2: "cellar", 3: "pump"}
    network.every(30, 2).put(3, frame=10).put(3, frame=15)
    found = planning.sample(network, range(40), receivers=[1], deadline=60, executor=pool, progress=False)
    row = found.delivery_ratio().set_index("source").loc["pump"]
    low, high = proportion_confint(80, 80, method="beta")
    assert row[["packets", "seeds", "mean", "error", "low", "high"]].tolist() == pytest.approx([80, 40, 1, 0, low, high]) and 0.95 < low < 0.96
    seeds, few = found.remarks()
    assert seeds.startswith("Seeds vary the losses alone: packets, power and changes of ratios come at the same times in each seed")
    assert few.startswith("To show that 99.9 % are delivered takes some 3,000 packets that all are (the rule of three), and stream 0 of node pump has 80 ")
    assert few.endswith(": take 38 times as many seeds.") and f"<p>{seeds}</p><p>{few}</p><table" in found._repr_html_()
    # Where seeds differ each is one sample of what happens to its packets together.
    other, ratios = found.delivery_ratio().set_index("source").loc["cellar"], [
        planning.delivery_ratio(results.outcome(network, seed, warn=False), receivers=[1]).set_index("source").loc["cellar", "ratio_of_put"]
        for seed in range(40)
    ]  # fmt: skip
    half = stats.t.ppf(0.975, 39) * np.std(ratios, ddof=1) / 40**0.5
    assert other[["packets", "mean", "low", "high"]].tolist() == pytest.approx([160, np.mean(ratios), np.mean(ratios) - half, np.mean(ratios) + half])
    # Without such a share there is nothing to say of it.
    assert planning.sample(network.copy().pair(1, 3, 0.3), range(4), receivers=[1], executor=pool, progress=False).remarks() == [seeds]


@pytest.mark.parametrize(
    ("whom", "receivers"), [("all", {1: 2, 3: 2}), ([1], {3: 1}), ("hosts", {1: 1, 3: 1}), ({3: [1, 2], "others": "hosts"}, {1: 1, 3: 2})]
)
def test_of_how_many_packets_shares_are(whom: Any, receivers: dict[int, int], pool: Executor) -> None:
    """A packet counts once however many receivers it has, at each node as one, and not if it only keeps a stream alive."""
    network = Scenario(30).node(1).node(2).node(3).host(0, 1).host(1, 2).pair(1, 2, 0.8).pair(1, 3, 0.8).pair(2, 3, 0.8).on()
    network.stream(1, 8).every(40, 1).stream(3, 8, keep_alive=20).every(30, 3, b"a").off(1, frame=20)
    found = planning.sample(network, [1, 2, 3], receivers=whom, executor=pool, progress=False)
    wanted: Counter[Any] = Counter()
    for seed in (1, 2, 3):
        rows = planning.delivery_ratio(results.outcome(network, seed, warn=False), "pair", receivers=whom)
        wanted.update({("node", row.node): row.put for row in rows.groupby("node", as_index=False)["put"].sum().itertuples()})
        streams = planning.delivery_ratio(results.outcome(network, seed, warn=False), receivers=whom)
        wanted.update({("stream", row.source): row.put // receivers[row.source] for row in streams.itertuples() if row.source in receivers})
    for by, name in (("stream", "source"), ("node", "node")):
        told = {(by, row[name]): row["packets"] for _, row in found.delivery_ratio(by).iterrows() if row["packets"]}
        assert told == {key: put for key, put in wanted.items() if key[0] == by and put}
    assert found.delivery_ratio("all")["packets"].tolist() == [found.delivery_ratio()["packets"].sum()]


def test_names_in_the_tables(pool: Executor) -> None:
    network = Scenario.read(WORKED)
    network.labels = {1: "cellar", 3: "pump"}
    found = planning.sample(network, [8], receivers="cellar", executor=pool, progress=False)
    assert told(found.delivery_ratio(), "source", "mean") == [["pump", pytest.approx(2 / 3)]] and found.delivery_ratio("node")["node"].tolist() == ["cellar"]
    assert found.duty_cycle()["node"].unique().tolist() == ["cellar", "2", "pump"] and repr(found).count("1 seed,") == 1
    with pytest.raises(ArgumentError, match=r"no deadline was given; write planning.sample\(.., deadline=30\)"):
        found.deadline()
    assert "deadline-by-node" not in found.tables() and "within_deadline" not in found.runs


# Each seed as its report has it.


def two_hosts(number: int) -> Scenario:
    """A small network with two hosts, the second of which has packets too, so that who serves matters."""
    made = small_network(number)
    made.hosts = {0: 1, 1: 2}
    if number % 2:
        made.off(1, frame=made.frames // 2)
    return made


FORMS: list[Callable[[Scenario], Any]] = [lambda _: None, lambda _: "hosts", lambda _: [1, 2], lambda made: {max(made.nodes): "hosts", "others": 1}]


@pytest.mark.parametrize(("number", "form"), [(0, 0), (1, 1), (2, 2), (3, 3)])
def test_each_seed_is_what_its_report_says(number: int, form: int, pool: Executor) -> None:
    network = two_hosts(number) if form % 2 else small_network(number)
    whom, chosen = FORMS[form](network), [1, 2]
    found = planning.sample(network, chosen, receivers=whom, executor=pool, progress=False)
    reports = [results.outcome(network, seed, warn=False) for seed in chosen]
    for by, keys in (("stream", ["source", "stream"]), ("node", ["node"]), ("all", [])):
        wanted = pd.concat([planning.delivery_ratio(one, by, receivers=whom).assign(all=0) for one in reports]).groupby(keys or "all")["ratio_of_put"].mean()
        table = found.delivery_ratio(by).assign(all=0).set_index(keys or "all")["mean"]
        assert table.reindex(wanted.index).to_numpy() == pytest.approx(wanted.to_numpy(), nan_ok=True) and table.drop(wanted.index).isna().all()
    # Latencies by the rounds of the reports: frames from the put to the delivery, and how long a round with all its slots is.
    length = 1 + 41 * 0.033
    for place, one in enumerate(reports):
        waited = np.sort((planning.latencies(one, receivers=whom)[["put_seconds", "planned_delivered_seconds"]] // 4).diff(axis=1).iloc[:, 1].to_numpy())
        for name, part in (("latency_median_seconds", 0.5), ("latency_p90_seconds", 0.9)):
            wanted = 4 * np.quantile(waited, part, method="inverted_cdf") + length if len(waited) else np.nan
            assert found.runs[name][place] == pytest.approx(wanted, nan_ok=True)
    assert found.runs["duty_cycle"].tolist() == pytest.approx([planning.summary(one)["duty_cycle"] for one in reports])


def test_packets_that_keep_a_stream_alive_do_not_count(pool: Executor) -> None:
    made = Scenario(30).node(1).node(2).host(0, 1).pair(1, 2, 0.9).on()
    made.stream(2, 8, keep_alive=10).put(2, b"a", frame=10)
    found = planning.sample(made, range(6), executor=pool, progress=False)
    reports = [results.outcome(made, seed, warn=False) for seed in range(6)]
    assert found.runs["ratio_of_put"].tolist() == [planning.delivery_ratio(one, "all")["ratio_of_put"][0] for one in reports]
    assert set(found.runs["ratio_of_put"]) <= {0, 1} and found.fates("all")["mean"].sum() == pytest.approx(1)


def test_a_node_without_power_has_no_duty_cycle(pool: Executor) -> None:
    made = Scenario.read(WORKED)
    made.node(4)
    found = planning.sample(made, [7, 8], executor=pool, progress=False)
    without = found.duty_cycle().set_index(["node", "quantity"]).loc[(4, "duty_cycle")]
    assert without["seeds"] == 0 and np.isnan(without["mean"]) and found.battery_life("all")["seeds"].tolist() == [2, 2]
    # The means are over those that had power, as without it.
    assert found.duty_cycle("all")["mean"].tolist() == pytest.approx(planning.sample(
        Scenario.read(WORKED), [7, 8], executor=pool, progress=False).duty_cycle("all")["mean"].tolist())  # fmt: skip


def test_seeds_of_any_kind_and_a_network_whose_losses_were_drawn(pool: Executor) -> None:
    network = Scenario.read(WORKED)
    wanted = planning.sample(network, [7, 8], executor=pool, progress=False)
    drawn = Scenario.read(losses.draw(network, 8).text(warn=False))
    for given, chosen in ((network, np.arange(7, 9)), (network, (seed for seed in (7, 8))), (drawn, [7, 8])):
        found = planning.sample(given, chosen, executor=pool, progress=False)
        assert found.runs.equals(wanted.runs) and found.origin == wanted.origin and found.scenario == network


# What can't be sampled.


def test_what_can_not_be_sampled(pool: Executor) -> None:
    network = Scenario.read(WORKED)
    for given, says in (
        ({"seeds": 200}, r"`seeds` is 200, and has to be several; write range\(1, 201\)"), ({"seeds": []}, "`seeds` has no seed"),
        ({"seeds": [1, 2, 1]}, "`seeds` has the seed 1 twice"), ({"seeds": [-1]}, "`seeds` is -1"), ({"deadline": 0}, "`deadline` is 0"),
        ({"seeds": "1-3"}, "`seeds` is '1-3', and has to be several whole numbers"), ({"seeds": range(10**13 - 1, 10**13 + 1)}, "`seeds` is 10000000000000"),
        ({"seeds": itertools.count()}, "`seeds` has more than 1,000,000 seeds"),
        ({"receivers": 9}, "`receivers`: the scenario has no node 9"),
    ):  # fmt: skip
        with pytest.raises(ValueError, match=says):
            planning.sample(network, **given, executor=pool, progress=False)
    with pytest.raises(ArgumentError, match="`network` is a str, and has to be a Scenario"):
        planning.sample("frames 3", progress=False)  # type: ignore[arg-type]
    lossless = network.copy()
    lossless.prr = {}
    with pytest.raises(ArgumentError, match="has no reception ratios: each seed would be the same"):
        planning.sample(lossless, progress=False)
    network.script = [line for line in network.script if not line.text().startswith("put")]
    with pytest.raises(ArgumentError, match="nothing is put in this network"):
        planning.sample(network, progress=False)


def test_output_that_is_cut_or_unknown() -> None:
    network = Scenario.read(WORKED)
    output = program.execute(["sample", "7", "2"], WORKED)
    whole = counts.read(output, network, [7, 8])
    assert told(whole.puts, *whole.puts) == [[7, 3, 0, 3, 0, 0, 3, 0], [8, 3, 0, 3, 0, 3, 0, 0]]
    assert told(whole.latencies, "seed", "node", "frames", "count") == [[8, 1, 3, 1], [8, 1, 9, 1], [8, 2, 3, 1], [8, 2, 9, 1]]
    assert repr(whole) == "<Counts: 3 nodes, 120 s, 2 seeds>"
    for cut in (output[: output.index(b"seed 8")], output[: output.rindex(b"cost")]):
        with pytest.raises(program.CutOutput, match="`sample` is cut"):
            counts.read(cut, network, [7, 8])
    with pytest.raises(columns.UnknownLine):
        counts.read(output.replace(b"puts", b"pats"), network, [7, 8])
    with pytest.raises(program.Refused, match="from 0 to 1,000,000 millionths"):
        program.execute(["sample", "7", "2"], WORKED.read_text().replace("700000", "9000000"))


# How seeds are dealt out, and kept.


@pytest.fixture
def runs(monkeypatch: pytest.MonkeyPatch) -> list[tuple[int, int]]:
    """The first seed and the number of each run of `sample`, two seeds at most."""
    noted: list[tuple[int, int]] = []
    whole = counts.of

    def of(scenario: Scenario, first: int, count: int) -> counts.Counts:
        noted.append((first, count))
        return whole(scenario, first, count)

    monkeypatch.setattr(counts, "of", of)
    monkeypatch.setattr(seeds, "_PIECE", 2)
    return noted


def test_seeds_are_kept_one_by_one(runs: list[tuple[int, int]], pool: Executor, tmp_path: Path) -> None:
    network = Scenario.read(WORKED)

    def ask(chosen: Any, **more: Any) -> pd.DataFrame:
        return planning.sample(network, chosen, executor=pool, results=tmp_path, progress=False, **more).runs

    first = ask([9, 3, 4, 5])
    # Seeds that follow each other are one run of the program, and the table has the order that was asked for.
    assert sorted(runs) == [(3, 2), (5, 1), (9, 1)] and first["seed"].tolist() == [9, 3, 4, 5]
    assert len(list(tmp_path.iterdir())) == 4
    again = ask(range(3, 7))
    assert runs[3:] == [(6, 1)] and again[:3].equals(first[1:].reset_index(drop=True))
    # A file that is damaged is made again; another question, another ratio and another network are no answers.
    sorted(tmp_path.iterdir())[0].write_text("{")
    assert ask(range(3, 7)).equals(again) and len(runs) in (4, 5)
    before = len(runs)
    ask([3], receivers=1), ask([3], deadline=30)
    network.link(1, 2, 0.6)
    assert not ask([3]).empty and len(runs) == before + 3


def test_a_sample_that_is_stopped_goes_on(runs: list[tuple[int, int]], tmp_path: Path, monkeypatch: pytest.MonkeyPatch) -> None:
    network, whole, bar = Scenario.read(WORKED), counts.of, io.StringIO()

    def stopped(*given: Any) -> counts.Counts:
        if len(runs) == 2:
            raise KeyboardInterrupt
        return whole(*given)

    with ThreadPoolExecutor(1) as threads:
        monkeypatch.setattr(counts, "of", stopped)
        with pytest.raises(KeyboardInterrupt):
            planning.sample(network, range(8), executor=threads, results=tmp_path, progress=False)
        monkeypatch.setattr(counts, "of", whole)
        assert runs == [(0, 2), (2, 2)] and len(list(tmp_path.iterdir())) == 4
        found = planning.sample(network, range(8), executor=threads, results=tmp_path, progress=bar)
        assert runs[2:] == [(4, 2), (6, 2)] and "8/8" in bar.getvalue() and "seeds" in bar.getvalue()
        assert found.runs.equals(planning.sample(network, range(8), executor=threads, progress=False).runs)


def test_all_executors_give_the_same(pool: Executor) -> None:
    network = Scenario.read(WORKED)
    found = planning.sample(network, range(20), executor=pool, progress=False).runs
    with ProcessPoolExecutor(2) as processes:
        assert planning.sample(network, range(20), executor=processes, progress=False).runs.equals(found)
    assert planning.sample(network, range(20), progress=False).runs.equals(found)
    assert found["ratio_of_put"].nunique() > 2


def dying(scenario: Scenario, piece: list[int]) -> list[int]:
    if 5 in piece:
        os._exit(9)
    return [seed * 10 for seed in piece]


def test_a_pool_that_breaks_down_keeps_what_it_has(tmp_path: Path, monkeypatch: pytest.MonkeyPatch) -> None:
    monkeypatch.setattr(seeds, "_PIECE", 1)
    asked = [seeds.Question(Scenario.read(WORKED), dying, "a test")]
    with ProcessPoolExecutor(1) as processes, pytest.raises(sweep.SweepStopped, match="the executor broke down, with") as stopped:
        seeds.answers(asked, range(1, 9), executor=processes, results=tmp_path, progress=False)
    there = len(list(tmp_path.iterdir()))
    assert there >= 1 and f"with {8 - there} runs still to make" in str(stopped.value)
    assert seeds.answers(asked, range(1, 5), results=tmp_path, progress=False) == [[10, 20, 30, 40]]
    # A pool that is broken takes nothing.
    with pytest.raises(sweep.SweepStopped, match="with 1 runs still to make: A child process terminated abruptly"):
        seeds.answers(asked, [9], executor=processes, progress=False)


def test_a_worker_of_dask_that_is_killed(tmp_path: Path, fake: Callable[[str], Path], monkeypatch: pytest.MonkeyPatch) -> None:
    """A scheduler and two workers over loopback, one of them a process of its own, which is killed in the middle: nothing is lost, and
    nothing is there twice. Nobody starts another one in its place, since that takes seconds."""
    distributed = pytest.importorskip("distributed")
    network, kept, log = Scenario.read(WORKED), tmp_path / "kept", tmp_path / "log"
    found = planning.sample(network, range(24), progress=False).runs
    # Each call takes a while, so that there is a middle.
    monkeypatch.setenv("FOLDCAIRN_PLAN", str(fake(f'echo "$@" >> {log}; sleep 0.2; exec {program.find_planner()} "$@"')))
    monkeypatch.setattr(seeds, "_PIECE", 2)
    with (
        distributed.LocalCluster(
            1, threads_per_worker=1, processes=False, protocol="tcp://", host="127.0.0.1", dashboard_address=None
        ) as cluster,
        distributed.Client(cluster) as client,
    ):  # fmt: skip
        victim = dask_worker(cluster.scheduler_address, tmp_path)
        client.wait_for_workers(2)
        assert victim.pid in client.run(os.getpid).values()

        def kill() -> None:
            while not kept.is_dir() or not any(kept.iterdir()):
                time.sleep(0.01)
            victim.kill()
            victim.wait()

        killer = threading.Thread(target=kill)
        killer.start()
        told = planning.sample(network, range(24), executor=client, results=kept, progress=False)
        killer.join()
        calls = log.read_text().split("\n")[:-1]
        # The same cluster runs sweeps.
        cases = sweep.grid(interval=[4, 8], seed=[1, 2])
        swept = sweep.sweep(swept_network, cases, executor=client, progress=False)
    pd.testing.assert_frame_equal(swept, sweep.sweep(swept_network, cases, executor=ThreadPoolExecutor(2), progress=False))
    assert told.runs.equals(found) and len(list(kept.iterdir())) == 24
    # What the killed worker had not handed over is run once more, and nothing else is.
    assert set(calls) == {f"sample {first} 2" for first in range(0, 24, 2)} and max(map(calls.count, calls)) <= 2


def dask_worker(scheduler: str, folder: Path) -> subprocess.Popen[bytes]:
    """A worker of Dask with one thread, as a process that nobody watches."""
    words = [sys.executable, "-m", "distributed.cli.dask_worker", scheduler, "--no-nanny", "--nthreads", "1", "--no-dashboard",
             "--local-directory", str(folder)]  # fmt: skip
    variables = {**os.environ, "PYTHONPATH": os.pathsep.join(filter(None, sys.path))}
    return subprocess.Popen(words, env=variables, stdout=subprocess.DEVNULL, stderr=subprocess.DEVNULL)


# Comparisons, and the command.


def test_plans_by_samples(pool: Executor, tmp_path: Path) -> None:
    network = Scenario.read(WORKED)
    better = {"A": network, "B": network.copy().link(2, 3, 0.99).link(3, 2, 0.99).link(1, 2, 0.99).link(2, 1, 0.99)}
    told = report.compare(better, tmp_path / "plans.html", seeds=range(12), executor=pool, progress=False, by="sample", results=tmp_path / "kept")
    assert told.table["better"][0] == "B" and len(told.table) == 5 and len(told.runs) == 24
    found = planning.sample(network, range(12), executor=pool, progress=False).runs
    assert told.table["A"][0] == pytest.approx(100 * found["ratio_of_put"].mean())
    page = (tmp_path / "plans.html").read_text()
    assert "3 nodes, 4 links" in page and "The network, plan B" in page and "The radios" not in page and len(list((tmp_path / "kept").iterdir())) == 24
    # A plan that is too long for a log is compared by a sample.
    long = {name: plan.copy() for name, plan in better.items()}
    for plan in long.values():
        plan.frames = 4_096
        for node in range(4, 6):
            plan.node(node)
    assert len(report.compare(long, seeds=[1, 2], executor=pool, progress=False).table) == 5
    with pytest.raises(ArgumentError, match="`by` is 'logs', and not one of log, sample"):
        report.compare(better, by="logs")


@pytest.fixture
def folder(tmp_path: Path, monkeypatch: pytest.MonkeyPatch) -> Path:
    monkeypatch.chdir(tmp_path)
    monkeypatch.setattr(plans, "ProcessPoolExecutor", ThreadPoolExecutor)
    head, _, ratios = WORKED.read_text().partition("ratios\n")
    (tmp_path / "line.scenario").write_text(head)
    (tmp_path / "line.network").write_text(WORKED.read_text())
    rows = [line.split()[2:] for line in ratios.splitlines()]
    (tmp_path / "ratios.csv").write_text("from,to,prr\n" + "".join(f"{sender},{receiver},0.7\n" for sender, receiver, _ in rows))
    return tmp_path


def test_the_command(folder: Path, capsys: pytest.CaptureFixture[str]) -> None:
    words = ["sample", "line.scenario", "--ratios", "ratios.csv", "--seeds", "7-8", "--receivers", "1,2", "--deadline", "30", "--capacity-mah", "1300"]
    assert main([*words, "--results", "kept"]) == 0
    shown = capsys.readouterr()
    assert "The network, packets at node 1, node 2\n" in shown.out and "Part that is delivered within 30 s by stream, at node 1, node 2\n" in shown.out
    assert "Battery life in days (1300 mAh, 17.4 mA" in shown.out and "2/2" in shown.err and len(list((folder / "kept").iterdir())) == 2
    assert re.search(r"^ *ratio_of_put +6 +2 +0\.333 +0\.333 +0\.000 +1\.000 ", shown.out, re.MULTILINE)
    # A network text has its ratios in itself, and a number is so many seeds.
    assert main(["sample", "line.network", "--seeds", "3", "--json"]) == 0
    told = json.loads(capsys.readouterr().out)
    assert told["network"][0]["seeds"] == 3 and set(told["versions"]) == set(program.versions()) and "deadline-by-node" not in told


def test_the_page_of_the_command(folder: Path, capsys: pytest.CaptureFixture[str]) -> None:
    assert main(["sample", "line.network", "--seeds", "7-8", "--deadline", "30", "--html", "line.html"]) == 0
    page = (folder / "line.html").read_text()
    assert capsys.readouterr().out == "" and page.startswith("<!DOCTYPE html>") and "<title>line</title>" in page
    # Words, and no identifiers.
    assert "<td>delivered, part of what was put</td>" in page and "<dt>half of the deliveries came within, s, " in page
    assert not re.findall(r"<t[dh]>(?:\w+_\w+|p\d+)</t[dh]>|<dt>\w+_\w+", page)
    for part in ("Seeds: 7 to 8", "Battery life in days (2600 mAh", "Part that is delivered within 30 s", "data:image/svg+xml", "how many seeds have it"):
        assert part in page
    # Seeds that do not follow each other are listed.
    found = planning.sample(Scenario.read(WORKED), [7, 9], progress=False, executor=ThreadPoolExecutor(1))
    assert "Seeds: 7, 9." in found.write(folder / "other.html").read_text()


@pytest.mark.parametrize(
    ("words", "says"),
    [
        (["line.scenario"], "has no reception ratios"), (["line.network", "--seeds", "0"], "`--seeds` is '1-0', and has no seed"),
        (["line.network", "--seeds", "many"], "`--seeds` is 'many', and has to be a number"), (["line.network", "--deadline", "-3"], "`deadline` is -3"),
    ],
)  # fmt: skip
def test_words_that_make_no_sense(words: list[str], says: str, folder: Path, capsys: pytest.CaptureFixture[str]) -> None:
    assert main(["sample", *words]) == 1
    assert says in capsys.readouterr().err


def test_tallies_of_ties() -> None:
    # Of ten deliveries nine took 3 s at most: 90 % took no longer, and half of them neither. The two groups and seeds are apart.
    table = pd.DataFrame({"place": [0, 0, 1], "seconds": [38.0, 3.0, 7.0], "count": [1, 9, 4]})
    group = np.array([0, 0, 1], dtype="int64")

    def numbers(deadline: float | None) -> list[list[float]]:
        return tallies._numbers(table, group, np.full((2, 2), 20.0), deadline).transpose(0, 2, 1).reshape(4, 5).tolist()

    nothing = [20, 0, 0, pytest.approx(np.nan, nan_ok=True), pytest.approx(np.nan, nan_ok=True)]
    assert numbers(None) == [[20, 10, 0, 3, 3], nothing, nothing, [20, 4, 0, 7, 7]]
    # A delivery just at the deadline is in time.
    assert [row[2] for row in numbers(3.0)] == [9, 0, 0, 0] and [row[2] for row in numbers(2.999)] == [0] * 4
    assert [row[2] for row in numbers(38.0)] == [10, 0, 0, 4]


# Sweeps.


def test_a_sweep_of_samples() -> None:
    """The sums of counts are those of a run with the same losses, and the summary is that of the sample."""
    network = small_network(3)
    cases = [{"seed": seed} for seed in (1, 2)]
    with ThreadPoolExecutor(2) as threads:
        sums = sweep.sweep(lambda seed: counts.Sampled(network, seed), cases, executor=threads, progress=False)
        told = sweep.sweep(lambda seed: counts.Sampled(network, seed), cases, planning.summary, executor=threads, progress=False)
        found = planning.sample(network, [1, 2], executor=threads, progress=False).runs
    for row in sums.itertuples():
        drawn = sweep.summary(losses.draw(network, row.seed))
        assert [row.deliveries, row.drops, row.sent_ticks] == [drawn[name] for name in ("deliveries", "drops", "sent_ticks")]
        # A radio is on for its windows and where it searches, at most.
        assert 0 < drawn["on_ticks"] <= row.window_ticks + row.scanned_frames * 4 * 64_000_000
    names = ["ratio_of_put", "latency_median_seconds", "latency_p90_seconds", "waiting", "duty_cycle", "duty_cycle_in_rounds"]
    assert told[names].equals(found[names]) and found["ratio_of_put"].nunique() == 2
    with pytest.raises(ArgumentError, match="a summary is of one seed, and these are counts of 2"):
        planning.summary(counts.of(network, 1, 2))


def test_a_sweep_of_a_network_that_is_too_long_for_a_log(folder: Path, capsys: pytest.CaptureFixture[str]) -> None:
    text = (folder / "line.scenario").read_text().replace("frames 30", "frames 4096").replace("host", "node 4 0\nnode 5 0\nhost", 1)
    (folder / "long.scenario").write_text(text)
    assert main(["sweep", "long.scenario", "--ratios", "ratios.csv", "--seeds", "1-2", "--jobs", "1", "--measure", "planning"]) == 0
    told = pd.read_csv(io.StringIO(capsys.readouterr().out))
    assert told["status"].tolist() == ["ok", "ok"] and told["ratio_of_put"].between(0, 1).all() and "hosts" not in told
