"""The commands that run a network many times: compare, capacity and importance."""

from __future__ import annotations

import io
import json
import re
from concurrent.futures import ThreadPoolExecutor
from functools import partial
from pathlib import Path

import numpy as np
import pandas as pd
import pytest
from networks import FAILOVER, LINE
from scipy import stats

from foldcairn import planning
from foldcairn.__main__ import main
from foldcairn.cli import commands, plans
from foldcairn.common.arguments import ArgumentError
from foldcairn.many import tallies
from foldcairn.model.scenario import Scenario
from foldcairn.pages import compare, differences
from foldcairn.runs import losses, program


@pytest.fixture(autouse=True)
def threads(monkeypatch: pytest.MonkeyPatch) -> None:
    """Threads in place of processes, which each take a second to begin."""
    monkeypatch.setattr(plans, "ProcessPoolExecutor", ThreadPoolExecutor)


planning_compare = partial(compare.compare, progress=False)


@pytest.fixture
def folder(tmp_path: Path, monkeypatch: pytest.MonkeyPatch) -> Path:
    monkeypatch.chdir(tmp_path)
    (tmp_path / "early.scenario").write_text(FAILOVER)
    (tmp_path / "late.scenario").write_text(FAILOVER.replace("off 6 1", "off 12 1"))
    (tmp_path / "line.scenario").write_text(LINE)
    (tmp_path / "ratios.csv").write_text("from,to,prr\n2,3,0.9\n")
    (tmp_path / "places.csv").write_text("id,x,y,name\n1,0,0,cellar\n2,1,0,stairs\n3,2,0,pump\n")
    return tmp_path


def test_compare(folder: Path, capsys: pytest.CaptureFixture[str], undrawn: None) -> None:
    (folder / "notes").write_text("For the <council>.")
    words = ["compare", "early.scenario", "B=late.scenario", "--seeds", "1-2", "--receivers", "hosts", "--site", "North slope", "--notes", "notes",
             "--places", "places.csv", "--ratios", "ratios.csv", "--results", "kept", "-o", "both.html"]  # fmt: skip
    assert main(words) == 0
    told = capsys.readouterr().out.splitlines()
    assert told[0].split() == ["answer", "unit", "early", "early", "±", "B", "B", "±", "better", "missing", "packets"] and len(told) == 12
    assert "of what was put was delivered at whichever host serves" in told[1]
    page = (folder / "both.html").read_text()
    assert "Site: North slope" in page and "For the &lt;council&gt;." in page and "hosts: cellar (rank 0), stairs (rank 1)" in page
    assert "<p>Seeds: 1, 2. " in page and f"<code>{program.checksum()}</code>" in page
    assert len(set(re.findall("its ratios is <code>([0-9a-f]{64})</code>", page))) == 2
    assert "The radios of plan B where its host fails" in page and len(list((folder / "kept").iterdir())) == 4
    # What is kept gives the same once more.
    assert main([*words, "--json"]) == 0
    rows = json.loads(capsys.readouterr().out)
    assert [row["answer"] for row in rows][2] == "median latency" and {"early", "B", "B ±", "better"} <= set(rows[0])
    assert (folder / "both.html").read_text() == page


def table(capsys: pytest.CaptureFixture[str]) -> pd.DataFrame:
    return pd.read_fwf(io.StringIO(capsys.readouterr().out))


def test_capacity(folder: Path, capsys: pytest.CaptureFixture[str]) -> None:
    (folder / "long.scenario").write_text(LINE.replace("frames 12", "frames 60"))
    assert main(["capacity", "long.scenario", "--every", "20", "--sources", "2", "--from", "60", "--receivers", "1"]) == 0
    row = table(capsys).iloc[0]
    assert (row["streams"], row["streams_left"], row["every_seconds"], row["interval"]) == (1, 31, 20, 17)
    assert row["further"] >= 3


def test_importance(folder: Path, capsys: pytest.CaptureFixture[str]) -> None:
    assert main(["importance", "line.scenario", "--only", "1-2,2-3", "--seeds", "1", "--receivers", "1"]) == 0
    assert table(capsys)[["one", "other", "ratio", "ratio_cut"]].values.tolist() == [[1, 2, 1, 0], [2, 3, 1, 0]]
    assert main(["importance", "line.scenario", "--of", "nodes", "--only", "2", "--seeds", "1", "--receivers", "1"]) == 0
    assert table(capsys)[["node", "change"]].values.tolist() == [[2, -1]]
    # By the names of nodes, which the text has.
    (folder / "named.scenario").write_text(Scenario.read(LINE).text(warn=False).replace("profile", "#: name 2 stairs\nprofile"))
    assert main(["importance", "named.scenario", "--only", "1-stairs", "--seeds", "1"]) == 0
    assert table(capsys)["other"].tolist() == ["stairs"]
    assert main(["timeline", "named.scenario", "--nodes", "stairs,3"]) == 0
    assert "stairs" in (folder / "timeline.svg").read_text()


@pytest.mark.parametrize(
    ("words", "says"),
    [
        (["compare", "line.scenario"], "a comparison takes two plans or more"),
        (["compare", "line.scenario", "./line.scenario"], "two plans are called 'line': name them, as in A=./line.scenario"),
        (["compare", "line.scenario", "late.scenario", "--seeds", "2-1"], "`--seeds` is '2-1', and has no seed"),
        (["compare", "line.scenario", "late.scenario", "--seeds", "1-99999999999999"], "a seed is at most 9,999,999,999,999"),
        (["sweep", "line.scenario", "--ratios", "ratios.csv", "--seeds", "1-9999999999999"], "has 9,999,999,999,999 seeds; at most 1,000,000 are taken"),
        (["capacity", "line.scenario", "--every", "10", "--interval", "0"], "`interval` is 0, and has to be a whole number from 1 to 120"),
        (["capacity", "line.scenario", "--every", "10", "--interval", "-3"], "`interval` is -3, and has to be a whole number from 1 to 120"),
        (["capacity", "line.scenario", "--every", "10", "--ratio", "nan"], "`ratio` is nan, and has to be a number from 0 to 1 above 0"),
        (["capacity", "line.scenario", "--every", "nan"], "`every` is nan, and has to be a number above 0"),
        (["capacity", "line.scenario", "--every", "10", "--from", "inf"], "`start_seconds` is inf, and has to be a number"),
        (["capacity", "line.scenario", "--every", "10", "--sources", "2,3,2"], "`sources` has node 2 twice"),
        (["importance", "line.scenario", "--only", "1-3"], "`candidates` has 1-3, and no link joins these; links join node 1 with 2 and node 3 with 2"),
        (["compare", "line.scenario", "late.scenario", "--receivers", "9"], "`receivers`: the scenario has no node 9"),
        (["capacity", "line.scenario"], "there are not two packets with 60 s between them; take a longer run"),
        (["capacity", "line.scenario", "--every", "10", "--sources", "9"], "the scenario has no node 9"),
        (["importance", "line.scenario", "--only", "1"], "`--only` is '1', and has to be pairs of nodes"),
        (["importance", "line.scenario", "--of", "nodes", "--only", "pump"], "the scenario has no node pump"),
        (["sweep", ".", "--receivers", "hosts"], "`--receivers` needs `--measure planning`"),
        (["sweep", ".", "--part", "0/2"], "`--part` is '0/2', and has to be K/N with K from 1 to N, as 2/5 for the second of five parts"),
        (["sweep", ".", "--part", "3/2"], "`--part` is '3/2', and has to be K/N with K from 1 to N"),
        (["sweep", ".", "--part", "2"], "`--part` is '2', and has to be K/N"),
        (["sweep", ".", "--part", "4/4"], "`--part` is '4/4', and there are 3 cases alone"),
    ],
)
def test_words_that_make_no_sense(words: list[str], says: str, folder: Path, capsys: pytest.CaptureFixture[str]) -> None:
    assert main(words) == 1
    told = capsys.readouterr()
    assert says in told.err and told.out == "" and "Traceback" not in told.err
    assert not (folder / "plans.html").exists()


def test_what_was_stopped_goes_on(folder: Path, capsys: pytest.CaptureFixture[str], monkeypatch: pytest.MonkeyPatch) -> None:
    """A call that is stopped in its third piece, the seeds of a cut, keeps what it has, and the next one makes the rest."""
    words = ["importance", "line.scenario", "--only", "1-2,2-3", "--seeds", "1-2", "--jobs", "1", "--results", "kept"]
    whole, runs = tallies.arrivals, []

    def stopped(*given: object) -> object:
        runs.append(given)
        if len(runs) == 3:
            raise KeyboardInterrupt
        return whole(*given)  # type: ignore[arg-type]

    monkeypatch.setattr(tallies, "arrivals", stopped)
    assert main(words) == 130
    assert len(list((folder / "kept").iterdir())) == 4 and "foldcairn: stopped" in capsys.readouterr().err
    assert main(words) == 0
    assert len(runs) == 4 and len(list((folder / "kept").iterdir())) == 6


def test_a_draw_is_kept(folder: Path, capsys: pytest.CaptureFixture[str]) -> None:
    texts = []
    for _ in range(2):
        assert main(["draw", "line.scenario", "--ratios", "ratios.csv", "--seed", "3", "--results", "kept"]) == 0
        texts.append(capsys.readouterr())
    # It says how far it is where it draws, and the second call takes what is there.
    assert texts[0].out == texts[1].out and "frames" in texts[0].err and texts[1].err == "" and len(list((folder / "kept").iterdir())) == 1


def test_a_sweep_in_parts(folder: Path, capsys: pytest.CaptureFixture[str]) -> None:
    """The parts have each case once, and by the results that they keep together a call without a part writes the table of all."""
    words = ["sweep", "line.scenario", "--ratios", "ratios.csv", "--seeds", "1-5", "--jobs", "1"]
    seeds = []
    for part in ("1/2", "2/2"):
        assert main([*words, "--results", "kept", "--part", part]) == 0
        seeds.append(pd.read_csv(io.StringIO(capsys.readouterr().out))["seed"].tolist())
    assert seeds == [[1, 3, 5], [2, 4]]
    files = {path.name: path.stat().st_mtime_ns for path in (folder / "kept").iterdir()}
    assert main([*words, "--results", "kept"]) == 0
    gathered = capsys.readouterr().out
    assert len(files) == 5 and {path.name: path.stat().st_mtime_ns for path in (folder / "kept").iterdir()} == files
    assert main(words) == 0
    assert capsys.readouterr().out == gathered


def test_a_sweep_counts_at_receivers(folder: Path, capsys: pytest.CaptureFixture[str]) -> None:
    for path in ("late.scenario", "line.scenario"):
        (folder / path).unlink()
    ratios = []
    for whom in ([], ["--receivers", "2"]):
        assert main(["sweep", ".", "--measure", "planning", "--jobs", "1", *whom]) == 0
        ratios += pd.read_csv(io.StringIO(capsys.readouterr().out))["ratio_of_put"].tolist()
    # Node 2 gets both packets of node 3, and node 1, which is off by then, none.
    assert ratios == [0.5, 1.0]


def test_seeds_without_an_answer_are_told() -> None:
    """In one of B's runs not all nodes joined, so the mean of the others is no better than A's."""
    told = pd.DataFrame({name: 1.0 for name, *_ in compare._ANSWERS}, index=range(4)).assign(plan=["A", "A", "B", "B"], seed=[1, 2, 1, 2])
    told["all_joined_seconds"] = [46.0, 46.0, 26.0, float("nan")]
    told["outage_seconds"] = [9.0, 9.0, 8.0, 8.0]
    rows = compare._table(told, ["A", "B"], "nobody", exact=True).set_index("answer")
    joined = rows.loc["all nodes had joined after the first start"]
    assert (joined["A"], joined["B"], joined["better"], joined["missing"]) == (46, 26, "", "B in 1 of 2 seeds")
    outage = rows.loc["longest outage at a change of hosts, or to the end"]
    assert (outage["better"], outage["missing"]) == ("B", "")
    assert [row["missing"] for row in compare._rows(rows.reset_index(), ["A", "B"]) if row["missing"]] == ["B in 1 of 2 seeds"]
    # With losses that are drawn, two seeds with the same difference are no proof.
    assert (compare._table(told, ["A", "B"], "nobody")["better"] == "").all()


def test_plans_that_share_their_seeds_are_compared_seed_by_seed(tmp_path: Path) -> None:
    """B delivers a little less in each seed. The intervals of the two means overlap by far, and the differences leave no doubt."""
    chance = np.random.default_rng(1)
    bad = chance.normal(93, 3, 40)
    told = pd.concat([pd.DataFrame({"ratio_of_put": ratio / 100, "seed": range(40), "plan": plan}) for plan, ratio in (
        ("A", bad), ("B", bad - chance.normal(0.2, 0.1, 40)), ("C", chance.permutation(bad) - 0.1))])  # fmt: skip
    row = compare._table(told[told["plan"] != "C"], ["A", "B"], "nobody").iloc[0]
    assert abs(row["A"] - row["B"]) < row["A ±"] and stats.ttest_rel(bad, 100 * told.loc[told["plan"] == "B", "ratio_of_put"]).pvalue < 1e-9
    assert row["better"] == "A"
    # C has the same numbers with other seeds: that tells nothing of A, so A is not better than each other.
    assert compare._table(told, ["A", "B", "C"], "nobody")["better"][0] == ""
    assert compare._table(told[told["seed"] == 3], ["A", "B"], "nobody")["better"][0] == ""


def test_which_way_is_better() -> None:
    """More of what is delivered and acknowledged is better; of times, and of time with the radio on, it is less."""
    told = pd.DataFrame({name: [1.0, 1.0, 2.0, 2.0] for name, *_ in compare._ANSWERS}).assign(plan=["A", "A", "B", "B"], seed=[1, 2, 1, 2])
    better = dict(zip((name for name, *_ in compare._ANSWERS), compare._table(told, ["A", "B"], "nobody", exact=True)["better"]))
    assert {name for name, plan in better.items() if plan == "B"} == {"ratio_of_put", "ratio_of_sent_while_on", "request_success"}
    assert set(better.values()) == {"A", "B"}


def test_plans_of_any_kind() -> None:
    lossy = [Scenario.read(LINE).pair(2, 3, ratio) for ratio in (0.9, 0.5)]
    with ThreadPoolExecutor(2) as pool:
        told = planning_compare(lossy, seeds=np.arange(1, 3), executor=pool)
        assert list(told.table)[2:6:2] == ["1", "2"] and told.runs.groupby("plan")["seed"].apply(list).to_dict() == {"1": [1, 2], "2": [1, 2]}
        # A plan whose losses were drawn is compared as its network.
        drawn = {"1": losses.draw(lossy[0], 7), "2": lossy[1]}
        for by in ("log", "sample"):
            again = planning_compare(drawn, seeds=(seed for seed in (1, 2)), executor=pool, by=by)
            wanted = planning_compare(lossy, seeds=[1, 2], executor=pool, by=by)
            assert again.table.equals(wanted.table) and again.table.attrs == wanted.table.attrs
    # Both seeds deliver all of the few packets of this one, and that is no more than they show.
    sure = [Scenario.read(LINE).pair(2, 3, 0.999999), Scenario.read(LINE).pair(2, 3, 0.5)]
    row = planning_compare(sure, seeds=[1, 2], by="sample").table.iloc[0]
    assert (row["1"], row["packets"]) == (100, 2) and row["1 ±"] == pytest.approx(100 - 100 * 0.025**0.5)
    assert compare._rows(planning_compare(sure, seeds=[1, 2], by="sample").table, ["1", "2"])[0]["packets"] == 2
    for given, says in ((lossy[0], "was given a Scenario; write {'A': a, 'B': b}"), (lossy[:1], "was given 1"), (7, "was given a int")):
        with pytest.raises(ArgumentError, match=f"a comparison takes two plans or more by their names, and {says}"):
            planning_compare(given)
    with pytest.raises(ArgumentError, match="`plan B` is a str, and has to be a Scenario; write Scenario.read"):
        planning_compare({"A": lossy[0], "B": LINE})
    with pytest.raises(ArgumentError, match="`seeds` has no seed"):
        planning_compare(lossy, seeds=[])


def test_in_what_plans_differ() -> None:
    """Each setting that differs is named; of the same number of links, what are others is said."""
    plan = Scenario.read(FAILOVER)
    assert differences.of({"A": plan, "B": plan.copy()}) == {}
    other = plan.copy().unlink(1, 3).link(3, 1, 0.9).link(1, 3)
    other.sends, other.profile, other.contend = 1, 2, 3
    assert differences.of({"A": plan, "B": other, "C": plan}) == {
        "profile": ["1", "2", "1"],
        "transmissions of a node in a flood, at most (sends)": ["2", "1", "2"],
        "contention slots of a round (contend)": ["1", "3", "1"],
        "links that lose something": ["0", "1", "0"],
        "streams": ["1 ask for 4 s, packets: 80 s", "1 ask for 4 s, packets: 100 s", "1 ask for 4 s, packets: 80 s"],
        "what happens": ["At 24 s node 1 is switched off.", "At 30 s node 1 is switched off.", "At 24 s node 1 is switched off."],
    }
    others = plan.copy()
    others.links = {(1, 2), (2, 1), (1, 3), (3, 1), (2, 3)}
    fewer = others.copy()
    fewer.links = fewer.links - {(2, 3)} | {(3, 2)}
    assert differences.of({"A": others, "B": fewer}) == {"links": ["5", "5, others"]}


@pytest.mark.parametrize(
    ("words", "given"),
    [
        (None, None), ("hosts", "hosts"), ("1", [1]), ("3,pump", [3, "pump"]), ("7=1,8.1=hosts,others=all", {7: [1], (8, 1): "hosts", "others": "all"}),
        ("pump.2=cellar,no.1 house=all", {("pump", 2): ["cellar"], "no.1 house": "all"}),
    ],
)  # fmt: skip
def test_receivers_of_a_command(words: str | None, given: object) -> None:
    assert commands.receivers(words) == given


def test_a_sink_for_a_stream(folder: Path, capsys: pytest.CaptureFixture[str]) -> None:
    assert main(["report", "line.scenario", "--receivers", "3.0=1"]) == 0
    assert "Delivery ratio by stream, at node 1" in capsys.readouterr().out
    assert main(["report", "line.scenario", "--receivers", "2=1"]) == 1
    assert "names no receiver for stream 0 of node 3" in capsys.readouterr().err


def test_answers_of_many_runs_say_where_they_come_from() -> None:
    network = Scenario.read(LINE).link(2, 3, 0.9)
    with ThreadPoolExecutor(1) as pool:
        cut = planning.importance(network, candidates=[(1, 2)], seeds=[1], executor=pool, progress=False)
        room = planning.capacity(network, every=10, sources=[2], executor=pool, progress=False)
    for table in (cut, room):
        assert table.attrs["program"] == program.checksum() and table.attrs["seeds"] == [1] and len(table.attrs["text"]["scenario"]) == 64
    network.link(2, 3, 0.8)
    with ThreadPoolExecutor(1) as pool:
        assert planning.importance(network, candidates=[(1, 2)], seeds=[1], executor=pool, progress=False).attrs["text"] != cut.attrs["text"]
