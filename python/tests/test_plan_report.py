"""The report of a plan: what its words and charts say, and the command that writes it."""

from __future__ import annotations

import os
import re
from collections.abc import Iterator
from concurrent.futures import Executor, ThreadPoolExecutor
from dataclasses import replace
from pathlib import Path

import numpy as np
import pandas as pd
import pytest
from matplotlib.collections import LineCollection
from plans import asked, plan, pumps

from foldcairn import report
from foldcairn.__main__ import main
from foldcairn.common.arguments import ArgumentError
from foldcairn.draw import plan_charts
from foldcairn.many.sweep import SweepStopped
from foldcairn.pages import plan_report, plan_tables, plan_words
from foldcairn.plan import Plan
from foldcairn.plan.model import Event, Requirement, Stream
from foldcairn.requirements import drawn as draws, verdicts
from foldcairn.requirements.drawn import Drawn
from foldcairn.runs import losses, program, running

REQUIRED = (
    asked("levels", tag="level", share=0.6) + asked("batteries", years=2.0) + asked("host fails", tag="level", outage=240.0, when="any one host fails")
    + asked("at once", tag="level", share=0.9, deadline=1.0)
)  # fmt: skip


@pytest.fixture(scope="module")
def threads() -> Iterator[Executor]:
    with ThreadPoolExecutor(2) as pool:
        yield pool


@pytest.fixture(scope="module")
def content(threads: Executor) -> plan_report.Content:
    """What the report of the pump house shows."""
    return plan_report.content(plan(REQUIRED), seeds=32, charts=6, executor=threads, progress=False)


# What draws show.


def test_draws_count_as_verdicts_do(content: plan_report.Content, threads: Executor) -> None:
    """The part in time and at all of each draw, on average, and battery lives, are those that requirements have of the same draws."""
    asks = [asked(f"{stream} {what}", streams=[stream], **{what: 0.5}) for stream in ("tank", "valve") for what in ("share", "ratio")]
    years = "".join(asked(f"years of {node}", nodes=node, years=0.2) for node in ("pump", "valve", "tank"))
    made = plan("".join(asks) + years)
    # One look, at which nothing is decided for want of draws.
    table = verdicts(made, 6, executor=threads, progress=False).set_index("requirement")["value"]
    means = content.drawn.streams.groupby("stream")[["in_time", "arrived"]].mean()
    lives = content.drawn.batteries.groupby("node")["years"].mean()
    for stream in ("tank", "valve"):
        assert means["in_time"][stream] == pytest.approx(table[f"{stream} share"]) and means["arrived"][stream] == pytest.approx(table[f"{stream} ratio"])
    for node in ("pump", "valve", "tank"):
        assert lives[node] == pytest.approx(table[f"years of {node}"])
    assert set(lives.index) == {"pump", "valve", "tank"}


def test_packets_of_a_draw(content: plan_report.Content) -> None:
    """The tank puts a packet each 20 s from 60 s on, and those count whose deadline of 25 s lies in the 720 s of the run."""
    packets = content.drawn.packets
    tank = packets[packets["stream"] == "tank"]
    assert tank["put_seconds"].tolist() == [60.0 + 20 * number for number in range(32)]
    in_time = float((tank["seconds"] <= 25).mean())
    assert in_time == pytest.approx(content.drawn.streams.query("stream == 'tank' and seed == 1")["in_time"].iloc[0])
    assert content.drawn.seeds == (1, 2, 3, 4, 5, 6) and set(content.drawn.latencies["seed"]) <= {1, 2, 3, 4, 5, 6}


def test_streams_to_several_nodes_and_without_a_deadline(threads: Executor) -> None:
    """Without losses a packet to all comes to each of three nodes, and its last delivery is as late as any."""
    text = pumps(near=1.0).replace("0.95", "1.0").replace("0.6", "1.0").replace("0.97", "1.0")
    made = Plan.parse(text.replace('to = "pump"\nevery = 30', 'to = "all"\nevery = 30').replace("deadline = 30\n", ""))
    found = draws.drawn(made, [3], executor=threads)
    valve = found.streams.set_index("stream").loc["valve"]
    assert np.isnan(valve["in_time"]) and valve["arrived"] == 1.0
    ours, each = found.packets.query("stream == 'valve'"), found.latencies.query("stream == 'valve'")
    # 19 packets from 80 s on are put 60 s before the end or earlier; 22 are put in all.
    assert len(ours) == 20 and len(each) % 3 == 0 and ours["seconds"].max() <= each["seconds"].max()


def test_an_executor_that_breaks_down() -> None:
    pool = ThreadPoolExecutor(1)
    pool.shutdown()
    with pytest.raises(SweepStopped, match="the executor broke down"):
        draws.drawn(plan(""), [1], executor=pool)


# Words.


@pytest.mark.parametrize(("keys", "says"), [
    ({"tag": "level", "share": 0.999}, "99.9 % or more of the packets of tank come within 25 s."),
    ({"share": 0.9}, "90 % or more of the packets of each of tank and valve come within their deadlines of 25 to 30 s."),
    ({"share": 0.9, "deadline": 12.5, "to": "hosts"}, "90 % or more of the packets of each of tank and valve come within 12.5 s to whichever host serves."),
    ({"streams": ["valve"], "ratio": 0.9, "to": ["pump", "tank"]}, "90 % or more of the packets of valve come at all to pump and tank."),
    ({"streams": ["valve"], "ratio": 0.9, "to": "all"}, "90 % or more of the packets of valve come at all to all nodes."),
    ({"streams": ["valve"], "ratio": 0.9, "to": "tank", "part": 0.95},
     "90 % or more of the packets of valve come at all to tank, in 95 % of the draws or more."),
    ({"years": 2.0}, "The battery of each of the 3 nodes with a battery lasts 2 years or more."),
    ({"years": 2.0, "nodes": "tank"}, "The battery of tank lasts 2 years or more."),
    ({"joined": 60.0}, "The 4 nodes are members of a host within 60 s."),
    ({"joined": 60.0, "nodes": ["tank"]}, "Tank is a member of a host within 60 s."),
    ({"tag": "level", "outage": 240.0, "when": "pump fails", "at": 300.0},
     "Tank is without a delivery for 240 s at most, where pump fails for good after 300 s."),
    ({"tag": "level", "outage": 240.0, "when": "any one node fails"},
     "Tank is without a delivery for 240 s at most, where any one node fails for good after 240 s."),
])  # fmt: skip
def test_what_a_requirement_asks_for(keys: dict[str, object], says: str) -> None:
    made = plan(asked("it", **keys))
    assert plan_words.asked(made, made.requirements[0]) == says


def test_many_streams_and_nodes_of_a_tag() -> None:
    made = plan(asked("it", tag="level", share=0.9) + asked("all", ratio=0.9))
    made.requirements.append(Requirement("far", nodes="far", years=1.0))
    made.streams |= {f"s{number}": Stream("tank", f"s{number}", "all", number=number, every=30, deadline=9, tags=["level"]) for number in (1, 2, 3)}
    made.nodes["tank"].tags = made.nodes["valve"].tags = ["far"]
    level, every, far = (plan_words.asked(made, one) for one in made.requirements)
    assert level == "90 % or more of the packets of each of the 4 streams of level come within their deadlines of 9 to 25 s."
    assert every == "90 % or more of the packets of each of all 5 streams come at all."
    assert far == "The battery of each of the 2 nodes with a battery of far lasts 1 years or more."


def _row(verdict: str, **given: object) -> dict[str, object]:
    row = {"value": 0.9812, "unit": "of packets", "low": 0.97, "high": 0.99, "worst": "S", "draws": 40, "packets": 1234, "needs": 40}
    return {"verdict": verdict, **row, **given}


def test_what_was_found_and_how_sure_it_is() -> None:
    assert plan_words.found(_row("not met")) == "The worst, S, has 98.12 % of its packets; the true value is from 97 to 99 %."
    assert plan_words.found(_row("met", unit="of draws")) == "It holds in 98.12 % of the draws; the true value is from 97 to 99 %."
    lives = _row("met", unit="years", value=2.5, low=2.25, high=2.75)
    assert plan_words.found(lives) == "The worst, S, has 2.5 years; the true value is from 2.25 to 2.75 years."
    assert plan_words.found(_row("impossible")) == "No run can meet it." and plan_words.found(_row("not decided", value=np.nan)) == "Nothing was counted."
    assert plan_words.sure(_row("met"), 0.95) == "By 40 draws with 1,234 packets, with 95 % confidence."
    assert plan_words.sure(_row("not met", draws=1, packets=0), 0.9) == "By 1 draw, with 90 % confidence."
    assert plan_words.sure(_row("not decided", needs=1200), 0.95) == "Open after 40 draws with 1,234 packets. It would take some 1,200 draws."
    assert plan_words.sure(_row("not decided", needs=pd.NA), 0.95).endswith("No number of draws that could be named decides it.")
    assert plan_words.sure(_row("impossible"), 0.95).startswith("Certain")


@pytest.mark.parametrize(("found", "says"), [
    (["met"], "The plan meets its requirement."), (["met", "met"], "The plan meets all its 2 requirements."),
    (["not met"], "The plan does not meet its requirement: it is not met."),
    (["met", "impossible", "not met", "not met"], "The plan does not meet its requirements: of 4 requirements 1 is met, 2 are not met and 1 is impossible."),
    (["met", "not decided"], "It is not decided whether the plan meets its requirements: of 2 requirements 1 is met and 1 is not decided."),
])  # fmt: skip
def test_all_verdicts_in_a_sentence(found: list[str], says: str) -> None:
    assert plan_words.whole(pd.DataFrame({"verdict": found})) == says


def test_what_happens_in_a_plan() -> None:
    told = [
        plan_words.event(one) for one in (
            Event("forklift", "R", between=[600.0, 2400.0], duration=300.0, ratio=0.25), Event(link=["A", "B"], at=60.0, off=True),
            Event("crane", area=[0.0, 0.0, 9.0, 9.0], at=60.0, duration=5.0, every=600.0),
        )
    ]  # fmt: skip
    assert told == [
        "forklift: R passes 25 % at most at a drawn time from 600 to 2,400 s for 300 s.", "A – B passes nothing at 60 s.",
        "crane: the area 0, 0, 9, 9 m has no power at 60 s for 5 s, again each 600 s.",
    ]  # fmt: skip


def test_tables_of_streams(content: plan_report.Content) -> None:
    made = replace(content.plan, streams={
        **content.plan.streams, "a": Stream("tank", "a", ["pump", "valve"], 1, sporadic=60.0), "b": Stream("tank", "b", "all", 2, at=[5.0, 9.0]),
    })  # fmt: skip
    told = str(plan_tables.streams(made, content.drawn))
    for words in ("pump and valve", "at random, 60 s apart", "all nodes", "at 2 times", "the host", "each 20 s", "25 s"):
        assert f"<td>{words}</td>" in told
    assert plan_tables.settings(replace(made, settings=replace(made.settings, keep_alive=120.0, vary_ids=True)))["Ids of nodes"] == "drawn by each seed"


# Charts.


def test_the_boxes_of_streams_have_their_own_deadlines(content: plan_report.Content) -> None:
    figure = plan_charts.deadlines(content.drawn, {"tank": 25.0, "valve": 30.0})
    axes = figure.axes[0]
    marks = next(drawn for drawn in axes.collections if isinstance(drawn, LineCollection))
    rows = [label.get_text() for label in axes.get_yticklabels()]
    # The worst comes first, at the top.
    means = plan_charts.in_time(content.drawn)
    assert rows == ["tank", "valve"] and means["tank"] < means["valve"] and axes.get_ylim()[0] > axes.get_ylim()[1]
    assert [segment[:, 0].tolist() for segment in marks.get_segments()] == [[25.0, 25.0], [30.0, 30.0]]
    assert axes.get_xscale() == "log" and axes.get_xlabel().endswith("logarithmic")
    medians = [float(line.get_xdata()[0]) for line in axes.lines if line.get_linewidth() == 1.4]
    assert medians == pytest.approx([content.drawn.latencies.groupby("stream")["seconds"].median()[name] for name in rows])
    assert any(text.get_text().endswith("% in time") for text in axes.texts)


def _drawn(**given: pd.DataFrame) -> Drawn:
    empty = {"latencies": ["stream", "seed", "seconds"], "streams": ["stream", "seed", "packets", "in_time", "arrived"], "batteries": ["node", "seed", "years"],
             "packets": ["stream", "put_seconds", "seconds"]}  # fmt: skip
    return Drawn((1,), **{name: given.get(name, pd.DataFrame(columns=columns)) for name, columns in empty.items()})


def test_streams_of_which_nothing_came_or_was_due() -> None:
    rows = pd.DataFrame([("late", 1, 4, 0.5, 1.0), ("none", 1, 0, np.nan, np.nan), ("free", 1, 4, np.nan, 0.75)],
                        columns=["stream", "seed", "packets", "in_time", "arrived"])  # fmt: skip
    found = _drawn(streams=rows, latencies=pd.DataFrame({"stream": "late", "seed": 1, "seconds": [1.0, 30.0]}))
    axes = plan_charts.deadlines(found, {"late": 20.0, "none": 20.0, "free": None}).axes[0]
    assert {text.get_text() for text in axes.texts} == {"50 % in time", "none was due", "75 % came"}
    with pytest.raises(ValueError, match="no packet came"):
        plan_charts.deadlines(_drawn(), {})
    with pytest.raises(ValueError, match="there is no packet"):
        plan_charts.over_time(_drawn().packets, {}, 60.0)
    with pytest.raises(ValueError, match="no node has a battery"):
        plan_charts.batteries(_drawn(batteries=pd.DataFrame({"node": ["A"], "seed": [1], "years": [np.inf]})), {})


def test_how_values_spread_over_draws() -> None:
    axes = plan_charts.spread([0.9, 0.9, 0.95, np.nan], 0.99, "%").axes[0]
    assert sum(patch.get_height() for patch in axes.patches) == 3 and axes.lines[0].get_xdata()[0] == pytest.approx(99)
    assert sorted(patch.get_height() for patch in axes.patches)[-2:] == [1, 2]
    with pytest.raises(ValueError, match="no draw has a value"):
        plan_charts.spread([np.nan], 1.0, "s")


def test_batteries_and_what_is_wanted_of_them() -> None:
    lives = pd.DataFrame([(f"N{number}", seed, number + 0.1 * seed) for number in range(1, 9) for seed in (1, 2)], columns=["node", "seed", "years"])
    axes = plan_charts.batteries(_drawn(batteries=lives), {"N2": 40.0}, most=3).axes[0]
    assert [label.get_text() for label in axes.get_yticklabels()] == ["N1", "N2", "N3"] and axes.get_xscale() == "log"
    assert plan_charts.battery_lives(_drawn(batteries=lives)).loc["N1"].tolist() == pytest.approx([1.1, 1.15, 1.2])
    near = plan_charts.batteries(_drawn(batteries=lives), {}, narrow=True).axes[0]
    assert near.get_xscale() == "linear" and near.get_xlim()[0] == 0


def test_one_draw_over_time() -> None:
    """60 cells of 2 s: in the first one of two packets is in time, in the second none is, in the last one without a deadline came."""
    packets = pd.DataFrame([("a", 0.5, 3.0), ("a", 1.0, 30.0), ("a", 2.0, np.nan), ("b", 119.0, 99.0)], columns=["stream", "put_seconds", "seconds"])
    axes = plan_charts.over_time(packets, {"a": 10.0, "b": None, "c": 5.0}, 120.0, [40.0]).axes[0]
    shares = np.ma.filled(axes.images[0].get_array(), np.nan)
    assert shares.shape == (2, 60) and shares[0, :2].tolist() == [0.5, 0.0] and shares[1, -1] == 1.0
    assert np.isnan(shares).sum() == 2 * 60 - 3 and [line.get_xdata()[0] for line in axes.lines] == [40.0]


# The page.


@pytest.fixture(scope="module")
def page(content: plan_report.Content) -> str:
    return plan_report.text(content, notes="For the meeting.\n\nOn Monday.")


def test_the_first_page_says_what_is_met_and_how_sure_that_is(page: str) -> None:
    begin = page[: page.index('<section id="part-2">')]
    assert '<h1>Pump house</h1>' in begin and "<p>For the meeting.</p><p>On Monday.</p>" in begin
    assert '<p class="answer not-met">The plan does not meet its requirements: of 4 requirements 2 are met, 1 is not met and 1 is impossible.</p>' in begin
    verdict = re.findall(r'<b>([^<]*)</b>.*?class="verdict [^"]*">([^<]*)<', begin)
    assert verdict == [("levels", "met"), ("batteries", "not met"), ("host fails", "met"), ("at once", "impossible")]
    assert "By 32 draws with 1,024 packets, with 95 % confidence." in begin and "<i>What would help:</i>" in begin
    assert re.findall(r'<a href="#(part-\d)">', begin) == re.findall(r'<section id="(part-\d)"', page) == [f"part-{number}" for number in range(1, 10)]


def test_what_follows(page: str) -> None:
    text = re.sub(r"base64,[^\"]*", "", page)
    assert "How long packets take by 6 draws, seeds 1 to 6" in text
    assert "levels: tank, 32 draws." in text and "batteries: tank, 8 draws. It is as it is wanted in none of them." in text
    assert "host fails, any one host fails: met." in text
    assert "This is one draw, that of seed 1" in text and "What came in time in one draw, seed 1" in text and "The radios in one draw, seed 1" in text
    assert "<code>Plan.write</code>" in text and "<tr><th>Hosts</th><td>gateway (rank 0) and pump (rank 1)</td></tr>" in text
    # A chart of rows has another picture for a phone.
    assert text.count("<source media=") == 3 and "http" not in text


def test_a_failure_table_is_shown(content: plan_report.Content, undrawn: None) -> None:
    table = pd.DataFrame({"failed": ["pump", "<b>"], "breaks": [1, 0]})

    class Found:
        nodes = table

    for given in (table, Found()):
        told = plan_report.text(replace(content, failures=given))
        assert "<td>pump</td>" in told and "<td>&lt;b&gt;</td>" in told
    none = plan_report.text(replace(content, judged=None, plan=replace(content.plan, requirements=[])))
    assert "No requirement is about a failure, and none was tried." in none and "The plan requires nothing" in none and "Nothing was drawn" in none


def test_a_plan_that_is_too_long_for_a_log_keeps_the_rest(monkeypatch: pytest.MonkeyPatch, threads: Executor, undrawn: None) -> None:
    def refused(*_: object, **__: object) -> None:
        raise program.Refused(None, "TooBig", "", "too long")

    def too_many(*_: object, **__: object) -> None:
        raise losses.TooManyLosses(5, 4)

    for cannot in (refused, too_many):
        monkeypatch.setattr(running, "run", cannot)
        shown = plan_report.content(plan(""), charts=1, seed=4, executor=threads, progress=False)
        told = plan_report.text(shown)
        assert shown.log is None and "What came in time in one draw, seed 4" in told and "The radios" not in told
        assert "by one draw, seed 4" in told

    def wrong(*_: object, **__: object) -> None:
        raise program.Refused(3, "BadWord", "x", "no word")

    monkeypatch.setattr(running, "run", wrong)
    with pytest.raises(program.Refused):
        plan_report.content(plan(""), charts=1, executor=threads, progress=False)


# The command.


@pytest.fixture
def hall(tmp_path: Path, monkeypatch: pytest.MonkeyPatch) -> Path:
    monkeypatch.chdir(tmp_path)
    path = Path("plan.toml")
    path.write_text(pumps(asked("levels", tag="level", share=0.6), settings='site = "Brook & Co"'))
    return path


def test_the_command_writes_the_report_of_a_plan(hall: Path, undrawn: None, capsys: pytest.CaptureFixture[str]) -> None:
    Path("notes.txt").write_text("Of <ours>.")
    words = ["report", str(hall), "--seeds", "32", "--charts", "2", "--jobs", "1", "--resume", "kept", "--notes", "notes.txt", "--title", "A house"]
    assert main(words) == 0
    assert capsys.readouterr().out == "report.html: The plan meets its requirement.\n"
    told = Path("report.html").read_text(encoding="utf-8")
    assert "<h1>A house</h1>" in told and "Site: Brook &amp; Co." in told and "<p>Of &lt;ours&gt;.</p>" in told and len(os.listdir("kept")) >= 1
    # The same draws are the same report.
    assert main([*words, "--html", "again.html"]) == 0 and Path("again.html").read_bytes() == Path("report.html").read_bytes()
    hall.write_text(pumps())
    assert main(["report", str(hall), "--charts", "1"]) == 0
    assert capsys.readouterr().out.endswith("report.html: the plan requires nothing\n")


@pytest.mark.parametrize(("words", "says"), [
    (["--receivers", "hosts"], "`--receivers` is for one run: give --seed too, or write it in the plan"),
    (["--capacity-mah", "5"], "`--capacity-mah` is for one run"), (["--charts", "0"], "`charts` is 0, and has to be .*from 1 to 1,000"),
    (["--seeds", "0"], "`seeds` is 0"), (["--seed", "2", "--charts", "3"], r"`--charts` is for the report of a plan \(.toml\)"),
    (["--json", "--resume", "x"], "`--resume` is for the report of a plan"),
])  # fmt: skip
def test_words_that_a_report_does_not_take(words: list[str], says: str, hall: Path, capsys: pytest.CaptureFixture[str]) -> None:
    assert main(["report", str(hall), *words]) == 1
    assert re.search(says, capsys.readouterr().err) and not Path("report.html").exists()


def test_the_call_of_a_report(content: plan_report.Content, monkeypatch: pytest.MonkeyPatch, tmp_path: Path, undrawn: None) -> None:
    monkeypatch.setattr(plan_report, "content", lambda made, **given: replace(content, plan=made))
    assert report.of_plan(content.plan, tmp_path / "x.html", title="T") == tmp_path / "x.html"
    assert "<h1>T</h1>" in (tmp_path / "x.html").read_text()
    with pytest.raises(ArgumentError, match="`charts` is 'x'"):
        monkeypatch.undo()
        report.of_plan(content.plan, tmp_path / "y.html", charts="x")
