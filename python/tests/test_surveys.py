"""Tables as surveys give them: other names of columns, names of nodes, and mistakes, which are told by their row."""

from __future__ import annotations

import json
import re
from pathlib import Path

import pandas
import pytest

from foldcairn import planning
from foldcairn.__main__ import main
from foldcairn.answers import labels
from foldcairn.draw import plot
from foldcairn.model.scenario import Scenario, ScenarioError
from foldcairn.pages import export, page
from foldcairn.runs import results

NODES = "id,host\n1,0\n2,\n3,1\n"
LINKS = "from,to,prr\n1,2,0.9\n2,1,0.8\n2,3,0.9\n3,2,0.9\n"
STREAMS = "node,interval,every\n3,4,8\n"


def tables(folder: Path, nodes: str = NODES, links: str = LINKS, streams: str = STREAMS) -> list[Path]:
    paths = [folder / f"{name}.csv" for name in ("nodes", "links", "streams")]
    for path, text in zip(paths, (nodes, links, streams)):
        path.write_text(text)
    return paths


def read(folder: Path, **texts: str) -> Scenario:
    return Scenario.from_tables(*tables(folder, **texts), frames=20)


@pytest.mark.parametrize("head", ["from,to,prr", "u,v,prr", "source,target,prr"])
def test_other_names_of_columns(tmp_path: Path, head: str) -> None:
    made = read(tmp_path, links=LINKS.replace("from,to,prr", head))
    assert made.links == {(1, 2), (2, 1), (2, 3), (3, 2)} and made.prr[2, 1] == 0.8 and made.remarks == []


@pytest.mark.parametrize(
    ("texts", "says"),
    [
        ({"nodes": "id,host\n1,0\n2,\n3,1\nA1,\n"}, "the table of nodes, row 4: `id` is 'A1', and has to be a whole number"),
        ({"links": LINKS + "1,A1,0.9\n"}, "the table of links, row 5: `to` is 'A1', and has to be a whole number"),
        ({"nodes": NODES + "2,\n"}, "the table of nodes, row 4: node 2 is given already, by row 2"),
        ({"links": LINKS + "2,1,0.7\n"}, "row 5: the link from 2 to 1 has the ratio 0.7, and row 2 gives it 0.8: write one row with their mean, or"),
        ({"links": LINKS.replace("prr", "PRR")}, "the table of links has the column 'PRR', which is not read: do you mean prr?"),
        ({"links": LINKS.replace("from", "From")}, "the column 'From', which is not read: do you mean from?"),
        ({"streams": STREAMS.replace("interval", "intervall")}, "'intervall', which is not read: do you mean interval?"),
        ({"links": LINKS.replace("from", "a")}, "the table of links lacks the column from (or u or source); it has a, to, prr"),
        ({"links": LINKS.replace("0.8", "80")}, "the table of links, row 2: `link 2 1`: `prr` is 80, and has to be a number from 0 to 1"),
        ({"streams": "node,interval\n3,3600\n"}, "3600, the interval, is from 1 to 120 seconds; ask for 120, and put the packets as seldom"),
    ],
)  # fmt: skip
def test_mistakes_are_told_by_their_row(tmp_path: Path, texts: dict[str, str], says: str) -> None:
    with pytest.raises(ScenarioError) as raised:
        read(tmp_path, **texts)
    assert says in str(raised.value)


def test_a_link_twice_with_the_same_ratio(tmp_path: Path) -> None:
    assert read(tmp_path, links=LINKS + "2,1,0.8\n").prr[2, 1] == 0.8


def test_columns_that_are_not_read(tmp_path: Path) -> None:
    made = read(tmp_path, links="from,to,quality\n1,2,0.9\n2,1,0.55\n2,3,0.9\n3,2,0.9\n", nodes="id,host,floor\n1,0,1\n2,,1\n3,1,2\n")
    floor, ratio = made.cautions()[:2]
    assert floor == "the table of nodes has columns that are not read: 'floor'"
    assert ratio.startswith("no link loses anything, since the table of links has no column prr; its column 'quality' has numbers from 0.55 to")
    assert "name it prr" in ratio and read(tmp_path).remarks == []


# Names of nodes.


@pytest.fixture(scope="module")
def named(tmp_path_factory: pytest.TempPathFactory) -> results.Log:
    folder = tmp_path_factory.mktemp("named")
    paths = tables(
        folder, "id,host,x,y\ncellar,0,0,0\nstairs,,1,0\npump,1,2,0\n", "u,v\ncellar,stairs\nstairs,cellar\nstairs,pump\npump,stairs\n",
        "node,interval,every\npump,4,8\n",
    )  # fmt: skip
    return results.log(Scenario.from_tables(*paths, frames=20).off(2, frame=15))


def test_names_are_kept_as_labels(named: results.Log) -> None:
    scenario = named.scenario
    assert scenario.labels == {1: "cellar", 2: "stairs", 3: "pump"} and scenario.id("pump") == 3 and scenario.name(1) == "cellar"
    with pytest.raises(ScenarioError, match="the scenario has no node well; it has 3 nodes: cellar, stairs, pump"):
        scenario.id("well")


def test_all_tables_have_the_names(named: results.Log) -> None:
    for name, table in planning.tables(named).items():
        for column in {"node", "source", "host", "from_host"} & set(table.columns):
            assert set(table[column]) <= {"cellar", "stairs", "pump", -1}, (name, column)
    assert planning.delivery_ratio(named, "pair", receivers=["cellar"])["node"].tolist() == ["cellar"]
    assert planning.radio_time(named).index.tolist() == ["cellar", "stairs", "pump"]
    assert planning.contention(named, "slot")["nodes"][0] == ("pump",)
    # The tables of `results` are what the program wrote.
    assert set(labels.named(named.scenario, named.receptions)["sender"]) == {"cellar", "stairs", "pump"}
    assert set(named.receptions["sender"]) == {1, 2, 3}
    # A name that some node has is no word for all.
    assert planning.importance(named.scenario, candidates=[("stairs", "pump")], seeds=[1], progress=False)["other"].tolist() == ["pump"]


def test_all_pictures_have_the_names(named: results.Log) -> None:
    def words(figure) -> set[str]:
        figure.draw_without_rendering()
        return {text.get_text() for text in figure.findobj(lambda artist: hasattr(artist, "get_text"))}

    assert {"cellar (host 0)", "stairs", "pump (host 1)"} <= words(plot.topology(named.scenario))
    assert {"host 0, cellar", "stairs"} <= words(plot.timeline(named))
    assert "cellar" in words(plot.delivery(planning.delivery_ratio(named, "pair")))


    assert "slot 1: data pump.0" in words(plot.timeline(named, frame=named.deliveries["frame"][0]))


def test_where_only_some_nodes_have_names(named: results.Log, undrawn: None) -> None:
    scenario = named.scenario.copy()
    scenario.labels = {2: "stairs"}
    scenario.put(2, b"x", frame=8).stream(2, 4, frame=5)
    log = results.log(scenario, warn=False)
    assert planning.delivery_ratio(log)["source"].tolist() == ["stairs", "3"]
    assert planning.hosts(log)["host"].tolist()[0] == "1" and page.text(log, title="Some")
    assert planning.outages(results.log(scenario.off(1, frame=12), warn=False))["to_host"].tolist()[-1] in (-1, "3")


def test_all_that_is_written_has_the_names(named: results.Log, tmp_path: Path, undrawn: None) -> None:
    """The page with the words that the mouse shows, what a notebook shows, and traces: no node is told by its id."""
    shown = page.overview(named).to_json()
    assert "pump in the round of frame" in shown and "stairs has no power" in shown and "cellar opens the round" in shown
    drawn = page.data(named)
    assert drawn["names"] == ["cellar", "stairs", "pump"] and set(drawn["receptions"]["sender"]) <= {0, 1, 2}
    assert any(packet.startswith("data pump.0 number 0") for packet in drawn["packets"])
    assert any(packet.startswith("request pump.0 for 4 s") for packet in drawn["packets"])
    text = page.text(named)
    told = [text[: text.index("<script")], shown, named.scenario._repr_html_(), *planning.cautions(named), *drawn["packets"], *drawn["slots"]["name"]]
    export.trace(named, tmp_path / "trace.json")
    events = json.loads((tmp_path / "trace.json").read_text())["traceEvents"]
    tracks = [event["args"]["name"] for event in events if event["name"] == "thread_name"]
    assert tracks[:3] == ["cellar, host of rank 0", "stairs", "pump, host of rank 1"]
    assert {event["args"]["sender"] for event in events if "sender" in event.get("args", {})} == {"cellar", "stairs", "pump"}
    assert {event["args"]["stream"] for event in events if "stream" in event.get("args", {})} == {"pump.0"}
    for words in (*told, *tracks):
        assert not re.search(r"\bnodes? [0-9]|\b3\.0\b", words), words


def test_a_text_keeps_the_names(named: results.Log) -> None:
    text = named.scenario.text(warn=False)
    places = "#: place 1 0.0 0.0\n#: place 2 1.0 0.0\n#: place 3 2.0 0.0\n"
    assert text.startswith(f"#: name 1 cellar\n#: name 2 stairs\n#: name 3 pump\n{places}profile 1\n")
    read = Scenario.read(text)
    assert read.labels == named.scenario.labels and read.text(warn=False) == text
    # The program takes them for what they are to it, comments; a name may have blanks.
    assert results.log(text).deliveries.equals(named.deliveries)
    read.labels[3] = " old   pump\n"
    assert Scenario.read(read.text(warn=False)).labels[3] == "old pump"
    assert Scenario.read("#: name 9 x\n#: name 3\n#: name x y\n" + text).labels == named.scenario.labels


def test_names_on_the_command_line(named: results.Log, tmp_path: Path, monkeypatch: pytest.MonkeyPatch, capsys: pytest.CaptureFixture[str]) -> None:
    """By the text that a scenario writes, or by the table of places."""
    monkeypatch.chdir(tmp_path)
    Path("named.scenario").write_text(named.scenario.text(warn=False))
    Path("plain.scenario").write_text(named.scenario.text(warn=False).split("pump\n", 1)[1])
    Path("places.csv").write_text("id,x,y\ncellar,0,0\nstairs,1,0\npump,2,0\n")
    Path("links.csv").write_text("u,v,prr\nstairs,pump,0.5\n")
    assert main(["report", "named.scenario", "--receivers", "cellar"]) == 0
    told = capsys.readouterr().out
    assert "Delivery ratio by stream, at cellar" in told and re.search(r"^ +pump +0 ", told, re.MULTILINE)
    assert main(["report", "plain.scenario", "--receivers", "cellar", "--places", "places.csv"]) == 0
    assert capsys.readouterr().out == told
    for name in ("named", "plain"):
        assert main(["topology", f"{name}.scenario", "--places", "places.csv", "--ratios", "links.csv", "-o", f"{name}.svg"]) == 0
    drawn = Path("named.svg").read_text()
    assert "stairs" in drawn and Path("plain.svg").read_text() == drawn
    assert main(["draw", "named.scenario", "--ratios", "links.csv"]) == 0
    told = capsys.readouterr().out
    assert "#: name 3 pump\n" in told and "#: seed 1\n#: prr 2 3 0.5\n" in told
    Path("places.csv").write_text("id,x,y,name\n1,0,0,gate\n2,1,0,\n9,5,5,far\n3,2,0,well\n")
    assert main(["topology", "plain.scenario", "--places", "places.csv", "-o", "other.svg"]) == 0
    assert "gate" in Path("other.svg").read_text()


def test_places_and_ratios_by_names(tmp_path: Path) -> None:
    from foldcairn.model import tables as reading

    frame = pandas.DataFrame({"id": ["cellar", "pump"], "x": [0, 1], "y": [2, 3]})
    assert reading.positions(frame) == {1: (0.0, 2.0), 2: (1.0, 3.0)}
    made = Scenario.from_tables(frame.assign(host=[0, None]), pandas.DataFrame({"u": ["cellar"], "v": ["pump"]}), frames=4)
    assert reading.set_ratios(made, pandas.DataFrame({"u": ["cellar"], "v": ["pump"], "prr": [0.5]})).prr == {(1, 2): 0.5}


def test_payloads_that_are_no_bytes() -> None:
    with pytest.raises(ValueError, match=r"has to be bytes; write b'on'"):
        Scenario(4).node(1).put(1, "on")  # type: ignore[arg-type]


def test_a_scenario_where_a_log_is_due_says_what_to_do() -> None:
    with pytest.raises(ValueError, match=r"takes the log of a run, or its report, and was given a Scenario; write latency\("):
        planning.latency(Scenario(4).node(1))  # type: ignore[arg-type]
