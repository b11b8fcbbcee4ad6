"""What tables must not do: build another network than the one that was meant. Files that are no tables, names and ids that may be taken
for others, ratios that are not given, and samples over time."""

from __future__ import annotations

import gzip
import io
import math
from pathlib import Path

import pandas
import pytest

from foldcairn.model import tables
from foldcairn.model.scenario import Scenario, ScenarioError
from foldcairn.runs import losses, results

NODES = "id,host\n1,0\n2,\n3,1\n"
LINKS = "from,to,prr\n1,2,0.9\n2,1,0.8\n2,3,0.9\n3,2,0.9\n"


def made(folder: Path, nodes: str | bytes = NODES, links: str | bytes = LINKS, frames: int = 20) -> Scenario:
    paths = [folder / f"{name}.csv" for name in ("nodes", "links")]
    for path, text in zip(paths, (nodes, links)):
        path.write_bytes(text.encode() if isinstance(text, str) else text)
    return Scenario.from_tables(*paths, frames=frames)


# Files.


@pytest.mark.parametrize(
    ("links", "says"),
    [
        (b"", "links.csv: it is empty; its first line has the names of the columns"),
        (b"\n \n", "links.csv: it is empty"),
        ("from,to,prr,site\n1,2,0.9,Süd\n".encode("latin-1"), "links.csv: byte 10 of line 2, fc, is not UTF-8; save it as UTF-8 (in Latin-1 it is 'ü')"),
        (LINKS.encode("utf-16"), "links.csv: it is in UTF-16; save it as UTF-8"),
        (gzip.compress(LINKS.encode()), "links.csv: it is compressed, by gzip; unpack it first"),
        (b"PK\x03\x04sheet", "links.csv: it is compressed, by zip, as the files of Excel are; unpack it first"),
        (b"from,to,prr\n1,2,0,9\n", "links.csv: line 2 has 4 cells, and the first line names 3 columns; numbers have a point and no comma"),
        (b"from,to,prr,prr\n1,2,0.9,0.1\n", "links.csv: it has the column 'prr' twice"),
        (b"from;to;prr\n1;2;0,9\n", "the table of links, row 1: `prr` is '0,9', and has to be a number; write 0.9, with a point"),
        (b'from,to,prr\n1,2,"' + b"9" * 200_000, "links.csv: field larger than field limit"),
    ],
)  # fmt: skip
def test_files_that_are_no_tables(tmp_path: Path, links: bytes, says: str) -> None:
    with pytest.raises(ScenarioError) as raised:
        made(tmp_path, links=links)
    assert says in str(raised.value)


def test_what_is_never_read(tmp_path: Path, monkeypatch: pytest.MonkeyPatch) -> None:
    """An address is not fetched, a folder is none, and of a file that is too large no more is read than shows it."""
    import urllib.request

    monkeypatch.setattr(urllib.request, "urlopen", lambda *_, **__: pytest.fail("it was fetched"))
    for source, says in (("http://127.0.0.1/links.csv", "it is an address, and nothing is fetched"), (tmp_path, "it is a folder, and no CSV file")):
        with pytest.raises(ScenarioError, match=f"the table of links, .*: {says}"):
            tables.set_ratios(made(tmp_path), source)
    with (tmp_path / "large.csv").open("wb") as file:
        file.truncate(200 * 2**20)
    with pytest.raises(ScenarioError, match="large.csv: it has more than 64 MiB, which are the most that are read"):
        tables.set_ratios(made(tmp_path), tmp_path / "large.csv")
    with pytest.raises(FileNotFoundError):
        tables.set_ratios(made(tmp_path), tmp_path / "none.csv")


@pytest.mark.parametrize("links", [
    LINKS, LINKS.replace(",", ";"), LINKS.replace(",", "\t"), LINKS.replace(",", " , "), "\ufeff" + LINKS, LINKS.replace("\n", "\r\n"),
    LINKS.replace("prr\n", "prr,\n").replace("0.9\n", "0.9,\n\n"), '"from","to","prr"\n"1","2","0.9"\n2,1,8e-1\n2,3,.9\n3,2,+0.90\n',
])  # fmt: skip
def test_what_stands_between_cells(tmp_path: Path, links: str) -> None:
    read = made(tmp_path, links=links)
    assert read.prr == {(1, 2): 0.9, (2, 1): 0.8, (2, 3): 0.9, (3, 2): 0.9}
    assert tables.set_ratios(read.copy(), io.StringIO(links)).prr == read.prr
    assert tables.set_ratios(read.copy(), io.BytesIO(links.encode())).prr == read.prr


# Names and ids.


@pytest.mark.parametrize(
    ("nodes", "says"),
    [
        ("id,name\n1,gw\n2,pump\n3,pump\n", "the table of nodes, row 3: `name` is 'pump', which row 2 has too; names have to differ"),
        ("id,name\n1,2\n2,3\n3,1\n", "the table of nodes, row 1: `name` is '2', a name that is also the id of another node, 3"),
        ("id,name\n1,gw\n7,b\n3,007\n", "the table of nodes, row 3: `name` is '007', a name that is also the id of another node, b"),
        ("id,name\n1,101\n2,\n3,103\n", "the table of nodes, row 2: `name` is not given, and other nodes have names; write one, or 2, its id"),
        ("id\n1\n007\n3\n", "the table of nodes, row 2: `id` is '007', which may be the number 7 or a name; write 7, or a name that is no number, as n007"),
        ("id\n1\n2\n4E1\n", "the table of nodes, row 3: `id` is '4E1', which may be the number 40 or a name; write 40"),
        ("id\n1\n2\n1_0\n", "the table of nodes, row 3: `id` is '1_0', which may be the number 10 or a name; write 10"),
        ("id\n1\n0x2\n3\n", "the table of nodes, row 2: `id` is '0x2', which may be the number 2 or a name; write 2"),
        ("id\ngw\npump\n2\nwell\n", "the table of nodes, row 3: `id` is '2', a name that is also the id of another node, pump (nodes that are given by names"),
        ("id\ngw\npump\nwell\npump\n", "the table of nodes, row 4: node pump is given already, by row 2"),
        ("id\n1\nNA\n3\n", "the table of nodes, row 2: `id` is 'NA', and has to be a whole number"),
    ],
)  # fmt: skip
def test_names_and_ids_that_may_be_others(tmp_path: Path, nodes: str, says: str) -> None:
    with pytest.raises(ScenarioError) as raised:
        made(tmp_path, nodes=nodes, links="from,to\n1,2\n")
    assert says in str(raised.value)


def test_names_that_are_numbers_of_no_other_node(tmp_path: Path) -> None:
    """Digits stay as they are written, also in a DataFrame whose column pandas has made numbers of."""
    links = "from,to\n101,4E1\n4E1,101\n"
    read = made(tmp_path, "id,name,host\n1,101,0\n2,4E1,\n3,003,\n", links)
    assert read.labels == {1: "101", 2: "4E1", 3: "003"} and read.links == {(1, 2), (2, 1)}
    read = made(tmp_path, "id,host\nNA,0\n4E1,\nA  1,\n", "from,to\nNA,4E1\nA 1,NA\n")
    assert read.labels == {1: "NA", 2: "4E1", 3: "A 1"} and read.links == {(1, 2), (3, 1)}
    nodes = pandas.DataFrame({"id": [1, 2, 3], "name": [101.0, 102.0, 103.0]})
    read = Scenario.from_tables(nodes, pandas.DataFrame({"from": [101.0, 1], "to": [102, 3.0]}), frames=4)
    assert read.labels == {1: "101", 2: "102", 3: "103"} and read.links == {(1, 2), (1, 3)}
    with pytest.raises(ScenarioError, match="row 2: `id` is 2.5, and has to be a whole number"):
        Scenario.from_tables(pandas.DataFrame({"id": [1, 2.5]}), pandas.DataFrame({"from": [], "to": []}), frames=4)
    # A column of names in which nothing stands is none.
    assert made(tmp_path, "id,name\n1,\n2,\n", "from,to\n1,2\n").labels == {}


def test_ids_by_the_order_of_rows(tmp_path: Path) -> None:
    """Ids rule who contends with whom, so the same plant gives other delays with its rows in another order; numbers pin them."""
    links = "from,to\ngw,pump\npump,gw\n"
    (told,) = made(tmp_path, "id,host\ngw,0\npump,\nwell,\n", links).remarks
    assert told.startswith("nodes have the ids 1 to 3 by the order of the rows of the table of nodes, and ids rule which nodes")
    assert "a column `id` with numbers beside a column `name` pins them" in told
    assert made(tmp_path, "id,name,host\n1,gw,0\n2,pump,\n3,well,\n", links).remarks == []


def test_names_in_other_tables(tmp_path: Path) -> None:
    named = made(tmp_path, "id,host\nS1,0\nA-101,\n", "from,to\nS1,A-101\nA-101,S1\n")
    for links, says in (("from,to,prr\ns1,A-101,0.5\n", "`from` is 's1', and no node has this name; did you mean S1?"),
                        ("from,to,prr\nS1,A 101,0.5\n", "`to` is 'A 101', and no node has this name; did you mean A-101?")):  # fmt: skip
        with pytest.raises(ScenarioError) as raised:
            tables.set_ratios(named, io.StringIO(links))
        assert says in str(raised.value)
    # Names that were given otherwise than by a table may be those of two nodes.
    named.labels = {1: "2", 2: "gate"}
    with pytest.raises(ScenarioError, match="`from` is 2, which is the name of node 1 and the id of node 2; give that node another name"):
        tables.set_ratios(named, io.StringIO("from,to,prr\n2,1,0.5\n"))
    named.labels = {1: "gate", 2: "gate"}
    with pytest.raises(ScenarioError, match="`from` is 'gate', the name of nodes 1 and 2; names have to differ"):
        tables.set_ratios(named, io.StringIO("from,to,prr\ngate,1,0.5\n"))
    with pytest.raises(ScenarioError, match="row 2: `id` is 'a', which row 1 has too; names have to differ"):
        tables.positions(io.StringIO("id,x,y\na,1,1\na,2,2\n"), Scenario(4).node(1).node(2))
    named.labels = {1: "S1", 2: "A-101"}
    drawn = losses.read_table(named, pandas.DataFrame({"frame": [1], "slot": [0], "counter": [0], "from": ["S1"], "to": ["A-101"]}))
    assert [(loss.sender, loss.receiver) for loss in drawn.losses] == [(1, 2)]
    drawn = losses.read_table(named, io.StringIO("seconds,slot,node\n4.5,0,A-101\n"))
    assert {(loss.frame, loss.sender, loss.receiver) for loss in drawn.losses} == {(1, 1, 2)}


# Ratios.


@pytest.mark.parametrize("cell", ["", " ", "n/a", "NA", "-", "–", "null"])
def test_a_ratio_that_is_not_given_is_no_perfect_link(tmp_path: Path, cell: str) -> None:
    links = f"from,to,prr\n1,2,0.9\n2,1,{cell}\n"
    for read in (lambda: made(tmp_path, links=links), lambda: tables.set_ratios(made(tmp_path), io.StringIO(links))):
        with pytest.raises(ScenarioError, match="the table of links, row 2: `prr` is .*; write the ratio, from 0 to 1, of a link that passes nothing 0"):
            read()
    with pytest.raises(ScenarioError, match="row 1: `prr` is not given"):
        Scenario.from_tables(pandas.DataFrame({"id": [1, 2]}), pandas.DataFrame({"from": [1], "to": [2], "prr": [math.nan]}), frames=4)
    # Where the table has no ratios, links lose nothing; and in other columns such words are gaps.
    assert made(tmp_path, "id,host,ppm\n1,0,NA\n2,n/a,\n", "from,to\n1,2\n").prr == {}


def test_both_directions_of_a_table_of_ratios(tmp_path: Path) -> None:
    read = tables.set_ratios(made(tmp_path), io.StringIO("from,to,prr,both\n1,2,0.5,yes\n2,3,0.6,no\n"))
    assert read.prr == {(1, 2): 0.5, (2, 1): 0.5, (2, 3): 0.6, (3, 2): 0.9}
    tables.set_ratios(read, io.StringIO("from,to,prr,floor\n1,2,0.5,3\n"))
    assert read.remarks == ["the table of links has columns that are not read: 'floor'"]


# Twelve samples of the link from 2 to 1, one each 20 s, and two of the link from 1 to 2, the first 40 s after the start.
SERIES = "from,to,prr,timestamp\n" + "".join(f"2,1,0.{90 - 5 * n},2026-03-01 08:{n // 3:02d}:{20 * (n % 3):02d}\n" for n in range(12)) + (
    "1,2,0.7,2026-03-01T08:02:00\n1,2,0.6,2026-03-01T08:00:40\n"
)  # fmt: skip


def test_samples_over_time_are_a_series(tmp_path: Path) -> None:
    """By frames of 4 s the samples each 20 s are 5 frames apart; the first time stamp is the start of the run."""
    expected = {(5 * n, 2, 1): 0.9 - 0.05 * n for n in range(1, 12)} | {(10, 1, 2): 0.6, (30, 1, 2): 0.7}
    for read in (
        tables.set_ratios(made(tmp_path, frames=60), io.StringIO(SERIES)),
        made(tmp_path, links=SERIES, frames=60),
        tables.set_ratios(made(tmp_path, frames=60), pandas.read_csv(io.StringIO(SERIES), parse_dates=["timestamp"])),
    ):
        assert read.ratios == pytest.approx(expected) and read.prr[2, 1] == 0.9 and read.prr[1, 2] == 0.6
        assert read.prr_at(seconds=219)[2, 1] == pytest.approx(0.4) and read.prr_at(seconds=220)[2, 1] == pytest.approx(0.35)
        # Each sample counts in a run: with the last row alone for all of it other packets arrive.
        read.on().stream(2, 4).every(8, 2)
        last = read.copy()
        last.ratios, last.prr = {}, {(2, 1): 0.35, (1, 2): 0.7}
        assert len(results.outcome(read, 1, warn=False).deliveries) > len(results.outcome(last, 1, warn=False).deliveries)


@pytest.mark.parametrize(
    ("rows", "says"),
    [
        ("1,2,0.5,1700000000\n", "row 1: `timestamp` is 1700000000, a number; name the column `seconds` if it counts from the start of the run"),
        ("1,2,0.5,12.5\n", "row 1: `timestamp` is 12.5, a number"),
        ("1,2,0.5,01.03.2026 08:00\n", "row 1: `timestamp` is '01.03.2026 08:00', and has to be a date and a time, as 2026-01-31 14:05:00"),
        ("1,2,0.5,\n", "row 1: 'timestamp' is not given"),
        ("1,2,0.5,2026-03-01 08:00\n1,2,0.6,2026-03-01 08:01+01:00\n", "row 2: `timestamp` is 2026-03-01 08:01+01:00, and others have no time zone"),
        ("1,2,0.5,2026-03-01 08:00\n1,2,0.6,2026-03-01 08:00:03\n",
         "row 2: the link from 1 to 2 has the ratio 0.6, and row 1 gives it 0.5 in the same frame of 4 s: write their mean"),
        ("1,2,0.5,2026-03-01 08:00\n1,2,0.6,2026-03-01 09:00\n",
         "row 2: `timestamp` is 2026-03-01 09:00, 3,600 s after the first one, which is the start of the run, and the run ends at 80 s; take the rows"),
    ],
)  # fmt: skip
def test_times_that_are_no_frames(tmp_path: Path, rows: str, says: str) -> None:
    for column in ("timestamp", "time", "datetime"):
        for read in (lambda links: made(tmp_path, links=links), lambda links: tables.set_ratios(made(tmp_path), io.StringIO(links))):
            with pytest.raises(ScenarioError) as raised:
                read(f"from,to,prr,{column}\n{rows}")
            assert says in str(raised.value)


def test_samples_without_their_time(tmp_path: Path) -> None:
    links = "from,to,prr\n1,2,0.9\n1,2,0.5\n"
    for read in (lambda: made(tmp_path, links=links), lambda: tables.set_ratios(made(tmp_path), io.StringIO(links))):
        with pytest.raises(ScenarioError, match="row 2: the link from 1 to 2 has the ratio 0.5, and row 1 gives it 0.9: write one row with their mean"):
            read()
    with pytest.raises(ScenarioError, match="the table of links has the times seconds and timestamp; keep one of these columns"):
        made(tmp_path, links="from,to,prr,seconds,timestamp\n1,2,0.9,0,2026-03-01\n")
