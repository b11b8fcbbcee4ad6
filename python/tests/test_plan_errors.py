"""What is wrong with a plan file is told by its file, line or row, key, value, range and the nearest known name, and nothing is written."""

from __future__ import annotations

import os
import pickle
from pathlib import Path

import pytest

import factory
from foldcairn.plan import Host, Plan, PlanError, Stream
from foldcairn.scenario import ScenarioError

PLAN = """\
[plan]
name = "Hall"
profile = 2
hours = 1.0

[[node]]
name = "A-101"
x = 1.0
y = 2.0

[[node]]
name = "S1"
x = 5.0
y = 2.0

[[link]]
from = "A-101"
to = "S1"
ratio = 0.9
both = true

[[stream]]
from = "S1"
to = "A-101"
every = 10
deadline = 20

[[host]]
node = "A-101"

[[requirement]]
name = "valves"
share = 0.99
"""

# What is put in place of a piece of the plan, the place that is told, and parts of what is said.
MISTAKES = [
    # Tables and keys.
    ("[plan]", "[plna]", "line 1, [plna]", ["no table 'plna'", "did you mean plan?"]),
    ("[[node]]\nname = \"S1\"", "[[nodes]]\nname = \"S1\"", "line 11, [nodes]", ["'nodes'", "did you mean node?"]),
    ("[[host]]", "[host]", "line 28, [host]", ["write [[host]]"]),
    ("[plan]", "[[plan]]", "line 1, [plan]", ["write [plan]"]),
    ("profile = 2", "profil = 2", "line 3, [plan]", ["'profil'", "did you mean profile?"]),
    ("from = \"S1\"\nto", "sensor = \"S1\"\nto", "line 23, [[stream]], row 1", ["'sensor'", "do you mean from?"]),
    ("x = 5.0", "x_m = 5.0", "line 13, [[node]], row 2", ["'x_m'", "do you mean x?"]),
    ("name = \"S1\"\n", "", "line 11, [[node]], row 2", ["`name` is not given"]),
    # Values.
    ("profile = 2", "profile = 3", "line 3, [plan]", ["`profile` is 3", "a whole number from 1 to 2"]),
    ("hours = 1.0", "hours = \"1\"", "line 4, [plan]", ["`hours` is '1'", "a number above 0, in h", "write 1 without quotes"]),
    ("hours = 1.0", "hours = 3600", "[plan]", ["`hours` is 3,600", "from 0.0014 to 5.69, in h", "if 3600 is in seconds, write 1"]),
    ("ratio = 0.9", "ratio = 90", "line 19, [[link]], row 1", ["`ratio` is 90", "from 0 to 1", "write 0.9 for 90 %"]),
    ("ratio = 0.9", "ratio = nan", "line 19, [[link]], row 1", ["`ratio` is nan", "from 0 to 1"]),
    ("ratio = 0.9", "rssi = 85", "line 19, [[link]], row 1", ["`rssi` is 85", "from -150 to 30, in dBm"]),
    ("x = 5.0", "x = \"5,0\"", "line 13, [[node]], row 2", ["`x` is '5,0'", "write 5.0, with a point"]),
    ("y = 2.0\n\n[[link]]", "y = 2.0\npowered = \"mians\"\n\n[[link]]", "line 15, [[node]], row 2", ["'mians'", "2xAA", "in mAh", "did you mean mains?"]),
    ("y = 2.0\n\n[[link]]", "y = 2.0\nclock = 21\n\n[[link]]", "line 15, [[node]], row 2", ["`clock` is 21", "from -20 to 20, in ppm"]),
    ("name = \"S1\"", "name = \"hosts\"", "line 12, [[node]], row 2", ["'hosts'", "stands for several nodes"]),
    ("deadline = 20", "start = \"draw\"", "line 26, [[stream]], row 1", ["'draw'", "did you mean drawn?"]),
    ("share = 0.99", "share = 99", "line 33, [[requirement]], row 1", ["`share` is 99", "above 0 and at most 1", "write 0.99 for 99 %"]),
    # Names.
    ("from = \"S1\"\nto", "from = \"s1\"\nto", "line 22, [[stream]], row 1", ["`from` is 's1'", "did you mean S1?"]),
    ("to = \"S1\"\nratio", "to = \"S3\"\nratio", "line 16, [[link]], row 1", ["`to` is 'S3'", "there are A-101, S1"]),
    ("to = \"A-101\"\nevery", "to = [\"A-101\", \"B-101\"]\nevery", "line 22, [[stream]], row 1", ["'B-101'", "did you mean A-101?"]),
    ("[[host]]\nnode = \"A-101\"", "[[host]]\nnode = \"X\"", "line 28, [[host]], row 1", ["`node` is 'X'", "there are A-101, S1"]),
    ("name = \"S1\"", "name = \"A-101\"", "line 11, [[node]], row 2", ["'A-101'", "line 6", "names have to differ"]),
    ("share = 0.99", "share = 0.99\nstreams = [\"S2\"]", "line 31, [[requirement]], row 1", ["`streams` is 'S2'", "no stream has this name; there are S1"]),
    ("share = 0.99", "share = 0.99\ntag = \"loop\"", "line 31, [[requirement]], row 1", ["`tag` is 'loop'", "there is no tag"]),
    # What does not fit together.
    ("share = 0.99", "share = 0.99\n[[requirement]]\nname = \"valves\"\nyears = 2", "line 34, [[requirement]], row 2", ["'valves'", "names have to differ"]),
    ("share = 0.99", "share = 0.99\nyears = 2", "line 31, [[requirement]], row 1", ["`share` and `years`", "give one"]),
    ("share = 0.99", "", "line 31, [[requirement]], row 1", ["none of `share`, `ratio`, `years`, `joined`, `outage`"]),
    ("share = 0.99", "outage = 60", "line 31, [[requirement]], row 1", ["`outage` is after a failure"]),
    ("share = 0.99", "share = 0.99\nwhen = \"B-101 fails\"", "line 31, [[requirement]], row 1", ["`when` is 'B-101'", "did you mean A-101?"]),
    ("share = 0.99", "share = 0.99\nwhen = \"any node fails\"", "line 31, [[requirement]], row 1", ["`when`", "any node"]),
    ("share = 0.99", "years = 2\ndeadline = 5", "line 31, [[requirement]], row 1", ["`deadline` says nothing of `years`"]),
    ("deadline = 20", "", "line 31, [[requirement]], row 1", ["`deadline` is not given", "S1"]),
    ("every = 10", "every = 10\nsporadic = 9", "line 22, [[stream]], row 1", ["every and sporadic", "give one"]),
    ("every = 10", "", "line 22, [[stream]], row 1", ["has no packets", "`every`, `sporadic` and `at`"]),
    ("to = \"A-101\"\nevery", "to = [\"S1\"]\nstream = 4\nevery", "line 25, [[stream]], row 1", ["`stream` is 4", "from 0 to 3"]),
    ("[[host]]\nnode = \"A-101\"", "[[host]]\nnode = \"A-101\"\nrank = 1", "line 28, [[host]], row 1", ["`rank` is 1", "no host has rank 0"]),
    ("[[requirement]]", "[[host]]\nnode = \"S1\"\nrank = 2\n[[requirement]]", "line 31, [[host]], row 2", ["`rank` is 2", "no host has rank 1"]),
    ("y = 2.0\n\n[[link]]", "\n[[link]]", "line 11, [[node]], row 2", ["S1 has `x` alone"]),
    ("[[host]]", "[floor]\nextent = [0, 0, 4, 10]\n\n[[host]]", "line 11, [[node]], row 2", ["`x` is 5", "on the floor plan, from 0 to 4, in m"]),
    ("[[host]]", "[floor]\nmetres_per_pixel = 0.1\npicture = \"none.png\"\n\n[[host]]", "line 28, [floor]", ["'none.png'", "no such file"]),
    ("y = 2.0\n\n[[link]]", "y = 2.0\nfloor = 2\n[floor]\nfloors = 2\n[[link]]", "line 11, [[node]], row 2", ["`floor` is 2", "from 0 to 1"]),
    ("ratio = 0.9", "ratio = 0.9\nreceived = 5", "line 16, [[link]], row 1", ["`received` is 5", "`sent` is not given"]),
    ("ratio = 0.9", "sent = 10\nreceived = 11", "line 16, [[link]], row 1", ["`received` is 11", "at most 10"]),
    ("profile = 2", "profile = 1\ncontend = 2", "[plan]", ["`contend` is 2", "write `profile = 2`"]),
    ("to = \"S1\"\nratio", "to = \"A-101\"\nratio", "line 16, [[link]], row 1", ["`from` and `to` are both A-101"]),
    ("ratio = 0.9", "sent = 10", "line 16, [[link]], row 1", ["`sent` is 10, and neither `received` nor `ratio`"]),
    ("ratio = 0.9", "ratio = 0.9\nsent = 10\nreceived = 8", "line 16, [[link]], row 1", ["`ratio` is 0.9, and 8 of 10 are 0.8"]),
    ("ratio = 0.9", "ratio = 0.9\nat = 3600", "line 16, [[link]], row 1", ["`at` is 3,600, and the run ends at 3,600 s"]),
    ("y = 2.0\n\n[[link]]", "y = 2.0\nid = 7\n[[node]]\nname = \"T\"\nid = 7\n[[link]]", "line 16, [[node]], row 3", ["`id` is 7, which S1 has too"]),
    ("y = 2.0\n\n[[link]]", "y = 2.0\non = 3600\n\n[[link]]", "line 11, [[node]], row 2", ["`on` is 3,600, and the run ends at 3,600 s"]),
    ("y = 2.0\n\n[[link]]", "y = 2.0\ntags = [1]\n\n[[link]]", "line 15, [[node]], row 2", ["`tags` is [1], and has to be a list of texts"]),
    ("name = \"S1\"", "name = \"S1;S2\"", "line 12, [[node]], row 2", ["'S1;S2', and has to be a name, without a semicolon"]),
    ("[[host]]", "[floor]\nextent = [0, 0, 9]\n[[host]]", "line 29, [floor]", ["four numbers, [left, lower, right, upper], in m"]),
    ("[[host]]", "[floor]\nextent = [9, 0, 0, 9]\n[[host]]", "line 29, [floor]", ["four numbers, [left, lower, right, upper], in m"]),
    ("[[host]]", "[floor]\nextent = [0, 0, 9, nan]\n[[host]]", "line 29, [floor]", ["four numbers, [left, lower, right, upper], in m"]),
    ("[[host]]", "[floor]\nextent = [0, 0, 9, 9]\nmetres_per_pixel = 0.1\n[[host]]", "line 28, [floor]", ["keep one of these"]),
    ("[[host]]", "[floor]\nmetres_per_pixel = 0.1\n[[host]]", "line 28, [floor]", ["`picture` is not given"]),
    ("[[host]]", "[losses]\nwalls = [1]\n[[host]]", "line 29, [losses]", ["a list of walls, each [x0, y0, x1, y1]"]),
    ("[[host]]", "[losses]\nwalls = 1\n[[host]]", "line 29, [losses]", ["a list of walls, each [x0, y0, x1, y1]"]),
    ("x = 5.0\ny = 2.0", "[losses]\nfrom = \"positions\"\npreset = \"office\"", "line 11, [[node]], row 2", ["S1 has no place, `x` and `y`"]),
    ("deadline = 20", "deadline = 20\nstart = 3600", "line 22, [[stream]], row 1", ["`start` is 3,600, and the run ends at 3,600 s"]),
    ("deadline = 20", "deadline = 20\nstart = 90\nuntil = 80", "line 22, [[stream]], row 1", ["`start` is 90, and `until` is at 80 s"]),
    ("deadline = 20", "deadline = 20\n[[stream]]\nfrom = \"S1\"\nevery = 9", "line 27, [[stream]], row 2", ["neither a `name` nor a number"]),
    ("deadline = 20", "stream = 1\n[[stream]]\nfrom = \"S1\"\nevery = 9\nstream = 1", "line 27, [[stream]], row 2", ["`stream` is 1", "of S1 too"]),
    ("to = \"A-101\"\nevery", "to = \"S1\"\nevery", "line 22, [[stream]], row 1", ["`to` has S1 alone"]),
    ("share = 0.99", "share = 0.99\nstreams = [\"S1\"]\ntag = \"x\"", "line 31, [[requirement]], row 1", ["`streams` and `tag`; keep one"]),
    ("share = 0.99", "share = 0.99\nnodes = \"S1\"", "line 31, [[requirement]], row 1", ["`nodes` says nothing of `share`"]),
    ("share = 0.99", "years = 1\nnodes = [\"S1\", \"a101\"]", "line 31, [[requirement]], row 1", ["`nodes` is 'a101'", "did you mean A-101?"]),
    ("share = 0.99", "share = 0.99\nwhen = \"sometimes\"", "line 31, [[requirement]], row 1", ["`when` is 'sometimes', and has to be as planned"]),
    ("share = 0.99", "share = 0.99\nat = 9", "line 31, [[requirement]], row 1", ["`at` is 9, the time of a failure"]),
    ("share = 0.99", "joined = 3600", "line 31, [[requirement]], row 1", ["`joined` is 3,600, and the run has 3,600 s", "write 3.6"]),
    ("share = 0.99", "share = 0.99\n[[event]]\nnode = \"S1\"\nat = 1\noff = true\nratio = 0.5", "line 34, [[event]], row 1", ["keep one of these"]),
    ("share = 0.99", "share = 0.99\n[[event]]\nnode = \"S1\"\nat = 1\noff = false", "line 34, [[event]], row 1", ["nothing happens"]),
    ("share = 0.99", "share = 0.99\n[[event]]\nnode = \"S1\"\nat = 1\nfor = 9\nevery = 9", "line 34, [[event]], row 1", ["above 9, `for`, in s"]),
    ("share = 0.99", "share = 0.99\n[[event]]\nnode = \"S1\"\nat = 1\nfloor = 1", "line 34, [[event]], row 1", ["that of an `area`"]),
    ("share = 0.99", "share = 0.99\n[[event]]\nlink = [\"S1\"]\nat = 1", "line 35, [[event]], row 1", ["two names of nodes that differ"]),
    ("share = 0.99", "share = 0.99\n[[event]]\nlink = [\"S1\", \"S1\"]\nat = 1", "line 35, [[event]], row 1", ["two names of nodes that differ"]),
    ("ratio = 0.9\nboth = true", "ratio = 0.9\nboth = true\n[[link]]\nfrom = \"S1\"\nto = \"A-101\"\nratio = 0.8", "line 21, [[link]], row 2", ["A-101"]),
    ("[[host]]", "[losses]\nfrom = \"positions\"\n\n[[host]]", "line 28, [losses]", ["need `exponent`, or a `preset`"]),
    ("[[host]]", "[losses]\nfrom = \"positions\"\npreset = \"ofice\"\n[[host]]", "line 28, [losses]", ["'ofice'", "did you mean office?"]),
    ("[[link]]\nfrom = \"A-101\"\nto = \"S1\"\nratio = 0.9\nboth = true\n", "", "[losses]", ["there is no link", "`from = \"positions\"`"]),
    ("share = 0.99", "share = 0.99\n[[event]]\nat = 5", "line 34, [[event]], row 1", ["none of `node`, `link`, `area`"]),
    ("share = 0.99", "share = 0.99\n[[event]]\nnode = \"S1\"", "line 34, [[event]], row 1", ["none of `at`, `between`"]),
    ("share = 0.99", "share = 0.99\n[[event]]\nnode = \"S1\"\nbetween = [9, 5]", "line 36, [[event]], row 1", ["[from, to], the first below"]),
    ("share = 0.99", "share = 0.99\n[[event]]\nlink = [\"S1\", \"a101\"]\nat = 1", "line 34, [[event]], row 1", ["'a101'", "did you mean A-101?"]),
    ("share = 0.99", "share = 0.99\n[[event]]\nnode = \"S1\"\nat = 1\nevery = 9", "line 34, [[event]], row 1", ["`for` is not given"]),
]  # fmt: skip


@pytest.mark.parametrize(("piece", "instead", "where", "parts"), MISTAKES)
def test_a_mistake_is_told_at_its_line(piece: str, instead: str, where: str, parts: list[str], tmp_path: Path) -> None:
    assert PLAN.count(piece) == 1
    path = tmp_path / "plan.toml"
    path.write_text(PLAN.replace(piece, instead), encoding="utf-8")
    with pytest.raises(PlanError) as raised:
        Plan.read(path)
    said = str(raised.value)
    assert said.startswith(f"{path}, {where}: "), said
    assert all(part in said for part in parts), said
    assert isinstance(raised.value, ScenarioError)


def test_the_plan_itself_has_no_mistake() -> None:
    Plan.parse(PLAN).network(1)


# What the third trial of the whole package found silent, or badly answered, in a plan file.
UNITS = [
    ("every = 10", "every = 12000", "line 22, [[stream]], row 1", ["`every` is 12,000", "3,600 s", "in milliseconds, write 12"]),
    ("deadline = 20", "deadline = 20000", "line 22, [[stream]], row 1", ["`deadline` is 20,000", "in milliseconds, write 20"]),
    ("deadline = 20", "deadline = 20\nkeep_alive = 9999", "line 22, [[stream]], row 1", ["`keep_alive` is 9,999 s", "below 160 s", "each 10 s"]),
    ("[[host]]", "[battery]\nsleep_ma = 20\n[[host]]", "line 28, [battery]", ["`sleep_ma` is 20 mA", "in µA, write 0.02"]),
    ("[[host]]", "[battery]\ncapacity_mah = 2.6\n[[host]]", "line 28, [battery]", ["`capacity_mah` is 2.6 mAh", "in Ah, write 2600"]),
    ("[[host]]", "[battery]\ncapacity_mah = {2xaa = 2600}\n[[host]]", "line 29, [battery]", ["'2xaa'", "did you mean 2xAA?"]),
    ("x = 5.0", "x = 5.0\npowered = 2.6", "line 11, [[node]], row 2", ["`powered` is 2.6 mAh", "in Ah, write 2600"]),
    ("ratio = 0.9", "", "line 16, [[link]], row 1", ["A-101 to S1", "nothing is given that was measured"]),
    ("ratio = 0.9", "ratio = \"n/a\"", "line 16, [[link]], row 1", ["nothing is given that was measured"]),
    ("ratio = 0.9\nboth = true", "ratio = 0.9", "line 16, [[link]], row 1", ["no link has its other direction", "`both = true`"]),
    ("share = 0.99", "share = 0.99\n[[event]]\nnode = \"S1\"\nat = 99999", "line 34, [[event]], row 1", ["`at` is 99,999", "ends at 3,600 s"]),
]


@pytest.mark.parametrize(("piece", "instead", "where", "parts"), UNITS)
def test_what_is_most_likely_in_another_unit_is_an_error(piece: str, instead: str, where: str, parts: list[str], tmp_path: Path) -> None:
    test_a_mistake_is_told_at_its_line(piece, instead, where, parts, tmp_path)


# CSV files.

HEAD = '[tables]\nnodes = "nodes.csv"\nlinks = "links.csv"\nstreams = "streams.csv"\n[[host]]\nnode = "A"\n'
NODES, LINKS, STREAMS = "name,x,y\nA,0,0\nB,1,1\n", "tx,rx,prr\nA,B,0.9\nB,A,0.8\n", "sensor,controller,period_s,deadline_s\nB,A,10,20\n"
FILES = [
    ("nodes.csv", "name,x_m,y_m\nA,0,0\nB,one,1\n", "[[node]], row 2, column x_m: ", ["`x` is 'one'", "a number, in m"]),
    ("nodes.csv", "name,x,y,pwoered\nA,0,0,mains\n", "[[node]]", ["the column 'pwoered' is not read", "do you mean powered?", "ignore"]),
    ("nodes.csv", "name,x,y,x_m\nA,0,0,1\n", "[[node]]", ["'x' and 'x_m' are both x"]),
    ("nodes.csv", "x,y\n0,0\n", "[[node]]", ["it lacks the column name"]),
    ("nodes.csv", "name,x,y\nA,0,0\n,1,1\n", "[[node]], row 2", ["`name` is not given"]),
    ("nodes.csv", "name,x,y\nA,0,0\nB,1,1\nA,2,2\n", "[[node]], row 3", ["`name` is 'A'", "nodes.csv, [[node]], row 1 has too"]),
    ("links.csv", "tx,rx,prr\nA,B,0.9\nB,A,\n", "[[link]], row 2", ["B to A", "nothing is given that was measured"]),
    ("links.csv", "tx,rx,prr\nA,B,0.9\nB,A,n/a\n", "[[link]], row 2", ["nothing is given that was measured"]),
    ("links.csv", "tx,rx,prr\nA,B,-\nB,A,0.5\n", "[[link]], row 1", ["nothing is given that was measured"]),
    ("links.csv", "tx,rx,prr\nA,B,0.9\nB,a,0.5\n", "[[link]], row 2", ["`to` is 'a'", "did you mean A?"]),
    ("links.csv", "tx,rx,prr\nA,B,0.9\nB,A,85\n", "[[link]], row 2", ["`ratio` is 85", "write 0.85 for 85 %"]),
    ("links.csv", "tx,rx,prr\nA,B,0.9\nA,B,0.8\nB,A,1\n", "[[link]], row 2", ["0.8 here and 0.9", "their mean"]),
    ("links.csv", "from;to;prr\nA;B;0,9\n", "[[link]], row 1", ["`ratio` is '0,9'", "write 0.9, with a point"]),
    ("links.csv", "tx,rx,prr,timestamp\nA,B,0.9,yesterday\n", "[[link]], row 1", ["`at` is 'yesterday'", "2026-01-31 14:05:00"]),
    ("streams.csv", "sensor,controller,period_s,deadline_s\nB,A,12000,20\n", "[[stream]], row 1", ["`every` is 12,000", "write 12"]),
    ("streams.csv", "sensor,controller,period_s,dead\nB,A,10,20\n", "[[stream]]", ["'dead'", "do you mean deadline?"]),
]


def tables(folder: Path, plan: str = HEAD, **other: str) -> Path:
    for name, text in {"nodes.csv": NODES, "links.csv": LINKS, "streams.csv": STREAMS, "plan.toml": plan, **other}.items():
        (folder / name).write_text(text, encoding="utf-8")
    return folder / "plan.toml"


@pytest.mark.parametrize(("name", "text", "where", "parts"), FILES)
def test_a_mistake_is_told_at_its_row(name: str, text: str, where: str, parts: list[str], tmp_path: Path) -> None:
    Plan.read(tables(tmp_path)).network(1)
    path = tables(tmp_path, **{name: text})
    with pytest.raises(PlanError) as raised:
        Plan.read(path)
    said = str(raised.value)
    assert said.startswith(f"{tmp_path / name}, {where}"), said
    assert all(part in said for part in parts), said


@pytest.mark.parametrize(("files", "parts"), [
    ('nodes = "plan.toml"', ["line 2", "`nodes` names plan.toml, which is the plan file itself"]),
    ('nodes = "./nodes.csv"\nlinks = "nodes.csv"', ["line 3", "`links` names nodes.csv, which is the table of nodes already"]),
    ('nodes = "node.csv"', ["line 2", "names node.csv, and there is no such file", "did you mean nodes.csv?"]),
    ('node = "nodes.csv"', ["line 2", "no 'node'", "did you mean nodes?"]),
    ('nodes = 5', ["line 2", "`nodes` is 5"]),
    ('nodes = "."', ["line 2", "no such file"]),
    ('nodes = ["nodes.csv", "nodes.csv"]', ["line 2", "the table of nodes already"]),
])  # fmt: skip
def test_tables_that_are_missing_or_go_round(files: str, parts: list[str], tmp_path: Path) -> None:
    path = tables(tmp_path, f"[tables]\n{files}\n")
    with pytest.raises(PlanError) as raised:
        Plan.read(path)
    assert str(raised.value).startswith(f"{path}, ") and all(part in str(raised.value) for part in parts), raised.value


def test_a_table_is_in_one_place(tmp_path: Path) -> None:
    path = tables(tmp_path, HEAD + '[[node]]\nname = "C"\n')
    with pytest.raises(PlanError, match=r"line 7, \[\[node\]\], row 1: `\[tables\] nodes` names a file"):
        Plan.read(path)


@pytest.mark.parametrize(("data", "parts"), [
    (b"", ["nodes.csv: it is empty"]),
    (b"name,x,y\nS\xfcd,0,0\n", ["nodes.csv: byte 2 of line 2, fc, is not UTF-8", "save it as UTF-8"]),
    (b"PK\x03\x04", ["it is compressed, by zip, as the files of Excel are"]),
    (b"name,x\nA,0,0\n", ["line 2 has 3 cells"]),
    (b"name,name\nA,0\n", ["the column 'name' twice"]),
])  # fmt: skip
def test_a_file_that_is_no_table(data: bytes, parts: list[str], tmp_path: Path) -> None:
    path = tables(tmp_path)
    (tmp_path / "nodes.csv").write_bytes(data)
    with pytest.raises(PlanError) as raised:
        Plan.read(path)
    assert all(part in str(raised.value) for part in parts), raised.value


@pytest.mark.parametrize(("data", "parts"), [
    (b"[plan\n", ["it is no TOML", "line 1"]),
    (b"[plan]\nname = \"a\"\nname = \"b\"\n", ["it is no TOML", "line 3"]),
    (b"[plan]\nname = \"S\xfcd\"\n", ["line 2: the byte fc is not UTF-8"]),
    (b"name = \"a\"\n", ["no table 'name'"]),
    (b"plan = 5\n", ["line 1, [plan]: it has to be a table"]),
])  # fmt: skip
def test_a_file_that_is_no_plan(data: bytes, parts: list[str], tmp_path: Path) -> None:
    path = tmp_path / "plan.toml"
    path.write_bytes(data)
    with pytest.raises(PlanError) as raised:
        Plan.read(path)
    assert str(path) in str(raised.value) and all(part in str(raised.value) for part in parts), raised.value


def test_what_makes_no_network() -> None:
    """A plan may be half done; its network may not."""
    for text, parts in [
        ("", "from 2 to 64"),
        ("[[node]]\nname = \"A\"\n", "it has 1 nodes"),
        (PLAN.replace("[[host]]\nnode = \"A-101\"\n", ""), r"write \[\[host\]\]"),
        (PLAN.replace("name = \"S1\"", "name = \"S1\"\ncandidate = true"), r"line 23, \[\[stream\]\], row 1: S1 is a candidate"),
        (PLAN.replace("every = 10", "every = 0.01"), r"359,504 lines of a script in 1 hours, and a run has at most 262,144: write `hours = 0.72"),
    ]:
        text = text if "[[link]]" in text or not text else text + "x = 1.0\ny = 1.0\n[losses]\nfrom = \"positions\"\npreset = \"office\"\n"
        with pytest.raises(PlanError, match=parts):
            Plan.parse(text).network(1)


def test_more_than_a_plan_has() -> None:
    many = "".join(f'[[node]]\nname = "n{number}"\n' for number in range(201))
    with pytest.raises(PlanError, match=r"row 201: all ids up to 200 are taken"):
        Plan.parse(many)
    five = "".join(f'[[stream]]\nname = "s{number}"\nfrom = "S1"\nevery = 9\n' for number in range(4))
    with pytest.raises(PlanError, match="S1 has 5 streams, and a node has at most 4"):
        Plan.parse(PLAN.replace("every = 10", 'every = 10\nname = "first"') + five)
    with pytest.raises(PlanError, match="`bytes` is 40, and a payload has at most 32 bytes in profile 1"):
        Plan.parse(PLAN.replace("profile = 2", "profile = 1").replace("every = 10", "every = 10\nbytes = 40"))
    with pytest.raises(PlanError, match="it has to be a list of rows"):
        Plan.parse("node = [1]\n")
    with pytest.raises(PlanError, match="it was read from no file"):
        Plan.parse(PLAN).write()
    made = Plan.parse(PLAN)
    made.nodes["S1"].powered = "3xAA"
    with pytest.raises(PlanError, match=r"`powered` is '3xAA', and no kind of battery has this name; did you mean 2xAA\?"):
        made.check()
    made.nodes["S1"].powered, made.nodes["S1"].note = "2xAA", "two\nlines"
    with pytest.raises(PlanError, match="`note` is"):
        made.text()
    made.nodes["S1"].note = " blanks "
    with pytest.raises(PlanError, match="what is written of its nodes would not be read as it is"):
        made.text()
    assert str(pickle.loads(pickle.dumps(PlanError("here", "it is wrong")))) == "here: it is wrong"


def test_what_python_puts_into_a_plan_is_told_by_its_name() -> None:
    made = Plan.parse(PLAN)
    made.streams["new"] = Stream("s-1", "new", every=10.0)
    with pytest.raises(PlanError, match=r"the plan, \[\[stream\]\] new: `from` is 's-1', and no node has this name; did you mean S1\?"):
        made.network()
    del made.streams["new"]
    made.streams["other"] = Stream("S1", "new", every=10.0)
    with pytest.raises(PlanError, match="it stands in the plan as 'other'"):
        made.check()
    del made.streams["other"]
    made.hosts.append(Host("S1", 0))
    with pytest.raises(PlanError, match=r"\[\[host\]\]: `rank` is 0"):
        made.check()


def test_errors_leave_no_file(tmp_path: Path) -> None:
    path = factory.write(tmp_path / "here")
    made = Plan.read(path)
    made.nodes["L-01"].floor = 7
    before = sorted(os.listdir(path.parent))
    with pytest.raises(PlanError):
        made.write(tmp_path / "there" / "plan.toml")
    assert sorted(os.listdir(path.parent)) == before and not (tmp_path / "there").exists()
