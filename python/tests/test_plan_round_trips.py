"""What is written of a plan is read as the same plan, and what did not change stays as it was written."""

from __future__ import annotations

import os
import random
import re
import shutil
from pathlib import Path

import pytest

import factory
import random_plans
from foldcairn.plan import Event, Link, Node, Plan, PlanError

COMMENTED = """\
# A plan with comments, \
and a "quoted" one.

[plan]  # what holds for all
name = 'Hall'   # in single quotes
hours = 1       # a whole number

# The nodes.
[[node]]
name = "A"      # the gateway
powered = "mains"
# Between two nodes.

[[node]]
name = "B"
x = 1_0.5   # spelled with a line
y = 0
# After the last node.

[[link]]
from = "A"
to = "B"
both = true
ratio = 9e-1

[[host]]
node = "A"
# The end.
"""


def contents(folder: Path) -> dict[str, bytes]:
    return {str(path.relative_to(folder)): path.read_bytes() for path in sorted(folder.rglob("*")) if path.is_file()}


def comments(text: str) -> list[str]:
    return re.findall(r"#.*", text)


@pytest.mark.parametrize("piece", range(20))
def test_200_random_plans_are_read_as_they_were(piece: int, tmp_path: Path) -> None:
    for number in range(10 * piece, 10 * piece + 10):
        made = random_plans.plan(random.Random(number))
        path = made.write(tmp_path / f"{number}.toml")
        again = Plan.read(path)
        assert again == made
        if number % 10 == piece % 10:
            text = path.read_text(encoding="utf-8")
            assert Plan.parse(again.text()) == made
            again.write()
            assert path.read_text(encoding="utf-8") == text


HEADS = {
    "nodes.csv": "name,id,x,y,floor,powered,clock,offset,on,candidate,tags,note",
    "links.csv": "from;to;ratio;sent;received;rssi;at;both", "streams.csv": "from\tname",
}  # fmt: skip


@pytest.mark.parametrize("piece", range(8))
def test_random_plans_with_csv_files_are_read_as_they_were(piece: int, tmp_path: Path) -> None:
    """Also where the file lacks columns, which come with the first value that needs them."""
    for number in range(1_000 + 5 * piece, 1_005 + 5 * piece):
        made, folder = random_plans.plan(random.Random(number)), tmp_path / str(number)
        folder.mkdir()
        for name, head in HEADS.items():
            (folder / name).write_text(head + "\n", encoding="utf-8")
        (folder / "plan.toml").write_text('[tables]\nnodes = "nodes.csv"\nlinks = "links.csv"\nstreams = "streams.csv"\n', encoding="utf-8")
        bare = Plan.read(folder / "plan.toml")
        made.source, made.path = bare.source, bare.path
        made.write()
        assert not re.search(r"^\[\[(node|link|stream)", (folder / "plan.toml").read_text(encoding="utf-8"), re.MULTILINE)
        assert len((folder / "nodes.csv").read_text(encoding="utf-8").splitlines()) == 1 + len(made.nodes)
        again, before = Plan.read(folder / "plan.toml"), contents(folder)
        assert again == made
        again.write()
        assert contents(folder) == before
        assert Plan.parse(again.text()) == made


def test_comments_and_spellings_stay(tmp_path: Path) -> None:
    path = tmp_path / "plan.toml"
    path.write_text(COMMENTED, encoding="utf-8")
    made = Plan.read(path)
    made.nodes["B"].x, made.settings.seeds = 11.5, 7
    made.write()
    text = path.read_text(encoding="utf-8")
    assert comments(text) == comments(COMMENTED)
    assert "name = 'Hall'   # in single quotes\nhours = 1       # a whole number\nseeds = 7\n" in text
    assert 'name = "A"      # the gateway\npowered = "mains"\nid = 1\n# Between two nodes.\n' in text
    assert "x = 11.5   # spelled with a line\n" in text and "ratio = 9e-1\n" in text
    del made.nodes["A"]
    made.hosts[0].node, made.links = "B", []
    made.losses.source, made.losses.preset, made.nodes["B"].y = "positions", "office", 1.0
    made.write()
    assert "# Between two nodes." not in path.read_text(encoding="utf-8") and "# The end." in path.read_text(encoding="utf-8")


def test_ids_are_given_in_the_natural_order_of_names_and_written(tmp_path: Path) -> None:
    names = ["L-10", "L-2", "A-101", "l-1", "B", "L-02"]
    text = "".join(f'[[node]]\nname = "{name}"\n' for name in names) + '[[node]]\nname = "A"\ncandidate = true\n[[node]]\nname = "C"\nid = 2\n'
    text += '[[link]]\nfrom = "B"\nto = "C"\nboth = true\nratio = 1\n'
    by_name = {name: node.id for name, node in Plan.parse(text).nodes.items()}
    # A-101, B, l-1, L-02 and L-2, L-10, without 2, which is given; candidates come last.
    assert by_name == {"A-101": 1, "C": 2, "B": 3, "l-1": 4, "L-02": 5, "L-2": 6, "L-10": 7, "A": 8}
    rows = text.split("[[node]]\n")
    other = "[[node]]\n".join([rows[0], *rows[-2:0:-1], rows[-1]])
    assert {name: node.id for name, node in Plan.parse(other).nodes.items()} == by_name
    path = tmp_path / "plan.toml"
    path.write_text(text, encoding="utf-8")
    made = Plan.read(path)
    assert any("7 nodes had no id" in one for one in made.remarks)
    made.write()
    assert path.read_text(encoding="utf-8").count("id = ") == 8 and Plan.read(path).remarks == []


def test_a_csv_file_changes_where_the_plan_does(tmp_path: Path) -> None:
    path = factory.write(tmp_path / "here")
    made, before = Plan.read(path), contents(path.parent)
    made.write()
    after = contents(path.parent)
    assert [name for name in before if before[name] != after[name]] == ["nodes.csv"]
    assert after["nodes.csv"].splitlines()[1] == b"A-101,30.0,30.0,0,mains,gateway,1"
    made.nodes["L-01"].x, made.streams["AL-03"].deadline = 80.0, 25.5
    made.write()
    changed = contents(path.parent)
    pairs = zip(b"\n".join(after.values()).split(b"\n"), b"\n".join(changed.values()).split(b"\n"), strict=True)
    assert [other.decode() for one, other in pairs if one != other] == [
        "L-01,80,38.0,0,battery,loop,17\r", "AL-03,hosts,,360,25.5,10,130,120\r"]  # fmt: skip


def test_a_plan_that_is_written_elsewhere_has_its_tables_there(tmp_path: Path) -> None:
    made = Plan.read(factory.write(tmp_path / "here"))
    made.write(tmp_path / "there" / "other.toml")
    assert sorted(contents(tmp_path / "there")) == ["nodes.csv", "other.toml", "series.csv", "streams.csv", "survey.csv"]
    assert Plan.read(tmp_path / "there" / "other.toml") == made


def test_lines_that_end_as_on_windows_do_so_again(tmp_path: Path) -> None:
    path = tmp_path / "plan.toml"
    path.write_bytes(COMMENTED.replace("\n", "\r\n").encode())
    Plan.read(path).write()
    assert path.read_bytes().count(b"\n") == path.read_bytes().count(b"\r\n") == COMMENTED.count("\n") + 2


def test_rows_in_another_order_keep_their_comments(tmp_path: Path) -> None:
    made = Plan.parse(COMMENTED)
    made.nodes = dict(reversed(made.nodes.items()))
    text = made.text()
    assert sorted(comments(text)) == sorted(comments(COMMENTED)) and list(Plan.parse(text).nodes) == ["B", "A"]


def test_what_can_not_be_written_leaves_all_as_it_was(tmp_path: Path) -> None:
    path = factory.write(tmp_path)
    made, before = Plan.read(path), contents(tmp_path)
    made.nodes["L-01"].x = 500.0
    with pytest.raises(PlanError, match="has to be on the floor plan"):
        made.write()
    assert contents(tmp_path) == before


def test_a_full_disk_leaves_all_as_it_was(tmp_path: Path, monkeypatch: pytest.MonkeyPatch) -> None:
    path = factory.write(tmp_path)
    made, before, calls = Plan.read(path), contents(tmp_path), []
    made.settings.seeds = 9

    def full(*given: object, **more: object) -> None:
        calls.append(given)
        raise OSError(28, "No space left on device")

    monkeypatch.setattr(os, "fdopen", full)
    with pytest.raises(OSError):
        made.write()
    assert calls and contents(tmp_path) == before


def test_a_copy_can_be_changed(tmp_path: Path) -> None:
    made = Plan.read(factory.write(tmp_path))
    other = made.copy()
    other.nodes["L-01"].x = 1.0
    other.links.pop()
    assert made != other and made.nodes["L-01"].x == 83.5 and len(made.links) == len(other.links) + 1
    shutil.rmtree(tmp_path)


def test_values_that_go_and_rows_that_come(tmp_path: Path) -> None:
    text = COMMENTED.replace("hours = 1 ", 'site = "here"  # gone later\nhours = 1 ') + '\n[losses]\nunknown = "none"\n'
    text = text.replace("[[host]]", '[[link]]\nfrom = "B"\nto = "A"\nratio = "n/a"\nat = 5\n\n[[host]]').replace("ratio = 9e-1", "ratio = 9e-1\nat = 2")
    made = Plan.parse(text)
    made.settings.site = ""
    made.nodes["C"] = Node("C", tags=["new"])
    made.links[1].ratio = 0.5
    made.links.append(Link("A", "C", 0.7, both=True))
    made.events.append(Event(node="C", at=5.0))
    again = made.text()
    assert "site" not in again and 'name = "C"\nid = 3\ntags = ["new"]\n' in again and 'from = "B"\nto = "A"\nratio = 0.5\nat = 5\n' in again
    assert "[[event]]\nnode = \"C\"\nat = 5.0\n" in again and Plan.parse(again) == made
    assert again.index('name = "C"') < again.index("[[link]]")


def test_rows_within_a_line(tmp_path: Path) -> None:
    made = Plan.parse('node = [{name = "B", x = 1.0, y = 2.0}, {name = "A"}]\nlink = [{from = "A", to = "B", ratio = 1, both = true}]\n')
    assert made.nodes["B"].where == "the plan, line 1, [[node]], row 1"
    again = Plan.parse(made.text())
    assert again == made and again.nodes["A"].id == 1
    within = Plan.parse('plan = {name = "Hall", hours = 2}  # all of it\n')
    within.settings.seeds, within.settings.name = 7, ""
    # A blank stays where the name was.
    assert within.text().replace("{ ", "{") == 'plan = {hours = 2, seeds = 7}  # all of it\n'


def test_a_picture_goes_with_its_plan(tmp_path: Path) -> None:
    path = factory.write(tmp_path / "here", factory.PLAN.replace("[floor]", '[floor]\npicture = "hall.png"'))
    (path.parent / "hall.png").write_bytes(b"a picture")
    Plan.read(path).write(tmp_path / "there" / "plan.toml")
    assert (tmp_path / "there" / "hall.png").read_bytes() == b"a picture"


def test_names_in_the_column_of_ids(tmp_path: Path) -> None:
    (tmp_path / "nodes.csv").write_text("id,x,y\npump,0,0\n7,1,1\n")
    (tmp_path / "plan.toml").write_text('[tables]\nnodes = "nodes.csv"\n[losses]\nfrom = "positions"\npreset = "office"\n')
    # Where some are names, all are.
    assert {name: node.id for name, node in Plan.read(tmp_path / "plan.toml").nodes.items()} == {"7": 1, "pump": 2}
    (tmp_path / "nodes.csv").write_text("id,x,y\n9,0,0\n7,1,1\n")
    made = Plan.read(tmp_path / "plan.toml")
    assert {name: node.id for name, node in made.nodes.items()} == {"9": 9, "7": 7} and made.remarks == []


def test_a_file_that_is_too_large(tmp_path: Path) -> None:
    (tmp_path / "plan.toml").write_bytes(b"#" * 4_194_305)
    with pytest.raises(PlanError, match="it has more than 4,194,304 bytes"):
        Plan.read(tmp_path / "plan.toml")
