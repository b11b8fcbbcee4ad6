"""The commands take a plan file in place of a scenario, write an example, and make plans of what is there already."""

from __future__ import annotations

import json
import re
from pathlib import Path

import pytest
from PIL import Image

import factory
from foldcairn import planning, results
from foldcairn.__main__ import main
from foldcairn.many import seeds as many
from foldcairn.plan import Plan, example, of_scenario
from foldcairn.receivers import meant
from foldcairn.scenario import Put, Scenario

COMMENTS = re.compile(r"#.*")


@pytest.fixture
def short(tmp_path: Path) -> Path:
    """The example, over six minutes: 72 frames, in which alarms come up each half a minute."""
    assert main(["new", str(tmp_path / "hall")]) == 0
    path = tmp_path / "hall" / "plan.toml"
    text = path.read_text().replace("hours = 1.0", "hours = 0.1").replace("between = [600.0, 3000.0]", "between = [60.0, 90.0]")
    path.write_text(text)
    streams = path.parent / "streams.csv"
    streams.write_text(streams.read_text().replace(",120,", ",30,"))
    return path


def said(capsys: pytest.CaptureFixture[str]) -> str:
    return capsys.readouterr().out


def test_new_writes_a_plan_that_runs(tmp_path: Path, capsys: pytest.CaptureFixture[str]) -> None:
    folder = tmp_path / "a hall"
    assert main(["new", str(folder)]) == 0
    assert f"'{folder / 'plan.toml'}'" in said(capsys)
    assert sorted(path.name for path in folder.iterdir()) == sorted(example.FILES)
    plan = Plan.read(folder / "plan.toml")
    assert plan.remarks == [] and plan.network(1).cautions() == [] and plan.network().cautions() == []
    assert len(plan.nodes) == 12 and len(plan.streams) == 7 and len(plan.requirements) == 3 and plan.floor.extent
    assert len(plan.network().links) > 40
    before = {path: path.read_bytes() for path in folder.iterdir()}
    plan.write()
    assert {path: path.read_bytes() for path in folder.iterdir()} == before


def test_new_replaces_nothing(tmp_path: Path, capsys: pytest.CaptureFixture[str]) -> None:
    (tmp_path / "streams.csv").write_text("mine")
    assert main(["new", str(tmp_path)]) == 1
    assert f"{tmp_path / 'streams.csv'} is there already" in capsys.readouterr().err
    assert [path.name for path in tmp_path.iterdir()] == ["streams.csv"] and (tmp_path / "streams.csv").read_text() == "mine"


def test_a_report_of_a_plan_is_of_what_its_seed_draws(short: Path, capsys: pytest.CaptureFixture[str]) -> None:
    assert main(["report", str(short), "--seed", "3", "--json"]) == 0
    told = json.loads(said(capsys))
    network = Plan.read(short).network(3)
    assert told["seed"] == 3
    put = {one["source"]: one["put"] for one in told["delivery-by-stream"]}
    # At "hosts" packets of all streams count at each receiver that they are meant for, which is one here.
    assert put["S-01"] == sum(isinstance(one, Put) and network.name(one.node) == "S-01" for one in network.script)
    lives = {one["node"]: one["days"] for one in told["battery-life"]}
    assert lives["G-1"] is None and lives["V-01"] is None and lives["S-01"] > 0


def test_a_page_of_a_plan_has_its_names(short: Path, tmp_path: Path) -> None:
    assert main(["report", str(short), "--seed", "1", "--html", str(tmp_path / "page.html")]) == 0
    page = (tmp_path / "page.html").read_text()
    assert "Small hall" in page and "Example" in page


@pytest.mark.parametrize("command", ["report", "timeline"])
def test_a_plan_that_is_longer_than_a_run_without_a_seed(command: str, tmp_path: Path) -> None:
    """16,384 nodes times frames are 341 frames of 48 nodes, which are 1,705 s; with a seed there may be 16 times as many."""
    path = factory.write(tmp_path)
    path.write_text(path.read_text().replace("hours = 1.0", "hours = 0.75"))
    assert "hours = 0.75" in path.read_text()
    output = [] if command == "report" else ["-o", str(tmp_path / "timeline.svg")]
    assert main([command, str(path), "--seed", "1", *output]) == 0


@pytest.mark.parametrize(("words", "output"), [
    (["timeline", "PLAN", "-o", "FILE"], "time.svg"), (["topology", "PLAN", "-o", "FILE"], "map.svg"), (["pcap", "PLAN", "-o", "FILE"], "run.pcap"),
    (["trace", "PLAN", "-o", "FILE"], "run.json"),
])  # fmt: skip
def test_pictures_and_exports_of_a_plan(words: list[str], output: str, short: Path, tmp_path: Path) -> None:
    file = tmp_path / output
    assert main([{"PLAN": str(short), "FILE": str(file)}.get(word, word) for word in words]) == 0
    assert file.stat().st_size > 1_000
    if output == "map.svg":
        assert "S-03" in file.read_text()


def test_the_floor_plan_of_a_plan(short: Path, tmp_path: Path) -> None:
    """A picture of 60 by 30 pixels of a metre each, below the map of one floor."""
    Image.new("RGB", (60, 30), (255, 0, 255)).save(short.parent / "floor.png")
    text = short.read_text().replace("extent = [0.0, 0.0, 60.0, 30.0]", 'picture = "floor.png"\nmetres_per_pixel = 1.0')
    short.write_text(text)
    assert Plan.read(short).extent() == [0.0, 0.0, 60.0, 30.0]
    nodes = short.parent / "nodes.csv"
    for floor, is_shown in (("1", False), ("0", True)):
        nodes.write_text(re.sub(r",1,2xAA,alarm", f",{floor},2xAA,alarm", nodes.read_text()))
        assert main(["topology", str(short), "-o", str(tmp_path / "map.png")]) == 0
        pixels = Image.open(tmp_path / "map.png").convert("RGB")
        count, commonest = max(pixels.getcolors(1 << 24))
        # It is drawn faintly, so that the map is seen.
        assert count > 100_000 and (commonest[0] == commonest[2] == 255 > commonest[1]) == is_shown


def test_the_losses_of_a_plan(short: Path, capsys: pytest.CaptureFixture[str]) -> None:
    assert main(["draw", str(short), "--seed", "2"]) == 0
    drawn = Scenario.read(said(capsys))
    assert drawn.seed == 2 and drawn.losses and drawn.undrawn().network_text(warn=False) == Plan.read(short).network(2).network_text(warn=False)


def test_many_seeds_of_a_plan(short: Path, capsys: pytest.CaptureFixture[str]) -> None:
    assert main(["sample", str(short), "--seeds", "1-3", "--json", "--jobs", "1"]) == 0
    told = json.loads(said(capsys))
    networks = [Plan.read(short).network(seed) for seed in (1, 2, 3)]
    packets = {one["source"]: one["packets"] for one in told["fates-by-stream"] if one["quantity"] == "sent"}
    for name in ("S-01", "A-01"):
        put = [sum(isinstance(one, Put) and one.node == network.id(name) for one in network.script) for network in networks]
        assert packets[name] == sum(put)
        assert len(set(put)) > (1 if name == "A-01" else 0)
    assert main(["sample", str(short), "--seeds", "1-2", "--jobs", "1"]) == 0
    assert "Each seed draws all that is by chance in the plan" in said(capsys)


def test_a_sweep_and_a_comparison_of_plans(short: Path, tmp_path: Path, capsys: pytest.CaptureFixture[str]) -> None:
    assert main(["sweep", str(short), "--seeds", "1-2", "--measure", "planning", "--jobs", "1"]) == 0
    rows = said(capsys).splitlines()
    assert len(rows) == 3 and rows[1] != rows[2]
    other = tmp_path / "other.toml"
    assert main(["import", str(short), "-o", str(other)]) == 0
    words = ["compare", f"one={short}", f"two={other}", "--seeds", "1-2", "--by", "sample", "--jobs", "1", "--json", "-o", str(tmp_path / "two.html")]
    said(capsys)
    assert main(words) == 0
    rows = json.loads(said(capsys))
    # A plan that is written anew is the same plan, seed by seed.
    assert all(row["one"] == row["two"] for row in rows) and (tmp_path / "two.html").stat().st_size > 10_000


def test_explain_of_a_plan(short: Path, capsys: pytest.CaptureFixture[str]) -> None:
    assert main(["explain", str(short)]) == 0
    assert "accepted" in said(capsys)
    short.write_text(short.read_text().replace("sends = 3", "sends = 9"))
    assert main(["explain", str(short)]) == 1
    error = capsys.readouterr().err
    assert error == f"foldcairn: {short}, line 11, [plan]: `sends` is 9, and has to be a whole number from 1 to 4\n"


COMMANDS = ["report", "timeline", "topology", "pcap", "trace", "draw", "sweep", "explain", "sample", "capacity", "importance", "import", "network"]


@pytest.mark.parametrize("command", COMMANDS)
def test_a_plan_that_is_wrong_or_missing_is_told(command: str, short: Path, capsys: pytest.CaptureFixture[str]) -> None:
    (short.parent / "nodes.csv").write_text("name,x,y\nG-1,0,zero\n")
    assert main([command, str(short)]) == 1
    assert f"{short.parent / 'nodes.csv'}, [[node]], row 1, column y: `y` is 'zero'" in capsys.readouterr().err
    if command != "sweep":
        assert main([command, str(short.parent / "none.toml")]) == 3
        assert "there is no file" in capsys.readouterr().err


def test_ids_that_vary_are_put_together_by_names(short: Path) -> None:
    plan = Plan.read(short)
    plan.settings.vary_ids = True
    sample = planning.sample(plan, [5, 6], progress=False)
    networks = [plan.network(seed) for seed in (5, 6)]
    assert len({network.id("G-1") for network in networks}) == 2
    table = sample.delivery_ratio("node")
    assert set(table["node"]) == {"V-01", "V-02", "V-03", "G-1", "G-2"}
    # By the deliveries of the program, node by node.
    for name, stream in (("V-01", "S-01"), ("V-03", "S-04")):
        ratios = []
        for network, seed in zip(networks, (5, 6)):
            report = results.outcome(network, seed)
            found = planning.delivery_ratio(report, "pair")
            ratios.append(found[(found["source"] == stream) & (found["node"] == name)]["ratio_of_put"].iloc[0])
        mine = sample.delivery_ratio()
        assert mine[mine["source"] == stream]["mean"].iloc[0] == pytest.approx(sum(ratios) / 2)


def test_answers_of_seeds_do_not_depend_on_how_they_are_dealt_out(short: Path, tmp_path: Path) -> None:
    plan = Plan.read(short)
    first = planning.sample(plan, [1], progress=False, results=tmp_path / "kept").network()
    again = planning.sample(plan, [2, 1], progress=False, results=tmp_path / "kept").runs
    assert again[again["seed"] == 1]["ratio_of_put"].iloc[0] == first[first["quantity"] == "ratio_of_put"]["mean"].iloc[0]
    count = len(list((tmp_path / "kept").iterdir()))
    # Another plan with the same means is another one.
    plan.events[0].between = [70.0, 80.0]
    planning.sample(plan, [1], progress=False, results=tmp_path / "kept")
    assert len(list((tmp_path / "kept").iterdir())) == count + 1


def test_a_network_of_a_plan_that_is_changed_is_one_as_any_other(short: Path) -> None:
    network = Plan.read(short).network()
    assert network.by_seed() is not None and network.copy().by_seed() is not None and network.of_seed(2) != network
    network.off("G-1", seconds=100)
    assert network.by_seed() is None and network.of_seed(2) is network and network.varied_by() == ""
    assert many.Question(network, lambda *_: [], "").scenario is network


def test_the_network_of_a_plan(short: Path, capsys: pytest.CaptureFixture[str]) -> None:
    plan = Plan.read(short)
    for words, seed in (([], None), (["--seed", "3"], 3)):
        assert main(["network", str(short), *words]) == 0
        assert said(capsys) == plan.network(seed).network_text(warn=False)
    assert main(["network", str(short), "--seed", "-1"]) == 1
    assert main(["network", "old.scenario"]) == 1
    assert "is no plan by its name" in capsys.readouterr().err


# Import.


def test_import_of_a_network_text(short: Path, tmp_path: Path, capsys: pytest.CaptureFixture[str]) -> None:
    network = Plan.read(short).network(4)
    file = tmp_path / "old.network"
    file.write_text(network.network_text(warn=False))
    assert main(["import", str(file), "-o", str(tmp_path / "new.toml")]) == 0
    assert re.search(r"new.toml: 12 nodes, \d+ rows of links, 7 streams, 2 hosts\n", said(capsys))
    again = Plan.read(tmp_path / "new.toml").network(9)
    assert again.network_text(warn=False) == network.network_text(warn=False)
    assert main(["import", str(file), "-o", str(tmp_path / "new.toml")]) == 1
    assert "is there already" in capsys.readouterr().err
    assert main(["import", str(file), "-o", str(tmp_path / "new.toml"), "--force"]) == 0


def test_import_says_what_a_plan_has_not(tmp_path: Path, capsys: pytest.CaptureFixture[str]) -> None:
    made = Scenario(60).node(1).node(2, 5, 3).host(0, 1).pair(1, 2, 0.5).on()
    made.stream(2, 20, seconds=8, keep_alive=100).every(12, 2, b"four", start=8).sinks("hosts")
    made.put(1, b"one", stream=2, seconds=33.0).off(2, seconds=100).on(2, seconds=140).stream(2, 20, seconds=140)
    made.ratio(1, 2, 0.25, frame=30).lose(3, 1, 1, 1, 2)
    made.leave(1, stream=2, seconds=200)
    (tmp_path / "old.scenario").write_text(made.network_text(warn=False))
    assert main(["import", str(tmp_path / "old.scenario"), "-o", str(tmp_path / "new.toml")]) == 0
    out = said(capsys)
    assert "warning: 1 lines `lose`, `cut` and `capture`" in out and "warning: 1 lines `leave`" in out
    plan = Plan.read(tmp_path / "new.toml")
    again = plan.network()
    assert again.keep_alive == {(2, 0)} and meant(again).by_stream == meant(made).by_stream and again.nodes == made.nodes and again.rates == made.rates
    assert again.prr == made.prr and again.ratios == made.ratios and again.frames == made.frames
    # The one stream that was never requested is so now, and packets have other bytes.
    lines = [re.sub(r"(put \d+ \d+ \d+) \w+", r"\1", line) for line in again.network_text(warn=False).splitlines()]
    theirs = [re.sub(r"(put \d+ \d+ \d+) \w+", r"\1", line) for line in made.network_text(warn=False).splitlines()]
    assert set(theirs) - set(lines) == {"lose 3 1 1 1 2", "leave 50 1 2"} and {line.split()[0] for line in set(lines) - set(theirs)} <= {"stream", "#:"}
    assert (plan.streams["2"].every, plan.streams["2"].keep_alive, plan.streams["2"].bytes, plan.streams["1/2"].at) == (12.0, 100.0, 4, [33.0])
    assert [(one.node, one.at, one.duration, one.restart) for one in plan.events] == [("2", 100.0, 40.0, True)]


def test_import_of_tables(tmp_path: Path, capsys: pytest.CaptureFixture[str]) -> None:
    factory.write(tmp_path)
    words = ["import", "--nodes", "nodes.csv", "--links", "survey.csv", "--links", "series.csv", "--streams", "streams.csv", "--hosts", "A-101, B-101"]
    words = [str(tmp_path / word) if word.endswith(".csv") else word for word in words]
    output = str(tmp_path / "imported.toml")
    assert main([*words, "--profile", "2", "--hours", "0.5", "--losses", "both", "--preset", "office", "-o", output]) == 0
    assert said(capsys) == f"{output}: 48 nodes, 488 rows of links, 32 streams, 2 hosts\n"
    plan = Plan.read(output)
    assert plan.remarks == [] and plan.nodes == Plan.read(tmp_path / "plan.toml").nodes and plan.streams == Plan.read(tmp_path / "plan.toml").streams
    assert (plan.settings.profile, plan.settings.hours, plan.losses.source, plan.losses.preset) == (2, 0.5, "both", "office")
    (tmp_path / "hosts.csv").write_text("id,x,y,host\n2,0,0,0\n1,1,1,1\n")
    assert main(["import", "--nodes", str(tmp_path / "hosts.csv"), "--preset", "office", "-o", str(tmp_path / "two.toml")]) == 0
    two = Plan.read(tmp_path / "two.toml")
    assert [(host.node, host.rank) for host in two.hosts] == [("2", 0), ("1", 1)] and [node.id for node in two.nodes.values()] == [2, 1]


@pytest.mark.parametrize(("words", "told"), [
    ([], "give a FILE, or tables by --nodes"), (["x.network", "--nodes", "n.csv"], "not both"), (["x.network", "--hours", "2"], "`--hours` is for tables"),
])  # fmt: skip
def test_import_of_nothing_and_of_too_much(words: list[str], told: str, capsys: pytest.CaptureFixture[str]) -> None:
    assert main(["import", *words]) == 1
    assert told in capsys.readouterr().err


def test_names_that_no_plan_has() -> None:
    made = Scenario(20).node(1).node(2).host(0, 1).pair(1, 2).on()
    made.labels = {1: "all"}
    with pytest.raises(ValueError, match="node 1 is called 'all', a word of plan files"):
        of_scenario(made)
    made.labels = {1: "2"}
    with pytest.raises(ValueError, match="node 1 is called '2', which other nodes are too"):
        of_scenario(made)


def test_import_of_a_node_that_stays_off_and_of_packets_for_all(tmp_path: Path) -> None:
    made = Scenario(40).node(1).node(2).node(3).host(0, 1).pair(1, 2).pair(2, 3, 0.5).on()
    made.every(20, 3, interval=20).off(2, seconds=100)
    plan = of_scenario(made)
    assert plan.streams["3"].to == "all" and [(one.node, one.at, one.duration) for one in plan.events] == [("2", 100.0, None)]
    lines = plan.network().network_text(warn=False).splitlines()
    # A plan has names and receivers in any case, and power comes first in each frame.
    assert sorted(line for line in lines if not line.startswith("#:")) == sorted(made.network_text(warn=False).splitlines())
    (tmp_path / "nodes.csv").write_text("name,x,y,host\nA,0,0,first\n")
    assert main(["import", "--nodes", str(tmp_path / "nodes.csv"), "-o", str(tmp_path / "plan.toml")]) == 1
    (tmp_path / "nodes.csv").write_text("name,x,y\nA,0,0\nB,1,1\n")
    assert main(["import", "--nodes", str(tmp_path / "nodes.csv"), "--preset", "office", "-o", str(tmp_path / "plan.toml")]) == 0
    assert Plan.read(tmp_path / "plan.toml").hosts == []
