"""The twenty questions of a planner with a factory hall, each by one call or one command (`factory_hall.py` has the hall)."""

from __future__ import annotations

import json
from collections.abc import Callable, Iterator
from concurrent.futures import Executor, ThreadPoolExecutor
from dataclasses import dataclass, replace
from pathlib import Path

import factory_hall
import pandas as pd
import pytest

import foldcairn
from conftest import EXAMPLES
from foldcairn import planning, report, results
from foldcairn.__main__ import main
from foldcairn.plan import Host, Plan, Requirement

pytestmark = pytest.mark.filterwarnings("ignore::foldcairn.scenario.ScenarioWarning")


@dataclass
class Hall:
    """The hall's plan, in its folder, and the verdicts on it."""

    plan: Plan
    folder: Path
    threads: Executor
    verdicts: pd.DataFrame

    def row(self, name: str) -> pd.Series:
        """The verdict on a requirement."""
        return self.verdicts.set_index("requirement").loc[name]

    def judged(self, plan: Plan, *requirements: Requirement, seeds: int = 2) -> pd.DataFrame:
        """The verdicts on a plan like it."""
        return planning.verdicts(replace(plan, requirements=list(requirements) or plan.requirements), seeds, executor=self.threads, progress=False)


@pytest.fixture(scope="module")
def hall(tmp_path_factory: pytest.TempPathFactory) -> Iterator[Hall]:
    folder = tmp_path_factory.mktemp("hall")
    plan = Plan.read(factory_hall.write(folder, hours=0.15, seeds=4))
    with ThreadPoolExecutor(2) as threads:
        yield Hall(plan, folder, threads, planning.verdicts(plan, executor=threads, progress=False))


def _with(plan: Plan, **settings: object) -> Plan:
    return replace(plan, settings=replace(plan.settings, **settings))  # type: ignore[arg-type]


def positions(hall: Hall) -> None:
    """Losses from positions alone, on two floors."""
    plan = replace(hall.plan, links=[], losses=replace(hall.plan.losses, source="positions"))
    network = plan.network(1)
    assert len(network.links) > 200 and all(0.05 <= ratio < 1 for ratio in network.prr.values())


def survey(hall: Hall) -> None:
    """A survey with columns of its own, by the names of nodes."""
    row = hall.plan.links[0]
    assert (row.sender, row.sent) == ("A-101", 500) and hall.plan.network().prr.get((hall.plan.nodes["A-101"].id, hall.plan.nodes[row.receiver].id), 1) > 0


def series(hall: Hall) -> None:
    """A series of a link with time stamps: its ratio changes in the run, and the forklift is in its way for a minute."""
    rows = "".join(f"2026-11-20T08:0{minute}:00+00:00,A-101,R-201,{0.9 - minute / 10}\n" for minute in range(5))
    (hall.folder / "series.csv").write_text("timestamp,tx,rx,prr\n" + rows)
    text = (hall.folder / "plan.toml").read_text().replace('"survey.csv"', '"series.csv"')
    network = Plan.parse(text, hall.folder / "series.toml").network()
    pair = network.id("A-101"), network.id("R-201")
    assert [ratio for (_, *link), ratio in sorted(network.ratios.items()) if tuple(link) == pair] == pytest.approx([0.8, 0.7, 0.6, 0.0, 0.5])


def admission(hall: Hall) -> None:
    """Which loops can be had at all."""
    table = hall.judged(hall.plan, Requirement("all", share=0.99, tag="loop"), Requirement("at once", share=0.99, tag="loop", deadline=1.0))
    assert table["verdict"][1] == "impossible" and table["verdict"][0] in ("not met", "not decided")


def settings(hall: Hall) -> None:
    """What other settings give."""
    lives = {sends: hall.judged(_with(hall.plan, sends=sends), Requirement("life", years=2))["value"][0] for sends in (1, 3)}
    assert lives[1] > lives[3]


def backup(hall: Hall) -> None:
    """Which node is to be the backup."""
    required = Requirement("failover", outage=120, tag="loop", when="A-101 fails")
    found = {name: hall.judged(replace(hall.plan, hosts=[Host("A-101"), Host(name, 1)]), required)["value"][0] for name in ("B-101", "R-202")}
    assert all(90 < value <= 540 for value in found.values())


def weak_spots(hall: Hall) -> None:
    """Which node matters most."""
    network = replace(hall.plan, events=[]).network(1)
    table = planning.importance(network, "nodes", candidates=["R-201", "T-12"], seeds=[1, 2], executor=hall.threads, progress=False)
    assert set(table["node"]) == {"R-201", "T-12"} and (table["ratio_cut"] <= 1).all()


def any_one_fails(hall: Hall) -> None:
    """What happens when any one node fails."""
    table = hall.judged(replace(_with(hall.plan, hours=0.06), events=[]), Requirement("any", share=0.9, tag="loop", when="any one node fails"), seeds=1)
    assert " without " in table["worst"][0] and table["helps"][0].startswith("it breaks without ")


def failover(hall: Hall) -> None:
    """Whether loops are back in time."""
    row = hall.row("loops in failover")
    assert row["verdict"] == "not met" and row["value"] > 120 and row["unit"] == "s"


def alarms(hall: Hall) -> None:
    """Whether alarms come, and how sure that is: a few packets show nothing near 99.9 %."""
    row = hall.row("alarms")
    assert row["verdict"] != "met" and row["high"] - row["low"] > 0.01 and row["packets"] < 3_000


def batteries(hall: Hall) -> None:
    """Whether batteries last two years; nodes on mains are in no list."""
    row = hall.row("batteries")
    assert row["verdict"] == "not met" and row["worst"] not in ("A-101", "B-101", "R-201", "R-202")


def forklift(hall: Hall) -> None:
    """What a forklift does that stands in the way."""
    caps = hall.plan.network(1).ratios
    assert any(ratio == 0 and hall.plan.nodes["R-201"].id in link for (_, *link), ratio in caps.items())


def power_cycles(hall: Hall) -> None:
    """How long a node takes to be back."""
    plan = replace(_with(hall.plan, hours=0.06), events=[replace(hall.plan.events[1], at=60.0, duration=30.0)])
    table = planning.power_cycles(foldcairn.run(plan.network(1), seed=1, progress=False))
    assert len(table) == 1 and table["on_seconds"][0] == 90 and (table["waited_seconds"][0] > 0 or table["host"][0] == -1)


def customer(hall: Hall) -> None:
    """Requirements with pass and fail for a customer."""
    assert main(["verify", str(hall.folder / "plan.toml"), "--seeds", "1", "--jobs", "1", "--json", str(hall.folder / "told.json")]) in (10, 11)
    assert [row["requirement"] for row in json.loads((hall.folder / "told.json").read_text())["verdicts"]] == [one.name for one in hall.plan.requirements]


def how_sure(hall: Hall) -> None:
    """How sure it is: draws vary losses, ratios, times of alarms and of the forklift."""
    one, other = hall.plan.network(1), hall.plan.network(2)
    assert one.prr != other.prr and one.script != other.script
    assert hall.verdicts[["low", "high", "draws"]].notna().all().all()


def side_by_side(hall: Hall) -> None:
    """Plans side by side."""
    plans = {name: replace(_with(hall.plan, hours=0.06, sends=sends), events=[]).network() for name, sends in (("two", 2), ("three", 3))}
    told = report.compare(plans, hall.folder / "plans.html", seeds=[1, 2], by="sample", executor=hall.threads)
    assert {"two", "three"} <= set(told.table.columns) | set(map(str, told.table.iloc[:, 0])) or len(told.table) > 3


def nightly(hall: Hall) -> None:
    """A nightly job: a status and JUnit XML."""
    path = hall.folder / "suite.xml"
    assert main(["verify", str(hall.folder / "plan.toml"), "--seeds", "1", "--jobs", "1", "--junit", str(path)]) in (10, 11)
    assert path.read_text().count("<testcase") == 4


def tables(hall: Hall) -> None:
    """Tables for Excel and others: all are of pandas."""
    path = hall.folder / "verdicts.csv"
    hall.verdicts.to_csv(path, index=False)
    assert pd.read_csv(path)["verdict"].tolist() == hall.verdicts["verdict"].tolist()


def hand_over(hall: Hall) -> None:
    """The plan in one text, with names, places, ratios, streams and requirements."""
    again = Plan.parse(hall.plan.text())
    assert (again.nodes, again.streams, again.requirements, len(again.links)) == (
        hall.plan.nodes, hall.plan.streams, hall.plan.requirements, len(hall.plan.links),
    )


def one_flood(hall: Hall) -> None:
    """One flood step by step, and what a node does that is elsewhere."""
    assert len(results.flood(next(EXAMPLES.glob("*.flood")).read_text()).accepts) > 1
    moved = replace(hall.plan, links=[], losses=replace(hall.plan.losses, source="positions")).copy()
    before = moved.network(1).prr
    moved.nodes["L-01"].x = 0.0
    after = moved.network(1).prr
    node = moved.nodes["L-01"].id
    changed = {link for link in before.keys() | after.keys() if before.get(link) != after.get(link)}
    assert changed and all(node in link for link in changed)


QUESTIONS: dict[str, Callable[[Hall], None]] = {
    "1 losses from positions": positions, "2 import a survey": survey, "3 import a series": series, "4 which loops can be admitted": admission,
    "5 which settings": settings, "6 which backup": backup, "7 where is a relay needed": weak_spots, "8 any one node fails": any_one_fails,
    "9 deadlines in failover": failover, "10 alarms at 99.9 %": alarms, "11 battery life": batteries, "12 forklift": forklift,
    "13 power cycles": power_cycles, "14 customer report": customer, "15 how sure": how_sure, "16 plans side by side": side_by_side,
    "17 nightly job": nightly, "18 Excel and others": tables, "19 hand over": hand_over, "20 one flood, a moved node": one_flood,
}  # fmt: skip


@pytest.mark.parametrize("question", QUESTIONS)
def test_question(question: str, hall: Hall) -> None:
    QUESTIONS[question](hall)
