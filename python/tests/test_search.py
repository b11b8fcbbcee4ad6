"""Searches: the space of settings, which of them go on, and planted optima that are found without a run."""

from __future__ import annotations

import math
import random
from collections.abc import Callable, Sequence
from concurrent.futures import Executor, ThreadPoolExecutor
from dataclasses import replace
from typing import Any

import pytest
from plans import asked, plan

from foldcairn import planning
from foldcairn.common.arguments import ArgumentError
from foldcairn.many.sweep import SweepStopped
from foldcairn.plan import Host, Plan, PlanError, Search
from foldcairn.requirements import measuring
from foldcairn.search import Found, found, halving, proposing, space
from foldcairn.search.results import Life, Seen, Value
from foldcairn.search.space import Setting, Space
from foldcairn.search.trying import Tried

LEVELS = asked("levels", tag="level", share=0.9)
CANDIDATES = '[[node]]\nname = "east"\ncandidate = true\n[[node]]\nname = "west"\ncandidate = true\n'


def searched(**words: Any) -> Plan:
    """A plan with these keys of [search]."""
    made = plan(LEVELS, nodes=CANDIDATES)
    made.search = Search(**words)
    return made


# The space.


def test_settings_that_come_to_the_same_are_one() -> None:
    """In profile 1 there is one contention slot, so its two settings are one."""
    settings = list(Space.of(searched(profile=[1, 2], contend=[0, 3], sends=[1, 2])).all())
    assert len(settings) == 2 * (1 + 2) and {"profile": 1, "sends": 2, "contend": 0} in settings
    assert Space.of(searched(profile=[1, 2], contend=[0, 3], sends=[1, 2])).combinations == 8


def test_no_node_is_its_own_backup() -> None:
    settings = list(Space.of(searched(hosts=["gateway", "pump"], backups=["pump", "valve"])).all())
    assert settings == [{"host": "gateway", "backup": "pump"}, {"host": "gateway", "backup": "valve"}, {"host": "pump", "backup": "valve"}]
    assert list(Space.of(searched(backups=["gateway", "tank"])).all()) == [{"backup": "tank"}]


def test_relays_come_together_up_to_their_number() -> None:
    one, two = (Space.of(searched(relays=["east", "west"], relays_most=most)).values["relays"] for most in (1, 2))
    assert one == ((), ("east",), ("west",)) and two == (*one, ("east", "west"))
    assert [space.shown({"relays": some, "interval": 0.5}) for some in two[-3:]] == [
        "relays east, interval 0.5", "relays west, interval 0.5", "relays east and west, interval 0.5",
    ]
    assert space.shown({"relays": ()}) == "relays none"


def test_the_plan_of_a_setting() -> None:
    made = searched(relays=["east", "west"])
    given = space.applied(made, {"profile": 1, "sends": 3, "contend": 3, "keep_alive": 0, "interval": 0.41, "relays": ("west",)})
    assert (given.settings.profile, given.settings.sends, given.settings.contend, given.settings.keep_alive) == (1, 3, 0, None)
    # Periods of 20 and 30 s: 8.2 and 12.3 s, rounded down.
    assert [stream.interval for stream in given.streams.values()] == [8, 12]
    assert [name for name, node in given.nodes.items() if node.candidate] == ["east"] and given.search.relays == ["east"]
    assert made.nodes["west"].candidate and made.streams["tank"].interval == 8
    assert space.applied(made, {"interval": 0.01}).streams["tank"].interval == 1
    sporadic = replace(made, streams={name: replace(one, every=None, sporadic=60.0) for name, one in made.streams.items()})
    assert [stream.interval for stream in space.applied(sporadic, {"interval": 0.5}).streams.values()] == [8, 12]


@pytest.mark.parametrize("setting, hosts", [
    ({"host": "tank"}, ["tank", "pump"]), ({"host": "pump"}, ["pump", "gateway"]), ({"backup": "valve"}, ["gateway", "valve"]),
    ({"host": "pump", "backup": "tank"}, ["pump", "tank"]), ({"host": "gateway", "backup": "pump"}, ["gateway", "pump"]),
])  # fmt: skip
def test_hosts_that_change_places(setting: Setting, hosts: list[str]) -> None:
    assert [(one.node, one.rank) for one in space.applied(searched(), setting).hosts] == [(name, rank) for rank, name in enumerate(hosts)]


def test_a_backup_where_there_was_none() -> None:
    made = replace(searched(), hosts=[Host("gateway")])
    assert [one.node for one in space.applied(made, {"backup": "tank"}).hosts] == ["gateway", "tank"]
    three = replace(made, hosts=[Host("gateway"), Host("pump", 1), Host("valve", 2)])
    assert [one.node for one in space.applied(three, {"backup": "valve"}).hosts] == ["gateway", "valve", "pump"]


# What is wrong.


@pytest.mark.parametrize("given, said", [
    ({"send": [1]}, "a search has no 'send'; it has profile, sends, .*; did you mean sends"),
    ({"sends": [5]}, r"`sends` is \[5\], and has to be a list of whole numbers from 1 to 4"),
    ({"sends": 2}, r"`sends` is 2, and has to be a list of whole numbers from 1 to 4"),
    ({"interval": [0.0]}, r"`interval` is \[0.0\], and has to be a list of numbers above 0 and at most 1"),
    ({"interval": "0.5"}, "`interval` is '0.5', and has to be a list of numbers"),
    ({"sends": []}, r"\[search\]: `sends` has no value, so there is no setting to try"), ({"sends": [2, 2]}, r"`sends` has 2 twice"),
    ({"relays": ["eas"]}, "`relays` is 'eas', and no candidate has this name; did you mean east"),
    ({"relays": ["tank"]}, "`relays` has tank, which is a node already and no candidate"),
    ({"hosts": ["gatway"]}, "`hosts` is 'gatway', and no node has this name; did you mean gateway"),
    ({"backups": ["east"]}, "`backups` has east, which is a candidate and no node yet"),
    ({"profile": [1], "contend": [0, 2]}, "profile 1 has one contention slot"), ({}, r"there is nothing to search: write \[search\] in the plan"),
    ({"backups": ["gateway"]}, "the search has no setting: each node that may be a backup is the host"),
    ({"relays_most": 0, "sends": [1]}, "`relays_most` is 0"),
    ({"settings": 3, "sends": [1], "hours": [2]}, "a search has no 'hours'"),
])  # fmt: skip
def test_a_space_that_is_none(given: dict[str, Any], said: str) -> None:
    with ThreadPoolExecutor(1) as threads, pytest.raises((ArgumentError, PlanError), match=said):
        planning.search(plan(LEVELS, nodes=CANDIDATES), given, executor=threads, progress=False)


def test_arguments_out_of_range() -> None:
    with pytest.raises(ArgumentError, match="`plan` is a str, and has to be a Plan"):
        planning.search("plan.toml", {"sends": [1]})  # type: ignore[arg-type]
    with pytest.raises(ArgumentError, match=r"has no \[\[requirement\]\], so each setting meets all of them"):
        planning.search(plan(""), {"sends": [1]})
    for words, said in (({"settings": 0}, "`settings` is 0"), ({"seeds": 10_001}, "`seeds` is 10001"), ({"jobs": 0}, "`jobs` is 0")):
        with pytest.raises(ArgumentError, match=said):
            planning.search(plan(LEVELS), {"sends": [1]}, **words)  # type: ignore[arg-type]


def test_a_plan_file_keeps_what_may_be_chosen() -> None:
    text = "[search]  # what we may change\nsends = [1, 2]\ninterval = [0.25, 1]\nrelays = [\"east\"]\n"
    made = Plan.parse(plan(LEVELS, nodes=CANDIDATES).text() + text)
    assert (made.search.sends, made.search.interval, made.search.relays, made.search.settings) == ([1, 2], [0.25, 1.0], ["east"], 200)
    assert Plan.parse(made.text()).search == made.search and "# what we may change" in made.text()
    made.search.settings = 50
    assert "settings = 50" in made.text() and Plan.parse(made.text()) == made
    with pytest.raises(PlanError, match=r"line \d+, \[search\]: it has no key 'sned'; .*did you mean sends"):
        Plan.parse(made.text().replace("sends = [1, 2]\ninterval", "sned = [1]\ninterval"))
    with pytest.raises(PlanError, match=r"line \d+, \[search\]: `relays` is 'wset'"):
        Plan.parse(made.text().replace('relays = ["east"]', 'relays = ["wset"]'))


def test_draws_of_a_plan_do_not_depend_on_what_may_be_chosen() -> None:
    one, other = searched(sends=[1]).network(), searched(sends=[1, 2]).network()
    assert one.varied_by() == other.varied_by() != ""


# Which go on.


def seen(life: float, *misses: float, verdict: str = "not decided") -> Seen:
    """A setting with this life, and shares that miss so much of 0.9."""
    values = [Value("loops", verdict, 0.9 - miss, 0.0, 1.0, 0.9, "L-1", True, True, True) for miss in misses]
    return Seen(values, Life(life, life, life, "L-1"))


def test_rounds() -> None:
    assert [(one.draws, one.settings) for one in halving.rounds(200)] == [(1, 200), (2, 50), (4, 25), (8, 13)]
    assert [(one.draws, one.settings) for one in halving.rounds(60)] == [(2, 60), (4, 15), (8, 12)]
    assert [(one.draws, one.settings) for one in halving.rounds(12)] == [(8, 12)]
    assert [(one.draws, one.settings) for one in halving.rounds(10_000)] == [(1, 10_000), (2, 2_500), (4, 1_250), (8, 625)]


def test_half_that_look_good_and_half_that_miss_least() -> None:
    """Good ones by their lives, then those that would live longer than the best of them, by what they miss."""
    several = [seen(1.0, 0.0), seen(3.0, 0.0), seen(2.0, -0.05), seen(9.0, 0.5), seen(8.0, 0.01), seen(2.5, 0.001), seen(7.0, 0.02, verdict="not met")]
    assert halving.going_on(several, 4) == [1, 2, 4, 3]
    assert halving.going_on(several, 2) == [1, 4]
    assert halving.going_on(several, 7) == [1, 2, 0, 4, 3]
    assert halving.going_on([seen(1.0, 0.3), seen(1.0, 0.2)], 1) == [1]
    assert halving.order(several)[:4] == [1, 2, 0, 5]


def test_what_a_value_misses() -> None:
    share = Value("it", "not met", 0.7, 0, 1, 0.9, "a", True, True, True)
    years = replace(share, value=0.5, wanted=2.0, is_part=False, is_of_packets=False)
    outage = replace(years, value=240.0, wanted=120.0, at_least=False)
    assert [one.miss for one in (share, years, outage)] == pytest.approx([0.2, 0.75, 0.5])
    assert [replace(one, value=math.nan).miss for one in (share, years)] == [1.0, 1.0]
    assert replace(outage, value=0.0).miss == 0 and replace(years, value=math.inf).miss == 0


def test_the_first_that_fails() -> None:
    met = Value("a", "met", 1.0, 1.0, 1.0, 0.9, "x", True, True, True)
    open_one = replace(met, name="b", verdict="not decided")
    several = [open_one, replace(open_one, name="c", value=0.8), replace(met, name="d", verdict="not met")]
    assert [Seen(some).failing.name if Seen(some).failing else "" for some in ([met, *several], [met, *several[:2]], [met, several[0]], [met])] == [
        "d", "c", "b", "",
    ]
    assert [Seen(some).verdict for some in ([met, *several], several[:1], [met])] == ["not met", "not decided", "met"]


# Planted optima: what a draw gives is said by a rule, and nothing is run.


@pytest.fixture
def planted(monkeypatch: pytest.MonkeyPatch) -> Callable[[Callable[[Plan], tuple[float, float]]], list[Plan]]:
    """Lets each draw give what a rule says of its plan: the share of each stream, with noise by the seed, and the life. Gives the plans that
    were drawn."""
    drawn: list[Plan] = []

    def give(rule: Callable[[Plan], tuple[float, float]]) -> list[Plan]:
        def measure(task: measuring.Task, seeds: Sequence[int]) -> list[Any]:
            drawn.append(task.plan)
            share, life = rule(task.plan)
            told = []
            for seed in seeds:
                noise = random.Random(f"{seed} {share} {life}").gauss(0, 0.002)
                part = min(1.0, max(0.0, share + noise))
                told.append([{"tank": (life + noise, 0)} if one.years is not None else {"tank": (part, 500), "valve": (1.0, 500)} for one in task.requirements])
            return told

        monkeypatch.setattr(measuring, "measure", measure)
        return drawn

    return give


def by_interval(made: Plan) -> tuple[float, float]:
    """Longer intervals live longer, and deliver less; so do fewer transmissions, and contention slots cost life alone."""
    interval, sends, contend = made.streams["tank"].interval or 0, made.settings.sends, made.settings.contend
    return 1.007 - 0.0125 * interval - 0.05 / sends, 5 + interval - 0.4 * sends - 0.1 * contend


def by_steps(made: Plan) -> tuple[float, float]:
    """The same, where shares fall in steps of three seconds, so that none is near what is wanted."""
    interval, sends = made.streams["tank"].interval or 0, made.settings.sends
    return 1.01 - 0.04 * (interval // 3) - 0.05 / sends, by_interval(made)[1]


@pytest.fixture(scope="module")
def threads() -> Any:
    with ThreadPoolExecutor(2) as pool:
        yield pool


def best_of(made: Plan, rule: Callable[[Plan], tuple[float, float]], wanted: float = 0.9) -> Setting:
    """The best by the rule itself."""
    settings = list(Space.of(made).all())
    good = [one for one in settings if rule(space.applied(made, one))[0] >= wanted]
    return max(good, key=lambda one: rule(space.applied(made, one))[1])


def test_a_planted_optimum_is_found(planted: Any, threads: Executor) -> None:
    made = searched(profile=[2], sends=[1, 2, 3, 4], contend=[0, 1, 2, 3, 4], interval=[0.05, 0.1, 0.2, 0.3, 0.4, 0.6])
    planted(by_interval)
    result = planning.search(made, executor=threads, seeds=64, progress=False)
    assert result.setting == best_of(made, by_interval) == {"profile": 2, "sends": 2, "contend": 0, "interval": 0.3}
    assert len(result.table) == 120 and result.status == 0 and result.table["verdict"][0] == "met"
    # The first round has a draw each, and the last one 8 of 12.
    assert result.table["draws"].min() == 1 and (result.table["draws"] >= 8).sum() == 12
    assert result.best is not None and result.best.settings.sends == 2 and result.best.search == made.search
    assert result.verdicts is not None and result.verdicts["verdict"].tolist() == ["met"]
    assert any("settings live longer, and miss levels" in told for told in result.limits) and "the least margin is that of levels" in result.limits[1]
    assert repr(result).startswith("<Found: 120 settings, 1 met, ")


def test_the_last_that_is_verified_is_met_by_seeds_of_its_own(planted: Any, threads: Executor) -> None:
    """A search draws by seeds that no verdict has."""
    seeds: set[int] = set()
    original = measuring.measure
    planted(by_interval)
    inner = measuring.measure

    def measure(task: measuring.Task, some: Sequence[int]) -> list[Any]:
        seeds.update(some)
        return inner(task, some)

    assert original is not inner
    measuring.measure = measure  # type: ignore[assignment]
    planning.search(searched(sends=[1, 2]), {"sends": [2, 3], "interval": [0.1]}, executor=threads, seeds=64, progress=False)
    assert {seed for seed in seeds if seed > 10_000} == set(range(10_001, 10_009)) and max(seed for seed in seeds if seed <= 10_000) <= 64


def test_nothing_meets_all(planted: Any, threads: Executor) -> None:
    """The nearest, and which requirement no setting meets."""
    planted(lambda made: (0.5 + 0.01 * made.settings.sends, 1.0))
    result = planning.search(searched(sends=[1, 2, 3]), executor=threads, progress=False)
    assert result.status == 10 and result.best is None and result.verdicts is None and result.setting == {"sends": 3}
    assert result.nearest.settings.sends == 3 and set(result.table["verdict"]) == {"not met"}
    assert result.limits == [f"no setting meets levels: the nearest has {100 * (0.9 + result.table['margin'][0]):.4g} % where 90 % is wanted"]


def test_what_is_not_decided(planted: Any, threads: Executor) -> None:
    """Three that can't be told from what is wanted are verified, and no more."""
    planted(lambda made: (0.9, 1.0 + made.settings.sends))
    result = planning.search(searched(sends=[1, 2, 3, 4]), executor=threads, seeds=16, progress=False)
    assert result.status == 11 and result.best is not None and (result.table["verdict"] == "not decided").sum() <= 3
    assert "levels is not decided: " in result.limits[-1]


def test_what_arithmetic_excludes_is_never_run(planted: Any, threads: Executor) -> None:
    """A packet each 20 s can't all have a slot each 20 s of a stream that requests one each 30 s; in profile 1 its payload has no room."""
    drawn = planted(by_interval)
    made = searched(profile=[1, 2], sends=[1, 2])
    made.streams["tank"].bytes = 60
    result = planning.search(made, executor=threads, seeds=64, progress=False)
    table = result.table.set_index("profile")
    assert table.loc[1, "verdict"].tolist() == ["impossible"] * 2 and table.loc[1, "draws"].tolist() == [0, 0]
    assert "`bytes` is 60" in table.loc[1, "why"].iloc[0] and {one.settings.profile for one in drawn} == {2}
    nothing = planning.search(made, {"profile": [1]}, executor=threads, progress=False)
    assert nothing.status == 10 and "arithmetic excludes each setting, 2 of 2 by the plan: `bytes` is 60" in nothing.limits[0]


def test_optuna_finds_a_planted_optimum(planted: Any, threads: Executor) -> None:
    """Of 1,200 settings 80 are tried, and few are better than the best of them."""
    pytest.importorskip("optuna", reason="optuna is missing; tools/setup-python.sh --optional installs it")
    made = searched(profile=[2], sends=[1, 2, 3, 4], contend=[0, 1, 2, 3, 4], interval=[step / 60 for step in range(1, 61)])
    assert Space.of(made).combinations == 1_200
    planted(by_steps)
    result = planning.search(made, executor=threads, settings=80, seeds=64, progress=False)
    assert len(result.table) == 80 and len(result.table.drop_duplicates(["sends", "contend", "interval"])) == 80
    assert result.status == 0 and result.best is not None
    good = [rule[1] for one in Space.of(made).all() if (rule := by_steps(space.applied(made, one)))[0] >= 0.9]
    found_life = by_steps(result.best)[1]
    assert sum(life > found_life + 1e-9 for life in good) < 0.05 * 1_200
    again = planning.search(made, executor=threads, settings=80, seeds=64, progress=False)
    assert again.table["interval"].tolist() == result.table["interval"].tolist()


def test_proposals_where_few_are_new() -> None:
    """Of three settings no fourth comes, and one that is none is never looked at."""
    pytest.importorskip("optuna", reason="optuna is missing; tools/setup-python.sh --optional installs it")
    looked: list[Setting] = []

    def look(several: Sequence[Setting]) -> list[Seen | None]:
        looked.extend(several)
        return [None if one["host"] == "pump" else seen(1.0, 0.0) for one in several]

    made = Space.of(searched(hosts=["gateway", "pump"], backups=["pump", "valve"]))
    proposing.propose(made, 50, look)
    assert len(looked) == 3
    assert [proposing.value(one) for one in (None, seen(1.0, 0.2), seen(1.0, 0.0), seen(math.inf, 0.0), seen(math.nan, 0.0))] == pytest.approx(
        [-100, -0.2, 1.5, 2.0, 1.0]
    )


def test_an_executor_that_breaks_down() -> None:
    class Broken(Executor):
        def submit(self, *_: Any, **__: Any) -> Any:
            raise RuntimeError("it is gone")

    with pytest.raises(SweepStopped, match="the executor broke down: it is gone"):
        planning.search(searched(sends=[1, 2]), executor=Broken(), progress=False)


# What limits.


def test_limits_of_several_requirements() -> None:
    """Each is met by some setting, and no setting meets both."""
    share = Value("loops", "not met", 0.5, 0.4, 0.6, 0.9, "L-1", True, True, True)
    years = Value("years", "not met", 1.0, 0.9, 1.1, 2.0, "L-1", False, True, False)
    ones = [
        Tried({"sends": 1}, searched(), seen=Seen([replace(share, value=0.95, verdict="not decided"), years], Life(1.0))),
        Tried({"sends": 2}, searched(), seen=Seen([share, replace(years, value=3.0, verdict="met")], Life(3.0))),
    ]
    assert found.limits(ones) == ["no setting meets all requirements: of 2 that are possible years (1), loops (1)"]
    worse = [replace(one, seen=Seen([one.seen.values[0], years], one.seen.life)) for one in ones]
    assert found.limits(worse) == ["no setting meets years: the nearest has 1 years where 2 years are wanted"]
    seconds = replace(years, name="outage", value=240.0, wanted=120.0, at_least=False)
    told = found.limits([replace(ones[0], seen=Seen([seconds], Life(1.0)))])
    assert told == ["no setting meets outage: the nearest has 240 s where 120 s at most are wanted"]


def test_the_answer_is_a_found() -> None:
    assert Found.__module__ == "foldcairn.search.found" and planning.search.__module__ == "foldcairn.search.searching"
