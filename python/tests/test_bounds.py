"""The bounds of docs/BOUNDS.md: their numbers on the page's own examples, what is in their way, and each of them held against runs of
two hundred random scenarios; with `-s` the nearest misses are printed."""

from __future__ import annotations

import random
import re
from collections import Counter, defaultdict
from collections.abc import Iterator

import pytest
from conftest import EXAMPLES, REPOSITORY
from joining import written
from networks import FAILOVER, log_of
from scenarios import planned_grid

from foldcairn import planning
from foldcairn.answers import bounds
from foldcairn.answers.bounds import Bound, failover_frames, latency_frames
from foldcairn.common.arguments import ArgumentError
from foldcairn.model.events import Off, On, Put
from foldcairn.model.scenario import Scenario, line
from foldcairn.pages import report
from foldcairn.runs import losses, program, results

_execute = program.execute

PAGE = (REPOSITORY / "docs" / "BOUNDS.md").read_text(encoding="utf-8")
WORKED = {name: Scenario.read(text) for name, text in re.findall(r"^```text (\w+)\.scenario\n(.*?)^```", PAGE, re.DOTALL | re.MULTILINE)}
BACKUP = EXAMPLES / "backup-host-takes-over.scenario"


def with_lines_of_nodes(words: list[str], text: str, **more) -> bytes:
    """What a program that decides of each node whether it joins writes: those lines are worked out. One that writes them writes the same."""
    output = _execute(words, text, **more)
    if words != ["bounds"]:
        return output
    lines, made = output.decode().splitlines(), list(written(text))
    of_hosts = [line for line in lines if line.split()[1] not in ("joined", "scanning")]
    assert lines in (of_hosts, of_hosts + made)
    return "".join(f"{line}\n" for line in of_hosts + made).encode()


def without_lines_of_nodes(words: list[str], text: str, **more) -> bytes:
    """What a program that decides nothing of nodes writes."""
    output = _execute(words, text, **more)
    if words != ["bounds"]:
        return output
    return "".join(line for line in output.decode().splitlines(keepends=True) if line.split()[1] not in ("joined", "scanning")).encode()


@pytest.fixture(autouse=True)
def _older_program(monkeypatch: pytest.MonkeyPatch) -> None:
    """A program that decides nothing of nodes, but where a test says otherwise: so what is in the way is what is worked out here."""
    monkeypatch.setattr(program, "execute", without_lines_of_nodes)


@pytest.fixture
def decides(monkeypatch: pytest.MonkeyPatch) -> None:
    """A program that decides of each node whether it joins."""
    monkeypatch.setattr(program, "execute", with_lines_of_nodes)


def found(scenario: Scenario, bound: str) -> list[Bound]:
    return [one for one in bounds.of(scenario) if one.bound == bound]


def only(scenario: Scenario, bound: str) -> Bound:
    (one,) = found(scenario, bound)
    return one


# The page's numbers and examples.


def test_the_numbers_of_the_page() -> None:
    assert "| from the boot of the host of rank 0 to its first round | 5 | 20 s | 25 s |" in PAGE
    assert "| scanning after a round with losses, for each such round | 4 | 16 s | 20 s |" in PAGE
    assert "| until the last of 2, 3 or 4 hosts that is on hosts | 21, 33, 45 | 84, 132, 180 s | 105, 165, 225 s |" in PAGE
    assert "| from the round that falls out to the first of the other host, of two | 18 | 72 s | 90 s |" in PAGE
    assert "in rounds, with 1, 2, 3 or 4 contention slots | 30, 28, 30, 24 | | |" in PAGE
    assert [failover_frames(hosts) for hosts in (2, 3, 4)] == [21, 33, 45]
    assert (bounds.QUIET_FRAMES, bounds.GREATEST_GAP, bounds.TAKEOVER_FRAMES) == (5, 4, 18)
    assert bounds.PARTING_ROUNDS == {1: 30, 2: 28, 3: 30, 4: 24}
    # Five packets with an interval of 6 s: 30 s are 8 frames of 4 s, and 2 more.
    assert "5 * 6 / 4 rounded up and 2" in PAGE and latency_frames(5, 6, 4) == 10
    made = WORKED["slow"].copy()
    for profile, seconds in ((1, [20, 24, 16, 84, 72, 16, 20, 32]), (2, [25, 30, 20, 105, 90, 20, 25, 35])):
        made.profile = profile
        made.hosts = {0: 1, 1: 2}
        table = planning.bounds(made)
        assert table["seconds"].tolist()[:-1] == seconds and table["seconds"].iloc[-1] == 120 * made.frame_seconds


def test_the_examples_of_the_page() -> None:
    first = WORKED["first"]
    assert [(one.holds, one.begins) for one in (only(first, "first round"), only(first, "membership"))] == [("yes", 0), ("not checked", 0)]
    assert "to the end of the run" in only(first, "membership").needs
    missed = WORKED["missed"]
    assert only(missed, "scanning").holds == "not checked" and "up to frame 9 (36 s)" in only(missed, "membership").needs
    assert only(missed.copy().lose(21, 0, 0, 1, 2), "scanning").holds == "no"
    slow = found(WORKED["slow"], "latency")
    assert [(one.packets, one.frames, one.holds) for one in slow] == [(1, 4, "not known"), (2, 5, "not known"), (4, 8, "not known")]
    assert "once host and node have agreed on the stream, the last of so many packets that wait is delivered by then" in slow[2].premise
    backup = Scenario.read(BACKUP)
    failover, takeover = only(backup, "failover"), only(backup, "takeover")
    # Node 1 goes off in frame 6 and its round of frame 9 falls out; node 2 hosts in frame 27.
    assert failover.holds == "yes" and failover.begins + failover.frames == 27
    assert takeover.holds == "not checked" and takeover.begins + takeover.frames == 27 and 9 + takeover.frames == 27
    six = only(WORKED["six"], "contention")
    assert six.wrong == ("6 nodes ask for slots, and more than two that ask at once need not part",)
    assert {one.holds for one in found(WORKED["six"], "latency")} == {"no"}


def test_tables_of_a_network() -> None:
    network = planned_grid()
    table = planning.bounds(network)
    assert len(table) == 9 and len(repr(table.drop(columns=["premise", "proof"])).splitlines()) <= 24
    assert table.set_index("bound").loc[["first round", "failover"], "by_seconds"].tolist() == [25.0, 1005.0]
    assert table.loc[table["holds"] == "yes", "bound"].tolist() == ["first round", "failover"]
    streams = planning.bounds(network, "stream")
    assert len(streams) == 60 and streams["source"].nunique() == 20 and streams["source"].dtype == "int64"
    assert (streams["frames"] == [latency_frames(row.packets, row.interval, 5) for row in streams.itertuples()]).all()
    with pytest.raises(ArgumentError, match="not one of network, stream"):
        planning.bounds(network, "node")
    # Names of nodes are shown, and a report is taken too.
    named = Scenario.read(BACKUP)
    named.labels = {1: "roof", 2: "cellar", 3: "pump"}
    assert "cellar" in planning.bounds(named)["of"][3] and planning.bounds(named, "stream")["source"][0] == "pump"
    assert planning.bounds(results.bus(named)).equals(planning.bounds(named))
    # Ratios by which nothing was drawn lose nothing in a run: so those of a map do not.
    ratios = named.copy().link(1, 2, 0.5)
    assert planning.bounds(results.log(ratios)).equals(planning.bounds(named))
    assert planning.bounds(results.outcome(ratios, 1)).equals(planning.bounds(ratios)) and not planning.bounds(ratios).equals(planning.bounds(named))


def test_they_are_in_reports_and_on_pages(failover_page: str) -> None:
    log = log_of(FAILOVER)
    assert planning.tables(log)["bounds"].equals(planning.bounds(log.scenario)) and "bounds" in report.SHOWN
    assert "How long things take at most, by proof" in failover_page and "takeover_frames" in failover_page
    assert "1 of the one that is sent next" in failover_page and "whether all that the bound needs holds" in failover_page


# What is in the way.


def network(frames: int = 60, hosts: int = 2, **words) -> Scenario:
    return Scenario.from_graph(line(4), frames, hosts=range(1, hosts + 1), **words).stream(3, 8).every(20, 3)


def pair_with_slots(slots: int, first: int, second: int) -> Scenario:
    """Two nodes that ask for slots of node 1, with so many contention slots in each round."""
    made = Scenario(150, profile=2, contend=slots).node(1).node(first).node(second).host(0, 1).pair(1, first).pair(1, second).on()
    return made.stream(first, 8).stream(second, 8).put(first).put(second)


def without(made: Scenario, kind: type, node: int) -> Scenario:
    """The scenario without the lines of that kind of a node."""
    made.script = [event for event in made.script if not (isinstance(event, kind) and event.node == node)]
    return made


@pytest.mark.parametrize(
    ("bound", "build", "says"),
    [
        ("first round", lambda: Scenario(9).node(1).node(2), "no node hosts"),
        ("first round", lambda: Scenario(9).node(1).node(2).host(0, 1), "node 1, the host of rank 0, is never switched on"),
        ("first round", lambda: network().off(1, frame=5), "node 1 is switched off in frame 5 (20 s)"),
        ("first round", lambda: network(5), "the run ends before frame 5"),
        ("membership", lambda: network().off(4, frame=2), "node 4 has no power from then to frame 5 (20 s) on"),
        ("membership", lambda: network().unlink(3, 4), "node 4 is out of reach of the host"),
        ("membership", lambda: Scenario.from_graph(line(14), 60, hosts=[1]), "node 14 is out of reach of the host"),
        ("membership", lambda: network().cut(5, 0, 0, 2), "packets may be lost in frame 5 (20 s)"),
        ("membership", lambda: network().link(1, 2, 0.9), "packets may be lost in frame 5 (20 s)"),
        ("scanning", lambda: network().ratio(1, 2, 0.9, frame=7), "more than three rounds in a row may lose packets, as up to frame 10 (40 s)"),
        ("failover", network, "no line leaves one host alone"),
        ("failover", lambda: network().off(1, frame=40), "the run ends before frame 61"),
        ("failover", lambda: network().off(1, frame=20).on(1, frame=41), "another host is switched on in frame 41"),
        ("failover", lambda: network().off(1, frame=20).off(2, frame=41), "node 2 is switched off in frame 41"),
        ("takeover", network, "no line switches node 1 off"),
        ("takeover", lambda: network().off(1, frame=10).on(1, frame=31), "node 1 is switched on again in frame 31"),
        ("takeover", lambda: network().off(1, frame=10).off(4, frame=30), "node 4 is not on from the start of the host to frame 31"),
        ("takeover", lambda: network().off(1, frame=39), "the run ends before frame 60"),
        ("takeover", lambda: network().off(1, frame=10).lose(7, 0, 0, 1, 2), "packets may be lost before, as in frame 7"),
        ("takeover", lambda: network().unlink(2, 3).off(1, frame=10), "nodes 3, 4 are out of reach of a host"),
        ("latency", lambda: network().stream(4, 3), "a stream asks for an interval of 3 s, below a frame of 4 s"),
        ("latency", lambda: network().off(1, frame=40), "the host, node 1, is switched off in frame 40"),
        ("latency", lambda: network().lose(7, 0, 0, 1, 2), "packets may be lost, as in frame 7"),
        ("latency", lambda: network().off(3, frame=40), "node 3 is not on from its start to the end of the run"),
        ("latency", lambda: network().leave(3, frame=40), "the stream is asked for anew, or left"),
        ("latency", lambda: Scenario.from_graph(line(3), 99, hosts=[1]).stream(3, 4).put(3).put(3, frame=17), "68 s lie between two packets"),
        ("latency", lambda: network().unlink(3, 4), "node 4 is out of reach"),
        ("latency", lambda: network().off(2, frame=40).on(2, frame=40), "nodes 3, 4 are out of reach of the host without node 2, which is switched off"),
        ("scanning", lambda: network().off(4, frame=26), "node 4 is switched off in frame 26"),
        ("scanning", lambda: network().unlink(3, 4), "node 4 is out of reach of the host"),
        ("scanning", lambda: network().lose(5, 0, 0, 1, 2), "packets may be lost in frame 5"),
        ("scanning", lambda: Scenario(9).node(1).node(2), "no node hosts"),
        ("contention", lambda: pair_with_slots(2, 2, 3).unlink(1, 3), "node 3 and the host are out of reach of each other"),
        ("contention", lambda: pair_with_slots(2, 2, 3).node(7).stream(7, 8), "3 nodes ask for slots"),
        ("contention", lambda: pair_with_slots(2, 2, 3).cut(60, 0, 0, 2), "packets may be lost, as in frame 60"),
        ("contention", lambda: without(pair_with_slots(2, 2, 3), Put, 3), "node 3 has no packet, and so no request is due"),
        ("contention", lambda: without(pair_with_slots(2, 2, 3), On, 3), "node 3 is never switched on"),
        ("contention", lambda: without(pair_with_slots(2, 2, 3), On, 1), "node 1, the host of rank 0, is never switched on"),
        ("latency", lambda: Scenario(99).node(1).node(2).host(0, 1).pair(1, 2).on(2).stream(2, 4), "the host of rank 0 is never switched on"),
        ("contention", network, "fewer than two nodes ask for slots"),
        ("contention", lambda: pair_with_slots(3, 2, 50), "are equal modulo 48"),
        ("contention", lambda: pair_with_slots(4, 2, 18), "are equal modulo 16"),
        ("contention", lambda: Scenario.from_graph(line(18), 9, hosts=[3]).stream(2, 9).stream(18, 9), "are equal modulo 16"),
    ],
)  # fmt: skip
def test_what_is_in_the_way(bound, build, says) -> None:
    row = found(build(), bound)[0]
    assert row.holds == "no" and says in row.premise


@pytest.mark.usefixtures("decides")
@pytest.mark.parametrize(
    ("build", "of", "says"),
    [
        (lambda: network(), "all nodes", ""),
        (lambda: network().off(4, frame=2), "node 4", "node 4 is switched off in frame 2 (8 s)"),
        (lambda: network().off(2, frame=6), "all nodes", "node 2 is switched off in frame 6 (24 s); nodes 3, 4 are out of reach of the host"),
        (lambda: network().off(1, frame=6), "all nodes", "node 1 is switched off in frame 6 (24 s)"),
        (lambda: without(network(), On, 4), "node 4", "node 4 has no power from then to frame 5 (20 s) on"),
        (lambda: without(network(), On, 4).on(4, frame=6), "node 4", "node 4 has no power from then to frame 5 (20 s) on"),
        (lambda: without(network(), On, 1).on(1, frame=3), "all nodes",
         "nodes 2, 3, 4 are on from before, and not switched on from frame 3 (12 s) to frame 8 (32 s)"),
        (lambda: without(network(), On, 1).on(1, frame=3).off(1, frame=3), "all nodes", "node 1 is on in no frame"),
        (lambda: network(6), "all nodes", "the run ends before frame 6 (24 s)"),
        (lambda: network().cut(5, 0, 0, 2), "all nodes", "packets may be lost in frame 5 (20 s), by a line `cut`"),
        (lambda: network().lose(5, 3, 2, 2, 1), "all nodes", "packets may be lost in frame 5 (20 s), by a line `lose`"),
        (lambda: network().ratio(3, 2, 0.9, frame=5), "all nodes", "packets may be lost in frame 5 (20 s), by a ratio, from node 3 to node 2"),
        (lambda: network().unlink(3, 4), "node 4", "node 4 is out of reach of the host"),
        (lambda: Scenario.from_graph(line(14), 60, hosts=[1]), "node 14", "node 14 is out of reach of the host"),
        (lambda: named(network().unlink(3, 4)), "node {4}", "node {4} is out of reach of the host"),
        (lambda: named(network().off(4, frame=2)), "node {4}", "node {4} is switched off in frame 2 (8 s)"),
    ],
)  # fmt: skip
def test_what_keeps_nodes_out(build, of, says) -> None:
    """The program decides of each node: what is open has a row with what breaks it, before the one of the nodes of which it holds."""
    made = build()
    for bound, more, frames in (("membership", "", 6), ("scanning", ", for each round with losses", 4)):
        first, *others = found(made, bound)
        assert first.of.replace("a member,", "all nodes,") == f"{of}{more}" and first.frames == frames
        assert (first.holds, "; ".join(first.wrong)) == ("no" if says else "yes", says)
        assert [one.holds for one in others] == ([] if of == "all nodes" else ["yes"])


def named(made: Scenario) -> Scenario:
    """The network with names of nodes that have braces."""
    made.labels = {node: f"{{{node}}}" for node in made.nodes}
    return made


@pytest.mark.usefixtures("decides")
def test_members_that_the_program_decides() -> None:
    """For as long as the premise says; each boot of the host has its rows."""
    assert only(WORKED["first"], "membership").holds == only(WORKED["missed"], "scanning").holds == "yes"
    assert "which holds up to frame 9 (36 s): so long they stay members" in only(WORKED["missed"], "membership").premise
    late = only(WORKED["missed"].copy().lose(21, 0, 0, 1, 2), "scanning")
    assert late.holds == "yes" and "follow one another, which holds up to frame 21 (84 s)" in late.premise
    assert "which holds up to frame 26 (104 s)" in only(relay_goes_off(), "scanning").premise
    twice = network().off(1, 2, 3, 4, frame=10).on(1, 2, 3, frame=20)
    assert [(one.of, one.begins, one.holds) for one in found(twice, "membership")] == [
        ("all nodes", 0, "yes"), ("node 4", 20, "no"), ("nodes 2, 3", 20, "yes"),
    ]  # fmt: skip
    assert not found(Scenario(9).node(1).node(2).host(0, 1), "membership")


def test_what_is_not_in_the_way() -> None:
    """Restarts are no failures of other boots, and a lossless ratio loses nothing."""
    assert [one.holds for one in found(network().off(1, frame=10).on(1, frame=10), "first round")] == ["yes", "yes"]
    made = network().ratio(1, 2, 1.0, frame=7)
    assert only(made, "scanning").holds == only(made, "membership").holds == "not checked"
    assert only(network(hosts=3).off(1, 3, frame=10), "failover").frames == 33
    # Ids that are equal modulo 16 part with three slots.
    for slots, other, frames in [(1, 3, 120), (2, 3, 112), (3, 3, 120), (3, 18, 120), (4, 3, 96)]:
        parting = only(pair_with_slots(slots, 2, other), "contention")
        assert parting.holds == "not known" and parting.frames == frames
    # Losses before a host serves cost no member anything.
    early = network()
    for frame in range(5):
        early.cut(frame, 0, 0, 2)
    assert only(early, "scanning").holds == "not checked"


# Against runs. Each bound is tried on 200 random scenarios.

SCENARIOS = 200


def run(scenario: Scenario, ratios_seed: int | None = None) -> tuple[list[list[int]], dict[int, int]]:
    """The frame, receiver, source, stream and number of each delivery, and in how many frames each node scans."""
    words, text = (["bus"], scenario.text(warn=False)) if ratios_seed is None else (["outcome", str(ratios_seed)], scenario.network_text(warn=False))
    delivered, scanned = [], {}
    for row in program.execute(words, text).decode().splitlines():
        word, *values = row.split()
        if word == "deliver":
            delivered.append([int(values[place]) for place in (0, 3, 4, 6, 7)])
        elif word == "cost":
            scanned[int(values[0])] = int(values[3])
    return delivered, scanned


def connected(chance: random.Random, frames: int, count: int, hosts: int = 1, **words) -> Scenario:
    """A random connected network, all off, whose host and backups are its first nodes."""
    made = Scenario(frames, chance.randint(1, 3), chance.choice([1, 2]), **words)
    nodes = chance.sample(range(1, 201), count)
    for place, node in enumerate(nodes):
        made.node(node)
        if place:
            made.pair(node, chance.choice(nodes[:place]))
    for _ in range(chance.randint(0, 2 * count)):
        made.pair(*chance.sample(nodes, 2))
    for rank, node in enumerate(nodes[:hosts]):
        made.host(rank, node)
    return made


def boot(chance: random.Random, made: Scenario) -> dict[int, int]:
    """Switches the first host on in some frame, and all others within the five frames after it; gives the frames."""
    first = chance.randint(0, 6)
    up = {node: first if node == made.hosts[0] else first + chance.randint(0, 5) for node in made.nodes}
    for node, frame in up.items():
        made.on(node, frame=frame)
    return up


def told(name: str, slack: list[int], unit: str = "frames") -> None:
    """Prints how near runs came to a bound."""
    print(f"{name}: {len(slack)} cases, nearest miss {min(slack)} {unit}, the middle one {sorted(slack)[len(slack) // 2]}")


def test_first_rounds_members_and_latencies_against_runs() -> None:
    joined, late = [], []
    for seed in range(SCENARIOS):
        chance = random.Random(seed)
        made = connected(chance, 100, chance.randint(2, 8))
        up, sources = boot(chance, made), [node for node in made.nodes if node != made.hosts[0]]
        for turn, node in enumerate(chance.sample(sources, min(3, len(sources)))):
            made.stream(node, chance.randint(made.frame_seconds, 20), frame=12 + 12 * turn)
            frame = 12 + 12 * turn
            while frame < made.frames:
                for _ in range(chance.choice([1, 1, 1, 2, 5])):
                    made.put(node, frame=frame)
                frame += chance.randint(1, 14)
        delivered, scanned = run(made)
        by = {one.bound: one for one in bounds.of(made)}
        assert by["first round"].holds == "yes" and by["membership"].holds == "not checked"
        first = by["first round"].begins + by["first round"].frames
        assert scanned[made.hosts[0]] == 5
        for node in sources:
            joined.append(first + 1 - up[node] - scanned[node])
        late += latencies(made, delivered)
    assert min(joined) >= 0 and min(late) >= 0 and len(late) > 1_000
    told("first round and membership", joined)
    told("latency", late)


def latencies(made: Scenario, delivered: list[list[int]]) -> list[int]:
    """By how many frames each packet, put once its stream had slots, came sooner than its bound."""
    slack, puts, interval = [], defaultdict(list), {}
    for event in made.script:
        if isinstance(event, Put):
            puts[event.node].append(event.frame)
        elif hasattr(event, "interval"):
            interval[event.node] = event.interval
    for source, frames in puts.items():
        came = {number: frame for frame, _, one, _, number in delivered if one == source}
        counts = {number: sum(row[2] == source and row[4] == number for row in delivered) for number in came}
        assert set(counts.values()) <= {len(made.nodes) - 1}
        for number, frame in enumerate(frames):
            # What came in the frame of the put was sent after it.
            waiting = sum(came.get(earlier, made.frames) >= frame for earlier in range(number)) + 1
            most = frame + latency_frames(waiting, interval[source], made.frame_seconds)
            if 0 in came and came[0] < frame and most < made.frames and waiting <= 16:
                slack.append(most - came[number])
    return slack


def test_rounds_with_losses_against_runs() -> None:
    slack = []
    for seed in range(SCENARIOS):
        chance = random.Random(seed)
        made = connected(chance, 80, chance.randint(2, 6))
        up = boot(chance, made)
        first = up[made.hosts[0]] + 5
        # Rounds are four frames apart while nobody asks for slots, so of each four rounds one loses nothing.
        rounds = [frame for number, frame in enumerate(range(first + 4, 75, 4)) if number % 4 != 3 and chance.random() < 0.7]
        links = sorted(made.links)
        for frame in rounds:
            for _ in range(chance.randint(1, 12)):
                made.cut(frame, chance.randint(0, 3), chance.randint(0, 2), chance.choice(sorted(made.nodes)))
                made.lose(frame, chance.randint(0, 2), chance.randint(0, 3), *chance.choice(links))
        made.cuts, made.losses = sorted(set(made.cuts)), sorted(set(made.losses))
        assert only(made, "scanning").holds == "not checked"
        _, scanned = run(made)
        assert scanned[made.hosts[0]] == 5
        slack += [4 * len(rounds) - (scanned[node] - (first + 1 - up[node])) for node in made.nodes if node != made.hosts[0]]
    assert min(slack) >= 0
    told("scanning", slack)


@pytest.mark.parametrize("hosts", [2, 3, 4])
def test_failovers_against_runs(hosts: int) -> None:
    """Whatever is lost: all links lose what the coins say, and hosts restart before."""
    slack = []
    for seed in range(SCENARIOS // 3 + 1):
        chance = random.Random(f"{hosts} {seed}")
        begun = chance.randint(8, 40)
        made = connected(chance, begun + failover_frames(hosts) + 20, chance.randint(hosts, 6), hosts)
        for link in sorted(made.links):
            made.link(*link, chance.choice([0.0, 0.3, 0.6, 0.9, 1.0]))
        last = made.hosts[chance.randrange(hosts)]
        for node in made.nodes:
            made.on(node, frame=chance.randint(0, 6))
            if chance.random() < 0.5:
                restart = chance.randint(7, begun - 1)
                made.off(node, frame=restart).on(node, frame=restart)
        made.off(*(set(made.hosts.values()) - {last}), frame=begun)
        row = next(one for one in found(made, "failover") if one.begins == begun)
        assert row.holds == "yes" and row.frames == failover_frames(hosts)
        # It scans in no frame from then on.
        _, scanned = run(made, seed)
        low, high = begun, begun + row.frames + 1
        while low < high:
            middle = (low + high) // 2
            low, high = (low, middle) if run(until(made, middle), seed)[1][last] == scanned[last] else (middle + 1, high)
        slack.append(begun + row.frames - low)
    assert min(slack) >= 0
    told(f"failover of {hosts} hosts", slack)


def until(made: Scenario, frames: int) -> Scenario:
    """The scenario without what comes after so many frames."""
    cut = made.copy()
    cut.frames, cut.script = frames, [event for event in made.script if event.frame < frames]
    return cut


def test_takeovers_against_runs() -> None:
    slack = []
    for seed in range(SCENARIOS):
        chance = random.Random(seed)
        made = connected(chance, 80, chance.randint(2, 7), 2)
        # Without the first host the others are still connected.
        _, *others = made.nodes
        for place, node in enumerate(others[1:], 1):
            made.pair(node, chance.choice(others[:place]))
        up = boot(chance, made)
        first = up[made.hosts[0]] + 5
        for node in chance.sample(sorted(made.nodes), 1):
            made.stream(node, chance.randint(5, 20), frame=first).every(chance.randint(5, 30), node, start=float(first * made.frame_seconds))
        fails = chance.randint(first + 1, 40)
        made.off(made.hosts[0], frame=fails)
        assert only(made, "takeover").holds == "not checked" and only(made, "takeover").begins == fails + 3
        _, scanned = run(made)
        for node in set(made.nodes) - {made.hosts[0]}:
            # From the frame after the round that fell out on: the other host up to its first round, the others in it too.
            searched = scanned[node] - (first + 1 - up[node])
            slack.append(bounds.TAKEOVER_FRAMES - searched - (node == made.hosts[1]))
    assert min(slack) == max(slack) == 0
    told("takeover", slack)


def test_two_contenders_against_runs() -> None:
    slack = []
    for seed in range(SCENARIOS):
        chance = random.Random(seed)
        made = Scenario(150, 2, chance.choice([1, 2]))
        two = chance.sample(range(1, 201), 2)
        while two[0] % 16 == two[1] % 16:
            two = chance.sample(range(1, 201), 2)
        host = next(node for node in range(1, 201) if node not in two)
        for node in (host, *two):
            made.node(node)
        made.host(0, host).pair(host, two[0]).pair(host, two[1]).pair(*two).on()
        begun = chance.randint(0, 20)
        for node in two:
            made.stream(node, 20, frame=begun).put(node, frame=begun)
        assert only(made, "contention").holds == "not known"
        delivered, _ = run(made)
        # The first round from the put on; the slot comes in the round after the one in which a request was alone.
        first = max(5, 5 + 4 * -(-(begun - 5) // 4))
        slack.append(bounds.PARTING_ROUNDS[made.contention_slots] - 1 - (delivered[0][0] - 4 - first) // 4)
    assert min(slack) >= 0
    told("contention", slack, "rounds")


# Where a bound is said to hold, the run keeps it, whatever else is in the network.


def any_network(chance: random.Random) -> Scenario:
    """A random network in which much may be in the way: nodes that come late, go off and come back, links and whole nodes that lose
    packets, ratios for a time, hosts that fail, and nodes out of reach."""
    hosts = chance.randint(1, 3)
    made = connected(chance, chance.randint(40, 100), chance.randint(max(2, hosts), 7), hosts)
    nodes = sorted(made.nodes)
    if chance.random() < 0.8:
        boot(chance, made)
    else:
        for node in nodes:
            made.on(node, frame=chance.randint(0, 15))
    if chance.random() < 0.15:
        made.unlink(*chance.choice(sorted(made.links)))
    if chance.random() < 0.3:
        made.off(made.hosts[0], frame=chance.randint(10, 40))
    for _ in range(chance.choice([0, 0, 1, 1, 2])):
        node = chance.choice([*nodes, *made.hosts.values()])
        frame = chance.randint(0, made.frames - 1)
        made.off(node, frame=frame)
        if chance.random() < 0.4:
            made.on(node, frame=min(made.frames - 1, frame + chance.randint(0, 30)))
    for frame in chance.sample(range(made.frames), chance.choice([0, 0, 1, 3, 8])) if made.links else ():
        made.cut(frame, chance.randint(0, 3), chance.randint(0, 2), chance.choice(nodes))
        made.lose(frame, chance.randint(0, 2), chance.randint(0, 3), *chance.choice(sorted(made.links)))
    if made.links and chance.random() < 0.2:
        link, frame = chance.choice(sorted(made.links)), chance.randint(0, made.frames - 10)
        made.ratio(*link, 0.3, frame=frame).ratio(*link, 1.0, frame=frame + chance.randint(1, 9))
    for node in chance.sample(nodes, min(2, len(nodes))):
        made.stream(node, chance.randint(5, 20), frame=chance.randint(0, 20)).every(chance.randint(5, 40), node)
    return made


class Ran:
    """A run of a network, held against what `bounds` says of it. What it needs of the script and the losses is worked out here anew."""

    def __init__(self, network: Scenario, seed: int) -> None:
        self.text = losses.draw(network, seed) if network.is_to_be_drawn else network
        found = planning.rounds(results.log(self.text, warn=False))
        self.rounds = {(int(row.start_seconds // network.frame_seconds), int(row.rank)): int(row.host) for row in found.itertuples()}
        self.lossy = {one.frame for one in (*self.text.losses, *self.text.cuts)}
        self.frames = network.frames
        self.network = network

    def scanned(self, frames: int) -> dict[int, int]:
        """In how many of so many frames each node scans."""
        return run(losses.beginning(self.text, min(frames, self.frames)))[1]

    def keeps(self, row: Bound) -> None:
        """Fails where the run breaks the bound."""
        getattr(self, row.bound.replace(" ", "_"))(row)

    def first_round(self, row: Bound) -> None:
        assert self.rounds[row.begins + 5, 0] == self.network.hosts[0]

    def membership(self, row: Bound) -> None:
        first = row.begins + 5
        # A node that is switched on again in the same frame scans in it.
        offs = [event.frame - 1 for event in self.network.script if isinstance(event, Off) and event.frame > first]
        ends = min([frame for frame in (*self.lossy, *offs) if frame >= first], default=self.frames - 1)
        assert self.scanned(ends + 1) == self.scanned(first + 1) and {rank for frame, rank in self.rounds if first <= frame <= ends} == {0}

    def scanning(self, row: Bound) -> None:
        start = only(self.network, "membership").begins + 6
        most = 4 * len({frame for frame, _ in self.rounds if frame >= start and frame in self.lossy})
        before, after = self.scanned(start), self.scanned(self.frames)
        assert all(after[node] - before[node] <= most for node in before)

    def offs(self, first: int) -> Iterator[int]:
        """The frames after that one in which a node goes off, and the end of the run."""
        yield from (event.frame for event in self.network.script if isinstance(event, Off) and event.frame > first)
        yield self.frames

    def members_stay(self, first: int, nodes: set[int]) -> None:
        """They scan in no frame after their first round, as long as nothing is lost and nobody goes off."""
        end = min([*self.offs(first), *(frame + 1 for frame in self.lossy if frame > first)])
        before, after = self.scanned(first + 1), self.scanned(end - 1)
        assert end <= first + 2 or all(after[node] == before[node] for node in nodes)

    def members_scan_few(self, first: int, nodes: set[int]) -> int:
        """They scan few frames for each round with losses; gives in how many they do."""
        end, row, lossy = min(self.offs(first)) - 1, 0, []
        for frame in sorted(frame for frame, rank in self.rounds if rank == 0 and first < frame < end):
            row = row + 1 if frame in self.lossy else 0
            lossy += [frame] if row else []
            if row > 3:
                end = frame
                break
        if end <= first:
            return 0
        before, after = self.scanned(first + 1), self.scanned(end)
        assert all(after[node] - before[node] <= 4 * sum(frame < end for frame in lossy) for node in nodes)
        return max((after[node] - before[node] for node in nodes), default=0)

    def failover(self, row: Bound) -> None:
        host, by = int(row.of.split()[1]), row.begins + row.frames
        hosts = set(self.network.hosts.values())
        stops = [event.frame for event in self.network.script if event.frame > row.begins and (
            event.node == host if isinstance(event, Off) else isinstance(event, On) and event.node in hosts - {host})]  # fmt: skip
        end = min(stops, default=self.frames)
        assert self.scanned(end)[host] == self.scanned(by)[host]
        assert end < by + 5 or any(by <= frame < by + 5 and served == host for (frame, _), served in self.rounds.items())

    def takeover(self, row: Bound) -> None:
        failed = row.begins - 3
        first = min(frame for (frame, rank) in self.rounds if rank == 1 and frame >= failed)
        assert failed + 18 <= first <= row.begins + row.frames


def test_what_holds_is_kept_by_the_run() -> None:
    counts: Counter[tuple[str, str]] = Counter()
    for seed in range(100):
        network = any_network(random.Random(f"any {seed}"))
        ran = Ran(network, seed)
        for row in bounds.of(network):
            counts[row.bound, row.holds] += 1
            if row.holds in ("yes", "not checked"):
                ran.keeps(row)
    # Each is said to hold of some networks, and not of others.
    for bound, least in (("first round", 90), ("failover", 10)):
        assert counts[bound, "yes"] >= least and counts[bound, "no"] >= 3 and not counts[bound, "not checked"]
    # Of the others nothing is decided, and what is in the way is all that is in the way.
    for bound, least in (("membership", 30), ("scanning", 15), ("takeover", 3)):
        assert counts[bound, "not checked"] >= least and counts[bound, "no"] >= 3 and not counts[bound, "yes"]
    assert not counts["latency", "yes"] and not counts["contention", "yes"] and counts["latency", "not known"] and counts["contention", "not known"]


@pytest.mark.usefixtures("decides")
def test_what_the_program_says_of_nodes_is_kept_by_the_run() -> None:
    counts: Counter[tuple[str, str]] = Counter()
    scans = 0
    for seed in range(100):
        network = any_network(random.Random(f"nodes {seed}"))
        ran, known = Ran(network, seed), bounds._Known(network)
        for frame, ones in known.joining("joined"):
            counts.update(("joined", one.reason) for one in ones)
            if not ones[0].reason:
                ran.members_stay(frame + 5, {one.node for one in ones})
        for frame, ones in known.joining("scanning"):
            counts.update(("scanning", one.reason) for one in ones)
            if not ones[0].reason:
                scans += ran.members_scan_few(frame + 5, {one.node for one in ones})
        rows = bounds.of(network)
        assert {row.holds for row in rows if row.bound in ("membership", "scanning")} <= {"yes", "no"}
    # Each is said to hold of many nodes, and not of others for each reason.
    for bound in ("joined", "scanning"):
        assert counts[bound, ""] >= 200 and min(counts[bound, reason] for reason in ("power", "loss", "ratio", "reach")) >= 3, counts
    assert scans >= 20


def relay_goes_off() -> Scenario:
    made = Scenario.from_graph(line(3), 60, hosts=[1]).stream(3, 4)
    for frame in (10, 20, 27, 40):
        made.put(3, frame=frame)
    return made.off(2, frame=26)


def other_host_goes_off() -> Scenario:
    """Node 2 hosts before node 1 begins, which nobody of its members hears."""
    made = Scenario(100).node(1).node(2).node(3).host(0, 1).host(1, 2).pair(2, 3).pair(1, 3)
    made.on(2, 3).on(1, frame=30).stream(3, 4)
    for frame in (40, 50, 60, 68):
        made.put(3, frame=frame)
    return made.off(2, frame=66)


@pytest.mark.parametrize(
    ("build", "late", "holds", "says"),
    [
        (relay_goes_off, 27, "no", "node 3 is out of reach of the host without node 2, which is switched off"),
        (other_host_goes_off, 68, "not known", "whether node 2 serves until it is switched off in frame 66 (264 s); nothing is in the way, and once"),
    ],
)  # fmt: skip
def test_latencies_that_a_run_breaks(build, late: int, holds: str, says: str) -> None:
    made = build()
    row = found(made, "latency")[0]
    assert (row.holds, row.frames) == (holds, 3) and says in row.premise
    assert planning.bounds(made, "stream")["holds"].tolist() == [holds] * 3 and says in planning.bounds(made, "stream")["premise"][0]
    # Packets that wait alone are sent in time before, and later or never from then on.
    fates = results.fates_of(results.bus(made))
    broken = (fates["deliveries"] == 0) | (fates["sent_frame"] > fates["frame"] + row.frames)
    assert broken[fates["frame"] >= late].all() and not broken[(fates["frame"] < late) & (fates["number"] > 0)].any()


def test_scanning_without_reach() -> None:
    """No round loses anything, and node 3, behind a node that goes off, scans for good."""
    made = relay_goes_off()
    assert not made.losses and run(made)[1][3] > 30 and only(made, "scanning").holds == "no"
