"""Networks of plans that the page makes: of random plans the same text as Python's, line by line, for seeds and for the means."""

from __future__ import annotations

import math
import random
from typing import Any

from studio_modules import Raised, calls, needs_node

from foldcairn.plan import Plan
from foldcairn.propagation.presets import PRESETS
from foldcairn.studio import given

pytestmark = needs_node
PLANS, SEEDS = 30, (None, 0, 7, 9_999_999_999_999)


def _rows(chance: random.Random, names: list[str], source: str) -> list[str]:
    """Links, each with one kind of measure; some with a series."""
    lines = []
    for one in names:
        for other in names:
            if one == other or (chance.random() < 0.4 and {one, other} != set(names[:2])):
                continue
            sent = chance.choice([10, 20, 500])
            measures = [
                f"ratio = {chance.choice([0.0, 1.0, round(chance.random(), 3)])}", f"sent = {sent}\nreceived = {chance.randint(0, sent)}",
                f"rssi = {chance.randint(-101, -60)}",
            ]  # fmt: skip
            ends = f"[[link]]\nfrom = '{one}'\nto = '{other}'\n"
            if chance.random() < 0.1 and source == "survey":
                lines += [f"{ends}at = {at}\nratio = {round(chance.random(), 2)}" for at in sorted(chance.sample(range(0, 900), 3))]
            else:
                lines.append(ends + chance.choice(measures))
    return lines


def _streams(chance: random.Random, names: list[str], profile: int) -> list[str]:
    lines = []
    for one in chance.sample(names, min(4, len(names))):
        to = chance.choice(["'hosts'", "'all'", f"'{next(name for name in names if name != one)}'"])
        every = chance.choice([5, 7.5, 20, 61.3])
        kinds = ["", f"interval = {max(1, int(every / 2))}", "start = 33.3\nuntil = 500", "bytes = 12\nkeep_alive = 11", "deadline = 40"]
        more = chance.choice([*kinds, f"bytes = {32 if profile == 1 else 96}"])
        lines.append(f"[[stream]]\nfrom = '{one}'\nto = {to}\nevery = {every}\n{more}")
    return [*lines, f"[[stream]]\nfrom = '{names[0]}'\nname = 'extra'\nstream = 3\nat = [9, 1.5, 300]"]


def _events(chance: random.Random, names: list[str]) -> list[str]:
    found = [
        f"node = '{names[-1]}'\nat = 100.2\nfor = 30", f"node = '{names[1]}'\nratio = 0.5\nat = 50",
        f"link = ['{names[0]}', '{names[1]}']\nat = 200\nfor = 10\nevery = 60", "area = [0, 0, 30, 20]\nat = 300\nfor = 99.9\nratio = 0.2",
        f"area = [0, 0, 15, 15]\nfloor = 0\nat = 410\nfor = 20\nrestart = {chance.choice(['true', 'false'])}",
    ]  # fmt: skip
    return ["[[event]]\n" + one for one in chance.sample(found, chance.randint(0, 4))]


def _losses(chance: random.Random, source: str) -> str:
    more = chance.choice([
        "", "correlation = 0.5", "deviation_db = 0", "floor_db = 9\nwall_db = 3", "noise_dbm = -95\ntransmit_dbm = 3", "bytes = 60\nleast = 0.2",
    ])  # fmt: skip
    walls = "walls = [[20, 0, 20, 30], [0, 15, 30, 15, 4.5], [5, 5, 40, 35, 8, 1]]"
    preset, exponent = chance.choice(list(PRESETS)), chance.choice(["exponent = 3.4", ""])
    both = "fit = false\nunheard = 'positions'" if source == "both" else ""
    return f"[losses]\nfrom = '{source}'\npreset = '{preset}'\n{exponent}\n{walls}\n{more}\n{both}"


def random_text(number: int) -> str:
    chance = random.Random(number)
    names = chance.sample(["A-101", "L-01", "L-2", "L-10", "Käse", "7", "x y", "Ofen"], chance.randint(3, 7))
    source, profile = chance.choice(["positions", "survey", "both", "none"]), chance.choice([1, 2])
    contend = f"\ncontend = {chance.randint(1, 4)}" if profile == 2 and chance.random() < 0.6 else ""
    lines = [f"[plan]\nprofile = {profile}\nsends = {chance.randint(1, 3)}\nhours = 0.25{contend}"]
    lines += ["[floor]\nheight = 4.5", _losses(chance, source)]
    for name in names:
        more = chance.choice(["", "clock = -7", "offset = 900", "on = 21.5", "floor = 1"])
        lines.append(f"[[node]]\nname = '{name}'\nx = {chance.randint(0, 400) / 10}\ny = {chance.randint(0, 400) / 10}\n{more}")
    lines.append("[[node]]\nname = 'place'\nx = 1\ny = 2\ncandidate = true")
    lines += [f"[[host]]\nnode = '{name}'\nrank = {rank}" for rank, name in enumerate(names[: chance.randint(1, 3)])]
    lines += [] if source == "positions" else _rows(chance, names, source)
    return "\n".join([*lines, *_streams(chance, names, profile), *_events(chance, names)]) + "\n"


def test_networks_of_random_plans_are_those_of_python() -> None:
    schema = given.schema()
    texts = [random_text(number) for number in range(PLANS)]
    plans = calls([("plan_file", "readPlan", [schema, text]) for text in texts])
    asked: list[Any] = [("network", "networkText", [plan, seed]) for plan in plans for seed in SEEDS]
    found = iter(calls(asked))
    for number, text in enumerate(texts):
        drawer = Plan.parse(text).drawer()
        for seed in SEEDS:
            due = drawer.network(seed).network_text(warn=False)
            ours = next(found)
            assert not isinstance(ours, Raised), (number, seed, ours)
            assert _lines(ours) == _lines(due), (number, seed)


def _lines(text: str) -> list[str]:
    """The lines of a network text without comments, and without ratios that are 1 by rounding from the start on, which change nothing."""
    return [line for line in text.splitlines() if not line.startswith("#") and not (line.startswith("ratio 0 ") and line.endswith(" 1000000"))]


def test_checks_are_those_of_python() -> None:
    schema = given.schema()
    plan = call_plan(schema)
    wrong = {
        "host": [{"node": "A", "rank": 1}], "stream": [{"from": "B", "to": "nobody", "every": 5}], "link": [{"from": "A", "to": "A", "ratio": 1}],
        "event": [{"node": "A", "at": 99_999}], "requirement": [{"name": "x"}, {"name": "x", "share": 1}],
    }  # fmt: skip
    for table, rows in wrong.items():
        held = plan | {table: [{key["name"]: key["default"] for key in schema["rows"][table]} | {"name": "n"} | row for row in rows]}
        answer = calls([("plan_check", "checkPlan", [held])])[0]
        assert isinstance(answer, Raised), table


def call_plan(schema: Any) -> Any:
    """A plan of two nodes as the page reads it."""
    text = "[losses]\nfrom = 'positions'\npreset = 'office'\n[[node]]\nname = 'A'\nx = 0\ny = 0\n[[node]]\nname = 'B'\nx = 5\ny = 0\n[[host]]\nnode = 'A'\n"
    return calls([("plan_file", "readPlan", [schema, text])])[0]


def test_a_survey_is_fitted_as_in_python() -> None:
    # Half of the links have a ratio and no received power; nothing came over the others.
    chance, schema = random.Random(5), given.schema()
    places = {f"N{number}": (chance.uniform(0, 90), chance.uniform(0, 60)) for number in range(9)} | {"new": (40.0, 30.0)}
    lines = ["[plan]\nhours = 0.2\n[losses]\nfrom = 'both'\npreset = 'office'"]
    lines += [f"[[node]]\nname = '{name}'\nx = {x:.2f}\ny = {y:.2f}" for name, (x, y) in places.items()]
    for one in list(places)[:-1]:
        for other in list(places)[:-1]:
            power = -40.2 - 31 * math.log10(max(1.0, math.dist(places[one], places[other]))) + chance.gauss(0, 6)
            if one != other and power > -97:
                ratio = f"ratio = {1 / (1 + math.exp(-1.3 * (power + 93))):.3f}"
                lines.append(f"[[link]]\nfrom = '{one}'\nto = '{other}'\n" + chance.choice([f"rssi = {power:.1f}\n{ratio}", f"rssi = {power:.1f}", ratio]))
    text = "\n".join([*lines, "[[host]]\nnode = 'N0'\n[[stream]]\nfrom = 'N1'\nevery = 10\n"])
    (plan,) = calls([("plan_file", "readPlan", [schema, text])])
    drawer = Plan.parse(text).drawer()
    for seed, ours in zip((None, 1, 2), calls([("network", "networkText", [plan, seed]) for seed in (None, 1, 2)]), strict=True):
        due = _ratios(drawer.network(seed).network_text(warn=False))
        found = _ratios(ours)
        # The exponent is looked for to a millionth, and ratios are in millionths.
        assert found.keys() == due.keys() and all(abs(found[link] - due[link]) <= 2 for link in due)


def _ratios(text: str) -> dict[str, int]:
    """The ratio of each link in millionths, 1 without a line."""
    links = {line[5:]: 1_000_000 for line in text.splitlines() if line.startswith("link ")}
    return links | {" ".join(line.split()[2:4]): int(line.split()[4]) for line in text.splitlines() if line.startswith("ratio ")}


def test_bounds_in_words_also_those_that_are_not_known_yet() -> None:
    told = {"text": "", "names": [[7, "Host"], [9, "Pump"]], "frame": 4}
    lines = {
        "holds first 7 0 5 5": "Host has its first round from 20 s on, 5 frames after it boots at 0 s: whatever is lost.",
        "holds failover 9 6 27 21": "Pump hosts from 108 s on, 21 frames after the last host before it goes off at 24 s: whatever is lost.",
        "open failover 7 power": "Host: its takeover has no bound, since a host or the node is switched in a way that the bound does not allow.",
        "open first 8 3 rounds 12": "node 8: its first round has no bound, since the run ends before.",
        "holds joined 9 0 6 6": "Pump is a member from 24 s on, 6 frames after the host boots at 0 s, as long as nothing is lost.",
        "holds scanning 9 0 6 4": "Pump scans from 24 s on for at most 4 frames for each round with losses, up to three of them in a row.",
        "open joined 9 0 ratio 21": "Pump: its membership has no bound, since a link may lose something in the first round.",
        "holds latency 9 0 1 12": "Pump: the bound “latency” holds (0 1 12).",
        "open parted 7 9 losses 4": "Host: the bound “parted” is open, since a premise is not met.",
        "holds constructor 7": "Host: the bound “constructor” holds.",
    }  # fmt: skip
    assert calls([("bounds", "boundText", [told, line]) for line in lines]) == list(lines.values())
