"""In what plans differ, for the page that has them side by side. Tested, not proved."""

from __future__ import annotations

from collections.abc import Callable, Mapping
from typing import Any

from ..answers import findings, happens, workload
from ..model.scenario import Scenario

# What a plan has: its name, its content, which is the same in plans that do not differ in it, and the words for it.
_PARTS: tuple[tuple[str, Callable[[Scenario], Any], Callable[[Scenario], str]], ...] = (
    ("profile", lambda plan: plan.profile, lambda plan: str(plan.profile)),
    ("transmissions of a node in a flood, at most (sends)", lambda plan: plan.sends, lambda plan: str(plan.sends)),
    ("contention slots of a round (contend)", lambda plan: plan.contention_slots, lambda plan: str(plan.contention_slots)),
    ("frames", lambda plan: plan.frames, lambda plan: f"{plan.frames:,}"),
    ("nodes", lambda plan: plan.nodes.keys(), lambda plan: str(len(plan.nodes))),
    ("clocks", lambda plan: (plan.nodes, sorted(plan.rates)), lambda plan: f"{len(plan.rates)} drifts"),
    ("hosts", lambda plan: plan.hosts, lambda plan: findings.nodes(plan, [node for _, node in sorted(plan.hosts.items())]) or "none"),
    ("links", lambda plan: plan.links, lambda plan: str(len(plan.links))),
    ("links that lose something", lambda plan: plan.ratio_lines(), lambda plan: str(len({(one.sender, one.receiver) for one in plan.ratio_lines()}))),
    ("seed of the losses", lambda plan: plan.seed, lambda plan: "not drawn yet" if plan.seed is None else str(plan.seed)),
    ("streams", lambda plan: _streams(plan), lambda plan: _streams(plan) or "none"),
    ("what happens", lambda plan: happens.sentences(plan), lambda plan: " ".join(happens.sentences(plan)[:3]) or "nothing"),
    ("the script", lambda plan: sorted(one.text() for one in plan.script), lambda plan: f"{len(plan.script):,} lines"),
    ("losses, cuts and captures", lambda plan: (sorted(plan.losses), sorted(plan.cuts), sorted(plan.captures)),
     lambda plan: f"{len(plan.losses) + len(plan.cuts) + len(plan.captures):,}"),
)  # fmt: skip


def of(plans: Mapping[str, Scenario]) -> dict[str, list[str]]:
    """In what the plans differ, and for each what each of them has, in words; no row where all have the same."""
    first = next(iter(plans.values()))
    found: dict[str, list[str]] = {}
    for name, content, words in _PARTS:
        told = [words(plan) for plan in plans.values()]
        other = [content(plan) != content(first) for plan in plans.values()]
        if any(other):
            # Others of the same number are not the same.
            found[name] = [one + ", others" * (apart and one == told[0]) for one, apart in zip(told, other)]
    return found


def _streams(plan: Scenario) -> str:
    """The streams of a plan by what they ask for and how often they have a packet."""
    table = workload.table(plan)
    rows = zip(table["streams"], table["interval asked (s)"], table["period (s)"])
    return "; ".join(f"{count} ask for {interval} s, packets: {period}" + " s" * period[:1].isdigit() for count, interval, period in rows)
