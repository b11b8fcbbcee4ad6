"""The settings that a search may choose, and the plan that each of them makes. Tested, not proved."""

from __future__ import annotations

import itertools
import math
from collections.abc import Iterator, Mapping
from dataclasses import dataclass, replace
from typing import Any

from ..common import arguments
from ..common.arguments import ArgumentError, did_you_mean
from ..plan import choices, packets, values
from ..plan.model import Host, Search
from ..plan.plan import Plan
from ..plan.schema import keys

# A value for each word that is searched. The words are those of `[search]`, of several nodes in the singular.
Setting = Mapping[str, Any]
_WORDS = {"hosts": "host", "backups": "backup"}
# How many combinations are gone through at most; of more, some are drawn.
COUNTED_MOST = 20_000
_LITTLE = 1e-9


def of(plan: Plan, given: Mapping[str, Any] | None) -> Plan:
    """The plan with these keys of `[search]`, in place of its own. Raises `ArgumentError` where a key is not known or a value out of its range,
    and `PlanError` where it names what is not there."""
    named = {one.key.name: one for one in keys(Search)}
    found: dict[str, Any] = {}
    for word, value in (given or {}).items():
        if word not in named:
            raise ArgumentError(f"a search has no {word!r}; it has {', '.join(named)}{did_you_mean(word, named)}")
        settled = arguments.settled(value)
        found[word] = values.take(named[word].key, list(settled) if isinstance(settled, (tuple, frozenset)) else settled)
    made = replace(plan, search=replace(plan.search, **found, where="" if found else plan.search.where))
    choices.check(made)
    if not choices.given(made.search):
        raise ArgumentError(f"there is nothing to search: write [search] in {plan.path or 'the plan'}, as `sends = [1, 2, 3]`, or give some values here")
    return made


@dataclass(frozen=True)
class Space:
    """The values of each word that is searched, for a plan. Settings that come to the same are one: in profile 1 there is one contention slot,
    and a node is not its own backup."""

    plan: Plan
    values: Mapping[str, tuple[Any, ...]]

    @classmethod
    def of(cls, plan: Plan) -> Space:
        """The space of the plan's `[search]`."""
        found = {_WORDS.get(word, word): tuple(several) for word, several in choices.given(plan.search).items()}
        if "relays" in found:
            most = min(plan.search.relays_most, len(found["relays"]))
            found["relays"] = tuple(some for count in range(most + 1) for some in itertools.combinations(found["relays"], count))
        return cls(plan, found)

    @property
    def combinations(self) -> int:
        """How many combinations of values there are, also of such as come to the same."""
        return math.prod(len(several) for several in self.values.values())

    def all(self) -> Iterator[Setting]:
        """All settings, each once."""
        seen: set[tuple[Any, ...]] = set()
        for several in itertools.product(*self.values.values()):
            made = self.plain(dict(zip(self.values, several)))
            if made is not None and key(made) not in seen:
                seen.add(key(made))
                yield made

    def plain(self, setting: Setting) -> Setting | None:
        """The setting as all that come to the same are spelled; None where a node is its own backup."""
        made = dict(setting)
        if "contend" in made and made.get("profile", self.plan.settings.profile) == 1:
            made["contend"] = 0
        first = made.get("host", next((host.node for host in self.plan.hosts if host.rank == 0), None))
        return None if "backup" in made and made["backup"] == first else made


def key(setting: Setting) -> tuple[Any, ...]:
    """What tells settings apart."""
    return tuple(setting.values())


def shown(setting: Setting) -> str:
    """A setting in words."""
    return ", ".join(f"{word} {shown_value(value)}" for word, value in setting.items())


def shown_value(value: Any) -> str:
    """A value of a setting in words."""
    return " and ".join(value) or "none" if isinstance(value, tuple) else f"{value:g}" if isinstance(value, float) else str(value)


def applied(plan: Plan, setting: Setting) -> Plan:
    """The plan with a setting; its own `[search]` stays, but for candidates that are relays now."""
    words = {word: setting[word] for word in ("profile", "sends", "contend") if word in setting}
    if "keep_alive" in setting:
        words["keep_alive"] = setting["keep_alive"] or None
    if words.get("profile") == 1:
        words["contend"] = 0
    made = replace(plan, settings=replace(plan.settings, **words), hosts=_hosts(plan, setting.get("host"), setting.get("backup")), source=plan.source)
    if "interval" in setting:
        made.streams = {name: _asking(stream, setting["interval"]) for name, stream in plan.streams.items()}
    chosen = setting.get("relays", ())
    if chosen:
        made.nodes = {name: replace(node, candidate=node.candidate and name not in chosen) for name, node in plan.nodes.items()}
        left = [name for name in plan.search.relays or [] if name not in chosen]
        made.search = replace(plan.search, relays=left or None)
    return made


def _asking(stream: Any, part: float) -> Any:
    """A stream that requests an interval which is this part of its period; one without a period stays."""
    if stream.every is None:
        return stream
    return replace(stream, interval=max(1, min(packets.INTERVAL_MOST, int(part * stream.every + _LITTLE))))


def _hosts(plan: Plan, host: str | None, backup: str | None) -> list[Host]:
    """The hosts where these nodes have ranks 0 and 1; one that has another rank changes places with it."""
    ranks = {one.rank: one for one in plan.hosts}
    for rank, node in ((0, host), (1, backup)):
        if node is None:
            continue
        before, old = ranks.get(rank), next((one for one in ranks.values() if one.node == node), None)
        if old is not None:
            del ranks[old.rank]
        if old is not None and before is not None and old is not before:
            ranks[old.rank] = replace(before, rank=old.rank)
        ranks[rank] = Host(node, rank) if old is None else replace(old, rank=rank)
    return [ranks[rank] for rank in sorted(ranks)]
