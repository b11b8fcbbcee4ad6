"""The tables of `planning.tables` and the questions of `planning`, each said once: names, titles, and the calls that give them.

From this list come the tables themselves, the files of `report --csv`, the titles and the meanings of columns on pages, and the table in
the docstring of `planning`. Types of columns are in `schema`. Tested, not proved.
"""

from __future__ import annotations

from collections.abc import Callable
from dataclasses import dataclass
from typing import Any, Literal

import pandas as pd

from . import bounds, delivery, fates, outages, radio, rounds, service

Call = Callable[..., Any]


@dataclass(frozen=True)
class Table:
    """A table of all answers of a run.

    name        that of its file, and of its key in `planning.tables`
    call        the function that gives it, whose docstring says what its columns mean
    by          its argument after the log, where it has several tables
    title       its title where it is shown as text and on pages; the others have a row for each packet, pair or slot
    told        what the title has more once it is known for whom packets are meant (`{whom}`), or which battery (`{battery}`)
    takes       whether it depends on the receivers, or on the battery
    indexed     whether its rows are named by an index, which becomes columns
    says        another function whose docstring says what columns mean, where that of `call` does not
    own_words   whether the docstring says also of columns of `schema.EVERYWHERE` what they mean here
    """

    name: str
    call: Call
    by: str | None = None
    title: str = ""
    told: str = ""
    takes: Literal["receivers", "battery", None] = None
    indexed: bool = False
    says: Call | None = None
    own_words: bool = False

    def of(self, call: Call, log: Any, receivers: Any, battery: dict[str, Any]) -> pd.DataFrame:
        """The table of a log; `call` is that of this table, which may give names in place of ids."""
        words = {"receivers": receivers} if self.takes == "receivers" else battery if self.takes == "battery" else {}
        found: pd.DataFrame = call(log, *([] if self.by is None else [self.by]), **words)
        return found.reset_index() if self.indexed else found


_AT = ", at {whom}"
TABLES = (
    Table("delivery-by-stream", delivery.delivery_ratio, None, "Delivery ratio by stream", _AT, "receivers"),
    Table("delivery-by-node", delivery.delivery_ratio, "node", "Delivery ratio by receiving node", takes="receivers"),
    Table("delivery-by-pair", delivery.delivery_ratio, "pair", takes="receivers"),
    Table("fates", fates.fates, None, "Where the packets went, by stream", indexed=True, says=fates.packets),
    Table("fates-total", fates.fates, "all", "Where the packets went", says=fates.packets),
    Table("packets", fates.packets),
    Table("latency-by-stream", delivery.latency, None, "Latency from put to delivery by stream, in seconds", _AT, "receivers"),
    Table("latency-by-node", delivery.latency, "node", takes="receivers"),
    Table("hosts", service.hosts, None, "Which host serves when"),
    Table("hosts-at-once", service.hosts, "at once", "When two hosts served at once"),
    Table("joins", rounds.joins, None, "When nodes joined"),
    Table("power-cycles", service.power_cycles, None, "How soon nodes were back after their power was off", own_words=True),
    Table("streams", rounds.streams, None, "When streams got their slots"),
    Table("contention", service.contention, None, "Contention"),
    Table("contention-by-node", service.contention, "node"),
    Table("contention-by-slot", service.contention, "slot"),
    Table("outages", outages.outages, None, "Outages at changes of hosts"),
    Table("outages-by-stream", outages.outages, "stream", "Outages at changes of hosts, by stream"),
    Table("outages-by-node", outages.outages, "node", "Times in which nodes had lost their host"),
    Table("radio-time", radio.radio_time, None, "Time with the radio on by purpose, in seconds", indexed=True, says=radio.tunings),
    Table("radio-time-total", radio.radio_time, "all", "Time with the radio on by purpose over all nodes, in seconds", says=radio.tunings),
    Table("duty-cycle", radio.duty_cycle, None, "Duty cycle"),
    Table("battery-life", radio.battery_life, None, "Battery life in days", " ({battery})", "battery"),
    Table("bounds", bounds.bounds, None, "How long things take at most, by proof, where what that needs holds"),
    Table("bounds-by-stream", bounds.bounds, "stream"),
)
NAMED = {one.name: one for one in TABLES}

# What a planner asks, and the calls of `planning` that answer it.
QUESTIONS = (
    ("delivery ratio of each stream, of what was put and of what was sent", "`delivery_ratio(log)`"),
    ("delivery ratio at each node, or of each stream at each node", '`delivery_ratio(log, "node")`, `delivery_ratio(log, "pair")`'),
    ("where all packets went; each single packet", '`fates(log, "all")`, `fates(log)`; `packets(log)`'),
    ("latency from put to delivery; each delivery", "`latency(log)`; `latencies(log)`"),
    ("the share of packets within a deadline", "`deadline(log, seconds=30)`"),
    ("duty cycle of each node", "`duty_cycle(log)`"),
    ("battery life", "`battery_life(log)`"),
    ("what the energy goes to", '`radio_time(log, shares=True)`, `radio_time(log, "all", shares=True)`'),
    ("when each node joined, and how soon it was back after its power was off", "`joins(log)`; `power_cycles(log)`"),
    ("when each stream was accepted and got its slots", "`streams(log)`; `data_slots(log)` has each slot"),
    ("which host serves when, and when all had joined and been accepted", "`hosts(log)`; `rounds(log)` has each round"),
    ("when two hosts served at once", '`hosts(log, "at once")`'),
    ("outages", '`outages(log)`, `outages(log, "stream")`, `outages(log, "node")`'),
    ("requests, collisions, acknowledgements", '`contention(log)`, `contention(log, "node")`, `contention(log, "slot")`'),
    ("how likely all this is, over many seeds", "`sample(scenario, seeds=range(1000))`"),
    ("which links and nodes matter most", '`importance(scenario)`, `importance(scenario, "nodes")`'),
    ("how many more streams the network takes", "`capacity(scenario, every=60)`"),
    ("whether a plan meets its requirements, and how sure that is", "`verdicts(plan)`"),
    ("what breaks where any one node of a plan fails, and what a relay mends", "`failures(plan)`, `relays(plan)`"),
    ("which settings of a plan meet its requirements at the longest life", '`search(plan, {"sends": [1, 2, 3], "interval": [0.4, 0.8]})`'),
    ("how long things take at most, by proof", '`bounds(scenario)`, `bounds(scenario, "stream")`'),
    ("what of the run is hardly as it was meant", "`cautions(log)`"),
    ("the main numbers of a run in one row, to compare many", "`summary(log)`, or `sweep.sweep(build, cases, planning.summary)`"),
)


def questions() -> str:
    """The questions and calls as a table of Markdown."""
    return "\n".join(["| question | call |", "|---|---|", *(f"| {question} | {calls} |" for question, calls in QUESTIONS)])
