"""The answers that a planner of a network looks for, each by one call that gives a table (a pandas DataFrame).

    import foldcairn
    from foldcairn import planning

    log = foldcairn.run(network)
    planning.delivery_ratio(log, receivers="hosts")

QUESTIONS

`log` is a `results.Log`, as `foldcairn.run` and `results.log` give it. `delivery_ratio`, `fates`, `packets`, `latency`, `latencies`,
`deadline`, `duty_cycle`, `battery_life` and `summary` also take a report without a log, as `results.outcome` gives it for runs
of hours, up to 64 nodes over 4,096 frames; `sample`, `importance`, `capacity` and `bounds` take the network itself, of that length.

`receivers` says for whom packets are meant, where that is not all nodes: the forms are in `foldcairn.receivers`. Where nodes have
names, tables have these in place of ids. Columns that end in `_seconds` are in seconds of true time from the start of the run, or
spans of it; those that begin with `planned_` are by plan, in reports without a log. Ratios and shares are from 0 to 1. Ids and counts
are int64, also in tables without rows. Each function says what its columns mean. The programs that run the scenarios, and that say what
became of each packet, are proved; these functions are plain Python that reads what they write: they are tested, and nothing of them
is proved.
"""

from __future__ import annotations

import math
from typing import Any

import pandas as pd

from .answers import bounds as _bounds, delivery, fates as _fates, outages as _outages, radio, rounds as _rounds, service, tables as _tables
from .answers.answering import answer
from .answers.labels import answers
from .common import arguments
from .many import capacity as _capacity, importance as _importance, sample as _sample
from .many.counts import Counts
from .model.receivers import Receivers
from .model.scenario import Scenario
from .requirements import failing as _failing, relaying as _relaying, verifying as _verifying
from .runs.program import Refused
from .runs.results import Log, Report, bus as _bus, log as _log
from .search import searching as _searching

__doc__ = (__doc__ or "").replace("QUESTIONS", _tables.questions())
__all__ = [
    "battery_life", "bounds", "capacity", "cautions", "contention", "data_slots", "deadline", "delivery_ratio", "duty_cycle", "failures",
    "fates", "hosts", "importance", "joins", "latencies", "latency", "outages", "packets", "power_cycles", "radio_time", "relays", "rounds",
    "sample", "search", "streams", "summary", "tables", "verdicts",
]  # fmt: skip

delivery_ratio = answers(delivery.delivery_ratio)
deadline = answers(delivery.deadline)
latency = answers(delivery.latency)
latencies = answers(delivery.latencies)
packets, fates = answers(_fates.packets), answers(_fates.fates)
battery_life = answers(radio.battery_life)
duty_cycle = answers(radio.duty_cycle)
radio_time = answers(radio.radio_time)
data_slots = answers(_rounds.data_slots)
joins = answers(_rounds.joins)
rounds = answers(_rounds.rounds)
streams = answers(_rounds.streams)
contention = answers(service.contention)
hosts = answers(service.hosts)
outages = answers(_outages.outages)
power_cycles = answers(service.power_cycles)
importance, capacity = answers(_importance.importance), answers(_capacity.capacity)
sample = _sample.sample
bounds = answers(_bounds.bounds)
verdicts = _verifying.verdicts
failures, relays = _failing.failures, _relaying.relays
search = _searching.search


@answer
def tables(log: Log, *, receivers: Receivers = None, battery: dict[str, Any] | None = None) -> dict[str, pd.DataFrame]:
    """All answers of a run.

    Parameters
    ----------
    log : results.Log
        The run.
    receivers : optional
        For whom packets are meant, as in `delivery_ratio`.
    battery : dict, optional
        The words of `battery_life`, as `{"capacity_mah": 2500, "mains": [1]}`.

    Returns
    -------
    dict of str to pandas.DataFrame
        The tables by the names that the files of `python3 -m foldcairn report --csv` have.
    """
    return {one.name: one.of(answers(one.call), log, receivers, battery or {}) for one in _tables.TABLES}


@answer
def cautions(log: Log) -> list[str]:
    """What of a run is hardly as it was meant.

    Parameters
    ----------
    log : results.Log
        The run.

    Returns
    -------
    list of str
        Sentences: the cautions of its scenario, two hosts that served at once, a network without a host at the end, nodes that never
        joined, and streams that were never accepted.
    """
    scenario, found = log.scenario, list(log.scenario.cautions())
    for row in service.hosts(log, "at once").itertuples():
        found.append(
            f"from {row.start_seconds:,.0f} s to {row.end_seconds:,.0f} s two hosts serve at once, node {scenario.name(row.host)} and node "
            f"{scenario.name(row.other_host)}, and the nodes of one receive nothing of the other; `return` of the program "
            "(`results.returns`) runs the rule by which a backup host goes back (docs/RETURN.md)"
        )
    silent = service.no_host_from(log)
    if not math.isnan(silent):
        found.append(f"no host serves from {silent:,.0f} s to the end of the run, at {scenario.seconds:,} s")
    if log.deliveries.empty and _rounds.rounds(log).empty:
        found.append("no host ever serves")
    joined = _rounds.joins(log)
    never = sorted(set(joined["node"]) - set(joined.loc[joined["rank"] >= 0, "node"]))
    if never:
        found.append(f"never joined a host: {', '.join(f'node {scenario.name(node)}' for node in never)}")
    asked = _rounds.streams(log).groupby(["node", "stream"])["accepted_seconds"].count()
    if lost := [key for key, count in asked.items() if not count]:
        found.append(f"never accepted: {', '.join(f'stream {stream} of node {scenario.name(node)}' for node, stream in lost)}")
    return found


def summary(run: Report | Counts | Scenario | str, *, receivers: Receivers = None) -> dict[str, float]:
    """The main numbers of a run in one row, for `sweep.sweep`.

    A scenario or its text is run first, by `results.log`, or by `results.bus` where it is too long for a log.

    Parameters
    ----------
    run : results.Report, counts.Counts, Scenario or str
        The run. Of counts of one seed a sweep of `counts.Sampled(network, seed)` has it soonest.
    receivers : optional
        For whom packets are meant, in the forms of `foldcairn.receivers`; without it what the scenario says.

    Returns
    -------
    dict of str to float
        Times are true time, in seconds from the start of the run, but for those that are said to be by plan. What there is not is not a
        number (NaN).

        ratio_of_put, ratio_of_sent_while_on
            as `delivery_ratio` has them, over all streams and the `receivers` that are meant
        latency_median_seconds, latency_p90_seconds
            seconds from put to delivery
        hosts
            how many terms of hosts there were
        all_joined_seconds, all_accepted_seconds
            of the first term, as `hosts` has them: of the first start, without power cycles
        never_accepted
            streams that were requested in a term and never accepted in it, over all terms
        requests, request_success
            requests of all terms, and the part of them that was acknowledged
        outage_seconds
            the longest outage at a change of hosts, or to the end of the run
        no_host_from_seconds
            from when on no host serves to the end of the run
        duty_cycle, duty_cycle_in_rounds
            the means over the nodes that had power

        Of a report without a log there are the two ratios, and, by plan, the latencies, `duty_cycle` and `duty_cycle_in_rounds`. Of
        counts there are the same but for `ratio_of_sent_while_on`, as `Sample.network` has them, and the parts `dropped`, `sent`,
        `waiting` and `cleared`.

    Raises
    ------
    ArgumentError
        As `delivery_ratio` does; it also raises what `results.log` raises.
    """
    receivers = arguments.settled(receivers)
    if isinstance(run, Counts):
        return _sample.summary(run, receivers)
    # Without warnings: in a sweep they would come once a case.
    log = run if isinstance(run, Report) else _run_of(run)
    if not isinstance(log, Log):
        return _summary_without_log(log, receivers)
    ratio = delivery.delivery_ratio(log, "all", receivers=receivers).iloc[0]
    terms, asked, duty = service.hosts(log), service.contention(log), radio.duty_cycle(log)
    waited = delivery.waited(log, receivers)
    requests = int(asked["requests"].sum())
    return {
        "ratio_of_put": float(ratio["ratio_of_put"]),
        "ratio_of_sent_while_on": float(ratio["ratio_of_sent_while_on"]),
        "latency_median_seconds": float(waited.median()),
        "latency_p90_seconds": float(waited.quantile(0.9)),
        "hosts": len(terms),
        "all_joined_seconds": float(terms["all_joined_seconds"].iloc[0]) if len(terms) else float("nan"),
        "all_accepted_seconds": float(terms["all_accepted_seconds"].iloc[0]) if len(terms) else float("nan"),
        "never_accepted": int((terms["streams"] - terms["accepted"]).sum()),
        "requests": requests,
        "request_success": float(asked["acknowledgements"].sum() / requests) if requests else float("nan"),
        "outage_seconds": float(_outages.outages(log)["outage_seconds"].max()),
        "no_host_from_seconds": service.no_host_from(log),
        "duty_cycle": float(duty["duty_cycle"].mean()),
        "duty_cycle_in_rounds": float(duty["duty_cycle_in_rounds"].mean()),
    }


def _run_of(scenario: Scenario | str) -> Report:
    """The log of a run, or its report where it is too long for a log."""
    try:
        return _log(scenario, warn=False)
    except Refused as error:
        if error.kind != "TooBig":
            raise
        return _bus(scenario)


def _summary_without_log(report: Report, receivers: Receivers) -> dict[str, float]:
    """What of `summary` a report tells."""
    ratio = delivery.delivery_ratio(report, "all", receivers=receivers).iloc[0]
    waited = delivery.waited(report, receivers)
    duty = radio.duty_cycle(report)
    return {
        "ratio_of_put": float(ratio["ratio_of_put"]),
        "ratio_of_sent_while_on": float(ratio["ratio_of_sent_while_on"]),
        "latency_median_seconds": float(waited.median()),
        "latency_p90_seconds": float(waited.quantile(0.9)),
        "duty_cycle": float(duty["duty_cycle"].mean()),
        "duty_cycle_in_rounds": float(duty["duty_cycle_in_rounds"].mean()),
    }
