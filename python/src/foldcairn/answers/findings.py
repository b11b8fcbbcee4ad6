"""The answers of one network in ten lines, for the top of a report. Tested, not proved."""

from __future__ import annotations

from collections.abc import Iterable, Mapping
from typing import Any

import pandas as pd

from ..model.receivers import Receivers, meant
from ..model.scenario import Scenario
from ..runs.results import Log
from . import delivery, outages, radio, service
from .rounds import joins

_SHOWN_MOST = 6


def node(scenario: Scenario, one: int) -> str:
    """A node in a sentence: its name, or "node 7"."""
    return scenario.name(one) if one in scenario.labels else f"node {one}"


def nodes(scenario: Scenario, several: Iterable[int]) -> str:
    """Nodes in a sentence, cut where there are many."""
    listed = [node(scenario, one) for one in several]
    more = f" and {len(listed) - _SHOWN_MOST} more" if len(listed) > _SHOWN_MOST else ""
    return ", ".join(listed[:_SHOWN_MOST]) + more


def draw(seed: int | None) -> str:
    """By which draw of the losses an answer is; no words where none was drawn (None)."""
    return "" if seed is None else f"one draw, seed {seed}"


def whom(scenario: Scenario, receivers: Receivers) -> str:
    """For whom packets are meant, in words."""
    groups = list(meant(scenario, receivers).groups())
    if len(groups) != 1:
        return "their own receivers" if groups else "nobody"
    chosen = groups[0][0]
    if isinstance(chosen, str):
        return "whichever host serves"
    return "all other nodes" if chosen == frozenset(scenario.nodes) else nodes(scenario, sorted(chosen))


def of(log: Log, *, receivers: Receivers = None, battery: dict[str, Any] | None = None, deadline: float | None = None) -> list[str]:
    """Ten sentences with the main numbers of a run, after one that says by which draw of the losses they are; `receivers` and `battery` are
    as in `planning.tables`, and `deadline` is a time in seconds from put to delivery."""
    drawn = [f"All that follows is of {draw(log.origin.seed)}."] if log.origin.seed is not None else []
    return [
        *drawn, _delivered(log, receivers), _worst(log, receivers), _latency(log, receivers) + _in_time(log, receivers, deadline), _start(log),
        _power_cycles(log), _hosts(log),
        _outage(log), _at_the_end(log), _duty(log), _battery(log, battery or {}),
    ]  # fmt: skip


def _percent(ratio: Any) -> str:
    return "none" if pd.isna(ratio) else f"{100 * float(ratio):.1f} %"


def _delivered(log: Log, receivers: Receivers) -> str:
    row = delivery.delivery_ratio(log, "all", receivers=receivers).iloc[0]
    return (
        f"Of the packets that were put {_percent(row['ratio_of_put'])} arrive at {whom(log.scenario, receivers)}, and of those that were "
        f"sent {_percent(row['ratio_of_sent'])}."
    )


def _worst(log: Log, receivers: Receivers) -> str:
    table = delivery.delivery_ratio(log, receivers=receivers)
    table = table[table["put"] > 0].sort_values("ratio_of_put", kind="stable")
    if table.empty:
        return "No packet was put that is meant for them."
    told = [
        f"{node(log.scenario, row.source)} ({_percent(row.ratio_of_put)} of {row.put})" for row in table.head(3).itertuples()
    ]
    return f"The sources of which least arrives: {', '.join(told)}."


def _latency(log: Log, receivers: Receivers) -> str:
    row = delivery.latency(log, "all", receivers=receivers).iloc[0]
    if not row["deliveries"]:
        return "Nothing arrives, so there is no latency."
    return (
        f"Of what arrives half does within {row['median_seconds']:.1f} s, 90 % within {row['p90_seconds']:.1f} s, and all within "
        f"{row['max_seconds']:.1f} s."
    )


def _in_time(log: Log, receivers: Receivers, seconds: float | None) -> str:
    """Which part is delivered within the deadline, if there is one."""
    if seconds is None:
        return ""
    row = delivery.deadline(log, seconds, "all", receivers=receivers).iloc[0]
    due = int(row["due"])
    if not due:
        return f" None was due by a deadline of {seconds:g} s before the end of the run."
    return f" Within the deadline of {seconds:g} s {_percent(row['share'])} of the {due:,} that were due by the end arrive."


def _start(log: Log) -> str:
    terms = service.hosts(log)
    if terms.empty:
        return "No host ever serves."
    first = terms.iloc[0]
    if pd.isna(first["all_joined_seconds"]):
        joined = joins(log)
        never = sorted(set(log.scenario.nodes) - set(joined.loc[joined["rank"] >= 0, "node"]))
        begun = f"Not all nodes joined the first host ({nodes(log.scenario, never)} never joined any)" if never else "Not all nodes joined the first host"
    else:
        begun = f"All nodes had joined {first['all_joined_seconds']:.1f} s after the first start"
    accepted = (
        f"{int(first['accepted'])} of {int(first['streams'])} streams were accepted"
        if pd.isna(first["all_accepted_seconds"])
        else f"all streams were accepted after {first['all_accepted_seconds']:.1f} s"
    )
    later = terms.iloc[1:]
    refused = int((later["streams"] - later["accepted"]).sum())
    after = f"; later hosts never accepted {refused} of {int(later['streams'].sum())}" if refused else ""
    return f"{begun}; {accepted}{after}."


def _power_cycles(log: Log) -> str:
    table = service.power_cycles(log)
    if table.empty:
        return "No node was switched off and on again."
    back = table["waited_seconds"].dropna()
    lost = len(table) - len(back)
    told = f"{len(table)} times a node was switched on again ({nodes(log.scenario, sorted(set(table['node'])))})"
    within = f"; it had joined {back.max():.1f} s later at the latest" if len(back) else ""
    return told + within + (f"; {lost} times it never joined again" if lost else "") + "."


def _hosts(log: Log) -> str:
    terms = [
        f"{node(log.scenario, row.host)} from {row.first_seconds:.0f} to {row.last_seconds:.0f} s" for row in service.hosts(log).itertuples()
    ]
    at_once = service.hosts(log, "at once")
    both = "" if at_once.empty else f"; for {at_once['seconds'].sum():.0f} s two hosts served at once, each for its own nodes"
    return f"Rounds were opened by {', by '.join(terms)}{both}." if terms else "No round was opened."


def _outage(log: Log) -> str:
    table = outages.outages(log)
    table = table[table["to_host"] >= 0]
    if table.empty:
        return "The host never changed."
    streams = outages.outages(log, "stream")
    streams = streams[(streams["to_host"] >= 0) & (streams["cause"] == outages.HOST)]
    lost = streams[~streams["ended"]]
    longest = table["outage_seconds"].max()
    told = "there is no delivery before or after it" if pd.isna(longest) else f"the network delivered nothing for {longest:.1f} s"
    back = streams.loc[streams["ended"], "outage_seconds"]
    each = f"; single streams waited up to {back.max():.0f} s" if len(back) and not pd.isna(back.max()) else ""
    never = f"; of {len(lost)} streams nothing arrived any more until the end" if len(lost) else ""
    return f"At the change of hosts {told}{each}{never}."


def _at_the_end(log: Log) -> str:
    silent = service.no_host_from(log)
    if pd.isna(silent):
        return "A host serves at the end of the run." if len(service.hosts(log)) else "No host serves at the end of the run."
    return f"No host serves from {silent:,.0f} s to the end of the run, at {log.scenario.seconds:,} s."


def _duty(log: Log) -> str:
    table = radio.duty_cycle(log)
    most = table.loc[table["duty_cycle"].idxmax()] if table["duty_cycle"].notna().any() else None
    if most is None:
        return "No node had power."
    return (
        f"Radios were on for {_percent(table['duty_cycle'].mean())} of the time, {_percent(table['duty_cycle_in_rounds'].mean())} in rounds "
        f"alone (means over the nodes); {node(log.scenario, int(most['node']))} for {_percent(most['duty_cycle'])}, the most."
    )


def battery_words(scenario: Scenario, battery: Mapping[str, Any]) -> str:
    """The battery and the currents, and which nodes have none, in words."""
    mains = nodes(scenario, sorted(radio.on_mains(scenario, battery.get("mains", ()))))
    given = {"capacity_mah": 2600.0, "transmit_ma": 17.4, "receive_ma": 18.8, "sleep_ma": 0.0, **battery}
    return (
        f"{given['capacity_mah']:g} mAh, {given['transmit_ma']:g} mA while the radio transmits, {given['receive_ma']:g} mA while it is on "
        f"otherwise, {given['sleep_ma']:g} mA while it is off" + (f"; on mains: {mains}" if mains else "")
    )


def _battery(log: Log, battery: dict[str, Any]) -> str:
    table = radio.battery_life(log, **battery).dropna(subset=["days"])
    if table.empty:
        return f"No radio that was on has a battery, so no battery life follows ({battery_words(log.scenario, battery)})."
    least, most = table.loc[table["days"].idxmin()], table.loc[table["days"].idxmax()]
    return (
        f"If all its time were like this run, a battery would last {least['days']:.0f} days ({node(log.scenario, int(least['node']))}) to "
        f"{most['days']:.0f} days ({node(log.scenario, int(most['node']))}); without any searching {table['days_in_rounds'].min():.0f} days "
        f"at the least ({battery_words(log.scenario, battery)}).{_target(table, battery)}"
    )


def _target(table: pd.DataFrame, battery: Mapping[str, Any]) -> str:
    """How many of the batteries last as long as they have to."""
    if "reaches_target" not in table:
        return ""
    reached = int((table["reaches_target"] == "yes").sum())
    return f" {reached} of {len(table)} batteries last the {battery['target_days']:g} days that are asked for."
