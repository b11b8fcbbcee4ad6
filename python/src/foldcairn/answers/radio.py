"""What radios cost: the time that they are on by purpose, duty cycles, and battery lives. `planning` has all answers in one
place. Tested, not proved."""

from __future__ import annotations

from collections.abc import Collection, Iterable

import numpy as np
import pandas as pd

from ..common import arguments
from ..common.arguments import ArgumentError
from ..model import doubts, lines
from ..model.scenario import Scenario
from ..runs.results import TICKS_A_SECOND, Log, Report
from . import power
from .answering import answer, report_answer
from .rounds import GUARD_TICKS

PURPOSES = ("opening", "data", "empty data", "contention", "closing", "searching")
# By how much a node's clock may be off within a window, as a part of its length.
_DRIFT = 20e-6


@answer
def tunings(log: Log) -> pd.DataFrame:
    """The times in which radios were on.

    A window is one that begins in a round, by the schedules of its rank (`plans`): all nodes of a round agree on its slots to less than a
    millisecond. Where a node's clock was set back by a schedule its next window opens when that of the schedule closes, and the log has
    one time for both; here they are two, parted to about a microsecond.

    Parameters
    ----------
    log : results.Log
        The run.

    Returns
    -------
    pandas.DataFrame
        The tunings of the log (`results.Log`), with the `purpose` of each, one of `PURPOSES`, and its `slot`, which is -1 for a search.
        The purposes:

        opening, closing
            the window of slot 0, and that of the last slot
        data
            the window of a data slot in which a packet was sent
        contention
            the window of a contention slot
        searching
            any other time: the node looked for a host, or made sure, before it served, that there was none. It goes on to the end of the
            first schedule that the node received and relayed
    """
    table = _parted(_placed(log), log)
    planned = plans(log).reindex(pd.MultiIndex.from_arrays([table["frame"], table["rank"]]))
    owners, contending = planned["data_slots"].to_numpy(), planned["contention_slots"].to_numpy()
    slot = table["slot"].to_numpy()
    sent = pd.MultiIndex.from_arrays([table["frame"], table["rank"], slot]).isin(_used(log))
    purpose = np.select(
        [slot < 0, slot == 0, slot <= owners, slot <= owners + contending],
        [5, 0, np.where(sent, 1, 2), 3],
        4,
    )
    return table.drop(columns="frame").assign(purpose=pd.Categorical.from_codes(purpose, categories=PURPOSES))


def _placed(log: Log) -> pd.DataFrame:
    """The times with the radio on, with the frame and slot in which each begins; slot -1 is outside of all rounds."""
    table = log.tunings.copy()
    slot_ticks = lines.slot_ticks(log.scenario.profile)
    table["frame"] = table["start_ticks"] // lines.frame_ticks(log.scenario.profile)
    planned = plans(log).reindex(pd.MultiIndex.from_arrays([table["frame"], table["rank"]]))
    slot = np.rint((table["start_ticks"].to_numpy() - planned["start_ticks"].to_numpy()) / slot_ticks)
    last = (planned["data_slots"] + planned["contention_slots"] + 1).to_numpy()
    table["slot"] = np.where((slot >= 0) & (slot <= last), slot, -1).astype("int64")
    return table


def _parted(table: pd.DataFrame, log: Log) -> pd.DataFrame:
    """The same with a row for each window: where one is longer than a window, the rest is the window of the next slot."""
    window = lines.window_ticks(log.scenario.profile)
    # By a slow clock a window is some ticks longer, one more of them for each of its ends.
    long = (table["slot"] >= 0) & (table["end_ticks"] - table["start_ticks"] > window * (1 + _DRIFT) + 2)
    rest = table[long].copy()
    rest["start_ticks"] += window
    rest["slot"] += 1
    table = table.copy()
    table.loc[long, "end_ticks"] = rest["start_ticks"]
    table = pd.concat([table, rest]).sort_index(kind="stable").reset_index(drop=True)
    for name in ("start", "end"):
        table[f"{name}_seconds"] = table[f"{name}_ticks"] / TICKS_A_SECOND
    return table


@answer
def plans(log: Log) -> pd.DataFrame:
    """The plan of each round by frame and rank: that of its opening, or, where its host is gone, that of the closing that
    announced it.

    start_ticks                  when slot 0 starts by the host's clock, in true time; without the host as many frames after the
                                 round before it as that announced, which is where its members look for it
    data_slots, owners           how many data slots it has, and the streams that own them (`packets.Owner`)
    contention_slots             how many contention slots it has
    """
    schedules = log.initiations[log.initiations["kind"].isin(["opening", "closing"])]
    frame_ticks, slot_ticks = lines.frame_ticks(log.scenario.profile), lines.slot_ticks(log.scenario.profile)
    table = pd.DataFrame(
        {
            "frame": schedules["frame"] + schedules["gap"],
            "rank": schedules["rank"],
            "start_ticks": schedules["start_ticks"] - GUARD_TICKS - schedules["slot"] * slot_ticks + schedules["gap"] * frame_ticks,
            "data_slots": [len(one.owners) for one in schedules["decoded"]],
            "owners": [one.owners for one in schedules["decoded"]],
            "contention_slots": schedules["contention_slots"],
        }
    )
    return table.groupby(["frame", "rank"]).last()


def _used(log: Log) -> pd.MultiIndex:
    """The data slots in which a packet was sent, by frame, rank and slot."""
    data = log.initiations[log.initiations["kind"] == "data"]
    return pd.MultiIndex.from_frame(data[["frame", "rank", "slot"]])


def _clipped(table: pd.DataFrame, start_seconds: float, end_seconds: float) -> pd.Series:
    """How many seconds of each row lie in this time."""
    start, end = round(start_seconds * TICKS_A_SECOND), round(end_seconds * TICKS_A_SECOND)
    ticks = table["end_ticks"].clip(start, end) - table["start_ticks"].clip(start, end)
    return ticks / TICKS_A_SECOND


@answer
def radio_time(
    log: Log, by: str = "node", *, start_seconds: float = 0.0, end_seconds: float | None = None, shares: bool = False
) -> pd.DataFrame:
    """How long each radio was on, by purpose.

    The node's own transmissions are part of these times. Over the whole run `on` is the ON of the node's `energy` line.

    Parameters
    ----------
    log : results.Log
        The run.
    by : {"node", "all"}
        What has a row: each node, which is the index, or all together.
    start_seconds : float
        From when on it counts, in seconds of true time from the start of the run.
    end_seconds : float, optional
        Before when it counts; without it to the end of the run.
    shares : bool
        Whether the purposes are parts of `on`, 0 to 1.

    Returns
    -------
    pandas.DataFrame
        A column in seconds of true time for each of `PURPOSES` (see `tunings`), and their sum `on`.

    Raises
    ------
    ArgumentError
        Where `by` is another word, or the time is no part of the run.
    """
    arguments.one_of("by", by, ("node", "all"))
    table = tunings(log)
    seconds = _clipped(table, *arguments.window(start_seconds, end_seconds, log.scenario.seconds))
    nodes = sorted(log.scenario.nodes)
    cell = np.searchsorted(nodes, table["node"].to_numpy()) * len(PURPOSES) + table["purpose"].cat.codes.to_numpy()
    # Without any time numpy counts by whole numbers.
    spent = np.bincount(cell, seconds.to_numpy(), len(nodes) * len(PURPOSES)).reshape(len(nodes), -1).astype("float64")
    table = pd.DataFrame(spent, pd.Index(nodes, name="node"), list(PURPOSES))
    table["on"] = table.sum(axis=1)
    if by == "all":
        table = table.sum().to_frame().T
    if shares:
        table[list(PURPOSES)] = table[list(PURPOSES)].div(table["on"].where(table["on"] > 0), axis=0)
    return table


@report_answer
def duty_cycle(log: Report, *, start_seconds: float = 0.0, end_seconds: float | None = None) -> pd.DataFrame:
    """The part of the time in which each radio was on.

    Parameters
    ----------
    log : results.Report
        The run: its log, or a report without one.
    start_seconds : float
        From when on it counts, in seconds of true time from the start of the run.
    end_seconds : float, optional
        Before when it counts; without it to the end of the run.

    Returns
    -------
    pandas.DataFrame
        A row for each node. Times are true time, in seconds.

        powered_seconds
            how long the node had power
        on_seconds
            how long its radio was on
        transmit_seconds
            how long it transmitted
        searching_seconds
            how long it searched (see `tunings`)
        duty_cycle
            `on_seconds` as a part of `powered_seconds`, 0 to 1; missing without power
        duty_cycle_in_rounds
            the same without searching: what a node needs that never loses its host

        Of a report without a log it is of the whole run alone. By `run` the radio's time is exact, and what is not planned for rounds
        counts as searching. By `bus` or `outcome` times are by plan, and at most what is given: each window as planned, and each frame in
        which the node searches from its start to its end.

    Raises
    ------
    ArgumentError
        Where the time is no part of the run, or a report has no log of it.
    """
    start, end = arguments.window(start_seconds, end_seconds, log.scenario.seconds)
    table = pd.DataFrame(index=pd.Index(sorted(log.scenario.nodes), name="node"))
    boots = power.boots(log.scenario)
    boots["seconds"] = boots["off_seconds"].clip(start, end) - boots["on_seconds"].clip(start, end)
    table["powered_seconds"] = boots.groupby("node")["seconds"].sum()
    table = table.join(_spent(log, start, end) if isinstance(log, Log) else _charged(log, start, end)).fillna(0.0)
    powered = table["powered_seconds"].where(table["powered_seconds"] > 0)
    table["duty_cycle"] = table["on_seconds"] / powered
    table["duty_cycle_in_rounds"] = (table["on_seconds"] - table["searching_seconds"]) / powered
    return table.reset_index()


def _spent(log: Log, start: float, end: float) -> pd.DataFrame:
    """How long each radio was on in this time, transmitted and searched."""
    on = radio_time(log, start_seconds=start, end_seconds=end)
    transmissions = log.transmissions[["node"]].assign(seconds=_clipped(log.transmissions, start, end))
    transmitted = transmissions.groupby("node")["seconds"].sum()
    return pd.DataFrame({"on_seconds": on["on"], "transmit_seconds": transmitted, "searching_seconds": on["searching"]})


def _charged(report: Report, start: float, end: float) -> pd.DataFrame:
    """The same of a whole run by what a report charges."""
    if (start, end) != (0.0, float(report.scenario.seconds)):
        raise ArgumentError("a report without a log tells the cost of the whole run alone: leave `start_seconds` and `end_seconds` out, or take a log")
    energy = report.energy.set_index("node")
    searching = energy["scanned_frames"] * float(report.scenario.frame_seconds)
    if "on_seconds" in energy:
        searching = (energy["on_seconds"] - energy["window_seconds"]).clip(lower=0.0)
    on = energy.get("on_seconds", energy["window_seconds"] + searching)
    return pd.DataFrame({"on_seconds": on, "transmit_seconds": energy["transmit_seconds"], "searching_seconds": searching})


@report_answer
def battery_life(
    log: Report,
    *,
    capacity_mah: float = 2600.0,
    transmit_ma: float = 17.4,
    receive_ma: float = 18.8,
    sleep_ma: float = 0.0,
    mains: Iterable[int | str] = (),
    target_days: float | None = None,
    start_seconds: float = 0.0,
    end_seconds: float | None = None,
) -> pd.DataFrame:
    """How long a battery lasts if all its time is as this time of the run was.

    The defaults are the datasheet's of the CC2420 radio, and nothing else.

    Parameters
    ----------
    log : results.Report
        The run: its log, or a report without one.
    capacity_mah : float
        The capacity of the battery in mAh; nothing is taken off for age or cold.
    transmit_ma : float
        The current in mA while the radio transmits.
    receive_ma : float
        The current while it is on and does not transmit.
    sleep_ma : float
        The current while it is off: the place for all else that the node draws.
    mains : iterable of int or str
        The nodes without a battery, by their ids or names.
    target_days : float, optional
        How long it has to last.
    start_seconds : float
        From when on it counts, in seconds of true time from the start of the run.
    end_seconds : float, optional
        Before when it counts; without it to the end of the run.

    Returns
    -------
    pandas.DataFrame
        A row for each node.

        mean_ma
            the mean current while the node had power
        days
            the battery's life at this current; missing for a node on mains
        days_in_rounds
            its life if the node never searched: its searching is taken as time with the radio off. Transmissions of a searching node
            (relays of the first schedule) count as made in rounds
        reaches_target
            where `target_days` is given: "yes" or "no", by `days`, and "mains" for a node on mains

        Of a report without a log it is of the whole run, as `duty_cycle` has it.

    Raises
    ------
    ArgumentError
        Where a current, the capacity or the target is below 0, the time is no part of the run, or there is no such node.
    """
    table, without = duty_cycle(log, start_seconds=start_seconds, end_seconds=end_seconds), on_mains(log.scenario, mains)
    lives = lives_of(table, capacity_mah=capacity_mah, transmit_ma=transmit_ma, receive_ma=receive_ma, sleep_ma=sleep_ma, mains=without)
    if target_days is not None:
        reached = np.where(lives["days"] >= arguments.real("target_days", target_days, 0), "yes", "no")
        lives["reaches_target"] = np.where(table["node"].isin(without), "mains", reached)
    return pd.concat([table[["node"]], lives], axis=1)


def on_mains(scenario: Scenario, mains: Iterable[int | str]) -> frozenset[int]:
    """The ids of the nodes without a battery, which are given by their ids or names, or as a single one. Raises `ArgumentError` where there
    is no such node."""
    given = [mains] if isinstance(mains, (int, str)) else mains
    return frozenset(scenario.id(one) for one in given)


def lives_of(
    table: pd.DataFrame, *, capacity_mah: float = 2600.0, transmit_ma: float = 17.4, receive_ma: float = 18.8, sleep_ma: float = 0.0,
    mains: Collection[int] = (),
) -> pd.DataFrame:  # fmt: skip
    """What `battery_life` says of each row of a table with `node`, `powered_seconds`, `on_seconds`, `transmit_seconds` and
    `searching_seconds`. Raises `ArgumentError` where a current or the capacity is below 0."""
    capacity_mah = arguments.real("capacity_mah", capacity_mah, 0)
    transmit_ma, receive_ma = arguments.real("transmit_ma", transmit_ma, 0), arguments.real("receive_ma", receive_ma, 0)
    sleep_ma = arguments.real("sleep_ma", sleep_ma, 0)
    doubts.warn(doubts.of_battery(capacity_mah=capacity_mah, transmit_ma=transmit_ma, receive_ma=receive_ma, sleep_ma=sleep_ma), 6)
    powered = table["powered_seconds"].where(table["powered_seconds"] > 0)

    def mean_current(on: pd.Series) -> pd.Series:
        receiving = (on - table["transmit_seconds"]).clip(lower=0.0)
        charge = table["transmit_seconds"] * transmit_ma + receiving * receive_ma + (powered - on) * sleep_ma
        return charge / powered

    def days(current: pd.Series) -> pd.Series:
        return capacity_mah / current.where((current > 0) & ~table["node"].isin(mains)) / 24

    mean = mean_current(table["on_seconds"])
    in_rounds = mean_current(table["on_seconds"] - table["searching_seconds"])
    return pd.DataFrame({"mean_ma": mean, "days": days(mean), "days_in_rounds": days(in_rounds)})
