"""What became of each packet that was put: dropped, sent, still waiting, or cleared from its queue; where each went, and how many.

The planner's program says it, and is proved (`results.fates`): it is asked about the network and the seed of a report. `puts` adds
what the script says of each packet: its payload, why it was dropped, and why its queue was emptied. `by_log` finds the same in the
lines of a log. It answers where the program has no command `fates`, and for a log that is not the one of its scenario. Both are views of
`arrivals`. This module is tested, not proved.
"""

from __future__ import annotations

import numpy as np
import pandas as pd

from ..common import arguments
from ..runs.results import PACKET, Log, Report, slot_seconds
from . import arrivals, puts as script_puts
from .answering import report_answer


FATES = (
    "delivered", "delivered by none", "queued", "lost with its node", "withdrawn",
    "dropped: node off", "dropped: no stream", "dropped: full queue",
)  # fmt: skip


@report_answer
def of(report: Report) -> pd.DataFrame:
    """What became of each packet that was put, with the columns of `results.fates`, as `arrivals.of_report` has it and with its errors."""
    return arrivals.of_report(report).put


def by_log(log: Log) -> pd.DataFrame:
    """What became of each packet, by the lines of a log and the script of its scenario; columns are those of `results.fates`."""
    return arrivals.by_lines(log).put


def puts(report: Report) -> pd.DataFrame:
    """A row for each `put` line, in the order in which they happen.

    frame, put_seconds    its frame, and the time that was given for it in seconds (`Scenario.put_seconds`)
    source, boot, stream  the node, which of its boots it was (0 if it had no power), and the stream
    number                the number that the packet got in its stream and boot; -1 if it was dropped
    payload               in hexadecimal digits, `-` for none
    dropped               why it was not queued: "node off", "no stream" or "full queue"; empty if it was queued
    cleared               why its queue was emptied before it was sent: "lost with its node" (power went off), "withdrawn" (the stream
                          was left), or empty if it was not
    became, sent_frame, rank, sent_slot, deliveries, host_delivered, cleared_frame   as `results.fates` has them
    Raises what `of` raises.
    """
    found = arrivals.of_report(report)
    table, told = found.put, found.told
    became = table["became"]
    dropped = [("" if word != "dropped" else why or script_puts.FULL_QUEUE) for word, why in zip(became, told.dropped)]
    cleared = [(why if word == "cleared" else "") for word, why in zip(became, told.cleared)]
    made = told.table()
    made["put_seconds"] = found.put_seconds
    made["number"] = table["number"]
    made["payload"] = pd.Series([put.payload.hex() or "-" for put in told.rows], dtype="object")
    made["dropped"] = pd.Categorical(dropped, categories=["", script_puts.OFF, script_puts.NO_STREAM, script_puts.FULL_QUEUE])
    made["cleared"] = pd.Categorical(cleared, categories=["", script_puts.LOST, script_puts.WITHDRAWN])
    made = made[["frame", "put_seconds", "source", "boot", "stream", "number", "payload", "dropped", "cleared"]]
    return made.join(table[["became", *arrivals.SENT, "deliveries", "host_delivered", "cleared_frame"]])


@report_answer
def packets(log: Report) -> pd.DataFrame:
    """Where each packet went.

    Parameters
    ----------
    log : results.Report
        The run: its log, or a report without one.

    Returns
    -------
    pandas.DataFrame
        A row for each put, in the order in which they happen.

        frame, put_seconds
            the frame at whose start the packet was handed over, and when it was put, in seconds: at most a frame before
        source, stream
            the node and stream that it was put to
        boot, number
            the boot of the node (0 without power) and the packet's number in it, -1 if it was dropped
        payload
            in hexadecimal digits, `-` for none
        keep_alive
            whether it is one of `Scenario.stream(.., keep_alive=..)`, which no answer counts
        sent_frame, sent_slot
            in which frame and data slot its node transmitted it first; -1 if it never did
        sent_seconds
            when that was, in seconds of true time; missing if it never was
        rank
            the rank of that round, which tells its host and its channel; -1 if it never did
        deliveries
            how many nodes delivered it
        host_delivered
            whether the host of this rank is one of them; never where that is the source
        first_seconds, last_seconds
            when the first and the last of them had received it, as `results.Log` has it
        fate
            "delivered" (by at least one node); "delivered by none" (it was sent); "queued" (it waits at the end of the run); "lost with
            its node" (power went off while it waited); "withdrawn" (its stream was left while it waited); or "dropped: " and why: "node
            off", "no stream" or "full queue"
        cleared_frame
            in which frame it was lost with its node or withdrawn; -1 if it was not

        A report without a log has no true times. In place of `sent_seconds`, `first_seconds` and `last_seconds` it has
        `planned_sent_seconds`, `planned_first_seconds` and `planned_last_seconds`, all three the start of its slot by plan.

    Raises
    ------
    ArgumentError
        As `foldcairn.answers.arrivals.of_report` does; it also raises what `program.execute` raises.
    """
    table, run = puts(log), arrivals.of_report(log)
    table["keep_alive"] = ~run.counted
    sent, first, last = _times(log)
    came = log.deliveries["delivered_seconds" if isinstance(log, Log) else "planned_seconds"]
    came = came.loc[run.came.index].groupby(run.came["place"].to_numpy()).agg(["min", "max"])
    table[[first, last]] = came.reindex(table.index).astype("float64")
    if isinstance(log, Log):
        table = table.merge(arrivals.sent_of(log)[[*PACKET, sent]].astype(dict.fromkeys(PACKET, "int64")), how="left", on=PACKET)
    else:
        table[sent] = slot_seconds(log.scenario.profile, table["sent_frame"], table["sent_slot"]).where(table["sent_frame"] >= 0)
    became = table["became"].astype(str)
    fate = np.select(
        [became == "dropped", table["deliveries"] > 0, became == "sent", became == "cleared"],
        ["dropped: " + table["dropped"].astype(str), "delivered", "delivered by none", table["cleared"].astype(str)],
        "queued",
    )
    table["fate"] = pd.Categorical(fate, categories=FATES)
    told = ["sent_frame", "sent_slot", sent, "rank", "deliveries", "host_delivered", first, last, "fate", "cleared_frame"]
    return table[["frame", "put_seconds", "source", "boot", "stream", "number", "payload", "keep_alive", *told]]


def _times(log: Report) -> tuple[str, str, str]:
    """The columns of the times at which a packet was sent, and delivered first and last, by the clock of the report."""
    clock = "" if isinstance(log, Log) else "planned_"
    return f"{clock}sent_seconds", f"{clock}first_seconds", f"{clock}last_seconds"


@report_answer
def fates(log: Report, by: str = "stream") -> pd.DataFrame:
    """How many packets went where.

    Parameters
    ----------
    log : results.Report
        The run: its log, or a report without one.
    by : {"stream", "all"}
        What has a row: each source and stream, which are the index, or all together.

    Returns
    -------
    pandas.DataFrame
        The number of packets, `puts`, and a column for each fate that occurs (see `packets`), whose sum that is.

    Raises
    ------
    ArgumentError
        Where `by` is another word.
    """
    arguments.one_of("by", by, ("stream", "all"))
    table = packets(log)
    table = table[~table["keep_alive"]]
    counts = pd.crosstab([table["source"], table["stream"]], table["fate"].astype(str))
    counts = counts.reindex(columns=[fate for fate in FATES if fate in counts]).astype("int64")
    counts.insert(0, "puts", counts.sum(axis=1))
    counts = counts.rename_axis(columns=None)
    return counts if by == "stream" else counts.sum().to_frame().T
