"""The tables of a sample as text, and as one HTML file that stands alone. Tested, not proved."""

from __future__ import annotations

from collections.abc import Mapping, Sequence
from functools import partial
from typing import Any

import pandas as pd

from ..answers import findings, tables
from ..many import intervals
from ..many.sample import Sample
from . import meanings


def _shown(name: str) -> str:
    """The title that a table of one run has."""
    return tables.NAMED[name].title + tables.NAMED[name].told


# The titles of the tables, by their names.
_TITLES = {
    "network": "The network, packets at {whom}",
    "delivery-by-stream": _shown("delivery-by-stream"),
    "delivery-by-node": _shown("delivery-by-node"),
    "deadline-by-stream": "Part that is delivered within {seconds} s by stream, at {whom}",
    "deadline-by-node": "Part that is delivered within {seconds} s by receiving node",
    "latency-by-stream": "Latency from put to delivery by stream in seconds, at {whom}",
    "latency-by-node": "Latency from put to delivery by receiving node in seconds",
    "fates-by-stream": _shown("fates"),
    "duty-cycle-by-node": "Duty cycle, and time with the radio on in seconds",
    "search-by-node": "How long nodes searched for a host",
    "battery-life-by-node": _shown("battery-life"),
}


# The words of the quantities, and those over the columns.
_QUANTITIES = {
    "ratio_of_put": "delivered, part of what was put", "within_deadline": "delivered within the deadline, part of what was put",
    "latency_median_seconds": "half of the deliveries came within, s", "latency_p90_seconds": "90 % of the deliveries came within, s",
    "dropped": "dropped at once, part of the packets", "sent": "sent, part of the packets", "waiting": "waiting at the end, part of the packets",
    "cleared": "in a queue that was emptied, part of the packets", "duty_cycle": "duty cycle", "duty_cycle_in_rounds": "duty cycle without searching",
    "on_seconds": "radio on, s", "scanned_frames": "frames at whose start it searched", "searching_seconds": "searching for a host, s",
    "days": "battery life, days", "days_in_rounds": "battery life without searching, days",
}  # fmt: skip
_HEADS = {
    "quantity": "number", "error": "standard error", "low": "mean from", "high": "to (95 %)", "p5": "5 % of seeds below", "p50": "median",
    "p95": "95 % below",
}  # fmt: skip


def in_words(table: pd.DataFrame) -> pd.DataFrame:
    """A table of a sample as a page shows it: quantities and columns by words; what has none has its name."""
    told = table.assign(quantity=[_QUANTITIES.get(word, word) for word in table["quantity"]])
    return told.rename(columns=_HEADS)


def titles(sample: Sample, battery: Mapping[str, Any]) -> dict[str, str]:
    """The titles of the tables of a sample, with the receivers, the deadline and the battery that are meant."""
    words = {"whom": sample.receivers, "seconds": f"{sample.deadline_seconds or 0:g}", "battery": findings.battery_words(sample.scenario, battery)}
    known = sample.deadline_seconds is not None
    return {name: title.format(**words) for name, title in _TITLES.items() if known or not name.startswith("deadline")}


def text(sample: Sample, title: str, battery: Mapping[str, Any]) -> str:
    """The page of a sample: a map, all tables, and what was run."""
    # matplotlib and plotly are needed for a page alone.
    from ..draw import plot
    from . import markup, page

    scenario, found = sample.scenario, sample.tables(**battery)
    named = titles(sample, battery)
    whole = named.pop("network")
    about = (
        f"{page.about_network(scenario)} It was run with {_many(sample.seeds)}. Each seed draws the losses anew from the "
        "reception ratios. A number has its mean over the seeds, the standard error of that, the interval in which the mean of all seeds lies "
        "with 95 % (from low to high), and quantiles over the seeds."
    )
    return markup.page(
        "sample.html", title=title, about=about, remarks=sample.remarks(),
        whole=markup.section("network", whole, in_words(found["network"]), _meanings(found["network"])),
        map=markup.picture("The map", lambda: plot.topology(scenario)), spreads=_spreads(sample),
        tables=[markup.section(name, words, in_words(found[name]), {}) for name, words in named.items()],
        seeds=_seeds(sample.origin["seeds"]), origin=sample.origin,
    )  # fmt: skip


# What is drawn of a sample, and the unit of its axis.
_DRAWN = {
    "ratio_of_put": "%", "within_deadline": "%", "latency_median_seconds": "s", "latency_p90_seconds": "s", "dropped": "%", "waiting": "%",
    "duty_cycle": "%", "days": "days",
}  # fmt: skip


def _spreads(sample: Sample) -> list[Any]:
    """How the main numbers spread over the seeds: a picture of each that is not the same with all of them."""
    from ..draw import plan_charts
    from . import markup

    runs = sample.runs
    told = [(name, runs[name].dropna().tolist()) for name in _DRAWN if name in runs and runs[name].nunique() > 1]
    return [markup.picture(_QUANTITIES[name].capitalize(), partial(plan_charts.spread, values, None, _DRAWN[name])) for name, values in told]


def _meanings(table: pd.DataFrame) -> dict[str, str]:
    """What the quantities of a table and its columns mean, as the docstrings say it."""
    told = {**meanings.of_docstring(Sample.network), **meanings.of_docstring(intervals.over_seeds)}
    words = dict.fromkeys((*table["quantity"], *table.columns))
    return {{**_QUANTITIES, **_HEADS}.get(word, word): told[word].rstrip(". ").replace("`", "") for word in words if word in told}


def _many(seeds: Sequence[int]) -> str:
    return f"{len(seeds):,} seeds" if len(seeds) > 1 else findings.draw(seeds[0])


def _seeds(seeds: Sequence[int]) -> str:
    """The seeds by which anyone can make the same runs again."""
    return f"{seeds[0]} to {seeds[-1]}" if list(seeds) == list(range(seeds[0], seeds[-1] + 1)) else ", ".join(map(str, seeds))
