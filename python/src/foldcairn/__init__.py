"""Scenarios, runs and answers for planners of low-power radio networks, over the program foldcairn.

    import foldcairn
    from foldcairn import planning

    network = foldcairn.Scenario.from_tables("nodes.csv", "links.csv", "streams.csv", frames=360, profile=2)
    log = foldcairn.run(network)
    print(planning.delivery_ratio(log, receivers="hosts"))

The program is proved; this package is plain Python: tested, not proved. It writes scenarios, runs
the program, and reads what the program writes; it simulates nothing by itself.

Times in ticks are of 1/64 µs: 64,000 are a millisecond and 64,000,000 a second. A frame is 4 s in profile 1 and 5 s in
profile 2, and is no frame of the MAC layer.
"""

from __future__ import annotations

from typing import TYPE_CHECKING, Any

from .common import display

if TYPE_CHECKING:
    from .many.sample import Sample
    from .model.scenario import Scenario
    from .runs.results import Log, Report, outcome
    from .runs.running import run

__all__ = ["Log", "Scenario", "__version__", "outcome", "run"]

# Where each name comes from: it is imported when it is asked for, so that the package can be imported without pandas.
_HOMES = {"Scenario": "model.scenario", "Log": "runs.results", "outcome": "runs.results", "run": "runs.running"}


def __getattr__(name: str) -> Any:
    import importlib

    if name == "__version__":
        from .common.version import version

        return version()
    if name in _HOMES:
        return getattr(importlib.import_module(f"{__name__}.{_HOMES[name]}"), name)
    raise AttributeError(f"module {__name__!r} has no attribute {name!r}")


def _of_scenario(scenario: Scenario) -> str:
    from .pages import notebook

    return notebook.of_scenario(scenario)


def _of_report(report: Report) -> str:
    from .pages import notebook

    return notebook.of_report(report)


def _of_sample(sample: Sample, title: str, battery: dict[str, Any]) -> str:
    from .pages import sample_page

    return sample_page.text(sample, title, battery)


display.by("scenario", _of_scenario)
display.by("report", _of_report)
display.by("sample", _of_sample)
