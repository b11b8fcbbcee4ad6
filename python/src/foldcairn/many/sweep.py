"""Many scenarios: built, run and measured in parallel, with the results in one table, going on where it was stopped.

`sweep` takes the cases as dictionaries of parameters, a function that builds the scenario of a case and one that measures it. It
hands each case to an executor of `concurrent.futures`: a pool of processes without one, or that of Dask, MPI or others for
many machines. A run depends on its text alone, so the table is the same wherever it was made. Tested, not proved.
"""

from __future__ import annotations

import functools
import hashlib
import itertools
import os
import warnings
from collections.abc import Callable, Iterable, Iterator, Mapping, Sequence
from concurrent.futures import Executor
from dataclasses import dataclass
from numbers import Integral
from pathlib import Path
from typing import Any, TextIO

import pandas

from ..common import progress as bars
from ..model.scenario import Scenario
from ..runs import kept, program
from ..runs.losses import Drawing, TooManyLosses
from . import executors
from .counts import Counts

Case = Mapping[str, Any]
Build = Callable[..., "Scenario | str | Drawing"]
Measure = Callable[[Any], "Mapping[str, Any] | pandas.DataFrame"]

# Ends that the same scenario has each time; a case with another one is run again by the next call.
_LASTING = (program.Refused, program.BadUsage, program.BadWords, TooManyLosses)


class SweepStopped(Exception):
    """The executor broke down, as where a worker was killed, a cluster lost it or a call was cancelled.

    The results so far are kept where a folder was given, and the next call goes on from there.
    """


def grid(**values: Iterable[Any]) -> list[dict[str, Any]]:
    """A case for each combination of some values.

    `grid(contend=[3, 4], seed=range(10))` has 20.

    Parameters
    ----------
    **values : iterable
        By the name of each parameter its values.

    Returns
    -------
    list of dict
        The cases; the last parameter changes first.
    """
    return [dict(zip(values, combination)) for combination in itertools.product(*values.values())]


def files(folder: str | os.PathLike[str], pattern: str = "*.scenario") -> list[dict[str, str]]:
    """A case for each file of a folder; `from_file` builds these.

    Parameters
    ----------
    folder : path
        The folder.
    pattern : str
        Which files are taken, as a pattern of `pathlib.Path.glob`.

    Returns
    -------
    list of dict
        `{"file": path}` for each, by name.
    """
    return [{"file": str(path)} for path in sorted(Path(folder).glob(pattern))]


def from_file(file: str) -> str:
    """The text of a file, as what builds the cases of `files`.

    Parameters
    ----------
    file : str
        Its path.

    Returns
    -------
    str
        All of it.

    Raises
    ------
    OSError
        Where it can't be read.
    UnicodeDecodeError
        Where it is not UTF-8.
    """
    return Path(file).read_text(encoding="utf-8")


def text_of(scenario: Scenario | str) -> str:
    """The text of a scenario, without its warnings: in a sweep they would come once a case."""
    return scenario if isinstance(scenario, str) else scenario.text(warn=False)


def summary(scenario: Scenario | str | Counts) -> dict[str, int]:
    """What `run` gives in sums.

    Parameters
    ----------
    scenario : Scenario, str or counts.Counts
        What is run, or what was counted of it.

    Returns
    -------
    dict
        `deliveries` and `drops` count lines; `sent_ticks` and `on_ticks` are for how many ticks of 1/64 µs all nodes together transmitted and had
        their radios on. Of counts (`counts.Sampled`), which no clock has a part in, there are `window_ticks` and `scanned_frames` in place of
        `on_ticks`: the ticks that are planned for windows, and the frames at whose start a node searched.

    Raises
    ------
    program.ProgramError
        As `program.execute` does.
    """
    if isinstance(scenario, Counts):
        cost = scenario.cost
        return {
            "deliveries": int(scenario.latencies["count"].sum()), "drops": int(scenario.puts["dropped"].sum()),
            "sent_ticks": int(cost["transmit_ticks"].sum()), "window_ticks": int(cost["window_ticks"].sum()),
            "scanned_frames": int(cost["scanned_frames"].sum()),
        }  # fmt: skip
    counts = {"deliveries": 0, "drops": 0, "sent_ticks": 0, "on_ticks": 0}
    for line in program.execute(["run"], text_of(scenario)).splitlines():
        if line.startswith(b"deliver "):
            counts["deliveries"] += 1
        elif line.startswith(b"drop "):
            counts["drops"] += 1
        else:
            words = line.split()
            counts["sent_ticks"] += int(words[2])
            counts["on_ticks"] += int(words[5])
    return counts


def origin(seeds: Iterable[int], scenarios: Mapping[str, Scenario]) -> dict[str, Any]:
    """Where an answer of many runs comes from, for the `attrs` of its table: `versions` of the package and the programs, the `seeds`, and
    `text`, the SHA-256 of the text of each scenario with its ratios."""
    hashes = {name: hashlib.sha256(one.network_text(warn=False).encode()).hexdigest() for name, one in scenarios.items()}
    return {**program.versions(), "seeds": list(seeds), "text": hashes}


def sweep(
    build: Build,
    cases: Iterable[Case],
    measure: Measure = summary,
    *,
    executor: Executor | None = None,
    results: str | os.PathLike[str] | None = None,
    progress: bool | TextIO = True,
    name: str | None = None,
) -> pandas.DataFrame:
    """Builds, runs and measures each case, and gives one table.

    A result is kept by its parameters, the text of the scenario with its ratios, its receivers, the kind and seed of a drawing, the
    measure by its name and source, the program's checksum and the version of this package (`kept`). So each case is built again, and
    it is measured only where that gives another key; what the measure calls or reads elsewhere is no part of it, so give it another
    `name` after a change there. What is measured may be numbers, words, times, what is missing, and lists, tuples, sets and mappings of such;
    a result with anything else is in the table, and not kept, of which a warning tells.

    A case whose text is rejected, or whose losses don't fit a text, keeps that; one that ended otherwise, as for lack of memory, is made again by
    the next call. Stopped by Ctrl-C it loses nothing of what is in `results`.

    Parameters
    ----------
    build : callable
        Called with a case's parameters by name, it gives the scenario or its text, or a `losses.Drawing`, whose losses are drawn once it is known
        that its result is not there.
    cases : iterable of mapping
        The parameters of each case: numbers, words and such.
    measure : callable
        It takes what was built, a drawn scenario for a `Drawing`, a report for a `losses.Outcome` and counts for a `counts.Sampled`, and gives a
        mapping for a row, or a DataFrame for several rows.
    executor : concurrent.futures.Executor, optional
        It runs the cases; a client of `distributed` may be given too. Without one there is a process for each processor. The functions must be
        importable there.
    results : path, optional
        A folder that keeps each result as soon as it is there; a later call takes what is there, and makes the rest.
    progress : bool or file
        A bar on standard error or on the stream that is given, a line a minute where that is no terminal; False: none.
    name : str, optional
        A name for the measure, by which results are kept in place of its name and source.

    Returns
    -------
    pandas.DataFrame
        The columns of the case, `status`, then what was measured. `status` is `ok`, or the name of an exception, and then `message` says what it
        says. The table has the versions of `program.versions` in its `attrs`.

    Raises
    ------
    SweepStopped
        Where the executor breaks down.
    ValueError
        Where a case comes twice or has no plain parameters.
    """
    listed = [dict(case) for case in cases]
    names = _names(listed)
    store = kept.Store(results)
    versions = program.versions()
    job = _Job(build, measure, None if results is None else kept.digest(name or kept.spelled(measure), versions))
    known: dict[str, list[str]] = {}
    for key in store.keys():
        known.setdefault(key.split("-")[0], []).append(key)
    done: dict[str, _Outcome] = {}
    with executors.running(executor) as runner, bars.bar(len(listed), "cases", progress) as bar:
        for case_name, outcome in _finished(runner, job, dict(zip(names, listed)), known, store):
            done[case_name] = outcome
            bar.update()
    table = _table(listed, [done[case_name] for case_name in names])
    table.attrs.update(versions)
    return table


@dataclass(frozen=True)
class _Outcome:
    """What came of one case: the rows that were measured, or the name of an exception and its message. `key` is that by which
    it is kept, None where it is not."""

    status: str
    rows: list[dict[str, Any]]
    message: str = ""
    lasting: bool = True
    key: str | None = None


@dataclass(frozen=True)
class _Kept:
    """That the result of one case is there already, by this key."""

    key: str


@dataclass(frozen=True)
class _Job:
    """What is done with each case; `question` names the measure, program and version, None where nothing is kept."""

    build: Build
    measure: Measure
    question: str | None

    def run(self, name: str, case: dict[str, Any], known: Sequence[str]) -> _Outcome | _Kept:
        """One case, in the process of a worker. An exception is an outcome too, so it never stops the others."""
        key = None
        try:
            built = self.build(**case)
            if self.question is not None:
                key = f"{name}-{kept.digest(self.question, _content(built))}"
                if key in known:
                    return _Kept(key)
            measured = self.measure(built.result() if isinstance(built, Drawing) else built)
        except Exception as error:
            return _Outcome(type(error).__name__, [], str(error), isinstance(error, _LASTING), key)
        rows = measured.to_dict("records") if isinstance(measured, pandas.DataFrame) else [dict(measured)]
        return _Outcome("ok", [{str(column): value for column, value in row.items()} for row in rows], key=key)


def _content(built: Scenario | str | Drawing) -> list[object]:
    """All that a result depends on: the scenario, and of a drawing also its seed and its kind, which says what is measured."""
    if isinstance(built, str):
        return [built]
    if isinstance(built, Drawing):
        return [*kept.content(built.scenario), type(built).__qualname__, built.seed]
    return kept.content(built)


def _names(cases: Sequence[Case]) -> list[str]:
    """A name for each case, by its parameters."""
    names = []
    for case in cases:
        try:
            names.append(kept.digest(case))
        except TypeError as error:
            raise ValueError(f"a parameter of the case {case} is no number, word, or list of such: {error}") from error
    if len(set(names)) < len(names):
        twice = next(case for number, case in enumerate(cases) if names[number] in names[:number])
        raise ValueError(f"the case {twice} comes twice")
    return names


def _finished(
    runner: Executor, job: _Job, cases: Mapping[str, dict[str, Any]], known: Mapping[str, list[str]], store: kept.Store
) -> Iterator[tuple[str, _Outcome]]:
    """The outcomes as they come; what is new is kept."""

    def call(name: str, keys: Sequence[str]) -> tuple[str, Callable[[], _Outcome | _Kept]]:
        return name, functools.partial(_Job.run, job, name, cases[name], keys)

    ahead = [call(name, known.get(name, ())) for name in reversed(list(cases))]
    left = len(cases)
    try:
        for name, found in executors.done(runner, ahead):
            outcome = _outcome(found, store)
            if outcome is None:
                # A result that turns out to be damaged is made again, with its key not known.
                ahead.append(call(name, ()))
            else:
                left -= 1
                yield name, outcome
    except executors.BrokeDown as error:
        raise SweepStopped(f"the executor broke down, with {left} cases still to make: {error}") from error


def _outcome(found: _Outcome | _Kept, store: kept.Store) -> _Outcome | None:
    """The outcome, which is kept if it is new and lasting; None where the one that is kept is damaged."""
    if isinstance(found, _Kept):
        return _read(store.take(found.key))
    if found.key is not None and found.lasting:
        try:
            store.keep(found.key, {"status": found.status, "rows": found.rows, "message": found.message})
        except TypeError as error:
            warnings.warn(f"a result is in the table and is not kept, so the next call makes it again: {error}", stacklevel=4)
    return found


def _read(result: Any) -> _Outcome | None:
    """The outcome that was kept, or None where it is none."""
    if not isinstance(result, dict) or set(result) != {"status", "rows", "message"}:
        return None
    rows = result["rows"]
    if not isinstance(rows, list) or not all(isinstance(row, dict) for row in rows):
        return None
    return _Outcome(str(result["status"]), rows, str(result["message"]))


def _table(cases: Sequence[Case], outcomes: Sequence[_Outcome]) -> pandas.DataFrame:
    """One table of all outcomes, in the order of the cases. A count that some rows lack is of the type Int64, which has room for
    what is missing and stays whole."""
    rows: list[dict[str, Any]] = []
    for case, outcome in zip(cases, outcomes):
        told = {"message": outcome.message} if outcome.status != "ok" else {}
        rows.extend({**case, "status": outcome.status, **row, **told} for row in outcome.rows or [{}])
    table = pandas.DataFrame(rows)
    for name in table.columns[table.isna().any()]:
        given = [row[name] for row in rows if name in row]
        if given and all(isinstance(value, Integral) and not isinstance(value, bool) for value in given):
            table[name] = pandas.array([row.get(name) for row in rows], dtype="Int64")
    return table
