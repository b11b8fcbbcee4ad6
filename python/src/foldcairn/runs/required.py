"""The checks that something is the log or the report of a run, where it enters. Tested, not proved."""

from __future__ import annotations

import functools
from collections.abc import Callable
from typing import Any, TypeVar, cast

from ..common import arguments
from .results import Log, Report

Call = TypeVar("Call", bound=Callable[..., Any])


def of_log(answer: Call) -> Call:
    """Makes a call that takes a `results.Log` raise `ArgumentError` where it is given something else."""

    @functools.wraps(answer)
    def checked(log: Log, *rest: Any, **named: Any) -> Any:
        require_log(answer.__name__, log)
        return answer(log, *rest, **named)

    return cast(Call, checked)


def require_log(name: str, log: Any) -> None:
    """Raises `ArgumentError` where what is given to the call `name` is no `results.Log`."""
    if not isinstance(log, Log):
        raise arguments.ArgumentError(f"`{name}` takes the log of a run, and was given {arguments.kind(log)}; write {name}(results.log(..))")


def require_report(name: str, report: Any) -> None:
    """Raises `ArgumentError` where what is given to the call `name` is no `results.Report`, which a `results.Log` is too."""
    if not isinstance(report, Report):
        raise arguments.ArgumentError(
            f"`{name}` takes the log of a run, or its report, and was given {arguments.kind(report)}; write {name}(results.log(..)), or for runs of "
            f"hours {name}(results.outcome(..))"
        )
