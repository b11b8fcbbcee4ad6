"""What the gate asks of a run of the tests: with CI=true no test is skipped. At its end a run says how much processor time it took.

With CI=true it says so loudly where that is above `MOST`, and does not fail: the same tests take up to twice as long on another machine,
or on one whose cores and caches others use too, so a failure would say more of the machine than of the tests. What it says is below
`MOST` also on four cores with four times as much to do.
"""

from __future__ import annotations

import os

import pytest

# Of this process, and of what it had started before the tests: a script that installs packages and then becomes this process.
_BEFORE = os.times()
# How many seconds of processor time all tests may take, on a machine that does nothing else.
MOST = 320


def pytest_configure(config: pytest.Config) -> None:
    """The mark is known."""
    config.addinivalue_line("markers", "processes: with processes where no executor is given, in place of threads")


def pytest_sessionfinish(session: pytest.Session) -> None:
    """Fails a run in which a test was skipped, where nothing may be missing."""
    reporter = session.config.pluginmanager.get_plugin("terminalreporter")
    if os.environ.get("CI") == "true" and reporter is not None and reporter.stats.get("skipped"):
        session.exitstatus = pytest.ExitCode.TESTS_FAILED


def pytest_terminal_summary(terminalreporter: pytest.TerminalReporter) -> None:
    """Says the processor time of all tests, with that of the programs and workers that they started."""
    spent = sum(os.times()[:4]) - sum(_BEFORE[:4])
    terminalreporter.write_line(f"processor time: {spent:.0f} s")
    if os.environ.get("CI") == "true" and spent > MOST:
        terminalreporter.write_sep("!", f"the tests took {spent:.0f} s of processor time, and {MOST} s are what they may take", red=True)
    if os.environ.get("CI") == "true" and terminalreporter.stats.get("skipped"):
        terminalreporter.write_line("with CI=true no test may be skipped")
