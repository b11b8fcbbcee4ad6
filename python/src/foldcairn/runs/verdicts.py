"""What the log checker says of a recorded log. `results.check` runs it, and docs/CHECK.md explains it. Tested, not proved."""

from __future__ import annotations

import re
from dataclasses import dataclass

from .columns import UnknownLine


@dataclass(frozen=True)
class Verdict:
    """What `check` says of a log, as the program writes it in `answer`, and the first thing that is wrong by its fields.

    node         In `no trail V` the node whose transmissions or radio-on times are not those that the protocol makes of what it
                 received; in `no missing V U T` the node that should have received.
    entry        In `no heard I` the number of the wrong reception among the `sent`, `heard` and `tuned` lines, from 1 on;
                 `line` is that line.
    sender, start_ticks    In `no missing V U T` the transmission that the node should have received, by its sender and start.

    Fields that a verdict does not have are None.
    """

    answer: str
    node: int | None = None
    entry: int | None = None
    line: str | None = None
    sender: int | None = None
    start_ticks: int | None = None

    @property
    def valid(self) -> bool:
        """Whether the log is a valid one of the scenario."""
        return self.answer == "lawful"

    def __str__(self) -> str:
        """The verdict as a sentence."""
        if self.line is not None:
            return f"entry {self.entry} of the log is no reception by the rules, or it is there twice: {self.line}"
        if self.sender is not None:
            return f"node {self.node} should have received what node {self.sender} transmitted from tick {self.start_ticks} on"
        if self.node is not None:
            return f"node {self.node} did not transmit or listen as the protocol says for what it received"
        return "the log is valid"


def verdict(answer: str, log_text: str) -> Verdict:
    """The verdict of a line of `check` on this log. Raises `UnknownLine` where it is none."""
    if answer == "lawful":
        return Verdict(answer)
    found = re.fullmatch(r"no (?:trail (\d+)|heard (\d+)|missing (\d+) (\d+) (\d+))", answer)
    if not found:
        raise UnknownLine(f"`check` wrote {answer[:80]!r}, which is no verdict")
    trail, heard, *missing = (None if number is None else int(number) for number in found.groups())
    if heard is not None:
        return Verdict(answer, entry=heard, line=_entries(log_text)[heard - 1])
    if trail is not None:
        return Verdict(answer, node=trail)
    return Verdict(answer, node=missing[0], sender=missing[1], start_ticks=missing[2])


def _entries(log_text: str) -> list[str]:
    """The lines that count as entries: other lines of a log are skipped."""
    return [line for line in log_text.split("\n") if line.split()[:1] in (["sent"], ["heard"], ["tuned"])]
