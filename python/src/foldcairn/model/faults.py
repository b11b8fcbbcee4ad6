"""What a rejected text should have had: the program's fault line in plain words.

The program names the first line that it rejects, and the kind of fault. `explain` reads that line with those above it, and
names the word and its range, the earlier line or the missing one. It decides nothing: a text is rejected by the program
alone. Tested, not proved.

The front end runs it too, `python3 -m foldcairn.model.faults COMMAND LINE KIND` with the text on the standard input, so it stands on
Python's standard library alone.
"""

from __future__ import annotations

import difflib
import sys
from collections.abc import Callable, Sequence

from . import lines
from .lines import Context, Field

_ORDINALS = ("first", "second", "third", "fourth", "fifth", "sixth")
_MISSING = {
    "scenario": (("frames", 1), ("sends", 1), ("node", 2), ("host", 1)),
    "flood": (("sends", 1), ("node", 2), ("start", 1)),
    "deadlines": (("slots", 1), ("frames", 1), ("stream", 1)),
}
_SHOWN_MOST = 60


def split(text: bytes) -> list[list[str]]:
    """The words of each line, as the program cuts a text: at line feeds, spaces and tabs, without comments.

    A line without words and one whose first word begins with `#` is an empty list. Bytes that are not UTF-8 become U+FFFD.
    """
    rows = text.split(b"\n")
    if rows and not rows[-1]:
        rows.pop()
        last = None
    else:
        last = len(rows) - 1
    found: list[list[str]] = []
    for number, row in enumerate(rows):
        if number != last:
            row = row.removesuffix(b"\r")
        words = [word.decode("utf-8", "replace") for word in row.replace(b"\t", b" ").split(b" ") if word]
        found.append([] if words and words[0].startswith("#") else words)
    return found


def context_of(rows: Sequence[Sequence[str]]) -> Context:
    """What the ranges of the next line depend on, where these lines are above it."""
    profile, contend, frames = 1, False, None
    for words in rows:
        if len(words) != 2 or not words[1].isdigit():
            continue
        if words[0] == "profile":
            profile = 2 if words[1] == "2" else 1
        elif words[0] == "contend":
            contend = True
        elif words[0] == "frames" and frames is None:
            frames = int(words[1])
    return Context(profile, contend, frames)


def explain(text: bytes | str, line: int, kind: str, command: str = "run") -> str:
    """The fault of `kind` at `line` (counted from 1) of the text that `command` read, in one sentence that begins with the line.

    It names the word and its range, the earlier line, or what is missing. Where the text doesn't show the fault, as when it
    is not the text that was rejected, it names the kind alone.
    """
    data = text.encode() if isinstance(text, str) else text
    fault = _Fault(data, line, command)
    say = fault.reasons().get(kind)
    why = say() if say else None
    return f"{fault.place}: {why or f'fault of kind {kind}'}"


def explain_length(size: int) -> str:
    """What to say of a text of `size` bytes that the program answered by `fault too long`."""
    return f"the text has {size:,} bytes, and at most {lines.TEXT_BYTES_MOST:,} are read"


def line_of(text: bytes | str, line: int) -> str:
    """That line of the text, counted from 1, without its end; empty where the text has fewer lines."""
    rows = (text.encode() if isinstance(text, str) else text).split(b"\n")
    return rows[line - 1].removesuffix(b"\r").decode("utf-8", "replace") if 0 < line <= len(rows) else ""


class _Fault:
    """One rejected line, with all that its explanation needs."""

    def __init__(self, text: bytes, line: int, command: str) -> None:
        rows = split(text)
        self.above = rows[: line - 1]
        if command in lines.SEEDED_COMMANDS and ["ratios"] in self.above:
            # Without a seed it had rejected this line, so it was given one, and reads what `outcome` does.
            command = "outcome"
        self.text, self.line, self.command = text, line, command
        self.is_past_end = line > len(rows)
        self.grammar = command if command in ("flood", "deadlines") else "scenario"
        self.words = rows[line - 1] if line <= len(rows) else []
        self.context = context_of(self.above)
        self.of_network = command in lines.NETWORK_COMMANDS
        # What `draw` writes is for `run`.
        self.node_frames_most = lines.LONG_NODE_FRAMES_MOST if self.of_network and command != "draw" else lines.NODE_FRAMES_MOST
        self.table = lines.fields(self.grammar, self.context)
        self.is_log = command == "check" and ["log"] in self.above
        self.lacks_log = command == "check" and ["log"] not in (*self.above, self.words)
        if command in lines.NETWORK_COMMANDS and ["ratios"] in self.above:
            self.table = {"ratio": lines.fields(command, self.context)["ratio"]}
        elif self.is_log:
            self.table = lines.fields(command, self.context)
        self.fields = self.table.get(self.words[0], ()) if self.words else ()
        self.values = list(zip(self.words[1:], self.fields))

    @property
    def place(self) -> str:
        shown = line_of(self.text, self.line)
        if len(shown) > _SHOWN_MOST:
            shown = shown[:_SHOWN_MOST] + ".."
        return f"line {self.line}: `{shown}`" if self.words else f"line {self.line}"

    def reasons(self) -> dict[str, Callable[[], str | None]]:
        return {
            "NotUtf8": self.not_utf8,
            "BadWord": self.bad_word,
            "BadNumber": self.bad_number,
            "Range": self.range,
            "UnknownNode": self.unknown_node,
            "Order": self.order,
            "Twice": self.twice,
            "TooMany": self.too_many,
            "Missing": self.missing,
            "TooBig": self.too_big,
        }

    def not_utf8(self) -> str | None:
        row = self.text.split(b"\n")[self.line - 1]
        try:
            row.decode("utf-8")
        except UnicodeDecodeError as error:
            return f"byte {error.start + 1} of the line, {row[error.start]:02x}, is not UTF-8; save the text as UTF-8"
        return None

    def bad_word(self) -> str | None:
        if not self.words:
            return None
        first, *rest = self.words
        if any("\r" in word[:-1] for word in self.words):
            return "lines end with a line feed, and this one has a carriage return inside"
        if first not in self.table:
            return self._unknown_word(first)
        if len(rest) != len(self.fields):
            return self._wrong_count(first, rest)
        for word, field in self.values:
            if field.is_bytes and (why := lines.bytes_fault(word, field.kind)):
                return why
        if self.words[-1].endswith("\r"):
            return "the last line ends in a carriage return without a line feed"
        return None

    def _by_seed(self) -> str:
        """What runs a network in place of this command, where there is such a one."""
        return f"give a seed, by `foldcairn {self.command} --seed N FILE`, or " if self.command in lines.SEEDED_COMMANDS else ""

    def _unknown_word(self, first: str) -> str:
        if first.startswith("\ufeff"):
            return "the text begins with a byte order mark; save it without one"
        if list(self.table) == ["ratio"] and first in lines.fields("run"):
            return f"below a line `ratios` all lines are ratios, and `{first}` comes above it"
        if self.is_log and first in (*lines.fields("run"), "log"):
            return f"below a line `log` all lines are of the log, and `{first}` comes above it"
        if first in ("ratio", "ratios") and self.grammar == "scenario":
            todo = (
                "`ratio` lines are below a line `ratios`" if first == "ratio" else
                f"for {self.command}, {self._by_seed()}draw the losses of a seed first, by `foldcairn draw SEED FILE`, and give it what that writes"
            )  # fmt: skip
            return f"`{first}` is a line of a network, which is read by outcome, fates, sample and draw, and by run and log with a seed; {todo}"
        for grammar, commands in (("scenario", "run, log and bus"), ("flood", "flood"), ("deadlines", "deadlines")):
            if grammar != self.grammar and first in lines.fields(grammar):
                return f"`{first}` is a line of another text, which is read by {commands}"
        near = difflib.get_close_matches(first.lower(), list(self.table), 1)
        hint = f"; did you mean `{near[0]}`?" if near else f"; the words are {', '.join(self.table)}"
        return f"no line begins with `{first}`{hint}"

    def _wrong_count(self, first: str, rest: Sequence[str]) -> str:
        wanted = ", ".join(field.name for field in self.fields)
        many = "value" if len(self.fields) == 1 else "values"
        hint = "; a comment has a line of its own" if any(word.startswith("#") for word in rest) else ""
        if "payload" in wanted and len(rest) == len(self.fields) - 1:
            hint = "; write - for an empty payload"
        return f"`{first}` has {len(self.fields)} {many} ({wanted}), and here are {len(rest)}{hint}"

    def bad_number(self) -> str | None:
        for place, (word, field) in enumerate(self.values):
            if field.is_bytes:
                continue
            if why := lines.number_fault(word, field.kind == "signed"):
                return f"the {_ORDINALS[place]} value, the {field.name}, is no number as texts have them: `{word}`, {why}"
        return None

    def range(self) -> str | None:
        for place, (word, field) in enumerate(self.values):
            if not _within(word, field):
                of_run = f", since the run has {self.context.frames:,} frames" if self._is_bounded_frame(field) else ""
                if field.is_bytes:
                    of_profile = f" in profile {self.context.profile}" if field.kind == "payload" else ""
                    return f"{field.range_in_words()}{of_profile}, and here are {_payload_size(word):,}"
                advice = field.advice if int(word) > field.high else ""
                return f"the {_ORDINALS[place]} number, {field.range_in_words()}{of_run}{advice}"
        ends = [int(word) for word, field in self.values if self.is_log and field.name in ("start", "end") and word.isdigit()]
        if len(ends) == 2 and ends[1] <= ends[0]:
            return f"the end is above the start, and here they are {ends[1]:,} and {ends[0]:,}"
        ids = [word for word, field in self.values if field.kind == "id"]
        if not self.is_log and len(ids) == 2 and ids[0] == ids[1]:
            return f"the two ids must differ, and both are {ids[0]}"
        return None

    def _is_bounded_frame(self, field: Field) -> bool:
        return field.name == "frame" and self.context.frames is not None

    def unknown_node(self) -> str | None:
        known = {words[1] for words in self.above if len(words) == 3 and words[0] == "node"}
        for word, field in self.values:
            if field.kind == "id" and word not in known:
                return f"no line above is `node {word} OFFSET`; nodes come before all lines that name them"
        return None

    def order(self) -> str | None:
        first = self.words[0] if self.words else ""
        if first == "profile":
            return "`profile` is the first line of the text, or isn't there (profile 1)"
        if first == "contend":
            return "`contend` comes directly below `profile 2`"
        if any(field.name == "frame" for field in self.fields) and self.context.frames is None:
            return "`frames` comes above all lines that name a frame"
        if first == "rate":
            return self._rate_order()
        if first == "ratio":
            return self._ratio_order()
        if first == "host":
            given = {words[1] for words in self.above if words[:1] == ["host"]}
            lacking = next((rank for rank in range(int(self.words[1])) if str(rank) not in given), None)
            return f"hosts are given from rank 0 on without a rank left out, and rank {lacking} is not given above"
        return self._frame_order()

    def _rate_order(self) -> str | None:
        for number, words in self._above_backwards("rate"):
            if words[1] == self.words[1]:
                return (
                    f"the ticks of a node's `rate` lines rise, and line {number} has tick {words[2]} for node {words[1]}"
                )
        return None

    def _ratio_order(self) -> str | None:
        _, frame, *link = self.words[:4]
        for number, words in self._above_backwards("ratio"):
            if words[2:4] == link and int(words[1]) >= int(frame):
                return f"the frames of a link's `ratio` lines rise, and line {number} has frame {words[1]} for this link"
        return f"there is no link from {link[0]} to {link[1]}"

    def _frame_order(self) -> str | None:
        for number, words in self._above_backwards("on", "off", "stream", "leave", "put"):
            if int(words[1]) > int(self.words[1]):
                return f"frame {self.words[1]} comes after frame {words[1]} of line {number}; sort these lines by their frames"
        return None

    def _above_backwards(self, *firsts: str) -> list[tuple[int, list[str]]]:
        numbered = [(number, words) for number, words in enumerate(self.above, 1) if words and words[0] in firsts]
        return numbered[::-1]

    def twice(self) -> str | None:
        if not self.words:
            return None
        for number, words in enumerate(self.above, 1):
            if words and (what := _repeats(words, self.words)):
                return f"{what} is given already, by line {number}; take one of the two lines out"
        return None

    def too_many(self) -> str | None:
        first = self.words[0] if self.words else ""
        if first == "node":
            return f"a scenario has at most {lines.NODES_MOST} nodes, and this is one more"
        if self.grammar == "deadlines":
            return f"at most {lines.STREAMS_OF_A_HOST} streams are planned, and this is one more"
        if first == "ratio":
            return f"a network has at most {lines.RATIO_LINES_MOST:,} ratios, and this is one more"
        script = sum(1 for words in self.above if words and words[0] in lines.SCRIPT_WORDS)
        if self.command == "draw" and self.is_past_end:
            return (
                f"the text ends above this line; with the losses of the seed the script has more than {lines.SCRIPT_LINES_MOST:,} lines, of which "
                f"{script:,} are in the text, and no run takes more: take fewer frames, or `outcome`, `fates` and `sample`, which draw any number"
            )
        # Below more lines than a run without a seed reads there was a seed.
        long = self.of_network or script > lines.SCRIPT_LINES_MOST
        if script >= (most := lines.LONG_SCRIPT_LINES_MOST if long else lines.SCRIPT_LINES_MOST):
            return self.one_line_more(most)
        if first == "on":
            return f"a node has at most {lines.BOOTS_MOST} boots, and this would be one more of node {self.words[2]}"
        return None

    def one_line_more(self, most: int) -> str:
        """What a script line after that many has to know."""
        if most == lines.LONG_SCRIPT_LINES_MOST:
            return f"a network has at most {most:,} lines of its script, and this is one more: put fewer packets, or shorten the run"
        planners = f": take fewer, or `outcome`, `fates` and `sample`, which take up to {lines.LONG_SCRIPT_LINES_MOST:,}"
        return f"a scenario has at most {most:,} lines of its script, and this is one more" + planners * (self.grammar == "scenario")

    def missing(self) -> str | None:
        counts = {word: sum(1 for words in self.above if words[:1] == [word]) for word, _ in _MISSING[self.grammar]}
        lacking = [
            f"a second `{word}` line" if counts[word] else f"a `{word}` line"
            for word, wanted in _MISSING[self.grammar]
            if counts[word] < wanted
        ] + ["a line `log`"] * self.lacks_log
        return f"the text ends above this line, and lacks {' and '.join(lacking)}" if lacking else None

    def too_big(self) -> str | None:
        nodes = sum(1 for words in self.above if words[:1] == ["node"])
        frames = self.context.frames or 0
        return (
            f"the text ends above this line; {nodes} nodes times {frames:,} frames are {nodes * frames:,}, and at most "
            f"{self.node_frames_most:,} are run: take {self.node_frames_most // max(1, nodes):,} frames, or `outcome` and `fates`, which take "
            f"up to {lines.LONG_NODE_FRAMES_MOST:,}"
        )


def _payload_size(word: str) -> int:
    return 0 if word == "-" else len(word) // 2


def _within(word: str, field: Field) -> bool:
    if field.is_bytes:
        return field.low <= _payload_size(word) <= field.high
    try:
        return field.low <= int(word) <= field.high
    except ValueError:
        return True


def _repeats(earlier: Sequence[str], words: Sequence[str]) -> str | None:
    """What the earlier line gives already of what this one gives, or None."""
    first = words[0]
    if first in ("link", "pair") and earlier[0] in ("link", "pair"):
        given = {tuple(earlier[1:3])} | ({tuple(earlier[2:0:-1])} if earlier[0] == "pair" else set())
        asked = {tuple(words[1:3])} | ({tuple(words[2:0:-1])} if first == "pair" else set())
        both = sorted(given & asked)
        return f"the link from {both[0][0]} to {both[0][1]}" if both else None
    if earlier[0] != first:
        return None
    if first in ("frames", "sends", "slots", "start", "profile", "contend"):
        return f"`{first}`"
    if first == "node" and earlier[1] == words[1]:
        return f"node {words[1]}"
    if first == "host" and earlier[1] == words[1]:
        return f"the host of rank {words[1]}"
    if first == "host" and earlier[2] == words[2]:
        return f"node {words[2]} as a host"
    if first in ("lose", "cut") and earlier[1:] == words[1:]:
        return "this line"
    if first == "capture" and earlier[1:5] == words[1:5]:
        return "the capture of that frame, slot, step and receiver"
    if first == "stream" and earlier[1:3] == words[1:3]:
        return f"stream {words[2]} of node {words[1]}"
    return None


def main() -> None:
    """Explains the fault of a text on the standard input: the words are its command, its line and its kind."""
    command, line, kind = sys.argv[1:]
    print(explain(sys.stdin.buffer.read(), int(line), kind, command))


if __name__ == "__main__":
    main()
