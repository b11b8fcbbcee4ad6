"""Each kind of fault is explained by the word, the range, the earlier line or what is missing."""

from __future__ import annotations

import subprocess
import sys

import pytest
from hypothesis import given, settings
from hypothesis import strategies as st

from conftest import EXAMPLES
from foldcairn.model import faults
from foldcairn.model.scenario import Scenario, ScenarioError
from foldcairn.runs import program

HEAD = "frames 12\nsends 2\nnode 1 0\nnode 2 0\nhost 0 1\n"
# The last line of a text, below HEAD; the kind of fault; what its explanation says.
CASES = [
    ("piar 1 2", "BadWord", "no line begins with `piar`; did you mean `pair`?"),
    ("Pair 1 2", "BadWord", "did you mean `pair`?"),
    ("xyzzy", "BadWord", "the words are profile, contend, frames"),
    ("start 1", "BadWord", "`start` is a line of another text, which is read by flood"),
    ("slots 4", "BadWord", "is read by deadlines"),
    ("ratios", "BadWord", "`ratios` is a line of a network, which is read by outcome, fates, sample and draw"),
    ("ratio 0 1 2 5", "BadWord", "`ratio` lines are below a line `ratios`"),
    ("node 3", "BadWord", "`node` has 2 values (id of the node, clock offset), and here are 1"),
    ("link 1 2 # both hear", "BadWord", "a comment has a line of its own"),
    ("put 0 2 0", "BadWord", "write - for an empty payload"),
    ("put 0 2 0 abc", "BadWord", "two hexadecimal digits for each byte, and this one has an odd number"),
    ("put 0 2 0 hello", "BadWord", "hexadecimal digits only"),
    ("put 0 2 0 0xaa", "BadWord", "without 0x"),
    ("node 007 0", "BadNumber", "the first value, the id of the node, is no number as texts have them: `007`, it begins with a zero"),
    ("rate 1 0 -0", "BadNumber", "0 has no sign"),
    ("node 3 -4", "BadNumber", "it has a sign"),
    ("stream 0 2 0 4.5", "BadNumber", "it is no whole number"),
    ("rate 1 12345678901234 0", "BadNumber", "it has more than 13 digits"),
    ("node x 0", "BadNumber", "it has a character that is no digit"),
    ("rate 1 0 21", "Range", "the third number, the drift, is from -20 to 20 ppm"),
    ("node 201 0", "Range", "the first number, the id of the node, is from 1 to 200"),
    ("node 3 256001", "Range", "the second number, the clock offset, is from 0 to 256,000 ticks of 1/64 µs"),
    ("put 12 2 0 aa", "Range", "the frame, is from 0 to 11, since the run has 12 frames"),
    ("lose 0 43 0 1 2", "Range", "the second number, the slot, is from 0 to 42"),
    ("lose 0 0 12 1 2", "Range", "the third number, the step, is from 0 to 11"),
    ("stream 0 2 0 121", "Range", "the fourth number, the interval, is from 1 to 120 seconds"),
    ("stream 0 2 4 4", "Range", "the third number, the stream, is from 0 to 3"),
    ("host 4 2", "Range", "the first number, the rank, is from 0 to 3"),
    ("link 2 2", "Range", "the two ids must differ, and both are 2"),
    ("put 0 2 0 " + "00" * 33, "Range", "the payload, is at most 32 bytes in profile 1, and here are 33"),
    ("link 1 9", "UnknownNode", "no line above is `node 9 OFFSET`"),
    ("profile 2", "Order", "`profile` is the first line of the text"),
    ("contend 2", "Order", "`contend` comes directly below `profile 2`"),
    ("host 2 2", "Order", "rank 1 is not given above"),
    ("rate 1 5 1\nrate 1 5 2", "Order", "line 6 has tick 5 for node 1"),
    ("on 4 1\non 3 2", "Order", "frame 3 comes after frame 4 of line 6; sort these lines by their frames"),
    ("frames 12", "Twice", "`frames` is given already, by line 1"),
    ("sends 1", "Twice", "`sends` is given already, by line 2"),
    ("node 2 5", "Twice", "node 2 is given already, by line 4"),
    ("host 0 2", "Twice", "the host of rank 0 is given already, by line 5"),
    ("host 1 1", "Twice", "node 1 as a host is given already, by line 5"),
    ("link 2 1\npair 1 2", "Twice", "the link from 2 to 1 is given already, by line 6"),
    ("pair 1 2\nlink 2 1", "Twice", "the link from 2 to 1 is given already, by line 6"),
    ("lose 0 0 0 1 2\nlose 0 0 0 1 2", "Twice", "this line is given already, by line 6"),
    ("cut 0 0 0 1\ncut 0 0 0 1", "Twice", "this line is given already, by line 6"),
    ("node 3 0\ncapture 0 0 0 1 2\ncapture 0 0 0 1 3", "Twice", "receiver is given already, by line 7"),
    ("\n".join(f"node {node} 0" for node in range(3, 66)), "TooMany", "at most 64 nodes, and this is one more"),
    ("\n".join(["on 0 1"] * 20_001), "TooMany", "at most 20,000 lines of its script, and this is one more"),
]  # fmt: skip


def refused(text: str | bytes, command: str = "run") -> program.Refused:
    with pytest.raises(program.Refused) as raised:
        program.execute([command], text)
    return raised.value


@pytest.mark.parametrize(("lines", "kind", "says"), CASES, ids=[case[0].splitlines()[-1][:24] + " " + case[1] for case in CASES])
def test_each_fault(lines, kind, says):
    text = HEAD + lines + "\n"
    error = refused(text)
    assert (error.line, error.kind) == (text.count("\n"), kind)
    assert says in error.explanation
    assert error.explanation.startswith(f"line {error.line}: `")


def test_faults_at_the_end_of_a_text():
    error = refused("frames 2\n")
    assert (error.line, error.kind, error.text_of_line) == (2, "Missing", "")
    assert error.explanation.endswith("lacks a `sends` line and a `node` line and a `host` line")
    assert refused("frames 2\nsends 1\nnode 1 0\nhost 0 1\n").explanation.endswith("lacks a second `node` line")
    assert "lacks a `start` line" in refused("sends 1\nnode 1 0\nnode 2 0\n", "flood").explanation
    assert "lacks a `slots` line" in refused("frames 2\nstream 2 0 0 1 2\n", "deadlines").explanation
    big = "frames 360\nsends 1\n" + "".join(f"node {node} 0\n" for node in range(1, 65)) + "host 0 1\n"
    assert "64 nodes times 360 frames are 23,040, and at most 16,384 are run" in refused(big).explanation


def test_faults_of_order_and_boots():
    assert "`frames` comes above all lines that name a frame" in refused("sends 1\nnode 1 0\non 0 1\n").explanation
    boots = "".join(f"on {frame} 1\noff {frame} 1\n" for frame in range(201))
    error = refused("frames 300\nsends 1\nnode 1 0\nnode 2 0\nhost 0 1\n" + boots)
    assert error.kind == "TooMany"
    assert "at most 200 boots, and this would be one more of node 1" in error.explanation


def test_faults_of_bytes():
    error = refused(b"frames 2\nnode 1 \xff\n")
    assert error.kind == "NotUtf8"
    assert "byte 8 of the line, ff, is not UTF-8" in error.explanation
    assert "byte order mark" in refused("\ufefframes 2\n").explanation
    assert "carriage return inside" in refused("frames 2\rsends 1\rnode 1 0").explanation


def test_the_ranges_of_profile_2():
    head = "profile 2\ncontend 2\n" + HEAD
    assert "the slot, is from 0 to 45" in refused(head + "lose 0 46 0 1 2\n").explanation
    assert "at most 96 bytes in profile 2" in refused(head + "put 0 2 0 " + "00" * 97 + "\n").explanation
    assert "from 0 to 1,310,720,000,000 ticks" in refused(head + "rate 1 1310720000001 0\n").explanation


def test_floods_and_deadlines():
    assert "the first number, the step, is from 0 to 11" in refused("sends 1\nnode 1 0\nnode 2 0\nlose 12 1 2\n", "flood").explanation
    assert "`start` is given already, by line 4" in refused("sends 1\nnode 1 0\nnode 2 0\nstart 1\nstart 2\n", "flood").explanation
    assert "is a line of another text, which is read by run, log and bus" in refused("frames 2\n", "flood").explanation
    assert "the fourth number, the period, is from 1 to 64 frames" in refused("slots 1\nframes 4\nstream 2 0 0 0 2\n", "deadlines").explanation
    twice = "slots 1\nframes 4\nstream 2 0 0 2 2\nstream 2 0 0 2 1\n"
    assert "stream 0 of node 2 is given already, by line 3" in refused(twice, "deadlines").explanation


LOG = HEAD.replace("frames 12", "frames 6") + "pair 1 2\nlog\n"
# The last line of a recorded log, below LOG; the kind of fault; what its explanation says.
LOG_CASES = [
    ("tuned 0 1 6 6", "Range", "the end is above the start, and here they are 6 and 6"),
    ("tuned 4 1 6 7", "Range", "the first number, the rank, is from 0 to 3"),
    ("sent 0 1 6 7 aabb", "Range", "the packet, is from 3 to 125 bytes, and here are 2"),
    ("heard 0 1 9 6 7 aabbcc", "UnknownNode", "no line above is `node 9 OFFSET`"),
    ("tuned 0 1 06 7", "BadNumber", "the third value, the start, is no number as texts have them: `06`, it begins with a zero"),
    ("sent 0 1 6 7 -", "BadWord", "a packet has hexadecimal digits only"),
    ("tuned 0 1 6", "BadWord", "`tuned` has 4 values (rank, id of the node, start, end), and here are 3"),
    ("on 0 1", "BadWord", "below a line `log` all lines are of the log, and `on` comes above it"),
    ("tune 0 1 6 7", "BadWord", "did you mean `tuned`?"),
]  # fmt: skip


@pytest.mark.parametrize(("line", "kind", "says"), LOG_CASES, ids=[f"{case[0]} {case[1]}" for case in LOG_CASES])
def test_faults_of_a_recorded_log(line, kind, says):
    error = refused(f"{LOG}{line}\n", "check")
    assert (error.line, error.kind) == (LOG.count("\n") + 1, kind)
    assert says in error.explanation


def test_what_a_log_to_be_checked_lacks():
    assert refused("frames 2\nsends 1\nnode 1 0\nnode 2 0\nhost 0 1\n", "check").explanation.endswith("lacks a line `log`")
    assert "lacks a `host` line" in refused("frames 2\nsends 1\nnode 1 0\nnode 2 0\nlog\n", "check").explanation


def test_the_front_end_explains_by_the_same_module():
    """It runs the module with the text on the standard input, and the module stands on the standard library alone."""
    words = [sys.executable, "-S", "-m", "foldcairn.model.faults", "check", "8", "Range"]
    said = subprocess.run(words, input=f"{LOG}tuned 0 1 6 6\n".encode(), capture_output=True, check=True).stdout.decode()
    assert said == "line 8: `tuned 0 1 6 6`: the end is above the start, and here they are 6 and 6\n"


def test_a_text_that_does_not_show_the_fault():
    assert faults.explain("frames 2\n", 1, "Range") == "line 1: `frames 2`: fault of kind Range"
    assert faults.explain("", 7, "NewKind") == "line 7: fault of kind NewKind"
    assert faults.explain("", 1, "NotUtf8") == "line 1: fault of kind NotUtf8"


@pytest.mark.parametrize("command", ["run", "log", "times", "return", "bus", "check"])
def test_ratios_for_a_command_that_draws_no_losses(command: str):
    error = refused(f"{HEAD}pair 1 2\nratios\nratio 0 1 2 5\n", command)
    assert (error.line, error.kind) == (HEAD.count("\n") + 2, "BadWord")
    assert "which is read by outcome, fates, sample and draw" in error.explanation
    by_seed = f"give a seed, by `foldcairn {command} --seed N FILE`, or " if command in ("run", "log") else ""
    assert f"for {command}, {by_seed}draw the losses of a seed first, by `foldcairn draw SEED FILE`" in error.explanation


def test_a_line_of_a_network_that_a_seed_runs():
    text = f"{HEAD}pair 1 2\nratios\nratio 0 1 2 2000000\n"
    told = {faults.explain(text.encode(), HEAD.count("\n") + 3, "Range", command) for command in ("run", "log", "outcome")}
    assert len(told) == 1 and "the ratio, is from 0 to 1,000,000 millionths" in told.pop()


@pytest.mark.parametrize(
    ("command", "most", "says"),
    [
        ("run", 20_000, "and this is one more: take fewer, or `outcome`, `fates` and `sample`, which take up to 262,144"),
        ("flood", 20_000, "a scenario has at most 20,000 lines of its script, and this is one more"),
        ("outcome", 262_144, "a network has at most 262,144 lines of its script, and this is one more: put fewer packets, or shorten the run"),
        ("log", 262_144, "a network has at most 262,144 lines of its script, and this is one more: put fewer packets, or shorten the run"),
        ("draw", 262_144, "a network has at most 262,144 lines of its script, and this is one more: put fewer packets, or shorten the run"),
    ],
)
def test_one_script_line_more(command: str, most: int, says: str):
    head = "sends 1\nnode 1 0\nnode 2 0\n"
    text = head + "rate 1 5 1\n" * (most + 1)
    said = faults.explain(text, head.count("\n") + most + 1, "TooMany", command)
    assert said.endswith(says), said


def test_a_draw_with_too_many_losses():
    text = f"{HEAD}pair 1 2\non 0 1\nput 0 1 0 aa\nratios\nratio 0 1 2 5\n"
    said = faults.explain(text, text.count("\n") + 1, "TooMany", "draw")
    assert "with the losses of the seed the script has more than 20,000 lines, of which 2 are in the text" in said
    assert "`outcome`, `fates` and `sample`, which draw any number" in said


@pytest.mark.parametrize("kind", ["NotUtf8", "BadWord", "BadNumber", "Range", "UnknownNode", "Order", "Twice", "TooMany", "Missing"])
@pytest.mark.parametrize("line", ["pair 1 2", "rate 1 5 1", "on 3 1", "put 0 2 0 aa", ""])
def test_nothing_is_made_up_about_a_line_without_a_fault(kind: str, line: str) -> None:
    """A program of another version may refuse what this package knows no fault of."""
    if (kind, line) != ("TooMany", "on 3 1"):
        place = f"line 6: `{line}`" if line else "line 6"
        assert faults.explain(f"{HEAD}{line}\n", 6, kind) == f"{place}: fault of kind {kind}"


def test_a_number_that_is_none_is_in_no_range() -> None:
    assert faults.explain(HEAD + "node x 0\n", 6, "Range").endswith(": fault of kind Range")


def test_one_stream_too_many_for_deadlines() -> None:
    streams = [f"stream {node} {stream} 0 64 64\n" for node in range(2, 11) for stream in range(4)][:33]
    error = refused("slots 1\nframes 64\n" + "".join(streams), "deadlines")
    assert (error.line, error.kind) == (35, "TooMany") and "at most 32 streams are planned, and this is one more" in error.explanation


# Texts that are near to scenarios: a line of an example has one word replaced, is taken out, or comes twice.
EXAMPLE_TEXTS = [path.read_text().splitlines() for path in sorted(EXAMPLES.glob("*.scenario"))]
WORDS = ["0", "1", "2", "3", "4", "9", "42", "46", "200", "4097", "-1", "-20", "01", "x", "aa", "-", "profile", "pair", "put", ""]


@st.composite
def near_texts(draw):
    rows = list(draw(st.sampled_from(EXAMPLE_TEXTS)))
    at = draw(st.integers(0, len(rows) - 1))
    words = rows[at].split()
    match draw(st.sampled_from(["word", "word", "word", "out", "twice", "move"])):
        case "word" if words:
            words[draw(st.integers(0, len(words) - 1))] = draw(st.sampled_from(WORDS))
            rows[at] = " ".join(words)
        case "out":
            del rows[at]
        case "twice":
            rows.insert(draw(st.integers(0, len(rows))), rows[at])
        case "move":
            rows.insert(draw(st.integers(0, len(rows) - 1)), rows.pop(at))
    return "\n".join(rows) + "\n"


@settings(max_examples=200)
@given(near_texts())
def test_whatever_is_refused_is_explained(text):
    try:
        program.execute(["bus"], text)
        fault = None
    except program.Refused as error:
        fault = error
        assert "fault of kind" not in error.explanation
    # `read` names the same line and says the same; only the order of hosts, rates and the script is none of its faults.
    try:
        Scenario.read(text)
        assert fault is None or fault.kind in ("Order", "TooMany", "TooBig")
    except ScenarioError as error:
        assert fault is not None
        assert fault.kind == "Order" or str(error) == fault.explanation
