"""Finds the program foldcairn, runs it on a text, and turns each of its statuses into an answer or an exception.

The program reads a text from its standard input and writes one to its standard output. Nothing is computed here, and the
output is passed on byte by byte. Tested, not proved.
"""

from __future__ import annotations

import functools
import hashlib
import os
import re
import shutil
import signal as signals
import subprocess
import warnings
from collections.abc import Sequence
from pathlib import Path
from typing import IO

from .. import front_end
from ..common import arguments, files, version
from ..model import faults, lines

# The commands of the planner's program; all others are those of the first program.
PLANNERS = lines.NETWORK_COMMANDS
# How many bytes of standard error an exception keeps.
_STDERR_MOST = 4_000
# For how many seconds a program that took too long may end by itself, before it is killed.
_GRACE_SECONDS = 5.0


class ProgramError(Exception):
    """A run without a usable report: the words it was called with, its exit status (None: it did not end by itself), its stderr."""

    def __init__(self, message: str, words: Sequence[str] = (), status: int | None = None, stderr: str = "") -> None:
        super().__init__(message, tuple(words), status, stderr)
        self.message = message
        self.words = tuple(words)
        self.status = status
        self.stderr = stderr

    def __str__(self) -> str:
        return f"{self.message}\n{self.stderr}".rstrip() if self.stderr else self.message


class NotFound(ProgramError):
    """There is no program where it was looked for, or it may not be run."""


class Refused(ProgramError):
    """Status 1: the text was rejected.

    `line` is the first line that is wrong, counted from 1, and None where the text is too long; `kind` is the program's word
    for the fault, `text_of_line` the line, and `explanation` says in plain words what it should have.
    """

    def __init__(
        self,
        line: int | None,
        kind: str,
        text_of_line: str,
        explanation: str,
        words: Sequence[str] = (),
        status: int | None = 1,
        stderr: str = "",
    ) -> None:
        super().__init__(f"{explanation} ({kind})", words, status, stderr)
        # An exception is pickled by its arguments, and comes back from a process pool by them.
        self.args = (line, kind, text_of_line, explanation, self.words, status, stderr)
        self.line = line
        self.kind = kind
        self.text_of_line = text_of_line
        self.explanation = explanation

    def __str__(self) -> str:
        # The script of a repository explains the fault too, on standard error.
        return self.message


class BadUsage(ProgramError):
    """Status 2: the words are no command of the program."""


class InputUnreadable(ProgramError):
    """Status 3: the program could not read its input."""


class OutputUnwritable(ProgramError):
    """Status 4: the program could not write its output whole; a full disk is the usual cause."""


class OutOfMemory(ProgramError):
    """Status 5: out of memory. A run keeps its log in memory: fewer nodes or frames, or more memory."""


class BadWords(ProgramError):
    """Status 6: the words of the command are not UTF-8."""


class NotBuilt(ProgramError):
    """Status 126: the script `foldcairn` could not prove or build the program."""


class ToolchainMissing(ProgramError):
    """Status 127: the program is not built, and the toolchain that builds it is missing."""


class Killed(ProgramError):
    """The program was ended by a signal; `signal` is its number, or None where it took longer than its time limit."""

    def __init__(
        self, message: str, words: Sequence[str] = (), status: int | None = None, stderr: str = "", signal: int | None = None
    ) -> None:
        super().__init__(message, words, status, stderr)
        self.args = (message, self.words, status, stderr, signal)
        self.signal = signal


class CutOutput(ProgramError):
    """The status was 0, but the output is no whole report: its last line has no end, or lines are missing."""


_STATUSES: dict[int, tuple[type[ProgramError], str]] = {
    2: (BadUsage, "these words are no command"),
    3: (InputUnreadable, "the program could not read its input"),
    4: (OutputUnwritable, "the program could not write its output whole; is the disk full?"),
    5: (OutOfMemory, "out of memory: a run keeps its log, so use fewer nodes or frames, or more memory"),
    6: (BadWords, "the words of the command are not UTF-8"),
    126: (NotBuilt, "the program could not be proved or built"),
    127: (ToolchainMissing, "the program is not built, and the toolchain's command is not on the PATH"),
}


def find() -> Path:
    """The program to run: what the environment variable FOLDCAIRN names, else the front end of the repository that this package
    is in, or that was installed with it, else `foldcairn` of the PATH.

    Raises `NotFound` where there is none, or where FOLDCAIRN names no program.
    """
    named = _named("FOLDCAIRN")
    if named is not None:
        return named
    script = front_end.path()
    if script is not None:
        return script
    found = shutil.which("foldcairn")
    if found is None:
        raise NotFound(
            "there is no program foldcairn: set the environment variable FOLDCAIRN to its path, or put it on the PATH"
        )
    return Path(found)


def _named(variable: str) -> Path | None:
    """The program that an environment variable names, or None where it is not set. Raises `NotFound` where it can't be run."""
    named = os.environ.get(variable)
    if not named:
        return None
    found = shutil.which(named)
    if found is None:
        raise NotFound(f"the environment variable {variable} names no program that can be run: {named}")
    return Path(found)


def find_planner() -> Path:
    """The program of the commands `PLANNERS`: what the environment variable FOLDCAIRN_PLAN names, else the one that belongs to the
    program of `find`, next to it or of the same repository. Where there is none it is the program of `find` itself, which may be
    a front end.

    Raises `NotFound` where there is no program, or where FOLDCAIRN_PLAN names no program.
    """
    named = _named("FOLDCAIRN_PLAN")
    if named is not None:
        return named
    first = find()
    path = first.resolve()
    folders = [folder for folder in path.parents if (folder / "crates.txt").is_file() or (folder / "tools" / "commands.txt").is_file()]
    beside = [path.with_name(path.name.replace("foldcairn", "foldcairn-plan", 1))] if "foldcairn" in path.name else []
    if not _is_to_be_built(path):
        for folder in folders:
            kept = [folder / "bin" / "foldcairn-plan-x86_64-linux", folder / "crates" / "foldcairn_plan" / "out" / "foldcairn_plan"]
            # Next to a program that was built here stands the planner's that was.
            beside += kept[::-1] if path.parent.name == "out" else kept
    return next((planner for planner in beside if planner != path and planner.is_file()), first)


def has_command(command: str, program: Path) -> bool:
    """Whether a program has a command, by its usage line; of one that can't be run it is False."""
    usage = _usage_of(program)
    return usage is not None and command in commands_of(usage)


def takes_seed(command: str, program: Path) -> bool:
    """Whether a program has a command with a seed after its word, as `log SEED`; of one that can't be run it is False."""
    usage = _usage_of(program)
    return usage is not None and re.search(rf"(?:usage:|\|) {command} SEED\b", usage.message) is not None


def _usage_of(program: Path) -> BadUsage | None:
    """What a program says of its usage; None where it can't be run."""
    try:
        about = program.stat()
        return _usage(program, about.st_mtime_ns, about.st_size)
    except OSError:
        return None


@functools.lru_cache
def _usage(program: Path, changed: int, size: int) -> BadUsage | None:
    """The usage of a program that was changed then and has this size."""
    try:
        execute(["usage"], program=program)
    except BadUsage as error:
        return error
    except ProgramError:
        pass
    return None


def by_seed(command: str, seed: int, program: Path | None = None) -> tuple[Path, list[str]]:
    """The planner's program, and the words by which it runs a network with the losses of a seed, as `log 7`.

    Raises `NotFound`, which names the command, where the program has no such one.
    """
    planner = find_planner() if program is None else program
    if not takes_seed(command, planner):
        raise NotFound(
            f"{planner} has no command `{command} SEED`, which runs a network with the losses of a seed: set the environment variable FOLDCAIRN_PLAN "
            "to the path of a program foldcairn-plan that has it, or draw the losses first (`losses.draw`)"
        )
    return planner, [command, str(seed)]


def reads_network(words: Sequence[str]) -> bool:
    """Whether a command reads a network: one of `PLANNERS`, or one with a seed after a word that the first program has too."""
    return bool(words) and (words[0] in PLANNERS or words[0] in lines.SEEDED_COMMANDS and len(words) > 1)


def commands_of(usage: BadUsage) -> frozenset[str]:
    """The commands that a usage line names."""
    return frozenset(re.findall(r"(?:usage:|\|) ([a-z]+)", usage.message))


def versions() -> dict[str, str]:
    """What results depend on beside their scenario: the `package`'s version, and the SHA-256 (`checksum`) of the `program` and of
    the `planner`'s program.

    Raises `NotFound` where there is no program.
    """
    return {"package": version.version(), "program": checksum(), "planner": checksum(find_planner())}


def checksum(program: Path | None = None) -> str:
    """The SHA-256 of a program's file, or of that of `find`; of the front end it is that of the program that it starts. Empty
    where it can't be read."""
    path = _started_by(program if program is not None else find())
    try:
        about = path.stat()
        return _checksum(path, about.st_mtime_ns, about.st_size)
    except OSError:
        return ""


def _started_by(path: Path) -> Path:
    """The program that the front end of a repository or of an installed copy starts, where it is one."""
    path = path.resolve()
    if (path.parent / "crates.txt").is_file() or (path.parent / "tools" / "commands.txt").is_file():
        for program in (path.parent / "bin" / "foldcairn-x86_64-linux", path.parent / "crates" / "foldcairn" / "out" / "foldcairn"):
            if program.is_file() and not _is_to_be_built(path):
                return program
    return path


@functools.lru_cache
def _checksum(path: Path, changed: int, size: int) -> str:
    """The SHA-256 of a file that was changed then and has this size."""
    return hashlib.sha256(path.read_bytes()).hexdigest()


def execute(
    words: Sequence[str],
    text: str | bytes | os.PathLike[str] = b"",
    *,
    program: Path | None = None,
    timeout: float | None = None,
) -> bytes:
    """The standard output of the program for these words, with `text`, or that of a file (a `pathlib.Path`), as its standard
    input.

    `timeout` is in seconds; None sets no limit. Raises `Refused` where the text is rejected, `Killed` where a signal ends the
    program or the time is over, `CutOutput` where the output is not whole, `NotFound` where there is no program, and for each
    other status its own subclass of `ProgramError`.
    """
    data = arguments.text("text", text)
    with _started(words, program, subprocess.PIPE) as process:
        output, stderr = _talk(process, data, words, timeout)
    _raise_unless_done(words, process.returncode, data, output, stderr)
    _check_whole(words, data, output[-1:], _closing_lines(words, output), len(output))
    return output


def execute_to_file(
    words: Sequence[str],
    text: str | bytes | os.PathLike[str],
    path: str | os.PathLike[str],
    *,
    program: Path | None = None,
    timeout: float | None = None,
) -> Path:
    """As `execute`, but the standard output goes to the file `path`, for outputs of hundreds of megabytes.

    The file appears whole or not at all: the output is written next to it, and renamed at the end; what was at `path` is kept
    on every error. Returns `path`. Raises what `execute` raises, and `OSError` where the file can't be made.
    """
    data = arguments.text("text", text)
    with files.replacing(path) as sink:
        with _started(words, program, sink) as process:
            _, stderr = _talk(process, data, words, timeout)
        size = sink.seek(0, os.SEEK_END)
        sink.seek(0)
        head = sink.read(4_096) if process.returncode else b""
        _raise_unless_done(words, process.returncode, data, head, stderr)
        end = b""
        if size:
            sink.seek(size - 1)
            end = sink.read(1)
        sink.seek(0)
        _check_whole(words, data, end, _closing_lines_of_file(words, sink), size)
    return Path(path)


def _started(words: Sequence[str], program: Path | None, stdout: int | IO[bytes]) -> subprocess.Popen[bytes]:
    path = program if program is not None else find_planner() if reads_network(words) else find()
    stderr: int | None = subprocess.PIPE
    if _is_to_be_built(path):
        warnings.warn(
            "the program is not built yet: this call proves and builds it, which takes some 40 minutes; how far it is is written "
            "on standard error. FOLDCAIRN may name a program that is built.",
            stacklevel=4,
        )
        stderr = None
    try:
        return subprocess.Popen([str(path), *words], stdin=subprocess.PIPE, stdout=stdout, stderr=stderr)
    except OSError as error:
        raise NotFound(f"the program {path} can't be run: {error.strerror}", words) from error


@functools.lru_cache
def _is_to_be_built(path: Path) -> bool:
    """Whether this is the script of a repository that has neither built its program nor stored one of its sources."""
    folder = path.parent
    if not (folder / "crates.txt").is_file() or (folder / "crates" / "foldcairn" / "out" / "foldcairn").is_file():
        return False
    try:
        stored = (folder / "bin" / "SOURCES").read_text().splitlines()
        sources = subprocess.run([folder / "tools" / "sources.sh"], capture_output=True, text=True, check=True).stdout.strip()
    except (OSError, subprocess.CalledProcessError):
        return True
    return f"sources {sources}" not in stored


def _talk(process: subprocess.Popen[bytes], data: bytes, words: Sequence[str], timeout: float | None) -> tuple[bytes, str]:
    """The output and the standard error of a started program, which is gone at the end, whatever happens."""
    try:
        output, stderr = process.communicate(data, timeout)
    except subprocess.TimeoutExpired:
        _end(process)
        raise Killed(f"`{' '.join(words)}` took longer than {timeout} seconds", words) from None
    except BaseException:
        _end(process)
        raise
    return output or b"", (stderr or b"")[-_STDERR_MOST:].decode("utf-8", "replace")


def _end(process: subprocess.Popen[bytes]) -> None:
    """Ends a process, which may first stop what it started."""
    process.terminate()
    # Its output is not waited for: what it started may hold the pipes open.
    try:
        process.wait(_GRACE_SECONDS)
    except subprocess.TimeoutExpired:
        process.kill()
        process.wait()


def _raise_unless_done(words: Sequence[str], status: int, data: bytes, output: bytes, stderr: str) -> None:
    if status == 0:
        return
    # A shell that ran the program says 128 and the signal.
    number = -status if status < 0 else status - 128 if 128 < status <= 192 else 0
    if number:
        name = signals.Signals(number).name if number in set(signals.Signals) else f"signal {number}"
        raise Killed(f"`{' '.join(words)}` was ended by {name}", words, status, stderr, number)
    if status == 1:
        raise _refused(words, data, output, stderr)
    kind, message = _STATUSES.get(status, (ProgramError, f"unknown exit status {status}"))
    if kind is BadUsage and output:
        message = f"`{' '.join(words)}` is no command; {output.decode('utf-8', 'replace').strip()}"
    raise kind(message, words, status, stderr)


def _refused(words: Sequence[str], data: bytes, output: bytes, stderr: str) -> ProgramError:
    answer = output.decode("utf-8", "replace")
    if answer == "fault too long\n":
        return Refused(None, "TooLong", "", faults.explain_length(len(data)), words, 1, stderr)
    match = re.fullmatch(r"fault line (\d+): (\w+)\n", answer)
    if match is None:
        return ProgramError("the program ended with status 1 and named no fault", words, 1, stderr)
    line, kind = int(match[1]), match[2]
    # With a seed after it a word of the first program reads what `outcome` reads.
    command = "run" if not words else "outcome" if words[0] in lines.SEEDED_COMMANDS and reads_network(words) else words[0]
    return Refused(line, kind, faults.line_of(data, line), faults.explain(data, line, kind, command), words, 1, stderr)


# The lines that a whole report has: their first word, and the word of the lines of the text each of which has one; without such a
# word there is one.
_CLOSING = {
    "run": (b"energy ", b"node"),
    "log": (b"energy ", b"node"),
    "bus": (b"cost ", b"node"),
    "outcome": (b"cost ", b"node"),
    "fates": (b"put ", b"put"),
    "flood": (b"sent ", b""),
    "demo": (b"on ", b""),
}


def _closing_lines(words: Sequence[str], output: bytes) -> int:
    """How many closing lines (`energy`, `cost`, ..) an output has."""
    first, _ = _CLOSING.get(words[0] if words else "", (b"", b""))
    if not first:
        return 0
    at = 0 if output.startswith(first) else output.find(b"\n" + first) + 1
    if at == 0 and not output.startswith(first):
        return 0
    count = 0
    while output.startswith(first, at):
        count += 1
        at = output.find(b"\n", at) + 1
        if at == 0:
            break
    return count


def _closing_lines_of_file(words: Sequence[str], sink: IO[bytes]) -> int:
    first, _ = _CLOSING.get(words[0] if words else "", (b"", b""))
    count = 0
    if first:
        for row in sink:
            if row.startswith(first):
                count += 1
            elif count:
                break
    return count


def _check_whole(words: Sequence[str], data: bytes, end: bytes, closing: int, size: int) -> None:
    """Raises `CutOutput` where an output that ends with `end` and has so many closing lines is not whole."""
    command = " ".join(words)
    first, counted = _CLOSING.get(words[0] if words else "", (b"", b""))
    if size and end != b"\n":
        raise CutOutput(f"the output of `{command}` is cut: its last line has no end", words, 0)
    if not first:
        return
    wanted = len(re.findall(rb"^[ \t]*" + counted + rb"[ \t]", data, re.MULTILINE)) if counted else 1
    if closing != wanted:
        word = first.decode().strip()
        raise CutOutput(f"the output of `{command}` is cut: it has {closing} of {wanted} `{word}` lines", words, 0)
