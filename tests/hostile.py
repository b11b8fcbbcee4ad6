#!/usr/bin/env python3
"""Runs the built program on hostile input and counts what it does other than it should. Takes minutes, so it is no part of the gate.

The input is texts made of the examples by flipped bytes, lines dropped, doubled and exchanged, and numbers at their bounds. Each
must be answered by status 0 with lines of its command's report, or by status 1 with one line that names a fault, and by the
same bytes and status by the program as the second compiler builds it. Nothing may crash, hang or write to standard error.

Usage: tests/hostile.py PROGRAM [OTHER] [--texts N] [--seed N] [--jobs N]. PROGRAM and OTHER are one program by two compilers;
without OTHER nothing is compared. The last line is 'N passed, M failed', and the status is 0 where M is 0.
"""
import argparse
import multiprocessing
import os
import pathlib
import random
import re
import subprocess
import sys

TOP = pathlib.Path(__file__).resolve().parent.parent
SECONDS = 60

KINDS = "NotUtf8|BadWord|BadNumber|Range|UnknownNode|Order|Twice|TooMany|Missing|TooBig"
FAULT = re.compile(rb"fault (too long|line [1-9][0-9]*: (" + KINDS.encode() + rb"))\n")
NUMBERS = rb"(?: \d+)"
HEX = rb"(?:[0-9a-f]{2})+"
RUN = rb"deliver" + NUMBERS + rb"{8} (?:" + HEX + rb"|-)|drop" + NUMBERS + rb"{3}|energy" + NUMBERS + rb"{5}"
LINES = {
    "run": RUN,
    "log": RUN + rb"|sent" + NUMBERS + rb"{4} " + HEX + rb"|heard" + NUMBERS + rb"{5} " + HEX + rb"|tuned" + NUMBERS + rb"{4}",
    "bus": rb"deliver" + NUMBERS + rb"{8} (?:" + HEX + rb"|-)|drop" + NUMBERS + rb"{3}|cost" + NUMBERS + rb"{4}",
    "flood": rb"accept" + NUMBERS + rb"{2}|sent" + NUMBERS,
    "deadlines": rb"(?:admit|refuse|round)(?: \S+)+",
}
REPORTS = {word: re.compile(rb"(?:(?:" + line + rb")\n)*") for word, line in LINES.items()}

# The numbers at which something begins or ends to be allowed.
BOUNDS = [
    0, 1, 2, 3, 4, 5, 11, 12, 16, 17, 19, 20, 21, 32, 33, 40, 41, 42, 43, 45, 46, 63, 64, 65, 96, 120, 121, 200, 201, 255, 256, 257,
    4095, 4096, 4097, 16384, 65534, 65535, 65536, 256000, 256001, 1048576000000, 1048576000001, 1310720000000, 9999999999999,
    10000000000000, 2**63, 2**64, 2**64 + 1,
]


def examples(commands):
    """The commands with the text of each example that they read."""
    words = {".flood": ["flood"], ".scenario": [word for word in ("run", "log", "bus") if word in commands], ".deadlines": ["deadlines"]}
    files = sorted((TOP / "examples").iterdir())
    return [(word, file.read_bytes()) for file in files for word in words.get(file.suffix, [])]


def flipped(text, draw):
    """One to four bytes changed, taken out or put in."""
    changed = bytearray(text)
    for _ in range(draw.randint(1, 4)):
        place = draw.randrange(len(changed) + 1)
        choice = draw.randrange(4)
        if choice == 0:
            changed.insert(place, draw.randrange(256))
        elif place < len(changed):
            if choice == 1:
                changed[place] ^= 1 << draw.randrange(8)
            elif choice == 2:
                changed[place] = draw.choice(b"0123456789 \n#-\r\t")
            else:
                del changed[place]
    return bytes(changed)


def turned_lines(text, draw):
    """Lines dropped, doubled, exchanged, or one of another example's kind put in."""
    lines = text.split(b"\n")
    for _ in range(draw.randint(1, 3)):
        one, other = draw.randrange(len(lines)), draw.randrange(len(lines))
        choice = draw.randrange(4)
        if choice == 0 and len(lines) > 1:
            del lines[one]
        elif choice == 1:
            lines.insert(other, lines[one])
        else:
            lines[one], lines[other] = lines[other], lines[one]
    return b"\n".join(lines)


def bounded(text, draw):
    """One to three numbers replaced by a bound, or a number beside it."""
    changed = text
    for _ in range(draw.randint(1, 3)):
        numbers = list(re.finditer(rb"-?\d+", changed))
        if not numbers:
            break
        number = draw.choice(numbers)
        value = draw.choice(BOUNDS) + draw.choice([0, 0, 0, 1, -1])
        changed = changed[: number.start()] + str(value).encode() + changed[number.end() :]
    return changed


def mutated(sources, draw):
    """A command and a text that one to three mutations make of an example."""
    word, text = draw.choice(sources)
    for _ in range(draw.choice([1, 1, 1, 2, 3])):
        text = draw.choice([flipped, turned_lines, bounded])(text, draw)
    return word, text


def answer(program, words, text):
    """The status of a run, what it wrote and what it said; status None where it hung."""
    try:
        done = subprocess.run([program, *words], input=text, capture_output=True, timeout=SECONDS, env={})
    except subprocess.TimeoutExpired:
        return None, b"", b""
    return done.returncode, done.stdout, done.stderr


def is_right(word, status, out, err):
    if err:
        return False
    if status == 0:
        return REPORTS[word].fullmatch(out) is not None
    return status == 1 and FAULT.fullmatch(out) is not None


def try_texts(job):
    """How many texts of a batch were reported and refused, and those whose answer is wrong."""
    program, other, sources, seed, count = job
    draw = random.Random(seed)
    reported, refused, wrong = 0, 0, []
    for _ in range(count):
        word, text = mutated(sources, draw)
        status, out, err = answer(program, [word], text)
        right = is_right(word, status, out, err)
        if right and other:
            right = answer(other, [word], text) == (status, out, err)
        if not right:
            wrong.append((word, text, status, out[:200], err[:200]))
        elif status == 0:
            reported += 1
        else:
            refused += 1
    return reported, refused, wrong


def try_mutations(program, other, sources, texts, seed, jobs):
    batch = 500
    batches = [
        (program, other, sources, f"{seed}.{number}", min(batch, texts - number * batch)) for number in range((texts + batch - 1) // batch)
    ]
    reported, refused, wrong = 0, 0, []
    with multiprocessing.Pool(jobs) as pool:
        for done, (one, two, three) in enumerate(pool.imap_unordered(try_texts, batches), 1):
            reported, refused = reported + one, refused + two
            wrong.extend(three)
            if sys.stderr.isatty():
                print(f"\r{done} of {len(batches)} batches", end="", file=sys.stderr)
    for word, text, status, out, err in wrong[:10]:
        print(f"FAILED: {word}, status {status}: {text!r} gave {out!r} {err!r}")
    print(f"mutated: {reported} texts reported, {refused} refused, {len(wrong)} answered wrongly")
    return reported + refused, len(wrong)


def main():
    parser = argparse.ArgumentParser()
    parser.add_argument("program")
    parser.add_argument("other", nargs="?")
    parser.add_argument("--texts", type=int, default=200_000)
    parser.add_argument("--seed", type=int, default=1)
    parser.add_argument("--jobs", type=int, default=os.cpu_count())
    given = parser.parse_args()
    program = os.path.abspath(given.program)
    other = given.other and os.path.abspath(given.other)
    usage = answer(program, [], b"")[1].decode()
    sources = examples(usage)
    passed, failed = try_mutations(program, other, sources, given.texts, given.seed, given.jobs)
    print(f"{passed} passed, {failed} failed")
    return 1 if failed else 0


if __name__ == "__main__":
    sys.exit(main())
