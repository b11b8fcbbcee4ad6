#!/usr/bin/env python3
"""Writes docs/READING.md: what must be read to believe the headline, from the sources.

    python3 tools/reading > docs/READING.md
    python3 tools/reading --list FUNCTION      each definition that the headline of this function reaches, with its file and line

It follows every name of the clauses through specs/ and the types of src/ to the names of the toolchain's library, and fails if it cannot
say what a name is, if the library's list lacks one, or if a headline reaches more lines than it may. Only Python's standard library is used.
"""
import sys
from collections.abc import Iterator

from antt import ReadingError
from page import HERE, Set, chapters, library
from walk import Headline, Sources

TOP = HERE.parent.parent
# The headlines that are counted, each with the most lines that it may reach. The first ones are copied, in this order.
HEADLINES = [
    (Headline("`a_run_is_printed` in `law_printed`, clauses `deliveries` and `finished`", "law_printed", "printed", "a_run_is_printed",
              ("deliveries", "finished")), 1000),
    (Headline("`a_run_is_printed`, clause `safe`", "law_printed", "printed", "a_run_is_printed", ("safe",)), 1200),
    (Headline("`run` and `log`: `top` in `run_commands`, clauses `report` and `write_fault`", "run_commands", "top_call", "top",
              ("report", "write_fault"), ("Run", "Log")), None),
    (Headline("a valid log is safe: `every_lawful_log_is_safe` in `law_safety`, clause `lawful`", "law_safety", "safe_logs",
              "every_lawful_log_is_safe", ("lawful",)), None),
    (Headline("all of `top`", "run_commands", "top_call", "top"), None),
    (Headline("all of `plan_top` in `plan_commands`", "plan_commands", "plan_top_call", "plan_top"), None),
]
# Those that are copied, in this order: each part has what the parts before it do not have.
COPIED = [
    (0, "Part 1: the printed deliveries", "What the clauses `deliveries` and `finished` of `a_run_is_printed` rest on: the rules of the protocol on an ideal "
        "single-hop bus, and the text of a scenario."),
    (1, "Part 2: safe logs", "What its clause `safe` adds: packets as bytes, and which transmissions keep apart."),
    (2, "Part 3: all that `run` and `log` promise", "What the clauses of `top` for these commands add: nodes by their clocks, the radio, valid logs, which "
        "agree with the bus, and the grammar of texts."),
]


def table(sets: list[Set]) -> list[str]:
    """What each headline reaches."""
    rows = ["| headline | lines of clauses | definitions | lines | files | crates | names of the library |", "|---|---|---|---|---|---|---|"]
    for one in sets:
        rows.append(f"| {one.headline.title} | " + " | ".join(f"{number:,}" for number in one.counts()) + " |")
    return rows


def page(sources: Sources) -> str:
    """The page, from its text and the sources."""
    sets = [Set(sources, headline) for headline, _ in HEADLINES]
    for one, (headline, most) in zip(sets, HEADLINES):
        if most is not None and one.counts()[2] > most:
            raise ReadingError(f"{headline.title} reaches {one.counts()[2]} lines, more than {most}")
    copied = [sets[number] for number, _, _ in COPIED]
    parts = {"<!-- counts -->": table(sets), "<!-- library -->": library(copied),
             "<!-- definitions -->": chapters(sources, copied, [(title, text) for _, title, text in COPIED])}
    lines = []
    for line in (HERE / "page.md").read_text().splitlines():
        lines += parts.get(line, [line])
    return "\n".join(lines) + "\n"


def listed(sources: Sources, function: str) -> Iterator[str]:
    """What the clauses of a function reach."""
    for headline, _ in HEADLINES:
        if headline.function == function:
            one = Set(sources, headline)
            for key in sorted(one.items, key=lambda key: (key.file, sources.place(key)[1].line)):
                yield f"{key.file}:{sources.place(key)[1].line}: {key.name}, {one.lines(key)} lines"


def main() -> None:
    words = sys.argv[1:]
    sources = Sources(TOP)
    try:
        if words[:1] == ["--list"] and len(words) == 2:
            print("\n".join(listed(sources, words[1])))
        elif words:
            sys.exit(__doc__)
        else:
            sys.stdout.write(page(sources))
    except ReadingError as error:
        sys.exit(f"tools/reading: {error}")


if __name__ == "__main__":
    main()
