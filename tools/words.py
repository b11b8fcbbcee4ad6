#!/usr/bin/env python3
"""Counts words that an engineer would not expect: in the pages, and in the doc comments of the crates.

Usage: tools/words.py [--list] [FOLDER], where FOLDER is the repository, this one if none is given. Code spans, fenced blocks
and link targets do not count: commands, outputs, clauses and names keep their words. In README.md and docs/*.md it also counts
sentences of more than 35 words and table cells of more than 25. `--list` prints each place with what to write there. The
status is 1 if all pages and doc comments together have more than ten such words, or README.md or docs/*.md a table cell that
is too long.
Only Python's standard library is used.
"""

import pathlib
import re
import sys

MOST = 10
LONG_SENTENCE = 35
LONG_CELL = 25

# A word as a pattern, and what to write.
WORDS = [
    (r"sendings", "transmissions"),
    (r"(?<!is )(?<!are )(?<!was )(?<!were )(?<!be )(?<!stops )(?<!before )(?<!after )(?<!without )(?<!by )(?<!for )sending",
     "transmission"),
    (r"hearings?", "reception"),
    (r"hears?|heard|overhears?", "receives, received"),
    (r"want of memory|wanting memory", "out of memory"),
    (r"refus\w+", "rejects, error"),
    (r"hangs? on|hung on", "depends on"),
    (r"behind", "after"),
    (r"stands?|stood", "is, are, appears"),
    (r"so many|as many as", "n, the number of"),
    (r"told", "notified, receives, reports"),
    (r"wish|wishes|wished", "requests, requested interval"),
    (r"agreed intervals?", "granted interval"),
    (r"skip counts?|skips (?:its|one|a number)", "backoff, backs off"),
    (r"scanners?", "scanning node"),
    (r"holders?", "synchronized member"),
    (r"(?<!on )(?:the|an) air", "the radio log"),
    (r"lawful\w*", "valid (`Lawful`)"),
    (r"heedful", "protocol-obedient"),
    (r"plain bus|(?<!ideal )single-hop bus", "the ideal single-hop bus"),
    (r"(?:an|the|its|this|that|each|next|old|missed|and) (?:opening|closing)s?(?! schedule| slot| and closing|s? of (?:a|the|its|each) (?:window|slot)|s? of windows|\s*$)",
     "opening schedule, closing schedule"),
    (r"switched (?:on|off)", "powered on, power cycle"),
    (r"exactly where|exactly when", "if and only if, when"),
    (r"the other way round", "conversely"),
    (r"a front of", "a proper prefix of"),
    (r"besides?", "in addition, next to"),
    (r"by hand", "manually"),
    (r"by (?:itself|themselves)", "alone"),
    (r"dear(?:er|est)", "more expensive, most expensive"),
]
PATTERNS = [(re.compile(rf"\b(?:{word})\b", re.IGNORECASE), better) for word, better in WORDS]


def prose(text):
    """The lines of a page with fenced blocks, code spans and link targets left empty, so that line numbers stay."""
    fenced = False
    for line in text.splitlines():
        if line.lstrip().startswith("```"):
            fenced = not fenced
            yield ""
        elif fenced:
            yield ""
        else:
            line = re.sub(r"``.*?``|`[^`]*`", "`", line)
            yield re.sub(r"\]\([^)]*\)", "]", line)


def doc_comments(text):
    """The doc comments of a source, each on its line, without code spans."""
    for line in text.splitlines():
        match = re.match(r"\s*//[/!](.*)", line)
        yield re.sub(r"`[^`]*`", "`", match[1]) if match else ""


def places(name, lines):
    """Each counted word as (page, line, word, better)."""
    found = []
    for number, line in enumerate(lines, 1):
        for pattern, better in PATTERNS:
            found += [(name, number, match[0], better) for match in pattern.finditer(line)]
    return found


def count_words(text):
    return len(re.findall(r"[\w'`-]*[\w`][\w'`-]*", text))


def long_cells(name, lines):
    for number, line in enumerate(lines, 1):
        if line.startswith("|"):
            for cell in line.strip("| ").split(" | "):
                if count_words(cell) > LONG_CELL:
                    yield name, number, cell


def long_sentences(name, lines):
    for number, line in enumerate(lines, 1):
        if not line.startswith("|"):
            for sentence in re.split(r"(?<=[.!?:;])\s+", line):
                if count_words(sentence) > LONG_SENTENCE:
                    yield name, number, sentence


def read(top, pattern, reader):
    """The files of a pattern below the folder, each as its name and its lines; what was built there is no source."""
    for path in sorted(top.glob(pattern)):
        if "out" not in path.relative_to(top).parts:
            yield str(path.relative_to(top)), list(reader(path.read_text()))


def count(title, texts):
    found = [place for name, lines in texts for place in places(name, lines)]
    print(f"{title}: {len(found)} words in {len(texts)} files")
    return found


def main():
    words = sys.argv[1:]
    listed = words[:1] == ["--list"]
    folders = words[listed:]
    if len(folders) > 1 or folders and not pathlib.Path(folders[0]).is_dir():
        print(__doc__, file=sys.stderr)
        sys.exit(2)
    top = pathlib.Path(folders[0]) if folders else pathlib.Path(__file__).resolve().parent.parent
    pages = [*read(top, "README.md", prose), *read(top, "docs/*.md", prose)]
    found = count("pages", pages)
    cells = [cell for name, lines in pages for cell in long_cells(name, lines)]
    sentences = [sentence for name, lines in pages for sentence in long_sentences(name, lines)]
    print(f"pages: {len(cells)} table cells of more than {LONG_CELL} words, {len(sentences)} sentences of more than {LONG_SENTENCE}")
    inner = count("docs/internals", list(read(top, "docs/internals/**/*.md", prose)))
    sources = [*read(top, "crates/**/*.rt", doc_comments), *read(top, "crates/**/*.antt", doc_comments)]
    comments = count("doc comments", sources)
    if listed:
        for name, number, word, better in found + inner + comments:
            print(f"{name}:{number}: {word} -> {better}")
        for name, number, text in cells + sentences:
            print(f"{name}:{number}: {count_words(text)} words: {text[:80]}")
    sys.exit(1 if len(found + inner + comments) > MOST or cells else 0)


if __name__ == "__main__":
    main()
