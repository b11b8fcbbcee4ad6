#!/usr/bin/env python3
"""Writes what pages say of each crate, from crates.txt, the README.md of each crate and the heads of its files.

Usage: tools/crates.py [--check]. It writes the last part of each crates/NAME/README.md (which crates use it), the list of crates of
docs/internals/ARCHITECTURE.md, 'Crate by crate' of docs/GUARANTEES.md and docs/internals/FILES.md. With --check it writes nothing,
and says what is not as it would be. The status is 1 if something is wrong.

crates.txt has a line `# FAMILY: what it is` above the crates of each family, in an order in which each family uses those above it
alone. A README.md begins with the first sentence of the root file and says why the crate is apart; then come what is proved of it,
by the names of clauses, and what is tested. Only Python's standard library is used.
"""
import os
import pathlib
import re
import sys

TOP = pathlib.Path(__file__).resolve().parent.parent
ARCHITECTURE = TOP / "docs" / "internals" / "ARCHITECTURE.md"
GUARANTEES = TOP / "docs" / "GUARANTEES.md"
FILES = TOP / "docs" / "internals" / "FILES.md"
BEGIN, END = "<!-- the crates, by tools/crates.py -->\n", "<!-- the end of the crates -->\n"
USED = "\n## Used by\n"
HEAD = (
    "# Every file of code\n\nWhat the head of each file of `crates/*/src` says first, crate by crate, as `tools/crates.py` reads it. "
    "The root file of a crate is left out: [ARCHITECTURE.md](ARCHITECTURE.md) has what it says.\n"
)


def families():
    """Each family: its name, what it is, and its crates with what they use."""
    found = []
    for line in (TOP / "crates.txt").read_text().splitlines():
        heading = re.fullmatch(r"# ([a-z]+): (.+)", line)
        if heading:
            found.append((heading[1], heading[2], {}))
        elif line and not line.startswith("#"):
            name, uses = line.split(":")
            found[-1][2][name.split()[0]] = uses.split()
    return found


def in_order(found):
    """The crates of a family, each after those that it uses."""
    order = []

    def place(crate):
        for used in found[crate]:
            if used in found:
                place(used)
        if crate not in order:
            order.append(crate)

    for crate in found:
        place(crate)
    return order


def all_uses(found):
    """What each crate uses, crate by crate."""
    return {crate: crates[crate] for _, _, crates in found for crate in in_order(crates)}


def depths(uses):
    """How many crates the longest chain from each crate down has."""
    known = {}

    def depth(crate):
        if crate not in known:
            known[crate] = 1 + max((depth(used) for used in uses[crate] if used in uses), default=0)
        return known[crate]

    return {crate: depth(crate) for crate in uses}


def first_sentence(text):
    return re.split(r"(?<=\.)\s", " ".join(text.split()))[0]


def head_of(source):
    """What a file says of itself first."""
    return first_sentence(" ".join(line[3:].strip() for line in source.read_text().splitlines() if line.startswith("//!")))


def root_of(crate):
    source = TOP / "crates" / crate / "src"
    return source / ("lib.rt" if (source / "lib.rt").exists() else "main.rt")


def parts_of(crate):
    """The parts of a crate's README.md by their headings, the first one by ''; nothing if there is no such file."""
    page = TOP / "crates" / crate / "README.md"
    if not page.exists():
        return {}
    title, *parts = re.split(r"^## (.+)\n", page.read_text(), flags=re.M)
    heading, _, what = title.partition("\n")
    found = {"": what.strip()} if heading == f"# {crate}" else {}
    return found | {name: text.strip() for name, text in zip(parts[::2], parts[1::2])}


def faults(found):
    """What is wrong with families and READMEs."""
    above = set()
    for name, _, crates in found:
        above |= set(crates)
        for crate, uses in crates.items():
            for used in uses:
                if (TOP / "crates" / used).exists() and used not in above:
                    yield f"crates.txt: {crate} of {name} uses {used}, which is of a family below"
            parts = parts_of(crate)
            if not parts.get(""):
                yield f"crates/{crate}/README.md is missing, or does not begin with '# {crate}' and what it is"
                continue
            if not parts[""].startswith(head_of(root_of(crate))):
                yield f"crates/{crate}/README.md does not begin with the first sentence of {root_of(crate).relative_to(TOP)}"
            for heading in ("Tested", *([] if name == "test" else ["Proved"])):
                if not parts.get(heading):
                    yield f"crates/{crate}/README.md does not say what is {heading.lower()}"


def readme(crate, uses):
    """A crate's README.md with those that use it."""
    page = TOP / "crates" / crate / "README.md"
    by = ", ".join(f"`{user}`" for user in uses if crate in uses[user]) or "No other crate"
    return page.read_text().partition(USED)[0] + f"{USED}\n{by}.\n"


def between(page, written):
    """A page with what is written between its marks."""
    before, _, rest = page.read_text().partition(BEGIN)
    _, _, after = rest.partition(END)
    if not rest or not after:
        sys.exit(f"tools/crates.py: {page} has no place for the crates")
    return before + BEGIN + "\n" + written + "\n" + END + after


def table(found, uses):
    """The crates by families, with what each is."""
    lines = [f"{len(uses)} crates, the longest chain of which has {max(depths(uses).values())}.", "", "| family | crate | what it is |", "|---|---|---|"]
    for name, what, crates in found:
        lines.append(f"| **{name}** | | {what} |")
        lines += [f"| | [`{crate}`](../../crates/{crate}/README.md) | {first_sentence(parts_of(crate)['']).rstrip('.')} |" for crate in in_order(crates)]
    return "\n".join(lines) + "\n"


def proved(uses):
    """What is proved of each crate of which a README.md says something, its links as they are from docs/."""
    parts = {crate: parts_of(crate).get("Proved") for crate in uses}
    return "\n".join(f"### `{crate}`\n\n" + text.replace("](../../docs/", "](") + "\n" for crate, text in parts.items() if text)


def files(uses):
    """The heads of all files but the root files."""
    lines = [HEAD]
    for crate in uses:
        source = TOP / "crates" / crate / "src"
        found = [path for path in sorted(source.rglob("*.rt")) if path != root_of(crate)]
        if found:
            lines += [f"## {crate}\n", "| file | what it has |", "|---|---|"]
            lines += [f"| `{path.relative_to(source).with_suffix('')}` | {head_of(path).rstrip('.')} |" for path in found]
            lines.append("")
    return "\n".join(lines)


def pages(found, uses):
    """Each page with what it is to be."""
    for crate in uses:
        yield TOP / "crates" / crate / "README.md", readme(crate, uses)
    yield ARCHITECTURE, between(ARCHITECTURE, table(found, uses))
    yield GUARANTEES, between(GUARANTEES, proved(uses))
    yield FILES, files(uses)


def main():
    found = families()
    wrong = list(faults(found))
    if wrong:
        sys.exit("\n".join(wrong))
    for page, text in pages(found, all_uses(found)):
        if page.exists() and page.read_text() == text:
            continue
        if "--check" in sys.argv[1:]:
            wrong.append(f"{page.relative_to(TOP)} is not what tools/crates.py writes: make crates")
        else:
            written = page.with_suffix(".written")
            written.write_text(text)
            os.replace(written, page)
    if wrong:
        sys.exit("\n".join(wrong))


if __name__ == "__main__":
    main()
