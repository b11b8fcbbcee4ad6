#!/usr/bin/env python3
"""Finds what pages name in code spans and the tree lacks: files, modules, lemmas, functions, definitions and clauses.

Usage: tools/names.py [PAGE ..], of all pages if none is given: README.md, CONTRIBUTING.md, those below docs, and README.md of each
crate. CHANGELOG.md may name what is gone. What is looked for:

- a path below a folder of the repository, of a crate, or of each crate (`crates/air_log/specs/Safe.antt`, `link_trace/specs/Order`,
  `src/limits.rt`, also with braces for several names);
- a name (`parse_log`, `Device::begin`, `Air`), each part of which is to be a word of code or the name of a file; two digits are a byte;
- names of which a crate is said, as in '`admit` and `rounds` in `deadline_plan`', which are to be in that crate;
- a name of a source alone (`limits.rt`), which some file is to have;
- clauses, as in 'clauses `twice`, `there`', which the crate is to have where its README.md names them, and else some crate;
- the files in tables headed 'file of `..`';
- the number of a constant, in a row of a table that begins with both.

The status is 1 if something is missing. Only Python's standard library is used.
"""
import functools
import pathlib
import re
import subprocess
import sys

TOP = pathlib.Path(__file__).resolve().parent.parent
SPAN = re.compile(r"`([^`]+)`")
LIST = r"((?:`[^`]+`(?:, | and |, and | or )?)+)"
NAMED_OF = re.compile(LIST + r" (?:of|in) `([a-z_0-9]+)`")
CLAUSES = re.compile(r"clause (`[^`]+`)|clauses " + LIST)
NUMBER_OF = re.compile(r"^\| `([A-Z_]+)` \| ([\d,]+) \|")
FILES_OF = re.compile(r"^\| files? of `([a-z_0-9]+/[a-z]+)`")
FOLDERS = ("crates", "docs", "examples", "python", "tests", "tools", "bench", "src", "specs", "proofs")
SUFFIXES = ("", ".rt", ".antt", ".py", ".sh")
# Words that stand for a name, so that no file has them.
STAND_INS = re.compile(r"NAME|CRATE|MODULE|FUNCTION")
# What pages name of the toolchain's own library.
OF_TOOLCHAIN = {"Allocator", "allocate"}


@functools.cache
def tracked():
    found = subprocess.run(["git", "ls-files"], cwd=TOP, capture_output=True, text=True, check=True).stdout.splitlines()
    return [name for name in found if (TOP / name).is_file()]


def code_of(name):
    """The text of a source without its comments."""
    text = (TOP / name).read_text(errors="replace")
    if name.endswith(".rt"):
        return re.sub(r"//[^\n]*", "", text)
    if name.endswith(".antt"):
        return re.sub(r"--[^\n]*", "", text)
    return text


@functools.cache
def all_words():
    """The words of the code of each crate, and of all other sources by '', with those of the names of files."""
    found = {}
    for name in tracked():
        if not name.endswith((".md", ".svg", ".ipynb")) and not name.startswith("bin/") and name not in ("tools/names.py", "tests/documents.sh"):
            words = found.setdefault(name.split("/")[1] if name.startswith("crates/") else "", set())
            words.update(re.findall(r"\w+", code_of(name)), pathlib.PurePath(name).with_suffix("").parts)
    return found


def words_of(crate):
    return all_words().get(crate, set())


@functools.cache
def known():
    return set().union(*all_words().values())


@functools.cache
def clauses_of(crate):
    return {clause for name in tracked() if name.startswith(f"crates/{crate}/src/") for clause in re.findall(r"\bensures (\w+)", code_of(name))}


@functools.cache
def all_clauses():
    return set().union(*(clauses_of(crate) for crate in crates()))


@functools.cache
def file_names():
    return {pathlib.PurePath(name).name for name in tracked()}


@functools.cache
def constants():
    """The numbers of the public constants of code that are numbers."""
    found = {}
    for name in tracked():
        if name.startswith("crates/") and name.endswith(".rt"):
            for constant, value in re.findall(r"\bpub const (\w+): (?:u|usize)\w* = ([^;]+);", code_of(name)):
                value = re.sub(r" as \w+|(?<=\d)_(?=\d)", "", value)
                value = re.sub(r"[A-Z_]{2,}", lambda other: str(found.get(other[0], other[0])), value).replace("/", "//")
                if re.fullmatch(r"[\d +/-]+", value):
                    # Digits and signs alone.
                    found[constant] = eval(value)
    return found


@functools.cache
def crates():
    return {name.split("/")[1] for name in tracked() if name.startswith("crates/")}


def expanded(span):
    """A path with braces as all paths that it means."""
    found = re.search(r"\{([^{}]*)\}", span)
    if not found:
        return [span]
    return [path for one in found[1].split(",") for path in expanded(span[:found.start()] + one.strip() + span[found.end():])]


def is_path(span):
    first = span.split("/")[0]
    if not re.fullmatch(r"[\w./{},-]+", span) or "/" not in span or "/out/" in span or STAND_INS.search(span):
        return False
    return first in FOLDERS or first in crates()


def is_there(path):
    places = [TOP / path, TOP / "crates" / path]
    first, _, rest = path.partition("/")
    edits = [TOP / "crates" / first / "must-fail", TOP / "tests" / "edits" / first]
    if first in crates() and any((folder / f"{rest}.edit").exists() for folder in edits):
        return True
    if first in ("src", "specs", "proofs"):
        places += [TOP / "crates" / crate / path for crate in crates()]
    return any(pathlib.Path(f"{place}{suffix}").exists() for place in places for suffix in SUFFIXES)


def names_in(span):
    """The names in a span that is one name, a call, or a path of modules. Of a path by dots, as `foldcairn.radio`, those of several
    words."""
    if not re.fullmatch(r"[\w:.]+(?:\(.*\))?", span) or re.fullmatch(r"[0-9a-f]{2}|\d+", span):
        return []
    name = re.sub(r"\(.*", "", span)
    if re.fullmatch(r"[A-Za-z_]\w*(?:::[A-Za-z_]\w*)*", name):
        return [part for part in name.split("::") if part not in OF_TOOLCHAIN]
    return [part for part in re.split(r"::|\.", name) if re.fullmatch(r"[a-z0-9]+(?:_[a-z0-9]+)+|(?:[A-Z][a-z0-9]+){2,}", part)]


def prose(text):
    """The lines of a page, each with its number, without fenced blocks."""
    fenced = False
    for number, line in enumerate(text.splitlines(), 1):
        if line.startswith("```"):
            fenced = not fenced
        elif not fenced:
            yield number, line


def missing_in(line, crate):
    """What a line names that is not there; crate is the one whose README.md it is of, or ''."""
    for span in SPAN.findall(line):
        if is_path(span):
            yield from (f"no file {path}" for path in expanded(span) if not is_there(path))
        else:
            yield from (f"no {name}" for name in names_in(span) if name not in known())
            if re.fullmatch(r"\w+\.(?:rt|antt|edit)", span) and span not in file_names():
                yield f"no file {span}"
    for constant, number in NUMBER_OF.findall(line):
        if constants().get(constant) != int(number.replace(",", "")):
            yield f"{constant} is {constants().get(constant)}, not {number}"
    for spans, owner in NAMED_OF.findall(line):
        if owner in crates():
            for span in SPAN.findall(spans):
                parts = re.findall(r"\w+", span.split("(")[0]) if re.fullmatch(r"[\w:./]+(?:\(.*\))?", span) else []
                yield from (f"no {part} in {owner}" for part in parts if part not in words_of(owner))
    for one, more in CLAUSES.findall(line):
        spans = [span for span in SPAN.findall(one + more) if re.fullmatch(r"\w+", span)]
        yield from (f"no clause {span} in {crate or 'any crate'}" for span in spans if span not in (clauses_of(crate) if crate else all_clauses()))


def missing(page):
    """What a page names that is not there, by lines."""
    name = str(page.relative_to(TOP)) if page.is_relative_to(TOP) else page.name
    crate = name.split("/")[1] if name.startswith("crates/") else ""
    folder = ""
    for number, line in prose(page.read_text()):
        heading = FILES_OF.match(line)
        folder = heading[1] if heading else folder if line.startswith("|") else ""
        if folder and not heading:
            cell, _, other = line.split("|")[1].partition(" of `")
            place = other.strip("` ") or folder
            spans = [span for span in SPAN.findall(cell) if re.fullmatch(r"\w+", span)]
            yield from (f"{name}:{number}: no file {span} in {place}" for span in spans if not is_there(f"{place}/{span}"))
        yield from (f"{name}:{number}: {what}" for what in missing_in(line, crate))


def main():
    given = [pathlib.Path(page).resolve() for page in sys.argv[1:]]
    pages = given or [TOP / page for page in tracked() if page.endswith(".md") and page != "CHANGELOG.md" and not page.startswith(("python/", "bench/"))]
    found = list(dict.fromkeys(what for page in pages for what in missing(page)))
    print("\n".join([*found, f"{len(pages)} pages, {len(found)} names that the tree lacks"]))
    sys.exit(bool(found))


if __name__ == "__main__":
    main()
