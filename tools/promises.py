#!/usr/bin/env python3
"""Checks the table of GUARANTEES.md that gives for each sentence of README.md its clause, and a wrong program that the clause rejects.

Usage: tools/promises.py. In each row of the table
- the first cell is in README.md word for word, links and marks of markup aside;
- the second names public functions, each as '`top` in `run_commands`, clause `report`': the crate has it, with that clause;
- the third begins with an edit, as '`crate/name`': it is in the crate's must-fail/ or in tests/edits/crate, its file has each old line
  just once, and the new one is another.

The status is 1 if something is wrong. Only Python's standard library is used.
"""
import pathlib
import re
import sys

TOP = pathlib.Path(__file__).resolve().parent.parent
HEAD = "| sentence of README | clause | a wrong program that is rejected |"


def rows(page: str) -> list[list[str]]:
    """The cells of each row below the head of the table."""
    lines = page.splitlines()
    if HEAD not in lines:
        sys.exit("tools/promises.py: docs/GUARANTEES.md has no such table")
    found = []
    for line in lines[lines.index(HEAD) + 2:]:
        if not line.startswith("|"):
            break
        found.append([cell.strip() for cell in line.strip("|").split("|")])
    return found


def plain(text: str) -> str:
    """A text without links and marks of markup."""
    return " ".join(re.sub(r"[*`]", "", re.sub(r"\[([^\]]*)\]\([^)]*\)", r"\1", text)).split())


def clauses(crate: str, function: str) -> set[str] | None:
    """The names of the clauses of a public function of a crate; None if there is no such function."""
    for path in sorted((TOP / "crates" / crate / "src").rglob("*.rt")):
        text = re.sub(r"//[^\n]*", "", path.read_text())
        found = re.search(rf"^\s*pub fn {function}\b.*?^\s*\{{", text, re.M | re.S)
        if found:
            return set(re.findall(r"\bensures (\w+)", found[0]))
    return None


def wrong_clauses(cell: str) -> list[str]:
    """What is wrong with the functions and clauses of a cell."""
    wrong = []
    named = re.findall(r"`(\w+)` in `(\w+)`(?:, clauses? ((?:`\w+`(?:, | and )?)+))?", cell)
    if not named:
        wrong.append("no function is named")
    for function, crate, names in named:
        found = clauses(crate, function)
        if found is None:
            wrong.append(f"{crate} has no public function {function}")
        else:
            wrong += [f"{function} of {crate} has no clause {name}" for name in re.findall(r"`(\w+)`", names) if name not in found]
    return wrong


def wrong_edit(cell: str) -> list[str]:
    """What is wrong with the edit of a cell."""
    named = re.match(r"`(\w+)/(\w+)`", cell)
    if not named:
        return ["no edit is named"]
    crate, name = named.groups()
    places = [TOP / "crates" / crate / "must-fail" / f"{name}.edit", TOP / "tests" / "edits" / crate / f"{name}.edit"]
    edit = next((place for place in places if place.is_file()), None)
    if edit is None:
        return [f"there is no edit {crate}/{name}"]
    text, old, wrong = "", "", []
    for line in edit.read_text().splitlines():
        key, _, value = line.partition(": ")
        if key == "file":
            text = (TOP / "crates" / crate / value.strip()).read_text()
        elif key == "old":
            old = value.strip()
            if text.count(old) != 1:
                wrong.append(f"{crate}/{name}: the old line is {text.count(old)} times in its file")
        elif key == "new" and value.strip() == old:
            wrong.append(f"{crate}/{name}: the new line is the old one")
    return wrong


def main() -> None:
    readme = plain((TOP / "README.md").read_text())
    wrong = []
    found = rows((TOP / "docs" / "GUARANTEES.md").read_text())
    for cells in found:
        sentence, clause, edit = cells
        if plain(sentence) not in readme:
            wrong.append(f"README.md does not say: {sentence}")
        wrong += [f"{sentence}: {what}" for what in wrong_clauses(clause) + wrong_edit(edit)]
    print("\n".join([*wrong, f"{len(found)} sentences, {len(wrong)} faults"]))
    sys.exit(bool(wrong))


if __name__ == "__main__":
    main()
