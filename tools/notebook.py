#!/usr/bin/env python3
"""Makes a notebook of a page: its prose, and a cell for each block of Python. What the page shows below a block is left out, since
the cell prints it. Where a picture of the page is below a block, whose code writes it as SVG, the cell writes it as PNG and shows
it, since exports of notebooks leave SVG out.

Usage: tools/notebook.py PAGE writes the notebook, without outputs, on standard output. tools/notebook.py PAGE --compare RAN says
whether the notebook RAN, which was executed, printed what the page shows and has all of its pictures; the status is 1 if not.
Only Python's standard library is used.
"""

import json
import pathlib
import re
import sys

FENCED = re.compile(r"^```(\w*)[^\n]*\n(.*?)^```\n", re.DOTALL | re.MULTILINE)
SHOWN = re.compile(r"\n```text\n(.*?)^```\n", re.DOTALL | re.MULTILINE)
PICTURE = re.compile(r"\n!\[[^\]]*\]\(pictures/planning/(\w+)\.svg\)\n")
LINK = re.compile(r"\]\((?!https?:|\.\./)([^)]*)\)")
# The page prints the cautions of its scenario, so the warnings say nothing new.
QUIET = """import warnings
from foldcairn.scenario import ScenarioWarning
warnings.simplefilter("ignore", ScenarioWarning)
"""


def parts(page):
    """The parts of a page in their order: a kind, `prose` or `code`; its text; and of code what it prints, and its picture's name."""
    found = []
    at = 0
    prose = ""
    while block := FENCED.search(page, at):
        prose += page[at : block.start()]
        at = block.end()
        if block[1] != "python":
            prose += block[0]
            continue
        found.append(("prose", prose.strip("\n"), "", ""))
        prose = ""
        shown = SHOWN.match(page, at)
        at = shown.end() if shown else at
        picture = PICTURE.match(page, at)
        at = picture.end() if picture else at
        found.append(("code", block[2], shown[1] if shown else "", picture[1] if picture else ""))
    found.append(("prose", (prose + page[at:]).strip("\n"), "", ""))
    first = next(number for number, part in enumerate(found) if part[0] == "code")
    found.insert(first, ("code", QUIET, "", ""))
    return [part for part in found if part[1]]


def cell(number, part, name):
    """A cell of a notebook. Links lead from the folder of the examples to the pages."""
    kind, text, _, picture = part
    made = {"cell_type": "markdown", "id": f"part-{number}", "metadata": {}}
    if kind == "prose":
        text = LINK.sub(lambda link: f"](../docs/{name if link[1].startswith('#') else ''}{link[1]})", text)
    else:
        made |= {"cell_type": "code", "execution_count": None, "outputs": []}
    if picture:
        text = "from IPython.display import Image\n" + text.replace(f'"{picture}.svg"', f'"{picture}.png"') + f'Image("{picture}.png")'
    return made | {"source": text.rstrip("\n").splitlines(keepends=True)}


def notebook(page, name):
    """The notebook of a page, as the data that is written as JSON."""
    cells = [cell(number, part, name) for number, part in enumerate(parts(page))]
    kernel = {"display_name": "Python 3", "language": "python", "name": "python3"}
    return {"cells": cells, "metadata": {"kernelspec": kernel, "language_info": {"name": "python"}}, "nbformat": 4, "nbformat_minor": 5}


def printed(cell):
    """What a cell that was executed wrote on standard output."""
    return "".join("".join(output["text"]) for output in cell.get("outputs", []) if output.get("name") == "stdout")


def compare(page, ran):
    """A sentence for each part of a page that an executed notebook has not."""
    faults = [] if len(parts(page)) == len(ran["cells"]) else ["the notebook has other cells than the page has parts"]
    for (kind, text, shown, picture), cell in zip(parts(page), ran["cells"]):
        pictures = [output["data"]["image/png"] for output in cell.get("outputs", []) if "image/png" in output.get("data", {})]
        if picture and not any(len(data) > 20_000 for data in pictures):
            faults.append(f"the picture {picture} is missing")
        if kind == "code" and printed(cell) != shown:
            faults.append(f"this code prints something else than the page shows:\n{text}")
    return faults


def main(words):
    if len(words) not in (1, 3) or words[1:2] not in ([], ["--compare"]):
        sys.exit("usage: tools/notebook.py PAGE [--compare RAN]")
    path = pathlib.Path(words[0])
    page = path.read_text(encoding="utf-8")
    if len(words) == 1:
        json.dump(notebook(page, path.name), sys.stdout, indent=1, ensure_ascii=False)
        print()
        return
    faults = compare(page, json.loads(pathlib.Path(words[2]).read_text(encoding="utf-8")))
    print(*faults, sep="\n")
    sys.exit(1 if faults else 0)


if __name__ == "__main__":
    main(sys.argv[1:])
