"""Writes the proved sources as a Cargo workspace of ordinary Rust, or says whether a folder has what they export to.

What is ghost is erased: clauses become documentation, other ghost text comments, or it goes. All else is copied token by token, but
for the few places in rewrites.py. A form that is not known ends the export with its file and line, and then nothing is written.
Tested, not proved.
"""

from __future__ import annotations

import argparse
import filecmp
import pathlib
import shutil
import subprocess
import sys
import tempfile

from workspace import ExportError, Repository, Writer

TOP = pathlib.Path(__file__).resolve().parents[2]
# What Cargo writes into a workspace.
BUILT = {"target", "Cargo.lock", ".cargo"}


def checksum(top: pathlib.Path) -> str:
    """The checksum of the sources, as bin/SOURCES has it."""
    return subprocess.run([top / "tools/sources.sh"], check=True, capture_output=True, text=True).stdout.strip()


def files(folder: pathlib.Path) -> set[pathlib.Path]:
    """The files below a folder, without what Cargo writes."""
    found = (path.relative_to(folder) for path in folder.rglob("*") if path.is_file())
    return {path for path in found if not BUILT.intersection(path.parts)}


def difference(one: pathlib.Path, other: pathlib.Path) -> pathlib.Path | None:
    """The first file by name that only one folder has, or that differs."""
    both = files(one) & files(other)
    differ = {path for path in both if not filecmp.cmp(one / path, other / path, shallow=False)}
    return min(differ | (files(one) ^ files(other)), default=None)


def replace(new: pathlib.Path, folder: pathlib.Path) -> None:
    """Puts the files of an export into a folder. Those of an older one that are left go, and what Cargo wrote stays."""
    for path in files(folder) - files(new) if folder.exists() else set():
        (folder / path).unlink()
    for path in sorted(files(new)):
        to = folder / path
        # A file that is the same keeps its time, so that Cargo does not build it again.
        if not to.exists() or not filecmp.cmp(new / path, to, shallow=False):
            to.parent.mkdir(parents=True, exist_ok=True)
            shutil.copyfile(new / path, to)


def main() -> int:
    """The command: status 0, or 1 with a line on standard error."""
    words = argparse.ArgumentParser(prog="tools/export", description=__doc__)
    words.add_argument("folder", type=pathlib.Path, help="where the workspace is written")
    words.add_argument("--check", action="store_true", help="write nothing, and say whether the folder has this export")
    words.add_argument("--repository", type=pathlib.Path, default=TOP, help="the sources (default: this repository)")
    given = words.parse_args()
    with tempfile.TemporaryDirectory() as folder:
        new = pathlib.Path(folder)
        try:
            writer = Writer(Repository.read(given.repository), new)
            writer.workspace(checksum(given.repository))
        except ExportError as error:
            print(f"tools/export: {error}", file=sys.stderr)
            return 1
        if given.check:
            other = difference(new, given.folder)
            if other is not None:
                print(f"tools/export: {given.folder} is not the export of these sources: {other} differs", file=sys.stderr)
            return int(other is not None)
        replace(new, given.folder)
        print(", ".join(f"{name} {count}" for name, count in sorted(writer.counts.items())))
    return 0


if __name__ == "__main__":
    sys.exit(main())
