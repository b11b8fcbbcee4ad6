"""What the export writes: a Cargo workspace with a crate for each of crates.txt, the shim, and the crates that are written here.

    Cargo.toml, README.md, LICENSE, SOURCES (the checksum of the sources)
    crates/NAME        each crate of crates.txt
    shim               what stands for the toolchain's libraries
    foldcairn-node     the crates of one node as the modules of one crate
    wasm, firmware     both programs as one WebAssembly module, and examples/firmware: workspaces of their own
"""

from __future__ import annotations

import collections
import dataclasses
import pathlib
import re
import shutil

from file_export import FileExport, with_prelude
from rewrites import Place
from tokens import UnknownForm

HERE = pathlib.Path(__file__).resolve().parent
EDITION = "2024"

# What stands for a library of the toolchain: the crate of crates.io, by the oldest version that was tried, or one of the shim's folder.
LIBRARIES = {
    "arrayvec": '{ version = "0.7.2", default-features = false }',
    "byteorder": '{ version = "1.4.3", default-features = false }',
    "circular_buffer": '{ path = "shim/circular_buffer" }',
    "itoa": '"1.0.1"',
    "memchr": '{ version = "2.5.0", default-features = false }',
    "rand_core": '{ package = "rattle_rand_core", path = "shim/rand_core" }',
    "rand_pcg": '{ version = "0.3.1", default-features = false }',
    "rand_xoshiro": '"0.6.0"',
}
# The crates of a node, with all below them.
NODE = ["node_core"]
PROFILES = """\
[profile.release]
panic = "abort"
lto = true
codegen-units = 1

# Stops where a sum wraps. The proofs say that none does, for numbers of 64 bits.
[profile.checked]
inherits = "release"
lto = false
codegen-units = 16
overflow-checks = true
debug-assertions = true
"""
# Contracts name what other crates have, and ghost text was all that used some imports.
ALLOWED = "#![allow(dead_code, unused_imports, unused_variables)]\n"
LIBRARY_ROOT = "#![no_std]\n#![forbid(unsafe_code)]\n" + ALLOWED + "extern crate rattle_std as std;\n\n"
# The start of a program is C's `main`, which the shim's macro writes.
PROGRAM_ROOT = "#![no_std]\n#![cfg_attr(unix, no_main)]\n" + ALLOWED + "extern crate rattle_std as std;\n\n"
PROGRAM_END = "\nrattle_std::program!(rattle_main);\n"


# A link of a page to another one.
LINK = re.compile(r"\[([^][]*)\]\((?!https?:)[^()]*\)")


def alone(page: str) -> str:
    """A page without its links, for where the other pages are not."""
    return LINK.sub(r"\1", page)


class ExportError(Exception):
    """Why nothing is exported, with the file and line where a form is unknown."""


@dataclasses.dataclass
class Repository:
    """The crates of the repository: of each its libraries and crates below it, as crates.txt has them."""

    top: pathlib.Path
    crates: dict[str, list[str]]
    version: str

    @classmethod
    def read(cls, top: pathlib.Path) -> Repository:
        """What crates.txt has; ExportError where a line of it is not `NAME: NAME ..`."""
        crates: dict[str, list[str]] = {}
        for number, line in enumerate((top / "crates.txt").read_text(encoding="utf-8").splitlines(), 1):
            name, colon, below = line.partition("#")[0].partition(":")
            if not name.strip():
                continue
            if not colon or not name.strip().isidentifier():
                raise ExportError(f"crates.txt:{number}: `NAME: NAME ..` is due, not `{line}`")
            crates[name.strip()] = below.split()
        return cls(top, crates, (top / "VERSION").read_text(encoding="utf-8").strip())

    def files(self, crate: str) -> list[pathlib.Path]:
        """The sources of a crate, in a fixed order."""
        files = sorted((self.top / "crates" / crate / "src").rglob("*.rt"))
        if not files:
            raise ExportError(f"crates/{crate}/src has no source")
        return files

    def source(self, crate: str) -> pathlib.Path:
        """The folder of a crate's sources."""
        return self.top / "crates" / crate / "src"

    def is_program(self, crate: str) -> bool:
        """Whether a crate is a program."""
        return (self.source(crate) / "main.rt").exists()

    def closure(self, *names: str) -> list[str]:
        """These crates and all below them, by name."""
        wanted: set[str] = set()
        waiting = list(names)
        while waiting:
            name = waiting.pop()
            if name in self.crates and name not in wanted:
                wanted.add(name)
                waiting += self.crates[name]
        return sorted(wanted)

    def library(self, crate: str, name: str) -> str:
        """The line of Cargo.toml for a library that stands in the workspace's own; ExportError where nothing stands for it."""
        if name not in LIBRARIES:
            raise ExportError(f"crates.txt: {crate} uses {name}, and nothing stands for that library")
        return f"{name}.workspace = true"


class Writer:
    """Writes an export into a folder, and counts what was erased and rewritten."""

    def __init__(self, repository: Repository, folder: pathlib.Path) -> None:
        self.repository = repository
        self.folder = folder
        self.counts: collections.Counter[str] = collections.Counter()

    def write(self, path: pathlib.Path, text: str) -> None:
        """Writes a file below the folder."""
        file = self.folder / path
        file.parent.mkdir(parents=True, exist_ok=True)
        file.write_text(text, encoding="utf-8")

    def export(self, file: pathlib.Path, place: Place) -> str:
        """A source as Rust; ExportError names the file and line of a form that is unknown."""
        export = FileExport(file.read_text(encoding="utf-8"), place)
        try:
            text = export.run()
        except UnknownForm as form:
            line = export.source.line(form.at)
            raise ExportError(f"{file.relative_to(self.repository.top)}:{line}: not known to the export: {form}") from None
        self.counts.update(export.counts)
        self.counts["files"] += 1
        return text

    # a crate of its own

    def crate(self, name: str) -> None:
        """A crate of crates.txt as a crate of Cargo's."""
        repository = self.repository
        program = repository.is_program(name)
        takes_runtime = program
        for file in repository.files(name):
            text = self.export(file, Place(is_program=program))
            takes_runtime = takes_runtime or "HostRuntime" in text
            inner = file.relative_to(repository.source(name))
            is_root = inner.name in ("lib.rt", "main.rt") and inner.parent == pathlib.Path()
            text = with_prelude(text, (PROGRAM_ROOT if program else LIBRARY_ROOT) if is_root else "")
            self.write(pathlib.Path("crates", name, "src", inner.with_suffix(".rs")), text + (PROGRAM_END if program and is_root else ""))
        self.write(pathlib.Path("crates", name, "Cargo.toml"), self._manifest(name, program, takes_runtime))

    def _manifest(self, name: str, program: bool, takes_runtime: bool) -> str:
        lines = ["[package]", f'name = "{name}"', "version.workspace = true", "edition.workspace = true", "license.workspace = true", "publish = false", ""]
        if program:
            # It has C's main, and so no harness of tests. Its commands have the names that users type.
            lines += ["[[bin]]", f'name = "{name.replace("_", "-")}"', 'path = "src/main.rs"', "test = false", ""]
        features = ', features = ["host"]' if takes_runtime else ""
        lines += ["[dependencies]", f'rattle_std = {{ path = "../../shim"{features} }}']
        for below in self.repository.crates[name]:
            lines.append(f'{below} = {{ path = "../{below}" }}' if below in self.repository.crates else self.repository.library(name, below))
        return "\n".join(lines) + "\n"

    # crates as modules of one

    def one(self, name: str, roots: list[str]) -> None:
        """These crates and those below them as the modules of one crate, whose own files are in the folder NAME here."""
        repository = self.repository
        crates = repository.closure(*roots)
        shutil.copytree(HERE / name, self.folder / name, dirs_exist_ok=True)
        for crate in crates:
            if repository.is_program(crate):
                raise ExportError(f"{crate} is a program, and cannot be a module of {name}")
            for file in repository.files(crate):
                inner = file.relative_to(repository.source(crate))
                to = pathlib.Path("mod.rs") if inner == pathlib.Path("lib.rt") else inner.with_suffix(".rs")
                text = with_prelude(self.export(file, Place(module=crate, modules=frozenset(crates))))
                self.write(pathlib.Path(name, "src", crate, to), text)
        libraries = sorted({below for crate in crates for below in repository.crates[crate] if below not in repository.crates})
        manifest = (self.folder / name / "Cargo.toml").read_text(encoding="utf-8")
        lines = [repository.library(name, library) for library in libraries]
        self.write(pathlib.Path(name, "Cargo.toml"), manifest.rstrip("\n") + "\n" + "\n".join(lines) + "\n")
        modules = "".join(f"pub mod {crate};\n" for crate in crates)
        root = (self.folder / name / "src/lib.rs").read_text(encoding="utf-8")
        self.write(pathlib.Path(name, "src/lib.rs"), root.rstrip("\n") + "\n\n" + modules)

    # the workspace

    def workspace(self, sources: str) -> None:
        """All of it. `sources` is the checksum of the sources, which the file SOURCES keeps."""
        for name in sorted(self.repository.crates):
            self.crate(name)
        self.counts["crates"] = len(self.repository.crates)
        if set(NODE) <= set(self.repository.crates):
            self.one("foldcairn-node", NODE)
            self.write(pathlib.Path("foldcairn-node/README.md"), alone((self.repository.top / "docs/DEVICES.md").read_text(encoding="utf-8")))
        firmware = self.repository.top / "examples/firmware"
        for folder in [HERE / "shim", HERE / "wasm", *([firmware] if firmware.exists() else [])]:
            shutil.copytree(folder, self.folder / folder.name, dirs_exist_ok=True, ignore=shutil.ignore_patterns("target"))
        self.write(pathlib.Path("SOURCES"), f"version {self.repository.version}\nsources {sources}\n")
        self.write(pathlib.Path("LICENSE"), (self.repository.top / "LICENSE").read_text(encoding="utf-8"))
        self.write(pathlib.Path("README.md"), (HERE / "workspace.md").read_text(encoding="utf-8"))
        self.write(pathlib.Path("Cargo.toml"), self._root_manifest())

    def _root_manifest(self) -> str:
        own = [name for name in ("foldcairn-node",) if (self.folder / name).exists()]
        members = [*own, "shim", "shim/circular_buffer", "shim/rand_core"] + [f"crates/{name}" for name in sorted(self.repository.crates)]
        programs = [f"crates/{name}" for name in sorted(self.repository.crates) if self.repository.is_program(name)]
        lines = ["[workspace]", 'resolver = "3"', "members = [", *(f'    "{member}",' for member in members), "]", 'exclude = ["firmware", "wasm"]']
        lines += ["default-members = [" + ", ".join(f'"{program}"' for program in programs) + "]", ""]
        lines += ["[workspace.package]", f'version = "{self.repository.version}"', f'edition = "{EDITION}"', 'license = "MIT"', ""]
        lines += ["[workspace.dependencies]", *(f"{name} = {version}" for name, version in LIBRARIES.items()), ""]
        return "\n".join(lines) + "\n" + PROFILES
