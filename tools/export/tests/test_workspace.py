"""The workspace of two small crates and a program: its files, and the errors that leave none."""

from __future__ import annotations

import pathlib
import subprocess
import sys
import tomllib

import pytest

EXPORT = pathlib.Path(__file__).resolve().parent.parent
FILES = {
    "VERSION": "1.2.3\n",
    "LICENSE": "A licence.\n",
    "tools/sources.sh": "#!/bin/sh\necho 0123\n",
    "crates.txt": "# base\nlow: arrayvec\nhigh: low\ntool: high\n",
    "crates/low/src/lib.rt": "//! Low.\n\npub mod inner;\n",
    "crates/low/src/inner.rt": "pub fn one() -> u8\n    ensures { result ≡ 1 }\n{\n    1\n}\n",
    "crates/high/src/lib.rt": "#[cfg(test)]\nmod tests {\n    #[test]\n    fn f(rt: HostRuntime) {}\n}\n",
    "crates/tool/src/main.rt": "fn main(rt: HostRuntime) -> ExitCode {}\n",
}


@pytest.fixture
def repository(tmp_path: pathlib.Path) -> pathlib.Path:
    """A repository with these files."""
    for name, text in FILES.items():
        file = tmp_path / "repository" / name
        file.parent.mkdir(parents=True, exist_ok=True)
        file.write_text(text, encoding="utf-8")
    (tmp_path / "repository/tools/sources.sh").chmod(0o755)
    return tmp_path / "repository"


def export(repository: pathlib.Path, *words: str) -> subprocess.CompletedProcess[str]:
    """The command on this repository, which writes into the folder `out` beside it."""
    command = [sys.executable, str(EXPORT), str(repository.parent / "out"), "--repository", str(repository), *words]
    return subprocess.run(command, capture_output=True, text=True)


def test_a_workspace(repository: pathlib.Path) -> None:
    """Each crate has its manifest, and its files with what leads and ends them."""
    done = export(repository)
    assert (done.returncode, done.stderr) == (0, "")
    out = repository.parent / "out"
    root = tomllib.loads((out / "Cargo.toml").read_text())
    assert {"crates/low", "crates/high", "crates/tool", "shim"} <= set(root["workspace"]["members"])
    assert root["workspace"]["default-members"] == ["crates/tool"]
    assert root["workspace"]["package"]["version"] == "1.2.3"
    assert (out / "SOURCES").read_text() == "version 1.2.3\nsources 0123\n"
    low, high, tool = (tomllib.loads((out / f"crates/{name}/Cargo.toml").read_text()) for name in ("low", "high", "tool"))
    assert low["dependencies"] == {"rattle_std": {"path": "../../shim"}, "arrayvec": {"workspace": True}}
    assert high["dependencies"] == {"rattle_std": {"path": "../../shim", "features": ["host"]}, "low": {"path": "../low"}}
    assert tool["bin"] == [{"name": "tool", "path": "src/main.rs", "test": False}]
    library = (out / "crates/low/src/lib.rs").read_text()
    assert library.startswith("//! Low.\n\n#![no_std]\n#![forbid(unsafe_code)]\n")
    program = (out / "crates/tool/src/main.rs").read_text()
    assert program.startswith("#![no_std]\n#![cfg_attr(unix, no_main)]\n") and program.endswith("rattle_std::program!(rattle_main);\n")


def test_no_source_is_left_over(repository: pathlib.Path) -> None:
    """A second export takes files away that no source has any more, keeps the times of those that are the same, and what Cargo built."""
    export(repository)
    out = repository.parent / "out"
    (out / "target").mkdir()
    (out / "target/built").write_text("")
    before = (out / "crates/low/src/lib.rs").stat().st_mtime_ns
    (repository / "crates/low/src/inner.rt").rename(repository / "crates/low/src/other.rt")
    export(repository)
    assert not (out / "crates/low/src/inner.rs").exists() and (out / "crates/low/src/other.rs").exists()
    assert (out / "target/built").exists() and (out / "crates/low/src/lib.rs").stat().st_mtime_ns == before


def test_a_changed_source_is_noticed(repository: pathlib.Path) -> None:
    """The option --check compares each file, and writes nothing."""
    export(repository)
    assert export(repository, "--check").returncode == 0
    source = repository / "crates/low/src/inner.rt"
    source.write_text(source.read_text(encoding="utf-8").replace("    1\n", "    2\n"), encoding="utf-8")
    for _ in range(2):
        done = export(repository, "--check")
        assert done.returncode == 1 and "crates/low/src/inner.rs differs" in done.stderr


ERRORS = {
    "a form that is not known": (
        "crates/low/src/inner.rt", "fn f() {}\nunsafe fn g() {}\n", "crates/low/src/inner.rt:2: not known to the export: the word `unsafe`"
    ),
    "a library that nothing stands for": ("crates.txt", "low: regex\n", "low uses regex, and nothing stands for that library"),
    "a line that names no crate": ("crates.txt", "low\n", "crates.txt:1: `NAME: NAME ..` is due"),
    "a crate without sources": ("crates.txt", "lower:\n", "crates/lower/src has no source"),
}


@pytest.mark.parametrize("name", ERRORS)
def test_an_error_writes_nothing(repository: pathlib.Path, name: str) -> None:
    """The command ends with status 1, and names the file and the line."""
    file, text, message = ERRORS[name]
    (repository / file).write_text(text, encoding="utf-8")
    done = export(repository)
    assert done.returncode == 1 and message in done.stderr, done.stderr
    assert not (repository.parent / "out").exists()
