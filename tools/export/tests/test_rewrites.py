"""The places that are written otherwise, and the forms that the export does not know: it guesses nothing."""

from __future__ import annotations

import pytest
from file_export import FileExport
from rewrites import Place
from tokens import UnknownForm

REWRITTEN = {
    "collect with the allocator": ("a.collect(alloc)?;\nb.collect();\n", "a.collect_in(alloc)?;\nb.collect();\n"),
    "a sort with the allocator": ("a.sort(alloc)?;\na.sort()?;\n", "a.sort_in(alloc)?;\na.sort()?;\n"),
    "a sort by a key": ("a.sort_by_key(alloc, f)?;\n", "a.sort_by_key_in(alloc, f)?;\n"),
    "concat": ("a.concat(alloc)?;\n", "a.concat_in(alloc)?;\n"),
    "assertions": ("assert!(rt; a);\nassert_eq!(rt; a, b);\n", "std::assert!(rt; a);\nstd::assert_eq!(rt; a, b);\n"),
    "a formatter": (
        "fn fmt<W: fmt::Write>(&self, f: &mut fmt::Formatter<W>) -> fmt::Result {}\n",
        "fn fmt(&self, f: &mut fmt::Formatter<'_>) -> fmt::Result {}\n",
    ),
    "a test": (
        "#[test]\nfn adds(rt: HostRuntime) -> Result<(), Fail> {}\n",
        "#[test]\nfn adds() { std::test::finish(adds_with(HostRuntime::host())) }\nfn adds_with(rt: HostRuntime) -> Result<(), Fail> {}\n",
    ),
    "a test without the runtime": (
        "#[test]\nfn adds() {}\n",
        "#[test]\nfn adds() { std::test::finish(adds_with()) }\nfn adds_with() {}\n",
    ),
    "a module in braces": ("mod tests {\n}\n", "mod tests {\n    use std::prelude::rattle::*;\n}\n"),
}


@pytest.mark.parametrize("name", REWRITTEN)
def test_what_is_rewritten(name: str) -> None:
    """Each rewrite, and what is like it and stays."""
    text, due = REWRITTEN[name]
    assert FileExport(text).run() == due


def test_main_of_a_program() -> None:
    """It takes the runtime, and C's main calls it. In a library the name says nothing."""
    text = "fn main(rt: HostRuntime) -> ExitCode {}\n"
    assert FileExport(text, Place(is_program=True)).run() == "fn rattle_main(rt: HostRuntime) -> ExitCode {}\n"
    assert FileExport(text).run() == text


def test_paths_where_crates_are_modules() -> None:
    """Each begins at the one crate. A module of its own crate that has another crate's name stays."""
    place = Place(module="a", modules=frozenset({"a", "b"}))
    text = "use crate::x::y;\nuse b::z;\nuse a::w;\nuse std::mem;\nfn f() { b::z(); x::b::z(); }\n"
    due = "use crate::a::x::y;\nuse crate::b::z;\nuse a::w;\nuse std::mem;\nfn f() { crate::b::z(); x::b::z(); }\n"
    assert FileExport(text, place).run() == due


UNKNOWN = {
    "macro_rules! m { () => {} }": (1, "macro_rules"),
    "fn a() {}\nasync fn f() {}": (2, "async"),
    "unsafe fn f() {}": (1, "unsafe"),
    "final fn f() {}": (1, "final"),
    "union U {}": (1, "union"),
    "fn f() {\n    prove!(a);\n}": (2, "prove"),
    "fn f() {\n    print!(rt; 1);\n}": (2, "print"),
    "impl Drop for A {}": (1, "Drop"),
    "fn f() {}\n/* a */": (2, "block comment"),
    "#[repr(C)]\n#[no_mangle]\nfn f() {}": (2, "no_mangle"),
    "#![no_std]\n": (1, "no_std"),
    "#[inline": (1, "does not end"),
    "fn f()\n    requires (a)\n{}": (2, "brace"),
    "fn f()\n    requires a\n{}": (3, "empty"),
    "fn f()\n    ensures { }\n{}": (2, "empty"),
    "fn f()\n    ensures { a\n": (2, "does not end"),
    "fn f() requires { a }\n{}": (1, "one line"),
    "struct A {\n    ghost a: { b }\n}": (3, "due"),
    "struct A {\n    ghost 1: { b },\n}": (2, "ghost"),
    "ghost use A": (1, "';'"),
    "impl Model for A {\n    fn f() {}\n}": (2, "due"),
    "impl Model for A": (1, "without a block"),
    "use std::thread::spawn;": (1, "std::thread"),
    "#[test]\nfn f(a: u8) {}": (2, "test"),
    "fn f() {\n    let x = `;\n}": (2, "character"),
    'fn f() {\n    let x = r#"a";\n}': (2, "follows"),
    "fn f() {\n    g((1..).take(3));\n}": (2, "range"),
    "fn f() {\n    for i in n.. {\n    }\n}": (2, "range"),
    "fn f() {\n    let r = (a)..;\n}": (2, "range"),
}


@pytest.mark.parametrize("text", UNKNOWN)
def test_all_else_is_an_error(text: str) -> None:
    """At its line, in words that name it."""
    line, word = UNKNOWN[text]
    export = FileExport(text)
    with pytest.raises(UnknownForm, match=word) as error:
        export.run()
    assert export.source.line(error.value.at) == line
