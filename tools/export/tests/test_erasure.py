"""Each ghost form that the sources use is erased, and code stays as it is, token by token."""

from __future__ import annotations

import pytest
from file_export import FileExport, with_prelude


def exported(text: str) -> str:
    """The text as Rust."""
    return FileExport(text).run()


ERASED = {
    "an import of definitions": ("ghost use Rattle.std.specs.Prelude.{◌≡◌, length};\n\nfn f() {}\n", "fn f() {}\n"),
    "an import with a word of its own": ("ghost use Rattle.a.specs.B as spec;\nfn f() {}\n", "fn f() {}\n"),
    "a tactic": ("#[tactic(auto, using(a::b))]\nfn f() {}\n", "fn f() {}\n"),
    "a tactic of the file": ("#![tactic(auto)]\n\nfn f() {}\n", "fn f() {}\n"),
    "a cycle": ("#[cycle(name)]\nfn f() {}\n", "fn f() {}\n"),
    "the import of Model": ("use std::marker::Model;\nuse a::B;\n", "use a::B;\n"),
    "Drop alone in a derive": ("#[derive(Drop)]\nstruct A;\n", "struct A;\n"),
    "Drop among others in a derive": ("#[derive(Clone, Drop, Debug)]\nstruct A;\n", "#[derive(Clone, Debug)]\nstruct A;\n"),
    "a ghost field": (
        "struct A {\n    n: u8,\n    ghost small: { n < 2 },\n}\n",
        "struct A {\n    n: u8,\n    // ghost small: { n < 2 },\n}\n",
    ),
    "a ghost field with its proof": (
        "struct A {\n    ghost small: { n < 2 } by { auto },\n}\n",
        "struct A {\n    // ghost small: { n < 2 } by { auto },\n}\n",
    ),
    "a ghost member of a trait": (
        "trait T {\n    pub ghost length: { Self → ℕ };\n    fn f();\n}\n",
        "trait T {\n    // pub ghost length: { Self → ℕ };\n    fn f();\n}\n",
    ),
    "a ghost member with a type and a value": (
        "trait T {\n    ghost one: { ℕ } = { 1 };\n    fn f();\n}\n",
        "trait T {\n    // ghost one: { ℕ } = { 1 };\n    fn f();\n}\n",
    ),
    "a model": (
        "impl<'a, T: B> Model for P<'a, T> {\n    ghost use A.{b};\n\n    ghost Value = { ℕ };\n    ghost invariant = { λ p. p < 2 };\n}\n",
        "// impl<'a, T: B> Model for P<'a, T> {\n//     ghost use A.{b};\n//\n//     ghost Value = { ℕ };\n//     ghost invariant = { λ p. p < 2 };\n// }\n",
    ),
    "a clause of a closure": (
        "fn f() {\n    let g = |x: u8| -> u8\n        ensures { result ≡ x }\n    {\n        x\n    };\n}\n",
        "fn f() {\n    let g = |x: u8| -> u8\n        // ensures { result ≡ x }\n    {\n        x\n    };\n}\n",
    ),
}


@pytest.mark.parametrize("name", ERASED)
def test_ghost_text_is_erased(name: str) -> None:
    """Nothing of it is left in code."""
    text, due = ERASED[name]
    assert exported(text) == due


CONTRACTS = {
    "a function": (
        "/// Adds.\npub fn add(a: u8) -> u8\n    requires { a < 255 }\n    ensures more { result ≡ a + 1 }\n{\n    a + 1\n}\n",
        "/// Adds.\n///\n/// # Contract\n///\n/// ```text\n/// requires { a < 255 }\n/// ensures more { result ≡ a + 1 }\n/// ```\n"
        "pub fn add(a: u8) -> u8\n{\n    a + 1\n}\n",
    ),
    "one without a comment": (
        "fn one() -> u8\n    ensures* { result ≡ 1 }\n{\n    1\n}\n",
        "/// # Contract\n///\n/// ```text\n/// ensures* { result ≡ 1 }\n/// ```\nfn one() -> u8\n{\n    1\n}\n",
    ),
    "one with an attribute": (
        "/// One.\n#[inline]\nfn one() -> u8\n    ensures { result ≡ 1 }\n{\n    1\n}\n",
        "/// One.\n#[inline]\n///\n/// # Contract\n///\n/// ```text\n/// ensures { result ≡ 1 }\n/// ```\nfn one() -> u8\n{\n    1\n}\n",
    ),
    "the last clause of a trait's method": (
        "trait T {\n    fn f(&self)\n        ensures { a };\n    fn g(&self);\n}\n",
        "trait T {\n    /// # Contract\n    ///\n    /// ```text\n    /// ensures { a }\n    /// ```\n    fn f(&self);\n    fn g(&self);\n}\n",
    ),
    "a clause of several lines": (
        "fn f()\n    ensures long {\n        a\n          b\n    }\n{\n}\n",
        "/// # Contract\n///\n/// ```text\n/// ensures long {\n///         a\n///           b\n///     }\n/// ```\nfn f()\n{\n}\n",
    ),
}


@pytest.mark.parametrize("name", CONTRACTS)
def test_contracts_become_documentation(name: str) -> None:
    """A reader of Rust finds them where the documentation of a function is."""
    text, due = CONTRACTS[name]
    assert exported(text) == due


CODE = [
    'fn f() {\n    // requires { a\n    let s = r#"ghost "requires {"#;\n    let t = "ensures { \\" {";\n}\n',
    "fn f<'a>(x: &'a [u8]) -> (char, u8) {\n    ('\\'', b'{' + 0x1f_u8)\n}\n",
    "fn f() {\n    self.final(); a.unsafe; let x = S { prove: 1 };\n}\n",
    "fn f(x: [u8; 3]) -> u8 {\n    for i in 0..3 {\n        let [a, ..] = x;\n    }\n    x[1..].len()\n}\n",
    "const A: &[u8] = b\"\\\"{\";\nconst B: f64 = 1.5e3;\n",
]


@pytest.mark.parametrize("text", CODE)
def test_code_stays(text: str) -> None:
    """Texts, comments, lifetimes and ranges are copied, whatever they have in them."""
    assert exported(text) == text


def test_braces_in_texts_and_comments_of_a_clause() -> None:
    """They do not end it."""
    text = "fn f() -> u8\n    ensures one { s \"}\" -- } no\n      '{' x }\n{\n    1\n}\n"
    assert exported(text).endswith("```\nfn f() -> u8\n{\n    1\n}\n")


def test_what_is_erased_is_counted() -> None:
    """By the name of each form."""
    export = FileExport("ghost use A.{b};\nfn f()\n    ensures { a }\n    ensures { b }\n{}\n")
    export.run()
    assert export.counts == {"ghost use": 1, "clause": 2}


@pytest.mark.parametrize(
    ("text", "due"),
    [
        ("//! A file.\n\nfn f() {}\n", "//! A file.\n\nLEAD;\nuse std::prelude::rattle::*;\nfn f() {}\n"),
        ("fn f() {}\n", "LEAD;\nuse std::prelude::rattle::*;\nfn f() {}\n"),
    ],
)
def test_the_prelude_follows_the_head(text: str, due: str) -> None:
    """The documentation of a file stays at its head."""
    assert with_prelude(text, "LEAD;\n") == due
