"""The few places outside of ghost text where Rattle and Rust differ: what is copied otherwise, and what the export does not know.

A rewrite is a function of a token and what is around it, which gives what stands for it, or None. The rewritten names are those
of the shim (shim/src): its methods that allocate end in `_in`, and its macros take the runtime.
"""

from __future__ import annotations

import dataclasses
import re
from collections.abc import Callable, Sequence

from tokens import Kind, Source, Token, UnknownForm

MACROS = {"write", "matches", "unreachable", "vec", "format", "assert", "assert_eq", "assert_ne"}
ASSERTIONS = {"assert", "assert_eq", "assert_ne"}
# Rust's own types have methods of these names too, which take no allocator and end the process where memory runs out.
ALLOCATING = {"collect", "concat", "sort", "sort_by_key"}
UNKNOWN_WORDS = {"macro_rules", "async", "union", "unsafe", "final", "prove", "prove_eq", "prove_ne", "invariant", "decreases"}
FORMATTER = "fn fmt<W: fmt::Write>(&self, f: &mut fmt::Formatter<W>)"
RUST_FORMATTER = "fn fmt(&self, f: &mut fmt::Formatter<'_>)"
MAIN = re.compile(r"fn main(?=\()")
TEST = re.compile(r"fn (\w+)\((\w+: HostRuntime)?\)")
# Each module sees the shim's prelude, as each module of the toolchain's sees its own.
PRELUDE = "use std::prelude::rattle::*;"


@dataclasses.dataclass(frozen=True, slots=True)
class Place:
    """Where a file comes to: in a program, whose `main` takes the runtime; or, where all crates become modules of one, in that of
    this name, beside the others."""

    is_program: bool = False
    module: str | None = None
    modules: frozenset[str] = frozenset()


@dataclasses.dataclass(frozen=True, slots=True)
class Around:
    """What is around a token: its source, its place, and the tokens before it, without blanks and ghost text."""

    source: Source
    place: Place
    before: Sequence[Token]

    def last(self, back: int = 1) -> str:
        """The text of the token so far back, or none."""
        return self.before[-back].text if len(self.before) >= back else ""


@dataclasses.dataclass(frozen=True, slots=True)
class Rewritten:
    """What stands for a token and those after it, up to a place; and the name of the rewrite, which is counted."""

    name: str
    text: str
    end: int
    last: Token


def begins_item(before: Sequence[Token]) -> bool:
    """Whether an item, a statement or the rest of one after `pub` begins behind these."""
    return not before or before[-1].text in ("{", "}", ";", ")", "pub") or before[-1].kind is Kind.ATTRIBUTE


def is_test(before: Sequence[Token]) -> bool:
    """Whether the attributes at the end of these have `test`."""
    for token in reversed(before):
        if token.kind is not Kind.ATTRIBUTE:
            return False
        if token.text == "#[test]":
            return True
    return False


def formatter(around: Around, token: Token) -> Rewritten | None:
    """Rust's `fmt` has no type parameter."""
    if not around.source.text.startswith(FORMATTER, token.at):
        return None
    end = token.at + len(FORMATTER)
    return Rewritten("fmt", RUST_FORMATTER, end, Token(Kind.PUNCTUATION, ")", end - 1))


def main_function(around: Around, token: Token) -> Rewritten | None:
    """A program's `main` takes the runtime: the shim's `program!` calls it."""
    match = MAIN.match(around.source.text, token.at) if around.place.is_program else None
    if match is None:
        return None
    return Rewritten("main", "fn rattle_main", match.end(), Token(Kind.WORD, "main", match.end() - 4))


def test_function(around: Around, token: Token) -> Rewritten | None:
    """A test may take the runtime: it is called by one that takes nothing."""
    if token.text != "fn" or not is_test(around.before):
        return None
    match = TEST.match(around.source.text, token.at)
    if match is None:
        raise UnknownForm(f"the test `{around.source.text[token.at:].partition(chr(10))[0].strip()}`", token.at)
    name, runtime = match.groups()
    call = f"{name}_with({'HostRuntime::host()' if runtime else ''})"
    text = f"fn {name}() {{ std::test::finish({call}) }}\nfn {name}_with({runtime or ''})"
    return Rewritten("test", text, match.end(), Token(Kind.PUNCTUATION, ")", match.end() - 1))


def allocating_method(around: Around, token: Token) -> Rewritten | None:
    """A method that takes the allocator has its own name in the shim."""
    opening = around.source.after(token)
    if token.text not in ALLOCATING or around.last() != "." or opening.text != "(" or around.source.after(opening).text != "alloc":
        return None
    return Rewritten(f"{token.text}(alloc)", token.text + "_in", token.end, token)


def is_macro(around: Around, token: Token) -> bool:
    """Whether a macro is called here."""
    sign = around.source.after(token)
    return token.kind is Kind.WORD and sign.text == "!" and sign.at == token.end and around.source.after(sign).text in ("(", "[", "{")


def assertion(around: Around, token: Token) -> Rewritten | None:
    """An assertion takes the runtime, as the shim's does."""
    if token.text not in ASSERTIONS or not is_macro(around, token):
        return None
    return Rewritten("assert!(rt)", "std::" + token.text, token.end, token)


def path(around: Around, token: Token) -> Rewritten | None:
    """Where crates are modules of one crate, paths begin at that crate. In its own crate the name of a crate is a module's."""
    own, others = around.place.module, around.place.modules
    if own is None or not around.source.text.startswith("::", token.end) or around.last(2) + around.last() == "::":
        return None
    if token.text == "crate":
        return Rewritten("path", f"crate::{own}", token.end, token)
    if token.text in others and token.text != own:
        return Rewritten("path", f"crate::{token.text}", token.end, token)
    return None


def module(around: Around, token: Token) -> Rewritten | None:
    """A module in braces sees the shim's prelude."""
    if token.text != "{" or around.last(2) != "mod":
        return None
    return Rewritten("module", "{\n    " + PRELUDE, token.end, token)


REWRITES: list[Callable[[Around, Token], Rewritten | None]] = [
    formatter, main_function, test_function, allocating_method, assertion, path, module
]


def check(around: Around, token: Token) -> None:
    """An error where the token begins a form that the export does not know, or that means something else in Rust."""
    source = around.source
    following = source.after(token)
    if token.text in UNKNOWN_WORDS and following.text != ":" and around.last() != ".":
        raise UnknownForm(f"the word `{token.text}`", token.at)
    if token.text not in MACROS and is_macro(around, token):
        raise UnknownForm(f"the macro `{token.text}!`", token.at)
    if token.text == "Drop" and around.last() == "impl":
        raise UnknownForm("an `impl Drop`, which Rust calls by a reference", token.at)
    dots = token.text == "." and source.token(token.end).text == "."
    if dots and source.next(token.end + 1).text in (")", ";", "{") and (around.last() in (")", "]") or ends_value(around.before)):
        raise UnknownForm("a range without an end, which Rust lets overflow", token.at)


def ends_value(before: Sequence[Token]) -> bool:
    """Whether the last token may end a value."""
    return bool(before) and before[-1].kind in (Kind.WORD, Kind.NUMBER)


def rewritten(around: Around, token: Token) -> Rewritten:
    """What stands for the token: itself, unless a rewrite has something else."""
    check(around, token)
    for rewrite in REWRITES:
        if found := rewrite(around, token):
            return found
    return Rewritten("", token.text, token.end, token)
