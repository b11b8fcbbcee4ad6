"""One file of proved source as Rust: ghost text erased or kept as comments, and all else copied token by token."""

from __future__ import annotations

import collections
import enum
import re

import ghost
from rewrites import PRELUDE, Around, Place, begins_item, rewritten
from tokens import Kind, Source, Token, UnknownForm, expected, found

ATTRIBUTES = {"derive", "default", "inline", "cfg", "test", "must_use", "repr", "allow", "cold", "non_exhaustive"}
GHOST_ATTRIBUTES = {"tactic", "cycle"}
# What the shim has of the toolchain's standard library.
MODULES = {"alloc", "cmp", "collections", "convert", "env", "fmt", "hash", "io", "iter", "marker", "mem", "num", "ops", "process", "test"}
LIBRARY = re.compile(r"use std::(\w+)")
MODEL_IMPORT = "use std::marker::Model;"
HEAD = re.compile(r"(?:(?://!.*)?\n)*")


class Leaves(enum.Enum):
    """What erased text leaves: a part of the item's documentation, a comment, or nothing."""

    DOCUMENTATION = enum.auto()
    COMMENT = enum.auto()
    NOTHING = enum.auto()


class FileExport:
    """The export of one file. `run` gives its text, and `counts` what was erased and rewritten."""

    def __init__(self, text: str, place: Place = Place()) -> None:
        self.source = Source(text)
        self.place = place
        self.counts: collections.Counter[str] = collections.Counter()
        self._at = 0
        self._out: list[str] = []
        # The tokens so far that are neither blank nor ghost; and where in `_out` the item or statement that is read begins, and its word.
        self._before: list[Token] = []
        self._item = (0, "")
        self._contracts: dict[int, list[str]] = {}

    def run(self) -> str:
        """The file as Rust. UnknownForm says what the export does not know, and where."""
        while (token := self.source.token(self._at)).kind is not Kind.END:
            if token.is_blank:
                self._copy(token.text, token.end)
            elif not (self._attribute(token) or self._clause(token) or self._member(token) or self._model(token) or self._import(token)):
                self._rewrite(token)
        self._write_contracts()
        return "".join(self._out)

    # copying

    def _copy(self, text: str, end: int) -> None:
        self._out.append(text)
        self._at = end

    def _rewrite(self, token: Token) -> None:
        if begins_item(self._before) and not (self._before and self._before[-1].text in (")", "pub")):
            self._item = (len(self._out), token.text)
        new = rewritten(Around(self.source, self.place, self._before), token)
        if new.name:
            self.counts[new.name] += 1
        self._copy(new.text, new.end)
        self._before.append(new.last)

    # erasing

    def _line(self) -> str:
        """What is written so far of the line."""
        parts: list[str] = []
        for text in reversed(self._out):
            parts.append(text.rpartition("\n")[2])
            if "\n" in text:
                break
        return "".join(reversed(parts))

    def _erase(self, end: int, name: str, leaves: Leaves) -> None:
        """Erases all from here to `end`, which is counted by that name."""
        self.counts[name] += 1
        indentation = self._line()
        if indentation.strip():
            raise UnknownForm(f"ghost text after code on one line: `{indentation.strip()}`", self._at)
        text = self.source.text[self._at:end]
        self._at = end
        if leaves is Leaves.COMMENT:
            self._comment(text, indentation)
            return
        if leaves is Leaves.DOCUMENTATION:
            self._contracts.setdefault(self._item[0], []).append(text.rstrip(";"))
        self._end_line()

    def _comment(self, text: str, indentation: str) -> None:
        first, *more = text.split("\n")
        self._out.append("// " + first)
        for line in more:
            blanks = min(len(line) - len(line.lstrip(" ")), len(indentation))
            self._out.append(f"\n{indentation[:blanks] if line.strip() else indentation}// {line[blanks:]}".rstrip(" "))
        if self.source.text[self._at:].partition("\n")[0].strip():
            self._out.append("\n" + indentation)

    def _end_line(self) -> None:
        """Takes away the line of erased text, with one of two empty lines around it."""
        text = self.source.text
        if text[self._at:self._at + 1] != "\n":
            return
        while self._out and not self._out[-1].strip(" "):
            self._out.pop()
        if self._out and self._out[-1].isspace():
            self._out[-1] = self._out[-1].rstrip(" ")
        self._at += 1
        if (not self._out or "".join(self._out[-2:]).endswith("\n\n")) and text[self._at:self._at + 1] == "\n":
            self._at += 1

    # ghost text

    def _clause(self, token: Token) -> bool:
        if token.kind is not Kind.WORD or token.text not in ("requires", "ensures"):
            return False
        end = ghost.clause_end(self.source, token)
        semicolon = self.source.next(end)
        if semicolon.text == ";":
            # The one after the last clause of a trait's method ends its signature.
            self._end_signature()
            self._before.append(semicolon)
            end = semicolon.end
        documents = self._item[1] in ("pub", "fn", "const")
        self._erase(end, "clause", Leaves.DOCUMENTATION if documents else Leaves.COMMENT)
        return True

    def _end_signature(self) -> None:
        place = len(self._out)
        while place and (self._out[place - 1].isspace() or self._out[place - 1].lstrip().startswith("//")):
            place -= 1
        self._out.insert(place, ";")

    def _member(self, token: Token) -> bool:
        word = self.source.after(token) if token.text == "pub" else token
        if word.text != "ghost" or word.kind is not Kind.WORD:
            return False
        imports = ghost.is_use(self.source, word)
        self._erase(ghost.member_end(self.source, word), "ghost use" if imports else "ghost member", Leaves.NOTHING if imports else Leaves.COMMENT)
        return True

    def _model(self, token: Token) -> bool:
        if token.text != "impl" or not begins_item(self._before):
            return False
        end = ghost.model_end(self.source, token)
        if end is not None:
            self._erase(end, "impl Model", Leaves.COMMENT)
        return end is not None

    def _import(self, token: Token) -> bool:
        if token.text != "use" or not begins_item(self._before):
            return False
        end = found(self.source.text, ";", token.at) + 1
        item = self.source.text[token.at:end]
        if item == MODEL_IMPORT:
            self._erase(end, "use Model", Leaves.NOTHING)
            return True
        library = LIBRARY.match(item)
        if library and library[1] not in MODULES:
            raise UnknownForm(f"`{item}`: the shim has no such module", token.at)
        return False

    # attributes

    def _attribute(self, token: Token) -> bool:
        """An attribute: ghost, known, or an error. `Drop` leaves a derive, since each type of Rust's may be dropped."""
        if token.text != "#":
            return False
        inner = self.source.after(token)
        bracket = expected(self.source.after(inner) if inner.text == "!" else inner, "[")
        name, end = self.source.after(bracket).text, self._bracket_end(bracket)
        text = self.source.text[token.at:end]
        if name in GHOST_ATTRIBUTES:
            self._erase(end, name, Leaves.NOTHING)
            return True
        if name not in ATTRIBUTES or inner.text == "!":
            raise UnknownForm(f"the attribute `{text}`", token.at)
        if name == "derive" and not (text := self._derive(text)):
            self._erase(end, "derive", Leaves.NOTHING)
            return True
        self._copy(text, end)
        self._before.append(Token(Kind.ATTRIBUTE, text, token.at))
        return True

    def _bracket_end(self, bracket: Token) -> int:
        depth, token = 1, bracket
        while depth:
            token = self.source.after(token)
            if token.kind is Kind.END:
                raise UnknownForm("an attribute does not end", bracket.at)
            depth += (token.text == "[") - (token.text == "]")
        return token.end

    def _derive(self, text: str) -> str:
        names = [name.strip() for name in text[text.index("(") + 1:text.rindex(")")].split(",")]
        kept = [name for name in names if name and name != "Drop"]
        if "Drop" not in names:
            return text
        self.counts["derive Drop"] += 1
        return f"#[derive({', '.join(kept)})]" if kept else ""

    # documentation

    def _write_contracts(self) -> None:
        for at, clauses in sorted(self._contracts.items(), reverse=True):
            indentation = self._out[at - 1].rpartition("\n")[2] if at else ""
            text = [line for clause in clauses for line in unindented(clause)]
            lines = [*([""] if self._is_documented(at) else []), "# Contract", "", "```text", *text, "```"]
            self._out.insert(at, "".join(f"/// {line}".rstrip() + "\n" + indentation for line in lines))

    def _is_documented(self, at: int) -> bool:
        """Whether a comment of documentation is before the item that begins there, or before its attributes."""
        for text in reversed(self._out[:at]):
            if text.strip() and not text.startswith("#["):
                return text.startswith("///")
        return False


def unindented(clause: str) -> list[str]:
    """The lines of a clause: those after the first begin with four blanks, and what they have more of them than the least of them."""
    first, *more = clause.split("\n")
    least = min((len(line) - len(line.lstrip()) for line in more if line.strip()), default=0)
    return [first] + ["    " + line[least:] for line in more]


def with_prelude(text: str, lead: str = "") -> str:
    """The file with the shim's prelude, and what else is to lead it, after the documentation at its head."""
    match = HEAD.match(text)
    head = match[0] if match else ""
    return head.rstrip("\n") + "\n\n" * bool(head.strip()) + lead + PRELUDE + "\n" + text[len(head):]
