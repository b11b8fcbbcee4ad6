"""The tokens of a source in Rust's grammar, with their places: what the proved sources use of it, and an error for all else."""

from __future__ import annotations

import enum
import re
from typing import NamedTuple


class UnknownForm(Exception):
    """A form that the export does not know, at a place of the text: it guesses nothing."""

    def __init__(self, message: str, at: int) -> None:
        super().__init__(message)
        self.at = at


class Kind(enum.Enum):
    """What a token is. ATTRIBUTE stands for a whole attribute that was copied; the tokenizer gives none."""

    WORD = enum.auto()
    NUMBER = enum.auto()
    TEXT = enum.auto()
    CHARACTER = enum.auto()
    LIFETIME = enum.auto()
    PUNCTUATION = enum.auto()
    COMMENT = enum.auto()
    SPACE = enum.auto()
    END = enum.auto()
    ATTRIBUTE = enum.auto()


class Token(NamedTuple):
    """A token, its text, and where it begins."""

    kind: Kind
    text: str
    at: int

    @property
    def end(self) -> int:
        """The place after it."""
        return self.at + len(self.text)

    @property
    def is_blank(self) -> bool:
        """Whether it is a space or a comment."""
        return self.kind in (Kind.SPACE, Kind.COMMENT)


# In the order in which they are tried.
FORMS = {
    Kind.SPACE: r"\s+",
    Kind.COMMENT: r"//[^\n]*",
    Kind.TEXT: r'(?:b|c)?"(?:[^"\\]|\\[\s\S])*"',
    Kind.CHARACTER: r"b?'(?:[^'\\\n]|\\(?:u\{[0-9a-fA-F_]+\}|x[0-9a-fA-F]{2}|.))'",
    Kind.LIFETIME: r"'[^\W\d]\w*",
    Kind.WORD: r"[^\W\d]\w*",
    Kind.NUMBER: r"\d(?:\w|\.(?=\d))*",
    Kind.PUNCTUATION: r"[{}()\[\]<>.,;:=+\-*/%^!&|@#?$~]",
}
FORM = re.compile("|".join(f"(?P<{kind.name}>{form})" for kind, form in FORMS.items()))
RAW_TEXT = re.compile(r'(?:b|c)?r(#*)"')


def found(text: str, wanted: str, at: int) -> int:
    """Where `wanted` begins next."""
    place = text.find(wanted, at)
    if place < 0:
        raise UnknownForm(f"no {wanted!r} follows", at)
    return place


def token_at(text: str, at: int) -> Token:
    """The token that begins here."""
    if at >= len(text):
        return Token(Kind.END, "", at)
    if text.startswith("/*", at):
        raise UnknownForm("a block comment", at)
    if raw := RAW_TEXT.match(text, at):
        closing = '"' + raw[1]
        return Token(Kind.TEXT, text[at:found(text, closing, raw.end()) + len(closing)], at)
    match = FORM.match(text, at)
    if match is None or match.lastgroup is None:
        raise UnknownForm(f"the character {text[at]!r}", at)
    return Token(Kind[match.lastgroup], match[0], at)


class Source:
    """The text of a file, read token by token, each once."""

    def __init__(self, text: str) -> None:
        self.text = text
        self._tokens: dict[int, Token] = {}

    def token(self, at: int) -> Token:
        """The token that begins here, spaces and comments included."""
        if at not in self._tokens:
            self._tokens[at] = token_at(self.text, at)
        return self._tokens[at]

    def next(self, at: int) -> Token:
        """The first token from here on that is neither space nor comment."""
        while (token := self.token(at)).is_blank:
            at = token.end
        return token

    def after(self, token: Token) -> Token:
        """The next token that is neither space nor comment."""
        return self.next(token.end)

    def line(self, at: int) -> int:
        """The number of the line of a place, from 1."""
        return self.text.count("\n", 0, at) + 1


def expected(token: Token, *texts: str) -> Token:
    """The token, which has to be one of these."""
    if token.text not in texts:
        raise UnknownForm(f"{' or '.join(texts)} is due, not {token.text!r}", token.at)
    return token
