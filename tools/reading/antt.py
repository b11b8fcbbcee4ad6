"""Definitions of specs/: a file as its imports and items, and which names each item uses, by the scopes of its binders.

An item is a definition, a record, a data type or the head of a section (`module _ (..) where`). Every name is bound by the item
or by its section, of the file, imported, or built in; anything else is an error, so that no name is passed over.
"""
import dataclasses
import pathlib
import re
from collections.abc import Callable, Collection, Iterable
from typing import Any

BUILT_IN = set("→ × = : | ↦ ← _ Type let in record elim as where do tt Unit ⊥ absurd then else pub if at".split())
# Constructors of the standard library. In a pattern any other name that is no constructor of the repository is a variable.
STANDARD_CONSTRUCTORS = set("true false zero suc Some None Ok Err [] ◌∷◌ tt Less Equal Greater inl inr".split())
TOKEN = re.compile(r'"(?:\\.|[^"\\])*"|\[\]|[()\[\]{},;]|λ|[^\s()\[\]{},;λ"]+')
HEAD = re.compile(r"^(?:(?:pub|abbrev|unfoldable|opaque|ghost)\s+)*(record|data|module)\s+(?:pub\s+)?([^\s:({]+)")
SIGNATURE = re.compile(r"^(?:(?:pub|abbrev|unfoldable|opaque|ghost)\s+)*([^\s:({]+)\s+:(?:\s|$)")
PASSED = re.compile(r"^(?:(?:unfoldable |pub )*use|(?:pub )?mod|infix[lr]?)\b")


# A word, or what is in brackets with the bracket that opens it: (str, list of tokens).
Token = Any
Tokens = list[Token]
Bound = frozenset[str]


class ReadingError(Exception):
    """Something that the tool cannot read, with its place."""


def without_comment(line: str) -> str:
    return re.sub(r"(^|\s)--.*", r"\1", line)


def tree(text: str, place: str) -> Tokens:
    """The tokens of a text, each bracket with what is in it as one group: (bracket, [..])."""
    stack: list[tuple[str, Tokens]] = [("", [])]
    for token in TOKEN.findall(text):
        if token in ("(", "[", "{"):
            stack.append((token, []))
        elif token in (")", "]", "}"):
            if len(stack) == 1:
                raise ReadingError(f"{place}: a bracket closes nothing")
            group = stack.pop()
            stack[-1][1].append(group)
        else:
            stack[-1][1].append(token)
    if len(stack) > 1:
        raise ReadingError(f"{place}: a bracket is open")
    return stack[0][1]


def cut(tokens: Tokens, separators: Collection[str]) -> list[Tokens]:
    """The parts of a list of tokens between separators."""
    parts: list[Tokens] = [[]]
    for token in tokens:
        if isinstance(token, str) and token in separators:
            parts.append([])
        else:
            parts[-1].append(token)
    return parts


def binder(group: Token) -> tuple[list[str], Tokens] | None:
    """The names and the type of a group such as (x y : A), or None."""
    if not isinstance(group, tuple) or group[0] not in "({" or ":" not in group[1]:
        return None
    colon = group[1].index(":")
    names = group[1][:colon]
    return (names, group[1][colon + 1:]) if names and all(isinstance(name, str) for name in names) else None


@dataclasses.dataclass
class Item:
    """A definition with its comment and its text as they are in the file."""
    name: str
    kind: str
    line: int
    comment: list[str]
    text: list[str]
    section: "Item | None" = None

    def code(self) -> list[str]:
        """Its lines that are neither blank nor a comment."""
        return [line for line in self.text if without_comment(line).strip()]

    def statements(self) -> list[str]:
        """Each line at its own indentation with those below that are indented more."""
        found: list[list[str]] = []
        for line in self.code():
            if not found or indent_of(line) <= indent_of(self.text[0]) and line.strip()[0] not in ")]}":
                found.append([])
            found[-1].append(without_comment(line))
        return ["\n".join(lines) for lines in found]


def indent_of(line: str) -> int:
    return len(line) - len(line.lstrip())


def inner_indent(section: Item) -> int:
    """The indentation of a section's items. A head that goes on in a second line has its `where`, and its items, further in."""
    return indent_of(section.text[0]) + (4 if section.text[-1].strip() == "where" else 2)


def section_of(section: Item | None, line: str) -> Item | None:
    """The innermost section that a line is in, where the line before it was in this one."""
    while section is not None and indent_of(line) < inner_indent(section) and not (len(section.text) == 1 and indent_of(line) > indent_of(section.text[0])):
        section = section.section
    return section


class File:
    """One file of specs/: its first comment, its imports, and its items by name."""

    def __init__(self, path: pathlib.Path, module: str) -> None:
        self.path, self.module = path, module
        self.comment: list[str] = []
        self.imports: dict[str, tuple[str, str]] = {}
        self.given: dict[str, tuple[str, str]] = {}
        self.aliases: dict[str, str] = {}
        self.items: dict[str, Item] = {}
        self.constructors: dict[str, str] = {}
        self.read(path.read_text().splitlines())

    def read(self, lines: list[str]) -> None:
        """Takes up the lines: a blank one ends a comment, a comment is of the item below it, and other lines begin or go on with an item."""
        current: Item | None = None
        section: Item | None = None
        comment: list[str] = []
        for number, line in enumerate(lines, 1):
            stripped = line.strip()
            section = section_of(section, line) if stripped else section
            base = inner_indent(section) if section else 0
            inside = current is not None and indent_of(line) > base
            if not stripped:
                comment = []
            elif stripped.startswith("--"):
                (current.text if current is not None and inside else comment).append(line)
            elif indent_of(line) == base and PASSED.match(stripped):
                self.take_import(stripped)
                if comment and not self.items:
                    self.comment = self.comment or [one.strip()[2:].strip() for one in comment]
                current, comment = None, []
            else:
                found = None if inside else self.begun(stripped, number, comment)
                current = self.taken(current, found, [*([] if found else comment), line], section)
                section = found if found and found.kind == "section" else section
                comment = []

    def taken(self, current: Item | None, found: Item | None, lines: list[str], section: Item | None) -> Item:
        """The item that lines belong to: the one that they begin, or the current one."""
        if found:
            self.items[found.name] = found
            found.section = section
        item = found or current
        if item is None:
            raise ReadingError(f"{self.path}: {lines[-1].strip()} is of no item")
        item.text += lines
        constructor = re.match(r"^(?:pub\s+)?([^\s:({]+)\s+:", lines[-1].strip())
        if not found and item.kind == "data" and constructor:
            self.constructors[constructor[1]] = item.name
        return item

    @staticmethod
    def begun(stripped: str, number: int, comment: list[str]) -> Item | None:
        """The item that a line begins, if it begins one."""
        head = HEAD.match(stripped)
        if head and head[1] == "module":
            return Item(f"module@{number}", "section", number, list(comment), [])
        if head:
            return Item(head[2], head[1], number, list(comment), [])
        signature = SIGNATURE.match(stripped)
        return Item(signature[1], "definition", number, list(comment), []) if signature else None

    def take_import(self, line: str) -> None:
        given = not line.startswith("use ")
        if not re.match(r"^(?:unfoldable |pub )*use ", line):
            return
        path = re.sub(r"^(?:unfoldable |pub )*use ", "", line)
        named = re.match(r"^([\w.]+)\.\{(.*)\}$", path)
        if not named:
            whole, _, other = path.partition(" as ")
            self.aliases[other.strip() or whole.split(".")[-1]] = whole.strip()
        for one in named[2].split(",") if named else []:
            name, _, other = one.strip().partition(" as ")
            self.imports[(other or name).strip()] = (path.split(".{")[0], name.strip())
            if given:
                self.given[(other or name).strip()] = (path.split(".{")[0], name.strip())


class Scope:
    """Resolves the names of one item. `lookup` gives for a name what it stands for, or None; `found` collects that."""

    def __init__(self, lookup: Callable[..., Any], is_constructor: Callable[[str], bool], place: str) -> None:
        self.lookup, self.is_constructor, self.place = lookup, is_constructor, place
        self.found: list[Any] = []

    def name(self, token: str, bound: Bound) -> None:
        if token in BUILT_IN:
            if token == "if" and (stands := self.lookup("if◌then◌else◌")):
                self.found.append(stands)
            return
        if token.startswith((".", '"')) or re.match(r"^\d", token):
            return
        head, _, rest = token.partition(".")
        if head in bound:
            return
        stands = self.lookup(token) or self.lookup(f"◌{token}◌") or self.lookup(head, rest)
        if stands is None:
            raise ReadingError(f"{self.place}: what is {token}?")
        self.found.append(stands)

    def variables(self, pattern: Iterable[Token]) -> set[str]:
        """The names that a pattern binds."""
        names: set[str] = set()
        for token in pattern:
            if isinstance(token, tuple):
                names |= self.variables(token[1])
            elif re.match(r"^[^\W\d]", token) and token not in BUILT_IN and not self.is_constructor(token):
                names.add(token)
            elif token not in (",", "=", ";"):
                self.name(token, frozenset())
        for token in pattern:
            if isinstance(token, str) and self.is_constructor(token):
                self.name(token, frozenset())
        return names

    def terms(self, tokens: Tokens, bound: Bound) -> None:
        for part in cut(tokens, (",",)):
            self.term(part, bound)

    def term(self, tokens: Tokens, bound: Bound) -> None:
        place = 0
        while place < len(tokens):
            token = tokens[place]
            if token == "λ":
                place, bound = self.arguments(tokens, place + 1, bound)
                continue
            if token == "let":
                place, bound = self.local(tokens, place + 1, bound)
                continue
            if place + 1 < len(tokens) and tokens[place + 1] == "←":
                bound = bound | {token}
            elif isinstance(token, tuple):
                bound = self.group(token, bound)
            else:
                self.name(token, bound)
            place += 1

    def arguments(self, tokens: Tokens, place: int, bound: Bound) -> tuple[int, Bound]:
        """Past the arguments of a λ, up to the point after them."""
        pattern: Tokens = []
        while place < len(tokens):
            token = tokens[place]
            place += 1
            names = binder(token)
            if names:
                self.term(names[1], bound)
                pattern += names[0]
            elif isinstance(token, str) and token.endswith("."):
                pattern += [token[:-1]] if token != "." else []
                break
            else:
                pattern.append(token)
        return place, bound | self.variables(pattern)

    def local(self, tokens: Tokens, place: int, bound: Bound) -> tuple[int, Bound]:
        """Past `let x : A = e in`: e is in the scope outside."""
        depth, end = 1, place
        while depth:
            if end >= len(tokens):
                raise ReadingError(f"{self.place}: a let without in")
            depth += (tokens[end] == "let") - (tokens[end] == "in")
            end += 1
        part = tokens[place:end - 1]
        self.term([token for token in part[1:] if token not in (":",)], bound)
        return end, bound | {part[0]}

    def group(self, token: Token, bound: Bound) -> Bound:
        """What is in brackets; the scope after them has the names of a binder."""
        bracket, inner = token
        names = binder(token)
        if names and "=" not in inner:
            self.term(names[1], bound)
            return bound | set(names[0])
        if bracket == "{":
            for part in cut(inner, (";",)):
                # A field of a record, or an argument by its name.
                self.terms(part[2:] if len(part) > 1 and part[1] == "=" else part, bound)
        elif bracket == "[":
            for part in cut(inner, ("|",)):
                arrow = part.index("↦") if "↦" in part else 0
                self.terms(part[arrow + 1 if "↦" in part else 0:], bound | self.variables(part[:arrow]))
        else:
            self.terms(inner, bound)
        return bound

    def clause(self, tokens: Tokens, name: str, bound: Bound) -> None:
        """An equation: what its patterns bind holds on its right."""
        if "=" not in tokens:
            raise ReadingError(f"{self.place}: a line without =")
        equal = tokens.index("=")
        left = [token for place, token in enumerate(tokens[:equal]) if not (place == 0 and token == name) and f"◌{token}◌" != name]
        self.terms(tokens[equal + 1:], bound | self.variables(left))

    def item(self, item: Item) -> None:
        """All names of an item."""
        bound: Bound = frozenset()
        section = item.section
        while section:
            for group in tree(" ".join(map(without_comment, section.text)), self.place):
                names = binder(group)
                bound = bound | frozenset(names[0]) if names else bound
            section = section.section
        statements = [tree(text, self.place) for text in item.statements()]
        if item.kind == "section":
            self.term([token for token in statements[0] if isinstance(token, tuple)], bound)
        elif item.kind == "definition":
            first = statements[0]
            self.terms(first[first.index(":") + 1:], bound)
            for tokens in statements[1:]:
                if tokens[0] != "unfolding":
                    self.clause(tokens, item.name, bound)
        else:
            self.members(item, tree(" ".join(without_comment(line) for line in item.text), self.place), bound)

    def members(self, item: Item, tokens: Tokens, bound: Bound) -> None:
        """The head of a record or data type, and its fields or constructors."""
        where = tokens.index("where")
        head = tokens[tokens.index(item.name) + 1:where]
        for group in head:
            if isinstance(group, tuple):
                bound = self.group(group, bound)
        self.term([token for token in head if isinstance(token, str)], bound)
        started = False
        members: list[str] = []
        for line in item.code():
            plain = without_comment(line)
            if started and indent_of(line) == indent_of(item.text[0]) + 2 and line.strip()[0] not in ")]}":
                members.append(plain)
            elif started:
                members[-1] += " " + plain
            started = started or re.search(r"\bwhere\s*$", plain) is not None
        for text in members:
            tokens = [token for token in tree(text, self.place) if token != "pub"]
            self.terms(tokens[2:], bound)
            if item.kind == "record":
                bound = bound | {tokens[0]}
