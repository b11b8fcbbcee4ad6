"""Types, constants and traits of .rt files, as definitions name them by `specs.declared`, and the contracts of functions."""
import dataclasses
import pathlib
import re
from collections.abc import Iterator

from antt import Item, ReadingError

# Names of Rust's own that an item may have.
RUST_NAMES = set("""Vec String Option Result Box Some None Ok Err Self Global Drop Clone Copy Debug PartialEq Eq PartialOrd Ord Default Hash
VecDeque BTreeMap Allocator AllocError""".split())
KINDS = r"(struct|enum|const|trait|type)"


def closing(text: str, start: int, pair: str = "{}") -> int:
    """The place after the bracket that closes the one at start."""
    depth = 0
    for place in range(start, len(text)):
        depth += (text[place] == pair[0]) - (text[place] == pair[1])
        if depth == 0:
            return place + 1
    raise ReadingError("a bracket is open")


def without_comments(text: str) -> str:
    """The text with its comments left blank, of the same length."""
    return re.sub(r"//[^\n]*", lambda found: " " * len(found[0]), text)


def uses(text: str, prefix: str) -> dict[str, str]:
    """The imports by `use`, or by `ghost use`: for each name its path."""
    found: dict[str, str] = {}
    for path in re.findall(rf"^\s*(?:pub(?:\([^)]*\))? )?{prefix}use ([^;]+);", text, re.M):
        found.update(unfolded(" ".join(path.split())))
    return found


def unfolded(path: str) -> Iterator[tuple[str, str]]:
    """A path with braces as each name with its whole path."""
    braces = path.find("{")
    if braces < 0:
        whole, _, other = path.partition(" as ")
        yield other or re.split(r"::|\.", whole)[-1], whole
        return
    depth, part = 0, ""
    for letter in path[braces + 1:path.rindex("}")] + ",":
        depth += (letter == "{") - (letter == "}")
        if letter == "," and depth == 0:
            if part.strip():
                yield from unfolded(path[:braces] + part.strip())
            part = ""
        else:
            part += letter


@dataclasses.dataclass
class Source:
    """A .rt file."""
    path: pathlib.Path
    crate: str
    modules: tuple[str, ...]

    def __post_init__(self) -> None:
        self.text = self.path.read_text()
        self.plain = without_comments(self.text)
        self.uses = uses(self.plain, "")
        self.ghosts = uses(self.plain, "ghost ")
        self.parts = set(re.findall(r"^(?:pub(?:\([^)]*\))? )?mod (\w+);", self.plain, re.M))

    def item(self, name: str) -> Item | None:
        """The item of this name, as its comment and its text: of a type with a Model the value that definitions see."""
        found = re.search(rf"^(?:pub(?:\([^)]*\))? )?{KINDS} {name}\b", self.plain, re.M)
        if not found:
            return None
        number = self.text.count("\n", 0, found.start()) + 1
        comment = self.comment_above(found.start())
        model = re.search(rf"^impl(?:<[^>]*>)? Model for {name}\b[^{{]*\{{", self.plain, re.M)
        value = model and re.search(r"ghost Value = \{", self.plain[model.end():])
        if model and value:
            start = model.end() + value.end() - 1
            end = closing(self.plain, start)
            text = [f"{found[0]}:", f"    Value = {' '.join(self.plain[start:end].split())}"]
            return Item(name, "model", number, comment, text)
        return Item(name, found[1], number, comment, self.whole(found.start()))

    def comment_above(self, start: int) -> list[str]:
        """The doc comment of the item that begins there."""
        comment: list[str] = []
        for line in reversed(self.text[:start].splitlines()):
            if line.startswith("///"):
                comment.insert(0, line)
            elif not line.startswith("#["):
                break
        return comment

    def whole(self, start: int) -> list[str]:
        """The lines of an item from its first to its closing bracket or semicolon."""
        end = place_of(r"[;{]", self.plain, start)
        end = closing(self.plain, end) if self.plain[end] == "{" else end + 1
        return self.text[start:end].splitlines()

    def contract(self, function: str) -> Item:
        """A function before its body, with its comment: parameters, result and clauses."""
        found = re.search(rf"^pub fn {function}\b", self.plain, re.M)
        if not found:
            raise ReadingError(f"{self.path}: no function {function}")
        end = place_of(r"(?m)^\{", self.plain, found.start())
        number = self.text.count("\n", 0, found.start()) + 1
        return Item(function, "function", number, self.comment_above(found.start()), self.text[found.start():end].rstrip().splitlines())


def place_of(pattern: str, text: str, start: int) -> int:
    """Where a pattern is first found from a place on."""
    found = re.compile(pattern).search(text, start)
    if not found:
        raise ReadingError(f"there is no {pattern}")
    return found.start()


def clauses(contract: Item) -> dict[str, tuple[list[str], str]]:
    """The clauses of a contract by their names, `` for one without a name: the lines of each, and the term in it."""
    found = {}
    text = "\n".join(contract.text)
    for clause in re.finditer(r"^ *ensures\b(?:\s+(\w+))?\s*\{", without_comments(text), re.M):
        end = closing(text, clause.end() - 1)
        found[clause[1] or ""] = (text[clause.start():end].splitlines(), text[clause.end():end - 1])
    return found


def terms(text: str) -> Iterator[str]:
    """The terms of ghost members and clauses in an item, such as a trait: what is in the braces after them."""
    for start in re.finditer(r"\b(?:ensures|requires)\b(?:\s+\w+)?\s*\{|\bghost \w+\s*[:=]\s*\{|\bValue = \{", text):
        yield text[start.end():closing(text, start.end() - 1) - 1]


def type_names(item: Item) -> set[str]:
    """The names of types and constants in an item of Rust, those of its variants and of its generics aside."""
    if item.kind == "model":
        return set()
    text = without_comments("\n".join(item.text))
    for term in list(terms(text)):
        text = text.replace(term, " ")
    generic: set[str] = set()
    head = re.search(rf"{KINDS} {item.name}\s*<([^>]*)>", text)
    if head:
        generic = set(re.findall(r"\b([A-Z]\w*)\b(?=\s*[,:]|$)", head[2]))
    if item.kind == "enum":
        body = text[text.index("{") + 1:text.rindex("}")]
        text = " ".join(re.findall(r"[({][^(){}]*[)}]", body))
    elif item.kind != "const":
        text = text[text.index(item.name) + len(item.name):]
    else:
        text = text[text.index(":"):]
    return {name for name in re.findall(r"\b[A-Z]\w*", text) if name not in RUST_NAMES | generic}
