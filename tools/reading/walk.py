"""What a contract reaches: from its clauses through the definitions that they name, to those that name only the library."""
import dataclasses
import pathlib
import re

from antt import STANDARD_CONSTRUCTORS, File, Item, ReadingError, Scope, tree
from rust import Source, clauses, terms, type_names, without_comments


@dataclasses.dataclass(frozen=True)
class Key:
    """An item of a file of the repository."""
    file: str
    name: str


@dataclasses.dataclass(frozen=True)
class Outside:
    """A name of the toolchain's libraries."""
    crate: str
    name: str


@dataclasses.dataclass(frozen=True)
class Headline:
    """Clauses of a public function, of all words or of those commands alone."""
    title: str
    crate: str
    file: str
    function: str
    clauses: tuple[str, ...] = ()
    commands: tuple[str, ...] = ()


Name = Key | Outside


class Sources:
    """All definitions of the crates, and what each names."""

    def __init__(self, top: pathlib.Path) -> None:
        self.top = top
        self.order = [line.split(":")[0].split()[0] for line in (top / "crates.txt").read_text().splitlines()
                      if ":" in line and not line.startswith("#")]
        self.crates = set(self.order)
        self.files: dict[str, File | None] = {}
        self.rust: dict[tuple[str, tuple[str, ...]], Source | None] = {}
        self.named: dict[tuple[Key, tuple[str, ...]], list[Name]] = {}

    def definitions(self, module: str) -> File | None:
        """The file of a module such as Rattle.bus_terms.specs.Bus, or None."""
        if module not in self.files:
            parts = module.split(".")
            path = self.top / "crates" / "/".join(parts[1:])
            path = path.with_suffix(".antt")
            self.files[module] = File(path, module) if path.is_file() else None
        return self.files[module]

    def source(self, crate: str, modules: tuple[str, ...]) -> Source | None:
        """The .rt file of a module of a crate, or None."""
        if (crate, modules) not in self.rust:
            folder = self.top / "crates" / crate / "src"
            names = [folder.joinpath(*modules).with_suffix(".rt"), folder.joinpath(*modules, "mod.rt")] if modules else [
                folder / "lib.rt", folder / "main.rt"]
            path = next((name for name in names if name.is_file()), None)
            self.rust[crate, modules] = Source(path, crate, modules) if path else None
        return self.rust[crate, modules]

    def key(self, path: pathlib.Path, name: str) -> Key:
        return Key(str(path.relative_to(self.top)), name)

    def stands_for(self, module: str, name: str) -> Name:
        """What a name of a module is: an item, or a name of the library."""
        parts = module.split(".")
        if parts[0] != "Rattle" or parts[1] not in self.crates:
            return Outside(parts[1] if parts[0] == "Rattle" else parts[0], name)
        if "declared" in parts:
            return self.declared(parts[1], parts[parts.index("declared") + 1:], name)
        file = self.definitions(module)
        if file is None:
            raise ReadingError(f"no file of {module}")
        if name in file.items:
            return self.key(file.path, name)
        if name in file.constructors:
            return self.key(file.path, file.constructors[name])
        if name in file.given:
            return self.stands_for(*file.given[name])
        raise ReadingError(f"no {name} in {module}")

    def declared(self, crate: str, path: list[str], name: str) -> Name:
        """A type or constant of Rust by its path below `declared`."""
        if path and path[-1] in ("TheVariants", "TheInside"):
            path, name = path[:-1], path[-2]
        if path and path[-1] == "TheConstants":
            path = path[:-1]
        if path and path[-1] == name:
            path = path[:-1]
        found = self.rust_item(crate, tuple(path), name)
        if not found:
            raise ReadingError(f"no {name} in {crate} at {path}")
        return found

    def rust_item(self, crate: str, modules: tuple[str, ...], name: str) -> Name | None:
        """An item of Rust by its name in a module, followed through `use`."""
        source = self.source(crate, modules)
        if source is None:
            return None
        if source.item(name):
            return self.key(source.path, name)
        if name in source.uses:
            return self.rust_path(source, source.uses[name].split("::"))
        return None

    def rust_path(self, source: Source, parts: list[str]) -> Name | None:
        """An item by a path of Rust as it is written in a file."""
        if parts[0] in ("std", "core"):
            return Outside("std", parts[-1])
        if parts[0] == "crate":
            crate, parts = source.crate, parts[1:]
        elif parts[0] == "self":
            return self.rust_item(source.crate, source.modules + tuple(parts[1:-1]), parts[-1])
        elif parts[0] == "super":
            return self.rust_item(source.crate, source.modules[:-1] + tuple(parts[1:-1]), parts[-1])
        elif parts[0] in source.parts:
            return self.rust_item(source.crate, source.modules + tuple(parts[:-1]), parts[-1])
        elif parts[0] in self.crates:
            crate, parts = parts[0], parts[1:]
        else:
            return Outside(parts[0], parts[-1])
        return self.rust_item(crate, tuple(parts[:-1]), parts[-1])

    def place(self, key: Key) -> tuple[File | Source, Item]:
        """Where an item is: its file, and the item."""
        parts = key.file.rsplit(".", 1)[0].split("/")
        file = self.definitions(".".join(["Rattle", *parts[1:]])) if key.file.endswith(".antt") else None
        if file:
            return file, file.items[key.name]
        source = self.source(parts[1], tuple(part for part in parts[3:] if part not in ("lib", "main", "mod")))
        item = source.item(key.name) if source else None
        if source is None or item is None:
            raise ReadingError(f"{key.file} has no {key.name}")
        return source, item

    def names(self, key: Key, commands: tuple[str, ...] = ()) -> list[Name]:
        """What an item names, of the equations for these commands alone if there are some."""
        if (key, commands) not in self.named:
            found, item = self.place(key)
            names = self.of_definition(found, item, commands) if isinstance(found, File) else self.of_rust(found, item)
            self.named[key, commands] = [name for name in dict.fromkeys(names) if name != key]
        return self.named[key, commands]

    def of_definition(self, file: File, item: Item, commands: tuple[str, ...]) -> list[Name]:
        """What an item of specs/ names."""
        shown = self.shown(file, item, commands)
        scope = Scope(lambda name, rest="": self.lookup(file, name, rest), lambda name: self.is_constructor(file, name), f"{file.path}:{item.line}")
        scope.item(shown)
        section = [self.key(file.path, item.section.name)] if item.section else []
        return section + scope.found

    @staticmethod
    def shown(file: File, item: Item, commands: tuple[str, ...]) -> Item:
        """The item without its equations for other commands than these."""
        if not commands or item.kind != "definition":
            return item
        variants = {name for name, (module, _) in file.imports.items() if module.endswith("declared.command.Command.TheVariants")}
        others = variants - set(commands)
        kept = []
        dropped = False
        for line in item.text:
            if not line.startswith(" "):
                head = line.split(" = ")[0].split()
                dropped = bool({word.strip("()") for word in head} & others)
            if not dropped:
                kept.append(line)
        return dataclasses.replace(item, text=kept)

    def lookup(self, file: File, name: str, rest: str = "") -> Name | None:
        """What a name of a file of specs/ stands for."""
        if name in file.items:
            return self.key(file.path, name)
        if name in file.constructors:
            return self.key(file.path, file.constructors[name])
        if name in file.imports:
            return self.stands_for(*file.imports[name])
        if name in file.aliases and rest:
            path = [file.aliases[name], *rest.split(".")]
            inner = 2 if path[1] == "TheVariants" else 1
            return self.stands_for(".".join(path[:inner]), path[inner])
        return None

    def is_constructor(self, file: File, token: str) -> bool:
        head, _, rest = token.partition(".")
        if token in STANDARD_CONSTRUCTORS or f"◌{token}◌" in STANDARD_CONSTRUCTORS or token in file.constructors:
            return True
        if head in file.aliases and rest:
            return True
        if token not in file.imports:
            return False
        module, name = file.imports[token]
        if name in STANDARD_CONSTRUCTORS or module.endswith("TheVariants"):
            return True
        parts = module.split(".")
        if parts[0] == "Rattle" and parts[1] in self.crates and "declared" not in parts:
            other = self.definitions(module)
            return other is not None and name in other.constructors
        return False

    def ghost(self, source: Source, bound: set[str]) -> tuple[Scope, frozenset[str]]:
        """Resolves the terms of a .rt file by its imports for them."""
        def lookup(name: str, rest: str = "") -> Name | None:
            if name not in source.ghosts:
                return None
            module, _, given = source.ghosts[name].rpartition(".")
            return self.stands_for(module, given)
        return Scope(lookup, lambda name: False, str(source.path)), frozenset(bound)

    def of_rust(self, source: Source, item: Item) -> list[Name]:
        """What a type, constant or trait of Rust names."""
        found: list[Name] = []
        text = without_comments("\n".join(item.text))
        scope, bound = self.ghost(source, set(re.findall(r"\bghost (\w+)", text)) | set(re.findall(r"\b([a-z_]\w*)\s*:", text)) | {"result", "self", "Self"})
        for term in terms(text):
            scope.terms(tree(term, str(source.path)), bound)
        for name in sorted(type_names(item) - {item.name}):
            other = self.rust_item(source.crate, source.modules, name)
            if other is None:
                raise ReadingError(f"{source.path}: what is {name}?")
            found.append(other)
        return scope.found + found

    def contract(self, headline: Headline) -> tuple[Source, Item, dict[str, tuple[list[str], str]]]:
        """The function of a headline, its file, and the clauses that are meant by their names."""
        source = self.source(headline.crate, tuple(headline.file.split("/")))
        if source is None:
            raise ReadingError(f"{headline.crate} has no {headline.file}")
        contract = source.contract(headline.function)
        found = clauses(contract)
        missing = [name for name in headline.clauses if name not in found]
        if missing:
            raise ReadingError(f"{source.path}: no clause {missing[0]} of {headline.function}")
        return source, contract, {name: found[name] for name in headline.clauses or found}

    def roots(self, headline: Headline) -> list[Name | None]:
        """What the clauses of a headline name, with the types of the call."""
        source, contract, chosen = self.contract(headline)
        text = without_comments("\n".join(contract.text))
        head = text[:text.index("ensures")]
        generics = dict(re.findall(r"\b([A-Z]): (\w+)", head[:head.index("(")]))
        bound = set(re.findall(r"\b([a-z_]\w*)\s*:", head)) | set(generics) | {"result"}
        scope, names = self.ghost(source, bound)
        for _, term in chosen.values():
            scope.terms(tree(without_comments(term), str(source.path)), names)
        types = set(re.findall(r"\b[A-Z]\w+", head)) - {"String", "Global", "Result", "Option", "Vec"}
        return scope.found + [self.rust_item(source.crate, source.modules, name) for name in sorted(types)]

    def reached(self, headline: Headline) -> tuple[dict[Key, list[Name]], set[Outside]]:
        """All items that a headline reaches, and all names of the library."""
        seen: dict[Key, list[Name]] = {}
        outside: set[Outside] = set()
        todo = self.roots(headline)
        while todo:
            name = todo.pop()
            if isinstance(name, Outside):
                outside.add(name)
            elif name is None:
                raise ReadingError(f"{headline.title}: a type that is not found")
            elif name not in seen:
                seen[name] = self.names(name, headline.commands)
                todo += seen[name]
        return seen, outside
