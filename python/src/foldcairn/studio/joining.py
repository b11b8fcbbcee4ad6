"""Joins the modules of the page into one script, each in a function of its own, so that no names of two meet. Tested, not proved.

The modules are plain ES modules that `node`, `tsc` and `eslint` take as they are. Of their language the joining knows what they use: an import of
names from a file beside it on one line, and `export` before a function, a class or a constant, or before names in braces.
"""

from __future__ import annotations

import re
from collections.abc import Iterator, Mapping

_IMPORT = re.compile(r'^import \{ ([\w, ]+) \} from "\./(\w+)\.js";$', re.MULTILINE)
_EXPORT = re.compile(r"^export (?:async )?(?:function|class|const) (\w+)", re.MULTILINE)
_LISTED = re.compile(r"^export \{([\w, ]*)\};\n?", re.MULTILINE)


def exports(text: str) -> set[str]:
    """The names that a module exports."""
    return {*_EXPORT.findall(text), *(one.strip() for listed in _LISTED.findall(text) for one in listed.split(",") if one.strip())}


def order(modules: Mapping[str, str], first: str) -> list[str]:
    """The modules that one stands on, and itself, each after those that it imports. Raises `ValueError` where imports go round or one is
    missing."""
    found: list[str] = []

    def put(name: str, above: tuple[str, ...]) -> None:
        if name in above:
            raise ValueError(f"the modules {' '.join(above)} {name} import each other")
        if name not in modules:
            raise ValueError(f"{above[-1]}.js imports {name}.js, which is not there")
        for names, other in _IMPORT.findall(modules[name]):
            put(other, (*above, name))
            if lacking := {one.strip() for one in names.split(",")} - exports(modules[other]):
                raise ValueError(f"{name}.js imports {', '.join(sorted(lacking))} of {other}.js, which does not export that")
        if name not in found:
            found.append(name)

    put(first, ())
    return found


def joined(modules: Mapping[str, str], first: str) -> str:
    """One script of the module `first` and of all that it imports."""
    return "".join(["'use strict';\n", *_wrapped(modules, order(modules, first))])


def _wrapped(modules: Mapping[str, str], names: list[str]) -> Iterator[str]:
    for name in names:
        text = modules[name]
        exported = sorted(exports(text))
        body = _LISTED.sub("", _IMPORT.sub(r"const { \1 } = module_\2;", text))
        body = re.sub(r"^export ", "", body, flags=re.MULTILINE)
        yield f"const module_{name} = (() => {{\n{body}return {{ {', '.join(exported)} }};\n}})();\n"
