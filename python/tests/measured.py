"""Coverage by marks: where coverage is measured, each line of the package notes by itself that it was run.

The tracer of coverage makes all of Python slow, also the code of libraries in which most of the time passes, and before Python 3.12 that
can't be switched off for a module: with it the tests take two thirds more time. So the tracer is stopped before the package is
imported, and the package is compiled from a tree in which each statement has a call before it that puts its line into a set. At the end
pytest-cov is given the lines, and reports them as if the tracer had found them. A test compares the two on all forms of statements.

What runs in other processes is not measured.
"""

from __future__ import annotations

import ast
import sys
from collections.abc import Iterator, Sequence
from importlib.abc import MetaPathFinder
from importlib.machinery import ModuleSpec, PathFinder, SourceFileLoader
from types import CodeType, ModuleType
from typing import Any

import pytest

PACKAGE = "foldcairn"
# The name by which a module calls what takes its lines, and the lines of each file.
NOTE = "_note_line_"
LINES: dict[str, set[int]] = {}


@pytest.hookimpl(tryfirst=True)
def pytest_collection(session: pytest.Session) -> None:
    """Marks instead of the tracer, before any test imports the package."""
    controller = _controller(session)
    if controller is not None and sys.gettrace() is not None:
        assert not [name for name in sys.modules if name.partition(".")[0] == PACKAGE], "the package was imported before it had marks"
        controller.pause()
        sys.meta_path.insert(0, Finder())


@pytest.hookimpl(hookwrapper=True, trylast=True)
def pytest_runtestloop(session: pytest.Session) -> Iterator[None]:
    """Hands the lines over after the last test, before pytest-cov writes its report."""
    yield
    controller = _controller(session)
    if controller is not None and LINES:
        controller.cov.get_data().add_lines(LINES)


def _controller(session: pytest.Session) -> Any:
    """What of pytest-cov starts and stops to measure, where it measures."""
    return getattr(session.config.pluginmanager.get_plugin("_cov"), "cov_controller", None)


class Finder(MetaPathFinder):
    """Finds the modules of the package, and lets them be loaded with marks."""

    def find_spec(self, fullname: str, path: Sequence[str] | None, target: ModuleType | None = None) -> ModuleSpec | None:
        if fullname.partition(".")[0] != PACKAGE:
            return None
        spec = PathFinder.find_spec(fullname, path, target)
        if spec is not None and isinstance(spec.loader, SourceFileLoader):
            spec.loader = _Loader(spec.loader.name, spec.loader.path)
        return spec


class _Loader(SourceFileLoader):
    """Compiles a module with its marks; what Python kept of it before has none."""

    def get_code(self, fullname: str) -> CodeType:
        return marked(self.get_data(self.path), self.path)

    def exec_module(self, module: ModuleType) -> None:
        setattr(module, NOTE, LINES.setdefault(self.path, set()).add)
        super().exec_module(module)


def marked(source: bytes | str, path: str) -> CodeType:
    """The code of a module in which each statement first notes its line."""
    return compile(_Marks().visit(ast.parse(source, path)), path, "exec", dont_inherit=True)


def _at(line: int) -> dict[str, int]:
    """Where a part of a tree stands."""
    return {"lineno": line, "end_lineno": line, "col_offset": 0, "end_col_offset": 0}


def _note(line: int) -> ast.Call:
    """A call that notes a line, and gives None."""
    place = _at(line)
    return ast.Call(ast.Name(NOTE, ast.Load(), **place), [ast.Constant(line, **place)], [], **place)


class _Marks(ast.NodeTransformer):
    """Puts the calls into a tree. A statement with decorators notes their lines too. `except` and `case` are no statements: the one
    notes its line with the first value that it looks at; the one that matches notes its line and those of all before it."""

    def generic_visit(self, node: ast.AST) -> ast.AST:
        super().generic_visit(node)
        for name in ("body", "orelse", "finalbody"):
            block = getattr(node, name, None)
            if isinstance(block, list):
                setattr(node, name, [part for place, statement in enumerate(block) for part in _with_notes(statement, place)])
        return node

    def visit_ExceptHandler(self, node: ast.ExceptHandler) -> ast.AST:
        self.generic_visit(node)
        if node.type is None:
            node.body.insert(0, ast.Expr(_note(node.lineno), **_at(node.lineno)))
        else:
            node.type = ast.BoolOp(ast.Or(), [_note(node.lineno), node.type], **_at(node.lineno))
        return node

    def visit_Match(self, node: ast.Match) -> ast.AST:
        self.generic_visit(node)
        lines = [case.pattern.lineno for case in node.cases]
        last = node.cases[-1]
        if last.guard is not None or not isinstance(last.pattern, ast.MatchAs) or last.pattern.pattern is not None:
            node.cases.append(ast.match_case(ast.MatchAs(**_at(lines[-1])), None, []))
        for place, case in enumerate(node.cases):
            case.body[:0] = [ast.Expr(_note(line), **_at(line)) for line in lines[: place + 1]]
        return node


def _with_notes(statement: ast.stmt, place: int) -> list[ast.stmt]:
    """A statement of a block and the calls before it; nothing may stand before a docstring and what is imported from the future."""
    if place == 0 and isinstance(statement, ast.Expr) and isinstance(statement.value, ast.Constant):
        return [statement]
    lines = [statement.lineno, *(decorator.lineno for decorator in getattr(statement, "decorator_list", []))]
    notes = [ast.Expr(_note(line), **_at(line)) for line in lines]
    late = isinstance(statement, ast.ImportFrom) and statement.module == "__future__"
    return [statement, *notes] if late else [*notes, statement]
