"""The packages of the package: which may import which, no import that goes round, and the paths that pages name."""

from __future__ import annotations

import ast
import importlib
import pickle
import subprocess
import sys
from pathlib import Path

import networkx
import pytest

import foldcairn
from conftest import REPOSITORY
from foldcairn.runs import kept

SOURCE = REPOSITORY / "python" / "src"
# From the lowest: each imports of those before it, and of itself. What is in no package is named alone; of the public paths below, and by
# the first file of all, nothing is imported.
ORDER = ("front_end", "common", "propagation", "model", "runs", "plan", "answers", "many", "requirements", "search", "planning", "draw", "pages", "cli")
# The paths that pages name, and the packages that have what they name.
PUBLIC = {
    "counts": "many", "events": "model", "export": "pages", "intervals": "many", "labels": "answers", "losses": "runs", "packets": "runs",
    "page": "pages", "plot": "draw", "receivers": "model", "report": "pages", "results": "runs", "scenario": "model", "sweep": "many",
    "tables": "model",
}  # fmt: skip


def modules() -> dict[str, Path]:
    """All modules by their names within the package; the first file of a package has the name of the package."""
    found = {}
    for path in (SOURCE / "foldcairn").rglob("*.py"):
        parts = path.relative_to(SOURCE).with_suffix("").parts
        found[".".join(parts[:-1] if parts[-1] == "__init__" else parts)] = path
    return found


def is_for_types(node: ast.AST) -> bool:
    """Whether only type checkers read what is below."""
    return isinstance(node, ast.If) and isinstance(node.test, ast.Name) and node.test.id == "TYPE_CHECKING"


def imports(tree: ast.AST) -> list[ast.ImportFrom]:
    """All imports from this package in a file, also those in functions, but for those of type checkers alone. Of other forms there is none."""
    found: list[ast.ImportFrom] = []
    for node in ast.iter_child_nodes(tree):
        if is_for_types(node):
            continue
        if isinstance(node, ast.Import):
            assert not any(alias.name.partition(".")[0] == "foldcairn" for alias in node.names)
        if isinstance(node, ast.ImportFrom) and node.level:
            found.append(node)
        found += imports(node)
    return found


def graph_of(named: dict[str, Path]) -> networkx.DiGraph:
    """An edge from each module to each that it imports, when it is loaded or later."""
    graph = networkx.DiGraph()
    graph.add_nodes_from(named)
    for name, path in named.items():
        package = name.split(".") if path.name == "__init__.py" else name.split(".")[:-1]
        for node in imports(ast.parse(path.read_text())):
            source = ".".join([*package[: len(package) - node.level + 1], *([node.module] if node.module else [])])
            wholes = {f"{source}.{alias.name}" for alias in node.names}
            graph.add_edges_from((name, one if one in named else source) for one in wholes)
    return graph


GRAPH = graph_of(modules())


def place(name: str) -> str:
    return name.split(".")[1] if "." in name else ""


def test_no_import_goes_round() -> None:
    assert GRAPH.number_of_nodes() > 90 and GRAPH.number_of_edges() > 300
    assert [sorted(group) for group in networkx.strongly_connected_components(GRAPH) if len(group) > 1] == []
    assert not list(networkx.selfloop_edges(GRAPH))


def test_a_lazy_import_that_goes_round_is_found(tmp_path: Path) -> None:
    texts = {"one": "def call():\n    if call:\n        from . import two\n", "two": "from .three import x\n", "three": "from . import one\nx = 1\n"}
    for name, text in texts.items():
        (tmp_path / f"{name}.py").write_text(text)
    named = {f"foldcairn.{name}": tmp_path / f"{name}.py" for name in texts}
    assert len(max(networkx.strongly_connected_components(graph_of(named)), key=len)) == 3
    (tmp_path / "three.py").write_text("from typing import TYPE_CHECKING\nif TYPE_CHECKING:\n    from . import one\nx = 1\n")
    assert networkx.is_directed_acyclic_graph(graph_of(named))


def test_packages_import_of_those_below_them() -> None:
    wrong = [
        f"{one} imports {other}" for one, other in GRAPH.edges
        if place(one) in ORDER and not (place(other) in ORDER and ORDER.index(place(other)) <= ORDER.index(place(one)))
    ]  # fmt: skip
    assert wrong == []

def test_propagation_stands_alone() -> None:
    used = {other for one, other in GRAPH.edges if place(one) == "propagation" and place(other) != "propagation"}
    assert used == {"foldcairn.common.arguments"}


def test_nothing_is_imported_by_a_name_that_is_made() -> None:
    # By such an import a cycle would not be seen. The first file of all asks by it, and nothing imports of that.
    using = [name for name, path in modules().items() if "import_module" in path.read_text() or "__import__" in path.read_text()]
    assert using == ["foldcairn"] and GRAPH.in_degree("foldcairn") == 0


@pytest.mark.parametrize(("name", "package"), PUBLIC.items())
def test_public_paths_have_the_same_objects(name: str, package: str) -> None:
    public, home = importlib.import_module(f"foldcairn.{name}"), importlib.import_module(f"foldcairn.{package}.{name}")
    more = [importlib.import_module(f"foldcairn.pages.{one}") for one in ("titles", "saving")] if name == "report" else [home]
    assert public.__all__ and len(set(public.__all__)) == len(public.__all__)
    for one in public.__all__:
        assert getattr(public, one) in [getattr(where, one, None) for where in (home, *more)]
    assert GRAPH.in_degree(f"foldcairn.{name}") == 0


def test_each_module_outside_of_the_packages_is_public() -> None:
    outside = {path.stem for path in (SOURCE / "foldcairn").glob("*.py")}
    assert outside == {*PUBLIC, "__init__", "__main__", "front_end", "planning"}


@pytest.mark.parametrize("name", ["scenario Scenario", "events Put", "events Stream", "results Log", "results Report", "losses Drawing", "packets Data"])
def test_what_was_pickled_by_the_old_paths_is_read(name: str) -> None:
    """Protocol 0 spells where a class comes from."""
    module, word = name.split()
    found = pickle.loads(f"cfoldcairn.{module}\n{word}\n.".encode())
    assert found.__name__ == word and found.__module__.count(".") == 2


def test_a_key_of_what_is_kept_does_not_name_the_package_of_a_module() -> None:
    def one() -> None:
        """Whatever it does."""

    keys = []
    for module in ("foldcairn.sweep", "foldcairn.many.sweep", "foldcairn.many.seeds", "other.many.sweep", "other.sweep"):
        one.__module__ = module
        keys.append(kept.spelled(one))
    assert keys[0] == keys[1] and len(set(keys)) == 4


def test_what_needs_the_standard_library_alone() -> None:
    code = "import sys, foldcairn.front_end, foldcairn.model.faults; sys.exit(any(name in sys.modules for name in ('numpy', 'pandas', 'jinja2')))"
    subprocess.run([sys.executable, "-c", code], check=True, env={"PYTHONPATH": str(SOURCE)})


def test_the_words_of_the_top_have_homes() -> None:
    for name in set(foldcairn.__all__) - {"__version__"}:
        assert getattr(foldcairn, name).__name__ == name
