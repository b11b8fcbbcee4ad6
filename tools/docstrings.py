#!/usr/bin/env python3
"""Checks the docstrings of what the Python package makes public by numpydoc's validation (Debian's package python3-numpydoc).

Usage: tools/docstrings.py [MODULE ..]

Public is what `__all__` names in foldcairn itself and in the modules directly below it: functions, and classes with their public methods and
properties. Without words it checks all of these. Status 0 if nothing is wrong; 1 if something is: each is told on a line with the name, the
number of the check and what it says. Tested, not proved.
"""

from __future__ import annotations

import functools
import importlib
import inspect
import pkgutil
import sys
import warnings
from collections.abc import Iterator
from pathlib import Path
from typing import Any

from numpydoc.validate import validate

PACKAGE = "foldcairn"
# The checks of numpydoc that hold here. Left out are those of a manual's pages (an example, a "See Also", an extended summary), of where the
# quotes are (GL01, GL02), of a summary's verb (SS05), and of how the text of "Returns" begins and ends (RT04, RT05), where columns are listed.
CHECKS = {
    "GL03": "no double blank lines",
    "GL05": "no tabs",
    "GL06": "no section that numpydoc does not know",
    "GL07": "sections in numpydoc's order",
    "GL08": "there is a docstring",
    "SS01": "it begins with a summary",
    "SS02": "that starts with a capital",
    "SS03": "ends with a full stop",
    "SS04": "has no blank before it",
    "SS06": "and is one line",
    "PR01": "all parameters are documented",
    "PR02": "and no others",
    "PR03": "in the order of the signature",
    "PR04": "with a type",
    "PR05": "that ends without a full stop",
    "PR06": "and is named as Python names it",
    "PR07": "with a text",
    "PR08": "that starts with a capital",
    "PR09": "and ends with a full stop",
    "PR10": "with a blank before the colon",
    "RT01": "what is returned is documented",
    "RT02": "by its type alone where it is one value",
    "RT03": "with a text",
    "YD01": "and so is what is yielded",
}


# What is not asked of a class whose objects a call gives, and that no user makes: it has "Attributes" in place of "Parameters". Nor is it asked of
# exceptions, which the package raises.
NOT_OF_GIVEN = frozenset({"PR01"})


def public_modules() -> list[str]:
    """The modules that are public: the package and those directly below it with an `__all__`."""
    package = importlib.import_module(PACKAGE)
    below = sorted(f"{PACKAGE}.{one.name}" for one in pkgutil.iter_modules(package.__path__) if not one.name.startswith("_"))
    return [PACKAGE, *(name for name in below if hasattr(importlib.import_module(name), "__all__"))]


def names_of(module: str) -> dict[str, Any]:
    """What `__all__` of a module names, by full names: functions, and classes of the package with their public methods and properties."""
    found: dict[str, Any] = {}
    home = importlib.import_module(module)
    for name in home.__all__:
        one = getattr(home, name)
        if inspect.isfunction(one):
            found[f"{module}.{name}"] = one
        elif inspect.isclass(one) and one.__module__.startswith(PACKAGE):
            found[f"{module}.{name}"] = one
            found |= {f"{module}.{name}.{member}": value for member, value in members_of(one)}
    return found


def members_of(kind: type) -> Iterator[tuple[str, Any]]:
    """The public methods and properties that a class itself has."""
    for name, value in vars(kind).items():
        # Fields, of which the docstring of the class tells, are descriptors too.
        is_property = isinstance(value, (property, functools.cached_property))
        if not name.startswith("_") and not inspect.isclass(value) and (is_property or callable(getattr(kind, name))):
            yield name, value


def wrong_in(name: str, one: Any) -> list[tuple[str, str, str]]:
    """What is wrong in the docstring of an object: its name, the number of the check, and what that says."""
    with warnings.catch_warnings():
        # Of a section that it does not know numpydoc warns, and a check tells of it too.
        warnings.simplefilter("ignore")
        errors = [(name, code, text) for code, text in validate(name)["errors"] if code in CHECKS]
    given = inspect.isclass(one) and (issubclass(one, BaseException) or "\n    Attributes\n" in (one.__doc__ or ""))
    return [error for error in errors if not (given and error[1] in NOT_OF_GIVEN)]


def main(words: list[str]) -> int:
    """Checks these modules, and gives the exit status."""
    failed, count, seen = False, 0, set()
    for module in words or public_modules():
        wrong = []
        for name, one in names_of(module).items():
            # What several modules name is checked once.
            if id(one) not in seen:
                count += 1
                wrong += wrong_in(name, one)
            seen.add(id(one))
        for name, code, text in wrong:
            print(f"tools/docstrings.py: {name}: {code} {text}")
        failed |= bool(wrong)
    if not count:
        print("tools/docstrings.py: these modules name nothing", file=sys.stderr)
    return 1 if failed or not count else 0


if __name__ == "__main__":
    sys.path.insert(0, str(Path(__file__).resolve().parent.parent / "python" / "src"))
    sys.exit(main(sys.argv[1:]))
