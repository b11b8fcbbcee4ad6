"""Writes the planner's page: one HTML file with the plan, the modules of the page, and the programs as WebAssembly. Tested, not proved."""

from __future__ import annotations

import base64
import gzip
import hashlib
import json
import mimetypes
import os
from functools import cache
from pathlib import Path
from typing import Any

import jinja2
from markupsafe import Markup

from ..common import files
from ..plan import Plan
from . import given, joining, module

_PAGE = Path(__file__).parent / "page"
# The largest picture of a floor plan that goes into a page, in bytes: with base64 the page is then below 6 MB.
_PICTURE_MOST = 3_500_000
# The kinds of pictures that the page takes.
_PICTURES = ("image/png", "image/jpeg", "image/gif", "image/webp")


def write(plan: Plan | str | os.PathLike[str] | None, path: str | os.PathLike[str]) -> Path:
    """Writes the page into a file, and gives its path (see `foldcairn.studio.write`)."""
    return files.write(path, text(plan).encode())


def text(plan: Plan | str | os.PathLike[str] | None = None) -> str:
    """The text of the page (see `foldcairn.studio.text`)."""
    if plan is not None and not isinstance(plan, Plan):
        plan = Plan.read(plan)
    words = {
        "schema": given.schema(), "event": given.event(), "example": example(), "text": "" if plan is None else plan.text(),
        "name": "the example" if plan is None else plan.path.name if plan.path else "the plan", "pictures": {} if plan is None else _pictures(plan),
    }  # fmt: skip
    css, program = (_PAGE / "page.css").read_text(encoding="utf-8"), script()
    return _template().render(
        title="Foldcairn studio" if plan is None else plan.settings.name or "Foldcairn studio", policy=_policy(css, program), css=_raw(css),
        given=_raw(_json(words)), module=_raw(_packed(module.read())), program=_raw(program),
    )  # fmt: skip


def example() -> str:
    """The plan with which the page begins where it is given none."""
    return (_PAGE / "example.toml").read_text(encoding="utf-8")


@cache
def script() -> str:
    """The script of the page, which is also that of its workers: the programs' own, and all modules."""
    modules = {path.stem: path.read_text(encoding="utf-8") for path in sorted((_PAGE / "js").glob("*.js"))}
    return module.script() + joining.joined(modules, "main")


def _policy(css: str, program: str) -> str:
    """What the page may do: its own script and style, workers of its own, pictures that are in it, and no network."""
    return (
        f"default-src 'none'; script-src '{_digest(program)}' 'wasm-unsafe-eval'; style-src '{_digest(css)}'; worker-src blob:; img-src data: blob:; "
        "base-uri 'none'; form-action 'none'"
    )


def _digest(of: str) -> str:
    return "sha256-" + base64.b64encode(hashlib.sha256(of.encode()).digest()).decode()


def _raw(of: str) -> Markup:
    """A text that stands in an element whose content is no markup: nothing in it may end the element."""
    if "</script" in of.lower() or "</style" in of.lower() or "<!--" in of:
        raise ValueError("a text of the page would end its element")
    return Markup(of)


def _json(value: Any) -> str:
    """JSON in which nothing looks like markup."""
    return json.dumps(value, ensure_ascii=True, separators=(",", ":")).replace("<", "\\u003c").replace(">", "\\u003e")


def _packed(data: bytes) -> str:
    return base64.b64encode(gzip.compress(data, 9, mtime=0)).decode()


def _pictures(plan: Plan) -> dict[str, str]:
    """The picture of the floor plan as an address that has it inside."""
    path = plan.folder / plan.floor.picture
    kind = mimetypes.guess_type(plan.floor.picture)[0]
    if not plan.floor.picture or not path.is_file() or kind not in _PICTURES or path.stat().st_size > _PICTURE_MOST:
        return {}
    return {plan.floor.picture: f"data:{kind};base64,{base64.b64encode(path.read_bytes()).decode()}"}


def _template() -> jinja2.Template:
    loader = jinja2.FileSystemLoader(_PAGE / "templates")
    return jinja2.Environment(loader=loader, autoescape=True, undefined=jinja2.StrictUndefined, keep_trailing_newline=True).get_template("studio.html")
