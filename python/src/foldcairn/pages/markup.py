"""The HTML of pages and notebooks: all of it is of the templates in the folder `templates`, by jinja2, which escapes each word that
they are given. What is `Markup` is HTML already: tables of pandas, which escapes their cells. Tested, not proved."""

from __future__ import annotations

import base64
import re
from collections.abc import Callable, Mapping
from dataclasses import dataclass
from functools import cache
from pathlib import Path
from typing import TYPE_CHECKING, Any

import jinja2
import pandas as pd
from markupsafe import Markup, escape

from ..common.visible import visible

if TYPE_CHECKING:
    from matplotlib.figure import Figure

_FOLDER = Path(__file__).parent
_CODE = re.compile(r"`([^`\n]+)`")


@cache
def _templates() -> jinja2.Environment:
    """The templates; a word that one of them is not given raises an exception."""
    return jinja2.Environment(
        loader=jinja2.FileSystemLoader(_FOLDER / "templates"), autoescape=True, undefined=jinja2.StrictUndefined, trim_blocks=True, lstrip_blocks=True
    )


def render(template: str, **words: Any) -> str:
    """The text of a template with these words."""
    return visible(_templates().get_template(template).render(**words))


def page(template: str, **words: Any) -> str:
    """The text of a template that is a whole page, in the style of all pages."""
    return render(template, css=own("page.css"), **words)


def own(name: str) -> Markup:
    """A file of this package, which is HTML as it is."""
    return Markup((_FOLDER / name).read_text(encoding="utf-8"))


def table(frame: pd.DataFrame, digits: int = 3) -> Markup:
    """A table; "none" in place of one without rows."""
    if frame.empty:
        return Markup("<p>none</p>")
    return Markup(frame.to_html(index=False, border=0, na_rep="–", float_format=lambda number: f"{number:.{digits}f}"))


def paragraphs(text: str) -> list[str]:
    """The paragraphs of a text, which empty lines part."""
    return [part.strip() for part in text.split("\n\n") if part.strip()]


def coded(text: str) -> Markup:
    """A text in which what is between backticks is code."""
    return Markup(_CODE.sub(r"<code>\1</code>", str(escape(text))))


@dataclass(frozen=True)
class Picture:
    """A picture of a page: its title, and its SVG text in base 64, or why there is none."""

    title: str
    svg: str = ""
    missing: str = ""


def picture(title: str, draw: Callable[[], Figure]) -> Picture:
    """The picture of this title."""
    from ..draw import style

    try:
        svg = style.rendered(draw(), "svg")
    except ValueError as error:
        # A run may have no deliveries, or no change of hosts.
        return Picture(title, missing=str(error))
    return Picture(title, base64.b64encode(svg).decode())


@dataclass(frozen=True)
class Section:
    """A table that is shown by a click on its title: its name, its title, and what its columns mean."""

    name: str
    title: str
    table: Markup
    meanings: Mapping[str, str]


def section(name: str, title: str, frame: pd.DataFrame, meanings: Mapping[str, str]) -> Section:
    """The table of this name and title; columns of one meaning are told together."""
    return Section(name, title, table(frame), by_meaning(meanings))


def by_meaning(meanings: Mapping[str, str]) -> dict[str, str]:
    """The columns of each meaning with commas between them, and the meaning."""
    found: dict[str, list[str]] = {}
    for column, meaning in meanings.items():
        found.setdefault(meaning, []).append(column)
    return {", ".join(columns): meaning for meaning, columns in found.items()}
