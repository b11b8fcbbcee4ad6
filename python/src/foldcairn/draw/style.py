"""What all pictures share: colours, the frame of a figure, and files that are light or dark as their reader is.

Tested, not proved.
"""

from __future__ import annotations

import io
import os
from collections.abc import Sequence
from pathlib import Path
from xml.etree import ElementTree

import matplotlib
from matplotlib.artist import Artist
from matplotlib.axes import Axes
from matplotlib.colors import to_hex, to_rgb
from matplotlib.figure import Figure
from matplotlib.transforms import ScaledTranslation

from ..common import files

# The colours that are told apart in one picture also differ for readers with deuteranopia, and in lightness where they are
# printed in grey.
# What a radio does.
TRANSMITS, RECEIVES, LISTENS = "#c9374c", "#1d4f91", "#ffcf4a"
# A radio that is on, by the rank of its channel.
RANKS = (LISTENS, "#088165", "#8c391b", "#8ca5c8")
# Links by reception ratio: from the least ratio of a class on, with the width of their lines.
RATIOS = ((0.95, "#1f51a7", 2.4), (0.85, "#07799d", 2.1), (0.7, "#c87597", 1.8), (0.5, "#fe8e68", 1.5), (0.0, "#fec33e", 1.2))
DELIVERY = "#7d4fc4"
INK, PALE, GROUND, FAINT, OFF = "#1f2328", "#57606a", "#ffffff", "#c8ced6", "#eceff3"
# Letters on a shape, which are the same on dark pages.
ON_DARK, ON_LIGHT = "#fefefe", "#1f2329"
# Purposes of radio time (`radio.PURPOSES`), in their order.
PURPOSES = ("#ac413c", "#2a4686", "#97c9ee", "#dc9232", "#a372a3", "#ffe47b")

# The same in a dark page.
_DARK = {INK: "#e6edf3", PALE: "#9198a1", GROUND: "#0d1117", FAINT: "#3d444d", OFF: "#21262d"}

_SETTINGS = {
    "font.family": "sans-serif", "font.sans-serif": ["DejaVu Sans", "Verdana", "Arial"], "font.size": 9.0,
    "axes.titlesize": 11.0, "axes.titlelocation": "left", "axes.titlepad": 10.0,
    "text.color": INK, "axes.labelcolor": INK, "xtick.color": INK, "ytick.color": INK, "axes.edgecolor": FAINT,
    "axes.facecolor": GROUND, "figure.facecolor": GROUND, "legend.frameon": False, "legend.fontsize": 8.5,
    "svg.fonttype": "none", "svg.hashsalt": "foldcairn", "path.simplify": False,
    # A name may have dollars, and is no formula.
    "text.parse_math": False,
}  # fmt: skip


def settings() -> matplotlib.RcParams:
    """The settings of matplotlib in which pictures are drawn and saved, for `with`."""
    return matplotlib.rc_context(_SETTINGS)


def axes(width: float, height: float, given: Axes | None = None) -> tuple[Figure, Axes]:
    """A figure of this size in inches with one pair of axes, whose lines do not compete with what is drawn; or the axes that
    are given, with their figure."""
    if given is not None:
        return given.get_figure(), plain(given)
    figure = Figure(figsize=(width, height), layout="constrained")
    return figure, plain(figure.subplots())


def hops(most: int) -> list[str]:
    """The colours of nodes by their hops from the host, from 0 to so many, from dark to light."""
    scale = matplotlib.colormaps["viridis"]
    return [to_hex(scale(hop / max(most, 4))) for hop in range(most + 1)]


def ink_on(colour: str | tuple[float, float, float, float]) -> str:
    """The colour of letters on this ground."""
    red, green, blue = to_rgb(colour)
    return ON_DARK if 0.2126 * red**2.2 + 0.7152 * green**2.2 + 0.0722 * blue**2.2 < 0.3 else ON_LIGHT


def plain(drawn: Axes) -> Axes:
    """Takes the lines of the frame away, and the marks of its scales."""
    for side in ("top", "right"):
        drawn.spines[side].set_visible(False)
    drawn.tick_params(length=0)
    drawn.set_axisbelow(True)
    return drawn


def heading(drawn: Axes, title: str, note: str | None = None, *, above: float = 10.0) -> None:
    """A title this many points above the axes, with a note of one line or several in pale letters below it."""
    if note:
        below = "bottom" if "\n" in note else "baseline"
        drawn.annotate(note, (0, 1), (0, above), xycoords="axes fraction", textcoords="offset points", fontsize=8.5, color=PALE, va=below)
    # Without `y` matplotlib looks at all scales again, each time that it draws, for what a title might cover.
    drawn.set_title(title, y=1.0, pad=above + (4.0 + 12.0 * (1 + note.count("\n")) if note else 0.0))


def key(drawn: Axes, columns: int, below: float = 0.5, more: Sequence[Artist] = ()) -> None:
    """What the colours mean, this many inches below the axes; `more` has labels, and is not drawn elsewhere."""
    figure = drawn.get_figure()
    place = drawn.transAxes + ScaledTranslation(0, -below, figure.dpi_scale_trans)
    handles = [*drawn.get_legend_handles_labels()[0], *more]
    if handles:
        drawn.legend(
            handles=handles, loc="upper left", bbox_to_anchor=(0, 0), bbox_transform=place, ncols=columns,
            borderaxespad=0, borderpad=0, handlelength=1.2, handleheight=1.0, columnspacing=1.6,
        )  # fmt: skip


def save(figure: Figure, path: str | os.PathLike[str]) -> Path:
    """Writes a figure of `plot` into a file; the ending says of which kind: svg, png, pdf and others.

    The same figure gives the same bytes. An SVG file is light or dark as the page in which it is shown.

    Parameters
    ----------
    figure : matplotlib.figure.Figure
        The figure.
    path : path
        The file, which is made or replaced.

    Returns
    -------
    pathlib.Path
        Its path.

    Raises
    ------
    ValueError
        Where matplotlib does not know the ending.
    OSError
        Where the file can't be written.
    """
    target = Path(path)
    kind = target.suffix.lstrip(".").lower()
    if kind not in figure.canvas.get_supported_filetypes():
        raise ValueError(f"{target}: the ending of a picture's file is svg, png or pdf, not {kind or 'none'}")
    return files.write(target, rendered(figure, kind))


def rendered(figure: Figure, kind: str) -> bytes:
    """A figure as the bytes of a file of this kind (see `save`)."""
    written = io.BytesIO()
    with settings():
        figure.savefig(written, format=kind, dpi=130, metadata=_METADATA.get(kind), bbox_inches="tight", pad_inches=0.12)
    data = written.getvalue()
    return _light_and_dark(data) if kind == "svg" else data


_METADATA = {"svg": {"Date": None, "Creator": None}, "pdf": {"CreationDate": None}, "png": {"Software": None}}


def _light_and_dark(svg: bytes) -> bytes:
    """An SVG text of matplotlib with rules for dark pages: it writes each colour into the shape, where rules can find it."""
    rules = [
        f'[style*="{what}: {light}"] {{ {what}: {dark} !important }}'
        for light, dark in _DARK.items()
        for what in ("fill", "stroke")
    ]
    # Letters without a colour of their own are black.
    rules.append(f"text {{ fill: {_DARK[INK]} }}")
    top = ElementTree.fromstring(svg)
    dark = ElementTree.Element(f"{{{_SVG}}}style")
    dark.text = "\n@media (prefers-color-scheme: dark) {\n" + "\n".join(rules) + "\n}\n"
    dark.tail = "\n"
    top.insert(0, dark)
    text: bytes = ElementTree.tostring(top, "utf-8", xml_declaration=True)
    return text + b"\n"


_SVG = "http://www.w3.org/2000/svg"
ElementTree.register_namespace("", _SVG)
ElementTree.register_namespace("xlink", "http://www.w3.org/1999/xlink")
