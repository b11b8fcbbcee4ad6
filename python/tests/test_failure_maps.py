"""Maps of what breaks where nodes fail, and of what relays mend: colours, and names that touch nothing. The tables are planted."""

from __future__ import annotations

import math
from dataclasses import replace
from pathlib import Path

import factory
import pandas as pd
import pytest
from matplotlib.colors import to_hex
from matplotlib.figure import Figure
from PIL import Image
from plants import chain, halls
from test_plot import covered, words

from foldcairn import plot
from foldcairn.draw import failures as maps
from foldcairn.plan import Floor, Plan
from foldcairn.requirements.failing import Failures
from foldcairn.requirements.relaying import Relays


def _failures(plan: Plan, duration: float = math.inf, **broken: dict[str, object]) -> Failures:
    """Failures of all nodes, some of which do something."""
    names = [name for name, node in plan.nodes.items() if not node.candidate]
    plain = {"requirements": "", "breaks": 0, "cut_off": "", "lost": "", "undecided": 0}
    rows = [{"failed": name, **plain, **broken.get(name.replace("-", "_"), {})} for name in names if broken.get(name.replace("-", "_")) != {}]
    return Failures(plan, 240.0, duration, 0.5, pd.DataFrame(rows), pd.DataFrame())


def _breaks(*names: str) -> dict[str, object]:
    return {"requirements": "; ".join(names), "breaks": len(names)}


def _key(figure: Figure) -> list[str]:
    return [text.get_text() for text in figure.axes[0].get_legend().get_texts()]


def test_colours_say_what_breaks() -> None:
    found = _failures(chain(), 60.0, H=_breaks("all", "more"), R_1=_breaks("all"), R_2={"cut_off": "R-3"}, R_3={"undecided": 2})
    figure = plot.failures(found)
    assert _key(figure) == ["link", "breaks all", "breaks all, more", "cuts others off", "not decided"] and covered(figure) == []
    assert "What breaks where a node fails for 60 s at 240 s" in words(figure) and "H" in words(figure)
    colours = {to_hex(line.get_color()) for line in figure.axes[0].lines if line.get_marker() in ("o", "s") and len(line.get_xdata())}
    assert len(colours) == 4
    rest = _key(plot.failures(_failures(chain(), R_1={}, R_2=_breaks("a requirement with a long name", "and another one as long"))))
    assert rest[1:] == ["breaks a requirement with a long name, and another ..", "breaks nothing", "not asked for"]


def test_what_breaks_most_often_has_colours_of_its_own(tmp_path: Path) -> None:
    plan = Plan.read(factory.write(tmp_path))
    broken = {f"L_{number:02}": _breaks(f"requirement {number}") for number in range(1, 9)}
    figure = plot.failures(_failures(plan, **broken, A_101=_breaks("loops"), B_101=_breaks("loops")))
    shown = _key(figure)
    assert "breaks loops" in shown and "breaks others" in shown and sum(one.startswith("breaks requirement") for one in shown) == 4
    assert covered(figure) == [] and {"A-101 (host 0)", "B-101 (host 1)"} <= set(words(figure))


def test_places_of_relays() -> None:
    plan = halls()
    places = pd.DataFrame({"candidate": ["between", "aside", "nothing"], "mended": [4, 2, 0]})
    figure = plot.relays(Relays(plan, 4, places, pd.DataFrame()))
    assert _key(figure)[-4:] == ["a relay here mends all", "a relay here mends half or more", "a relay here mends nothing", "no candidate"]
    assert covered(figure) == [] and "What a relay mends at 3 places" in words(figure)
    assert maps._mended({"mended": 1}, 4) == (maps._MENDS[2], "a relay here mends less than half")


@pytest.mark.parametrize("floors", [1, 2])
def test_the_picture_of_the_floor(tmp_path: Path, floors: int) -> None:
    """It is that of the plan where all nodes are on one floor."""
    Image.new("RGB", (60, 30), "#eeeeee").save(tmp_path / "floor.png")
    plan = replace(chain(), path=tmp_path / "plan.toml", floor=Floor(picture="floor.png", extent=[0.0, -10.0, 60.0, 20.0]))
    if floors == 2:
        plan.nodes["R-3"] = replace(plan.nodes["R-3"], floor=1)
    figure = plot.failures(_failures(plan))
    assert len(figure.axes[0].images) == 2 - floors
