"""The page's reader and writer of TOML, by Python's `tomllib`; and of plan files, by `foldcairn.plan`."""

from __future__ import annotations

import copy
import datetime
import math
import random
import tomllib
from collections.abc import Callable
from typing import Any

import pytest
from studio_modules import Raised, call, calls, needs_node

from foldcairn.plan import Plan, PlanError
from foldcairn.studio import given, writing

pytestmark = needs_node

TEXTS = [
    "", "# nothing", "a = 1\n", "a = 1\nb = 2.5e3\nc = -0.5\nd = 1_000\ne = 0x1F\nf = 0o17\ng = 0b101\n", "a = inf\nb = -inf\nc = +inf\nd = nan\n",
    "a = true\nb = false\n", 'a = "q\\"\\\\ \\t\\u00e9 \\U0001F600"\n', "a = 'C:\\x'\n", 'a = """\nline\\\n   on\n"""\n', "a = '''\nx'y''z'''\n",
    'a = """x"""""\n', "a = '''x'''''\n",
    "a = [1, 2, 3]\nb = [\n 'x', # c\n 'y',\n]\nc = [[1], []]\n", "a = {b = 1, c = {d = 2}}\n", "a.b.c = 1\na.b.d = 2\n", '"a b".\'c d\' = 1\n',
    "[a]\nx = 1\n[b.c]\ny = 2\n[b]\nz = 3\n",
    "[[a]]\nx = 1\n[[a]]\nx = 2\n[a.b]\ny = 3\n[[a.c]]\nz = 4\n", "a = 1979-05-27\nb = 1979-05-27T07:32:00Z\nc = 1979-05-27 00:32:00.5-07:00\nd = 07:32:00\n",
    "a = 9223372036854775807\n", "a=1\r\nb=2\r\n", "1 = 2\n1.5 = 3\n", "[ a . b ]\nc = 1\n", "a = -0.0\nb = +1\n", "\tx = 1 # y\n", 'a = ""\nb = \'\'\n',
    # These are no TOML.
    "a", "a =", "a = 1 b = 2", "a = 01", "a = 1__0", "a = .5", "a = 5.", "a = 1e", "[a", "[a]]", "[[a]", "[]", "a = 'x", 'a = "x', 'a = "\\x"',
    'a = "\\ud800"', "a = [1", "a = {b = 1,}",
    "a = 1\na = 2", "[a]\n[a]", "a = 1\n[a]", "a.b = 1\na = 2", "[a.b]\n[a]\nb = 1", "a = [1]\n[[a]]", "[[a]]\n[a]", "a = {b = 1}\n[a.c]",
    "a = {b = 1}\na.c = 2", "[a]\nb.c = 1\n[a.b]", "a = tru",
    "a = 2026-13-01", "a = 2026-02-30", "a = 25:00:00", "a = 1\x00", "# \x07", "a = 'x\ny'", "= 1", "a == 1", "a = \"\"\"x", "a = 0xG", "a = +0x1",
    "a = [1,,2]", "a = {b\n= 1}", "a..b = 1",
]  # fmt: skip


def _plain(value: Any) -> Any:
    """A value of `tomllib` as the page's reader tells it."""
    if isinstance(value, dict):
        return {key: _plain(one) for key, one in value.items()}
    if isinstance(value, list):
        return [_plain(one) for one in value]
    if isinstance(value, (datetime.datetime, datetime.date, datetime.time)):
        return "date"
    return "nan" if isinstance(value, float) and math.isnan(value) else value


def _told(value: Any, due: Any) -> Any:
    """A value of the page's reader; of dates only that they are."""
    if isinstance(due, dict) and isinstance(value, dict):
        return {key: _told(one, due.get(key)) for key, one in value.items()}
    if isinstance(due, list) and isinstance(value, list) and len(value) == len(due):
        return [_told(one, other) for one, other in zip(value, due)]
    if due == "date" and isinstance(value, str) and value[:1].isdigit():
        return "date"
    return "nan" if isinstance(value, float) and math.isnan(value) else value


def _due(text: str) -> Any:
    try:
        return _plain(tomllib.loads(text))
    except (tomllib.TOMLDecodeError, ValueError, RecursionError):
        return None


def _is_read_alike(text: str, found: Any) -> None:
    due = _due(text)
    if due is None:
        assert isinstance(found, Raised), (text, found)
    else:
        assert not isinstance(found, Raised), (text, found)
        assert _told(found["document"], due) == due, text


def test_texts_are_read_as_tomllib_reads_them() -> None:
    for text, found in zip(TEXTS, calls([("toml_read", "readToml", [text]) for text in TEXTS]), strict=True):
        _is_read_alike(text, found)


def test_texts_with_an_edit_are_read_as_tomllib_reads_them() -> None:
    chance = random.Random(1)
    source = writing.example() + "".join(text + "\n" for text in TEXTS[:26])
    texts = []
    for _ in range(600):
        lines = chance.choice([source.split("\n"), chance.choice(TEXTS[:26]).split("\n")])
        start = chance.randrange(max(1, len(lines)))
        text = "\n".join(lines[start : start + chance.randint(1, 8)])
        place = chance.randrange(len(text) + 1)
        texts.append(text[:place] + chance.choice(["", *'[]{}="\'#.,\n\\_-+ 0e']) + text[place + chance.randint(0, 2) :])
    for text, found in zip(texts, calls([("toml_read", "readToml", [text]) for text in texts]), strict=True):
        _is_read_alike(text, found)


def test_what_is_written_is_read_alike() -> None:
    plan = {"name": 'q"\\ é\t😀', "a": 1, "b": 0.1, "c": 1e-9, "d": True, "e": [1, [2.5, "x"]], "f": {"g h": 1}}
    document = {"plan": plan, "node": [{"name": "a"}, {"name": ""}]}
    assert tomllib.loads(call("toml_write", "writeToml", document)) == document


def test_the_example_is_written_without_a_loss() -> None:
    schema, text = given.schema(), writing.example()
    plan = call("plan_file", "readPlan", schema, text)
    assert Plan.parse(call("plan_write", "writePlan", schema, plan)) == Plan.parse(text)


COMMENTED = """# Hall 7, drawn by hand
[plan]
name = "Hall"      # as on the door
hours = 1_0.0e-1
# so that a night is enough
seeds = 40

[losses]
from = 'positions'
preset = "office"   # from the guide
walls = [
  [0, 5, 10, 5],  # the long one
]

# Nodes, from the door on.
[[node]]
id = 7
name = 'Door'   # its cable is short
x = 0
y = 0

# It is old.
[[node]]
name = "Oven"
id = 9
x = 10.50
y = 4

[[node]]
name = "Roof"
id = 3
x = 5
y = 9
# the roof is flat

[[host]]
node = "Door"

# Each minute.
[[stream]]
from = "Oven"
every = 60
[[stream]]
from = "Roof"
every = 60
"""


def _changed(text: str, change: Callable[[dict[str, Any]], object]) -> str | None:
    """The text with a change of its plan, as the page writes it; None where it has to be written anew."""
    schema = given.schema()
    plan = call("plan_file", "readPlan", schema, text)
    change(plan)
    found = call("plan_write", "inPlace", schema, plan, text)
    assert found is None or Plan.parse(found.encode()) == Plan.parse(call("plan_write", "writePlan", schema, plan))
    return found  # type: ignore[no-any-return]


def test_what_is_not_changed_stays_as_it_is_written() -> None:
    assert _changed(COMMENTED, lambda plan: None) == COMMENTED
    windows = "\ufeff" + COMMENTED.replace("\n", "\r\n")
    assert _changed(windows, lambda plan: None) == windows


def test_a_change_keeps_the_comments_around_it() -> None:
    assert _changed(COMMENTED, lambda plan: plan["node"][1].update(x=11)) == COMMENTED.replace("10.50", "11")
    assert _changed(COMMENTED, lambda plan: plan["plan"].update(name="Hall 8")) == COMMENTED.replace('"Hall" ', '"Hall 8" ')
    walls = COMMENTED[COMMENTED.index("walls") : COMMENTED.index("# Nodes")]
    assert _changed(COMMENTED, lambda plan: plan["losses"]["walls"].pop()) == COMMENTED.replace(walls, "\n")
    assert _changed(COMMENTED, lambda plan: plan["node"][2].update(powered="mains")) == COMMENTED.replace("y = 9\n", 'y = 9\npowered = "mains"\n')


def test_rows_go_and_come_with_their_comments() -> None:
    oven = COMMENTED[COMMENTED.index("# It is old.") : COMMENTED.index('[[node]]\nname = "Roof"')]
    stream = COMMENTED[COMMENTED.index("# Each minute.") : COMMENTED.index('[[stream]]\nfrom = "Roof"')]
    assert _changed(COMMENTED, lambda plan: (plan["node"].pop(1), plan["stream"].pop(0))) == COMMENTED.replace(oven, "").replace(stream, "")

    def added(plan: dict[str, Any]) -> None:
        plan["node"].append({**plan["node"][2], "name": "Gate", "id": 4, "x": 1, "y": 1})

    row = '\n\n[[node]]\nname = "Gate"\nx = 1\ny = 1\nid = 4\n'
    found = _changed(COMMENTED, added)
    assert found is not None and "# the roof is flat" in found and "# It is old." in found
    assert sorted(found.split()) == sorted((COMMENTED + row).split()) and found.index("Roof") < found.index("Gate") < found.index("[[host]]")


def test_a_node_with_another_name_keeps_its_comments() -> None:
    def renamed(plan: dict[str, Any]) -> None:
        plan["node"][1]["name"] = plan["stream"][0]["from"] = plan["stream"][0]["name"] = "Kiln"

    assert _changed(COMMENTED, renamed) == COMMENTED.replace("Oven", "Kiln")


def test_what_has_no_place_in_the_text_is_written_anew() -> None:
    dotted = COMMENTED.replace('[plan]\nname = "Hall"      # as on the door\n', 'plan.name = "Hall"\nplan.').replace("plan.hours", "plan.hours", 1)
    dotted = dotted.replace("# so that a night is enough\nseeds = 40\n", "plan.seeds = 40\n")
    assert _changed(dotted, lambda plan: plan["plan"].update(seeds=50)) is None


def test_rows_in_another_order_keep_what_is_around_them() -> None:
    found = _changed(COMMENTED, lambda plan: plan["node"].reverse())
    assert found is not None and "# the roof is flat" in found and "# so that a night is enough" in found


def test_random_changes_lose_nothing() -> None:
    """What is written in place reads back as the plan; and most changes of the example have a place."""
    chance, schema, text = random.Random(5), given.schema(), writing.example()
    asked, places = [], 0
    for _ in range(60):
        plan = copy.deepcopy(call("plan_file", "readPlan", schema, text)) if not asked else copy.deepcopy(asked[0])
        for _ in range(chance.randint(0, 4)):
            table = chance.choice(["node", "stream", "requirement"])
            rows = plan[table]
            kind = chance.random()
            if kind < 0.4 and len(rows) > 2:
                rows.pop(chance.randrange(len(rows)))
            elif table == "node":
                chance.choice(rows)["x"] = chance.randint(0, 400) / 10
            elif table == "stream":
                chance.choice(rows)["every"] = chance.randint(20, 400)
        asked.append(plan)
    found = calls([("plan_write", "inPlace", [schema, plan, text]) for plan in asked])
    again = calls([("plan_file", "readPlan", [schema, one]) for one in found if one is not None])
    for plan, one in zip([plan for plan, one in zip(asked, found, strict=True) if one is not None], again, strict=True):
        assert one == plan
        places += 1
    assert places > 50


WRONG = [
    ("[plan]\nnane = 'x'\n", "did you mean name?"), ("[plam]\n", "did you mean plan?"), ("[plan]\nhours = 'x'\n", "`hours`"),
    ("[[node]]\nx = 1\n", "`name` is not given"),
    ("[node]\nname = 'a'\n", "[[node]]"), ("[[losses]]\n", "[losses]"), ("[[node]]\nname = 'a'\nid = 201\n", "from 1 to 200"),
    ("[[link]]\nfrom = 'a'\nto = 'b'\nprr = 1.0\n", "do you mean ratio?"),
    ("[[node]]\nname = 'hosts'\n", "hosts stands for several nodes, so none has this name"),
    ("[plan]\nsends = 9\n", "from 1 to 4"), ("[[stream]]\nfrom = 'a'\nevery = 0\n", "above 0"), ("[losses]\nfrom = 'air'\n", "survey"),
    ("[floor]\nextent = [1, 2]\n", "four numbers"),
]  # fmt: skip


@pytest.mark.parametrize(("text", "told"), WRONG)
def test_a_wrong_plan_names_its_line_as_python_does(text: str, told: str) -> None:
    with pytest.raises(PlanError) as ours:
        Plan.parse(text, "plan.toml")
    with pytest.raises(Raised) as theirs:
        call("plan_file", "readPlan", given.schema(), text, "plan.toml")
    line = str(ours.value).split(":", 1)[0]
    assert told in str(ours.value) and told in str(theirs.value)
    assert str(theirs.value).startswith(line), (str(ours.value), str(theirs.value))
