"""Sweeps: the table, going on where one was stopped, errors of single cases, and other executors."""

from __future__ import annotations

import datetime
import io
import json
import os
import warnings
from concurrent.futures import ProcessPoolExecutor, ThreadPoolExecutor
from functools import partial
from pathlib import Path

import numpy
import pandas
import pytest

from conftest import EXAMPLES
from foldcairn import planning
from foldcairn.many import counts, sweep
from foldcairn.model.scenario import On, Scenario, grid, line
from foldcairn.runs import kept, losses, program

LINE = EXAMPLES / "packets-along-a-line.scenario"


def network(interval: int, seed: int = 0) -> Scenario:
    """A line of three whose last node has packets; with a seed its links lose a fifth."""
    made = Scenario.from_graph(line(3), 20, hosts=[1]).stream(3, interval).put(3, b"a").put(3, b"b", frame=1)
    if seed:
        for link in sorted(made.links):
            made.link(*link, prr=0.8)
        made = losses.draw(made, seed)
    return made


def broken(interval: int) -> str:
    if interval == 5:
        raise program.OutOfMemory("out of memory")
    return "frames 2\n" if interval == 6 else network(interval).text(warn=False)


def dying(interval: int) -> str:
    if interval == 5:
        os._exit(9)
    return network(interval).text(warn=False)


def by_node(scenario: Scenario | str) -> pandas.DataFrame:
    rows = [row.split() for row in program.execute(["run"], sweep.text_of(scenario)).decode().splitlines()]
    return pandas.DataFrame({"node": [int(row[1]) for row in rows if row[0] == "energy"], "windows": 1.5})


def test_the_cases_of_a_grid_and_of_a_folder():
    assert sweep.grid(a=[1, 2], b="x") == [{"a": 1, "b": "x"}, {"a": 2, "b": "x"}]
    assert [Path(case["file"]).name for case in sweep.files(EXAMPLES, "three*")] == ["three-in-a-line.flood"]


@pytest.mark.processes
def test_a_table_in_the_order_of_its_cases():
    table = sweep.sweep(network, sweep.grid(interval=[16, 4, 8]), progress=False)
    assert list(table.columns) == ["interval", "status", "deliveries", "drops", "sent_ticks", "on_ticks"]
    assert table.interval.tolist() == [16, 4, 8]
    assert table.status.tolist() == ["ok"] * 3
    # Two packets, two receivers, a slot every so many seconds: the lines of the report.
    assert table.deliveries.tolist() == [
        program.execute(["run"], network(interval).text()).count(b"deliver ") for interval in (16, 4, 8)
    ]
    assert table.deliveries.max() == 4


def test_several_rows_a_case_and_the_sums_of_an_example():
    table = sweep.sweep(network, [{"interval": 4}, {"interval": numpy.int64(8)}], by_node, progress=False)
    assert table[["interval", "node", "windows"]].values.tolist() == [[i, n, 1.5] for i in (4, 8) for n in (1, 2, 3)]
    # The sums of the lines of examples/expected/packets-along-a-line.report.
    assert sweep.summary(LINE.read_text()) == {
        "deliveries": 6, "drops": 0, "sent_ticks": 4 * 684_032, "on_ticks": 1237304558 + 1352602489 + 1352834504 + 1352926109
    }  # fmt: skip


class Counted:
    """A measure that notes its calls in a file."""

    def __init__(self, log: Path) -> None:
        self.log = str(log)

    def __call__(self, scenario: Scenario | str) -> dict[str, int]:
        with open(self.log, "a") as sink:
            sink.write("measured\n")
        return sweep.summary(scenario)

    def count(self) -> int:
        return len(Path(self.log).read_text().split()) if Path(self.log).exists() else 0


@pytest.mark.processes
def test_going_on_where_it_was_stopped(tmp_path):
    measure, results = Counted(tmp_path / "log"), tmp_path / "results"
    first = sweep.sweep(network, sweep.grid(interval=[4, 8]), measure, results=results, progress=False)
    more = sweep.grid(interval=[16, 8, 4])
    second = sweep.sweep(network, more, measure, results=results, progress=False)
    assert measure.count() == 3
    assert second[1:].values.tolist() == first[::-1].values.tolist()
    pandas.testing.assert_frame_equal(second, sweep.sweep(network, more, measure, results=results, progress=False))
    assert measure.count() == 3 and len(list(results.iterdir())) == 3


@pytest.mark.parametrize(
    "damage",
    [
        lambda text: "{",
        lambda text: "[]",
        lambda text: text.replace('"rows": [{', '"rows": [], "more": [{'),
        lambda text: json.dumps({**json.loads(text), "result": {"status": "ok", "rows": "abc", "message": ""}}),
        lambda text: json.dumps({**json.loads(text), "result": {"status": "ok", "rows": [], "message": ""}}),
        # A file of another writer, with a checksum that fits.
        lambda text: json.dumps({**json.loads(text), "result": [1], "checksum": kept.digest([1])}),
        lambda text: json.dumps({**json.loads(text), "result": shaped("abc"), "checksum": kept.digest(shaped("abc"))}),
    ],
)  # fmt: skip
def test_a_result_of_the_wrong_shape_is_made_again(tmp_path, damage):
    cases = sweep.grid(interval=[4, 8])
    measure = Counted(tmp_path / "log")
    whole = sweep.sweep(network, cases, measure, results=tmp_path / "kept", progress=False)
    broken = sorted((tmp_path / "kept").iterdir())[0]
    broken.write_text(damage(broken.read_text()))
    pandas.testing.assert_frame_equal(whole, sweep.sweep(network, cases, measure, results=tmp_path / "kept", progress=False))
    assert measure.count() == 3
    pandas.testing.assert_frame_equal(whole, sweep.sweep(network, cases, measure, results=tmp_path / "kept", progress=False))
    assert measure.count() == 3


def shaped(rows: object) -> dict[str, object]:
    return {"status": "ok", "rows": rows, "message": ""}


def test_results_can_be_read_by_others(tmp_path):
    before = os.umask(0o022)
    try:
        sweep.sweep(network, [{"interval": 4}], results=tmp_path, progress=False)
    finally:
        os.umask(before)
    (path,) = tmp_path.iterdir()
    assert path.stat().st_mode & 0o777 == 0o644
    assert json.loads(path.read_text())["about"] == program.versions()


def deliveries_alone(scenario):
    return {"count": sweep.summary(scenario)["deliveries"]}


def test_what_is_kept_is_never_the_answer_to_another_question(tmp_path, monkeypatch):
    results, folders = tmp_path / "results", [tmp_path / "a", tmp_path / "b"]
    texts = [LINE.read_text(), LINE.read_text().replace("pair 3 4\n", "")]
    for folder, text in zip(folders, texts):
        folder.mkdir()
        (folder / "x.scenario").write_text(text)
    counts = []
    # The same name from two folders, and the first again.
    for folder in (*folders, folders[0]):
        monkeypatch.chdir(folder)
        counts += sweep.sweep(sweep.from_file, sweep.files("."), results=results, progress=False).deliveries.tolist()
    assert counts == [6, 0, 6]
    assert len(list(results.iterdir())) == 2
    # A file that changed.
    (folders[0] / "x.scenario").write_text(texts[1])
    assert sweep.sweep(sweep.from_file, sweep.files("."), results=results, progress=False).deliveries.tolist() == [0]
    # Another measure.
    other = sweep.sweep(sweep.from_file, sweep.files("."), deliveries_alone, results=results, progress=False)
    assert list(other.columns) == ["file", "status", "count"]
    # Another program.
    before = len(list(results.iterdir()))
    copied = tmp_path / "program"
    copied.write_bytes(Path(os.environ["FOLDCAIRN"]).read_bytes() + b" ")
    copied.chmod(0o755)
    monkeypatch.setenv("FOLDCAIRN", str(copied))
    sweep.sweep(sweep.from_file, sweep.files("."), results=results, progress=False)
    assert len(list(results.iterdir())) == before + 1


def test_ratios_and_seeds_are_part_of_the_question(tmp_path):
    def drawing(prr: float, seed: int = 1) -> losses.Drawing:
        return losses.Drawing(Scenario.read(LINE).link(3, 2, prr).link(4, 3, prr), seed)

    keys = {sweep.kept.digest(sweep._content(one)) for one in (drawing(0.5), drawing(0.6), drawing(0.5, 2), drawing(0.5).scenario)}
    assert len(keys) == 4
    assert sweep._content(drawing(0.5)) == sweep._content(drawing(0.5))


def of_line(drawing=None, **more) -> Scenario | losses.Drawing:
    made = Scenario.read(LINE)
    for name, value in more.items():
        setattr(made, name, value)
    return drawing(made, 1) if drawing else made


def test_receivers_and_kinds_of_drawings_are_part_of_the_question(tmp_path):
    """What is meant for whom, and what is measured, are in no text."""
    found = []
    for given in ({}, {"receivers": [1]}, {"keep_alive": {(3, 0)}}, {"drawing": losses.Outcome}, {"drawing": counts.Sampled}, {}):
        with ThreadPoolExecutor(1) as threads:
            build = partial(of_line, **given)
            table = sweep.sweep(lambda: build(), [{}], planning.summary, executor=threads, results=tmp_path, progress=False)
        found.append(("hosts" in table, "sent" in table))
    assert len(list(tmp_path.iterdir())) == 5
    # A log has the hosts, and counts have what became of packets.
    assert found == [(True, False), (True, False), (True, False), (False, False), (False, True), (True, False)]


def test_a_measure_by_all_of_what_it_holds():
    """Of large arrays and tables `repr` has the ends alone."""
    arrays = [numpy.arange(5_000) for _ in range(3)]
    arrays[1][2_500] = -1
    names = [kept.spelled(partial(deliveries_alone, array)) for array in arrays]
    assert names[0] == names[2] != names[1]
    names = [kept.spelled(partial(deliveries_alone, pandas.DataFrame({"x": array}))) for array in arrays]
    assert names[0] == names[2] != names[1]
    assert kept.spelled(partial(deliveries_alone, Path("a"))) == kept.spelled(partial(deliveries_alone, "a"))
    with open(LINE) as what_has_no_content:
        assert kept.spelled(partial(deliveries_alone, what_has_no_content))


def test_plain_parameters_have_one_name():
    assert kept.digest(Path("a/b"), b"x", numpy.int64(3), [1.5]) == kept.digest("a/b", "78", 3, [1.5])
    with pytest.raises(TypeError, match="can't be kept"):
        kept.digest(object())


def test_a_measure_by_its_source_what_it_holds_or_a_name(tmp_path):
    def made(factor: int):
        return lambda scenario: {"count": factor * sweep.summary(scenario)["deliveries"]}

    assert kept.spelled(made(1)) != kept.spelled(made(2))
    assert kept.spelled(partial(deliveries_alone)) != kept.spelled(deliveries_alone)
    assert kept.spelled(Counted(tmp_path / "a")) != kept.spelled(Counted(tmp_path / "b"))
    assert kept.spelled(Counted(tmp_path / "a")) == kept.spelled(Counted(tmp_path / "a"))
    # Without a source there is the code.
    typed = [eval(f"lambda scenario: {{'count': {count}}}") for count in (1, 2, 2)]
    assert kept.spelled(typed[0]) != kept.spelled(typed[1]) == kept.spelled(typed[2])
    with ThreadPoolExecutor(1) as threads:
        for measure, name, count in ((made(1), "by name", 4), (made(5), "by name", 4), (made(5), None, 20)):
            table = sweep.sweep(network, [{"interval": 4}], measure, executor=threads, results=tmp_path / "r", progress=False, name=name)
            assert table["count"].tolist() == [count]


def test_single_cases_that_fail(tmp_path):
    cases = sweep.grid(interval=[4, 5, 6])
    table = sweep.sweep(broken, cases, results=tmp_path, progress=False)
    assert table.status.tolist() == ["ok", "OutOfMemory", "Refused"]
    assert table.message[1] == "out of memory"
    assert table.message[2].startswith("line 2: the text ends above this line, and lacks a `sends` line")
    # A rejected text is kept as such; what was never built is made again.
    assert len(list(tmp_path.iterdir())) == 2
    # A count that the failed rows lack stays whole.
    assert str(table.deliveries.dtype) == "Int64" and table.deliveries[0] == 4 and table.deliveries[1] is pandas.NA
    assert table.to_csv(index=False).splitlines()[1].startswith("4,ok,4,0,")


def too_lossy(seed: int) -> losses.Drawing:
    """Far more losses than a text has room for: lines that do nothing leave 100 for them."""
    made = Scenario.from_graph(grid(3, 3), 60, hosts=[1], profile=2)
    for link in sorted(made.links):
        made.link(*link, prr=0.3)
    for node in range(2, 10):
        made.stream(node, 4).every(4, node)
    made.script += [On(59, 1)] * (19_900 - len(made.script))
    return losses.Drawing(made, seed)


def test_losses_that_do_not_fit_are_kept_as_such(tmp_path, monkeypatch):
    drawn = []
    draw = losses.draw
    monkeypatch.setattr(losses, "draw", lambda *rest, **named: (drawn.append(rest), draw(*rest, **named))[1])
    for _ in range(2):
        with ThreadPoolExecutor(1) as threads:
            table = sweep.sweep(too_lossy, [{"seed": 1}], executor=threads, results=tmp_path, progress=False)
        assert table.status.tolist() == ["TooManyLosses"]
        assert "shorten the run to" in table.message[0] and "draw parts" not in table.message[0]
    assert len(drawn) == 1


def test_a_worker_that_dies_loses_nothing_of_what_is_kept(tmp_path):
    with ProcessPoolExecutor(1) as pool, pytest.raises(sweep.SweepStopped, match="the executor broke down") as stopped:
        sweep.sweep(dying, sweep.grid(interval=[4, 8, 5, 16]), executor=pool, results=tmp_path, progress=False)
    there = len(list(tmp_path.iterdir()))
    assert there >= 1
    # What is left is what is not there.
    assert f"with {4 - there} cases still to make" in str(stopped.value)
    table = sweep.sweep(dying, sweep.grid(interval=[4, 8, 16]), results=tmp_path, progress=False)
    assert table.status.tolist() == ["ok"] * 3


def test_cases_that_are_none():
    with pytest.raises(ValueError, match="comes twice"):
        sweep.sweep(network, [{"interval": 4}, {"interval": 4}], progress=False)
    with pytest.raises(ValueError, match="is no number, word, or list"):
        sweep.sweep(network, [{"interval": object()}], progress=False)
    assert sweep.sweep(network, [], progress=False).empty


def test_the_progress():
    told = io.StringIO()
    sweep.sweep(network, sweep.grid(interval=[4, 8]), executor=ThreadPoolExecutor(2), progress=told)
    assert "2/2" in told.getvalue() and "cases" in told.getvalue()
    sweep.sweep(network, sweep.grid(interval=[4, 8]), executor=ThreadPoolExecutor(2), progress=False)


def test_the_table_has_versions():
    assert sweep.sweep(network, [{"interval": 4}], executor=ThreadPoolExecutor(1), progress=False).attrs == program.versions()
    assert set(program.versions()) == {"package", "planner", "program"} and len(program.versions()["program"]) == 64


@pytest.mark.processes
def test_all_executors_give_the_same_table():
    cases = sweep.grid(interval=[4, 8], seed=[1, 2, 3])
    table = sweep.sweep(network, cases, progress=False)
    assert table.deliveries.nunique() > 1
    with ThreadPoolExecutor(2) as threads:
        pandas.testing.assert_frame_equal(table, sweep.sweep(network, cases, executor=threads, progress=False))


def measured_of_all_kinds(scenario: Scenario) -> dict[str, object]:
    return {
        "when": pandas.Timestamp("2026-12-01 05:40:00.25"), "utc": pandas.Timestamp("2026-12-01", tz="UTC"), "took": pandas.Timedelta(1.5, "s"),
        "began": datetime.datetime(2026, 12, 1, 5, 40), "waited": datetime.timedelta(minutes=3), "missing": pandas.NA, "never": pandas.NaT, "nothing": None,
        "pair": (1, (2.5, "x")), "nodes": {3, 1}, "listed": [(1, 2)], "number": numpy.int64(7), "parts": {"tuple": (), "#tuple": 1, "more": 2},
    }  # fmt: skip


def test_results_of_all_kinds_come_back_as_they_were(tmp_path):
    tables = [
        sweep.sweep(network, [{"interval": 4}], measured_of_all_kinds, executor=ThreadPoolExecutor(1), results=folder, progress=False)
        for folder in (None, tmp_path, tmp_path)
    ]
    assert len(list(tmp_path.iterdir())) == 1
    for table in tables[1:]:
        pandas.testing.assert_frame_equal(table, tables[0])
    store, given = kept.Store(tmp_path), measured_of_all_kinds(network(4))
    store.keep("all", given)
    found = store.take("all")
    assert found.pop("missing") is given.pop("missing") is pandas.NA and found.pop("never") is given.pop("never") is pandas.NaT
    assert found == given and [type(one) for one in found.values()] == [int if name == "number" else type(one) for name, one in given.items()]
    assert type(found["pair"][1]) is tuple and type(found["listed"][0]) is tuple


def test_a_result_that_can_not_be_kept_stops_nothing(tmp_path):
    def measure(scenario: Scenario) -> dict[str, object]:
        return {"what": object() if "stream 0 3 0 4" in scenario.text(warn=False) else "words"}

    with warnings.catch_warnings(record=True) as told:
        warnings.simplefilter("always")
        table = sweep.sweep(network, sweep.grid(interval=[4, 8]), measure, executor=ThreadPoolExecutor(1), results=tmp_path, progress=False)
    assert table["status"].tolist() == ["ok", "ok"] and table["what"][1] == "words" and len(list(tmp_path.iterdir())) == 1
    assert "a result is in the table and is not kept, so the next call makes it again: <object object" in str(told[0].message)


def test_a_kept_file_that_nests_too_deeply_is_made_again(tmp_path):
    whole = sweep.sweep(network, [{"interval": 4}], results=tmp_path, progress=False)
    (path,) = tmp_path.iterdir()
    for text in ("[" * 100_000 + "]" * 100_000, '{"result": ' + "[" * 900 + "]" * 900 + "}", '{"key": "%s", "result": {"#time": 3}}' % path.stem):
        path.write_text(text)
        pandas.testing.assert_frame_equal(whole, sweep.sweep(network, [{"interval": 4}], results=tmp_path, progress=False))
        assert json.loads(path.read_text())["result"]["status"] == "ok"
