"""What is written and read again has the same answers: the ratios, the receivers, the streams that are kept alive, names and places."""

from __future__ import annotations

import warnings
from pathlib import Path

import pytest
from hypothesis import given, settings, strategies as st

from foldcairn import planning
from foldcairn.common.arguments import ArgumentError
from foldcairn.model.receivers import meant
from foldcairn.model.scenario import On, Put, Scenario, ScenarioError, ScenarioWarning, Stream
from foldcairn.runs import losses, program, results
from networks import LINE
from scenarios import scenarios

WORDS = ["all", "hosts", "others", "pump", "A 1", "Süd"]


@st.composite
def networks(draw) -> Scenario:
    """A scenario with all that a text keeps: ratios in millionths, some of them over time, receivers in each of their forms, streams
    that are kept alive, and names that may be the words of receivers."""
    made = draw(scenarios(frames_most=24))
    nodes, links = sorted(made.nodes), sorted(made.links)
    for node in nodes:
        made.script[:0] = [On(0, node)]
        made.script += [Stream(0, node, 0, 4), *(Put(frame, node, 0, draw(st.sampled_from([b"", b"a"]))) for frame in range(0, made.frames, 3))]
    ratio = st.integers(0, 1_000_000).map(lambda number: number / 1_000_000)
    for link in links:
        if draw(st.booleans()):
            made.link(*link, draw(ratio))
            made.ratio(*link, draw(ratio), frame=draw(st.integers(0, made.frames - 1)))
    made.labels = dict(zip(draw(st.lists(st.sampled_from(nodes), unique=True)), draw(st.permutations(WORDS))))
    made.places = draw(st.dictionaries(st.sampled_from(nodes), st.tuples(*[st.floats(-1e6, 1e6, width=32)] * 2)))
    made.keep_alive = draw(st.sets(st.tuples(st.sampled_from(nodes), st.integers(0, 3)), max_size=4))
    one = st.one_of(st.sampled_from(nodes), st.sampled_from([*made.labels.values(), "all", "hosts"]))
    several = st.lists(st.one_of(st.sampled_from(nodes), st.sampled_from([*made.labels.values(), nodes[0]])), max_size=3)
    whom = st.one_of(one, several)
    source = st.one_of(st.sampled_from(nodes), st.tuples(st.sampled_from(nodes), st.integers(0, 3)))
    by_source = st.dictionaries(source, whom, max_size=3).flatmap(lambda found: whom.map(lambda others: {**found, "others": others}))
    made.receivers = draw(st.one_of(st.none(), whom, by_source if "others" not in made.labels.values() else whom))
    return made


@settings(max_examples=100)
@given(networks())
def test_a_network_that_is_read_again_is_the_same(network: Scenario) -> None:
    """In all that answers go by: its text, which the program runs, for whom its packets are meant, and which of them count."""
    text = network.network_text(warn=False)
    again = Scenario.read(text)
    assert again.network_text(warn=False) == text
    for what in ("nodes", "hosts", "links", "prr", "labels", "places", "keep_alive", "frames", "sends", "profile", "contend"):
        assert getattr(again, what) == getattr(network, what), what
    assert again.ratios == network.ratios and meant(again).by_stream == meant(network).by_stream


@settings(max_examples=10)
@given(networks())
def test_a_network_that_is_read_again_has_the_same_answers(network: Scenario) -> None:
    again = Scenario.read(network.network_text(warn=False))
    one, other = (results.outcome(of, 3, warn=False) for of in (network, again))
    assert one.deliveries.equals(other.deliveries) and one.energy.equals(other.energy)
    assert planning.delivery_ratio(one, "node").equals(planning.delivery_ratio(other, "node"))


def worked() -> Scenario:
    made = Scenario(30).node(1).node(2).node(7).host(0, 1).pair(1, 2, 0.9).pair(2, 7, 0.8).on().stream(7, 4).every(8, 7)
    made.stream(2, 4, keep_alive=20).put(2, b"x", frame=12).sinks({7: [1, 2], (2, 0): "hosts", "others": "all"})
    made.labels, made.places = {7: "pump 1"}, {7: (2.5, -1)}
    return made


def test_the_comments_of_a_text() -> None:
    text = worked().network_text(warn=False)
    assert text.splitlines()[:7] == [
        "#: name 7 pump 1", "#: place 7 2.5 -1.0", "#: keep-alive 2 0", "#: receivers-of 7 1 2", "#: receivers-of 2.0 hosts",
        "#: receivers-of others all", "profile 1",
    ]  # fmt: skip
    assert text.splitlines()[-5:] == ["ratios", "ratio 0 1 2 900000", "ratio 0 2 1 900000", "ratio 0 2 7 800000", "ratio 0 7 2 800000"]
    program.execute(["outcome", "1"], text)
    program.execute(["run"], worked().text(warn=False))
    # The answers that went wrong: the packets that keep a stream alive do not count, and the ratios are there.
    one, other = (planning.delivery_ratio(results.outcome(of, 1, warn=False)) for of in (worked(), Scenario.read(text)))
    assert one["put"].tolist() == [1, 30] and one.equals(other)
    for whom, told in (("hosts", "hosts"), ("all", "all"), (2, "2"), ("pump 1", "7"), ([7, 1], "1 7"), ([], "")):
        made = worked().sinks(whom) if whom != "pump 1" else worked()
        made.labels[7], made.receivers = "pump 1", whom
        assert f"#: receivers {told}".rstrip() in made.text(warn=False).splitlines()
    # A `Meant` is one for all its streams.
    made.receivers = planning.delivery.meant(worked())
    assert "#: receivers-of 7.0 1 2" in made.text(warn=False)


def test_comments_that_fit_no_scenario() -> None:
    rows = ["#: place 9 1 2", "#: place 1 nan 2", "#: place 1 x 2", "#: keep-alive 9 0", "#: keep-alive 1 4", "#: receivers 9", "#: receivers x"]
    rows += ["#: receivers-of 9 1", "#: receivers-of 1.x all", "#: else"]
    made = Scenario.read("\n".join(rows) + "\n" + LINE)
    assert (made.places, made.keep_alive, made.receivers) == ({}, set(), None)
    made.receivers = "well"
    with pytest.raises(ScenarioError, match="`receivers` is 'well', and neither \"all\" nor \"hosts\" nor the name of a node"):
        made.text()


def test_ratios_that_a_text_loses() -> None:
    with pytest.warns(ScenarioWarning, match="has no reception ratios, so the 4 of this one are lost in it, and its links lose nothing; `network_text`"):
        worked().text()
    with warnings.catch_warnings(record=True) as caught:
        warnings.simplefilter("always")
        worked().network_text()
        worked().text(warn=False)
        plain = worked()
        plain.prr.clear()
        plain.text()
    assert not any("lost" in str(one.message) for one in caught)


def test_the_name_of_a_file_is_no_text(tmp_path: Path, monkeypatch: pytest.MonkeyPatch) -> None:
    monkeypatch.chdir(tmp_path)
    Path("plan").write_text(LINE)
    for name in ("plan", "plan.scenario", "of/my plan.network"):
        for call in (Scenario.read, results.run, lambda text: program.execute(["run"], text)):
            with pytest.raises(ArgumentError, match=f"is '{name}', the name of a file, and has to be a text; write pathlib.Path\\('{name}'\\)"):
                call(name)
    assert Scenario.read(Path("plan")).text() == Scenario.read(LINE).text()
    with pytest.raises(ScenarioError, match="line 1: `plane`: no line begins with `plane`"):
        Scenario.read("plane")


def test_places_of_tables_are_those_of_maps(tmp_path: Path) -> None:
    from foldcairn.draw import plot

    (tmp_path / "nodes.csv").write_text("id,x,y,host\n1,0,0,0\n2,40,10,\n")
    (tmp_path / "links.csv").write_text("from,to,both\n1,2,yes\n")
    made = Scenario.from_tables(tmp_path / "nodes.csv", tmp_path / "links.csv", frames=9)
    assert made.places == {1: (0, 0), 2: (40, 10)} == Scenario.read(made.text(warn=False)).places
    drawn, laid = (plot.topology(made, **given).axes[0].get_xlim() for given in ({}, {"positions": made.places}))
    assert drawn == laid
    del made.places[2]
    assert plot.topology(made).axes[0].get_xlim() != laid


def test_a_run_without_the_losses_of_its_ratios_says_so() -> None:
    """A log or a report of a network loses nothing by its ratios; what draws by a seed warns of nothing."""
    made = Scenario.read(LINE).pair(2, 3, 0.5)
    for call in (results.log, results.run, results.bus):
        with pytest.warns(ScenarioWarning, match="this run loses nothing by the 2 reception ratios of the network; `foldcairn.run` draws"):
            call(made)
    with warnings.catch_warnings():
        warnings.simplefilter("error")
        results.log(losses.draw(made, 1))
        results.outcome(made, 1)
        results.log(made, warn=False)
