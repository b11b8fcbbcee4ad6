"""Scenarios for tests: any that the program accepts, but small, by hypothesis; and one as a planner would build it."""

from __future__ import annotations

import random

from hypothesis import strategies as st

from foldcairn.model.scenario import Capture, Cut, Leave, Loss, Off, On, Put, Rate, Scenario, Stream, grid


def planned_grid() -> Scenario:
    """25 nodes in a grid with a ratio for each link, 20 streams with a packet every 8 to 60 s, half an hour, and a host that fails
    after 15 minutes."""
    chance = random.Random(1)
    graph = grid(5, 5, diagonals=True).to_directed()
    for sender, receiver in sorted(graph.edges):
        straight = abs(sender - receiver) in (1, 5)
        graph.edges[sender, receiver]["prr"] = round(chance.uniform(0.85, 1) if straight else chance.uniform(0.6, 0.9), 2)
    for node in sorted(graph):
        graph.nodes[node]["ppm"] = chance.randint(-20, 20)
    for node in sorted(graph):
        graph.nodes[node]["offset"] = chance.randint(0, 256_000)
    scenario = Scenario.from_graph(graph, frames=360, hosts=[3, 13], profile=2, contend=4)
    sources = chance.sample([node for node in sorted(graph) if node != 3], 20)
    interval = {node: chance.randint(8, 60) for node in sources}
    phase = {node: chance.random() * interval[node] for node in sources}
    for node in sources:
        scenario.stream(node, interval[node]).every(interval[node], node, start=phase[node])
    return scenario.off(3, seconds=900)


@st.composite
def scenarios(draw, frames_most: int = 8) -> Scenario:
    """A scenario with every kind of line, each with its whole range where a run stays short."""
    profile = draw(st.sampled_from([1, 2]))
    contend = draw(st.integers(0, 4)) if profile == 2 else 0
    made = Scenario(draw(st.integers(1, frames_most)), draw(st.integers(1, 4)), profile, contend)
    nodes = draw(st.lists(st.integers(1, 200), min_size=2, max_size=6, unique=True))
    node = st.sampled_from(nodes)
    made.nodes = {each: draw(st.integers(0, 256_000)) for each in nodes}
    made.hosts = dict(enumerate(draw(st.lists(node, min_size=1, max_size=min(4, len(nodes)), unique=True))))
    link = st.tuples(node, node).filter(lambda ends: ends[0] != ends[1])
    made.links = draw(st.sets(link, max_size=12))

    frame, slot = st.integers(0, made.frames - 1), st.integers(0, 45 if contend else 42)
    stream, step = st.integers(0, 3), st.integers(0, 11)
    payload = st.binary(max_size=32 if profile == 1 else 96)
    tick = st.integers(0, 4_096 * 64_000_000 * made.frame_seconds)
    script = st.one_of(
        st.builds(On, frame, node),
        st.builds(Off, frame, node),
        st.builds(Stream, frame, node, stream, st.integers(1, 120)),
        st.builds(Leave, frame, node, stream),
        st.builds(Put, frame, node, stream, payload),
    )
    made.script = draw(st.lists(script, max_size=16))
    made.rates = draw(
        st.lists(st.builds(Rate, node, tick, st.integers(-20, 20)), max_size=4, unique_by=lambda rate: (rate.node, rate.tick))
    )
    ends = draw(st.lists(link, max_size=6))
    made.losses = sorted({Loss(draw(frame), draw(slot), draw(step), *pair) for pair in ends})
    made.cuts = draw(st.lists(st.builds(Cut, frame, slot, step, node), max_size=3, unique=True))
    made.captures = [Capture(0, number, 0, *pair) for number, pair in enumerate(ends)]
    return made
