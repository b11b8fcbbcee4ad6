"""Random texts for each command of both programs, by a seed: most are valid, and some are made invalid by tests/hostile.py.

Expected output comes from the proved programs, so what a text asks for need not be known here. Each text is small, so that hundreds
of them take seconds.
"""

from __future__ import annotations

import dataclasses
import random
from collections.abc import Iterator

import hostile

SCENARIO_WORDS = ["run", "log", "bus", "times", "return"]
NETWORK_WORDS = ["outcome", "fates", "run", "log", "draw"]


@dataclasses.dataclass(frozen=True)
class Case:
    """The words of a command and its input; whether it is one of the second program, and where the input comes from."""

    words: tuple[str, ...]
    text: bytes
    is_plan: bool = False
    origin: str = ""


class Texts:
    """The texts of one seed."""

    def __init__(self, seed: int) -> None:
        self.draw = random.Random(f"texts {seed}")
        self.seed = seed
        self.profile = self.draw.choice([1, 1, 2])
        self.contend = self.draw.choice([0, 1, 3, 4]) if self.profile == 2 else 0
        self.nodes = sorted(self.draw.sample(range(1, 201), self.draw.randint(2, 12)))
        self.frames = self.draw.randint(1, 60)

    def node(self) -> int:
        """One of the nodes."""
        return self.draw.choice(self.nodes)

    def pair(self) -> tuple[int, int]:
        """Two of the nodes."""
        one, other = self.draw.sample(self.nodes, 2)
        return one, other

    def head(self) -> list[str]:
        """The number of transmissions, the nodes and their clocks."""
        lines = [f"sends {self.draw.randint(1, 4)}"]
        lines += [f"node {node} {self.draw.choice([0, 64_000, 256_000, self.draw.randint(0, 256_000)])}" for node in self.nodes]
        for node in self.nodes:
            ticks = sorted({self.draw.choice([0, self.draw.randint(0, 60 * 320_000_000)]) for _ in range(self.draw.randint(0, 3))})
            lines += [f"rate {node} {tick} {self.draw.randint(-20, 20)}" for tick in ticks]
        return lines

    def links(self) -> list[tuple[int, int]]:
        """A tree, and some links more."""
        found = set()
        for place, node in enumerate(self.nodes[1:], 1):
            above = self.draw.choice(self.nodes[:place])
            found |= {(node, above), (above, node)}
        found |= {self.pair() for _ in range(self.draw.randint(0, len(self.nodes)))}
        return sorted(found)

    def place(self) -> str:
        """A frame, a slot and a step."""
        return f"{self.draw.randrange(self.frames)} {self.draw.choice([0, 1, 2, self.draw.randrange(43)])} {self.draw.randrange(12)}"

    def losses(self) -> list[str]:
        """Lines that lose, cut off and capture, each place once."""
        lines = {f"lose {self.place()} {one} {other}" for one, other in (self.pair() for _ in range(self.draw.randint(0, 40)))}
        lines |= {f"cut {self.place()} {self.node()}" for _ in range(self.draw.randint(0, 3))}
        captures = {self.place(): self.pair() for _ in range(self.draw.randint(0, 10))}
        return sorted(lines) + [f"capture {place} {at} {sender}" for place, (at, sender) in sorted(captures.items())]

    def script(self) -> list[str]:
        """What nodes do: all are on from the start or a little later, and streams come and go."""
        acts = [(self.draw.choice([0, 0, self.draw.randrange(self.frames)]), f"on {{}} {node}") for node in self.nodes]
        for _ in range(self.draw.randint(0, 3 * len(self.nodes))):
            frame, node, stream = self.draw.randrange(self.frames), self.node(), self.draw.choice([0, 0, 1, 3])
            payload = self.draw.randbytes(self.draw.choice([0, 1, 2, 32 if self.profile == 1 else 96])).hex() or "-"
            acts.append((self.draw.choice([0, frame]), f"stream {{}} {node} {stream} {self.draw.choice([4, 8, 10, self.draw.randint(1, 120)])}"))
            acts += [(self.draw.randint(frame, self.frames - 1), f"put {{}} {node} {stream} {payload}") for _ in range(self.draw.randint(0, 4))]
            if self.draw.random() < 0.15:
                acts.append((frame, self.draw.choice([f"leave {{}} {node} {stream}", f"off {{}} {node}", f"on {{}} {node}"])))
        return [act.format(frame) for frame, act in sorted(acts, key=lambda act: act[0])]

    def scenario(self) -> list[str]:
        """The lines of a scenario with every kind of line."""
        hosts = self.draw.sample(self.nodes, self.draw.randint(1, min(4, len(self.nodes))))
        lines = [f"profile {self.profile}"] + [f"contend {self.contend}"] * bool(self.contend) + [f"frames {self.frames}"] + self.head()
        lines += [f"host {rank} {node}" for rank, node in enumerate(hosts)]
        lines += [f"link {one} {other}" for one, other in self.links()]
        return lines + self.script() + self.losses()

    def network(self) -> list[str]:
        """A scenario with ratios for most of its links, some of which change."""
        lines = self.scenario()
        ratios = []
        for line in lines:
            words = line.split()
            if words[0] == "link" and self.draw.random() < 0.8:
                frames = sorted({0, self.draw.randrange(self.frames)} if self.draw.random() < 0.3 else {0})
                for frame in frames:
                    ratio = self.draw.choice([0, 1_000_000, self.draw.randint(400_000, 1_000_000)])
                    ratios.append(f"ratio {frame} {words[1]} {words[2]} {ratio}")
        return lines + ["ratios"] + ratios

    def flood(self) -> list[str]:
        """The lines of a flood."""
        return self.head() + [f"link {one} {other}" for one, other in self.links()] + [f"start {self.node()}"]

    def deadlines(self) -> list[str]:
        """The lines of streams with deadlines."""
        streams = {(self.draw.randint(1, 200), self.draw.randrange(4)) for _ in range(self.draw.randint(1, 34))}
        lines = [f"slots {self.draw.randint(1, 5)}", f"frames {self.draw.randint(1, 64)}"]
        for node, stream in sorted(streams):
            lines.append(f"stream {node} {stream} {self.draw.randint(0, 20)} {self.draw.randint(1, 64)} {self.draw.randint(1, 64)}")
        return lines

    def invalid(self, text: bytes) -> bytes:
        """The text after a mutation, which most often makes it invalid."""
        mutations = [hostile.flipped, hostile.turned_lines, hostile.bounded]
        return bytes(self.draw.choice(mutations)(text, self.draw))


def joined(lines: list[str]) -> bytes:
    """The text of these lines."""
    return "".join(line + "\n" for line in lines).encode()


def of_scenario(text: bytes) -> Iterator[Case]:
    """Each command that reads a scenario."""
    yield from (Case((word,), text) for word in SCENARIO_WORDS)


def of_network(text: bytes, seed: int) -> Iterator[Case]:
    """Each command that reads a network."""
    yield from (Case((word, str(seed)), text, is_plan=True) for word in NETWORK_WORDS)
    yield Case(("sample", str(seed), "3"), text, is_plan=True)


def drawn(seed: int) -> Iterator[Case]:
    """The cases of a seed, but for `check`, whose text needs a log."""
    texts = Texts(seed)
    scenario, network = joined(texts.scenario()), joined(texts.network())
    yield from of_scenario(scenario)
    yield from of_network(network, seed)
    yield from of_network(scenario, seed)
    yield Case(("flood",), joined(texts.flood()))
    yield Case(("deadlines",), joined(texts.deadlines()))
    yield Case(("demo", str(seed), str(2 + seed % 20), str(1 + 7 * seed % 50)), b"")
    yield Case((texts.draw.choice(SCENARIO_WORDS),), texts.invalid(scenario))
    yield Case(("flood",), texts.invalid(joined(texts.flood())))
    yield Case(("outcome", str(seed)), texts.invalid(network), is_plan=True)
