"""What the program's `bounds` writes of the nodes that join the rounds of the host of rank 0, worked out plainly from a network text:
the definition in `crates/bus_bounds/specs/JoinFindings.antt`, in other words."""

from __future__ import annotations

from collections.abc import Iterator

Line = tuple[str, list[int]]
MILLION = 1_000_000


class Text:
    """A network text: the word and the numbers of each of its lines."""

    def __init__(self, text: str) -> None:
        self.lines: list[Line] = []
        for row in text.splitlines():
            word, *numbers = row.split()
            # The bytes of a packet are no number.
            self.lines.append((word, [int(number) for number in numbers if number.isdigit()]))

    def of(self, *words: str) -> list[Line]:
        return [line for line in self.lines if line[0] in words]

    def number_of(self, line: Line) -> int:
        """The number of the first line that says this."""
        return self.lines.index(line) + 1

    def is_on_before(self, node: int, frame: int) -> bool:
        states = [word == "on" for word, numbers in self.of("on", "off") if numbers[1] == node and numbers[0] < frame]
        return bool(states) and states[-1]

    def boots_in(self, node: int, frame: int) -> bool:
        return self.is_on_before(node, frame + 1) and (not self.is_on_before(node, frame) or ("off", [frame, node]) in self.lines)

    def off_after(self, node: int, frame: int) -> Line | None:
        """The first line by which the node goes off in the six frames after this one."""
        return next((line for line in self.of("off") if line[1][1] == node and frame < line[1][0] <= frame + 6), None)

    def is_up(self, node: int, frame: int) -> bool:
        return self.off_after(node, frame) is None and any(self.boots_in(node, later) for later in range(frame, frame + 6))

    def links(self) -> list[tuple[int, int]]:
        """Each link, by sender and receiver, in this order."""
        pairs = [(numbers[0], numbers[1]) for _, numbers in self.of("pair", "link")]
        return sorted({*pairs, *((other, one) for word, (one, other) in self.of("pair"))})

    def reached(self, host: int, among: set[int]) -> set[int]:
        """The nodes to which at most 12 links lead from the host, from one of these to the next."""
        found = {host}
        for _ in range(12):
            found |= {v for u, v in self.links() if u in found and v in among}
        return found

    def ratio_line(self, frame: int) -> Line | None:
        """The line by which the first of the links with a ratio below a million has it."""
        for link in self.links():
            begun = [line for line in self.of("ratio") if tuple(line[1][1:3]) == link and line[1][0] <= frame]
            if begun and begun[-1][1][3] < MILLION:
                return begun[-1]
        return None

    def verdict(self, host: int, frame: int, node: int) -> tuple[str, Line | None]:
        """The premise that fails for the node after a boot of the host, empty where none does, and the line that breaks it."""
        if (line := self.off_after(host, frame) or self.off_after(node, frame)) is not None:
            return "power", line
        if not any(self.boots_in(node, later) for later in range(frame, frame + 6)):
            last = [line for line in self.of("on", "off") if line[1][1] == node and line[1][0] < frame + 6]
            return "power", last[-1] if last else None
        if frame + 6 >= self.of("frames")[0][1][0]:
            return "rounds", None
        # The lines of each kind are taken by their numbers, whatever their order in the text.
        lost = [line for word in ("lose", "cut") for line in sorted(self.of(word)) if line[1][0] == frame + 5]
        if lost:
            return "loss", lost[0]
        if (line := self.ratio_line(frame + 5)) is not None:
            return "ratio", line
        up = {one for _, (one, *_) in self.of("node") if one == host or self.is_up(one, frame)}
        return ("" if node in self.reached(host, up) else "reach"), None


def written(text: str) -> Iterator[str]:
    """The lines of each node but the host, after each boot of the host of rank 0."""
    of = Text(text)
    hosts = {numbers[0]: numbers[1] for _, numbers in of.of("host")}
    if 0 not in hosts:
        return
    host = hosts[0]
    boots = [frame for frame in range(of.of("frames")[0][1][0]) if of.boots_in(host, frame)]
    for frame in boots or [None]:
        for node in sorted(numbers[0] for _, numbers in of.of("node") if numbers[0] != host):
            for bound, frames in (("joined", 6), ("scanning", 4)):
                if frame is None:
                    yield f"open {bound} {node} boots"
                    continue
                reason, line = of.verdict(host, frame, node)
                place = f" {of.number_of(line)}" if line else ""
                yield f"open {bound} {node} {frame} {reason}{place}" if reason else f"holds {bound} {node} {frame} {frame + 6} {frames}"
