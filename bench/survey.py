#!/usr/bin/env python3
"""Writes a network text as large as a survey of a site: 34 nodes, 180 directed links, 29 streams, one hour.

Usage: survey.py [SEED [FRAMES]]. The links, and their ratios of 0.55 to 0.99, are drawn by Python's generator from the seed, 5 if
none is given. FRAMES is 900 if none is given: an hour. Each stream has a packet a minute. For bench/plan.sh. Tested, not proved.
"""

import random
import sys

NODES, LINKS, STREAMS = 34, 180, 29


def links(rng: random.Random) -> list[tuple[int, int]]:
    """A tree of both directions, each node within six ids of an earlier one, and more links of that kind."""
    found = set()
    for node in range(2, NODES + 1):
        near = rng.randint(max(1, node - 6), node - 1)
        found |= {(node, near), (near, node)}
    while len(found) < LINKS:
        node = rng.randint(1, NODES)
        near = max(1, min(NODES, node + rng.randint(-6, 6)))
        if near != node:
            found.add((node, near))
    return sorted(found)


def main() -> None:
    rng = random.Random(int(sys.argv[1]) if len(sys.argv) > 1 else 5)
    frames = int(sys.argv[2]) if len(sys.argv) > 2 else 900
    print(f"frames {frames}\nsends 2")
    for node in range(1, NODES + 1):
        print("node", node, 0)
    print("host 0 1")
    pairs = links(rng)
    for u, v in pairs:
        print("link", u, v)
    script = [(0, f"on 0 {node}") for node in range(1, NODES + 1)]
    sources = range(2, STREAMS + 2)
    script += [(4 * place, f"stream {4 * place} {node} 0 60") for place, node in enumerate(sources)]
    script += [(frame, f"put {frame} {node} 0 aa") for frame in range(0, frames, 15) for node in sources]
    for _, line in sorted(script, key=lambda timed: timed[0]):
        print(line)
    print("ratios")
    for u, v in pairs:
        print("ratio 0", u, v, rng.randint(550_000, 990_000))


main()
