#!/usr/bin/env python3
"""Prints the text of the scenario that `demo SEED NODES FRAMES` runs: python3 made.py SEED NODES FRAMES.

NODES is 2 to 64, FRAMES 1 to 4,096, and their product at most 16,384. The text has the lines in the order that `print`
writes. It is drawn here from the words of the generator, apart from the program, so that the bench has a scenario with
losses. It is tested against a text from outside the program, and not proved."""

import sys

WORD = 2**32 - 1
STATE = 2**64 - 1
MULTIPLIER = 6364136223846793005
SEED_INCREMENT = 11634580027462260723


def rotated(state):
    """The word of a state: PCG's XSH-RR."""
    word = ((state >> 18 ^ state) >> 27) & WORD
    turn = state >> 59
    return (word >> turn | word << (-turn & 31)) & WORD


def seed_words(seed, count):
    """The words by which rand_core's `seed_from_u64` fills a seed."""
    words = []
    for _ in range(count):
        seed = (seed * MULTIPLIER + SEED_INCREMENT) & STATE
        words.append(rotated(seed))
    return words


class Draws:
    """The words of rand_pcg's Lcg64Xsh32, and numbers drawn by them."""

    def __init__(self, seed):
        low, high, increment_low, increment_high = seed_words(seed, 4)
        self.increment = increment_low | increment_high << 32 | 1
        self.state = (low | high << 32) + self.increment & STATE
        self.step()

    def step(self):
        self.state = (self.state * MULTIPLIER + self.increment) & STATE

    def below(self, count):
        """A number below `count`, by the next word."""
        word = rotated(self.state)
        self.step()
        return word % count

    def node(self, nodes):
        """One of the nodes from 1 to `nodes`."""
        return 1 + self.below(nodes)


def drawn_links(draws, nodes):
    """A tree, and as many random pairs as there are nodes: both links of each."""
    links = set()
    for node in range(2, nodes + 1):
        parent = draws.node(node - 1)
        links |= {(node, parent), (parent, node)}
    for _ in range(nodes):
        pair = draws.node(nodes), draws.node(nodes)
        if pair[0] != pair[1]:
            links |= {pair, pair[::-1]}
    return links


def drawn_losses(draws, nodes, frames):
    """In each frame half as many lose lines as there are nodes, fewer where two nodes are one or a line comes twice."""
    losses = set()
    for frame in range(frames):
        for _ in range(nodes // 2):
            slot, step = draws.below(43), draws.below(12)
            sender, receiver = draws.node(nodes), draws.node(nodes)
            if sender != receiver:
                losses.add((frame, slot, step, sender, receiver))
    return losses


def made(seed, nodes, frames):
    """The lines of the text."""
    draws = Draws(seed)
    everyone, others = range(1, nodes + 1), range(2, nodes + 1)
    clocks = [(node, draws.below(256_001), draws.below(41) - 20) for node in everyone]
    links = drawn_links(draws, nodes)
    intervals = [(node, 4 + draws.below(13)) for node in others]
    losses = drawn_losses(draws, nodes, frames)

    yield from ("profile 1", f"frames {frames}", "sends 2")
    yield from (f"node {node} {offset}" for node, offset, _ in clocks)
    yield from (f"rate {node} 0 {ppm}" for node, _, ppm in clocks)
    yield from ("host 0 1", f"host 1 {nodes}")
    yield from (f"link {sender} {receiver}" for sender, receiver in sorted(links))
    yield from (f"on 0 {node}" for node in everyone)
    yield from (f"stream 0 {node} 0 {interval}" for node, interval in intervals)
    for frame in range(frames):
        if frames >= 40 and frame == frames // 2:
            yield f"off {frame} 1"
        yield from (f"put {frame} {node} 0 {frame:04x}" for node in others if (frame + node) % 4 == 0)
    yield from ("lose {} {} {} {} {}".format(*loss) for loss in sorted(losses))


def main():
    if len(sys.argv) != 4 or not all(word.isascii() and word.isdigit() for word in sys.argv[1:]):
        sys.exit("usage: python3 made.py SEED NODES FRAMES")
    seed, nodes, frames = map(int, sys.argv[1:])
    if seed > STATE or not 2 <= nodes <= 64 or not 1 <= frames <= 4096 or nodes * frames > 16_384:
        sys.exit("made.py: SEED is below 2^64, NODES 2 to 64, FRAMES 1 to 4096, and NODES times FRAMES at most 16384")
    for line in made(seed, nodes, frames):
        print(line)


if __name__ == "__main__":
    main()
