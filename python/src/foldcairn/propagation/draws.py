"""What a seed draws for a pair of nodes, whatever other nodes there are.

A generator that gives one number after another would give each pair others as soon as a node is added. So a draw is a hash of the seed,
of what is drawn and of the names of both nodes: FNV-1a of each name with 64 bits, mixed by the steps of SplitMix64 (Steele, Lea and
Flood, Fast splittable pseudorandom number generators, 2014). All of it is arithmetic with whole numbers of 64 bits, so other
languages can draw the same. Tested, not proved.
"""

from __future__ import annotations

import numpy
from numpy.typing import NDArray
from scipy import special

from .curve import Numbers

Words = NDArray[numpy.uint64]

# What is drawn: the part of shadowing that both directions of a pair share, that of one direction, and the place of a measured ratio
# in its distribution (of a series the numbers from here on, one for each sample).
BOTH, ONE_WAY, MEASURED = 0, 1, 2
_MASK = (1 << 64) - 1


def name_hash(name: object) -> int:
    """FNV-1a with 64 bits of a name's text in UTF-8; of a number that of its decimal digits."""
    number = 0xCBF29CE484222325
    for byte in str(name).encode("utf-8", "surrogateescape"):
        number = (number ^ byte) * 0x100000001B3 & _MASK
    return number


def mix(words: Words) -> Words:
    """The first output of SplitMix64 from each word as its state."""
    words = words + numpy.uint64(0x9E3779B97F4A7C15)
    words = (words ^ (words >> numpy.uint64(30))) * numpy.uint64(0xBF58476D1CE4E5B9)
    words = (words ^ (words >> numpy.uint64(27))) * numpy.uint64(0x94D049BB133111EB)
    return words ^ (words >> numpy.uint64(31))


def uniform(seed: int, purpose: Words | int, one: Words, other: Words) -> Numbers:
    """A number between 0 and 1, both excluded, for each pair of name hashes: what the seed draws for a purpose."""
    words = mix(numpy.atleast_1d(numpy.uint64(seed & _MASK))) ^ numpy.asarray(purpose, dtype=numpy.uint64)
    words = mix(mix(mix(words) ^ one) ^ other)
    # With 52 bits the half is exact, and none is rounded to 1.
    drawn: Numbers = ((words >> numpy.uint64(12)).astype(float) + 0.5) / 2.0**52
    return drawn


def normal(seed: int, purpose: int, one: Words, other: Words) -> Numbers:
    """A standard normal number for each pair of name hashes."""
    drawn: Numbers = special.ndtri(uniform(seed, purpose, one, other))
    return drawn


def normal_of_pair(seed: int, one: Words, other: Words) -> Numbers:
    """A standard normal number for each pair of name hashes, which is the same in both directions."""
    return normal(seed, BOTH, numpy.minimum(one, other), numpy.maximum(one, other))
