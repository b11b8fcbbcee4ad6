"""What is wrong with a scenario, or hardly as it was meant, and the mark of the comments in its text. Tested, not proved."""

from __future__ import annotations

from ..common.arguments import ArgumentError

# How a comment begins that is no remark: a name of a node, by what the losses of a text were drawn, and which of them were not, or the
# time of the put below it.
KEPT = "#:"


class ScenarioError(ArgumentError):
    """A value that no scenario has, or a text that is none; the message names the word and its range."""


class ScenarioWarning(UserWarning):
    """What the program accepts, though it is hardly what was meant."""
