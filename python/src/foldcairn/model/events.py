"""The lines of a scenario that name a frame, a tick or a slot, each as a value that compares by its fields.

Frames are counted from 0, ticks are of 1/64 µs, `node`, `sender`, `receiver` and `at` are ids. Tested, not proved.
"""

from __future__ import annotations

from dataclasses import dataclass, field


@dataclass(frozen=True, order=True, slots=True)
class Rate:
    """From a tick of true time on a node's clock gains so much.

    Parameters
    ----------
    node : int
        Its id, 1 to 200.
    tick : int
        The time in ticks of 1/64 µs from the start of the run.
    ppm : int
        What it gains, in parts per million, -20 to 20.
    """

    node: int
    tick: int
    ppm: int

    def text(self) -> str:
        """The line of a text that says this.

        Returns
        -------
        str
            It begins with `rate`, and has no line feed.
        """
        return f"rate {self.node} {self.tick} {self.ppm}"


@dataclass(frozen=True, order=True, slots=True)
class On:
    """A node is switched on at the start of a frame.

    Parameters
    ----------
    frame : int
        The frame, from 0 on.
    node : int
        Its id, 1 to 200.
    seconds : float, optional
        The time in seconds that was given for it, if one was. It is not compared.
    """

    frame: int
    node: int
    seconds: float | None = field(default=None, compare=False, repr=False)

    def text(self) -> str:
        """The line of a text that says this.

        Returns
        -------
        str
            It begins with `on`, and has no line feed.
        """
        return f"on {self.frame} {self.node}"


@dataclass(frozen=True, order=True, slots=True)
class Off:
    """A node is switched off at the start of a frame.

    Parameters
    ----------
    frame : int
        The frame, from 0 on.
    node : int
        Its id, 1 to 200.
    """

    frame: int
    node: int

    def text(self) -> str:
        """The line of a text that says this.

        Returns
        -------
        str
            It begins with `off`, and has no line feed.
        """
        return f"off {self.frame} {self.node}"


@dataclass(frozen=True, order=True, slots=True)
class Stream:
    """A node's stream requests slots from a frame on.

    Parameters
    ----------
    frame : int
        The frame, from 0 on.
    node : int
        Its id, 1 to 200.
    stream : int
        The number of its stream, 0 to 3.
    interval : int
        How often it requests one, in seconds, 1 to 120.
    """

    frame: int
    node: int
    stream: int
    interval: int

    def text(self) -> str:
        """The line of a text that says this.

        Returns
        -------
        str
            It begins with `stream`, and has no line feed.
        """
        return f"stream {self.frame} {self.node} {self.stream} {self.interval}"


@dataclass(frozen=True, order=True, slots=True)
class Leave:
    """A node's stream ends in a frame, and its queue is emptied.

    Parameters
    ----------
    frame : int
        The frame, from 0 on.
    node : int
        Its id, 1 to 200.
    stream : int
        The number of its stream, 0 to 3.
    """

    frame: int
    node: int
    stream: int

    def text(self) -> str:
        """The line of a text that says this.

        Returns
        -------
        str
            It begins with `leave`, and has no line feed.
        """
        return f"leave {self.frame} {self.node} {self.stream}"


@dataclass(frozen=True, order=True, slots=True)
class Put:
    """A node's stream gets a packet to send at the start of a frame.

    Parameters
    ----------
    frame : int
        The frame, from 0 on.
    node : int
        Its id, 1 to 200.
    stream : int
        The number of its stream, 0 to 3.
    payload : bytes
        What it carries: at most 32 bytes, in profile 2 96.
    seconds : float, optional
        The time in seconds that was given for it, if one was: at most a frame before (`Scenario.put_seconds`). It is not compared.
    """

    frame: int
    node: int
    stream: int
    payload: bytes
    seconds: float | None = field(default=None, compare=False, repr=False)

    def text(self) -> str:
        """The line of a text that says this.

        Returns
        -------
        str
            It begins with `put`, and has no line feed.
        """
        return f"put {self.frame} {self.node} {self.stream} {self.payload.hex() or '-'}"


@dataclass(frozen=True, order=True, slots=True)
class Loss:
    """A link is lost in one step of a slot.

    Parameters
    ----------
    frame : int
        The frame, from 0 on.
    slot : int
        The slot of the round.
    step : int
        The step of the slot, 0 to 11.
    sender : int
        The id of the node that transmits.
    receiver : int
        The id of the node that receives.
    """

    frame: int
    slot: int
    step: int
    sender: int
    receiver: int

    def text(self) -> str:
        """The line of a text that says this.

        Returns
        -------
        str
            It begins with `lose`, and has no line feed.
        """
        return f"lose {self.frame} {self.slot} {self.step} {self.sender} {self.receiver}"


@dataclass(frozen=True, order=True, slots=True)
class Cut:
    """All links to and from a node are lost from one step of a slot on until the frame ends.

    Parameters
    ----------
    frame : int
        The frame, from 0 on.
    slot : int
        The slot of the round.
    step : int
        The step of the slot, 0 to 11.
    node : int
        Its id, 1 to 200.
    """

    frame: int
    slot: int
    step: int
    node: int

    def text(self) -> str:
        """The line of a text that says this.

        Returns
        -------
        str
            It begins with `cut`, and has no line feed.
        """
        return f"cut {self.frame} {self.slot} {self.step} {self.node}"


@dataclass(frozen=True, order=True, slots=True)
class Capture:
    """Where unlike packets reach a node at once in one step of a slot, it receives that of one sender.

    Parameters
    ----------
    frame : int
        The frame, from 0 on.
    slot : int
        The slot of the round.
    step : int
        The step of the slot, 0 to 11.
    at : int
        The id of the node that receives.
    sender : int
        The id of the node whose packet it receives.
    """

    frame: int
    slot: int
    step: int
    at: int
    sender: int

    def text(self) -> str:
        """The line of a text that says this.

        Returns
        -------
        str
            It begins with `capture`, and has no line feed.
        """
        return f"capture {self.frame} {self.slot} {self.step} {self.at} {self.sender}"


@dataclass(frozen=True, order=True, slots=True)
class Ratio:
    """From a frame on a link passes what is transmitted at this ratio, until a later ratio of it.

    Parameters
    ----------
    frame : int
        The frame, from 0 on.
    sender : int
        The id of the node that transmits.
    receiver : int
        The id of the node that receives.
    prr : float
        The reception ratio, 0 to 1.
    """

    frame: int
    sender: int
    receiver: int
    prr: float

    def text(self) -> str:
        """The line of a text that says this.

        Returns
        -------
        str
            It begins with `ratio`, has the ratio in millionths, rounded, and has no line feed.
        """
        return f"ratio {self.frame} {self.sender} {self.receiver} {millionths(self.prr)}"


def millionths(ratio: float) -> int:
    """A ratio as a network text and coins have it.

    Parameters
    ----------
    ratio : float
        The ratio, 0 to 1.

    Returns
    -------
    int
        The ratio in millionths, rounded: 0 to 1,000,000.
    """
    return round(1_000_000 * ratio)


ScriptLine = On | Off | Stream | Leave | Put
