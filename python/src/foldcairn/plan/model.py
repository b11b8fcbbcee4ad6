"""What a plan has: a dataclass for each table of the file, whose fields are its keys (`schema.key` tells kind, range, unit and meaning).

Times are in seconds, places in metres, names are those of people. Tested, not proved.
"""

from __future__ import annotations

from dataclasses import dataclass, field

from .schema import REQUIRED, key
from .words import ALL, BATTERY, CAPACITIES, DRAWN, MAINS, POWERS


@dataclass
class Row:
    """What was read from one place of a file.

    where    the place, for messages, as "plan.toml, line 12, [[node]], row 3"; empty where it was not read
    origin   the CSV file, or an empty text, and which row of it, from 0 on; None where it was not read
    """

    where: str = field(default="", compare=False, repr=False, kw_only=True)
    origin: tuple[str, int] | None = field(default=None, compare=False, repr=False, kw_only=True)


@dataclass
class Settings:
    """`[plan]`: what holds for the whole plan.

    Parameters
    ----------
    name : str
        The name of the plan, on one line.
    site : str
        The name of the site, on one line.
    profile : int
        It is 1 (frames of 4 s, payloads of 32 bytes) or 2 (frames of 5 s, payloads of 96 bytes, contention slots).
    sends : int
        How often a node transmits at most in one flood, 1 to 4.
    contend : int
        Contention slots of a round, 1 to 4, in profile 2; 0 for the one that a round has in any case.
    hours : float
        The length of a run in h, from one frame to 4,096 frames.
    seeds : int
        How many draws a verdict may use at most, 1 to 10,000.
    vary_ids : bool
        Whether each seed assigns the ids of nodes anew, which rule contention.
    keep_alive : float, optional
        Keep-alive in s, above 0, of each stream that is sporadic or whose period is longer; None for none.
    """

    name: str = key("text", "the name of the plan", "")
    site: str = key("text", "the name of the site", "")
    profile: int = key("whole", "1: frames of 4 s, payloads of 32 bytes; 2: frames of 5 s, payloads of 96 bytes, contention slots", 1, low=1, high=2)
    sends: int = key("whole", "how often a node transmits at most in one flood", 2, low=1, high=4)
    contend: int = key("whole", "contention slots of a round, in profile 2; 0 is the one that a round has in any case", 0, low=0, high=4)
    hours: float = key("real", "the length of a run; at most 4,096 frames", 1.0, above=0, unit="h")
    seeds: int = key("whole", "how many draws a verdict may use at most", 100, low=1, high=10_000)
    vary_ids: bool = key("truth", "whether each seed assigns the ids of nodes anew, which rule contention", False)
    keep_alive: float | None = key("real", "keep-alive of each stream whose packets come more seldom", above=0, unit="s")


@dataclass
class Node(Row):
    """`[[node]]`, or a row of the table of nodes.

    Parameters
    ----------
    name : str
        What people call it, without a semicolon, another one for each node and none of the words `all`, `hosts`, `battery`, `mains`, `drawn` and `others`.
    id : int, optional
        Its number in the network, 1 to 200; where it is None, `Plan.check` gives it in the natural order of names.
    x : float, optional
        Its place in m, given with `y`.
    y : float, optional
        Its place in m, upwards on the map, given with `x`.
    floor : int
        The floor that it is on, from the lowest, -20 to 200.
    powered : str or float
        What feeds it: "mains", a kind of battery ("battery", "2xAA", "1xAA" or "D"), or a capacity in mAh, above 0.
    clock : int
        How much its clock gains in ppm, -20 to 20.
    offset : int
        What its clock reads at the start, 0 to 256,000 ticks of 1/64 µs.
    on : float
        When it gets power first, in s, at least 0 and before the end of the run.
    candidate : bool
        Whether it is a place where a relay may be put, and no node of the network yet.
    tags : list of str
        Words by which requirements and tables name several nodes at once.
    note : str
        A note for people, on one line.
    where : str
        The place that it was read from, for messages, as "plan.toml, line 12, [[node]], row 3"; empty where it was not read.
    origin : tuple of (str, int), optional
        The CSV file that it was read from, or an empty text, and which row of it, from 0 on; None where it was not read.
    """

    name: str = key("name", "what people call it", REQUIRED, aliases=("node", "label"))
    id: int | None = key("whole", "its number in the network; given in the natural order of names where it is not, and written back", low=1, high=200)
    x: float | None = key("real", "its place", unit="m", aliases=("east", "pos_x"))
    y: float | None = key("real", "its place, upwards on the map", unit="m", aliases=("north", "pos_y"))
    floor: int = key("whole", "the floor that it is on, from the lowest", 0, low=-20, high=200, aliases=("storey", "level"))
    powered: str | float = key("power", "what feeds it: mains, a kind of battery, or a capacity in mAh", BATTERY, above=0, unit="mAh",
                               choices=POWERS, aliases=("power", "supply"))  # fmt: skip
    clock: int = key("whole", "how much its clock gains", 0, low=-20, high=20, unit="ppm", aliases=("ppm", "drift"))
    offset: int = key("whole", "what its clock reads at the start", 0, low=0, high=256_000, unit="ticks of 1/64 µs")
    on: float = key("real", "when it gets power first", 0.0, low=0, unit="s")
    candidate: bool = key("truth", "a place where a relay may be put: it is no node of the network yet", False)
    tags: list[str] = key("texts", "words by which requirements and tables name several nodes at once", [], aliases=("tag", "role", "group"))
    note: str = key("text", "a note for people", "", aliases=("notes", "comment", "remark"))

    @property
    def is_on_mains(self) -> bool:
        """Whether it never needs a battery."""
        return self.powered == MAINS


@dataclass
class Link(Row):
    """`[[link]]`, or a row of a table of links: what was measured from one node to another.

    A row without any measure is one whose ratio is not known.

    Parameters
    ----------
    sender : str
        The name of the node that transmits, `from` in a file.
    receiver : str
        The name of the node that receives, `to` in a file.
    ratio : float, optional
        The part of what is sent that is received, 0 to 1.
    sent : int, optional
        How many probes were sent, at least 1; given with `received` or `ratio`.
    received : int, optional
        How many of them were received, 0 to `sent`.
    rssi : float, optional
        The received power in dBm, -150 to 30.
    at : float or str, optional
        From when on it holds: in s from the start of the run, at least 0, or a date and a time, as "2026-01-31 14:05:00", of which the first is the
        start; None where the link has no series.
    both : bool
        Whether it holds for the other direction too.
    where : str
        The place that it was read from, for messages, as "plan.toml, line 12, [[node]], row 3"; empty where it was not read.
    origin : tuple of (str, int), optional
        The CSV file that it was read from, or an empty text, and which row of it, from 0 on; None where it was not read.
    """

    sender: str = key("node", "the node that transmits", REQUIRED, name="from", aliases=("tx", "source", "u", "src", "sender", "transmitter"))
    receiver: str = key("node", "the node that receives", REQUIRED, name="to", aliases=("rx", "target", "v", "dst", "dest", "destination", "receiver"))
    ratio: float | None = key("real", "the part of what is sent that is received", low=0, high=1, aliases=("prr", "pdr", "reception_ratio"))
    sent: int | None = key("whole", "how many probes were sent", low=1, aliases=("packets", "probes", "tries"))
    received: int | None = key("whole", "how many of them were received", low=0, aliases=("got", "successes"))
    rssi: float | None = key("real", "the received power", low=-150, high=30, unit="dBm", aliases=("rss",))
    at: float | str | None = key("time", "from when on it holds: seconds from the start of the run, or a date and a time, of which the first is the start",
                                 low=0, unit="s", aliases=("time", "timestamp", "datetime", "seconds"))  # fmt: skip
    both: bool = key("truth", "whether it holds for the other direction too", False, aliases=("bidirectional", "symmetric"))


@dataclass
class Stream(Row):
    """`[[stream]]`, or a row of the table of streams: packets of one kind from one node.

    It has one of `every`, `sporadic` and `at`.

    Parameters
    ----------
    source : str
        The name of the node that has the packets, `from` in a file.
    name : str
        What people call it; where it is empty and a plan is read, the name of its node, and after a slash its number where that is not 0.
    to : str or list of str
        For whom the packets are meant: the name of a node or several, "hosts" for whichever host serves, or "all".
    number : int, optional
        Which of the streams of its node it is, 0 to 3, `stream` in a file; where it is None, `Plan.check` gives it in the natural order of names.
    every : float, optional
        The time from one packet to the next in s, above 0 and below the length of the run.
    sporadic : float, optional
        In place of that: packets at random times, and the mean time between them in s, above 0.
    at : list of float
        In place of both: the times of its packets in s, each at least 0.
    deadline : float, optional
        How late its packets may come, in s, above 0 and below the length of the run.
    bytes : int, optional
        The length of a payload in bytes, 0 to 32, in profile 2 to 96; None for 3.
    interval : int, optional
        The interval that it requests, 1 to 120 s; None for its period rounded down, of sporadic packets the deadline, else the mean.
    start : float or str
        When it is requested and begins, in s, at least 0; "drawn" for a phase of its period that each seed draws.
    until : float, optional
        When its packets end, in s, above `start`; None for the end of the run.
    keep_alive : float, optional
        How often in s it sends a packet of no bytes so that its host keeps it, 0 for never; None for what `Settings.keep_alive` says.
    tags : list of str
        Words by which requirements name several streams at once.
    where : str
        The place that it was read from, for messages, as "plan.toml, line 12, [[node]], row 3"; empty where it was not read.
    origin : tuple of (str, int), optional
        The CSV file that it was read from, or an empty text, and which row of it, from 0 on; None where it was not read.
    """

    source: str = key("node", "the node that has the packets", REQUIRED, name="from", aliases=("sensor", "node", "source", "sender", "tx"))
    name: str = key("text", "what people call it; without one the name of its node, and after a slash its number where that is not 0", "",
                    aliases=("label",))  # fmt: skip
    to: str | list[str] = key("to", "for whom the packets are meant: a node or several, `hosts` for whichever host serves, or `all`", ALL,
                              aliases=("controller", "sink", "sinks", "target", "receiver", "receivers", "rx", "destination"))  # fmt: skip
    number: int | None = key("whole", "which of the streams of its node it is; given in the natural order of names where it is not", name="stream",
                             low=0, high=3)  # fmt: skip
    every: float | None = key("real", "the time from one packet to the next", above=0, unit="s", aliases=("period",))
    sporadic: float | None = key("real", "in place of that: packets at random times, and the mean time between them", above=0, unit="s",
                                 aliases=("mean",))  # fmt: skip
    at: list[float] = key("reals", "in place of both: the times of its packets", [], low=0, unit="s")
    deadline: float | None = key("real", "how late its packets may come", above=0, unit="s", aliases=("due",))
    bytes: int | None = key("whole", "the length of a payload, at most 32, in profile 2 96; 3 where it is not given", low=0, high=96,
                            aliases=("length", "payload", "size"))  # fmt: skip
    interval: int | None = key("whole", "the interval that it requests; its period rounded down where it is not given, of sporadic packets the "
                               "deadline, else the mean", low=1, high=120, unit="s")  # fmt: skip
    start: float | str = key("start", "when it is requested and begins; `drawn`: at a phase of its period that each seed draws", 0.0, low=0, unit="s",
                             choices=(DRAWN,), aliases=("begin", "phase"))  # fmt: skip
    until: float | None = key("real", "when its packets end; with the run where it is not given", above=0, unit="s", aliases=("end", "stop"))
    keep_alive: float | None = key("real", "how often it sends a packet of no bytes so that its host keeps it; 0 for never", low=0, unit="s")
    tags: list[str] = key("texts", "words by which requirements name several streams at once", [], aliases=("tag", "kind", "group"))


@dataclass
class Host(Row):
    """`[[host]]`: a node that may serve the rounds.

    Parameters
    ----------
    node : str
        The name of the node.
    rank : int
        Its rank: 0 is the first choice, 1 to 3 are backups, and ranks follow each other.
    where : str
        The place that it was read from, for messages, as "plan.toml, line 12, [[node]], row 3"; empty where it was not read.
    origin : tuple of (str, int), optional
        The CSV file that it was read from, or an empty text, and which row of it, from 0 on; None where it was not read.
    """

    node: str = key("node", "the node", REQUIRED)
    rank: int = key("whole", "0 is the first choice, 1 to 3 are backups", 0, low=0, high=3)


@dataclass
class Floor(Row):
    """`[floor]`: the plan of the building.

    Parameters
    ----------
    picture : str
        The name of a picture of the floor plan, in the folder of the plan file; empty for none.
    extent : list of float, optional
        Where the left, lower, right and upper edges of the picture are, in m; nodes lie within.
    metres_per_pixel : float, optional
        In place of that: how large a pixel is in m, above 0, with the lower left corner at 0, 0.
    height : float
        From one floor to the next in m, above 0.
    floors : int, optional
        How many floors there are, 1 to 200, with nodes on floors from 0 on; None where the plan does not say so.
    where : str
        The place that it was read from, for messages, as "plan.toml, line 12, [[node]], row 3"; empty where it was not read.
    origin : tuple of (str, int), optional
        The CSV file that it was read from, or an empty text, and which row of it, from 0 on; None where it was not read.
    """

    picture: str = key("file", "a picture of the floor plan, in the folder of the plan file", "")
    extent: list[float] | None = key("box", "where the left, lower, right and upper edges of the picture are; nodes lie within", unit="m")
    metres_per_pixel: float | None = key("real", "in place of that: how large a pixel is, with the lower left corner at 0, 0", above=0, unit="m")
    height: float = key("real", "from one floor to the next", 6.0, above=0, unit="m")
    floors: int | None = key("whole", "how many floors there are; nodes are on floors from 0 on", low=1, high=200)


@dataclass
class Losses(Row):
    """`[losses]`: where the reception ratios come from.

    Parameters
    ----------
    source : str
        What they are taken from, `from` in a file: "survey" for what was measured, "positions" for a model of path loss, "both" for the model where
        nothing was measured, "none" where each link passes all.
    preset : str
        The name of the surroundings, whose numbers hold where none is given here; empty for none.
    exponent : float, optional
        How fast power falls with distance, above 0 and at most 10; 2 in free space.
    reference_db : float
        The loss over the first metre in dB, 0 to 120.
    deviation_db : float, optional
        How far links scatter about the model, a standard deviation in dB, 0 to 40.
    floor_db : float, optional
        The loss of a floor in dB, 0 to 100.
    wall_db : float, optional
        The loss in dB, 0 to 100, of a wall of `walls` that has none of its own.
    transmit_dbm : float
        The power of the transmitter in dBm, -60 to 30.
    noise_dbm : float
        The noise at the receiver in dBm, -140 to 0.
    correlation : float
        How much the scatter of the two directions of a link has in common, 0 to 1.
    bytes : int, optional
        The length in bytes of the packets that count, header and payload, 1 to 125; None for the longest of the plan.
    least : float
        The ratio, 0 to 1, below which links are left out.
    unknown : str
        What a link is whose measure is not given: "error", "positions" for one of the model, or "none".
    unheard : str
        Of "both": what a link is that has no row, though its sender and its receiver are in others, "none" or "positions".
    fit : bool
        Of "both": whether exponent and deviation are those that fit the power that was measured; one that is given stays.
    walls : list of list of float
        Walls as [x0, y0, x1, y1] in m, then maybe their loss in dB and their floor.
    where : str
        The place that it was read from, for messages, as "plan.toml, line 12, [[node]], row 3"; empty where it was not read.
    origin : tuple of (str, int), optional
        The CSV file that it was read from, or an empty text, and which row of it, from 0 on; None where it was not read.
    """

    source: str = key("choice", "survey: what was measured; positions: a model of path loss; both: the model where nothing was measured; none: each "
                      "link passes all", "survey", name="from", choices=("survey", "positions", "both", "none"))  # fmt: skip
    preset: str = key("text", "the surroundings, whose numbers hold where none is given here", "")
    exponent: float | None = key("real", "how fast power falls with distance; 2 in free space", above=0, high=10)
    reference_db: float = key("real", "the loss over the first metre", 40.2, low=0, high=120, unit="dB")
    deviation_db: float | None = key("real", "how far links scatter about the model, a standard deviation", low=0, high=40, unit="dB")
    floor_db: float | None = key("real", "the loss of a floor", low=0, high=100, unit="dB")
    wall_db: float | None = key("real", "the loss of a wall of `walls` that has none of its own", low=0, high=100, unit="dB")
    transmit_dbm: float = key("real", "the power of the transmitter", 0.0, low=-60, high=30, unit="dBm")
    noise_dbm: float = key("real", "the noise at the receiver", -98.0, low=-140, high=0, unit="dBm")
    correlation: float = key("real", "how much the scatter of the two directions of a link has in common", 1.0, low=0, high=1)
    bytes: int | None = key("whole", "the length of the packets that count, header and payload; the longest of the plan where it is not given", low=1,
                            high=125)  # fmt: skip
    least: float = key("real", "links with a smaller ratio are left out", 0.05, low=0, high=1)
    unknown: str = key("choice", "what a link is whose measure is not given: an error, one of the model, or none", "error",
                       choices=("error", "positions", "none"))  # fmt: skip
    unheard: str = key("choice", "of both: what a link is that has no row, though its sender and its receiver are in others", "none",
                       choices=("none", "positions"))  # fmt: skip
    fit: bool = key("truth", "of both: whether exponent and deviation are those that fit the power that was measured; one that is given stays", True)
    walls: list[list[float]] = key("walls", "walls as [x0, y0, x1, y1], then maybe their loss in dB and their floor", [])


@dataclass
class Event(Row):
    """`[[event]]`: what happens in the run, to a node, to a link or in an area, once or again and again.

    It has one of `node`, `link` and `area`, and one of `at` and `between`.

    Parameters
    ----------
    name : str
        What people call it, on one line.
    node : str, optional
        The name of the node to which it happens.
    link : list of str, optional
        The names of the two ends of a link, of which both directions are meant.
    area : list of float, optional
        The left, lower, right and upper edges of an area, in m.
    floor : int, optional
        The floor of the area, -20 to 200; None for all.
    at : float, optional
        When it begins, in s, at least 0 and before the end of the run.
    between : list of float, optional
        In place of that: the two times in s between which it begins, drawn by the seed, the first at least 0 and below the second, which is before the end
        of the run.
    duration : float, optional
        How long it lasts in s, above 0, `for` in a file; None for the end of the run.
    every : float, optional
        The time in s from one beginning to the next, above `duration`; None where it happens once.
    off : bool, optional
        Whether the node, or each node in the area, has no power, or the link passes nothing; None: where no ratio is given.
    ratio : float, optional
        What links of the node, the link, or links with an end in the area pass at most, 0 to 1.
    restart : bool
        Whether a node that comes back requests its streams again.
    where : str
        The place that it was read from, for messages, as "plan.toml, line 12, [[node]], row 3"; empty where it was not read.
    origin : tuple of (str, int), optional
        The CSV file that it was read from, or an empty text, and which row of it, from 0 on; None where it was not read.
    """

    name: str = key("text", "what people call it", "")
    node: str | None = key("node", "the node to which it happens")
    link: list[str] | None = key("pair", "or the two ends of a link, of which both directions are meant")
    area: list[float] | None = key("box", "or an area, by its left, lower, right and upper edges", unit="m")
    floor: int | None = key("whole", "the floor of the area; all where it is not given", low=-20, high=200)
    at: float | None = key("real", "when it begins", low=0, unit="s")
    between: list[float] | None = key("span", "in place of that: between which times it begins, drawn by the seed", low=0, unit="s")
    duration: float | None = key("real", "how long it lasts; to the end of the run where it is not given", name="for", above=0, unit="s")
    every: float | None = key("real", "it happens again, with this time from one beginning to the next", above=0, unit="s")
    off: bool | None = key("truth", "whether the node, or each node in the area, has no power, or the link passes nothing; true where no ratio is given")
    ratio: float | None = key("real", "what links of the node, the link, or links with an end in the area pass at most", low=0, high=1)
    restart: bool = key("truth", "whether a node that comes back requests its streams again", True)


@dataclass
class Battery(Row):
    """`[battery]`: what a radio takes, and what batteries have.

    Parameters
    ----------
    receive_ma : float, optional
        The current in mA, at least 0, while a radio is on and does not transmit; None for 18.8.
    transmit_ma : float, optional
        The current in mA, at least 0, while it transmits; None for 17.4.
    sleep_ma : float, optional
        The current in mA, at least 0, while it is off; None for 0.
    capacity_mah : dict
        By kind of battery ("battery", "2xAA", "1xAA" or "D") the charge in mAh, above 0, in place of the usual one.
    where : str
        The place that it was read from, for messages, as "plan.toml, line 12, [[node]], row 3"; empty where it was not read.
    origin : tuple of (str, int), optional
        The CSV file that it was read from, or an empty text, and which row of it, from 0 on; None where it was not read.
    """

    receive_ma: float | None = key("real", "the current while a radio is on and does not transmit; 18.8 where it is not given", low=0, unit="mA")
    transmit_ma: float | None = key("real", "the current while it transmits; 17.4 where it is not given", low=0, unit="mA")
    sleep_ma: float | None = key("real", "the current while it is off; 0 where it is not given", low=0, unit="mA")
    capacity_mah: dict[str, float] = key("capacities", "the charge by kind of battery, in place of the usual ones; a number holds for `battery`", {},
                                         above=0, unit="mAh", choices=tuple(CAPACITIES))  # fmt: skip


@dataclass
class Requirement(Row):
    """`[[requirement]]`: what has to hold, one of share, ratio, years, joined and outage.

    Parameters
    ----------
    name : str
        What people call it, another one for each.
    share : float, optional
        The part of the packets that come in time, above 0 and at most 1; it needs a `deadline`, its own or one of each stream.
    ratio : float, optional
        The part of the packets that arrive at all, above 0 and at most 1.
    years : float, optional
        How long batteries last in years, above 0.
    joined : float, optional
        After how long all nodes are members, in s, above 0 and below the length of the run.
    outage : float, optional
        How long nothing may arrive after a failure, in s, above 0 and below the length of the run.
    streams : list of str
        The names of the streams that it is about; all where neither these nor a tag is given.
    tag : str
        In place of that: the streams with this tag, or of the nodes that have it.
    to : str or list of str, optional
        The receivers that count, in the forms of `Stream.to`; None for those of each stream.
    deadline : float, optional
        How late a packet may come, in s, above 0 and below the length of the run, for `share`; None for that of each stream.
    nodes : str or list of str, optional
        The nodes that `years` or `joined` is of: names, a tag, "battery" for those that are not on mains, or "all"; None for "battery" where it is
        years, else for all.
    when : str
        It is "as planned", "NAME fails", "any one node fails" or "any one host fails".
    at : float, optional
        When the failure is, in s, at least 0 and before the end of the run; None for after a third of the run.
    part : float, optional
        In which part of the draws it has to hold, above 0 and at most 1, `in` in a file; None for on average over the draws.
    confidence : float
        How sure a verdict has to be, 0.5 to 0.9999.
    where : str
        The place that it was read from, for messages, as "plan.toml, line 12, [[node]], row 3"; empty where it was not read.
    origin : tuple of (str, int), optional
        The CSV file that it was read from, or an empty text, and which row of it, from 0 on; None where it was not read.
    """

    name: str = key("text", "what people call it, another one for each", REQUIRED)
    share: float | None = key("real", "the part of the packets that come in time", above=0, high=1)
    ratio: float | None = key("real", "or the part of the packets that arrive at all", above=0, high=1)
    years: float | None = key("real", "or how long batteries last", above=0, unit="years")
    joined: float | None = key("real", "or after how long all nodes are members", above=0, unit="s")
    outage: float | None = key("real", "or how long nothing may arrive after a failure", above=0, unit="s")
    streams: list[str] = key("texts", "the streams that it is about; all where neither these nor a tag is given", [])
    tag: str = key("text", "or the streams with this tag, or of the nodes that have it", "")
    to: str | list[str] | None = key("to", "the receivers that count; those of each stream where it is not given")
    deadline: float | None = key("real", "how late a packet may come; that of each stream where it is not given", above=0, unit="s")
    nodes: str | list[str] | None = key("to", "the nodes: names, a tag, or `battery` for those that are not on mains, which years are of where it is not "
                                        "given; else all")  # fmt: skip
    when: str = key("text", "`as planned`, `NAME fails`, `any one node fails` or `any one host fails`", "as planned")
    at: float | None = key("real", "when the failure is; after a third of the run where it is not given", low=0, unit="s")
    part: float | None = key("real", "in which part of the draws it has to hold; on average over the draws where it is not given", name="in", above=0, high=1)
    confidence: float = key("real", "how sure a verdict has to be", 0.95, low=0.5, high=0.9999)


@dataclass
class Search(Row):
    """`[search]`: what `foldcairn search` may choose; what is not given stays as the plan has it.

    Parameters
    ----------
    profile : list of int, optional
        Profiles, 1 and 2, of which one is chosen.
    sends : list of int, optional
        How often a node may transmit in one flood, each 1 to 4.
    contend : list of int, optional
        Numbers of contention slots, each 0 to 4, in profile 2.
    interval : list of float, optional
        The intervals that streams with a period request, as parts of their periods, each above 0 and at most 1.
    keep_alive : list of float, optional
        Keep-alives in s, each at least 0, in place of that of [plan]; 0 for none.
    hosts : list of str, optional
        The names of the nodes of which one has rank 0.
    backups : list of str, optional
        The names of the nodes of which one has rank 1.
    relays : list of str, optional
        The names of the candidates that may be relays.
    relays_most : int
        How many of them at most are put at a time, 1 to 8.
    settings : int
        How many settings are tried at most, 1 to 10,000.
    where : str
        The place that it was read from, for messages, as "plan.toml, line 12, [[node]], row 3"; empty where it was not read.
    origin : tuple of (str, int), optional
        The CSV file that it was read from, or an empty text, and which row of it, from 0 on; None where it was not read.
    """

    profile: list[int] | None = key("wholes", "profiles, of which one is chosen", low=1, high=2)
    sends: list[int] | None = key("wholes", "how often a node may transmit in one flood", low=1, high=4)
    contend: list[int] | None = key("wholes", "numbers of contention slots, in profile 2", low=0, high=4)
    interval: list[float] | None = key("reals", "the intervals that streams with a period request, as parts of their periods", above=0, high=1)
    keep_alive: list[float] | None = key("reals", "keep-alives, in place of that of [plan]; 0 for none", low=0, unit="s")
    hosts: list[str] | None = key("texts", "the nodes of which one has rank 0")
    backups: list[str] | None = key("texts", "the nodes of which one has rank 1")
    relays: list[str] | None = key("texts", "the candidates that may be relays")
    relays_most: int = key("whole", "how many of them at most are put at a time", 1, low=1, high=8)
    settings: int = key("whole", "how many settings are tried at most", 200, low=1, high=10_000)
