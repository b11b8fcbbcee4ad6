"""Drawings of the documents that show no run: the parts of a frame, the guard time from the numbers of the profiles, the
states of a node, how a stamp comes about, and the crates from crates.txt. tools/pictures.py writes them; colours and frames
are those of the Python package in python/.
"""

from matplotlib.figure import Figure
from matplotlib.patches import ConnectionPatch, Patch, Rectangle

import crates
from foldcairn.answers import rounds, timing
from foldcairn.draw import plot, style
from foldcairn.model import lines

WIDTH = 11.0
MILLISECOND = 64_000


def bar(drawn, row, start, end, colour, half=0.3):
    """A bar of one row from start to end."""
    drawn.broken_barh([(start, end - start)], (row - half, 2 * half), facecolor=colour, zorder=2)


def box(drawn, x, y, wide, tall, name, *words):
    """A box with a name, and smaller words in lines below it; y grows downwards."""
    drawn.add_patch(Rectangle((x, y), wide, tall, facecolor="none", edgecolor=style.PALE, linewidth=1.0, clip_on=False))
    for place, text in enumerate((name, *words)):
        middle = y + tall * (place + 0.65) / (len(words) + 1.3)
        drawn.text(x + wide / 2, middle, text, fontsize=8.5 if place else 10.0, ha="center", va="center")


def sheet(wide, tall, height):
    """Axes without scales, of this width and height in units of their own, y downwards."""
    figure, drawn = style.axes(WIDTH, height)
    drawn.set_xlim(0, wide)
    drawn.set_ylim(tall, 0)
    drawn.set_axis_off()
    return figure, drawn


def arrow(drawn, start, end):
    drawn.annotate("", end, start, arrowprops={"arrowstyle": "->", "color": style.PALE, "shrinkA": 0, "shrinkB": 0})


def states_picture():
    """The states of a node, and what leads from one to another."""
    figure, drawn = sheet(1000, 256, 3.1)
    off = "An off line leads from every state to off: the node forgets everything but how often it was powered on."
    style.heading(drawn, "The states of a node", off)

    def note(x, y, *words, anchor="center"):
        drawn.text(x, y, "\n".join(words), fontsize=8.5, ha=anchor, va="center")

    box(drawn, 0, 114, 100, 52, "off", "radio off")
    box(drawn, 250, 106, 200, 68, "scanning for a rank", "radio on all the time,", "on the channel of that rank")
    box(drawn, 780, 30, 218, 68, "synchronized", "knows the frame of the next", "round; radio on in its slots")
    box(drawn, 780, 182, 218, 68, "hosting", "plans the rounds of its rank;", "radio on in its slots")
    arrow(drawn, (100, 140), (250, 140))
    note(175, 118, "power-on:", "scans for rank 0")
    arrow(drawn, (450, 120), (780, 46))
    note(590, 56, "receives a closing schedule of that rank")
    arrow(drawn, (780, 82), (450, 138))
    note(632, 132, "misses the closing schedule of its round", anchor="left")
    arrow(drawn, (450, 156), (780, 216))
    note(470, 204, "own rank, 5 frames", "without a schedule", anchor="left")
    drawn.plot([310, 310, 390], [174, 210, 210], color=style.PALE, linewidth=1.0)
    arrow(drawn, (390, 210), (390, 174))
    note(350, 234, "12 frames without a schedule:", "the next rank")
    return figure


def crates_picture():
    """The crates by families, as crates.txt has them; a box is as wide as the longest name."""
    families = [(name, what, crates.in_order(found)) for name, what, found in crates.families()]
    across, longest = 8, max(len(crate) for _, _, found in families for crate in found)
    rows = sum(1.1 + 0.85 * -(-len(found) // across) + 0.25 for _, _, found in families)
    figure, drawn = sheet(across, rows, 0.29 * rows)
    style.heading(drawn, "The crates by families: each family uses those above it alone")
    y = 0.5
    for name, what, found in families:
        drawn.text(0, y, f"{name}: {what}", fontsize=9, va="center")
        ground = style.OFF if name == "law" else "none"
        look = {"boxstyle": "square,pad=0.5", "facecolor": ground, "edgecolor": style.PALE, "linewidth": 0.8}
        for place, crate in enumerate(found):
            drawn.text(
                place % across + 0.4, y + 0.9 + 0.85 * (place // across), crate.center(longest), bbox=look, family="monospace",
                fontsize=7.5, ha="center", va="center",
            )  # fmt: skip
        y += 1.1 + 0.85 * -(-len(found) // across) + 0.25
    return figure


class Profile:
    """The times of a slot and the worst difference of two nodes, in ticks, and the longest packet in bytes."""

    def __init__(self, number, close, longest, apart):
        self.number = number
        self.close = close
        self.slot = lines.slot_ticks(number)
        self.longest = longest
        self.apart = apart

    def flood_end(self):
        """When the last of twelve steps of the longest packet ends, by the clock of the initiator."""
        airtime = (self.longest + 8) * 2_048
        return rounds.GUARD_TICKS + 12 * (airtime + 12_288) - 12_288


PROFILES = [Profile(1, 2_096_000, 64, 44_960), Profile(2, 3_568_000, 125, 58_300)]


def guard_picture():
    """A slot at two nodes whose clocks are as far apart as they can be: its beginning and its end, with what is left."""
    figure = Figure(figsize=(WIDTH, 5.4), layout="constrained")
    panels = figure.subplots(2, 2, gridspec_kw={"hspace": 0.12})
    for profile, (left, right) in zip(PROFILES, panels):
        draw_guard(profile, style.plain(left), style.plain(right))
    title = "The longest flood in a slot, at two nodes whose clocks are as far apart as they can be"
    style.heading(panels[0][0], title, "Profile 1: the beginning of the slot")
    style.heading(panels[1][0], "", "Profile 2: the beginning of the slot")
    for drawn in panels[:, 1]:
        style.heading(drawn, "", "its end")
    bars = [
        Patch(color=style.TRANSMITS, label="twelve steps of the longest packet"),
        Patch(color=style.LISTENS, label="window of the slot"),
        Patch(color=style.RANKS[1], label="window of the next slot"),
    ]
    style.key(panels[1][0], 3, below=0.35, more=bars)
    return figure


def draw_guard(profile, left, right):
    end = profile.flood_end()
    rows = {"flood": None, "node 1": 0, "node 2, late": profile.apart, "node 2, early": -profile.apart}
    for drawn, begin in ((left, -MILLISECOND), (right, end - MILLISECOND)):
        for row, shift in enumerate(rows.values()):
            if shift is None:
                bar(drawn, row, rounds.GUARD_TICKS, end, style.TRANSMITS)
                continue
            bar(drawn, row, shift, shift + profile.close, style.LISTENS)
            bar(drawn, row, shift + profile.slot, shift + 2 * profile.slot, style.RANKS[1])
        drawn.set_xlim(begin, begin + 4 * MILLISECOND)
        drawn.set_ylim(3.5, -0.5)
        first = -(-begin // MILLISECOND)
        drawn.set_xticks([place * MILLISECOND for place in range(first, first + 4 + (begin % MILLISECOND == 0))])
        drawn.xaxis.set_major_formatter(lambda tick, _: f"{tick / MILLISECOND:g} ms")
        drawn.grid(axis="x", color=style.FAINT, linewidth=0.6)
        drawn.spines["left"].set_visible(False)
        drawn.set_yticks(range(4), rows if drawn is left else [""] * 4)
    room(left, profile.apart, rounds.GUARD_TICKS, 1.5)
    room(right, end, profile.close - profile.apart, 2.5)


def room(drawn, start, end, row):
    """What is left between two times."""
    look = {"arrowstyle": "|-|,widthA=0.25,widthB=0.25", "color": style.PALE, "shrinkA": 0, "shrinkB": 0}
    drawn.annotate("", (end, row), (start, row), arrowprops=look)
    drawn.annotate(f"{(end - start) / MILLISECOND:.2f} ms left", (end, row), (6, 0), textcoords="offset points", fontsize=8.5, va="center")


def times_picture():
    """How a stamp comes about, with drift drawn much too large; and the bound of its error over the age of the schedule."""
    figure = Figure(figsize=(WIDTH, 3.9), layout="constrained")
    clocks, bound = figure.subplots(1, 2, gridspec_kw={"width_ratios": (1.9, 1), "wspace": 0.06})
    draw_clocks(style.plain(clocks))
    draw_bound(style.plain(bound))
    return figure


def draw_clocks(drawn):
    """Marks of three clocks over true time: the sender's is ahead, and faster than it could be."""
    opening, packet, step = 1.0, 34.0, 3.0
    rows = {"true time": (1.0, 0.0), "clock of the host": (0.98, 0.0), "clock of the sender": (1.06, 3.0)}
    for row, (speed, offset) in enumerate(rows.values()):
        drawn.hlines(row, -4, 44, color=style.PALE, linewidth=1.0)
        places = [(step * mark - offset) / speed for mark in range(-1, 17)]
        drawn.vlines([place for place in places if -4 < place < 44], row - 0.07, row + 0.07, color=style.PALE, linewidth=1.0)
    for time, words, colour in (
        (opening, "the host starts its schedule", style.RECEIVES),
        (packet, "the sender starts its packet", style.TRANSMITS),
    ):
        drawn.vlines(time, -0.35, 2.4, color=colour, linewidth=1.4, linestyle=(0, (4, 3)))
        drawn.text(time, -0.42, words, fontsize=8.5, ha="center", va="bottom")
    drawn.text(opening, 2.47, "the reference", fontsize=8.5, ha="center", va="top")
    marks = [(packet - opening) * speed / step for speed, _ in rows.values()]
    late = f"{marks[2]:.1f} marks on the sender's: the stamp is {marks[2] - marks[1]:.1f} late"
    for row, told in ((1, f"{marks[1]:.1f} marks pass on the host's clock"), (2, late)):
        look = {"arrowstyle": "<->", "color": style.INK, "shrinkA": 0, "shrinkB": 0}
        drawn.annotate("", (packet, row + 0.22), (opening, row + 0.22), arrowprops=look)
        drawn.text((opening + packet) / 2, row + 0.3, told, fontsize=8.5, ha="center", va="top")
    drawn.set_yticks(range(3), rows)
    drawn.set_ylim(2.75, -0.75)
    drawn.set_xlim(-4, 44)
    drawn.set_xticks([])
    for spine in drawn.spines.values():
        spine.set_visible(False)
    title = "A stamp: the sender's clock measures from the schedule to the packet"
    style.heading(drawn, title, "A mark is a step of that clock. The drift is drawn some thousand times too large.")


def draw_bound(drawn):
    """51 ticks and 40 millionths of the age, in microseconds over seconds."""
    ages = [10 ** (place / 20 - 2) for place in range(66)]
    drawn.loglog(ages, [51 / 64 + 40 * age for age in ages], color=style.TRANSMITS, linewidth=2)
    for age, words in ((0.033, "slot 1"), (0.33, "slot 10"), (1.32, "slot 40"), (17.5, "old schedule")):
        drawn.plot(age, 51 / 64 + 40 * age, "o", color=style.TRANSMITS, markersize=5)
        shift, side = ((-7, -3), "right") if age > 10 else ((7, -3), "left")
        drawn.annotate(words, (age, 51 / 64 + 40 * age), shift, textcoords="offset points", fontsize=8.5, ha=side)
    drawn.set_xticks([0.01, 0.1, 1, 10], ["10 ms", "0.1 s", "1 s", "10 s"])
    drawn.set_yticks([1, 10, 100, 1000], ["1 µs", "10 µs", "100 µs", "1 ms"])
    drawn.minorticks_off()
    drawn.grid(color=style.FAINT, linewidth=0.6)
    drawn.set_xlabel("age of the schedule")
    style.heading(drawn, "The greatest error", "profile 1")


def frame_picture(log, frame):
    """From frames down to the steps of one flood in slot 1 of a frame."""
    slots = timing.slots(log)
    ours = slots[slots["frame"] == frame].reset_index()
    length = float(log.scenario.frame_seconds)
    figure = Figure(figsize=(WIDTH, 5.6), layout="constrained")
    frames, whole, round_, slot = figure.subplots(4, 1, gridspec_kw={"height_ratios": (1, 1, 1, 5), "hspace": 0.3})
    strip(frames, "frames", [(length * number, length * (number + 1), str(number)) for number in range(4, log.scenario.frames)])
    strip(whole, f"frame {frame}", [(length * frame, length * (frame + 1), "")])
    strip(round_, "round", [(one.start_seconds, one.end_seconds, f"slot {one.slot}: {one.name}") for one in ours.itertuples()])
    for start in slots.loc[slots["slot"] == 0, "start_seconds"]:
        bar(frames, 0, start, start + 0.06 * length, style.TRANSMITS, 0.5)
    first, last = ours["start_seconds"].min(), ours["end_seconds"].max()
    bar(whole, 0, first, last, style.TRANSMITS, 0.5)
    whole.text(last + 0.03, 0, "the round, 1 s into the frame of 4 s; then every radio is off", fontsize=8.5, va="center")
    start, end = ours["start_seconds"][1], ours["start_seconds"][1] + 0.008
    plot.timeline(log, start_seconds=start, end_seconds=end, title=" ", axes=slot)
    zoom(figure, frames, (length * frame, length * (frame + 1)), whole)
    zoom(figure, whole, (first, last), round_)
    zoom(figure, round_, (start, end), slot)
    slot.set_xlabel("the first 8 of the 33 milliseconds of slot 1; the numbers are steps")
    style.key(slot, 4, more=[Patch(facecolor=style.GROUND, edgecolor=style.FAINT, label="radio off")])
    return figure


def strip(drawn, name, spans):
    """A row of boxes from start to end, with their words."""
    for start, end, words in spans:
        box(drawn, start, -0.5, end - start, 1, "")
        drawn.text((start + end) / 2, 0, words, ha="center", va="center", zorder=4)
    drawn.set_xlim(spans[0][0], spans[-1][1])
    drawn.set_ylim(0.5, -0.5)
    drawn.set_axis_off()
    drawn.annotate(name, (0, 0.5), (-6, 0), xycoords="axes fraction", textcoords="offset points", ha="right", va="center")


def zoom(figure, above, part, below):
    """Lines from a part of the bar above to the whole of what is below."""
    for place, x in enumerate(part):
        look = {"linestyle": (0, (4, 3)), "linewidth": 0.9, "color": style.PALE}
        figure.add_artist(ConnectionPatch((x, 0.5), (place, 1), above.transData, below.transAxes, **look))
