#!/usr/bin/env python3
"""Draws the pictures of the documents by the Python package in python/.

Usage: tools/pictures.py PROGRAM [FOLDER]. PROGRAM is the built program, FOLDER is docs/pictures if none is given. Most
pictures show a run of an example, or of a text in a page of docs/, by `foldcairn.plot`; what is no run is of
drawings.py. `tools/setup-python.sh --print` names a Python that has what this needs. The status is 0 if all are written,
3 if they are written by another version of matplotlib than DRAWN_BY, which gives other bytes for the same pictures.
"""

import os
import pathlib
import re
import sys

sys.dont_write_bytecode = True
TOP = pathlib.Path(__file__).resolve().parent.parent
sys.path.insert(0, str(TOP / "python" / "src"))

try:
    import matplotlib

    import drawings
    from foldcairn import planning
    from foldcairn.answers import timing
    from foldcairn.draw import plot, style
    from foldcairn.runs import results
except ModuleNotFoundError as error:
    sys.exit(f"tools/pictures.py: {sys.executable} lacks the module {error.name}; tools/setup-python.sh installs what is needed")

# The version of matplotlib by which the stored pictures are drawn: that of Debian 12.
DRAWN_BY = "3.6."


def example(name):
    return results.log((TOP / "examples" / f"{name}.scenario").read_text())


def text_of(page, name):
    """The text that a page puts into a file of that name."""
    match = re.search(rf"^```text {re.escape(name)}\.scenario\n(.*?)^```$", (TOP / "docs" / page).read_text(), re.MULTILINE | re.DOTALL)
    if not match:
        sys.exit(f"tools/pictures.py: {page} has no text {name}.scenario")
    return match[1]


def from_page(page, name):
    """The run of that text."""
    return results.log(text_of(page, name))


def slot_of(log, frame, slot):
    """When a slot of a frame begins, in seconds."""
    slots = timing.slots(log)
    return slots.loc[(slots["frame"] == frame) & (slots["slot"] == slot), "start_seconds"].iloc[0]


def window(log, frame, slot, seconds, title):
    """What the radios do from the start of a slot on."""
    start = slot_of(log, frame, slot)
    return plot.timeline(log, start_seconds=start, end_seconds=start + seconds, title=title)


# Where the nodes of ten-nodes.scenario of docs/SCENARIO.md are drawn, in columns and rows.
GRID = {1: (0, 0), 2: (1, 0), 3: (2, 0), 4: (3, 0), 5: (0, 1), 6: (1, 1), 7: (2, 1), 8: (3, 1), 9: (2, 2), 10: (3, 2)}


def pictures():
    """Each picture of docs/pictures, by its name."""
    yield "guard", drawings.guard_picture()
    yield "states", drawings.states_picture()
    yield "crates", drawings.crates_picture()
    yield "times", drawings.times_picture()
    line = example("packets-along-a-line")
    yield "frame", drawings.frame_picture(line, 9)
    yield "round", window(line, 9, 0, 0.132, "The round of frame 9 of packets-along-a-line: what each radio does")
    yield "slot", window(line, 9, 1, 0.008, "Slot 1 of that round: the packet of node 4 goes to node 1 in three steps")
    title = "Slot 1 of frame 5 of two-contenders: two requests start in step 0, and node 1 receives neither"
    yield "contention", window(example("two-contenders"), 5, 1, 0.008, title)
    for name, title, note in (
        ("two-nodes", "both scan, then the host opens a round", "The scan of node 1 ends at the frame alarm, 3.2 s into frame 4."),
        ("a-stream", "the request in frame 5, the packet in frame 9", "The scan of node 1 ends at the frame alarm, 3.2 s into frame 4."),
        ("a-lost-link", "node 2 misses both schedules of frame 9 and scans", "It scans from the frame alarm on, 3.2 s into frame 9."),
        ("a-backup-host", "node 1 goes off, and node 2 becomes the host", "Scans start and end at frame alarms, 3.2 s into their frame."),
    ):
        yield name, plot.timeline(from_page("TUTORIAL.md", name), title=f"{name}: {title}", note=note)
    times = planning.radio_time(from_page("TUTORIAL.md", "a-backup-host"))
    yield "energy", plot.energy(times, title="a-backup-host: seconds with the radio on, of 128")
    yield "return", return_picture()
    ten = from_page("SCENARIO.md", "ten-nodes")
    places = {node: (1.9 * column, -row) for node, (column, row) in GRID.items()}
    yield "network", plot.topology(ten.scenario, positions=places, title="ten-nodes: a network of ten nodes")
    yield "failover", plot.timeline(ten, title="ten-nodes: the host, node 1, goes off in frame 16, and node 6 hosts from frame 35")


def return_picture():
    """A failover and the way back: the run of the scenario with the lines that `return` adds."""
    log = results.log(text_of("RETURN.md", "comes-back").replace("put 40", "off 37 2\non 37 2\nput 40"))
    note = "In frame 36 node 2 receives node 1 while it probes, and restarts in frame 37; probes are not drawn."
    return plot.timeline(log, title="comes-back: node 2 takes over, and goes back to node 1", note=note)


def main():
    if len(sys.argv) not in (2, 3):
        sys.exit("usage: tools/pictures.py PROGRAM [FOLDER]")
    os.environ["FOLDCAIRN"] = str(pathlib.Path(sys.argv[1]).resolve())
    folder = pathlib.Path(sys.argv[2]) if len(sys.argv) == 3 else TOP / "docs" / "pictures"
    folder.mkdir(parents=True, exist_ok=True)
    with style.settings():
        for name, figure in pictures():
            plot.save(figure, folder / f"{name}.svg")
    if not matplotlib.__version__.startswith(DRAWN_BY):
        print(f"tools/pictures.py: matplotlib is {matplotlib.__version__}; the stored pictures are by {DRAWN_BY}x", file=sys.stderr)
        sys.exit(3)


if __name__ == "__main__":
    main()
