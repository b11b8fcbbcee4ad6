"""What the commands of `python3 -m foldcairn` share: how they are added, what they read and which window they take.

Tested, not proved.
"""

from __future__ import annotations

import argparse
import re
import sys
from collections.abc import Callable
from pathlib import Path
from typing import TYPE_CHECKING, Any, NoReturn, TypeAlias

from ..common.arguments import ArgumentError, did_you_mean
from ..common.visible import visible
from ..model import doubts, faults, lines, tables
from ..model.receivers import ALL, HOSTS, Receivers
from ..model.scenario import Scenario
from ..runs import results, running

if TYPE_CHECKING:
    from ..plan import Plan

# These types have no public names.
Commands: TypeAlias = "argparse._SubParsersAction[Any]"
# A command, or a group of its options.
Options: TypeAlias = "argparse.ArgumentParser | argparse._ArgumentGroup"


_ONE_DRAW = "the losses are drawn by seed 1, which is one of many; --seed N takes another, and `sample` says how likely it is"


class Failed(Exception):
    """What was asked for can't be had; the message says why."""


class Unreadable(Exception):
    """The input that is named can't be read; the message says why."""


class Parser(argparse.ArgumentParser):
    """A parser that asks for the nearest word where one is not known: a command, an option, or a choice of one."""

    def parse_args(self, args: Any = None, namespace: Any = None) -> Any:
        """The words as `argparse` takes them; what is left of them is told with the usage of its command."""
        chosen, left = self.parse_known_args(args, namespace)
        if left:
            parser: Parser = getattr(chosen, "parser", self)
            options = re.findall(r"--[a-z-]+", parser.format_usage())
            near = did_you_mean(left[0].partition("=")[0], options) if left[0].startswith("-") else ""
            parser.error(f"{left[0]!r} is no word of this command{near}")
        return chosen

    def error(self, message: str) -> NoReturn:
        """Ends with the usage and what is wrong, with the choices that there are."""
        wrong = re.fullmatch(r"argument (.+?): invalid choice: '(.*)' \(choose from (.*)\)", message, re.DOTALL)
        if wrong:
            choices = [word.strip(" '") for word in wrong[3].split(",")]
            message = f"{wrong[1]} is {wrong[2]!r}, and not one of {', '.join(choices)}{did_you_mean(wrong[2], choices)}"
        super().error(message)


def add(commands: Commands, name: str, run: Callable[[argparse.Namespace], int], about: str) -> argparse.ArgumentParser:
    """Adds a command; in the list of commands it has the first sentence of what it is about."""
    # argparse fills in what follows a `%` in a help text, and in a description only `%(prog)`.
    parser: argparse.ArgumentParser = commands.add_parser(name, help=first_sentence(about).replace("%", "%%"), description=about)
    parser.set_defaults(run=run, parser=parser)
    return parser


def first_sentence(text: str) -> str:
    """A text up to the full stop of its first sentence, which a blank or the end follows."""
    return re.split(r"\.(?:\s|$)", text, maxsplit=1)[0]


def add_file(parser: argparse.ArgumentParser, output: str | None = None) -> None:
    """The file with the scenario, and the one that is written, where it has a name."""
    parser.add_argument("file", metavar="FILE", help="a plan (.toml), a scenario or a network with its ratios, or - for standard input")
    if output is not None:
        parser.add_argument("-o", "--output", metavar="FILE", default=output, help=f"the file that is written ({output} without it)")


def add_window(parser: argparse.ArgumentParser) -> None:
    """A time within the run."""
    words = "seconds from the start of the run"
    parser.add_argument("--from", dest="start", type=float, default=0.0, metavar="S", help=f"{words} (0 without it)")
    parser.add_argument("--to", dest="end", type=float, metavar="S", help=f"{words} (its end without it)")


def add_seed(parser: argparse.ArgumentParser) -> None:
    """By what losses are drawn where a run is of one seed."""
    parser.add_argument("--seed", type=int, metavar="N", help="draw the losses of a network's ratios by this seed, a whole number (1 without it)")


def add_ratios(parser: Options, words: str) -> None:
    """The table of reception ratios."""
    parser.add_argument("--ratios", metavar="CSV", help=f"a table of links: from, to, prr (0 to 1); {words}")


def add_receivers(parser: argparse.ArgumentParser) -> None:
    """For whom packets are meant."""
    parser.add_argument(
        "--receivers", metavar="WHO", help="for whom packets are meant: all (without it), hosts, nodes with commas, or one of these for each source "
        "or stream, as in 7=101,8.1=hosts,others=all",
    )  # fmt: skip


def add_battery(parser: argparse.ArgumentParser) -> None:
    """The battery, and the currents of the radio."""
    parser.add_argument("--capacity-mah", type=float, metavar="MAH", help="the capacity of a battery (2600 without it)")
    for name, words in (("transmit", "while the radio transmits (17.4)"), ("receive", "while it is on otherwise (18.8)"),
                        ("sleep", "while it is off (0)")):  # fmt: skip
        parser.add_argument(f"--{name}-ma", type=float, metavar="MA", help=f"the current {words}")
    parser.add_argument("--mains", metavar="NODE,NODE,..", help="the nodes without a battery, by their ids or names")


def battery(chosen: argparse.Namespace) -> dict[str, Any]:
    """The words of `planning.battery_life` that are given, and those that a plan has."""
    found = plan(chosen.file)
    given = _battery(chosen)
    return given if found is None else {**found.battery_words(), **given}


def _battery(chosen: argparse.Namespace) -> dict[str, Any]:
    words = {name: getattr(chosen, name, None) for name in ("capacity_mah", "transmit_ma", "receive_ma", "sleep_ma", "target_days")}
    mains = {"mains": nodes(chosen.mains)} if chosen.mains else {}
    return {**{name: value for name, value in words.items() if value is not None}, **mains}


def add_places(parser: Options) -> None:
    """The table of nodes for a map."""
    parser.add_argument(
        "--places", metavar="CSV", help="a table of nodes for the map: id, x, y (upwards), and maybe their name; laid out by the links without it"
    )


def add_runs(parser: argparse.ArgumentParser, seeds: str | None) -> None:
    """What each command of many runs takes; with seeds where it draws losses by them."""
    if seeds is not None:
        parser.add_argument("--seeds", default=seeds, metavar="A-B", help=f"the seeds to draw losses by ({seeds} without it)")
    parser.add_argument("--results", metavar="FOLDER", help="where results are kept as they come: what was stopped goes on from there")
    parser.add_argument("--jobs", type=int, metavar="N", help="how many run at a time; a process for each processor without it")


def seeds(words: str) -> range:
    """The seeds of `A-B` or `A`. Raises `ArgumentError` where there are none, more than `lines.SEEDS_MOST`, or one is out of its range."""
    first, _, last = words.partition("-")
    if not first.isdecimal() or not (last or first).isdecimal():
        raise ArgumentError(f"`--seeds` is {words!r}, and has to be a number or two with a dash between them, as in 1-10")
    found = range(int(first), int(last or first) + 1)
    if not found:
        raise ArgumentError(f"`--seeds` is {words!r}, and has no seed")
    if found[-1] > lines.SEED_MOST:
        raise ArgumentError(f"`--seeds` is {words!r}, and a seed is at most {lines.SEED_MOST:,}")
    if found[-1] - found[0] >= lines.SEEDS_MOST:
        raise ArgumentError(f"`--seeds` is {words!r}, and has {found[-1] - found[0] + 1:,} seeds; at most {lines.SEEDS_MOST:,} are taken")
    return found


def many_seeds(words: str) -> range:
    """So many seeds from 1 on, or those of `A-B`. Raises `ArgumentError` where there are none."""
    return seeds(words if "-" in words or not words.isdecimal() else f"1-{words}")


def nodes(words: str) -> list[int | str]:
    """The nodes of a list with commas, each by its id or its name."""
    return [int(word) if word.strip().isdecimal() else word.strip() for word in words.split(",")]


def receivers(words: str | None) -> Receivers:
    """The receivers of `--receivers`: "all", "hosts", nodes with commas between them, or one of these for each source or stream."""
    if words is None or words in (ALL, HOSTS):
        return words
    if "=" not in words:
        return nodes(words)
    return dict(_sink(word) for word in words.split(","))


def _sink(word: str) -> tuple[Any, Receivers]:
    """A source or a stream, and for whom its packets are meant: of "7=101" or "8.1=hosts"."""
    source, _, whom = word.strip().partition("=")
    node, _, stream = source.rpartition(".")
    key = (nodes(node)[0], int(stream)) if node and stream.isdecimal() else nodes(source)[0]
    return key, whom if whom in (ALL, HOSTS) else nodes(whom)


def scenario(path: str, ratios: str | None = None) -> Scenario:
    """The scenario of a file, with the ratios of a table; of a plan its network."""
    found = plan(path)
    return set_ratios(Scenario.read(read(path)) if found is None else found.network(), ratios)


def plan(path: str) -> Plan | None:
    """The plan of a file, or None where the file is none by its name. Raises what `read` and `Plan.parse` raise."""
    if not path.endswith(".toml"):
        return None
    from ..plan import Plan

    return Plan.parse(_bytes(path), path)


def set_ratios(made: Scenario, path: str | None) -> Scenario:
    """The scenario, with the ratios of `--ratios` where it is given."""
    return made if path is None else tables.set_ratios(made, path)


def places(made: Scenario, path: str | None) -> dict[int, tuple[float, float]] | None:
    """The places of `--places`; where its nodes have names, the scenario gets these."""
    return None if path is None else tables.positions(path, made)


def say(text: str) -> None:
    """Writes a text on standard output, in which nothing is an escape code of a terminal."""
    sys.stdout.write(visible(text))


def log(path: str, seed: int | None) -> results.Log:
    """The log of a run of a file. Where it has reception ratios, losses are drawn by the seed first. Raises `Failed` where there are too
    many, and `ArgumentError` where a seed is given and there is nothing to draw."""
    from ..runs import losses

    found = plan(path)
    if found is not None:
        return log_of_plan(found, seed)
    text = read(path)
    if not is_network(text):
        if seed is not None:
            raise ArgumentError(f"`--seed` is {seed}, and {path} has no reception ratios to draw losses by; leave it out, or give a network")
        return results.log(text)
    if seed is None:
        doubts.warn([_ONE_DRAW])
    try:
        return running.run(text, seed=1 if seed is None else seed, progress=False)
    except losses.TooManyLosses as error:
        raise Failed(str(error)) from error


def log_of_plan(found: Plan, seed: int | None) -> results.Log:
    """The log of a run of a plan, with what the seed draws. Raises `Failed` where there are too many losses, and what `require_log` raises."""
    from ..runs import losses

    if seed is None:
        doubts.warn([_ONE_DRAW])
    network = found.network(1 if seed is None else seed)
    require_log(found, network)
    try:
        return running.run(network, seed=1 if seed is None else seed, progress=False)
    except losses.TooManyLosses as error:
        raise Failed(str(error)) from error


def picture(found: Plan) -> tuple[str, str] | None:
    """The picture of a plan's floor and where its edges are, as --background and --extent have them, where all nodes are on this floor."""
    file, extent = found.folder / found.floor.picture, found.extent()
    if not found.floor.picture or not file.is_file() or extent is None or len({node.floor for node in found.nodes.values()}) > 1:
        return None
    left, lower, right, upper = extent
    return str(file), f"{left},{right},{lower},{upper}"


def require_log(found: Plan, network: Scenario) -> None:
    """Raises `ArgumentError` where a run of a plan is too long for a log, before anything is drawn."""
    by_seed = network.is_to_be_drawn and running.takes_seed()
    node_frames = lines.LONG_NODE_FRAMES_MOST if by_seed else lines.NODE_FRAMES_MOST
    script_lines = lines.LONG_SCRIPT_LINES_MOST if by_seed else lines.SCRIPT_LINES_MOST
    frames = min(node_frames // len(network.nodes), network.frames * script_lines // max(1, network.script_lines()))
    if frames < network.frames:
        most = frames * network.frame_seconds / 3_600
        raise ArgumentError(
            f"{found.path}: a log of {len(network.nodes)} nodes is of {most:.2f} hours at most, and `hours` in [plan] is {found.settings.hours:g}: write "
            "less for a report or a picture of one run, or ask `sample`, `compare` or `sweep`, which take all of it"
        )


def is_network(text: bytes) -> bool:
    """Whether a text has a line `ratios`, below which there are reception ratios."""
    return ["ratios"] in faults.split(text)


def read(path: str, seed: int | None = None) -> bytes:
    """The text of a file, or of the standard input where it is `-`; of a plan that of its network, of a seed or of its means. Raises what
    `Plan.parse` raises, `Unreadable` and `ArgumentError` as for any text."""
    found = plan(path)
    return _bytes(path) if found is None else found.network(seed).network_text(warn=False).encode()


def _bytes(path: str) -> bytes:
    """What is in a file, or comes in by the standard input where it is `-`. Raises `Unreadable` where it can't be read, and `ArgumentError` where
    it is larger than any text that is run; no more of it is read than shows that."""
    try:
        is_long = path != "-" and Path(path).is_file() and Path(path).stat().st_size > lines.TEXT_BYTES_MOST
        data = b"" if is_long else Path(path).read_bytes() if path != "-" else sys.stdin.buffer.read(lines.TEXT_BYTES_MOST + 1)
    except IsADirectoryError:
        raise Unreadable("the input is a folder, not a file" if path == "-" else f"'{path}' is a folder, not a file") from None
    except FileNotFoundError:
        raise Unreadable(f"there is no file '{path}'") from None
    except OSError as error:
        raise Unreadable(f"the file '{path}' can't be read: {error.strerror}") from error
    if is_long or len(data) > lines.TEXT_BYTES_MOST:
        raise ArgumentError(f"{'the input' if path == '-' else repr(path)} has more than {lines.TEXT_BYTES_MOST:,} bytes, which are the most that are read")
    return data


def extent(words: str | None) -> tuple[float, float, float, float] | None:
    """Where a background lies, of `--extent`: left, right, bottom, top. Raises `ArgumentError` where there are not four numbers."""
    if words is None:
        return None
    edges = [float(word) for word in words.split(",")]
    if len(edges) != 4:
        raise ArgumentError(f"`--extent` has {len(edges)} numbers, and has to have 4: left, right, bottom, top")
    return edges[0], edges[1], edges[2], edges[3]
