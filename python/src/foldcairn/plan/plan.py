"""A plan: what `foldcairn.plan` reads, writes, and makes networks of. Tested, not proved."""

from __future__ import annotations

import copy
import os
from dataclasses import dataclass, field, fields, replace
from pathlib import Path
from typing import Any, Self

from ..common import files
from ..model.scenario import Scenario
from . import checks, naming, writing, writing_csv
from .drawing import Drawer
from .errors import PlanError, at, known
from .model import Battery, Event, Floor, Host, Link, Losses, Node, Requirement, Search, Settings, Stream
from .reading import ROWS, Reader, Source, decoded, text_of
from .words import CAPACITIES


@dataclass
class Plan:
    """One plan (docs/PLAN-FILE.md): each table of its file, as the dataclasses of `foldcairn.plan.model`.

    Tables that were read from CSV files are written to CSV files again; `text` has all of them in one text.

    Parameters
    ----------
    path : path, optional
        The file that it was read from; None where it was read from none.
    settings : Settings
        What holds for the whole plan.
    nodes : dict of Node
        The nodes by name, in the order of the file; also candidates, which no network has yet.
    links : list of Link
        What was measured, row by row.
    streams : dict of Stream
        The streams by name.
    hosts : list of Host
        The nodes that may serve the rounds, of which one has rank 0.
    events : list of Event
        What happens in the run.
    requirements : list of Requirement
        What has to hold.
    losses : Losses
        Where the reception ratios come from.
    floor : Floor
        The plan of the building.
    battery : Battery
        What a radio takes, and what batteries have.
    search : Search
        What `foldcairn search` may choose.
    remarks : list of str
        What to know of it, in sentences.
    source : Source, optional
        The text and the CSV files that it was read from, which `read`, `parse` and `write` set; None where it was not read.
    """

    path: Path | None = field(default=None, compare=False)
    settings: Settings = field(default_factory=Settings)
    nodes: dict[str, Node] = field(default_factory=dict)
    links: list[Link] = field(default_factory=list)
    streams: dict[str, Stream] = field(default_factory=dict)
    hosts: list[Host] = field(default_factory=list)
    events: list[Event] = field(default_factory=list)
    requirements: list[Requirement] = field(default_factory=list)
    losses: Losses = field(default_factory=Losses)
    floor: Floor = field(default_factory=Floor)
    battery: Battery = field(default_factory=Battery)
    search: Search = field(default_factory=Search)
    remarks: list[str] = field(default_factory=list, compare=False)
    source: Source | None = field(default=None, compare=False, repr=False)

    @classmethod
    def read(cls, path: str | os.PathLike[str]) -> Self:
        """The plan of a file and of the CSV files that it names.

        Parameters
        ----------
        path : path
            The plan file.

        Returns
        -------
        Plan
            What it says, with ids of nodes, and names and numbers of streams, where it leaves them out.

        Raises
        ------
        PlanError
            Where it is no plan; it names the file, the line or the row, the key, the value, its range and the nearest known name.
        OSError
            Where a file can't be read.
        """
        return cls._of(Reader.of(text_of(Path(path)), Path(path)))

    @classmethod
    def parse(cls, text: str | bytes, path: str | os.PathLike[str] | None = None) -> Self:
        """The plan of a text, or of its bytes, as if it were that of a file.

        Parameters
        ----------
        text : str or bytes
            The plan in TOML; bytes are in UTF-8.
        path : path, optional
            The file, beside which are the files that the plan names; without one they are in the current folder.

        Returns
        -------
        Plan
            What it says, as of `read`.

        Raises
        ------
        PlanError
            Where it is no plan, as of `read`.
        OSError
            Where a file that it names can't be read.
        """
        called = "the plan" if path is None else str(path)
        return cls._of(Reader.of(decoded(text, called) if isinstance(text, bytes) else text, None if path is None else Path(path)))

    @classmethod
    def _of(cls, reader: Reader) -> Self:
        tables = reader.tables()
        made = cls(
            settings=tables["plan"], links=tables["link"], hosts=tables["host"], events=tables["event"], requirements=tables["requirement"],
            losses=tables["losses"], floor=tables["floor"], battery=tables["battery"], search=tables["search"], source=reader.source,
        )  # fmt: skip
        made.path = reader.path
        naming.name(made, tables["node"], tables["stream"])
        made.check()
        return made

    def text(self) -> str:
        """The plan as one TOML text, with all tables in it and the comments of the text that it was read from.

        Returns
        -------
        str
            The text, which `parse` reads as this plan.

        Raises
        ------
        PlanError
            Where the plan is none (`check`), or would not be read as it is.
        """
        self.check()
        text = writing.text(self)
        self._sure(text, {})
        return text

    def write(self, path: str | os.PathLike[str] | None = None) -> Path:
        """Writes the plan to a file, and gives its path.

        Rows that were read from CSV files go to CSV files of the same names beside it, and the picture of the floor plan too; what did not change
        stays as it was written, byte by byte. All files are written, or none of them is.

        Parameters
        ----------
        path : path, optional
            The file; without one that which it was read from.

        Returns
        -------
        pathlib.Path
            The file that was written.

        Raises
        ------
        PlanError
            Where the plan is none (`check`), would not be read as it is, or was read from no file and no path is given.
        OSError
            Where a file can't be written.
        """
        self.check()
        target = self._target(path)
        outside = [one.table for one in self.source.files] if self.source is not None else []
        contents = writing_csv.files(self, self.source) if self.source is not None else {}
        text = writing.text(self, outside)
        self._sure(text, contents)
        more = {target.parent / name: data for name, data in contents.items()}
        picture = self.folder / self.floor.picture
        if self.floor.picture and picture.is_file() and not (target.parent / self.floor.picture).exists():
            more[target.parent / self.floor.picture] = picture.read_bytes()
        spelled = text if self.source is None else text.replace("\n", self.source.line_end)
        files.write_all({**more, target: spelled.encode()})
        self._settle(Reader.of(spelled, target, contents))
        return target

    def _target(self, path: str | os.PathLike[str] | None) -> Path:
        if path is None and self.path is None:
            raise PlanError("the plan", "it was read from no file, so `write` needs the path of one")
        return Path(path) if path is not None else self.path or Path()

    def _sure(self, text: str, contents: dict[str, bytes]) -> None:
        """Raises `PlanError` where a text would not be read as this plan."""
        again = self._of(Reader.of(text, self.path, contents))
        for one in fields(self):
            if one.compare and getattr(again, one.name) != getattr(self, one.name):
                raise PlanError(str(self.path or "the plan"), f"what is written of its {one.name} would not be read as it is: {getattr(self, one.name)!r}")

    def _settle(self, reader: Reader) -> None:
        """Takes the places of rows in the files that were written."""
        tables = reader.tables()
        self.path, self.source = reader.path, reader.source
        for table in ROWS:
            for ours, theirs in zip(writing.rows_of(self, table), tables[table]):
                ours.where, ours.origin = theirs.where, theirs.origin

    def check(self) -> None:
        """Checks that the plan is one, and gives nodes and streams the ids, numbers and names that they lack.

        Raises
        ------
        PlanError
            Where what it has contradicts itself, names what is not there, or is most likely in another unit.
        """
        checks.check(self)
        checks.check_ratios(self)

    @property
    def folder(self) -> Path:
        """Where the other files of the plan are."""
        return Path() if self.path is None else self.path.parent

    def copy(self) -> Self:
        """A plan with the same content that can be changed without changing this one.

        Returns
        -------
        Plan
            The other plan.
        """
        return copy.deepcopy(self)

    def extent(self) -> list[float] | None:
        """Where the edges of the floor plan are.

        Returns
        -------
        list of float or None
            The left, lower, right and upper edges in metres; None where the plan does not say so.

        Raises
        ------
        PlanError
            Where the plan says it twice, or the picture whose pixels are counted can't be read.
        """
        return checks.extent(self)

    def capacity_mah(self, node: str) -> float | None:
        """The charge of a node's battery.

        Parameters
        ----------
        node : str
            The name of the node.

        Returns
        -------
        float or None
            The charge in mAh; None where the node is on mains.

        Raises
        ------
        KeyError
            Where no node has this name, or it is fed by no known kind of battery.
        """
        powered = self.nodes[node].powered
        if self.nodes[node].is_on_mains:
            return None
        return float({**CAPACITIES, **self.battery.capacity_mah}[powered]) if isinstance(powered, str) else float(powered)

    def battery_words(self) -> dict[str, Any]:
        """The battery as `planning.battery_life` takes it, which has one capacity for all: the least of the plan's.

        Returns
        -------
        dict
            `receive_ma`, `transmit_ma` and `sleep_ma` in mA, those that the plan has; `capacity_mah` in mAh, unless all nodes are on mains; and `mains`,
            the names of the nodes on mains that are no candidates.
        """
        words = {name: getattr(self.battery, name) for name in ("receive_ma", "transmit_ma", "sleep_ma")}
        capacities = [one for name in self.nodes if (one := self.capacity_mah(name)) is not None]
        return {
            **{name: value for name, value in words.items() if value is not None},
            **({"capacity_mah": min(capacities)} if capacities else {}),
            "mains": [name for name, node in self.nodes.items() if node.is_on_mains and not node.candidate],
        }

    @property
    def candidates(self) -> list[str]:
        """The names of the places where a relay may be put, in the order of the file."""
        return [name for name, node in self.nodes.items() if node.candidate]

    def with_relays(self, *names: str) -> Self:
        """This plan with a node at each of these candidates, which is as its row says.

        Parameters
        ----------
        *names : str
            The names of the candidates.

        Returns
        -------
        Plan
            Another plan, which shares all but its nodes with this one.

        Raises
        ------
        PlanError
            Where one is no candidate.
        """
        known(at(self, "node"), "candidate", names, self.candidates, "candidate")
        return replace(self, nodes={name: replace(node, candidate=False) if name in names else node for name, node in self.nodes.items()})

    def tagged(self, tag: str) -> list[str]:
        """The names of the nodes with this tag.

        Parameters
        ----------
        tag : str
            The tag.

        Returns
        -------
        list of str
            The names, in the order of the file, of candidates too; empty where no node has the tag.
        """
        return [name for name, node in self.nodes.items() if tag in node.tags]

    def streams_of(self, names: list[str] | None = None, tag: str = "") -> list[Stream]:
        """The streams with these names, or those that have the tag themselves or by their node; all if neither is given.

        Parameters
        ----------
        names : list of str, optional
            The names of streams; where there are some, the tag counts for nothing.
        tag : str
            A tag of streams, or of their nodes; empty for none.

        Returns
        -------
        list of Stream
            The streams, in the order of the names, else in that of the plan.

        Raises
        ------
        KeyError
            Where no stream has one of the names.
        """
        if names:
            return [self.streams[name] for name in names]
        return [one for one in self.streams.values() if not tag or tag in one.tags or tag in self.nodes[one.source].tags]

    def network(self, seed: int | None = None) -> Scenario:
        """The network with what a seed draws.

        That is ratios, times of sporadic packets, phases, times of events, and ids where the plan says so. Losses are drawn by the ratios as of any
        network, by a seed that may be another one. For many seeds `drawer` is faster.

        Parameters
        ----------
        seed : int, optional
            The seed, 0 to 9,999,999,999,999; without one each is at its mean.

        Returns
        -------
        Scenario
            The network, without losses that are drawn.

        Raises
        ------
        PlanError
            Where the plan is none (`check`), is not complete, as without a host, or is too large for a run.
        ValueError
            Where the seed is out of its range.
        """
        return Drawer(self).network(seed)

    def drawer(self) -> Drawer:
        """What makes networks of this plan as it is now, for many seeds: `plan.drawer().network(seed)`.

        Returns
        -------
        Drawer
            Its `network` gives what `Plan.network` gives.

        Raises
        ------
        PlanError
            Where the plan is none (`check`), or is not complete, as without a host.
        """
        return Drawer(self)
