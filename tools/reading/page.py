"""The page: counts, the library's names, and the definitions in an order in which each comes after what it uses."""
import pathlib

from antt import File, ReadingError
from rust import without_comments
from walk import Headline, Key, Sources

HERE = pathlib.Path(__file__).resolve().parent
# Each chapter with the files whose definitions it has: of specs/ by crate and name, of src/ too. One that an earlier chapter needs
# comes there.
CHAPTERS = [
    ("Numbers and the profile", "lwb_base/limits lwb_base/Profile lwb_base/node lwb_base/rank scenario_text/limits"),
    ("Plans and packets", "lwb_base/Messages lwb_base/owner lwb_base/payload lwb_base/packet lwb_base/Sorting bus_rules/delivery bus_rules/Plans"),
    ("Links and losses", "link_trace"),
    ("What a scenario says", "scenario_text/lines scenario_text/ScenarioParts scenario_text/script scenario_text/FloodParts bus_rules/act"),
    ("One flood", "bus_terms/Flooding bus_terms/FloodOfText bus_terms/RelayPaths"),
    ("The streams of a node", "bus_rules/Streams"),
    ("A host's table and plan", "bus_rules/Tables bus_rules/Granting bus_rules/HostPlans"),
    ("A node on the bus", "bus_rules scenario_text/Setups bus_terms/ScriptedStates"),
    ("Rounds", "bus_terms/Rounds"),
    ("Frames and the run", "bus_terms"),
    ("Text that is written", "text_writers bus_report run_report scenario_text/Canonical"),
    ("Scenarios in range", "scenario_text/PartsInOrder scenario_text/ScenarioFacts"),
    ("Text that is read", "text_readers scenario_text"),
    ("Packets as bytes", "lwb_packets schedule_codec"),
    ("Clocks", "tick_clock time_reference scenario_clocks"),
    ("Radio", "radio_model"),
    ("A node by its clock", "glossy_relay lwb_member node_core lwb_base/event lwb_base/order"),
    ("A node with its radio", "air_log/Devices air_log/ScriptedDevices air_log/WindowLogs air_log/Trails"),
    ("The log", "air_log"),
    ("Safety", "air_log/Safe"),
    ("The log and the bus", "law_terms law_bus"),
    ("Reading, writing and the call", "lwb_base command_line run_commands law_printed"),
]


def named(file: str) -> str:
    """How a file is named in CHAPTERS: by its crate, and its path below specs/ or src/ without suffix."""
    parts = file.split("/")
    return f"{parts[1]}/{'/'.join(parts[3:]).rsplit('.', 1)[0]}"


def chapter_of(file: str) -> int:
    """The chapter of a file: of those that have it by its name, else by its crate."""
    name = named(file)
    for wanted in (name, name.split("/")[0]):
        for number, (_, files) in enumerate(CHAPTERS):
            if wanted in files.split():
                return number
    raise ReadingError(f"tools/reading/page.py: no chapter has {file}")


class Set:
    """What a headline reaches."""

    def __init__(self, sources: Sources, headline: Headline) -> None:
        self.sources, self.headline = sources, headline
        self.items, self.outside = sources.reached(headline)

    def lines(self, key: Key) -> int:
        """The lines of a definition that are neither blank nor a comment."""
        found, item = self.sources.place(key)
        if isinstance(found, File):
            return len(self.sources.shown(found, item, self.headline.commands).code())
        return len([line for line in without_comments("\n".join(item.text)).splitlines() if line.strip()])

    def counts(self) -> tuple[int, ...]:
        """Lines of clauses, definitions, their lines, files, crates, and names of the library."""
        clauses = sum(len(lines) for lines, _ in self.sources.contract(self.headline)[2].values())
        definitions = [key for key in self.items if self.sources.place(key)[1].kind != "section"]
        return (clauses, len(definitions), sum(self.lines(key) for key in self.items), len({key.file for key in self.items}),
                len({key.file.split("/")[1] for key in self.items}), len(self.outside))


def ordered(sources: Sources, sets: list[Set]) -> list[tuple[int, int, Key]]:
    """All items of the sets, part by part, each after what it names: (part, chapter, key)."""
    crates = {name: number for number, name in enumerate(sources.order)}
    done: set[Key] = set()
    found: list[tuple[int, int, Key]] = []

    def visit(key: Key, one: Set, part: int, chapter: int, path: tuple[Key, ...]) -> None:
        if key in path:
            raise ReadingError(f"{key.file}: {key.name} names itself through {path[-1].name}")
        if key in done or key not in one.items:
            return
        for name in one.items[key]:
            if isinstance(name, Key) and name in one.items:
                visit(name, one, part, chapter, (*path, key))
        done.add(key)
        found.append((part, chapter, key))

    for part, one in enumerate(sets):
        keys = sorted(one.items, key=lambda key: (chapter_of(key.file), crates[key.file.split("/")[1]], key.file, sources.place(key)[1].line))
        for key in keys:
            visit(key, one, part, chapter_of(key.file), ())
    return found


def block(sources: Sources, key: Key, commands: tuple[str, ...]) -> list[str]:
    """An item as it is in its file: its comment and its text."""
    found, item = sources.place(key)
    shown = sources.shown(found, item, commands) if isinstance(found, File) else item
    return [*shown.comment, *shown.text]


def chapters(sources: Sources, sets: list[Set], parts: list[tuple[str, str]]) -> list[str]:
    """The definitions with their headings."""
    page: list[str] = []
    before = (-1, -1, "")
    seen: set[str] = set()
    for part, chapter, key in ordered(sources, sets):
        if part != before[0]:
            page += end(page) + [f"## {parts[part][0]}", "", parts[part][1], "", *statement(sources, sets[part].headline)]
        if (part, chapter) != before[:2]:
            page += end(page) + [f"### {CHAPTERS[chapter][0]}", ""]
        if (part, chapter, key.file) != before:
            page += end(page) + caption(sources, key, key.file not in seen) + ["```antt" if key.file.endswith(".antt") else "```rust"]
            seen.add(key.file)
        elif page[-1]:
            page.append("")
        page += block(sources, key, sets[part].headline.commands)
        before = (part, chapter, key.file)
    return page + ["```"]


def statement(sources: Sources, headline: Headline) -> list[str]:
    """The function of a headline with its comment and the clauses that are meant."""
    source, contract, chosen = sources.contract(headline)
    file = str(source.path.relative_to(sources.top))
    head = contract.text[:next(place for place, line in enumerate(contract.text) if line.lstrip().startswith("ensures"))]
    lines = [line for clause, _ in chosen.values() for line in clause]
    return [f"`{file}`", "", "```rust", *contract.comment, *head, *lines, "```", ""]


def end(page: list[str]) -> list[str]:
    """What closes an open block."""
    return ["```", ""] if page and page[-1] != "" else []


def caption(sources: Sources, key: Key, first: bool) -> list[str]:
    """The name of a file, with its own comment where it comes first."""
    found, _ = sources.place(key)
    text = " ".join(found.comment) if isinstance(found, File) and first else ""
    return [f"`{key.file}`" + (f": {text}" if text else ""), ""]


def library(sets: list[Set]) -> list[str]:
    """The names of the library, each with its meaning."""
    known = {}
    for line in (HERE / "library.txt").read_text().splitlines():
        name, _, meaning = line.partition(" ")
        if name and not line.startswith("#"):
            known[name] = meaning.strip()
    used = {name.name for one in sets for name in one.outside}
    missing = sorted(used - set(known))
    if missing:
        raise ReadingError(f"tools/reading/library.txt has no line for {', '.join(missing)}")
    return [f"| `{name}` | {meaning} |".replace("||", "\\|\\|") for name, meaning in known.items() if name in used]
