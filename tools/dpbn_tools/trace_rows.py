"""The rows of a picture of a trace: what each event is and does, and which rows a long trace shows."""
from __future__ import annotations

from typing import Any, Dict, Iterable, List, NamedTuple, Optional, Sequence, Set, Tuple

from dpbn_tools.event_lines import Done

# an event of a trace, as its JSON has it
Event = Dict[str, Any]
# what one build makes: the directory, whether the path has flavors or no empty part, and these
Unit = Tuple[str, bool, Tuple[str, ...]]
# a message by its kind; a promise that reports a vote is separate here
OFFER, PROMISE, PROPOSE, VOTE, AGREED, ASK, NAY, REPORT = KINDS = (
    "offer", "promise", "propose", "vote", "agreed", "ask", "nay", "report")
ROW, TOP = 24, 50
# A picture has this many rows. Of a longer trace these are tried in turn: how many events are shown at both ends, how many before
# each one that is shown in words, and which these are.
MOST = 60
VIEWS: Tuple[Tuple[int, int, Tuple[str, ...]], ...] = (
    *((6, before, ("agreed", "turn")) for before in (6, 4, 2, 1, 0)),
    *((ends, 0, kinds) for kinds in (("turn",), ()) for ends in (24, 12, 6)))


class Datagram(NamedTuple):
    """A datagram: the row that sends it first, its kind and its unit. The builder is that of the build that it is about, the number of
    a node. It is None if the builds are of several."""
    row: int
    kind: str
    unit: Optional[Unit]
    builder: Optional[int]


class Row(NamedTuple):
    """An event with what it does: whether it notes, what it sends for the first time, and the paths that become agreed. What it sends are
    the kinds, the first number, and the builder of the build that they are about. Or the event is refused with a number."""
    event: Event
    text: str
    notes: bool
    sends: List[str]
    first: int
    builder: Optional[int]
    paths: Tuple[str, ...]
    refused: str


def step_of(event: Event) -> Event:
    """The event itself, or the step that a stop is inside."""
    inner: Event = event["input"] if event["event"] == "stopin" else event
    return inner


def node_of(event: Event) -> int:
    node: int = step_of(event)["node"]
    return node


def is_stop(event: Event) -> bool:
    return event["event"] in ("stop", "stopin")


def text_of(event: Event, refused: str) -> str:
    """The event in the words next to its row."""
    inner = step_of(event)
    what = f"node {inner['node']}: {inner['event']}"
    if "datagram" in inner:
        what = f"deliver {inner['datagram']} to node {inner['node']}"
    if "path" in inner:
        what += f" {inner['path']}"
    if event["event"] == "stopin":
        what += f", stop ({event['left']})"
    return what + (f" refused: {refused}" if refused else "")


def unit_of(path: str, is_single: bool) -> Unit:
    """The unit of a path, in any spelling: the path, without its subpackage if one build makes a group."""
    directory, *parts = path.split(",")
    flavors = sorted({part for part in parts if part and not part.startswith("-")})
    subpackages = [part for part in parts if part.startswith("-") and is_single]
    return directory, bool(flavors) or "" not in parts, (*flavors, *subpackages)


class Units:
    """The unit that each event is about, who has voted for whose build of which, and whose builds a claim heard of: by these a promise
    that reports a vote is distinguished from another."""

    def __init__(self, is_single: bool) -> None:
        self.is_single = is_single
        self.claimed: Dict[int, Unit] = {}
        self.voted: Dict[Tuple[int, Optional[Unit]], Optional[int]] = {}
        # of each node's open claim: the builder of what it proposed, and of what was reported to it
        self.proposed: Dict[int, Optional[int]] = {}
        self.reported: Dict[int, Set[Optional[int]]] = {}

    def of(self, event: Event, senders: Sequence[Datagram]) -> Optional[Unit]:
        if "path" in event:
            return unit_of(event["path"], self.is_single)
        if "datagram" in event:
            return senders[event["datagram"]].unit if event["datagram"] < len(senders) else None
        return self.claimed.get(event["node"])

    def take(self, event: Event, unit: Optional[Unit], notes: bool, senders: Sequence[Datagram]) -> None:
        """A claim is open; or a proposal that came was voted for, where its node noted something; or a vote was reported."""
        node = event["node"]
        if event["event"] == "claim" and unit:
            self.claimed[node] = unit
            self.reported[node] = set()
        if event["event"] == "deliver":
            came = senders[event["datagram"]]
            if came.kind == PROPOSE and notes:
                self.voted[node, unit] = came.builder
            if came.kind == REPORT and self.claimed.get(node) == unit:
                self.reported[node].add(came.builder)

    def builder(self, event: Event, unit: Optional[Unit], kind: str) -> Optional[int]:
        """Whose build a message is about that the event sends: that of a vote which is reported, or of a proposal."""
        node: int = event["node"]
        if kind == REPORT:
            return self.voted[node, unit]
        if event["event"] == "built":
            self.proposed[node] = node
        elif event["event"] == "deliver":
            reported = self.reported.get(node, set())
            self.proposed[node] = next(iter(reported)) if len(reported) == 1 else None
        return self.proposed.get(node)


def rows_of(events: Sequence[Event], done: Sequence[Done], is_single: bool) -> Tuple[List[Row], List[Datagram]]:
    """The events with what they do, and the datagrams by their numbers."""
    rows: List[Row] = []
    senders: List[Datagram] = []
    units = Units(is_single)
    for place, (event, does) in enumerate(zip(events, done)):
        inner = step_of(event)
        unit = units.of(inner, senders)
        has_voted = (inner["node"], unit) in units.voted
        # a datagram that was sent before keeps its number
        new = [it.kind for it in does.sent if it.number >= len(senders)]
        sends = [REPORT if kind == PROMISE and has_voted else kind for kind in new]
        units.take(inner, unit, bool(does.noted), senders)
        builder = next((units.builder(inner, unit, kind) for kind in sends if kind in (PROPOSE, REPORT)), None)
        rows.append(Row(event, text_of(event, ""), bool(does.noted), sends, len(senders), builder, does.agreed, ""))
        senders += [Datagram(place, kind, unit, builder) for kind in sends]
    return rows, senders


def refused_row(event: Event, number: str) -> Row:
    """The row of an event that is refused."""
    return Row(event, text_of(event, number), False, [], 0, None, (), number)


def kind_of(row: Row) -> str:
    """What a row is shown for, if for anything."""
    if row.paths:
        return "agreed"
    return "turn" if row.refused or is_stop(row.event) or row.event["event"] == "restart" else ""


def near(rows: Sequence[Row], ends: int, before: int, kinds: Iterable[str]) -> Set[int]:
    """The places of the rows of these kinds, of what leads to each of them, and of both ends."""
    shown = set(range(ends)) | set(range(len(rows) - ends, len(rows)))
    for place, row in enumerate(rows):
        if kind_of(row) in kinds:
            shown |= set(range(place - (before if row.paths else before // 2), place + 1))
    shown &= set(range(len(rows)))
    return shown | {place for place in range(1, len(rows) - 1) if {place - 1, place + 1} <= shown}


def kept(rows: Sequence[Row]) -> Set[int]:
    """The places of the rows that are shown: all of a short trace, and of a long one the most that leaves a picture as long."""
    shown = set(range(len(rows)))
    if len(rows) <= MOST:
        return shown
    for view in VIEWS:
        shown = near(rows, *view)
        folds = sum(place + 1 not in shown for place in shown) - 1
        if len(shown) + folds <= MOST:
            break
    return shown


class Heights(NamedTuple):
    """Which rows are shown; the height of each event, those of folded ones between two rows; the folds, each with its height and its
    rows; and the height of the last row."""
    shown: Set[int]
    at: List[int]
    folds: List[Tuple[int, List[Row]]]
    last: int


def heights(rows: Sequence[Row]) -> Heights:
    shown = kept(rows)
    at: List[int] = []
    folds: List[Tuple[int, List[Row]]] = []
    y = TOP
    for place, row in enumerate(rows):
        if place in shown or place - 1 in shown:
            y += ROW
        if place not in shown and place - 1 in shown:
            folds.append((y, []))
        if place not in shown:
            folds[-1][1].append(row)
        at.append(y)
    return Heights(shown, at, folds, y)


def fold_text(rows: Sequence[Row]) -> str:
    """How many events are folded, and how many of them are turns."""
    turns = [kind_of(row) for row in rows].count("turn")
    return f"{len(rows)} events" + (f", {turns} stops and restarts" if turns else "")
