"""What each event of a trace does, by the lines that `dpbr run --events` prints first: see dpbr(1)."""
from __future__ import annotations

from typing import List, NamedTuple, Tuple


class BadLine(Exception):
    """A line that isn't one of an event, and what is wrong with it."""


class Sent(NamedTuple):
    """A datagram that is sent: its number, the kind of its message, and to whom."""
    number: int
    kind: str
    receivers: Tuple[int, ...]


class Done(NamedTuple):
    """What an event does at its node: the kind of its note or nothing, what it sends, and the paths that become agreed."""
    node: int
    noted: str
    sent: Tuple[Sent, ...]
    agreed: Tuple[str, ...]


def number(word: str, line: str) -> int:
    if not (word.isascii() and word.isdigit()):
        raise BadLine(f"{line!r:.100} has {word!r:.40} for a number")
    return int(word)


def done_of(line: str) -> Done:
    """What a line says."""
    words = line.split(" ")
    if len(words) < 4 or words[0] != "event" or words[2] != "node":
        raise BadLine(f"{line!r:.100} isn't the line of an event")
    node, noted, sent, agreed = number(words[3], line), "", [], []
    rest = words[4:]
    while rest:
        if rest[0] == "noted" and len(rest) > 1:
            noted = rest[1]
            rest = rest[2:]
        elif rest[0] == "agreed" and len(rest) > 1:
            agreed.append(rest[1])
            rest = rest[2:]
        elif rest[0] == "sent" and len(rest) > 3 and rest[3] == "to":
            count = 4
            while count < len(rest) and rest[count].isdigit():
                count += 1
            sent.append(Sent(number(rest[1], line), rest[2], tuple(int(it) for it in rest[4:count])))
            rest = rest[count:]
        else:
            raise BadLine(f"{line!r:.100} has {rest[0]!r:.40}, which begins no part of it")
    return Done(node, noted, tuple(sent), tuple(agreed))


def read(text: str) -> List[Done]:
    """The events of what `dpbr run --events` printed, in order. The lines after them are left out."""
    events: List[Done] = []
    for line in text.split("\n"):
        if not line.startswith("event "):
            break
        if line.split(" ", 2)[1] != str(len(events) + 1):
            raise BadLine(f"{line!r:.100} isn't the line of event {len(events) + 1}")
        events.append(done_of(line))
    return events
