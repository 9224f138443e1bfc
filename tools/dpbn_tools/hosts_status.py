"""One line on a host."""
from __future__ import annotations

from typing import Any, Dict, Optional

from dpbn_tools.host_ends import GIVEN_UP, RESTS

UNITS = ((86_400, "d"), (3600, "h"), (60, "min"), (1, "s"))


def span(seconds: float) -> str:
    """A time as a person says it: the two largest units."""
    left, words = max(0, int(seconds)), []
    for size, unit in UNITS:
        if left >= size:
            words.append(f"{left // size} {unit}")
            left %= size
    return " ".join(words[:2]) or "0 s"


def amount(count: float) -> str:
    """A number of bytes as a person says it."""
    for unit in ("B", "kB", "MB", "GB", "TB"):
        if count < 1000 or unit == "TB":
            break
        count /= 1000
    return f"{count:.0f} {unit}"


def part_state(found: Dict[str, Any], part: str) -> str:
    """Whether a part runs, and why not. Times are by the host's own clock."""
    its = found.get("state", {}).get(part) or {}
    if found.get(part) is None:
        return f"down: {its['end']}" if its.get("end") else "down"
    since = (found.get("since") or {}).get(part)
    again = f", {its['starts']} starts" if its.get("starts", 1) > 1 else ""
    return f"up {span(found['now'] - since)}{again}" if since else "up"


def is_running(found: Dict[str, Any]) -> bool:
    return found.get("node") is not None and found.get("driver") is not None


def node_end(found: Dict[str, Any], what: str) -> Optional[str]:
    """Why its node ended, if it did so in this way and doesn't run."""
    its = found.get("state", {}).get("node") or {}
    return str(its["end"]) if its.get("what") == what and found.get("node") is None else None


def rests(found: Dict[str, Any]) -> Optional[str]:
    """How its node came to rest, if that is why nothing runs."""
    return node_end(found, RESTS)


def is_well(found: Dict[str, Any]) -> bool:
    """Whether the host does what it is there for, or has done it all."""
    rest = rests(found)
    return rest.startswith("at rest, holds all") if rest else is_running(found)


def state_of(found: Dict[str, Any]) -> str:
    if not found.get("name"):
        return "nothing of this run is here"
    rest = rests(found)
    if rest:
        return rest
    if all(found.get(part) is None for part in ("keeper", "node", "driver")):
        why = node_end(found, GIVEN_UP)
        text = f"down: {why}" if why else "stopped" if found.get("has_begun") else "not started yet"
        return text + steered(found)
    parts = {part: part_state(found, part) for part in ("node", "driver")}
    text = parts["node"] if is_running(found) else "; ".join(f"{part} {state}" for part, state in parts.items())
    if found.get("keeper") is None:
        text += "; nobody starts it again"
    return text + steered(found)


def steered(found: Dict[str, Any]) -> str:
    """Whether it is drained, or can't build now."""
    text = (", drains" if found.get("builds") else ", drained") if found.get("stop") else ""
    return f"{text}, away: {found['away'].strip()[:100]}" if found.get("away") else text


def line_of(found: Dict[str, Any]) -> str:
    """The line, without the host's name."""
    words = [state_of(found)]
    if "builds" in found:
        words.append(f"builds {found['builds']}, posted {found['posted']}, failed {found['failed']}")
    if found.get("letters"):
        words.append(found["letters"])
    if "free" in found:
        words.append(f"free {amount(found['free'])}")
    return "  ".join(words)
