"""A status in words, in lines of 80 columns, for a terminal and for mail."""
from __future__ import annotations

import textwrap
import time
from typing import Any, Dict, List, Optional, Sequence

from dpbn_tools.letters import LETTERS
from dpbn_tools.progress import seconds_of

WIDTH = 80
# how the bar shows each letter
MARKS = {"I": "#", "B": "=", "Q": ":", "T": ".", "!": "x"}
STATES = {"runs": "runs", "finished": "finished", "stopped": "nothing more can be built"}
# how many of each are shown if there are many
MOST_FAILURES, MOST_RUNNING, MOST_CHAIN = 40, 40, 30

Object = Dict[str, Any]


def duration(seconds: float) -> str:
    """A time span in at most two units."""
    whole = int(seconds)
    if whole < 60:
        return f"{whole} s"
    if whole < 3600:
        return f"{whole // 60} min"
    if whole < 86400:
        return f"{whole // 3600} h {whole % 3600 // 60:02} min"
    return f"{whole // 86400} d {whole % 86400 // 3600} h"


def span(seconds: Optional[float]) -> str:
    """A time span, or nothing if it isn't known."""
    return "" if seconds is None else duration(seconds)


def clock(text: Optional[str], form: str = "%a %d %b %H:%M") -> str:
    """A time of the status, in the time zone of whoever reads it."""
    seconds = seconds_of(text)
    return "-" if seconds is None else time.strftime(form, time.localtime(seconds))


def cut(text: str, width: int) -> str:
    return text if len(text) <= width else text[:width - 2] + ".."


def count(number: int, one: str, several: str = "") -> str:
    return f"{number:,} {one if number == 1 else several or one + 's'}"


def share(status: Object) -> int:
    """How much is held of what isn't ignored, in percent; all only once all is."""
    counts: Dict[str, int] = status["counts"]
    wanted = sum(counts.values()) - counts["!"]
    return 100 if not wanted else (counts["I"] + counts["B"]) * 100 // wanted


def bar(counts: Dict[str, int]) -> str:
    """The letters as a bar, in which each that there is has a mark at least."""
    room, paths = WIDTH - 2, sum(counts.values())
    shown = [letter for letter in LETTERS if counts[letter]]
    if not shown:
        return f"[{' ' * room}]"
    widths = {letter: max(1, counts[letter] * room // paths) for letter in shown}
    widest = max(shown, key=lambda letter: widths[letter])
    widths[widest] += room - sum(widths.values())
    return f"[{''.join(MARKS[letter] * widths[letter] for letter in shown)}]"


def headline(status: Object) -> List[str]:
    left = f"{STATES[status['state']]}, {share(status)} %"
    first = f"Bulk build: {left}".ljust(WIDTH - 24) + clock(status["time"], "%a %d %b %H:%M:%S %Z").rjust(24)
    counts = status["counts"]
    words = {"I": "installable", "B": "built", "Q": "can be built", "T": "waiting", "!": "ignored"}
    return [first, bar(counts), "  ".join(f"{letter}={counts[letter]} {words[letter]}" for letter in LETTERS)]


def summary(status: Object) -> List[str]:
    units, counts, said = status["units"], status["counts"], []
    held, wanted = counts["I"] + counts["B"], status["paths"] - counts["!"]
    said.append(f"{held:,} of {count(wanted, 'path')} are built, by {units['held']:,} of {count(units['all'], 'build')}.")
    said.append(end_of(status))
    if units["failed"]:
        said.append(f"{count(units['failed'], 'unit')} failed, and {count(units['blocked'], 'unit')} can't be built before those.")
    if units["never"]:
        said.append(f"{count(units['never'], 'unit')} can never be built, since each waits for itself.")
    since = seconds_of(status["time"]), seconds_of(status["changed"])
    if since[0] is not None and since[1] is not None:
        said.append(f"The last change was {duration(max(0.0, since[0] - since[1]))} ago.")
    return textwrap.wrap(" ".join(said), WIDTH)


def end_of(status: Object) -> str:
    """When it will be over, and by what that is computed."""
    estimate = status["estimate"]
    if status["state"] == "finished":
        return "All that isn't ignored is built."
    if not status["units"]["left"]:
        return "Nothing else can be built before a failure is mended."
    if not estimate:
        return "When it will be over isn't known yet."
    by = {"times": "by the times of earlier builds", "rate": "by the rate of the last hour"}[estimate["by"]]
    what = "What can be built will be done" if status["units"]["failed"] else "It will be over"
    return f"{what} at about {clock(estimate['end'])}, in {duration(estimate['seconds'])}, {by}."


def table(title: str, heads: Sequence[str], rows: Sequence[Sequence[str]], widths: Sequence[int]) -> List[str]:
    """A table whose columns are so wide; one with a negative width has its text at its right."""
    def line(cells: Sequence[str]) -> str:
        parts = [cut(cell, abs(width)).rjust(-width) if width < 0 else cut(cell, width).ljust(width) for cell, width in zip(cells, widths)]
        return ("  " + " ".join(parts)).rstrip()

    return ["", title, line(heads), *map(line, rows)]


def name_of(status: Object, host: int) -> str:
    return next((one["name"] for one in status["hosts"] if one["host"] == host), f"host {host}")


def failures(status: Object) -> List[str]:
    found = status["failures"]
    if not found:
        return []
    rows = [[str(one["blocks"]), one["unit"], name_of(status, one["host"]), clock(one["time"], "%a %H:%M"), one["reason"]]
            for one in found[:MOST_FAILURES]]
    lines = table("FAILED, and how many paths each blocks", ("BLOCKS", "UNIT", "HOST", "WHEN", "WHY"), rows, (-6, 30, 10, 9, 18))
    return lines + ([f"  and {len(found) - MOST_FAILURES} more"] if len(found) > MOST_FAILURES else [])


def running(status: Object) -> List[str]:
    found = status["running"]
    if not found:
        return ["", "NOTHING IS BUILT NOW"] if status["state"] == "runs" else []
    rows = [[one["unit"], name_of(status, one["host"]), duration(one["seconds"]), span(one["usual"])] for one in found[:MOST_RUNNING]]
    lines = table("BUILT NOW", ("UNIT", "HOST", "FOR", "USUALLY"), rows, (42, 12, -10, -10))
    return lines + ([f"  and {len(found) - MOST_RUNNING} more"] if len(found) > MOST_RUNNING else [])


def hosts(status: Object) -> List[str]:
    now = seconds_of(status["time"]) or 0.0
    rows = []
    for one in status["hosts"]:
        seen = seconds_of(one["seen"])
        counts = [str(one["counts"][letter]) for letter in "IBQT"] if one["counts"] else ["-"] * 4
        rows.append([one["name"], one["state"], *(str(one[it]) for it in ("builds", "queued", "built", "failed")), *counts,
                     "never" if seen is None else duration(max(0.0, now - seen))])
    heads = ("HOST", "DOES", "RUNS", "QUEUE", "BUILT", "FAILED", "I", "B", "Q", "T", "SEEN AGO")
    return table("HOSTS", heads, rows, (10, 7, -4, -5, -5, -6, -5, -5, -5, -5, -10)) if rows else []


def chain(status: Object) -> List[str]:
    units, seconds = status["chain"]["units"], status["chain"]["seconds"]
    if not units:
        return []
    long = "" if seconds is None else f", {duration(seconds)}"
    shown = [*units[:MOST_CHAIN], *([f"{len(units) - MOST_CHAIN} more"] if len(units) > MOST_CHAIN else [])]
    text = textwrap.wrap(" > ".join(shown), WIDTH, initial_indent="  ", subsequent_indent="  ", break_on_hyphens=False)
    return ["", f"LONGEST CHAIN LEFT: {count(len(units), 'unit')}{long}", *text]


def listed(text: str) -> List[str]:
    return textwrap.wrap(text, WIDTH, initial_indent="  ", subsequent_indent="    ", break_on_hyphens=False)


def problems(status: Object) -> List[str]:
    lines = []
    for host in status["hosts"]:
        if host["why"] is not None:
            lines += listed(f"{host['name']} can't build now: {host['why'] or 'no reason is given'}")
    for circle in status["circles"]:
        lines += listed(f"these wait for each other, and can't be built: {', '.join(circle)}")
    for text in status["problems"]:
        lines += listed(text)
    return ["", "TO LOOK AT", *lines] if lines else []


def text_of(status: Object) -> str:
    """The whole text."""
    parts = [headline(status), ["", *summary(status)], failures(status), running(status), hosts(status), chain(status), problems(status)]
    return "".join(line + "\n" for part in parts for line in part)
