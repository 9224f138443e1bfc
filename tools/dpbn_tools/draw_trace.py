"""Draws what a trace does to its nodes, from the lines of its events that `dpbr run --events` prints: draw-trace(1)."""
from __future__ import annotations

import argparse
import json
import os
import re
import subprocess
import sys
import tempfile
from typing import Any, Dict, List, NamedTuple, Optional, Tuple

from dpbn_tools.event_lines import BadLine, Done, read
from dpbn_tools.trace_picture import drawn
from dpbn_tools.trace_rows import refused_row, rows_of
from dpbn_tools.version import add_version

Trace = Dict[str, Any]


class NoPicture(Exception):
    """Why there is no picture."""


class Refused(NamedTuple):
    """The event at which a run stopped, counted from 1, and the number of the fault."""
    event: int
    fault: str


def program() -> str:
    """dpbr: the one of this checkout, or next to this tool, or on the PATH."""
    here = os.path.dirname(os.path.realpath(sys.argv[0]))
    own = (f"{os.path.dirname(here)}/crates/dpbr/out/dpbr", f"{here}/dpbr")
    return next((it for it in own if os.access(it, os.X_OK)), "dpbr")


def run(listing: str, trace: str, is_single: bool) -> Tuple[str, str]:
    """What `dpbr run --events` prints, and what it reports if it prints nothing."""
    words = [program(), "run", "--events", *(["--single"] if is_single else []), listing, trace]
    done = subprocess.run(words, stdin=subprocess.DEVNULL, stdout=subprocess.PIPE, stderr=subprocess.PIPE, check=False)
    told = done.stderr.decode("utf-8", "replace").strip()
    if done.returncode not in (0, 1):
        raise NoPicture(f"{words[0]} ended with status {done.returncode}: {told[:200]}")
    return done.stdout.decode("utf-8", "replace"), told


def run_before(listing: str, trace: Trace, count: int, is_single: bool) -> Tuple[str, str]:
    """The same of the first events, this many."""
    with tempfile.TemporaryDirectory(prefix="draw-trace-") as folder:
        with open(f"{folder}/trace", "w", encoding="utf-8") as file:
            json.dump({**trace, "events": trace["events"][:count]}, file)
        return run(listing, f"{folder}/trace", is_single)


def events_of(listing: str, name: str, trace: Trace, is_single: bool) -> Tuple[List[Done], Optional[Refused]]:
    """What the events do, up to the first one that is refused."""
    text, told = run(listing, name, is_single)
    if not told:
        return read(text), None
    found = re.fullmatch(r"dpbr: fault (\d+) at (\d+)", told)
    place = int(found[2]) if found else 0
    if not found or not 1 <= place <= len(trace["events"]):
        raise NoPicture(told)
    # it may be a line of the listing, too
    text, again = run_before(listing, trace, place - 1, is_single)
    if again:
        raise NoPicture(told)
    return read(text), Refused(place, found[1])


def lines_of(name: str) -> str:
    """The text of a file, or of standard input if the name is a dash."""
    if name == "-":
        return sys.stdin.read()
    with open(name, encoding="utf-8", errors="replace") as file:
        return file.read()


def trace_of(name: str) -> Trace:
    with open(name, encoding="utf-8") as file:
        try:
            trace = json.load(file)
        except ValueError as error:
            raise NoPicture(f"{name} isn't a trace: {error}") from error
    if not isinstance(trace, dict) or not isinstance(trace.get("events"), list) or not isinstance(trace.get("members"), int):
        raise NoPicture(f"{name} isn't a trace")
    return trace


def picture(asked: argparse.Namespace) -> str:
    """The picture of what was asked for."""
    *listing, name = asked.files
    trace = trace_of(name)
    refused: Optional[Refused] = None
    if asked.events is None:
        done, refused = events_of(listing[0], name, trace, asked.single)
    else:
        done = read(lines_of(asked.events))
    count = refused.event - 1 if refused else len(trace["events"])
    if len(done) != count:
        raise NoPicture(f"there are lines of {len(done)} events, and the trace has {count}")
    rows, senders = rows_of(trace["events"], done, asked.single)
    if refused:
        rows.append(refused_row(trace["events"][count], refused.fault))
        print(f"draw-trace: event {refused.event} is refused, with fault {refused.fault}: the picture ends there", file=sys.stderr)
    return drawn(rows, senders, trace["members"])


def options() -> argparse.Namespace:
    words = argparse.ArgumentParser(prog="draw-trace", description="Draws what a trace does to its nodes, as SVG on standard output.",
                                    usage="draw-trace [--single] [--version] LISTING TRACE\n"
                                          "       draw-trace [--single] --events EVENTS TRACE")
    add_version(words)
    words.add_argument("--events", metavar="EVENTS", help="what `dpbr run --events` printed, or - for standard input; dpbr isn't run then")
    words.add_argument("--single", action="store_true", help="each path is built by itself, as for dpbr --single")
    words.add_argument("files", metavar="LISTING TRACE", nargs="+", help="the listing and the trace; with --events only the trace")
    asked = words.parse_args()
    if len(asked.files) != (2 if asked.events is None else 1):
        words.error("LISTING and TRACE are required, and with --events only TRACE")
    return asked


def main() -> None:
    asked = options()
    try:
        sys.stdout.write(picture(asked))
        sys.stdout.flush()
    except (OSError, BadLine, NoPicture) as error:
        sys.exit(f"draw-trace: {error}")
