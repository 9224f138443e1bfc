"""Writes a listing in the order in which its units should be built, the longest chain of build times first: order-listing(1).

    order-listing [--single] LISTING [TIMES ..]
"""
from __future__ import annotations

import argparse
import re
import statistics
import sys
from typing import Dict, List, NoReturn

from dpbn_tools.chains import Chains
from dpbn_tools.listing import BadLine, Listing, Unit
from dpbn_tools.paths import canonical, is_path
from dpbn_tools.version import add_version

# UNIT SECONDS BYTES HOST
TIME = re.compile(rb"(\S+) ([0-9]{1,12}(?:\.[0-9]{1,9})?) [0-9]+ [0-9]+")
# how many bad lines of a file of times are printed
MOST_TOLD = 5
# how many units of the longest chain are printed
MOST_OF_A_CHAIN = 12


def tell(text: str) -> None:
    print(f"order-listing: {text}", file=sys.stderr)


def fail(text: str) -> NoReturn:
    tell(text)
    sys.exit(1)


def read(name: str) -> bytes:
    try:
        with open(name, "rb") as file:
            return file.read()
    except OSError as error:
        fail(str(error))


class Times:
    """How long builds took, by unit."""

    def __init__(self, listing: Listing) -> None:
        self.group = {path: name for name, paths in listing.groups.items() for path in (*paths, name)}
        self.seconds: Dict[bytes, float] = {}

    def read(self, name: str) -> None:
        """Reads a file of times. The last line of a unit counts. A malformed line is reported, and left out."""
        bad: List[int] = []
        for number, line in enumerate(read(name).split(b"\n"), 1):
            found = TIME.fullmatch(line)
            path = canonical(found[1]) if found else b""
            if found and is_path(path):
                # what the listing doesn't have was built in another bulk
                if path in self.group:
                    self.seconds[self.group[path]] = float(found[2])
            elif line:
                bad.append(number)
        for number in bad[:MOST_TOLD]:
            tell(f"{name}: line {number} is left out: it isn't UNIT SECONDS BYTES HOST")
        if len(bad) > MOST_TOLD:
            tell(f"{name}: {len(bad) - MOST_TOLD} more lines are left out")

    def of(self, units: List[Unit]) -> Dict[bytes, float]:
        """The seconds of each unit: its own, else the median of its category, else the median of all, else 1."""
        by_category: Dict[bytes, List[float]] = {}
        for name, seconds in self.seconds.items():
            by_category.setdefault(name.split(b"/")[0], []).append(seconds)
        medians = {category: statistics.median(its) for category, its in by_category.items()}
        common = statistics.median(self.seconds.values()) if self.seconds else 1.0
        return {unit.name: self.seconds.get(unit.name, medians.get(unit.name.split(b"/")[0], common)) for unit in units}


def span(seconds: float) -> str:
    """A time that is read by people."""
    return f"{seconds / 3600:.1f} h" if seconds >= 3600 else f"{seconds:.0f} s"


def chain_text(units: List[Unit]) -> str:
    names = [unit.name.decode() for unit in units]
    if len(names) > MOST_OF_A_CHAIN:
        names[MOST_OF_A_CHAIN:] = [f".. and {len(names) - MOST_OF_A_CHAIN} more"]
    return ", ".join(names)


def ordered(listing: Listing, times: Times) -> List[bytes]:
    """The names of the groups, the one at the head of the longest chain first, those without a unit last. Reports what it found."""
    chains = Chains(listing)
    seconds = times.of(chains.units)
    lengths, circles = chains.lengths(seconds)
    known = sum(1 for unit in chains.units if unit.name in times.seconds)
    tell(f"{len(chains.units)} units, {known} with a time of their own; all builds take {span(sum(seconds.values()))}, "
         f"the longest chain {span(max(lengths, default=0))}: {chain_text(chains.longest(lengths))}")
    for circle in circles:
        tell(f"these wait for one another, and can't be built: {chain_text(circle)}")
    rank = {unit.name: -length for unit, length in zip(chains.units, lengths)}
    return sorted(listing.groups, key=lambda name: rank.get(name, 1.0))


def main() -> None:
    words = argparse.ArgumentParser(prog="order-listing", description="Writes a listing with the longest chain of build times first.")
    add_version(words)
    words.add_argument("--single", action="store_true", help="each path is built by itself, as with dpbr --single")
    words.add_argument("listing", metavar="LISTING", help="a listing, as make-listing writes it")
    words.add_argument("times", metavar="TIMES", nargs="*", help="files of times, as build-jobs writes them to work/times")
    asked = words.parse_args()
    try:
        listing = Listing(read(asked.listing), asked.single)
    except BadLine as bad:
        fail(f"{asked.listing}: {bad}")
    times = Times(listing)
    for name in asked.times:
        times.read(name)
    try:
        for group in ordered(listing, times):
            for path in listing.groups[group]:
                sys.stdout.buffer.write(b"\n".join(listing.paths[path].lines) + b"\n")
        sys.stdout.flush()
    except OSError as error:
        fail(f"the listing can't be written: {error}")
