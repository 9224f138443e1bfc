"""The words of tests/soak: its parts, and the options of each."""
from __future__ import annotations

import argparse
from typing import Any, Dict, NamedTuple, Tuple

from soak_parts import places

ABOUT = """Runs bulk builds of `dpbn build` and build-jobs under hard conditions, and prints what was measured and what is wrong. It needs a
Linux with namespaces, which it makes for itself: nothing of the machine's own network, clock or disks is touched, and all that it makes is
gone afterwards. `tests/soak PART --help` lists the options of a part."""


class Part(NamedTuple):
    """A part: what it is, and the values of options that differ from those of all."""

    about: str
    values: Dict[str, Any]


PARTS: Dict[str, Part] = {
    "archive": Part("a whole archive at three and at nine nodes", {"units": 0, "limit": 20_000.0, "begun": 1.0}),
    "kills": Part("a thousand kills of nodes and drivers", {"units": 1000, "kills": 1000, "median": 4.0, "limit": 20_000.0}),
    "lines": Part("lost, late, repeated and reordered datagrams, hosts cut off", {"nodes": 4, "units": 300, "median": 2.0}),
    "disks": Part("disks that are full, read-only or broken for a while", {"units": 150, "median": 2.0}),
    "clocks": Part("clocks that jump, or run at half speed", {"units": 150, "median": 2.0}),
    "members": Part("members that are lost, late, failing or without a driver", {"nodes": 5, "units": 200, "median": 2.0}),
    "full-log": Part("logs that get full, and the way on into a new run", {"median": 0.1, "bytes": 4_000_000, "jobs": 2}),
    "forged": Part("a million forged, flipped and replayed datagrams next to kills", {"units": 1000, "median": 4.0, "limit": 20_000.0}),
}
# the options of all parts: the value if none is given, and what it is
COMMON: Dict[str, Tuple[Any, str]] = {
    "nodes": (3, "how many nodes there are, 1 to 9"),
    "jobs": (4, "how many builds run at each host at a time"),
    "units": (200, "about how many units of the tree are built; 0 is all of a listing"),
    "listing": ("", "a listing, which may be packed with xz; without one it is made"),
    "median": (1.0, "the median of the builds' times, in seconds"),
    "spread": (1.0, "the sigma of their logarithms"),
    "bytes": (0, "how many bytes of noise each package has besides some small files"),
    "seed": (1, "the seed of all that is drawn"),
    "takeover": (0, "the nodes' --takeover; 0 is some more than twice the longest build"),
    "begun": (1.02, "how many builds may begin for a unit; what is built again after a kill or a failure doesn't count"),
    "limit": (3600.0, "after how many seconds a run is given up"),
    "more": ("", "more words for each node"),
    "program": (places.PROGRAM, "the program dpbn"),
    "tools": (f"{places.TOP}/tools", "the folder with build-jobs"),
    "disk": ("", "a folder on a disk in which all is kept, in place of memory"),
    "json": ("", "a file to which a line of JSON is appended"),
}
# the options of some parts
OWN: Dict[str, Dict[str, Tuple[Any, str]]] = {
    "archive": {"sizes": ([3, 9], "how many nodes there are, one run for each number"),
                "minutes": (40.0, "how long a list scheduler takes; 0 leaves --median as it is"),
                "ratio": (1.2, "how many times that the run may take")},
    "kills": {"kills": (1000, "how many kills there are")},
    "forged": {"kills": (1000, "how many kills there are"), "datagrams": (1_000_000, "how many datagrams are forged")},
    "lines": {"away": (60.0, "for how many seconds a host is cut off"),
              "carriers": (["datagrams", "packets"], "by what: a proxy of datagrams, or packets between namespaces"),
              "cases": ([], "only these cases")},
    "disks": {"away": (20.0, "for how many seconds a disk is bad"), "cases": ([], "only these cases")},
    "clocks": {"cases": ([], "only these cases")},
    "members": {"cases": ([], "only these cases")},
    "full-log": {"filled": (0.9, "how much of a log is filled beforehand, as a share of 2 GiB")},
}


def parser() -> argparse.ArgumentParser:
    """The words of all parts."""
    whole = argparse.ArgumentParser(prog="tests/soak", description=ABOUT)
    parts = whole.add_subparsers(dest="part", metavar="PART", required=True)
    for name, part in PARTS.items():
        one = parts.add_parser(name, help=part.about, description=part.about)
        for word, (value, about) in {**COMMON, **OWN.get(name, {})}.items():
            value = part.values.get(word, value)
            if isinstance(value, list):
                kind: Any = type(value[0]) if value else str
                one.add_argument(f"--{word}", type=kind, nargs="+", default=value, help=f"{about}; {' '.join(map(str, value)) or 'all'}")
            else:
                one.add_argument(f"--{word}", type=type(value), default=value, metavar=word.upper(), help=f"{about}; {value or 'none'}")
        one.add_argument("--makefiles", action="store_true", help="builds are real Makefiles, by bmake(1)")
        one.add_argument("--keep", action="store_true", help="keeps what is on --disk")
    return whole
