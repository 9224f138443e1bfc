"""Package names, their versions, and the specifications that names match: packages-specs(7), as dpbn-formats(5) has it."""
from __future__ import annotations

import re
from typing import Callable, List, NamedTuple, Optional, Tuple, Union

LONGEST_NAME, LONGEST_SPEC = 255, 1024
NAME_BYTES = re.compile(r"[\"-)+\-.0-9;?-{}~]+")
VERSION_BYTES = re.compile(r"[0-9][\"-)+.0-9;?-{}~]*")
VERSION_BEGINS = re.compile(r"(?s)(?<=.)-(?=[0-9])")
BOUND_BEGINS = re.compile(r"(?s)(?<=.)-(?=[0-9*<>=])")
PARTS = re.compile(r"(?s)(.*?)(?:p([0-9]+))?(?:v([0-9]+))?")
COMPONENT = re.compile(r"(?s)([0-9]*)(.*)")
REST = re.compile(r"(alpha|beta|pre|rc|pl)([0-9]*)")
RANKS = {"alpha": 0, "beta": 1, "pre": 2, "rc": 3, "": 4, "pl": 5}
OTHER = 6
OPERATORS = (">=", "<=", ">", "<", "=")
ANY_STEM = "STEM"

Component = Tuple[int, int, Union[int, str]]
# the marker v, the components, the marker p; a marker that is absent is below 0
Version = Tuple[int, Tuple[Component, ...], int]


class Name(NamedTuple):
    """The parts of a package name."""

    stem: str
    version: Version
    flavors: Tuple[str, ...]


class Alternative(NamedTuple):
    """One alternative of a specification."""

    stem: str
    bounds: Tuple[Tuple[str, Version], ...]
    wanted: Tuple[str, ...]
    unwanted: Tuple[str, ...]


Spec = List[Alternative]


def number(digits: Optional[str]) -> int:
    """The number that digits write: 0 if there are no digits, and -1 if the text itself is absent."""
    if digits is None:
        return -1
    return int(digits or "0")


def component(text: str) -> Component:
    digits, rest = COMPONENT.fullmatch(text).groups()  # type: ignore[union-attr]
    known = REST.fullmatch(rest)
    if known:
        return number(digits), RANKS[known[1]], number(known[2])
    return (number(digits), RANKS[""], 0) if not rest else (number(digits), OTHER, rest)


def version(text: str) -> Version:
    """What a version compares by. Python compares these values as dpbn-formats(5) orders versions."""
    body, marker_p, marker_v = PARTS.fullmatch(text).groups()  # type: ignore[union-attr]
    return number(marker_v), tuple(component(part) for part in body.split(".")), number(marker_p)


def name(text: str) -> Optional[Name]:
    """The parts of a package name, or None if the text isn't a package name."""
    found = VERSION_BEGINS.search(text)
    if not found or len(text) > LONGEST_NAME or not NAME_BYTES.fullmatch(text):
        return None
    own, *flavors = text[found.end():].split("-")
    return None if "" in flavors else Name(text[:found.start()], version(own), tuple(flavors))


def bound(text: str) -> Optional[Tuple[str, Version]]:
    """An operator and its version, or None if the text isn't a bound."""
    operator = next((it for it in OPERATORS if text.startswith(it)), "")
    rest = text[len(operator):]
    return (operator or "=", version(rest)) if VERSION_BYTES.fullmatch(rest) else None


def alternative(text: str) -> Optional[Alternative]:
    """One alternative of a specification, or None if the text isn't one."""
    found = BOUND_BEGINS.search(text)
    stem, bounds, flavors = (text[:found.start()], text[found.end():], []) if found else (text, "*", [])
    if found:
        bounds, *flavors = bounds.split("-")
    if not NAME_BYTES.fullmatch(stem):
        return None
    read = [bound(part) for part in bounds.split(",") if part != "*"]
    plain = [flavor[1:] if flavor.startswith("!") else flavor for flavor in flavors]
    if None in read or not all(map(NAME_BYTES.fullmatch, plain)):
        return None
    wanted = tuple(flavor for flavor in flavors if not flavor.startswith("!"))
    unwanted = tuple(flavor[1:] for flavor in flavors if flavor.startswith("!"))
    return Alternative(stem, tuple(it for it in read if it), wanted, unwanted)


def spec(text: str) -> Optional[Spec]:
    """The alternatives of a specification, or None if the text isn't one."""
    if not text or len(text) > LONGEST_SPEC:
        return None
    read = [alternative(part) for part in text.split("|")]
    return None if None in read else [it for it in read if it]


COMPARES: "dict[str, Callable[[Version, Version], bool]]" = {
    ">=": lambda one, other: one >= other,
    "<=": lambda one, other: one <= other,
    ">": lambda one, other: one > other,
    "<": lambda one, other: one < other,
    "=": lambda one, other: one == other,
}


def fits(one: Alternative, package: Name) -> bool:
    if one.stem not in (package.stem, ANY_STEM) or not all(COMPARES[how](package.version, than) for how, than in one.bounds):
        return False
    return set(one.wanted) <= set(package.flavors) and not set(one.unwanted) & set(package.flavors)


def matches(wanted: Spec, package: Name) -> bool:
    """Whether the name matches an alternative of the specification."""
    return any(fits(one, package) for one in wanted)
