"""Several wrong bodies of one crate at once: which functions they change, and what a check of the crate says of each."""
import re
from typing import Dict, List, NamedTuple, Optional, Set, Tuple

# the start of a function, and of what holds functions
FUNCTION = re.compile(r"^ *(?:pub(?:\([a-z]+\))? +)?(?:(?:const|unsafe|ghost) +)*fn +(\w+)")
VERDICT = re.compile(r"fn (\S+): (.*)")
UNANSWERED = re.compile(r"no proof: expected answers in \./proofs/(\S+)/\w+\.antt; `search` did not prove `([^`]+)`")
ERROR = re.compile(r"\./proofs/(\S+)/\w+\.antt:\d+:\d+: error: `([^`]+)`")
LEMMA = re.compile(r"\./proofs/(\S+)\.antt:\d+:\d+: error: ")


class Pair(NamedTuple):
    """A text of a file, and what an edit writes in its place."""
    file: str
    old: str
    new: str


class Place(NamedTuple):
    """A function: its module, as a path below src, and its name."""
    module: str
    name: str


def pairs_in(text: str) -> List[Pair]:
    """The pairs of an edit."""
    found: List[Pair] = []
    said = {"file": "", "old": ""}
    for line in text.split("\n"):
        word, _, rest = line.partition(": ")
        if word in said:
            said[word] = rest
        elif word == "new" or line == "new:":
            found.append(Pair(said["file"], said["old"], rest))
    return found


def module_of(file: str) -> str:
    """The module of a source file, as a path below src; nothing for the root's."""
    path = file[len("src/"):-len(".rt")]
    return "" if path in ("lib", "main") else path


def function_at(source: str, position: int) -> Optional[str]:
    """The name of the function that has this position of a source, if it is in one."""
    name: Optional[str] = None
    inside: Optional[str] = None
    depth = 0
    at = 0
    for line in source.split("\n"):
        found = FUNCTION.match(line)
        if found:
            name, depth = found[1], len(line) - len(line.lstrip())
        end = at + len(line)
        if position <= end:
            inside = name
            break
        if name and line == " " * depth + "}":
            name = None
        at = end + 1
    return inside


def applied(pairs: List[Pair], sources: Dict[str, str]) -> Optional[Tuple[Dict[str, str], Set[Place]]]:
    """The changed sources, by file, and the functions that changed. Nothing if a text isn't there exactly once."""
    changed: Dict[str, str] = {}
    places: Set[Place] = set()
    for file, old, new in pairs:
        source = changed.get(file, sources.get(file, ""))
        if source.count(old) != 1:
            return None
        name = function_at(source, source.index(old))
        if name:
            places.add(Place(module_of(file), name))
        changed[file] = source.replace(old, new)
    return changed, places


def batch_of(edits: Dict[str, List[Pair]], sources: Dict[str, str]) -> Tuple[Dict[str, str], Dict[str, Set[Place]]]:
    """As many edits as can be tried at once, no two of them in functions of one name in a module: the changed sources, and the
    functions of each edit."""
    now = dict(sources)
    chosen: Dict[str, Set[Place]] = {}
    taken: Set[Place] = set()
    for edit, pairs in edits.items():
        found = applied(pairs, now)
        if not found or not found[1] or found[1] & taken:
            continue
        now.update(found[0])
        chosen[edit] = found[1]
        taken |= found[1]
    return {file: text for file, text in now.items() if text != sources[file]}, chosen


def is_of(function: str, crate: str, place: Place) -> bool:
    """Whether a function, as a check names it, is the one at this place, or a closure in it."""
    module = "::".join([crate, *filter(None, place.module.split("/"))])
    return function.startswith(f"{module}::") and place.name in function[len(module):].split("::")


def is_open_itself(verdict: str) -> bool:
    """Whether a function has an open goal, and doesn't only call one that isn't proved."""
    return verdict == "not proved" or bool(UNANSWERED.match(verdict)) and "it calls" not in verdict


def verdicts(said: List[str], crate: str, chosen: Dict[str, Set[Place]]) -> Dict[str, Optional[bool]]:
    """Whether a check refused each edit: yes if one of its functions isn't proved by itself, no if all are proved, and nothing if
    that isn't known: the function wasn't judged, or calls one that isn't proved."""
    found: Dict[str, Optional[bool]] = {}
    judged = [(it[1], it[2]) for it in map(VERDICT.match, said) if it]
    for edit, places in chosen.items():
        own = [verdict for function, verdict in judged if any(is_of(function, crate, place) for place in places)]
        if any(map(is_open_itself, own)):
            found[edit] = True
        else:
            found[edit] = False if own and all(it == "proved" for it in own) else None
    return found


def open_in(line: str) -> Optional[str]:
    """What a line of a check says isn't proved, and not only since something else isn't: a function, or a module of lemmas."""
    verdict, lemma = VERDICT.match(line), LEMMA.match(line)
    if verdict and is_open_itself(verdict[2]):
        return verdict[1]
    return lemma[1] if lemma else None


def reason_of(said: List[str], places: Set[Place]) -> str:
    """The first goal that is open in one of these functions."""
    for line in said:
        found = ERROR.match(line) or UNANSWERED.search(line)
        if found and any(found[1].startswith(place.module) and place.name in found[1].split("/") for place in places):
            return f"the goal {found[2]} is open"
    return "it isn't proved"
