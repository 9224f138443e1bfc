"""The units of a tree: what one build makes, and what each of them needs; and the paths that are ignored, with the reason."""
from __future__ import annotations

from typing import Dict, List, NamedTuple, Optional

from dpbn_tools.listings import Tree


class Unit(NamedTuple):
    """What one build makes: its name, the places of its packages in the order of their paths, and what its build needs."""

    name: str
    places: List[int]
    needs: List[int]


def ignored(tree: Tree) -> Dict[int, str]:
    """The places that are ignored, each with why: by itself, or for what it needs."""
    needed_by: List[List[int]] = [[] for _ in tree.paths]
    for place in range(len(tree.paths)):
        for needed in {*tree.build[place], *tree.run[place]}:
            needed_by[needed].append(place)
    found = dict(tree.marked)
    waiting = list(found)
    while waiting:
        place = waiting.pop()
        for other in needed_by[place]:
            if other not in found:
                found[other] = f"it needs {tree.paths[place]}, which is ignored"
                waiting.append(other)
    return found


def unit_of(tree: Tree, group: str, places: List[int]) -> Unit:
    if len(places) == 1:
        return Unit(tree.paths[places[0]], places, tree.build[places[0]])
    needs = {it for place in places for it in tree.build[place]} - set(places)
    return Unit(group, sorted(places, key=lambda place: tree.paths[place]), sorted(needs))


class Division:
    """A tree, its units in the order of their first paths, and which unit each path belongs to."""

    def __init__(self, tree: Tree) -> None:
        self.tree, self.ignored = tree, ignored(tree)
        self.units: List[Unit] = []
        # by place; -1 for a path that is ignored
        self.unit_at = [-1] * len(tree.paths)
        for group, places in tree.groups().items():
            rest = [place for place in places if place not in self.ignored]
            if rest:
                for place in rest:
                    self.unit_at[place] = len(self.units)
                self.units.append(unit_of(tree, group, rest))
        self.number = {unit.name: number for number, unit in enumerate(self.units)}

    def unit_of(self, text: str) -> Optional[Unit]:
        """The unit that a text names, by its own name or by one of its paths."""
        number = self.number.get(text, self.unit_at[self.tree.place[text]] if text in self.tree.place else -1)
        return self.units[number] if number >= 0 else None
