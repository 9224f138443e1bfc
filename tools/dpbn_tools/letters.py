"""The letters of paths, as `dpbr status` prints them, kept up to date while more and more of the paths become held."""
from __future__ import annotations

from typing import Dict, List

from dpbn_tools import graphs
from dpbn_tools.units import Division

LETTERS = "IBQT!"


class Plan:
    """What letters depend on and what never changes: which paths can be installed only together, and who waits for them."""

    def __init__(self, division: Division) -> None:
        self.division = division
        run, units = division.tree.run, division.units
        # paths that need each other to run
        self.circles = graphs.components(run)
        self.circle_of = [0] * len(run)
        for number, members in enumerate(self.circles):
            for place in members:
                self.circle_of[place] = number
        needs = [{self.circle_of[it] for place in members for it in run[place]} - {number}
                 for number, members in enumerate(self.circles)]
        # how much each circle waits for at first: its own paths, and the circles that it needs
        self.missing = [len(members) + len(needed) for members, needed in zip(self.circles, needs)]
        self.needed_by: List[List[int]] = [[] for _ in self.circles]
        for number, needed in enumerate(needs):
            for other in needed:
                self.needed_by[other].append(number)
        # which units need a path to be built
        self.builds_on: List[List[int]] = [[] for _ in run]
        for number, unit in enumerate(units):
            for place in unit.needs:
                self.builds_on[place].append(number)


class Letters:
    """The letters for one set of held paths, which only grows."""

    def __init__(self, plan: Plan) -> None:
        self.plan, self.division = plan, plan.division
        self.held = bytearray(len(self.division.tree.paths))
        self.installable = bytearray(len(plan.circles))
        self.missing = list(plan.missing)
        # for how many of its needs each unit waits
        self.waits = [len(unit.needs) for unit in self.division.units]
        self.counts: Dict[str, int] = dict.fromkeys(LETTERS, 0)
        for place in range(len(self.held)):
            self.counts[self.letter(place)] += 1

    def letter(self, place: int) -> str:
        """The first that applies of I, B, !, Q and T."""
        if self.held[place]:
            return "I" if self.installable[self.plan.circle_of[place]] else "B"
        unit = self.division.unit_at[place]
        if unit < 0:
            return "!"
        return "T" if self.waits[unit] else "Q"

    def is_installable(self, place: int) -> bool:
        return bool(self.installable[self.plan.circle_of[place]])

    def is_held(self, unit: int) -> bool:
        return bool(self.held[self.division.units[unit].places[0]])

    def hold(self, unit: int) -> None:
        """From now on the paths of this unit are held."""
        for place in self.division.units[unit].places:
            self.hold_path(place)

    def hold_path(self, place: int) -> None:
        """From now on this path is held."""
        if not self.held[place]:
            self.counts[self.letter(place)] -= 1
            self.counts["B"] += 1
            self.held[place] = 1
            self.give(self.plan.circle_of[place])

    def give(self, circle: int) -> None:
        """The circle waits for one thing less. What can be installed by that is passed on to what waits for it."""
        waiting = [circle]
        while waiting:
            number = waiting.pop()
            self.missing[number] -= 1
            if not self.missing[number]:
                self.install(number)
                waiting += self.plan.needed_by[number]

    def install(self, circle: int) -> None:
        """The paths of the circle can be installed from now on."""
        self.installable[circle] = 1
        places = self.plan.circles[circle]
        self.counts["B"] -= len(places)
        self.counts["I"] += len(places)
        for place in places:
            for unit in self.plan.builds_on[place]:
                self.waits[unit] -= 1
                if not self.waits[unit]:
                    size = sum(not self.held[it] for it in self.division.units[unit].places)
                    self.counts["T"] -= size
                    self.counts["Q"] += size
