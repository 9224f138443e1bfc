"""What has to be built before a unit can be: which paths a failure blocks, the longest chain that is left, and circles.

The graph has two kinds of nodes: a unit is built, and a path can be installed. A unit that isn't built needs each path that its build
needs to be installable; a path is installable once its unit is built and each path that it needs to run is installable, too."""
from __future__ import annotations

from collections import Counter
from typing import Callable, Dict, List, NamedTuple, Sequence, Set, Tuple

from dpbn_tools import graphs
from dpbn_tools.letters import Letters
from dpbn_tools.units import Division

# the most units that are named of those that a unit waits for
MOST_NAMED = 4


class Blocked(NamedTuple):
    """How many paths can't be built before a unit is, its own not counted; and how many are held and can't be installed before."""

    paths: int
    held_back: int


class Chain(NamedTuple):
    """Units of which each needs the one before it, and how much all of them weigh."""

    units: List[int]
    weight: float


class Needs:
    """The graph, in parts of nodes that need each other, each part after all that it needs."""

    def __init__(self, division: Division) -> None:
        self.division, self.count = division, len(division.units)
        edges = [[self.count + place for place in unit.needs] for unit in division.units]
        for place, run in enumerate(division.tree.run):
            own = [division.unit_at[place]] if division.unit_at[place] >= 0 else []
            edges.append(own + [self.count + it for it in run if it != place])
        self.parts = graphs.components(edges)
        self.part_of = [0] * len(edges)
        for number, members in enumerate(self.parts):
            for node in members:
                self.part_of[node] = number
        self.needed = [sorted({self.part_of[it] for node in members for it in edges[node]} - {number})
                       for number, members in enumerate(self.parts)]
        # the unit of each part that is one unit only, and else -1
        self.unit_of = [members[0] if len(members) == 1 and members[0] < self.count else -1 for members in self.parts]
        # units that can never be built, since each needs itself; paths that need each other to run don't make such a circle
        several = [[node for node in members if node < self.count] for members in self.parts if len(members) > 1]
        self.circles = [sorted(units) for units in several if units]
        # what each unit was said to wait for
        self.named: Dict[int, List[int]] = {}
        self.never = self.that_need({unit for circle in self.circles for unit in circle})

    def is_held(self, letters: Letters, part: int) -> bool:
        return self.unit_of[part] >= 0 and letters.is_held(self.unit_of[part])

    def that_need(self, units: Set[int]) -> Set[int]:
        """These units, and all that need one of them, whatever is held."""
        found = [False] * len(self.parts)
        for unit in units:
            found[self.part_of[unit]] = True
        for part, needed in enumerate(self.needed):
            found[part] = found[part] or any(found[it] for it in needed)
        return {unit for unit in range(self.count) if found[self.part_of[unit]]}

    def masks(self, letters: Letters, units: Sequence[int]) -> List[int]:
        """For each part which of these units it needs, as bits. What is held needs nothing."""
        own: Dict[int, int] = {}
        for bit, unit in enumerate(units):
            own[self.part_of[unit]] = own.get(self.part_of[unit], 0) | 1 << bit
        found = [0] * len(self.parts)
        if not units:
            return found
        for part, needed in enumerate(self.needed):
            if self.is_held(letters, part):
                continue
            mask = own.get(part, 0)
            for other in needed:
                mask |= found[other]
            found[part] = mask
        return found

    def blocked(self, letters: Letters, units: Sequence[int]) -> Tuple[Dict[int, Blocked], Dict[int, List[int]]]:
        """What each of these units blocks, none of which is held; and for each unit that one of them blocks, which do."""
        masks, places = self.masks(letters, units), self.division.units
        waiting: "Counter[int]" = Counter()
        held_back: "Counter[int]" = Counter()
        blocked: Dict[int, List[int]] = {}
        named: Dict[int, List[int]] = {}
        for unit in range(self.count):
            mask = masks[self.part_of[unit]]
            if mask and not letters.is_held(unit):
                waiting[mask] += len(places[unit].places)
                if mask not in named:
                    named[mask] = [it for bit, it in enumerate(units) if mask >> bit & 1]
                blocked[unit] = named[mask]
        for place in range(len(self.division.tree.paths)):
            mask = masks[self.part_of[self.count + place]]
            if mask and letters.held[place]:
                held_back[mask] += 1
        counts = {unit: Blocked(total(waiting, bit) - len(places[unit].places), total(held_back, bit)) for bit, unit in enumerate(units)}
        return counts, {unit: blockers for unit, blockers in blocked.items() if unit not in counts}

    def chain(self, letters: Letters, left_out: Set[int], weight: Callable[[int], float]) -> Chain:
        """The heaviest chain of units that aren't held and aren't left out."""
        best, before = [0.0] * len(self.parts), [-1] * len(self.parts)
        last = -1
        for part, needed in enumerate(self.needed):
            unit = self.unit_of[part]
            if unit >= 0 and (unit in left_out or letters.is_held(unit)):
                continue
            for other in needed:
                if best[other] > best[part]:
                    best[part], before[part] = best[other], other
            if unit >= 0:
                best[part] += weight(unit)
                if last < 0 or best[part] > best[last]:
                    last = part
        units, part = [], last
        while part >= 0:
            units += [self.unit_of[part]] if self.unit_of[part] >= 0 else []
            part = before[part]
        return Chain(units[::-1], best[last] if last >= 0 else 0.0)

    def waits_for(self, letters: Letters, unit: int) -> List[int]:
        """Some of the units that aren't held and that this one waits for, the nearest ones at first. They stay until one of them is
        held, since no other one comes to be needed."""
        named = self.named.get(unit)
        if named is None or any(map(letters.is_held, named)):
            named = self.named[unit] = self.nearest(letters, unit)
        return named

    def nearest(self, letters: Letters, unit: int) -> List[int]:
        found: List[int] = []
        seen, waiting = set(), [place for place in self.division.units[unit].needs if not letters.is_installable(place)]
        for place in waiting:
            if place in seen:
                continue
            seen.add(place)
            if not letters.held[place]:
                other = self.division.unit_at[place]
                if other >= 0 and other not in found:
                    found.append(other)
                if len(found) == MOST_NAMED:
                    break
            else:
                waiting += [it for it in self.division.tree.run[place] if not letters.is_installable(it)]
        return found


def total(counts: "Counter[int]", bit: int) -> int:
    return sum(count for mask, count in counts.items() if mask >> bit & 1)
