"""The longest chain of build times that begins at each unit of a listing. That is how long the bulk still takes at least once the
unit is begun, if each unit is built as soon as all that it needs is there.

What waits for what is a graph of units and paths. A unit is followed by its paths; a path, once it can be installed, by the units that
need it to be built, and by the paths that need it to run."""
from __future__ import annotations

from typing import Dict, Iterator, List, Sequence, Set, Tuple

from dpbn_tools.listing import Listing, Unit

Graph = List[List[int]]


class Chains:
    """What waits for what in a listing, and for how long."""

    def __init__(self, listing: Listing) -> None:
        self.units: List[Unit] = [unit for unit in listing.units() if unit.paths]
        self.number = {path: number for number, path in enumerate((path for unit in self.units for path in unit.paths), len(self.units))}
        self.graph: Graph = [[] for _ in range(len(self.units) + len(self.number))]
        for place, unit in enumerate(self.units):
            self.graph[place] = [self.number[path] for path in unit.paths]
        for place, unit in enumerate(self.units):
            self.link(listing, place, unit)

    def link(self, listing: Listing, place: int, unit: Unit) -> None:
        """Links what the unit needs to it, and what its paths need to run to them."""
        own = set(unit.paths) if len(unit.paths) > 1 else set()
        needed = {need for path in unit.paths for need in listing.build_needs(path)} - own
        for need in needed & self.number.keys():
            self.graph[self.number[need]].append(place)
        for path in unit.paths:
            for need in set(listing.run_needs(path)) & self.number.keys():
                self.graph[self.number[need]].append(self.number[path])

    def lengths(self, seconds: Dict[bytes, float]) -> Tuple[List[float], List[List[Unit]]]:
        """For each unit the seconds of the longest chain from its begin to the end, and the sets of units that wait for one another."""
        length, circles = [0.0] * len(self.graph), []
        component = [-1] * len(self.graph)
        for number, nodes in enumerate(components(self.graph)):
            for node in nodes:
                component[node] = number
            after = max((length[it] for node in nodes for it in self.graph[node] if component[it] != number), default=0.0)
            units = [node for node in nodes if node < len(self.units)]
            if units and len(nodes) > 1:
                circles.append([self.units[node] for node in units])
            total = after + sum(seconds[self.units[node].name] for node in units)
            for node in nodes:
                length[node] = total
        return length[:len(self.units)], circles

    def longest(self, lengths: Sequence[float]) -> List[Unit]:
        """The units of the longest chain, in the order in which they are built."""
        found, place = [], max(range(len(self.units)), key=lambda it: lengths[it], default=-1)
        while place >= 0:
            found.append(self.units[place])
            place = max(self.followers(place) - {place}, key=lambda it: lengths[it], default=-1)
            if place >= 0 and self.units[place] in found:
                break
        return found

    def followers(self, place: int) -> Set[int]:
        """The units that wait for this one, also by what needs its paths to run."""
        seen: Set[int] = set()
        waiting = list(self.graph[place])
        while waiting:
            node = waiting.pop()
            if node not in seen:
                seen.add(node)
                waiting += self.graph[node] if node >= len(self.units) else []
        return {node for node in seen if node < len(self.units)}


def components(graph: Graph) -> Iterator[List[int]]:
    """The strongly connected components of a graph, each after all that can be reached from it (Tarjan's algorithm)."""
    index, low, on_stack = [-1] * len(graph), [0] * len(graph), [False] * len(graph)
    stack: List[int] = []
    calls: List[Tuple[int, Iterator[int]]] = []
    seen = 0

    def enter(node: int) -> None:
        nonlocal seen
        index[node] = low[node] = seen
        seen += 1
        on_stack[node] = True
        stack.append(node)
        calls.append((node, iter(graph[node])))

    for root in range(len(graph)):
        if index[root] < 0:
            enter(root)
        while calls:
            node, edges = calls[-1]
            other = next(edges, None)
            if other is None:
                calls.pop()
                if calls:
                    low[calls[-1][0]] = min(low[calls[-1][0]], low[node])
                if low[node] == index[node]:
                    yield unwound(stack, on_stack, node)
            elif index[other] < 0:
                enter(other)
            elif on_stack[other]:
                low[node] = min(low[node], index[other])


def unwound(stack: List[int], on_stack: List[bool], node: int) -> List[int]:
    """Takes a node and all above it off the stack."""
    found = []
    while on_stack[node]:
        found.append(stack.pop())
        on_stack[found[-1]] = False
    return found
