"""Strongly connected components of a graph (Tarjan's algorithm, without recursion)."""
from __future__ import annotations

from typing import Iterator, List, Sequence, Tuple


class Search:
    """A depth-first search through a graph, given as the nodes that each node leads to."""

    def __init__(self, edges: Sequence[Sequence[int]]) -> None:
        self.edges = edges
        # 0 for a node that wasn't reached
        self.index, self.low = [0] * len(edges), [0] * len(edges)
        self.is_open = [False] * len(edges)
        self.stack: List[int] = []
        self.path: List[Tuple[int, Iterator[int]]] = []
        self.count = 0
        self.found: List[List[int]] = []

    def enter(self, node: int) -> None:
        self.count += 1
        self.index[node] = self.low[node] = self.count
        self.stack.append(node)
        self.is_open[node] = True
        self.path.append((node, iter(self.edges[node])))

    def leave(self, node: int) -> None:
        """Ends a node. If it is the first of its component, that is complete."""
        self.path.pop()
        if self.path:
            before = self.path[-1][0]
            self.low[before] = min(self.low[before], self.low[node])
        if self.low[node] == self.index[node]:
            start = len(self.stack) - 1
            while self.stack[start] != node:
                start -= 1
            members = self.stack[start:]
            del self.stack[start:]
            for member in members:
                self.is_open[member] = False
            self.found.append(members)

    def step(self) -> None:
        """Enters the next node that the last one leads to, or leaves that."""
        node, rest = self.path[-1]
        for other in rest:
            if not self.index[other]:
                self.enter(other)
                return
            if self.is_open[other]:
                self.low[node] = min(self.low[node], self.index[other])
        self.leave(node)


def components(edges: Sequence[Sequence[int]]) -> List[List[int]]:
    """The components of a graph, each after all others that its members lead to."""
    search = Search(edges)
    for root in range(len(edges)):
        if not search.index[root]:
            search.enter(root)
            while search.path:
                search.step()
    return search.found
