"""What a bad line does to what is sent: some of it is lost, late, repeated or out of order, and hosts may be cut off from each other."""
from __future__ import annotations

import json
import random
from typing import Any, Dict, List, NamedTuple, Tuple


class Line(NamedTuple):
    """A line between all hosts. Shares are of 1, and times are in seconds."""

    loss: float = 0.0
    delay: float = 0.0
    # each is late by at most this much more, so that one may overtake another
    jitter: float = 0.0
    twice: float = 0.0
    # a host hears only those of its own group; without groups all hear each other
    groups: Tuple[Tuple[int, ...], ...] = ()

    def hears(self, source: int, target: int) -> bool:
        return not self.groups or any(source in group and target in group for group in self.groups)

    def delays(self, dice: random.Random, source: int, target: int) -> List[float]:
        """How late each copy is that arrives; none if it is lost."""
        if not self.hears(source, target) or dice.random() < self.loss:
            return []
        copies = 2 if dice.random() < self.twice else 1
        return [self.delay + dice.uniform(0, self.jitter) for _ in range(copies)]

    def written(self) -> str:
        return json.dumps(self._asdict())


def read(text: str) -> Line:
    """A line as `written` writes it."""
    found: Dict[str, Any] = json.loads(text)
    found["groups"] = tuple(tuple(group) for group in found["groups"])
    return Line(**found)
