"""Which host is asked next: turns, back-off, and how many commands run at a time for one host."""
from __future__ import annotations

import time
from typing import Dict, List, Tuple

# how many commands run at a time for one host, and the least and the greatest wait after a failure, in seconds
MAX_PER_HOST, FIRST_WAIT, LONGEST_WAIT = 2, 5, 600
# after this many failures in a row a host is taken to be down: one command at a time then
DOWN = 3


class Hosts:
    """What is known of the hosts that are asked."""

    def __init__(self) -> None:
        self.running: Dict[int, int] = {}
        # how often a host failed in a row
        self.failures: Dict[int, int] = {}
        # by a file's digest and a host: how often that failed, and until when it isn't asked for the file
        self.waits: Dict[str, Dict[int, Tuple[int, float]]] = {}

    def wait(self, host: int, digest: str) -> Tuple[int, float]:
        return self.waits.get(digest, {}).get(host, (0, 0.0))

    def may_ask(self, host: int, digest: str) -> bool:
        most = 1 if self.failures.get(host, 0) >= DOWN else MAX_PER_HOST
        return self.running.get(host, 0) < most and time.monotonic() >= self.wait(host, digest)[1]

    def due(self, hosts: List[int], digest: str) -> float:
        """When one of these hosts may be asked for the file again after it failed; 0 if one may be now."""
        return min((self.wait(host, digest)[1] for host in hosts), default=0.0)

    def next(self, hosts: List[int], digest: str) -> int:
        """The host that is asked next for this file, or -1: of those that may be asked the one that failed least often."""
        free = [host for host in hosts if self.may_ask(host, digest)]
        return min(free, key=lambda host: (self.wait(host, digest)[0], self.failures.get(host, 0) >= DOWN, hosts.index(host)), default=-1)

    def begins(self, host: int) -> None:
        self.running[host] = self.running.get(host, 0) + 1

    def ends(self, host: int, digest: str, is_good: bool) -> None:
        self.running[host] -= 1
        if is_good:
            self.failures.pop(host, None)
            self.waits.get(digest, {}).pop(host, None)
            return
        self.failures[host] = self.failures.get(host, 0) + 1
        count = self.wait(host, digest)[0] + 1
        until = time.monotonic() + min(FIRST_WAIT * 2 ** (count - 1), LONGEST_WAIT)
        self.waits.setdefault(digest, {})[host] = count, until

    def has_failed(self, digest: str) -> bool:
        """Whether somebody was asked for the file in vain."""
        return bool(self.waits.get(digest))

    def forget(self, digest: str) -> None:
        self.waits.pop(digest, None)
