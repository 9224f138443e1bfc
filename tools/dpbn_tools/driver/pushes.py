"""Copies large files into the stores of other hosts, by a command, before what has them is handed in."""
from __future__ import annotations

import os
from typing import Callable, Dict, List, Set, Tuple

from dpbn_tools.log import Large
from dpbn_tools.driver.command import Command, helper, shell
from dpbn_tools.driver.store import Store
from dpbn_tools.driver.transfers import Hosts


class Pushes:
    """Which files are to be where, and the commands that bring them there."""

    def __init__(self, store: Store, command: str, copies: int, log: Callable[[], str]) -> None:
        self.store, self.command, self.copies, self.log = store, command, copies, log
        self.hosts = Hosts()
        # which other hosts have a file, as far as this one pushed it
        self.there: Dict[str, Set[int]] = {}
        self.running: List[Tuple[Large, int, Command]] = []

    def look(self) -> bool:
        """Takes note of what has ended. Returns whether anything has."""
        ended = [it for it in self.running if it[2].poll()]
        for large, host, command in ended:
            self.running.remove((large, host, command))
            self.hosts.ends(host, large.digest, command.has_succeeded())
            if command.has_succeeded():
                self.there.setdefault(large.digest, set()).add(host)
        return bool(ended)

    def is_done(self, large: Large) -> bool:
        return len(self.there.get(large.digest, ())) >= self.copies - 1

    def push(self, large: Large, own: int, members: int) -> bool:
        """Brings the file to as many other hosts as it has to be on. Returns whether it is there."""
        if self.is_done(large):
            return True
        there = self.there.get(large.digest, set())
        asked = {host for it, host, _ in self.running if it.digest == large.digest}
        others = [(own + step) % members for step in range(1, members)] if own < members else list(range(members))
        free = [host for host in others if host not in there and host not in asked]
        while free and len(there) + len(asked) < self.copies - 1:
            host = self.hosts.next(free, large.digest)
            if host < 0:
                break
            free.remove(host)
            asked.add(host)
            self.begin(large, host)
        return False

    def begin(self, large: Large, host: int) -> None:
        more = {"HOST": str(host), "SHA256": large.digest, "SIZE": str(large.size), "NAME": large.name.decode(),
                "SOURCE": self.store.path(large.digest)}
        self.running.append((large, host, helper(shell(self.command), self.log(), {**os.environ, **more})))
        self.hosts.begins(host)

    def forget(self, large: Large) -> None:
        """The file was handed in."""
        self.there.pop(large.digest, None)
        self.hosts.forget(large.digest)

    def end(self) -> None:
        for _, _, command in self.running:
            command.end()
