"""Gets large files for the store by a command, from any host that may have them."""
from __future__ import annotations

import os
import shutil
import time
from typing import Callable, Dict, List, Optional

from dpbn_tools.folders import Refused
from dpbn_tools.log import Large
from dpbn_tools.driver.command import Command, helper, shell
from dpbn_tools.driver.store import Store, digest_of
from dpbn_tools.driver.tasks import Tasks
from dpbn_tools.driver.transfers import Hosts

# after this many seconds another host is asked for a file, too
LONG = 20
# how many hosts are asked for one file at a time
MAX_ASKED = 2
# how often is looked whom to ask, in seconds, if nothing has changed
EACH = 0.25


class Fetch:
    """One command that gets one file from one host."""

    def __init__(self, large: Large, host: int, target: str, command: Command) -> None:
        self.large, self.host, self.target, self.command = large, host, target, command
        self.began, self.is_checked = time.monotonic(), False


class Wanted:
    """A file that is needed, and the hosts that may have it."""

    def __init__(self, large: Large, hosts: List[int]) -> None:
        self.large, self.hosts = large, hosts
        self.fetches: List[Fetch] = []
        # when a host may be asked next
        self.due = 0.0


class Fetches:
    """The files that are needed, and the commands that fetch them."""

    def __init__(self, store: Store, command: Optional[str], log: Callable[[], str], tasks: Tasks, tell: Callable[[str], None]) -> None:
        self.store, self.command, self.log, self.tasks, self.tell = store, command, log, tasks, tell
        self.wanted: Dict[str, Wanted] = {}
        self.hosts = Hosts()
        self.count, self.due = 0, 0.0

    def want(self, large: Large, hosts: List[int]) -> None:
        """Has the file fetched, unless that is done already."""
        if self.command and large.digest not in self.wanted:
            self.wanted[large.digest] = Wanted(large, hosts)
            self.due = 0.0

    def is_wanted(self, large: Large) -> bool:
        return large.digest in self.wanted

    def is_missed(self, large: Large) -> bool:
        """Whether nobody gets the file, or it was tried in vain."""
        return not self.command or self.hosts.has_failed(large.digest)

    def keep_only(self, digests: List[str]) -> None:
        """Ends what is fetched in vain: nobody waits for it any more."""
        for digest in set(self.wanted) - set(digests):
            for fetch in self.wanted.pop(digest).fetches:
                self.drop(fetch)

    def drop(self, fetch: Fetch) -> None:
        fetch.command.end()
        self.hosts.running[fetch.host] -= 1
        self.tasks.start(lambda: self.leave(fetch), lambda _, __: None)

    def leave(self, fetch: Fetch) -> None:
        """Removes what a fetch left, once it has ended."""
        end = time.monotonic() + 10
        while not fetch.command.poll() and time.monotonic() < end:
            time.sleep(0.05)
        remove(fetch.target)

    def look(self) -> None:
        """Takes what arrived, and asks for what is needed."""
        for wanted in list(self.wanted.values()):
            for fetch in wanted.fetches:
                if not fetch.is_checked and fetch.command.poll():
                    fetch.is_checked = True
                    self.begin_check(wanted, fetch)
        now = time.monotonic()
        if now >= self.due:
            self.due = now + EACH
            for wanted in self.wanted.values():
                if now >= wanted.due:
                    self.ask(wanted, now)

    def ask(self, wanted: Wanted, now: float) -> None:
        """Asks the next host for the file, unless enough are asked."""
        running = wanted.fetches
        if len(running) >= MAX_ASKED or running and now < running[-1].began + LONG:
            return
        if not running:
            wanted.due = self.hosts.due(wanted.hosts, wanted.large.digest)
        asked = {fetch.host for fetch in running}
        host = self.hosts.next([host for host in wanted.hosts if host not in asked], wanted.large.digest)
        if host >= 0:
            self.count += 1
            target = self.store.new(wanted.large.digest, f"fetched{self.count}")
            wanted.fetches.append(Fetch(wanted.large, host, target, self.begin(wanted.large, host, target)))
            self.hosts.begins(host)

    def begin(self, large: Large, host: int, target: str) -> Command:
        os.makedirs(self.store.folder, exist_ok=True)
        more = {"HOST": str(host), "SHA256": large.digest, "SIZE": str(large.size), "NAME": large.name.decode(), "TARGET": target}
        assert self.command
        return helper(shell(self.command), self.log(), {**os.environ, **more})

    def begin_check(self, wanted: Wanted, fetch: Fetch) -> None:
        self.tasks.start(lambda: self.check(fetch), lambda is_right, error: self.checked(wanted, fetch, bool(is_right), error))

    def check(self, fetch: Fetch) -> bool:
        """Takes what a fetch left into the store, if it is the file. A file with other bytes is set aside, anything else is removed."""
        large, target = fetch.large, fetch.target
        if not os.path.lexists(target):
            return False
        try:
            if os.path.islink(target):
                raise Refused("it is a symbolic link")
            digest, size = digest_of(target)
        except Refused:
            remove(target)
            return False
        if digest == large.digest:
            self.store.add(target, digest)
            return True
        if fetch.command.has_succeeded() and size:
            name = f"{large.digest}.host{fetch.host}"
            self.store.set_aside(target, name, f"{large.name.decode()}, {large.digest}, came with other bytes from host {fetch.host}")
        else:
            remove(target)
        return False

    def checked(self, wanted: Wanted, fetch: Fetch, is_right: bool, error: Optional[Exception]) -> None:
        if error:
            self.tell(f"? {fetch.target} can't be taken: {error}")
        if fetch not in wanted.fetches or self.wanted.get(wanted.large.digest) is not wanted:
            return
        wanted.fetches.remove(fetch)
        self.hosts.ends(fetch.host, fetch.large.digest, is_right)
        self.due = 0.0
        if is_right:
            del self.wanted[fetch.large.digest]
            self.hosts.forget(fetch.large.digest)
            for other in wanted.fetches:
                self.drop(other)

    def end(self) -> None:
        for wanted in self.wanted.values():
            for fetch in wanted.fetches:
                fetch.command.end()
                remove(fetch.target)


def remove(path: str) -> None:
    """Removes whatever is there."""
    if os.path.isdir(path) and not os.path.islink(path):
        shutil.rmtree(path, ignore_errors=True)
    elif os.path.lexists(path):
        os.unlink(path)
