"""Brings logs, large files and packages of a run to this host."""
from __future__ import annotations

import contextlib
import os
import shutil
import subprocess
import sys
from typing import BinaryIO, Callable, Dict, List, Set, Tuple

from dpbn_tools.hosts_file import Host, HostsFile
from dpbn_tools.hosts_receive import files_below, put_touched, receive
from dpbn_tools.hosts_remote import NoAnswer, ask, json_of
from dpbn_tools.hosts_start import on_all
from dpbn_tools.hosts_stores import Store, bring_large
from dpbn_tools.log import HELD, BadLog, LogFile
from dpbn_tools.log_copies import Copy


def log_path(folder: str, host: Host) -> str:
    return f"{folder}/logs/node-{host.number}.log"


def bring_log(file: HostsFile, host: Host, folder: str) -> None:
    """Brings the copy of a host's log up to date."""
    os.makedirs(f"{folder}/logs", exist_ok=True)
    copy = Copy(log_path(folder, host))
    place, digest = copy.place()

    def take(name: str, data: BinaryIO, size: int, _: int) -> None:
        word, _at, start = name.partition("@")
        if word != "log" or not start.isdigit() or int(start) not in (0, place):
            raise NoAnswer(f"it sends {name!a} in place of its log")
        copy.take(int(start), data, size)

    receive(file, host, {"log": {"from": place, "digest": digest}}, take)


def held_in(path: str) -> Tuple[Set[bytes], Dict[str, int]]:
    """The units that a log holds, and the large files that they need, with their sizes."""
    units: Set[bytes] = set()
    large: Dict[str, int] = {}
    with LogFile(path) as log:
        for note in log.notes():
            if note.kind == HELD and note.unit not in units:
                units.add(note.unit)
                large.update((it.digest, it.size) for record in note.records for it in record.large)
    return units, large


# ---- all of it

class Collection:
    """What is brought into a folder of this host."""

    def __init__(self, file: HostsFile, folder: str) -> None:
        self.file, self.folder = file, folder
        self.lines: List[str] = []

    def tell(self, text: str) -> None:
        print(f"dpbn-hosts: {text}", file=sys.stderr, flush=True)
        self.lines.append(text)

    def logs(self) -> Dict[str, Set[bytes]]:
        """Brings the logs. Returns the units that each of them holds."""
        def bring(host: Host) -> str:
            try:
                bring_log(self.file, host, self.folder)
                return ""
            except (NoAnswer, OSError) as error:
                return f"{host.name}: {error}"

        for line in filter(None, on_all(self.file.hosts, bring)):
            self.tell(line)
        self.large: Dict[str, int] = {}
        units = {}
        for host in self.file.hosts:
            path = log_path(self.folder, host)
            try:
                units[host.name], large = held_in(path)
                self.large.update(large)
            except FileNotFoundError:
                continue
            except BadLog as bad:
                self.tell(f"{host.name}: {path}: {bad}")
        return units

    def stores(self) -> Dict[str, Dict[str, int]]:
        def contents(host: Host) -> Dict[str, int]:
            try:
                found = json_of(ask(self.file, host, ["contents", host.folder])).get("store")
                return found if isinstance(found, dict) else {}
            except NoAnswer:
                return {}

        return {host.name: store for host, store in zip(self.file.hosts, on_all(self.file.hosts, contents))}

    def times(self) -> None:
        """Puts the times of builds of all hosts into one file, for the next bulk."""
        found: Dict[str, List[bytes]] = {}

        def bring(host: Host) -> None:
            def take(name: str, data: BinaryIO, _size: int, _touched: int) -> None:
                if name == "times":
                    found[host.name] = data.read().splitlines(keepends=True)

            with contextlib.suppress(NoAnswer):
                receive(self.file, host, {"times": True}, take)

        on_all(self.file.hosts, bring)
        text = b"".join(line for host in self.file.hosts for line in found.get(host.name, []) if line.endswith(b"\n"))
        if text:
            with open(f"{self.folder}/times", "wb") as out:
                out.write(text)

    def packages(self, units: Dict[str, Set[bytes]], flat: bool) -> None:
        """Unpacks the log that holds most into `packages`, which comes into place whole."""
        if not units:
            self.tell("no log came, so there are no packages")
            return
        best = max(units, key=lambda name: len(units[name]))
        more = len(set().union(*units.values()) - units[best])
        if more:
            self.tell(f"the log of {best} lacks {more} units that others hold: let its node come to rest, and collect again")
        host = self.file.named(best)
        assert host
        unpack(self.folder, log_path(self.folder, host), flat, self.tell)
        print(f"{len(units[best])} units, by the log of {best}: {self.folder}/packages", flush=True)


def beside(name: str) -> str:
    """Another tool, next to this one or on the PATH."""
    own = os.path.join(os.path.dirname(os.path.abspath(sys.argv[0])), name)
    return own if os.path.exists(own) else name


def unpack(folder: str, log: str, flat: bool, tell: Callable[[str], None]) -> None:
    """Runs unpack-log(1), and puts its folder in place of the one of an earlier time."""
    new, old, place = f"{folder}/packages.new", f"{folder}/packages.old", f"{folder}/packages"
    for path in (new, old):
        remove(path)
    words = [beside("unpack-log"), "--store", f"{folder}/store", "--link", *(["--flat"] if flat else []), log, new]
    done = subprocess.run(words, stdin=subprocess.DEVNULL, stdout=subprocess.PIPE, stderr=subprocess.PIPE, check=False)
    for line in done.stderr.decode("utf-8", "replace").splitlines():
        tell(line)
    if done.returncode:
        raise NoAnswer("unpack-log failed, and packages is what it was")
    if os.path.lexists(place):
        os.rename(place, old)
    os.rename(new, place)
    remove(old)


def remove(path: str) -> None:
    if os.path.lexists(path):
        shutil.rmtree(path)


def collect(file: HostsFile, folder: str, flat: bool, build_logs: bool) -> int:
    """Brings all. Returns the program's status."""
    os.makedirs(folder, exist_ok=True)
    collection = Collection(file, folder)
    units = collection.logs()
    wanted = collection.large
    store = Store(f"{folder}/store")
    for line in bring_large(file, store, wanted, collection.stores()):
        collection.tell(line)
    collection.times()
    if build_logs:
        bring_build_logs(collection)
    collection.packages(units, flat)
    return 1 if collection.lines else 0


def bring_build_logs(collection: Collection) -> None:
    """Brings the logs of all builds, into a folder for each host."""
    def bring(host: Host) -> str:
        folder = f"{collection.folder}/build-logs/{host.name}"
        os.makedirs(folder, exist_ok=True)
        try:
            receive(collection.file, host, {"logs": files_below(folder)}, lambda *parts: put_touched(folder, *parts))
            return ""
        except (NoAnswer, OSError) as error:
            return f"{host.name}: {error}"

    for line in filter(None, on_all(collection.file.hosts, bring)):
        collection.tell(line)
