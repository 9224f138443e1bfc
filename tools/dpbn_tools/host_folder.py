"""The folder of a run on one host: what is in it, and what it says about the host's node and driver."""
from __future__ import annotations

import contextlib
import fcntl
import glob
import hashlib
import json
import os
import re
import time
from typing import Any, Dict, List, Optional

from dpbn_tools import hosts_file, run_key
from dpbn_tools.whole_files import put

NODE, DRIVER = "node", "driver"
LETTERS = re.compile(rb"^node [0-8]: (I=[0-9]+ B=[0-9]+ Q=[0-9]+ T=[0-9]+ !=[0-9]+)$", re.MULTILINE)
FAULT = re.compile(rb"^(?:dpbn|build-jobs): .*$", re.MULTILINE)
# how much of an output is looked at, from its end
TAIL = 65_536
MAX_LISTING = 1 << 28


class BadFolder(Exception):
    """Why nothing can be done with the folder."""


class Folder:
    """The folder. What `dpbn-hosts` handed out is in it under the names hosts, listing, key and name."""

    def __init__(self, path: str) -> None:
        self.path = os.path.abspath(path)

    def at(self, name: str) -> str:
        return f"{self.path}/{name}"

    def output(self, part: str) -> str:
        return self.at(f"{part}.out")

    # ---- what was handed out

    def file(self) -> hosts_file.HostsFile:
        try:
            return hosts_file.read(self.at("hosts"))
        except FileNotFoundError:
            raise BadFolder(f"{self.path} has no file `hosts`: start the run by dpbn-hosts") from None
        except hosts_file.BadFile as bad:
            raise BadFolder(str(bad)) from None

    def host(self, file: hosts_file.HostsFile) -> hosts_file.Host:
        """Which of the hosts this one is."""
        text = text_of(self.at("name")) or ""
        found = file.named(text.strip())
        if not found:
            raise BadFolder(f"{self.at('name')} doesn't have the name of a host of {self.at('hosts')}")
        return found

    def work(self, host: hosts_file.Host) -> str:
        """The work folder. A path of the file is from the user's home on, as it is for ssh."""
        return at_home(host.work) if host.work else self.at("work")

    def store(self, host: hosts_file.Host) -> str:
        return at_home(host.store) if host.store else self.at("store")

    # ---- what a node left

    def logs(self) -> List[str]:
        return sorted(glob.glob(f"{glob.escape(self.path)}/node-[0-8].log"))

    def has_begun(self) -> bool:
        """Whether a node ran here: it left a log or a run file."""
        return bool(self.logs() or glob.glob(f"{glob.escape(self.path)}/node-[0-8].run"))

    def run_file(self) -> Optional[Dict[str, str]]:
        """The lines of a run file by their first words; None if no run file exists."""
        for path in sorted(glob.glob(f"{glob.escape(self.path)}/node-[0-8].run")):
            lines = [line.partition(" ") for line in (text_of(path) or "").splitlines()]
            return {word: rest for word, _, rest in lines}
        return None

    def begun(self) -> List[str]:
        """The hosts that are known to have begun in this run."""
        return sorted(set((text_of(self.at("begun")) or "").split()))

    def add_begun(self, names: List[str]) -> None:
        known = self.begun()
        if set(names) - set(known):
            put(self.at("begun"), "".join(f"{name}\n" for name in sorted({*known, *names})).encode())

    # ---- what runs

    def holder(self, part: str) -> Optional[int]:
        """The process that holds a part's lock; 0 if it can't be named, None if nobody holds it."""
        return lock_holder(self.at(f"{part}.lock"))

    def since(self, part: str) -> Optional[float]:
        """When the process that holds a part's lock was started."""
        try:
            return os.stat(self.at(f"{part}.lock")).st_mtime
        except FileNotFoundError:
            return None

    def state(self) -> Dict[str, Any]:
        """What the keeper wrote last."""
        try:
            found = json.loads(text_of(self.at("state.json")) or "{}")
        except ValueError:
            return {}
        return found if isinstance(found, dict) else {}

    def letters(self) -> Optional[str]:
        """How many paths the node printed last by letter."""
        found = LETTERS.findall(tail_of(self.output(NODE)))
        return found[-1].decode() if found else None


def at_home(path: str) -> str:
    return os.path.join(os.path.expanduser("~"), path)


def text_of(path: str, most: int = 1 << 20) -> Optional[str]:
    """The text of a small file; None if it isn't there."""
    try:
        with open(path, "rb", opener=lambda name, how: os.open(name, how | os.O_NONBLOCK)) as file:
            return (file.read(most) or b"").decode("utf-8", "replace")
    except FileNotFoundError:
        return None


def tail_of(path: str, start: int = 0) -> bytes:
    """The last bytes of a file, from this place on at the earliest."""
    try:
        with open(path, "rb") as file:
            size = os.fstat(file.fileno()).st_size
            file.seek(max(start if start <= size else 0, size - TAIL))
            return file.read(TAIL)
    except FileNotFoundError:
        return b""


def digest_of(path: str) -> Optional[str]:
    digest = hashlib.sha256()
    try:
        with open(path, "rb") as file:
            for part in iter(lambda: file.read(1 << 20), b""):
                digest.update(part)
    except FileNotFoundError:
        return None
    return digest.hexdigest()


def lock_holder(path: str) -> Optional[int]:
    try:
        with open(path, "rb") as lock:
            try:
                fcntl.flock(lock, fcntl.LOCK_SH | fcntl.LOCK_NB)
            except BlockingIOError:
                text = lock.read(20).strip()
                return int(text) if text.isdigit() else 0
    except FileNotFoundError:
        pass
    return None


def names_in(folder: str) -> List[str]:
    """The names in a folder but those that begin with a dot; none if it isn't there."""
    try:
        return sorted(name for name in os.listdir(folder) if not name.startswith("."))
    except (FileNotFoundError, NotADirectoryError):
        return []


def key_found(folder: Folder) -> Optional[str]:
    """The fingerprint of the key that was handed out."""
    try:
        return run_key.fingerprint(run_key.read(folder.at("key")))
    except FileNotFoundError:
        return None
    except run_key.BadKey as bad:
        raise BadFolder(str(bad)) from None


def look(folder: Folder) -> Dict[str, Any]:
    """All that dpbn-hosts wants to know of a host, in JSON's types."""
    found: Dict[str, Any] = {
        "path": folder.path, "name": (text_of(folder.at("name")) or "").strip() or None,
        "hosts": text_of(folder.at("hosts"), hosts_file.MAX_BYTES), "listing": digest_of(folder.at("listing")), "key": key_found(folder),
        "run": folder.run_file(), "has_begun": folder.has_begun(), "begun": folder.begun(), "keeper": folder.holder("keeper"),
        "node": folder.holder(NODE), "driver": folder.holder(DRIVER), "state": folder.state(), "letters": folder.letters(),
        "now": time.time(), "since": {part: folder.since(part) for part in (NODE, DRIVER)}}
    with contextlib.suppress(BadFolder):
        host = folder.host(folder.file())
        found.update(look_at_work(folder.work(host), folder.path))
    return found


def look_at_work(work: str, other: str) -> Dict[str, Any]:
    """What the work folder shows."""
    begun = names_in(f"{work}/begun") if os.path.isdir(f"{work}/begun") else names_in(f"{work}/build")
    answered = {*names_in(f"{work}/done"), *names_in(f"{work}/failed")}
    space = os.statvfs(work if os.path.isdir(work) else other)
    return {"posted": len(set(names_in(f"{work}/jobs")) - answered), "builds": len(begun), "failed": len(names_in(f"{work}/failed")),
            "stop": os.path.lexists(f"{work}/stop"), "away": text_of(f"{work}/away", 1000), "free": space.f_bavail * space.f_frsize}
