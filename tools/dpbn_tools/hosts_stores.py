"""Brings large files from the stores of the hosts into one on this host."""
from __future__ import annotations

import hashlib
import os
import threading
from typing import Any, BinaryIO, Callable, Dict, List, Tuple

from dpbn_tools.host_store import DIGEST
from dpbn_tools.hosts_file import HostsFile
from dpbn_tools.hosts_receive import receive
from dpbn_tools.hosts_remote import NoAnswer
from dpbn_tools.whole_files import new_name, sync


class Store:
    """The large files on this host, each under its SHA-256."""

    def __init__(self, path: str) -> None:
        self.path = path
        os.makedirs(path, exist_ok=True)

    def missing(self, wanted: Dict[str, int]) -> List[str]:
        return sorted(digest for digest, size in wanted.items() if not self.has(digest, size))

    def has(self, digest: str, size: int) -> bool:
        try:
            return os.path.getsize(f"{self.path}/{digest}") == size
        except FileNotFoundError:
            return False

    def take(self, name: str, data: BinaryIO, _size: int, _touched: int) -> None:
        """Takes a file if it has the digest of its name; another one is passed over, and asked for at another host."""
        if not DIGEST.fullmatch(name):
            raise NoAnswer(f"it sends {name!a} in place of a large file")
        path = f"{self.path}/{name}"
        new, digest = new_name(path), hashlib.sha256()
        try:
            with open(new, "xb") as file:
                for part in iter(lambda: data.read(1 << 20), b""):
                    digest.update(part)
                    file.write(part)
                file.flush()
                os.fsync(file.fileno())
            if digest.hexdigest() == name:
                os.chmod(new, 0o444)
                os.rename(new, path)
        finally:
            if os.path.lexists(new):
                os.unlink(new)


class Holders:
    """Which hosts have which large files, and how much was asked of each."""

    def __init__(self, stores: Dict[str, Dict[str, int]]) -> None:
        self.stores, self.load = stores, dict.fromkeys(stores, 0)

    def shares(self, digests: List[str], sizes: Dict[str, int]) -> Dict[str, List[str]]:
        """Which files each host is asked for: one that has the file, and that is asked for least so far. It isn't asked a second time."""
        shares: Dict[str, List[str]] = {}
        for digest in digests:
            names = [name for name, store in self.stores.items() if store.get(digest) == sizes[digest]]
            if names:
                name = min(names, key=lambda it: self.load[it])
                self.load[name] += sizes[digest]
                del self.stores[name][digest]
                shares.setdefault(name, []).append(digest)
        return shares


def bring_large(file: HostsFile, store: Store, wanted: Dict[str, int], stores: Dict[str, Dict[str, int]]) -> List[str]:
    """Brings the large files from whoever has them. Returns lines on what went wrong."""
    lines: List[str] = []
    holders = Holders(stores)

    def bring(share: Tuple[str, List[str]]) -> None:
        name, digests = share
        host = file.named(name)
        assert host
        try:
            receive(file, host, {"store": digests}, store.take)
        except (NoAnswer, OSError) as error:
            lines.append(f"{name}: {error}")

    while True:
        shares = holders.shares(store.missing(wanted), wanted)
        if not shares:
            break
        run_all(list(shares.items()), bring)
    sync(store.path)
    missing = store.missing(wanted)
    if missing:
        lines.append(f"{len(missing)} large files are on no host that answered, the first: {missing[0]}")
    return lines


def run_all(items: List[Any], call: Callable[[Any], None]) -> None:
    threads = [threading.Thread(target=call, args=(item,)) for item in items]
    for thread in threads:
        thread.start()
    for thread in threads:
        thread.join()
