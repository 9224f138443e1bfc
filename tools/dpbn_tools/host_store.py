"""The large files of a host, each under its SHA-256, and how they go from host to host."""
from __future__ import annotations

import hashlib
import os
import re
import shutil
import subprocess
import sys
from typing import BinaryIO, Dict, List

from dpbn_tools.host_folder import BadFolder, Folder
from dpbn_tools.hosts_file import Host, HostsFile
from dpbn_tools.hosts_remote import words_for
from dpbn_tools.whole_files import new_name, sync

DIGEST = re.compile("[0-9a-f]{64}")


def sizes(store: str) -> Dict[str, int]:
    """The files of the store, and their sizes."""
    found = {}
    try:
        with os.scandir(store) as entries:
            for entry in entries:
                if DIGEST.fullmatch(entry.name) and entry.is_file(follow_symlinks=False):
                    found[entry.name] = entry.stat(follow_symlinks=False).st_size
    except FileNotFoundError:
        pass
    return found


def checked(digest: str) -> str:
    if not DIGEST.fullmatch(digest):
        raise BadFolder(f"{digest!a} isn't a SHA-256")
    return digest


def give(store: str, digest: str, out: BinaryIO) -> None:
    """Writes a file of the store to the stream."""
    with open(f"{store}/{checked(digest)}", "rb") as file:
        shutil.copyfileobj(file, out, 1 << 20)
    out.flush()


def keep(store: str, digest: str, source: BinaryIO) -> None:
    """Takes a file into the store, if it has this digest."""
    os.makedirs(store, mode=0o755, exist_ok=True)
    path = f"{store}/{checked(digest)}"
    new = new_name(path)
    try:
        with open(os.open(new, os.O_WRONLY | os.O_CREAT | os.O_EXCL, 0o444), "wb") as file:
            copy_whole(source, file, digest)
            os.fsync(file.fileno())
        os.rename(new, path)
    finally:
        if os.path.lexists(new):
            os.unlink(new)
    sync(store)


def copy_whole(source: BinaryIO, target: BinaryIO, digest: str) -> None:
    reckoned = hashlib.sha256()
    for part in iter(lambda: source.read(1 << 20), b""):
        reckoned.update(part)
        target.write(part)
    target.flush()
    if reckoned.hexdigest() != digest:
        raise BadFolder(f"the file that came doesn't have the SHA-256 {digest}")


def other(file: HostsFile, number: str) -> Host:
    if not number.isdigit() or int(number) >= len(file.hosts):
        raise BadFolder(f"there is no host {number!a} in {file.path}")
    return file.hosts[int(number)]


def variable(name: str) -> str:
    if name not in os.environ:
        raise BadFolder(f"{name} isn't in the environment: build-jobs(1) runs this")
    return os.environ[name]


def fetch(folder: Folder) -> int:
    """Gets a file that a driver asks for, of the store of HOST, into TARGET."""
    host, digest = other(folder.file(), variable("HOST")), checked(variable("SHA256"))
    with open(variable("TARGET"), "wb") as target:
        return run(words_for(folder.file(), host, ["give", host.folder, digest]), subprocess.DEVNULL, target)


def push(folder: Folder) -> int:
    """Brings a file of a driver, SOURCE, into the store of HOST."""
    host, digest = other(folder.file(), variable("HOST")), checked(variable("SHA256"))
    with open(variable("SOURCE"), "rb") as source:
        return run(words_for(folder.file(), host, ["keep", host.folder, digest]), source, sys.stderr)


def run(words: List[str], source: object, target: object) -> int:
    return subprocess.run(words, stdin=source, stdout=target, check=False).returncode  # type: ignore[call-overload, no-any-return]
