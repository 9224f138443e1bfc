"""Builds of earlier runs, by all that went into them, so that what didn't change isn't built again."""
from __future__ import annotations

import contextlib
import hashlib
import os
import re
import shutil
import tempfile
import time
from typing import Dict, List, Optional

from dpbn_tools.folders import Packages, packages_in
from dpbn_tools.log import Record
from dpbn_tools.paths import folder_name
from dpbn_tools.driver.command import helper, shell
from dpbn_tools.driver.build import Build
from dpbn_tools.driver.handin import files_of
from dpbn_tools.driver.store import Store, copy, digest_of
from dpbn_tools.driver.workfolder import sync

# how long the command that prints a unit's inputs may take, in seconds, and how many bytes it may print
LONGEST, MAX_INPUTS = 300, 16_777_216
SUM = re.compile(r"([0-9a-f]{64}) ([0-9]+) (.+)")


class NoInputs(Exception):
    """Why there is no key of a unit."""


class Reuse:
    """The folder of earlier builds: DIR/KEY has a folder `packages` and a file `sums`."""

    def __init__(self, folder: str, inputs: str, by_name: bool) -> None:
        self.folder, self.inputs, self.by_name = folder, inputs, by_name

    def key(self, build: Build, needed: List[Record], names: Dict[bytes, bytes], env: Dict[str, str], log: str) -> str:
        """SHA-256 over all that goes into the unit's packages. Packages that a build doesn't see don't count, nor does which run built
        those that it sees."""
        digest = hashlib.sha256(b"dpbn reuse 1\n")
        inputs = self.printed(env, log)
        digest.update(b"inputs %d\n" % len(inputs) + inputs)
        for path in build.job.packages:
            digest.update(b"package %s %s\n" % (path, names.get(path, b"")))
        for record in sorted(needed, key=lambda record: record.path):
            # by their names, too, since a package of other files may be built by a port that looks at it
            digest.update(b"needs %s %s %s\n" % (record.path, record.name, b"" if self.by_name else digest_of_files(record)))
        return digest.hexdigest()

    def printed(self, env: Dict[str, str], log: str) -> bytes:
        """What the command prints for the unit."""
        with tempfile.TemporaryFile() as out, open(log, "ab"):
            command = helper(shell(self.inputs), None, env, out=out.fileno())
            end = time.monotonic() + LONGEST
            while not command.poll():
                if time.monotonic() > end:
                    command.end()
                    raise NoInputs(f"--inputs took longer than {LONGEST} s")
                time.sleep(0.02)
            command.end()
            if not command.has_succeeded():
                raise NoInputs(f"--inputs ended with {command.result() or 'nothing'}")
            out.seek(0)
            text = out.read(MAX_INPUTS + 1)
        if len(text) > MAX_INPUTS:
            raise NoInputs(f"--inputs printed more than {MAX_INPUTS} bytes")
        return text

    def lay(self, key: str, out: str) -> bool:
        """Puts the packages that are kept under this key into `out`. Returns whether they are there, with the bytes that they had."""
        place = f"{self.folder}/{key}"
        if not os.path.isdir(place):
            return False
        sums = read_sums(f"{place}/sums")
        for path, files in packages_in(f"{place}/packages").items():
            folder = f"{out}/{folder_name(path.encode())}"
            os.makedirs(folder, exist_ok=True)
            for file in files:
                target = f"{folder}/{file.name}"
                os.makedirs(os.path.dirname(target), exist_ok=True)
                link_or_copy(file.place, target)
        laid = sums_of(packages_in(out))
        if laid != sums:
            raise NoInputs(f"{place} has other bytes than were kept there")
        return True

    def keep(self, key: str, packages: Packages, store: Store) -> None:
        """Keeps what was made under this key. Another host may do so at the same time: the first one counts."""
        if os.path.isdir(f"{self.folder}/{key}"):
            return
        os.makedirs(self.folder, exist_ok=True)
        new = tempfile.mkdtemp(prefix=".new.", dir=self.folder)
        try:
            os.chmod(new, 0o755)
            for path, files in packages.items():
                folder = f"{new}/packages/{folder_name(path.encode())}"
                os.makedirs(folder)
                for file in files:
                    name = file.name[:-len(".sha256")] if file.bytes is not None else file.name
                    os.makedirs(os.path.dirname(f"{folder}/{name}"), exist_ok=True)
                    source = store.path(file.digest) if file.bytes is not None and file.digest else file.place
                    link_or_copy(source, f"{folder}/{name}")
            with open(f"{new}/sums", "w", encoding="utf-8") as out:
                out.write("".join(f"{text}\n" for text in sums_of(packages_in(f"{new}/packages"))))
            sync_tree(new)
            os.rename(new, f"{self.folder}/{key}")
            sync(self.folder)
        except FileExistsError:
            pass
        except OSError:
            if not os.path.isdir(f"{self.folder}/{key}"):
                raise
        finally:
            shutil.rmtree(new, ignore_errors=True)

    def clear(self) -> None:
        """Removes what is only half there and was left so a day ago."""
        with contextlib.suppress(OSError):
            for name in os.listdir(self.folder):
                path = f"{self.folder}/{name}"
                if name.startswith(".new.") and time.time() - os.lstat(path).st_mtime > 86400:
                    shutil.rmtree(path, ignore_errors=True)


def digest_of_files(record: Record) -> bytes:
    """The digest of a package's files: their names and bytes, and nothing of who built them, or on what."""
    lines = [b"%s %s\n" % (digest.encode(), name) for name, digest in sorted(files_of(record).items())]
    return hashlib.sha256(b"".join(lines)).hexdigest().encode()


def link_or_copy(source: str, target: str) -> None:
    try:
        os.link(source, target)
    except OSError:
        copy(source, target)


def sums_of(packages: Packages) -> List[str]:
    lines = []
    for path, files in sorted(packages.items()):
        lines.append(f"{'0' * 64} 0 {folder_name(path.encode())}/")
        for file in files:
            digest, size = digest_of(file.place)
            lines.append(f"{digest} {size} {folder_name(path.encode())}/{file.name}")
    return lines


def read_sums(path: str) -> Optional[List[str]]:
    with open(path, encoding="utf-8") as file:
        lines = file.read().split("\n")[:-1]
    return lines if all(map(SUM.fullmatch, lines)) else None


def sync_tree(folder: str) -> None:
    for where, _, files in os.walk(folder):
        for name in files:
            number = os.open(os.path.join(where, name), os.O_RDONLY)
            try:
                os.fsync(number)
            finally:
                os.close(number)
        sync(where)
