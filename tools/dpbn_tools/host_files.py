"""What dpbn-hosts hands out to a host and gets from it."""
from __future__ import annotations

import contextlib
import io
import json
import os
import stat
import tarfile
from typing import Any, BinaryIO, Dict, Iterator, List, Tuple

from dpbn_tools import host_store
from dpbn_tools.host_folder import MAX_LISTING, BadFolder, Folder, digest_of, names_in, text_of
from dpbn_tools.log_copies import LogPart
from dpbn_tools.paths import short_name
from dpbn_tools.whole_files import put

# what is handed out, and which rights it has
HANDED_OUT = {"listing": 0o644, "key": 0o600, "name": 0o644, "hosts": 0o644}
# how much of a build's log goes into the report
TAIL = 65_536
MAX_JOB = 1 << 24


def framed(head: Dict[str, Any], files: Dict[str, bytes]) -> bytes:
    """What `take` reads: a line of JSON with the names and sizes, and then the files."""
    head = {**head, "files": [[name, len(data)] for name, data in files.items()]}
    return json.dumps(head).encode() + b"\n" + b"".join(files.values())


def take(folder: Folder, source: BinaryIO) -> None:
    """Takes what is handed out, unless something runs here."""
    head = json.loads(source.readline(1 << 20))
    if folder.holder("keeper") is not None and head["files"]:
        raise BadFolder(f"{folder.path}: it runs")
    os.makedirs(folder.path, mode=0o755, exist_ok=True)
    files: Dict[str, bytes] = {}
    for name, size in head["files"]:
        if name not in HANDED_OUT or size > MAX_LISTING:
            raise BadFolder(f"{name!a} isn't handed out")
        files[name] = source.read(size)
        if len(files[name]) < size:
            raise BadFolder(f"{name} isn't whole")
    for name in HANDED_OUT:
        if name in files:
            put(folder.at(name), files[name], HANDED_OUT[name])
    folder.add_begun(head["begun"])


def contents(folder: Folder) -> Dict[str, Any]:
    """What there is to be collected."""
    host = folder.host(folder.file())
    return {"log": os.path.exists(folder.at(f"node-{host.number}.log")), "store": host_store.sizes(folder.store(host)),
            "listing": digest_of(folder.at("listing"))}


def send(folder: Folder, source: BinaryIO, out: BinaryIO) -> None:
    """Writes what is asked for as a tar archive: the log from some place on, files of the store, or what a report needs."""
    asked = json.loads(source.read())
    host = folder.host(folder.file())
    with tarfile.open(fileobj=out, mode="w|", bufsize=1 << 20) as tar:
        if "log" in asked:
            with LogPart(folder.at(f"node-{host.number}.log"), asked["log"]["from"], asked["log"]["digest"]) as part:
                add(tar, f"log@{part.start}", part, part.size, 0)
        for digest in asked.get("store", []):
            path = f"{folder.store(host)}/{host_store.checked(digest)}"
            with open(path, "rb") as file:
                add(tar, digest, file, os.fstat(file.fileno()).st_size, 0)
        if "times" in asked:
            send_small(tar, "times", f"{folder.work(host)}/times", MAX_JOB)
        if "work" in asked:
            send_work(tar, folder.work(host), asked["work"])
        if "logs" in asked:
            send_logs(tar, f"{folder.work(host)}/logs", asked["logs"])


def add(tar: tarfile.TarFile, name: str, data: Any, size: int, touched: int) -> None:
    about = tarfile.TarInfo(name)
    about.size, about.mtime, about.mode = size, touched // 1_000_000_000, 0o644
    about.pax_headers = {"touched": str(touched)}
    tar.addfile(about, data)


# ---- what a report needs of the work folder

def small_files(work: str) -> Iterator[Tuple[str, str, int]]:
    """Files by their names in the work folder: the path of each, and how many of its last bytes go."""
    for part in ("jobs", "failed"):
        for name in names_in(f"{work}/{part}"):
            yield f"{part}/{name}", f"{work}/{part}/{name}", MAX_JOB
    for part in ("done", "begun"):
        for name in names_in(f"{work}/{part}"):
            yield f"{part}/{name}", f"{work}/{part}/{name}", 0
    for name in names_in(f"{work}/build"):
        for part in ("lock", "about", "status"):
            yield f"build/{name}/{part}", f"{work}/build/{name}/{part}", 4096
    for name in ("away", "stop", "times"):
        yield name, f"{work}/{name}", MAX_JOB
    for name in names_in(f"{work}/failed"):
        for log in logs_of(text_of(f"{work}/failed/{name}", 4096) or ""):
            yield f"logs/{log}", f"{work}/logs/{log}", TAIL


def logs_of(mark: str) -> List[str]:
    """The names that the log of a failed build may have: the one in its mark's second line, and that of its unit."""
    first, _, rest = mark.partition("\n")
    names = [os.path.basename(rest.partition("\n")[0])]
    unit, colon, _ = first.partition(": ")
    if colon and unit.isascii():
        names.append(f"{short_name(unit.encode())}.log")
    names = [name for name in names if name and not name.startswith(".")]
    return [place for name in names for place in (f"failed/{name}", name)]


def send_work(tar: tarfile.TarFile, work: str, have: Dict[str, int]) -> None:
    """Sends the files that aren't had as they are now, and before them the names of all."""
    found: Dict[str, Tuple[str, int, int]] = {}
    for name, path, most in small_files(work):
        try:
            about = os.lstat(path)
        except (FileNotFoundError, NotADirectoryError):
            continue
        if os.path.isfile(path):
            found[name] = path, about.st_mtime_ns, most
    names = json.dumps(sorted(found)).encode()
    add(tar, "names", io.BytesIO(names), len(names), 0)
    for name, (path, touched, most) in found.items():
        if have.get(name) != touched:
            send_small(tar, name, path, most)


def send_small(tar: tarfile.TarFile, name: str, path: str, most: int) -> None:
    """Sends the last bytes of a file, if it is there."""
    with contextlib.suppress(FileNotFoundError), open(path, "rb") as file:
        about = os.fstat(file.fileno())
        file.seek(max(0, about.st_size - most))
        data = file.read(most)
        add(tar, name, io.BytesIO(data), len(data), about.st_mtime_ns)


def send_logs(tar: tarfile.TarFile, folder: str, have: Dict[str, int]) -> None:
    """Sends the logs of builds that aren't had as they are now."""
    for place, _, names in os.walk(folder):
        for path in (f"{place}/{name}" for name in sorted(names)):
            name = os.path.relpath(path, folder)
            with contextlib.suppress(FileNotFoundError), open(path, "rb") as file:
                about = os.fstat(file.fileno())
                if stat.S_ISREG(about.st_mode) and have.get(name) != about.st_mtime_ns:
                    add(tar, name, file, about.st_size, about.st_mtime_ns)
