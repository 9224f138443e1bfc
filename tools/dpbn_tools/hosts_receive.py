"""Receives the files that a host sends, as a tar archive."""
from __future__ import annotations

import contextlib
import json
import os
import shutil
import subprocess
import tarfile
import threading
from typing import Any, BinaryIO, Callable, Dict, IO, List, Optional, cast

from dpbn_tools.hosts_file import Host, HostsFile
from dpbn_tools.hosts_remote import NoAnswer, why_not, words_for
from dpbn_tools.log import BadLog
from dpbn_tools.whole_files import new_name

# what is done with each file of an archive: its name, its bytes, its size, and when it was touched, in nanoseconds
Take = Callable[[str, BinaryIO, int, int], None]
MAX_ERRORS = 65_536


def receive(file: HostsFile, host: Host, asked: Dict[str, Any], take: Take) -> None:
    """Has a host send what is asked for, and takes each file that comes."""
    command = words_for(file, host, ["send", host.folder])
    with subprocess.Popen(command, stdin=subprocess.PIPE, stdout=subprocess.PIPE, stderr=subprocess.PIPE) as process:
        errors: List[bytes] = []
        reader = threading.Thread(target=lambda: errors.append(cast(IO[bytes], process.stderr).read()[-MAX_ERRORS:]), daemon=True)
        reader.start()
        broken: Optional[Exception] = None
        try:
            give(cast(IO[bytes], process.stdin), json.dumps(asked).encode())
            with tarfile.open(fileobj=process.stdout, mode="r|", bufsize=1 << 20) as tar:
                for member in tar:
                    data = tar.extractfile(member)
                    if member.isreg() and data:
                        take(member.name, cast(BinaryIO, data), member.size, int(member.pax_headers.get("touched", "0")))
        except (tarfile.TarError, EOFError, BadLog, NoAnswer) as error:
            broken = error
        except BaseException:
            process.kill()
            raise
        cast(IO[bytes], process.stdout).close()
        status = process.wait()
        reader.join()
    if status > 0:
        raise NoAnswer(why_not(status, b"".join(errors)))
    if broken:
        raise NoAnswer(f"the answer broke off: {broken}")


def give(stream: IO[bytes], data: bytes) -> None:
    with contextlib.suppress(BrokenPipeError):
        stream.write(data)
    with contextlib.suppress(BrokenPipeError):
        stream.close()


def files_below(folder: str) -> Dict[str, int]:
    """The files below a folder by name, and when each was touched, in nanoseconds."""
    found: Dict[str, int] = {}
    for place, _, names in os.walk(folder):
        for name in names:
            path = os.path.join(place, name)
            found[os.path.relpath(path, folder)] = os.stat(path).st_mtime_ns
    return found


def put_touched(folder: str, name: str, data: BinaryIO, _size: int, touched: int) -> None:
    """Writes a file that comes into place whole, with the time at which it was touched at its host."""
    if any(part in ("", ".", "..") for part in name.split("/")):
        raise NoAnswer(f"it sends a file of the name {name!a}")
    path = f"{folder}/{name}"
    os.makedirs(os.path.dirname(path), exist_ok=True)
    new = new_name(path)
    try:
        with open(new, "xb") as file:
            shutil.copyfileobj(data, file)
        os.utime(new, ns=(touched, touched))
        os.rename(new, path)
    finally:
        if os.path.lexists(new):
            os.unlink(new)
