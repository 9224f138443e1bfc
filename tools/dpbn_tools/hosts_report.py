"""Keeps copies of what the hosts' nodes and drivers leave, for dpbn-report(1)."""
from __future__ import annotations

import contextlib
import json
import os
import subprocess
import sys
import time
from typing import BinaryIO, List

from dpbn_tools.hosts_collect import beside, bring_log, log_path
from dpbn_tools.hosts_file import Host, HostsFile
from dpbn_tools.hosts_receive import files_below, put_touched, receive
from dpbn_tools.hosts_remote import NoAnswer
from dpbn_tools.hosts_start import on_all

PAUSE = 0.2


def work_path(folder: str, host: Host) -> str:
    return f"{folder}/work/{host.name}"


def bring_work(file: HostsFile, host: Host, folder: str) -> None:
    """Makes the copy of a work folder what the folder is now, as far as a report reads it."""
    copy = work_path(folder, host)
    for part in ("jobs", "done", "failed", "begun", "build", "logs"):
        os.makedirs(f"{copy}/{part}", exist_ok=True)
    have = files_below(copy)

    def take(name: str, data: BinaryIO, size: int, touched: int) -> None:
        if name == "names":
            remove_all(copy, set(have) - set(json.loads(data.read())))
        else:
            put_touched(copy, name, data, size, touched)

    receive(file, host, {"work": have}, take)


def remove_all(folder: str, names: "set[str]") -> None:
    for name in names:
        os.unlink(f"{folder}/{name}")
        # the folder of a build that is over goes with its lock
        with contextlib.suppress(OSError):
            if name.startswith("build/"):
                os.rmdir(os.path.dirname(f"{folder}/{name}"))


def bring_all(file: HostsFile, folder: str) -> List[str]:
    """Brings all copies up to date. Returns lines on hosts of which they are as they were."""
    def bring(host: Host) -> str:
        try:
            bring_work(file, host, folder)
            bring_log(file, host, folder)
            return ""
        except (NoAnswer, OSError) as error:
            return f"{host.name}: {error}"

    return list(filter(None, on_all(file.hosts, bring)))


def words(file: HostsFile, folder: str, more: List[str]) -> List[str]:
    """dpbn-report(1)."""
    found = [beside("dpbn-report"), "--listing", file.listing, "--names", ",".join(host.name for host in file.hosts)]
    if file.is_single():
        found.append("--single")
    for host in file.hosts:
        found += ["--log", log_path(folder, host), "--work", work_path(folder, host)]
    if not any(word == "--out" or word.startswith("--out=") for word in more):
        found += ["--out", f"{folder}/report"]
    return found + more


class Teller:
    """Says what is wrong with a host once, as long as it is the same."""

    def __init__(self) -> None:
        self.lines: List[str] = []

    def tell(self, lines: List[str]) -> None:
        for line in lines:
            if line not in self.lines:
                print(f"dpbn-hosts: {line}", file=sys.stderr, flush=True)
        self.lines = lines


def report(file: HostsFile, folder: str, more: List[str], seconds: int) -> int:
    """Runs dpbn-report(1) on copies, once, or as long as it runs, with copies of each this many seconds."""
    os.makedirs(folder, exist_ok=True)
    teller = Teller()
    teller.tell(bring_all(file, folder))
    process = subprocess.Popen(words(file, folder, more))
    try:
        due = time.monotonic() + seconds
        while process.poll() is None:
            time.sleep(PAUSE)
            if time.monotonic() >= due:
                teller.tell(bring_all(file, folder))
                due = time.monotonic() + seconds
    except BaseException:
        process.terminate()
        process.wait()
        raise
    return process.returncode if process.returncode >= 0 else 128 - process.returncode
