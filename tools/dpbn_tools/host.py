"""The program dpbn-host(1): the node and the driver of one host."""
from __future__ import annotations

import argparse
import json
import os
import subprocess
import sys
import time
from typing import Callable, Dict, List, Optional, Sequence

from dpbn_tools import host_files, host_store, hosts_file, run_key
from dpbn_tools.host_folder import DRIVER, NODE, BadFolder, Folder, look, names_in
from dpbn_tools.host_keeper import DRIVER_ENDS, NODE_ENDS, end_process, keep
from dpbn_tools.hosts_status import line_of
from dpbn_tools.log import BadLog
from dpbn_tools.version import add_version
from dpbn_tools.whole_files import put

# how long a start is watched, in seconds
STARTS = 10


def main() -> None:
    asked = options()
    os.umask(0o022)
    try:
        sys.exit(COMMANDS[asked.command](asked, Folder(asked.folder)))
    except (BadFolder, BadLog, hosts_file.BadFile, run_key.BadKey, OSError) as bad:
        sys.exit(f"dpbn-host: {bad}")
    except (KeyError, TypeError, ValueError) as error:
        sys.exit(f"dpbn-host: dpbn-hosts of another release asks for this: {error!r}")


def options(given: Optional[Sequence[str]] = None) -> argparse.Namespace:
    words = argparse.ArgumentParser(prog="dpbn-host", description="Runs the node and the driver of one host.", allow_abbrev=False)
    add_version(words)
    words.add_argument("command", metavar="COMMAND", choices=sorted(COMMANDS), help=", ".join(COMMANDS))
    words.add_argument("folder", metavar="DIR", help="the folder of the run on this host")
    words.add_argument("what", metavar="WHAT", nargs="?", help="a SHA-256 for give and keep, a number for name")
    words.add_argument("--new", action="store_true", help="this host never ran in this run")
    words.add_argument("--only", metavar="PART", choices=(NODE, DRIVER), help="run only this one of node and driver")
    asked = words.parse_args(given)
    if (asked.what is not None) != (asked.command in ("give", "keep", "name")):
        words.error(f"{asked.command} takes {'no WHAT' if asked.what is not None else 'a WHAT'}")
    return asked


# ---- run and start

def run(asked: argparse.Namespace, folder: Folder) -> int:
    return keep(folder, asked.only, asked.new)


def start(asked: argparse.Namespace, folder: Folder) -> int:
    """Starts the keeper in the background, and waits until it has started what it keeps."""
    folder.host(folder.file())
    if folder.holder("keeper") is not None:
        raise BadFolder(f"{folder.path}: it runs already")
    words = [sys.executable, os.path.abspath(sys.argv[0]), "run", folder.path, *(["--new"] if asked.new else []),
             *(["--only", asked.only] if asked.only else [])]
    with open(folder.output("keeper"), "ab") as out:
        process = subprocess.Popen(words, cwd=folder.path, stdin=subprocess.DEVNULL, stdout=out, stderr=out, start_new_session=True)
    parts = [asked.only] if asked.only else [NODE, DRIVER]
    end = time.monotonic() + STARTS
    while time.monotonic() < end and process.poll() is None:
        state = folder.state()
        if state.get("pid") == process.pid and all(has_settled(folder, state, part) for part in parts):
            break
        time.sleep(0.1)
    print(line_of(look(folder)))
    return 0


def has_settled(folder: Folder, state: Dict[str, Dict[str, object]], part: str) -> bool:
    """Whether the part has run for a second, or has ended."""
    since = folder.since(part)
    return bool(state.get(part, {}).get("end")) or since is not None and since < time.time() - 1 and folder.holder(part) is not None


def stop(_: argparse.Namespace, folder: Folder) -> int:
    """Ends the keeper, which ends what it keeps; and what an earlier keeper left."""
    for part, seconds in (("keeper", DRIVER_ENDS + NODE_ENDS + 20), (DRIVER, DRIVER_ENDS), (NODE, NODE_ENDS)):
        pid = folder.holder(part)
        if pid is not None and not end_process(pid, seconds, lambda part=part: folder.holder(part) is not None):  # type: ignore[misc]
            raise BadFolder(f"{folder.path}: the {part} doesn't end")
    print(line_of(look(folder)))
    return 0


# ---- what the driver and the node look at

def drain(_: argparse.Namespace, folder: Folder) -> int:
    work = folder.work(folder.host(folder.file()))
    os.makedirs(work, mode=0o755, exist_ok=True)
    put(f"{work}/stop", f"drained {time.strftime('%F %T')}\n".encode())
    print(line_of(look(folder)))
    return 0


def resume(_: argparse.Namespace, folder: Folder) -> int:
    remove([f"{folder.work(folder.host(folder.file()))}/stop"])
    print(line_of(look(folder)))
    return 0


def retry(_: argparse.Namespace, folder: Folder) -> int:
    """Has all built again that failed here."""
    failed = f"{folder.work(folder.host(folder.file()))}/failed"
    marks = names_in(failed)
    remove([f"{failed}/{name}" for name in marks])
    print(f"failed builds that are tried again: {len(marks)}")
    return 0


def remove(paths: List[str]) -> None:
    for path in paths:
        try:
            os.unlink(path)
        except FileNotFoundError:
            pass


def status(_: argparse.Namespace, folder: Folder) -> int:
    folder.host(folder.file())
    print(line_of(look(folder)))
    return 0


# ---- for dpbn-hosts and other hosts

def tell(_: argparse.Namespace, folder: Folder) -> int:
    print(json.dumps(look(folder)))
    return 0


def take(_: argparse.Namespace, folder: Folder) -> int:
    host_files.take(folder, sys.stdin.buffer)
    return 0


def contents(_: argparse.Namespace, folder: Folder) -> int:
    print(json.dumps(host_files.contents(folder)))
    return 0


def send(_: argparse.Namespace, folder: Folder) -> int:
    host_files.send(folder, sys.stdin.buffer, sys.stdout.buffer)
    return 0


def give(asked: argparse.Namespace, folder: Folder) -> int:
    host_store.give(folder.store(folder.host(folder.file())), asked.what, sys.stdout.buffer)
    return 0


def keep_file(asked: argparse.Namespace, folder: Folder) -> int:
    host_store.keep(folder.store(folder.host(folder.file())), asked.what, sys.stdin.buffer)
    return 0


def fetch(_: argparse.Namespace, folder: Folder) -> int:
    return host_store.fetch(folder)


def push(_: argparse.Namespace, folder: Folder) -> int:
    return host_store.push(folder)


def name(asked: argparse.Namespace, folder: Folder) -> int:
    print(host_store.other(folder.file(), asked.what).name)
    return 0


COMMANDS: Dict[str, Callable[[argparse.Namespace, Folder], int]] = {
    "run": run, "start": start, "stop": stop, "status": status, "drain": drain, "resume": resume, "retry": retry, "name": name,
    "fetch": fetch, "push": push, "give": give, "keep": keep_file, "look": tell, "take": take, "contents": contents, "send": send}
