"""The words with which the node and the driver of a host are started, and their environment."""
from __future__ import annotations

import os
import shlex
import sys
from typing import Dict, List

from dpbn_tools.host_folder import Folder
from dpbn_tools.hosts_file import Host, HostsFile

# how often a node prints how far it is, in seconds, unless the file says it
PROGRESS = "10"


def node_words(folder: Folder, file: HostsFile, host: Host, is_new: bool) -> List[str]:
    """dpbn(1)."""
    words = ["dpbn", "build", "--listing", folder.at("listing"), "--work", folder.work(host), "--dir", folder.path,
             "--members", str(len(file.hosts)), "--me", str(host.number), "--hosts", file.addresses(), "--key", folder.at("key"),
             "--weights", file.weights(), "--jobs", str(host.jobs)]
    if not has("--progress", file.node):
        words += ["--progress", PROGRESS]
    return words + file.node + ([] if is_new else ["--continue"])


def driver_words(folder: Folder, file: HostsFile, host: Host) -> List[str]:
    """build-jobs(1). Files that go by their digests come from the other hosts' stores unless the file says another way."""
    words = ["build-jobs", "-j", str(host.jobs), "--listing", folder.at("listing"), "--store", folder.store(host), *file.driver]
    if has("--digests", file.driver) and not has("--fetch", file.driver):
        words += ["--fetch", f"exec dpbn-host fetch {shlex.quote(folder.path)}"]
    if has("--copies", file.driver) and not has("--push", file.driver):
        words += ["--push", f"exec dpbn-host push {shlex.quote(folder.path)}"]
    return [*words, folder.work(host), folder.at(f"node-{host.number}.log"), "--", *file.build]


def has(option: str, words: List[str]) -> bool:
    return any(word == option or word.startswith(f"{option}=") for word in words)


def environment(folder: Folder) -> Dict[str, str]:
    """What programs of this host see: nothing of the connection by which they were started, and the programs next to this one."""
    found = {name: value for name, value in os.environ.items() if not name.startswith("SSH_")}
    own = os.path.dirname(os.path.abspath(sys.argv[0]))
    path = found.get("PATH", os.defpath).split(":")
    found["PATH"] = ":".join([own, *(it for it in path if it != own)])
    found["DPBN_FOLDER"] = folder.path
    return found
