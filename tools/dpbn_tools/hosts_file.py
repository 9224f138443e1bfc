"""The file that dpbn-hosts(1) reads: the hosts of a bulk build, and what all of them have in common."""
from __future__ import annotations

import os
import re
import shlex
from typing import Callable, Dict, List, NamedTuple, Optional, Tuple

MAX_HOSTS, MAX_JOBS, MAX_WEIGHT, MAX_BYTES = 9, 64, 100, 1 << 20
HOST_NAME = re.compile("[A-Za-z0-9][A-Za-z0-9._-]{0,62}")
TARGET = re.compile("[A-Za-z0-9_][!-~]{0,254}")
ADDRESS = re.compile(r"([0-9]{1,3})\.([0-9]{1,3})\.([0-9]{1,3})\.([0-9]{1,3}):([0-9]{1,5})")
SETTINGS = ("jobs", "weight", "dir", "work", "store", "bin", "ssh")
# the words of dpbn(1) and build-jobs(1) that follow from the rest of the file
NODE_WORDS = {"--listing", "--work", "--dir", "--members", "--me", "--base", "--hosts", "--key", "--unsealed", "--continue", "--weights",
              "--jobs"}
DRIVER_WORDS = {"-j", "--listing", "--store", "--logs", "--"}
SSH = ["ssh", "-o", "BatchMode=yes", "-o", "ConnectTimeout=15", "-o", "ServerAliveInterval=15"]
# in place of ssh: the commands run on this host
HERE = "-"


class BadFile(Exception):
    """What is wrong with the file, and in which line if it is in one."""

    def __init__(self, path: str, line: int, what: str) -> None:
        super().__init__(f"{path}:{line}: {what}" if line else f"{path}: {what}")


class Host(NamedTuple):
    """A member of the run, and where its things are. A folder that isn't absolute is below the home of the user there."""

    name: str
    number: int
    address: str
    jobs: int
    weight: int
    folder: str
    # in the folder of the run if they aren't said
    work: Optional[str]
    store: Optional[str]
    programs: Optional[str]
    target: str
    line: int


class HostsFile(NamedTuple):
    """The whole file."""

    path: str
    text: bytes
    listing: str
    key: str
    build: List[str]
    node: List[str]
    driver: List[str]
    ssh: List[str]
    hosts: List[Host]

    def weights(self) -> str:
        return ",".join(str(host.weight) for host in self.hosts)

    def addresses(self) -> str:
        return ",".join(host.address for host in self.hosts)

    def named(self, name: str) -> Optional[Host]:
        return next((host for host in self.hosts if host.name == name), None)

    def is_single(self) -> bool:
        return "--single" in self.node


class Draft:
    """What was read so far."""

    def __init__(self, path: str) -> None:
        self.path, self.line = path, 0
        self.once: Dict[str, List[str]] = {}
        self.node: List[str] = []
        self.driver: List[str] = []
        self.hosts: List[Tuple[int, str, str, Dict[str, str]]] = []

    def refuse(self, what: str, line: Optional[int] = None) -> BadFile:
        return BadFile(self.path, self.line if line is None else line, what)

    # ---- lines

    def read_line(self, text: str) -> None:
        try:
            words = shlex.split(text)
        except ValueError as error:
            raise self.refuse(f"a quotation isn't closed: {error}") from None
        word, values = words[0], words[1:]
        readers: Dict[str, Callable[[List[str]], None]] = {"host": self.read_host, "node": self.read_node, "driver": self.read_driver}
        if word in readers:
            readers[word](values)
        elif word in ("listing", "key", "dir", "work", "store", "bin", "jobs", "build", "ssh"):
            self.read_once(word, values)
        else:
            raise self.refuse(f"{word!a} isn't a word of this file")

    def read_once(self, word: str, values: List[str]) -> None:
        if word in self.once:
            raise self.refuse(f"{word} is there a second time")
        if not values or not values[0]:
            raise self.refuse(f"{word} needs a value")
        if len(values) > 1 and word not in ("build", "ssh"):
            raise self.refuse(f"{word} has more than one value")
        if word == "jobs":
            self.number("jobs", values[0], MAX_JOBS)
        self.once[word] = values

    def read_node(self, values: List[str]) -> None:
        self.node += self.options("node", values, NODE_WORDS)

    def read_driver(self, values: List[str]) -> None:
        self.driver += self.options("driver", values, DRIVER_WORDS)

    def options(self, word: str, values: List[str], own: "set[str]") -> List[str]:
        if not values:
            raise self.refuse(f"{word} needs a value")
        for value in values:
            if value.partition("=")[0] in own or re.fullmatch("-j[0-9]+", value):
                raise self.refuse(f"{value.partition('=')[0]} isn't for {word}: it follows from the rest of the file")
        return values

    def read_host(self, values: List[str]) -> None:
        if len(values) < 2:
            raise self.refuse("a host needs a name and an address, as in `host oak 192.0.2.10:7000`")
        name, address, *settings = values
        if not HOST_NAME.fullmatch(name):
            raise self.refuse(f"{name!a} isn't a name of a host")
        self.check_address(name, address)
        if len(self.hosts) == MAX_HOSTS:
            raise self.refuse(f"there are more than {MAX_HOSTS} hosts")
        for line, other, its_address, _ in self.hosts:
            if other == name:
                raise self.refuse(f"the host {name} is in line {line} already")
            if its_address == address:
                raise self.refuse(f"host {name}: {address} is the address of {other}, in line {line}")
        self.hosts.append((self.line, name, address, self.settings(name, settings)))

    def check_address(self, name: str, address: str) -> None:
        found = ADDRESS.fullmatch(address)
        numbers = [int(number) for number in found.groups()] if found else []
        is_plain = found and ".".join(map(str, numbers[:4])) + f":{numbers[4]}" == address
        if not is_plain or max(numbers[:4]) > 255 or not any(numbers[:4]) or not 0 < numbers[4] < 65_536:
            raise self.refuse(f"host {name}: {address!a} isn't an IPv4 address with a port, as in 192.0.2.10:7000")

    def settings(self, name: str, words: List[str]) -> Dict[str, str]:
        found: Dict[str, str] = {}
        for word in words:
            setting, equal, value = word.partition("=")
            if not equal or setting not in SETTINGS:
                raise self.refuse(f"host {name}: {word!a} isn't a setting of a host: {', '.join(f'{it}=' for it in SETTINGS)}")
            if setting in found:
                raise self.refuse(f"host {name}: {setting}= is there a second time")
            if not value:
                raise self.refuse(f"host {name}: {setting}= has no value")
            if setting in ("jobs", "weight"):
                self.number(f"host {name}: {setting}", value, MAX_JOBS if setting == "jobs" else MAX_WEIGHT)
            if setting == "ssh" and value != HERE and not TARGET.fullmatch(value):
                raise self.refuse(f"host {name}: {value!a} is nothing that ssh can reach")
            found[setting] = value
        return found

    def number(self, what: str, text: str, most: int) -> None:
        if not re.fullmatch("[0-9]{1,6}", text) or not 1 <= int(text) <= most:
            raise self.refuse(f"{what}: {text!a} isn't one of 1 to {most}")

    # ---- all of it

    def finished(self, text: bytes) -> HostsFile:
        for word in ("listing", "build"):
            if word not in self.once:
                raise self.refuse(f"there is no line `{word}`", 0)
        if not self.hosts:
            raise self.refuse("there is no line `host`", 0)
        beside = os.path.dirname(os.path.abspath(self.path))
        listing = os.path.join(beside, self.once["listing"][0])
        key = os.path.join(beside, self.once.get("key", [f"{os.path.basename(self.path)}.key"])[0])
        hosts = [self.host(number, *parts) for number, parts in enumerate(self.hosts)]
        return HostsFile(self.path, text, listing, key, self.once["build"], self.node, self.driver, self.once.get("ssh", SSH), hosts)

    def host(self, number: int, line: int, name: str, address: str, settings: Dict[str, str]) -> Host:
        common = {word: values[0] for word, values in self.once.items() if word in SETTINGS and word != "ssh"}
        its = {**common, **settings}
        if "dir" not in its:
            raise self.refuse(f"host {name} has no folder: there is neither `dir=` nor a line `dir`", line)
        folder = its["dir"]
        for word in ("dir", "work", "store", "bin"):
            if re.search("[\x00-\x1f\x7f]", its.get(word, "")):
                raise self.refuse(f"host {name}: {word} has a control character", line)
        jobs, weight = int(its.get("jobs", "1")), int(its.get("weight", "1"))
        target = settings.get("ssh", name)
        return Host(name, number, address, jobs, weight, folder, its.get("work"), its.get("store"), its.get("bin"), target, line)


def parsed(path: str, text: bytes) -> HostsFile:
    draft = Draft(path)
    if len(text) > MAX_BYTES:
        raise draft.refuse(f"it has more than {MAX_BYTES} bytes")
    for number, raw in enumerate(text.split(b"\n"), 1):
        draft.line = number
        try:
            line = raw.decode()
        except UnicodeDecodeError:
            raise draft.refuse("it has bytes that aren't UTF-8") from None
        if "\0" in line or "\r" in line:
            raise draft.refuse("it has a control character")
        if line.strip() and not line.lstrip().startswith("#"):
            draft.read_line(line)
    return draft.finished(text)


def read(path: str) -> HostsFile:
    with open(path, "rb") as file:
        return parsed(path, file.read(MAX_BYTES + 1))
