"""How a run is started on its hosts: what is refused, the run's key, and what is handed out."""
from __future__ import annotations

import contextlib
import hashlib
import os
from concurrent.futures import ThreadPoolExecutor
from typing import Any, Callable, Dict, List, NamedTuple, Optional, TypeVar

from dpbn_tools import hosts_file, run_key
from dpbn_tools.host_files import framed
from dpbn_tools.hosts_file import Host, HostsFile
from dpbn_tools.hosts_remote import NoAnswer, ask, look

Result = TypeVar("Result")


class Refused(Exception):
    """Why nothing is done, in lines."""


class Answered(NamedTuple):
    """What a host said, or why it said nothing."""

    found: Optional[Dict[str, Any]]
    why: str = ""


def on_all(hosts: List[Host], call: Callable[[Host], Result]) -> List[Result]:
    """Calls it for all hosts at a time. Returns the results in their order."""
    with ThreadPoolExecutor(max(1, len(hosts))) as pool:
        return list(pool.map(call, hosts))


def ask_all(file: HostsFile, hosts: List[Host]) -> Dict[str, Answered]:
    def asked(host: Host) -> Answered:
        try:
            return Answered(look(file, host))
        except NoAnswer as no:
            return Answered(None, str(no))

    return {host.name: answer for host, answer in zip(hosts, on_all(hosts, asked))}


# ---- what is refused

def listing_text(file: HostsFile) -> bytes:
    try:
        with open(file.listing, "rb") as listing:
            return listing.read()
    except OSError as error:
        raise Refused(f"the listing can't be read: {error}") from None


def key_here(file: HostsFile) -> Optional[bytes]:
    try:
        return run_key.read(file.key)
    except FileNotFoundError:
        return None
    except (run_key.BadKey, OSError) as error:
        raise Refused(f"the key can't be used: {error}") from None


def earlier_file(found: Dict[str, Any]) -> Optional[HostsFile]:
    """The file that was handed out to the host, if it is one."""
    try:
        return hosts_file.parsed("hosts", (found.get("hosts") or "").encode())
    except hosts_file.BadFile:
        return None


def others(host: Host, file: HostsFile, found: Dict[str, Any], listing: str, key: Optional[str]) -> List[str]:
    """What is another one on the host than here: it belongs to another run."""
    where, run, earlier = f"{host.name}: {found['path']} has", found.get("run") or {}, earlier_file(found)
    lines = []
    if found["listing"] not in (None, listing):
        lines.append(f"{where} another listing: its SHA-256 is {found['listing'][:16]}.., not {listing[:16]}..")
    keys = {it for it in (found["key"], run.get("key")) if it}
    if key and keys - {key}:
        lines.append(f"{where} another key: its fingerprint is {min(keys - {key})}, not {key}")
    weights = {it for it in (run.get("weights"), earlier.weights() if earlier else None) if it}
    if weights - {file.weights()}:
        lines.append(f"{where} other weights: {min(weights - {file.weights()})}, not {file.weights()}")
    numbers = {it for it in (run.get("member"), number_of(earlier, found["name"])) if it is not None}
    if numbers - {str(host.number)}:
        lines.append(f"{where} another number: member {min(numbers - {str(host.number)})}, not {host.number}")
    if found["name"] not in (None, host.name):
        lines.append(f"{where} another name: {found['name']}")
    return lines


def number_of(file: Optional[HostsFile], name: Optional[str]) -> Optional[str]:
    host = file.named(name) if file and name else None
    return str(host.number) if host else None


def check(file: HostsFile, answers: Dict[str, Answered], listing: bytes, key: Optional[bytes]) -> None:
    digest = hashlib.sha256(listing).hexdigest()
    mark = run_key.fingerprint(key) if key else None
    lines: List[str] = []
    for host in file.hosts:
        found = answers[host.name].found
        if found:
            lines += others(host, file, found, digest, mark)
            if not key and found["key"]:
                lines.append(f"{host.name} has the run's key, and it isn't here: copy {found['path']}/key from there to {file.key}")
    if not key:
        lines += [f"{host.name}: {answers[host.name].why}; the run's key is made once all hosts answer, as one may have it already; "
                  f"or make it by `dpbn key {file.key}'" for host in file.hosts if not answers[host.name].found]
    if lines:
        raise Refused("\n".join(lines))


# ---- what is done

class Starter:
    """Starts hosts of a run."""

    def __init__(self, file: HostsFile, new: List[str]) -> None:
        self.file, self.new = file, new
        self.listing = listing_text(file)
        self.answers = ask_all(file, file.hosts)
        key = key_here(file)
        check(file, self.answers, self.listing, key)
        self.key = key or self.made_key()

    def made_key(self) -> bytes:
        try:
            return run_key.make(self.file.key)
        except OSError as error:
            raise Refused(f"the key can't be made: {error}") from None

    def begun(self) -> List[str]:
        """The hosts that are known to have begun."""
        names = {host.name for host in self.file.hosts if (self.answers[host.name].found or {}).get("has_begun")}
        for answer in self.answers.values():
            names |= set(answer.found["begun"] if answer.found else [])
        return sorted(names)

    def may_begin(self, host: Host) -> str:
        """Why a host that has no log may not begin; nothing if it may. A member whose log is lost must not come back in the run."""
        if host.name in self.begun():
            return ("its log is lost: it has begun in this run, and there is neither a log nor a run file. Is a disk not mounted? "
                    "It must not begin anew, see `A member whose log is lost' in dpbn(1)")
        away = [name for name, answer in self.answers.items() if not answer.found]
        if self.begun() and away and host.name not in self.new:
            return (f"it has no log, and {', '.join(away)}, which may know of one, doesn't answer. If it never ran in this run, "
                    f"use start --new {host.name}")
        return ""

    def start(self, hosts: List[Host]) -> Dict[str, Answered]:
        """Starts these hosts, and returns what each says; `found` has a line under `line`."""
        fresh, refused = [], {}
        for host in hosts:
            found = self.answers[host.name].found
            if not found:
                refused[host.name] = Answered(None, self.answers[host.name].why)
            elif not found["has_begun"]:
                why = self.may_begin(host)
                if why:
                    refused[host.name] = Answered(None, why)
                else:
                    fresh.append(host.name)
        chosen = [host for host in hosts if host.name not in refused]
        told = on_all(chosen, lambda host: self.start_one(host, host.name in fresh))
        for host, answer in zip(chosen, told):
            if answer.found and "path" in answer.found:
                self.answers[host.name] = answer
        self.note()
        return {**refused, **{host.name: answer for host, answer in zip(chosen, told)}}

    def note(self) -> None:
        """Lets all hosts know who has begun, so that a host whose log is lost later isn't taken for a new one."""
        names = self.begun()

        def tell(host: Host) -> None:
            found = self.answers[host.name].found
            if found and set(names) - set(found["begun"]):
                with contextlib.suppress(NoAnswer):
                    ask(self.file, host, ["take", host.folder], framed({"begun": names}, {}))

        on_all(self.file.hosts, tell)

    def start_one(self, host: Host, is_new: bool) -> Answered:
        found = self.answers[host.name].found or {}
        text = self.file.text.decode()
        if found["keeper"] is not None:
            if found["hosts"] != text:
                name = os.path.basename(self.file.path)
                return Answered(None, f"it runs with an earlier {name}: stop it, and start it again to have this one")
            return Answered({"line": "runs already"})
        files = {"listing": self.listing, "key": self.key, "name": f"{host.name}\n".encode(), "hosts": self.file.text}
        if found["listing"]:
            del files["listing"]
        try:
            ask(self.file, host, ["take", host.folder], framed({"begun": self.begun()}, files))
            line = ask(self.file, host, ["start", host.folder, *(["--new"] if is_new else [])])
            found = look(self.file, host)
        except NoAnswer as no:
            return Answered(None, str(no))
        return Answered({**found, "line": line.decode("utf-8", "replace").strip()})
