"""The program dpbn-hosts(1): one command for all hosts of a bulk build."""
from __future__ import annotations

import argparse
import signal
import sys
from typing import Callable, Dict, List, Optional, Sequence

from dpbn_tools import hosts_collect, hosts_file, hosts_report
from dpbn_tools.hosts_file import Host, HostsFile
from dpbn_tools.hosts_remote import NoAnswer, ask
from dpbn_tools.hosts_start import Answered, Refused, Starter, ask_all, on_all
from dpbn_tools.hosts_status import is_well, line_of
from dpbn_tools.version import add_version
from dpbn_tools.words import number

# how often the copies for a report are brought up to date, in seconds
EVERY = 10


def main() -> None:
    asked = options()
    signal.signal(signal.SIGTERM, lambda *_: sys.exit(143))
    signal.signal(signal.SIGHUP, lambda *_: sys.exit(129))
    try:
        file = hosts_file.read(asked.file)
        sys.exit(COMMANDS[asked.command](asked, file))
    except (Refused, NoAnswer) as refused:
        for line in str(refused).splitlines():
            print(f"dpbn-hosts: {line}", file=sys.stderr)
        sys.exit(1)
    except (hosts_file.BadFile, OSError) as error:
        sys.exit(f"dpbn-hosts: {error}")
    except KeyboardInterrupt:
        sys.exit(130)


def options(given: Optional[Sequence[str]] = None) -> argparse.Namespace:
    words = argparse.ArgumentParser(prog="dpbn-hosts", description="Starts, shows, steers and ends a bulk build on its hosts.",
                                    allow_abbrev=False)
    add_version(words)
    words.add_argument("file", metavar="FILE", help="names the hosts, and what they have in common")
    commands = words.add_subparsers(dest="command", metavar="COMMAND", required=True)
    helps = {"start": "makes the run's key, hands out what a host needs, and starts node and driver",
             "status": "prints a line on each host", "drain": "lets hosts finish what they build and begin no more",
             "resume": "lets them begin again", "retry": "has all built again that failed there", "stop": "ends node and driver"}
    for name, text in helps.items():
        command = commands.add_parser(name, help=text, allow_abbrev=False)
        command.add_argument("hosts", metavar="HOST", nargs="*", help="which hosts; all if none is named")
        if name == "start":
            command.add_argument("--new", metavar="HOST", action="append", default=[], help="this host never ran in this run")
    command = commands.add_parser("collect", help="brings logs, large files and packages to this host", allow_abbrev=False)
    command.add_argument("--flat", action="store_true", help="packages has the package files themselves, without a folder for each path")
    command.add_argument("--build-logs", action="store_true", help="brings the logs of all builds, too")
    add_into(command)
    command = commands.add_parser("report", help="runs dpbn-report(1) on copies that are kept up to date", allow_abbrev=False)
    command.add_argument("--refresh", metavar="SECONDS", type=number(1, 86_400), default=EVERY, help="how often that is done; 10")
    add_into(command)
    command.epilog = "What follows -- is for dpbn-report."
    return parsed(words, sys.argv[1:] if given is None else list(given))


def parsed(words: argparse.ArgumentParser, given: List[str]) -> argparse.Namespace:
    """The words; what follows `--` is for dpbn-report, and isn't looked at."""
    end = given.index("--") if "--" in given else len(given)
    asked = words.parse_args(given[:end])
    asked.words = given[end + 1:]
    if end < len(given) and asked.command != "report":
        words.error(f"{asked.command} takes no --")
    return asked


def add_into(command: argparse.ArgumentParser) -> None:
    command.add_argument("--into", metavar="DIR", help="the folder that they are put into; FILE.d")


def chosen(asked: argparse.Namespace, file: HostsFile) -> List[Host]:
    """The hosts that are named, or all."""
    for name in [*asked.hosts, *getattr(asked, "new", [])]:
        if not file.named(name):
            raise Refused(f"{file.path} has no host {name!a}")
    return [host for host in file.hosts if not asked.hosts or host.name in asked.hosts]


def show(file: HostsFile, lines: Dict[str, str]) -> None:
    """Prints a line a host, by the order of the file."""
    width = max(len(host.name) for host in file.hosts)
    for host in file.hosts:
        if host.name in lines:
            print(f"{host.name:<{width}}  {lines[host.name]}", flush=True)


# ---- the commands

def start(asked: argparse.Namespace, file: HostsFile) -> int:
    hosts = chosen(asked, file)
    answers = Starter(file, asked.new).start(hosts)
    show(file, {name: str(answer.found["line"]) if answer.found else answer.why for name, answer in answers.items()})
    return 0 if all(answer.found and ("name" not in answer.found or is_well(answer.found)) for answer in answers.values()) else 1


def status(asked: argparse.Namespace, file: HostsFile) -> int:
    answers = ask_all(file, chosen(asked, file))
    show(file, {name: told(answer) for name, answer in answers.items()})
    return 0 if all(answer.found and is_well(answer.found) for answer in answers.values()) else 1


def told(answer: Answered) -> str:
    return line_of(answer.found) if answer.found else answer.why


def steer(asked: argparse.Namespace, file: HostsFile) -> int:
    """What is one command at each host: drain, resume, retry and stop."""
    def call(host: Host) -> Answered:
        try:
            line = ask(file, host, [asked.command, host.folder], seconds=300)
            return Answered({"line": line.decode("utf-8", "replace").strip()})
        except NoAnswer as no:
            return Answered(None, str(no))

    hosts = chosen(asked, file)
    answers = {host.name: answer for host, answer in zip(hosts, on_all(hosts, call))}
    show(file, {name: str(answer.found["line"]) if answer.found else answer.why for name, answer in answers.items()})
    return 0 if all(answer.found for answer in answers.values()) else 1


def collect(asked: argparse.Namespace, file: HostsFile) -> int:
    return hosts_collect.collect(file, asked.into or f"{file.path}.d", asked.flat, asked.build_logs)


def report(asked: argparse.Namespace, file: HostsFile) -> int:
    return hosts_report.report(file, asked.into or f"{file.path}.d", asked.words, asked.refresh)


COMMANDS: Dict[str, Callable[[argparse.Namespace, HostsFile], int]] = {
    "start": start, "status": status, "drain": steer, "resume": steer, "retry": steer, "stop": steer, "collect": collect, "report": report}
