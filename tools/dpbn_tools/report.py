"""Shows how far a bulk build is, from what its nodes and drivers leave: dpbn-report(1)."""
from __future__ import annotations

import argparse
import os
import signal
import sys
import time
from typing import List, Optional, Sequence

from dpbn_tools import build_times, earlier_status, listings, past, status_page, status_text, words
from dpbn_tools.bulk import Bulk, Refused, units_by_place
from dpbn_tools.hooks import Hooks
from dpbn_tools.progress import History, stamp
from dpbn_tools.report_files import Folder
from dpbn_tools.status import FINISHED, STOPPED, Reporter
from dpbn_tools.units import Division
from dpbn_tools.version import add_version
from dpbn_tools.watch import Screen
from dpbn_tools.work_folders import Work

SIGNALS = (signal.SIGHUP, signal.SIGINT, signal.SIGTERM)
# how often it looks without an option for that, in seconds, and for how long nothing may happen before nothing is left to be built
EVERY, REST = 5, 60


class Signals:
    """The first signal that came. It is looked at between two looks."""

    def __init__(self) -> None:
        self.first = 0
        for number in SIGNALS:
            if signal.getsignal(number) != signal.SIG_IGN:
                signal.signal(number, self.came)

    def came(self, number: int, _: object) -> None:
        self.first = self.first or number

    def is_ended(self) -> bool:
        return self.first != 0


class Report:
    """Looks, writes what it saw, and runs what is to be run at it."""

    def __init__(self, asked: argparse.Namespace, reporter: Reporter) -> None:
        self.reporter, self.every = reporter, asked.every or EVERY
        self.folder = Folder(asked.out) if asked.out else None
        self.hooks = Hooks(asked.at_failure, asked.at_end)
        self.words = ""
        self.is_over = False

    def begin(self) -> None:
        """The first look, with what an earlier report saw; or else with what the logs say of the time until now."""
        now = time.time()
        self.reporter.bulk.look(now)
        earlier = None
        if self.folder:
            self.folder.make()
            earlier = earlier_status.read(f"{self.folder.path}/status.json")
        if earlier is None or not earlier_status.take(self.reporter, earlier, now):
            self.reporter.history = History(past.recall(self.reporter.bulk, now))

    def look(self) -> None:
        """One look. What can't be written then is tried again at the next one."""
        status = self.reporter.look(time.time())
        self.words = status_text.text_of(status)
        due = self.hooks.due(status, self.reporter.hooks)
        for hook in due:
            self.reporter.hooks[hook.at] = stamp(time.time())
        status["hooks"] = dict(self.reporter.hooks)
        if self.folder:
            self.folder.put(status, self.reporter.copies, self.words, status_page.page(status, self.every))
        for hook in due:
            self.hooks.start(hook, status, self.words, self.folder.path if self.folder else ".")
        for number in self.hooks.look():
            warn_of(number)
        self.is_over = status["state"] in (FINISHED, STOPPED)

    def end(self) -> None:
        for number in self.hooks.end():
            warn_of(number)


def warn_of(status: int) -> None:
    if status:
        warn(f"a command ended with status {status}")


def warn(text: str) -> None:
    print(f"dpbn-report: {text}", file=sys.stderr, flush=True)


def asked_for(given: Optional[Sequence[str]] = None) -> argparse.Namespace:
    word = argparse.ArgumentParser(prog="dpbn-report", description="Shows how far a bulk build is.", allow_abbrev=False)
    add_version(word)
    word.add_argument("--listing", metavar="LISTING", required=True, help="the listing that the nodes have")
    word.add_argument("--single", action="store_true", help="each path is built by itself, as for dpbn --single")
    word.add_argument("--log", metavar="LOG", action="append", default=[], help="the log of a node; any number of times")
    word.add_argument("--work", metavar="WORK", action="append", default=[], help="the work folder of a host; any number of times")
    word.add_argument("--logs", metavar="DIR", action="append", default=[], help="where the driver of the K-th WORK puts logs; WORK/logs")
    word.add_argument("--names", metavar="NAME,..", default="", help="what the hosts are named, by the members' numbers")
    word.add_argument("--times", metavar="FILE", action="append", default=[], help="how long builds of earlier bulks took")
    word.add_argument("--out", metavar="DIR", help="gets status.json, status.txt, index.html and logs")
    word.add_argument("--watch", action="store_true", help="shows it on the terminal, too")
    word.add_argument("--every", metavar="SECONDS", type=words.number(1, 86_400), help="looks again and again")
    word.add_argument("--rest", metavar="SECONDS", type=words.number(0, 1_000_000), default=REST,
                      help="for how long nothing may happen before a bulk that can't go on is over; 60")
    word.add_argument("--at-failure", metavar="COMMAND", help="is run once, at the first failure")
    word.add_argument("--at-end", metavar="COMMAND", help="is run once, when all is built that can be")
    asked = word.parse_args(given)
    if not asked.out and not asked.watch:
        word.error("one of --out and --watch is needed")
    if asked.logs and len(asked.logs) != len(asked.work):
        word.error("--logs is given once for each --work, or never")
    return asked


def contents(path: str) -> bytes:
    with open(path, "rb") as file:
        return file.read()


def times_of(paths: List[str]) -> List[build_times.Took]:
    builds: List[build_times.Took] = []
    for path in paths:
        try:
            builds += build_times.read(contents(path))
        except build_times.Bad as bad:
            raise Refused(f"{path}: {bad}") from None
    return builds


def reporter_of(asked: argparse.Namespace) -> Reporter:
    """Reads all that doesn't change."""
    try:
        division = Division(listings.read(contents(asked.listing), asked.single))
    except listings.Fault as fault:
        raise Refused(f"{asked.listing}: {fault}") from None
    earlier, by_place = times_of(asked.times), units_by_place(division)
    logs = asked.logs or [None] * len(asked.work)
    works = [Work(path, by_place, log) for path, log in zip(asked.work, logs)]
    names = asked.names.split(",") if asked.names else []
    bulk = Bulk(division, asked.log, works, names)
    return Reporter(bulk, bulk.named(earlier), asked.rest)


def run(asked: argparse.Namespace, report: Report, signals: Signals) -> None:
    """Looks once, or again and again until a signal or a key ends it."""
    if not asked.every and not asked.watch:
        report.look()
        return
    with Screen(asked.watch) as screen:
        while True:
            try:
                report.look()
            except OSError as error:
                warn(str(error))
            if asked.watch:
                screen.show(report.words)
            if not screen.rest(report.every, signals.is_ended):
                return


def main() -> None:
    asked = asked_for()
    signals = Signals()
    try:
        report = Report(asked, reporter_of(asked))
        report.begin()
        run(asked, report, signals)
        report.end()
    except Refused as refused:
        sys.exit(f"dpbn-report: {refused}")
    except MemoryError:
        sys.exit("dpbn-report: out of memory")
    except OSError as error:
        # what is still to be written isn't tried again at the end
        os.dup2(os.open(os.devnull, os.O_WRONLY), sys.stdout.fileno())
        sys.exit(f"dpbn-report: {error}")
    if signals.first:
        sys.exit(128 + signals.first)
