"""The program build-jobs(1): its words, its signals, its end."""
from __future__ import annotations

import os
import shutil
import signal
import sys
from typing import Optional

from dpbn_tools.log import BadLog
from dpbn_tools.driver.command import SERVER
from dpbn_tools.driver.driver import Driver
from dpbn_tools.driver.limits import BadLimits
from dpbn_tools.driver.lines import Lines
from dpbn_tools.driver.options import asked_for
from dpbn_tools.driver.workfolder import Replaced

SIGNALS = (signal.SIGHUP, signal.SIGINT, signal.SIGTERM)
# how long the last lines may take to be written, in seconds
LAST_LINES = 1


class Signals:
    """The first signal that came. It is looked at between two looks, so that nothing is left half done."""

    def __init__(self) -> None:
        self.first: Optional[int] = None
        # those who ignore this one never learn how a command ended
        signal.signal(signal.SIGCHLD, signal.SIG_DFL)
        for each in SIGNALS:
            if signal.getsignal(each) != signal.SIG_IGN:
                signal.signal(each, self.came)

    def came(self, number: int, _: object) -> None:
        self.first = self.first or number


def run(driver: Driver, signals: Signals) -> int:
    """Looks again and again until a signal comes. Returns its number."""
    hands_in = True
    SERVER.prepare()
    try:
        driver.clear()
        while not signals.first:
            driver.look()
            driver.wait()
    except Replaced:
        hands_in = False
        raise
    finally:
        driver.finish(hands_in)
        SERVER.close()
    return signals.first


def leave(status: int, out: Lines, why: str = "") -> None:
    """Ends the program, though nobody reads its lines."""
    out.close(LAST_LINES)
    if why:
        errors = Lines(2)
        errors.put(f"build-jobs: {why}\n")
        errors.close(LAST_LINES)
    os._exit(status)


def descriptor() -> Optional[int]:
    try:
        return sys.stdout.fileno() if sys.stdout else None
    except ValueError:
        return None


def main() -> None:
    asked, signals = asked_for(), Signals()
    out = Lines(descriptor())
    try:
        command = os.path.abspath(asked.command[0]) if "/" in asked.command[0] else asked.command[0]
        driver = Driver(asked, out)
        if not shutil.which(command):
            leave(1, out, f"{command}: there is no such command")
        why = driver.work.lock()
        if why:
            leave(1, out, why)
        leave(128 + run(driver, signals), out)
    except Replaced:
        leave(1, out, f"{asked.work} was taken away, or made anew")
    except BadLog as bad:
        leave(1, out, f"{asked.log}: {bad}")
    except (OSError, BadLimits, MemoryError) as error:
        leave(1, out, str(error) or "there is no memory for it")
