"""Whether this host can build. A build that ended with 75, or by a signal that the driver didn't send, failed for a reason of this host:
its unit is tried again later, and after several in a row the host begins nothing until it is ready again. After failures in a row it
pauses, see failures.py."""
from __future__ import annotations

import os
import time
from typing import Callable, Dict, List, Optional, Set, Tuple

from dpbn_tools.driver.command import Command, helper, shell
from dpbn_tools.driver.failures import Failures
from dpbn_tools.driver.workfolder import WorkFolder

# the status that says so: EX_TEMPFAIL of sysexits(3)
TEMPFAIL = 75
# after this many such ends in a row, of different units, the host is away; this many in a row of one unit are its failure
AWAY_AFTER, FAILURE_AFTER = 3, 5
# the first and the longest wait, in seconds, and how long the command that asks whether the host is ready may take
MINUTE, LONGEST = 60, 1800


class Unit:
    """How often a unit ended so in a row, when it is tried again, and how many other units had succeeded when the row began."""

    def __init__(self, successes: int) -> None:
        self.count, self.due, self.successes = 0, 0.0, successes


class Health:
    """The ends of builds on this host, in a row."""

    def __init__(self, work: WorkFolder, ready: Optional[str], log: Callable[[], str], tell: Callable[[str], None],
                 failures: Failures) -> None:
        self.work, self.ready, self.log, self.tell, self.failures = work, ready, log, tell, failures
        self.minute, self.longest = float(MINUTE), float(LONGEST)
        self.units: Dict[str, Unit] = {}
        self.row: List[str] = []
        self.successes = 0
        # why the host is away, since when, how often in a row that was so, and when it is asked whether it is ready
        self.why, self.since, self.times, self.due = "", 0.0, 0, 0.0
        self.asked: Optional[Command] = None
        # without a command that says so, one build is tried
        self.is_trying = False
        # why it is away for another reason, as a full disk
        self.short, self.short_since = "", 0.0
        # which reasons the file has, and whether it may be this driver's
        self.written: Tuple[object, ...] = "", "", False
        self.is_own = False

    # ---- what builds came to

    def unit_failed(self, unit: str, why: str) -> str:
        """A build ended for a reason of this host. Returns why it is a failure of its unit all the same, or nothing."""
        known = self.units.setdefault(unit, Unit(self.successes))
        known.count += 1
        if known.count >= FAILURE_AFTER and self.successes > known.successes:
            del self.units[unit]
            return f"{known.count} times in a row: {why}"
        wait = min(self.minute * 2 ** (known.count - 1), self.longest)
        known.due = time.monotonic() + wait
        self.tell(f"~ {unit} is given back: {why}; it is tried here again after {wait / 60:.0f} min")
        self.row.append(unit)
        if len(set(self.row[-AWAY_AFTER:])) == AWAY_AFTER or self.is_trying:
            self.go_away(why)
        return ""

    def unit_ended(self, unit: str, is_built: bool) -> None:
        """A build ended by itself, well or not."""
        self.units.pop(unit, None)
        self.row.clear()
        self.successes += is_built
        self.is_trying = False
        self.times = 0

    def is_due(self, unit: str) -> bool:
        return unit not in self.units or time.monotonic() >= self.units[unit].due

    def keep_only(self, units: Set[str]) -> None:
        """Forgets units that aren't posted any more, but those that wait to be tried again."""
        now = time.monotonic()
        self.units = {name: unit for name, unit in self.units.items() if name in units or now < unit.due + self.longest}

    # ---- away

    def go_away(self, why: str) -> None:
        if self.why:
            return
        self.why, self.since, self.is_trying = why, time.monotonic(), False
        self.row.clear()
        # without a command it waits longer each time
        self.times += 1
        wait = self.minute if self.ready else min(self.minute * 2 ** (self.times - 1), self.longest)
        self.due = self.since + wait
        until = "until its --ready command ends with 0" if self.ready else f"for {wait / 60:.0f} min"
        self.tell(f"~ this host begins nothing {until}: builds of several units ended for a reason of this host, the last: {why}")

    def is_away(self) -> bool:
        return bool(self.why or self.failures.why)

    def most(self, places: int) -> int:
        """How many builds may run."""
        return 1 if self.is_trying else places

    def look(self) -> None:
        """Asks whether the host is ready, if it is time, and writes or removes the file that shows whether it is away."""
        if self.failures.is_over():
            self.tell_end(self.failures.end())
        now = time.monotonic()
        if self.asked and self.asked.poll():
            is_ready, self.asked = self.asked.has_succeeded(), None
            if is_ready:
                self.come_back()
        elif self.asked and now > self.asked.began + self.minute:
            self.asked.end()
        elif self.why and not self.asked and now >= self.due:
            self.due = now + self.minute
            if self.ready:
                self.asked = helper(shell(self.ready), self.log(), dict(os.environ))
            else:
                self.come_back()
                self.is_trying = True
        self.show()

    def come_back(self) -> None:
        self.why = ""
        self.tell_end(time.monotonic() - self.since)
        # what waits is tried now, since the host was the reason
        for unit in self.units.values():
            unit.due = 0.0

    def tell_end(self, seconds: float) -> None:
        """Prints that a reason to begin nothing has gone after this time, and what others there are."""
        stopped = f"{self.work.path}/stop is there" if self.work.is_stopped() else ""
        others = "; ".join(filter(None, (*self.reasons(), stopped)))
        what = f"begins nothing still: {others}" if others else f"begins builds again, after {seconds:.0f} s"
        self.tell(f"~ this host {what}")

    def set_short(self, why: str) -> None:
        """Says that nothing can begin for another reason. After a minute the host is away for that, too."""
        if why and not self.short:
            self.short_since = time.monotonic()
        self.short = why

    def reasons(self) -> Tuple[str, str, str]:
        """Why the host is away: for the builds that it gave back, for those that failed, and for another reason."""
        is_short = self.short and time.monotonic() >= self.short_since + self.minute
        return self.why, self.failures.why, self.short if is_short else ""

    def show(self) -> None:
        """Has the file say why the host is away. One that this driver didn't write stays as it is."""
        reasons = self.reasons()
        # how many bytes of a full disk are free changes all the time
        wanted = *reasons[:2], bool(reasons[2])
        if self.is_others():
            return
        if any(reasons) and wanted != self.written:
            # it may be there also if the system refuses the rest
            self.is_own = True
            self.work.set_away("; ".join(filter(None, reasons)))
        elif self.is_own and not any(reasons):
            self.work.end_away()
            self.is_own = False
        self.written = wanted

    def is_others(self) -> bool:
        """Whether the file is there, and this driver didn't write it."""
        return not self.is_own and self.work.is_away()

    def end(self) -> None:
        if self.asked:
            self.asked.end()
