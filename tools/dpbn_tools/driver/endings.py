"""What comes of a build that has ended: it is handed in, marked as failed, given back, or dropped."""
from __future__ import annotations

import os
import time
from typing import Callable, Dict, List, Optional

from dpbn_tools.driver.build import Build, Ended, State
from dpbn_tools.driver.handin import Failed, large_in, size_of
from dpbn_tools.driver.health import TEMPFAIL, Health
from dpbn_tools.driver.build_steps import BuildSteps
from dpbn_tools.driver.limits import Limits
from dpbn_tools.driver.pushes import Pushes
from dpbn_tools.driver.reuse import Reuse
from dpbn_tools.driver.tasks import Tasks
from dpbn_tools.driver.times import Times

# how long a build that failed isn't reported, in seconds: what ended it may be about to end this program, too. A host that stops sends
# its signal to all processes at once.
MOMENT = 0.25
# before what the system refused is tried again, in seconds
PATIENCE = 5
# how often is looked whether the files of a build are pushed, besides when one was, in seconds
PUSHES_EACH = 1
ENDS = "this driver ends"


class Endings:
    """The steps from a command's end to the end of its folder. Each that takes long is done next to the loop, one at a time for a build."""

    def __init__(self, steps: BuildSteps, tasks: Tasks, limits: Limits, health: Health, times: Times, reuse: Optional[Reuse],
                 pushes: Optional[Pushes]) -> None:
        self.steps, self.tasks, self.limits, self.health = steps, tasks, limits, health
        self.times, self.reuse, self.pushes = times, reuse, pushes
        self.lines = steps.lines
        self.counts: Dict[str, int] = {"built": 0, "failed": 0, "dropped": 0, "given back": 0, "taken from earlier runs": 0}

    def counted(self) -> str:
        """What became of the builds, in one line. What is rare is left out if there was none."""
        return ", ".join(f"{count} {what}" for what, count in self.counts.items() if count or what in ("built", "failed", "dropped"))

    # ---- a command has ended

    def has_ended(self, build: Build) -> None:
        ended = build.ended
        build.state, build.over, build.due = State.OVER, time.monotonic(), 0.0
        is_good = bool(ended and ended.how == "exit" and ended.number == 0)
        if build.dropped == ENDS and is_good:
            # it was over before it was asked to end
            build.dropped = ""
        if not (build.dropped or build.failed or is_good):
            self.judge(build, ended)
        self.count_failure(build)

    def judge(self, build: Build, ended: Optional[Ended]) -> None:
        """Finds out whether a build failed for a reason of this host."""
        if not ended:
            self.give_back(build, "its supervisor was killed" if build.group else "it was ended by somebody else")
        elif ended.how == "signal":
            self.give_back(build, f"signal {ended.number}")
        elif ended.how == "refused":
            self.give_back(build, f"it can't be started: {os.strerror(ended.number)}")
        elif ended.number == TEMPFAIL:
            self.give_back(build, f"status {TEMPFAIL}")
        else:
            build.failed, build.due = f"status {ended.number}", build.over + MOMENT

    def count_failure(self, build: Build) -> None:
        """Counts a build that failed before it is marked, so that nothing begins meanwhile if there were others. One that nobody waits
        for counts as nothing."""
        if build.failed and not build.dropped:
            self.health.failures.failed(str(build.job), build.pauses, build.failed)

    def give_back(self, build: Build, why: str) -> None:
        """It ended for a reason of this host: nothing is marked, unless that happens to this unit alone again and again."""
        build.failed = self.health.unit_failed(str(build.job), why)
        if not build.failed:
            self.counts["given back"] += 1
            self.leave(build)

    # ---- what is over

    def is_failure(self, build: Build) -> bool:
        return bool(build.failed)

    def go_on(self, build: Build) -> None:
        """Begins the next step for a build that is over."""
        if build.dropped:
            self.counts["dropped"] += 1
            self.lines.tell(f"- {build.job}: {build.dropped}")
            self.leave(build)
        elif build.failed:
            self.mark(build)
        elif build.needed is None:
            # one of an earlier run: what it was built on is held by the node, whose log is read in a moment
            build.needed = self.steps.held.needed(build.job.built)
            build.due = time.monotonic() + (0 if build.needed is not None else 0.3)
        elif build.text is None:
            self.step(build, lambda: self.steps.examine(build, self.limits), lambda: self.examined(build))
        elif self.is_pushed(build):
            build.awaits_push = False
            self.step(build, lambda: self.steps.hand_in(build), lambda: self.handed_in(build))
        else:
            build.awaits_push, build.due = True, time.monotonic() + PUSHES_EACH

    def step(self, build: Build, work: Callable[[], None], then: Callable[[], None]) -> None:
        """Does a step next to the loop. What the system refuses is reported, and tried again in a while."""
        build.is_busy = True

        def over(_: None, error: Optional[Exception]) -> None:
            build.is_busy = False
            if isinstance(error, Failed):
                build.failed = str(error)
                self.count_failure(build)
            elif error:
                build.due = time.monotonic() + PATIENCE
                text = str(error) if isinstance(error, OSError) else f"{type(error).__name__}: {error}"
                self.lines.tell_once(f"? {build.job} waits: {text}", ("over", build.job.name, getattr(error, "errno", None)))
            else:
                then()

        self.tasks.start(work, over)

    def examined(self, build: Build) -> None:
        """It made what was asked for, so this host can build, however long its files wait for other hosts."""
        if not build.is_reused and not build.dropped:
            self.health.failures.succeeded()

    def is_pushed(self, build: Build) -> bool:
        """Whether as many stores have its large files as shall be."""
        if not self.pushes:
            return True
        members = self.steps.held.members()
        is_done = True
        for large in large_in(build.made or {}).values():
            is_done = self.pushes.push(large, int(build.job.host), members) and is_done
        if not is_done and time.monotonic() > build.over + PATIENCE:
            self.lines.tell_once(f"? {build.job} waits: its files aren't in {self.pushes.copies} stores", ("push", build.job.name))
        return is_done

    def handed_in(self, build: Build) -> None:
        unit = str(build.job)
        self.take_back(build, "done")
        if build.is_reused:
            self.counts["taken from earlier runs"] += 1
            self.lines.tell(f"< {unit} {time.monotonic() - build.over:.0f} s, from an earlier run")
        else:
            self.counts["built"] += 1
            self.health.unit_ended(unit, True)
            self.lines.tell(f"< {unit} {build.seconds():.0f} s")
        if self.pushes:
            for large in large_in(build.made or {}).values():
                self.pushes.forget(large)
        self.leave(build, self.keep)

    def take_back(self, build: Build, part: str) -> None:
        """If its job went meanwhile, removes what has its name. If the system refuses that, it stays: it says nothing wrong of the job."""
        if not build.dropped:
            return
        try:
            self.steps.work.remove(f"{part}/{build.job.name}")
        except OSError as error:
            self.lines.tell_once(f"? {build.job} is dropped, and what it handed in stays: {error}", ("back", part, error.errno))

    def keep(self, build: Build) -> None:
        """Writes down how long it took, and keeps it for later runs."""
        if build.is_reused or build.made is None:
            return
        self.times.add(build.job, build.seconds(), size_of(build.made))
        if self.reuse and build.key:
            self.reuse.keep(build.key, build.made, self.steps.store)

    def mark(self, build: Build) -> None:
        where: List[str] = []

        def marked() -> None:
            self.take_back(build, "failed")
            self.counts["failed"] += 1
            self.health.unit_ended(str(build.job), False)
            self.lines.tell(f"! {build.job} failed after {build.seconds():.0f} s: {build.failed}, see {where[-1]}")
            self.leave(build)

        self.step(build, lambda: where.append(self.steps.mark(build, self.limits)), marked)

    def leave(self, build: Build, first: Callable[[Build], None] = lambda _: None) -> None:
        """Removes the build's folder, next to the loop."""
        build.state, build.is_busy = State.GONE, True

        def gone(_: None, error: Optional[Exception]) -> None:
            build.is_busy = False
            if error:
                self.lines.tell_once(f"? {build.folder}: {error}", ("gone", getattr(error, "errno", None)))

        def work() -> None:
            try:
                first(build)
            finally:
                self.steps.remove(build)

        self.tasks.start(work, gone)
