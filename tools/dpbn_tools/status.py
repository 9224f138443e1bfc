"""What a report says of a bulk, as status.json has it (dpbn-formats(5))."""
from __future__ import annotations

from collections import Counter
from typing import Any, Dict, List, Optional, Sequence, Set, Tuple

from dpbn_tools import bulk, needs, progress, work_folders
from dpbn_tools.build_times import Took, Usual
from dpbn_tools.letters import LETTERS
from dpbn_tools.needs import Blocked, Chain
from dpbn_tools.progress import Estimate, History, Sample, stamp
from dpbn_tools.work_folders import BUILDS, QUEUED

VERSION = 1
RUNS, FINISHED, STOPPED = "runs", "finished", "stopped"

Object = Dict[str, Any]


class Ends:
    """The ends of logs, each read anew only if it was touched."""

    def __init__(self) -> None:
        self.read: Dict[str, Tuple[Optional[float], bytes]] = {}

    def of(self, path: str) -> bytes:
        about = bulk.touched(path)
        if path not in self.read or self.read[path][0] != about:
            self.read[path] = about, work_folders.tail_of(path)
        return self.read[path][1]


class View:
    """One look at a bulk: what follows from it for all units, computed once."""

    def __init__(self, seen: bulk.Bulk, usual: Usual, now: float) -> None:
        self.bulk, self.division, self.usual, self.now = seen, seen.division, usual, now
        letters, self.failed = seen.letters, seen.failed()
        self.is_held = [letters.is_held(unit) for unit in range(len(self.division.units))]
        self.held, self.seconds = sum(self.is_held), seen.seconds()
        self.built = Counter(seen.built_by)
        self.blocks, self.blocked = seen.needs.blocked(letters, self.failed)
        # what can't be built as things are
        self.lost: Set[int] = {*self.failed, *self.blocked, *seen.needs.never}
        self.left = [unit for unit, is_held in enumerate(self.is_held) if not is_held and unit not in self.lost]
        self.running = [(unit, builder) for unit, builders in sorted(seen.builders.items()) for builder in builders
                        if builder.state in (BUILDS, bulk.CLAIMED)]
        self.began = {unit: builder.since for unit, builder in self.running}
        self.chain = seen.needs.chain(letters, self.lost, self.seconds_left if usual.median is not None else lambda unit: 1.0)

    def spent(self, unit: int) -> float:
        """For how long the unit has been built."""
        return max(0.0, self.now - self.began[unit]) if unit in self.began else 0.0

    def seconds_left(self, unit: int) -> float:
        return max(0.0, (self.usual.of(self.division.units[unit].name) or 0.0) - self.spent(unit))

    def is_over(self) -> bool:
        """Whether all is held that isn't ignored."""
        return self.held == len(self.is_held)

    def is_idle(self) -> bool:
        """Whether nobody builds anything, and nothing is left that somebody could build who has not tried it."""
        return not self.bulk.builders and not self.left


class Reporter:
    """Looks at a bulk again and again, and says what there is to say of it."""

    def __init__(self, seen: bulk.Bulk, earlier: Sequence[Took], rest: float) -> None:
        self.bulk, self.division, self.rest = seen, seen.division, rest
        self.earlier, self.history, self.ends = list(earlier), History(), Ends()
        # the greatest number of builds that were seen to run at a time
        self.places = 0
        self.usual, self.count_of_times = Usual(self.earlier), 0
        # when each hook was run
        self.hooks: Dict[str, str] = {}
        # what is put next to the status: by name, the end of a log
        self.copies: Dict[str, bytes] = {}

    def look(self, now: float) -> Object:
        """Looks once, and answers the status."""
        self.bulk.look(now)
        times = self.bulk.times()
        if len(times) != self.count_of_times:
            # what this run measured is nearer than what an earlier one did
            self.usual, self.count_of_times = Usual([*self.earlier, *times]), len(times)
        view = View(self.bulk, self.usual, now)
        self.places = max(self.places, len(view.running))
        self.history.add(Sample(now, dict(self.bulk.letters.counts), view.held, len(view.failed)))
        return self.status(view)

    def status(self, view: View) -> Object:
        units = self.division.units
        changed = self.changed(view)
        return {
            "version": VERSION, "time": stamp(view.now), "listing": self.bulk.tree.hex(), "state": self.state(view, changed),
            "changed": stamp(changed), "counts": dict(self.bulk.letters.counts), "paths": len(self.division.tree.paths),
            "units": {"all": len(units), "held": view.held, "failed": len(view.failed), "blocked": len(view.blocked),
                      "never": len(self.bulk.needs.never), "left": len(view.left)},
            "estimate": self.estimate(view), "hosts": self.hosts(view), "running": [self.run_of(view, *it) for it in self.by_age(view)],
            "failures": self.failures(view), "chain": self.chain(view), "circles": self.circles(),
            "hours": [{"hour": stamp(hour), "units": count, "paths": paths} for hour, count, paths in self.hours()],
            "history": [written(sample) for sample in self.history.samples], "problems": list(self.bulk.problems),
            "hooks": dict(self.hooks), "list": [self.unit(view, number) for number in range(len(units))],
            "ignored": {self.division.tree.paths[place]: work_folders.text_of(why.encode("latin-1"))
                        for place, why in sorted(self.division.ignored.items())},
        }

    def changed(self, view: View) -> float:
        """When something was last seen to happen: a change between two looks, or what a host did."""
        seen = [host.seen for host in self.bulk.hosts.values() if host.seen is not None]
        change = self.history.changed()
        return max([*seen, change] if change is not None else seen, default=view.now)

    def state(self, view: View, changed: float) -> str:
        if view.is_over():
            return FINISHED
        return STOPPED if view.is_idle() and view.now - changed >= self.rest else RUNS

    def estimate(self, view: View) -> Optional[Object]:
        """When all will be built that can be, as things are."""
        if not view.left:
            return None
        found: Optional[Estimate] = None
        if self.earlier:
            usual = [(self.usual.of(self.division.units[unit].name) or 0.0, view.spent(unit)) for unit in view.left]
            found = progress.by_times(usual, view.chain.weight, max(self.places, 1))
        else:
            found = progress.by_rate(len(view.left), self.history.rate())
        if not found:
            return None
        return {"seconds": round(found.seconds), "end": stamp(view.now + found.seconds), "by": found.by, "places": self.places}

    def hours(self) -> List[Tuple[float, int, int]]:
        return progress.by_hour(self.bulk.held_since, (len(unit.places) for unit in self.division.units))

    # ---- hosts, builds and failures

    def hosts(self, view: View) -> List[Object]:
        return [self.host(view, host) for _, host in sorted(self.bulk.hosts.items())]

    def host(self, view: View, host: bulk.Host) -> Object:
        states = [builder.state for builders in self.bulk.builders.values() for builder in builders if builder.host == host.number]
        return {
            "host": host.number, "name": host.name, "state": state_of(host, states), "why": host.work.away if host.work else None,
            "seen": None if host.seen is None else stamp(host.seen),
            "counts": dict(host.letters.counts) if host.letters else None, "builds": states.count(BUILDS) + states.count(bulk.CLAIMED),
            "queued": states.count(QUEUED), "built": view.built[host.number],
            "failed": sum(failure.host == host.number for failure in self.bulk.failures),
        }

    def by_age(self, view: View) -> List[Tuple[int, bulk.Builder]]:
        """What is built, the longest first."""
        return sorted(view.running, key=lambda one: (one[1].since, one[0]))

    def run_of(self, view: View, unit: int, builder: bulk.Builder) -> Object:
        name = self.division.units[unit].name
        usual = self.usual.known.get(name)
        return {"unit": name, "host": builder.host, "state": builder.state, "since": stamp(builder.since),
                "seconds": round(max(0.0, view.now - builder.since)), "usual": None if usual is None else round(usual)}

    def failures(self, view: View) -> List[Object]:
        """All failures, first those that block most."""
        self.copies = {}
        order = sorted(self.bulk.failures, key=lambda it: (-view.blocks[it.unit].paths, self.division.units[it.unit].name, it.host))
        return [self.failure(it, view.blocks[it.unit]) for it in order]

    def failure(self, failure: bulk.Failure, blocks: Blocked) -> Object:
        unit = self.division.units[failure.unit].name
        path = failure.work.failed_log(unit, failure.mark.log)
        end = self.ends.of(path) if path else b""
        copy = f"logs/{failure.host}.{work_folders.place_of(unit)}.txt" if end else None
        if copy:
            self.copies[copy] = work_folders.text_of(end).encode()
        again = [builder.host for builder in self.bulk.builders.get(failure.unit, [])]
        return {"unit": unit, "host": failure.host, "reason": failure.mark.reason, "time": stamp(failure.mark.since),
                "tries": self.bulk.tries_of(failure.unit), "blocks": blocks.paths, "holds": blocks.held_back, "again": again,
                "log": copy, "tail": lines_of(end)}

    def chain(self, view: View) -> Object:
        found: Chain = view.chain
        return {"units": [self.division.units[unit].name for unit in found.units],
                "seconds": round(found.weight) if self.usual.median is not None else None}

    def circles(self) -> List[List[str]]:
        return [[self.division.units[unit].name for unit in circle] for circle in self.bulk.needs.circles]

    # ---- units

    def unit(self, view: View, number: int) -> Object:
        """One unit. What doesn't apply to it is left out."""
        unit, letters = self.division.units[number], self.bulk.letters
        packages = {self.division.tree.paths[place]: letters.letter(place) for place in unit.places}
        found: Object = {"unit": unit.name, "letter": max(packages.values(), key=LETTERS.index), "packages": packages,
                         "tries": self.bulk.tries_of(number)}
        if self.bulk.tries[number]:
            failed = sorted(self.bulk.tries[number], key=lambda one: one[::-1])
            found["failed"] = [{"host": host, "time": stamp(when)} for host, when in failed]
        if view.is_held[number]:
            return {**found, **self.held(view, number)}
        usual = self.usual.known.get(unit.name)
        if usual is not None:
            found["usual"] = round(usual)
        claim = self.bulk.claims[number]
        if claim:
            found["claim"] = {"round": claim.round, "host": claim.member, "since": stamp(claim.since)}
        builders = self.bulk.builders.get(number)
        if builders:
            found["builders"] = [{"host": it.host, "state": it.state, "since": stamp(it.since)} for it in builders]
        if letters.waits[number]:
            found["waits"] = [self.division.units[other].name for other in self.bulk.needs.waits_for(letters, number)]
            found["needs"] = letters.waits[number]
        if number in view.blocked or number in self.bulk.needs.never:
            blockers = view.blocked.get(number, [])[:needs.MOST_NAMED]
            found["blocked"] = [self.division.units[it].name for it in blockers]
        return found

    def held(self, view: View, number: int) -> Object:
        """What there is to say of a unit that is held: its builder, in how many seconds, and since when it has been seen."""
        host, since = self.bulk.built_by[number], self.bulk.held_since[number]
        seconds = view.seconds.get(self.division.units[number].name)
        found: Object = {"host": host}
        if since is not None:
            found["since"] = stamp(since)
        if seconds is not None:
            found["seconds"] = round(seconds)
        return found


def state_of(host: bulk.Host, states: Sequence[str]) -> str:
    """What a host does, in a word."""
    if host.work and host.work.is_draining:
        return "drains"
    if host.work and host.work.away is not None:
        return "away"
    if BUILDS in states or bulk.CLAIMED in states:
        return "builds"
    if QUEUED in states:
        return "waits"
    return "idle" if host.log or host.work else "unknown"


def lines_of(end: bytes) -> List[str]:
    """The last lines of a log."""
    lines = work_folders.text_of(end).rstrip("\n").split("\n")[-work_folders.LINES:]
    return [line if len(line) <= 400 else f"{line[:400]} .." for line in lines] if end else []


def written(sample: Sample) -> Object:
    return {"time": stamp(sample.time), **sample.counts, "units": sample.units, "failed": sample.failed}
