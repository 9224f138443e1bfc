"""A bulk build as its logs and work folders show it: what is held where, who builds what, and what failed."""
from __future__ import annotations

import os
from typing import Dict, Iterable, Iterator, List, NamedTuple, Optional, Sequence, Set, Tuple

from dpbn_tools import build_times, note_heads
from dpbn_tools.letters import Letters, Plan
from dpbn_tools.needs import Needs
from dpbn_tools.units import Division
from dpbn_tools.work_folders import BUILDS, HANDED_IN, Mark, Work, place_of

CLAIMED = "claimed"


class Refused(Exception):
    """What was given can't be read as what it should be."""


class Claim(NamedTuple):
    """The greatest claim of a unit that a member promised, and since when that has been seen."""

    round: int
    member: int
    since: float


class Builder(NamedTuple):
    """The host that builds a unit, or is about to, and since when."""

    host: int
    state: str
    since: float


class Failure(NamedTuple):
    """A build that failed at a host."""

    unit: int
    host: int
    mark: Mark
    work: Work


class Host:
    """What is known of one member: its log and its work folder, if they are given."""

    def __init__(self, number: int, name: str) -> None:
        self.number, self.name = number, name
        self.log: Optional[note_heads.Log] = None
        self.letters: Optional[Letters] = None
        self.work: Optional[Work] = None
        self.seen: Optional[float] = None

    def look(self, now: float) -> None:
        """When it was last seen to do something: its log, or what changes with each job and build. A driver touches the lock every ten
        seconds, so that says only that it runs."""
        times = [self.log.touched] if self.log else []
        if self.work:
            times += [touched(f"{self.work.path}/{name}") for name in ("jobs", "done", "failed", "build", "times")]
            times += [touched(self.work.log_of(unit) or "") for unit in self.work.running]
        known = [it for it in times if it is not None]
        self.seen = min(now, max(known)) if known else None


def touched(path: str) -> Optional[float]:
    try:
        return os.stat(path).st_mtime
    except OSError:
        return None


class Bulk:
    """All hosts of one run. A look reads what is new."""

    def __init__(self, division: Division, logs: Sequence[str], works: Sequence[Work], names: Sequence[str] = ()) -> None:
        self.division, self.plan, self.needs = division, Plan(division), Needs(division)
        self.tree = division.tree.digest()
        self.names, self.works = names, works
        # the work folder that was given with each log, if there are as many of both
        self.paired = list(works) if len(logs) == len(works) else []
        self.log_paths = list(logs)
        self.has_looked = False
        self.reset()

    def reset(self) -> None:
        """Forgets all that was read of logs."""
        self.logs = [note_heads.Log(path) for path in self.log_paths]
        self.hosts: Dict[int, Host] = {}
        self.weights: Tuple[int, ...] = ()
        self.letters = Letters(self.plan)
        self.needs.named.clear()
        count = len(self.division.units)
        self.held_since: List[Optional[float]] = [None] * count
        self.built_by: List[Optional[int]] = [None] * count
        self.claims: List[Optional[Claim]] = [None] * count
        self.failures: List[Failure] = []
        self.builders: Dict[int, List[Builder]] = {}
        self.tries: List[Set[Tuple[int, int]]] = [set() for _ in range(count)]
        self.problems: List[str] = []

    def host(self, number: int) -> Host:
        if number not in self.hosts:
            name = self.names[number] if number < len(self.names) else f"host {number}"
            self.hosts[number] = Host(number, name)
        return self.hosts[number]

    def look(self, now: float) -> None:
        """One look at all logs and work folders. What is wrong with one of them is refused at the first look, and is a problem later."""
        self.problems = []
        for place, log in enumerate(self.logs):
            age = log.age
            try:
                self.look_at(place, log, now)
            except (note_heads.Bad, OSError, Refused) as error:
                self.problem(f"{log.path}: {error.strerror if isinstance(error, OSError) else error}")
            if log.age != age and self.has_looked:
                self.look_anew(now)
                return
        for work in self.works:
            self.look_into(work)
        self.place_works()
        self.see(now)
        self.has_looked = True

    def look_anew(self, now: float) -> None:
        """Another log has the name of one that was read: what that said may no longer hold, so all logs are read again. What was seen
        before stays as old as it is."""
        held = [self.letters.is_held(unit) for unit in range(len(self.division.units))]
        since, claims, tries = self.held_since, self.claims, self.tries
        self.reset()
        self.look(now)
        for unit, was_held in enumerate(held):
            claim, earlier = self.claims[unit], claims[unit]
            if was_held:
                self.held_since[unit] = since[unit]
            if claim and earlier and (claim.round, claim.member) == (earlier.round, earlier.member):
                self.claims[unit] = earlier
            self.tries[unit] |= tries[unit]

    def look_into(self, work: Work) -> None:
        """Takes what is new in one work folder."""
        try:
            work.look()
        except OSError as error:
            self.problem(f"{work.path}: {error.strerror}")
        if work.times.bad:
            lines = "a line isn't" if work.times.bad == 1 else f"{work.times.bad} lines aren't"
            self.problems.append(f"{work.path}/times: {lines} 'UNIT SECONDS BYTES HOST'")

    def problem(self, text: str) -> None:
        if not self.has_looked:
            raise Refused(text)
        self.problems.append(text)

    def look_at(self, place: int, log: note_heads.Log, now: float) -> None:
        """Takes what is new in one log."""
        host: Optional[Host] = None
        for note in log.look():
            host = host or self.host_of(place, log)
            number = self.division.number.get(note.unit)
            if number is None:
                raise Refused(f"a note is on {note.unit}, which isn't a unit of the listing")
            self.take(host, number, note, now)
        if log.header and not host:
            self.host_of(place, log)
        if log.cut is not None:
            self.problems.append(f"{log.path}: the note at {log.cut} isn't whole, so what follows isn't read")

    def host_of(self, place: int, log: note_heads.Log) -> Host:
        """The host whose log this is. A log of another listing or run is refused."""
        header = log.header
        assert header
        if header.tree != self.tree:
            raise Refused("it is the log of another listing, or of one read otherwise (--single)")
        if self.weights and header.weights != self.weights:
            raise Refused("it has other members or weights than an earlier log")
        self.weights = header.weights
        for number in range(len(self.weights)):
            self.host(number)
        host = self.host(header.member)
        if host.log not in (None, log):
            raise Refused(f"member {header.member} has an earlier log")
        if host.log is None:
            host.log, host.letters = log, Letters(self.plan)
            if self.paired and not host.work:
                host.work = self.paired[place]
        return host

    def take(self, host: Host, unit: int, note: note_heads.Note, now: float) -> None:
        """Takes a note of a host's log."""
        assert host.letters
        if note.kind == note_heads.HELD:
            host.letters.hold(unit)
            if not self.letters.is_held(unit):
                self.letters.hold(unit)
                self.built_by[unit] = note.member
                self.held_since[unit] = now if self.has_looked else None
        elif note.kind in (note_heads.PROMISED, note_heads.VOTED):
            claim = self.claims[unit]
            if not claim or (note.round, note.member) > (claim.round, claim.member):
                self.claims[unit] = Claim(note.round, note.member, now)

    def place_works(self) -> None:
        """Gives each work folder to the member whose jobs are in it; or to that of the log given with it, until a job shows whose it is."""
        for work in self.works:
            if work.member is not None and self.host(work.member).work is not work:
                for host in self.hosts.values():
                    host.work = None if host.work is work else host.work
                self.host(work.member).work = work

    def of_work(self, work: Work) -> Host:
        """The host of a work folder. One of which no member is known counts as a host of its own, after the members."""
        for host in self.hosts.values():
            if host.work is work:
                return host
        number = max([len(self.weights) - 1, *self.hosts], default=-1) + 1
        host = self.host(number)
        host.name, host.work = os.path.basename(os.path.realpath(work.path)), work
        return host

    def see(self, now: float) -> None:
        """What failed, and who builds what."""
        self.failures, self.builders = [], {}
        for work in self.works:
            host = self.of_work(work)
            for name, mark in sorted(work.marks.items()):
                self.see_mark(host, work, name, mark)
            for unit, state, since in work.states():
                self.add_builder(unit, Builder(host.number, state, since))
        for number, member, since in self.open_claims():
            self.add_builder(self.division.units[number].name, Builder(member, CLAIMED, since))
        for host in self.hosts.values():
            host.look(now)

    def see_mark(self, host: Host, work: Work, name: str, mark: Mark) -> None:
        number = self.division.number.get(mark.unit or "")
        if number is None:
            self.problems.append(f"{work.path}/failed/{name}: it is the mark of no unit that is known")
            return
        self.tries[number].add((host.number, int(mark.since)))
        if not self.letters.is_held(number):
            self.failures.append(Failure(number, host.number, mark, work))

    def add_builder(self, unit: str, builder: Builder) -> None:
        number = self.division.number.get(unit)
        if number is not None and not self.letters.is_held(number):
            self.builders.setdefault(number, []).append(builder)

    def open_claims(self) -> Iterator[Tuple[int, int, float]]:
        """The units that can be built, and that a member claimed of whose work folder nothing is known."""
        for unit, claim in enumerate(self.claims):
            if claim and not self.letters.is_held(unit) and not self.letters.waits[unit] and not self.host(claim.member).work:
                yield unit, claim.member, claim.since

    def failed(self) -> List[int]:
        """The units of which a build failed, and that aren't held, each once."""
        return sorted({failure.unit for failure in self.failures})

    def tries_of(self, unit: int) -> int:
        """How many builds of a unit are known: those that failed, those that run, and the one that is held."""
        running = sum(builder.state in (BUILDS, HANDED_IN) for builder in self.builders.get(unit, []))
        return len(self.tries[unit]) + running + (1 if self.letters.is_held(unit) else 0)

    def seconds(self) -> Dict[str, float]:
        """How long the builds of this run took, by unit; a line of the host that built what is held decides."""
        found: Dict[str, float] = {}
        for work in self.works:
            host = self.of_work(work)
            for took in self.named(work.times.builds):
                if took.unit not in found or self.built_by[self.division.number[took.unit]] == host.number:
                    found[took.unit] = took.seconds
        return found

    def named(self, builds: Iterable[build_times.Took]) -> List[build_times.Took]:
        """These builds with the names of their units; a line may name a path of a unit, too. Of other units they are left out."""
        units = [(self.division.unit_of(took.unit), took) for took in builds]
        return [took._replace(unit=unit.name) for unit, took in units if unit]

    def times(self) -> List[build_times.Took]:
        return self.named(took for work in self.works for took in work.times.builds)


def units_by_place(division: Division) -> Dict[str, str]:
    """The units by what their files are named in a work folder."""
    return {place_of(unit.name): unit.name for unit in division.units}
