"""How a bulk came along: samples over time, what was built by the hour, and when it will be over."""
from __future__ import annotations

import calendar
import time
from typing import Dict, Iterable, List, NamedTuple, Optional, Tuple

# how many samples are kept at most, and over how many seconds the rate is measured
MOST_SAMPLES, RATE_SECONDS = 480, 3600
# a rate is known once this many units became held while somebody looked, in this many seconds
LEAST_UNITS, LEAST_SECONDS = 3, 10
FORM = "%Y-%m-%dT%H:%M:%SZ"
HOUR = 3600


class Sample(NamedTuple):
    """How many paths have each letter at a time; how many units are held, and of how many a build failed."""

    time: float
    counts: Dict[str, int]
    units: int
    failed: int

    def is_like(self, other: "Sample") -> bool:
        return self[1:] == other[1:]


class Estimate(NamedTuple):
    """How many seconds are left, and what says so: times of earlier builds, or the rate."""

    seconds: float
    by: str


def stamp(seconds: float) -> str:
    """A time as it is written: in UTC, to the second."""
    return time.strftime(FORM, time.gmtime(seconds))


def seconds_of(text: object) -> Optional[float]:
    """The time that is written so, or None if it isn't one."""
    try:
        return float(calendar.timegm(time.strptime(text, FORM))) if isinstance(text, str) else None
    except (ValueError, OverflowError):
        return None


class History:
    """Samples from the first look on. While nothing changes the last one moves on."""

    def __init__(self, samples: Iterable[Sample] = ()) -> None:
        self.samples: List[Sample] = list(samples)

    def add(self, sample: Sample) -> None:
        last = self.samples[-2:]
        if last and sample.time < last[-1].time:
            # the clock was set back
            sample = sample._replace(time=last[-1].time)
        if len(last) == 2 and all(it.is_like(sample) for it in last):
            self.samples.pop()
        self.samples.append(sample)
        if len(self.samples) > MOST_SAMPLES:
            half = len(self.samples) // 2
            self.samples = self.samples[:half:2] + self.samples[half:]

    def changed(self) -> Optional[float]:
        """When something was seen to change last."""
        found = None
        for earlier, later in zip(self.samples, self.samples[1:]):
            if not earlier.is_like(later):
                found = later.time
        return found if found is not None or not self.samples else self.samples[0].time

    def rate(self) -> Optional[float]:
        """How many units become held in a second, over the last hour; or None if too little was seen."""
        if not self.samples:
            return None
        last = self.samples[-1]
        first = next(it for it in self.samples if it.time >= last.time - RATE_SECONDS)
        units, seconds = last.units - first.units, last.time - first.time
        return units / seconds if units >= LEAST_UNITS and seconds >= LEAST_SECONDS else None


def by_times(left: Iterable[Tuple[float, float]], chain: float, places: int) -> Optional[Estimate]:
    """By how long each unit that is left takes and has been built for already, the longest chain, and how many are built at a time."""
    work = sum(max(0.0, usual - spent) for usual, spent in left)
    return Estimate(max(chain, work / max(1, places)), "times")


def by_rate(units: int, rate: Optional[float]) -> Optional[Estimate]:
    return Estimate(units / rate, "rate") if rate else None


def by_hour(held_since: Iterable[Optional[float]], sizes: Iterable[int]) -> List[Tuple[float, int, int]]:
    """For each hour in which units became held: when it began, how many units, and of how many paths."""
    hours: Dict[int, List[int]] = {}
    for since, size in zip(held_since, sizes):
        if since is not None:
            one = hours.setdefault(int(since // HOUR), [0, 0])
            one[0] += 1
            one[1] += size
    return [(float(hour * HOUR), units, paths) for hour, (units, paths) in sorted(hours.items())]
