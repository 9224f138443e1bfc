"""How a bulk came along before anybody looked, by the times at which the logs of its builds ended."""
from __future__ import annotations

from typing import List, Optional, Tuple

from dpbn_tools.bulk import Bulk, touched
from dpbn_tools.letters import Letters
from dpbn_tools.progress import Sample

# how many samples are made of it at most
MOST = 200


def ended(bulk: Bulk, unit: int) -> Optional[float]:
    """When the log of the build ended that made what is held, if its host's work folder has it."""
    number = bulk.built_by[unit]
    host = bulk.hosts.get(number) if number is not None else None
    path = host.work.log_of(bulk.division.units[unit].name) if host and host.work else None
    return touched(path) if path else None


def recall(bulk: Bulk, now: float) -> List[Sample]:
    """Notes since when each unit has been held, as far as logs say it, and answers samples of the time until now."""
    times: List[Tuple[float, int]] = []
    letters, unknown = Letters(bulk.plan), 0
    for unit in range(len(bulk.division.units)):
        if not bulk.letters.is_held(unit):
            continue
        when = ended(bulk, unit)
        if when is None or when > now:
            unknown += 1
            letters.hold(unit)
        else:
            bulk.held_since[unit] = when
            times.append((when, unit))
    times.sort()
    failed = sorted(failure.mark.since for failure in bulk.failures)
    samples = [sample(times[0][0] - 1, letters, unknown, failed)] if times else []
    step = max(1, len(times) // MOST)
    for count, (when, unit) in enumerate(times, 1):
        letters.hold(unit)
        if count % step == 0 or count == len(times):
            samples.append(sample(when, letters, unknown + count, failed))
    return samples


def sample(when: float, letters: Letters, held: int, failed: List[float]) -> Sample:
    return Sample(when, dict(letters.counts), held, sum(one <= when for one in failed))
