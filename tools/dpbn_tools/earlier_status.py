"""What an earlier report of the same run saw, as its status.json has it: since when things are as they are, how the bulk came along, and
which hooks were run."""
from __future__ import annotations

import json
from typing import Any, Dict, Optional

from dpbn_tools.letters import LETTERS
from dpbn_tools.progress import History, Sample, seconds_of
from dpbn_tools.status import Reporter

# a file that is larger isn't a status
MOST = 1 << 28


def read(path: str) -> Optional[Dict[str, Any]]:
    """The earlier status, or None if no such file can be read."""
    try:
        with open(path, "rb") as file:
            found = json.loads(file.read(MOST))
    except (OSError, ValueError, RecursionError):
        return None
    return found if isinstance(found, dict) else None


def take(reporter: Reporter, status: Dict[str, Any], now: float) -> bool:
    """Takes over an earlier status, once the reporter has looked: nothing of it if it is of another run, or of another form.
    Answers whether it did."""
    if status.get("listing") != reporter.bulk.tree.hex():
        return False
    try:
        samples = [sample(one) for one in status["history"]]
        hooks = {str(name): str(when) for name, when in status["hooks"].items()}
        units = {str(one["unit"]): one for one in status["list"]}
        held = [name for name, one in units.items() if one["letter"] in ("I", "B")]
        if not all(is_held(reporter, name) for name in held):
            return False
        for name, one in units.items():
            take_unit(reporter, name, one, now)
    except (KeyError, TypeError, ValueError, AttributeError):
        return False
    reporter.history, reporter.hooks = History(samples), hooks
    return True


def is_held(reporter: Reporter, name: str) -> bool:
    """What was held is held, or the logs are another run's."""
    unit = reporter.division.number.get(name)
    return unit is not None and reporter.bulk.letters.is_held(unit)


def sample(one: Dict[str, Any]) -> Sample:
    time = seconds_of(one["time"])
    if time is None:
        raise ValueError
    return Sample(time, {letter: int(one[letter]) for letter in LETTERS}, int(one["units"]), int(one["failed"]))


def take_unit(reporter: Reporter, name: str, one: Dict[str, Any], now: float) -> None:
    bulk, unit = reporter.bulk, reporter.division.number[name]
    if bulk.letters.is_held(unit):
        # what was not held then became held between the two reports
        bulk.held_since[unit] = seconds_of(one.get("since")) if one["letter"] in ("I", "B") else now
    for failed in one.get("failed", []):
        when = seconds_of(failed["time"])
        if when is not None:
            bulk.tries[unit].add((int(failed["host"]), int(when)))
    claim, earlier = bulk.claims[unit], one.get("claim")
    if claim and earlier and (claim.round, claim.member) == (earlier["round"], earlier["host"]):
        since = seconds_of(earlier["since"])
        bulk.claims[unit] = claim._replace(since=claim.since if since is None else min(since, claim.since))
