"""Whether a node or a driver that ended is started again."""
from __future__ import annotations

import re
import signal
from typing import NamedTuple

AGAIN, RESTS, GIVEN_UP, STOPPED = "again", "rests", "given up", "stopped"
FAULT = re.compile(rb"^dpbn: fault ([0-9]+)( at [0-9]+)?$", re.MULTILINE)
# a log whose device failed: what the system has of it in memory may not be on the disk, so a person has to look first (dpbn(1))
DEVICE_FAILED = b"1001"
# the faults before the first turn that may pass: a folder that isn't mounted yet or a log that is in use, and a port that is in use
MAY_PASS = (b"2", b"1204")


class End(NamedTuple):
    """What is done with the part, and why. `holds_all` is of a node that came to rest."""

    what: str
    why: str
    holds_all: bool = False


def by_signal(status: int) -> str:
    try:
        return f"ended by {signal.Signals(-status).name}"
    except ValueError:
        return f"ended by signal {-status}"


def last_line(output: bytes, program: bytes) -> str:
    """The last line that is a message of the program, or else the last one at all."""
    lines = [line for line in output.split(b"\n") if line.strip()]
    own = [line for line in lines if line.startswith(program + b":")]
    return (own or lines or [b"it printed nothing"])[-1].decode("utf-8", "replace")[:300]


def of_node(status: int, output: bytes) -> End:
    """`output` is what the node printed since it was started."""
    if status < 0:
        return End(AGAIN, by_signal(status))
    faults = [found[0] for found in FAULT.findall(output)]
    if status in (1, 3) and DEVICE_FAILED in faults:
        return End(GIVEN_UP, "fault 1001: the device of its log failed or is full; see dpbn(1) before it is started again")
    if status == 0:
        return End(RESTS, "at rest, holds all that isn't ignored", True)
    if status == 3:
        return End(RESTS, "at rest, something that isn't ignored isn't held")
    why = f"status {status}: {last_line(output, b'dpbn')}"
    if status == 2 or status == 1 and faults and faults[-1] not in MAY_PASS:
        return End(GIVEN_UP, why)
    return End(AGAIN, why)


def of_driver(status: int, output: bytes) -> End:
    if status < 0:
        return End(AGAIN, by_signal(status))
    why = f"status {status}: {last_line(output, b'build-jobs')}"
    return End(GIVEN_UP if status == 2 else AGAIN, why)
