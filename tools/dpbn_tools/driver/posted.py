"""A job that is posted, and what it waits for before it can be built."""
from __future__ import annotations

import enum
from typing import Dict, List, Optional, Tuple

from dpbn_tools.log import Large, Record
from dpbn_tools.driver.job import Job


class Earlier(enum.Enum):
    """What is known of builds of earlier runs."""

    UNKNOWN = 1
    LOOKING = 2
    NONE = 3


class Posted:
    """The job, and how far it is."""

    def __init__(self, job: Job) -> None:
        self.job = job
        # what it is built on, once all of that is held
        self.needed: Optional[List[Record]] = None
        # the files that aren't known to be in the store
        self.unsure: Dict[str, Tuple[Large, Record]] = {}
        # when it is looked at again after the system refused something, and when its files are
        self.due, self.files_due = 0.0, 0.0
        # what the store's version was then, and when its files are looked at though that is the same
        self.version, self.poll_due = -1, 0.0
        self.lacking_since: Optional[float] = None
        self.earlier, self.key = Earlier.UNKNOWN, ""

    def needs(self, needed: List[Record]) -> None:
        self.needed = needed
        self.is_unsure()

    def is_unsure(self) -> None:
        """All of its files have to be looked at."""
        self.unsure = {large.digest: (large, record) for record in self.needed or [] for large in record.large}
        self.files_due, self.version = 0.0, -1
