"""The packages' names as a listing has them."""
from __future__ import annotations

from typing import Dict, Iterable, Optional

from dpbn_tools.log import Record
from dpbn_tools.paths import canonical, is_name, is_path
from dpbn_tools.driver.job import Job


class BadNames(Exception):
    """What is wrong with a listing or a file of names."""


def names_in(path: str) -> Dict[bytes, bytes]:
    """The package name of each path in a listing."""
    found: Dict[bytes, bytes] = {}
    with open(path, "rb") as file:
        for line in file:
            name, equal, value = line.partition(b"=")
            at, dot, variable = name.rpartition(b".")
            if equal and dot and variable == b"FULLPKGNAME":
                found[canonical(at)] = value.strip(b" \t\r\n")
    return found


def read_pairs(path: str) -> Dict[bytes, bytes]:
    """A file of lines `PATH NAME`."""
    found: Dict[bytes, bytes] = {}
    with open(path, "rb") as file:
        for number, line in enumerate(file, 1):
            fields = line.split()
            if not fields:
                continue
            if len(fields) != 2 or not is_path(canonical(fields[0])) or not is_name(fields[1]):
                raise BadNames(f"line {number} of NAMES isn't `PATH NAME`")
            found[canonical(fields[0])] = fields[1]
    return found


class Listed:
    """The names of a listing."""

    def __init__(self, path: str) -> None:
        self.path = path
        self.names = names_in(path)

    def of(self, job: Job) -> Dict[bytes, bytes]:
        """The names of a job's packages."""
        return {path: self.names[path] for path in job.packages if path in self.names}

    def lacking(self, job: Job) -> Optional[bytes]:
        """A package of the job that isn't listed: then the listing is another one than the node's."""
        return next((path for path in job.packages if path not in self.names), None)

    def other(self, records: Iterable[Record]) -> Optional[Record]:
        """A record with another name than the listed one: then the listing is another one than the node's."""
        return next((record for record in records if self.names.get(record.path, record.name) != record.name), None)
