"""A job that a node posts: what is to be built on what, in the form of dpbn-formats(5)."""
from __future__ import annotations

import hashlib
import os
import re

from dpbn_tools.paths import NUMBER, is_path

NAME = re.compile("[0-9a-f]{64}")
TREE = re.compile(b"@tree [0-9a-f]{64}")
TASK = (b"@tree ", b"@unit ", b"@package ", b"@built ")
# the most bytes of a job's text: a line of 260 bytes for each of 16,384 packages, one of 600 for each that they are built on
MAX_JOB = 16_777_216


class NoJob(Exception):
    """Why a file is no job."""


def text_of_job(path: str) -> bytes:
    """What is in a job's file. If it is a FIFO nobody is waited for."""
    with open(path, "rb", opener=lambda name, how: os.open(name, how | os.O_NONBLOCK)) as file:
        return file.read(MAX_JOB) or b""


class Job:
    """What is to be built on what."""

    def __init__(self, name: str, text: bytes) -> None:
        self.name, self.text = name, text
        lines = text.split(b"\n")
        task = [line for line in lines if line.startswith(TASK)]
        if hashlib.sha256(b"".join(line + b"\n" for line in task)).hexdigest() != name:
            raise NoJob("its name isn't that of its text")
        hosts = [line[6:] for line in lines if line.startswith(b"@host ")]
        units = [line[6:] for line in task if line.startswith(b"@unit ")]
        if not task or not TREE.fullmatch(task[0]) or not hosts or not units:
            raise NoJob("it doesn't begin with its tree, or a line is lacking")
        self.unit, self.host = units[0], hosts[0].decode("ascii", "replace")
        self.packages = [line[9:] for line in task if line.startswith(b"@package ")]
        self.built = [line[7:] for line in task if line.startswith(b"@built ")]
        if not all(map(is_path, (self.unit, *self.packages))) or not NUMBER.fullmatch(hosts[0]):
            raise NoJob("it names what is no path, or no host")

    def __str__(self) -> str:
        return self.unit.decode()
