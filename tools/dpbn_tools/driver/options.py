"""The words of build-jobs(1)."""
from __future__ import annotations

import argparse
import sys
from typing import List

from dpbn_tools.version import add_version
from dpbn_tools.words import number

MAX_SIZE, MAX_SECONDS = 10**18 - 1, 10**9


def parser() -> argparse.ArgumentParser:
    words = argparse.ArgumentParser(prog="build-jobs", description="Builds the jobs that a node posts in its work folder.",
                                    allow_abbrev=False)
    add_version(words)
    words.add_argument("-j", metavar="N", type=number(1, 64), default=1, help="how many builds run at a time; 1")
    words.add_argument("--listing", metavar="LISTING", help="the node's listing, for the packages' names")
    files(words)
    logs(words)
    limits(words)
    words.add_argument("--grace", metavar="SECONDS", type=number(0, 3600), default=2, help="between SIGTERM and SIGKILL; 2")
    words.add_argument("--ready", metavar="COMMAND", help="ends with 0 if this host can build")
    words.add_argument("--failures", metavar="N", type=number(0, 1000), default=3,
                       help="after how many failures in a row this host pauses, 0 for never; 3")
    words.add_argument("--reuse", metavar="DIR", help="has builds of earlier runs")
    words.add_argument("--inputs", metavar="COMMAND", help="prints what goes into the unit PKGPATH beside packages; for --reuse")
    words.add_argument("--reuse-by-name", action="store_true", help="packages with the same names count as the same for --reuse")
    words.add_argument("work", metavar="WORK", help="the work folder of the node")
    words.add_argument("log", metavar="LOG", help="the log of the node")
    words.add_argument("command", metavar="COMMAND", nargs="+", help="builds a unit, by PKGPATH, PACKAGES, DEPS, OUT and others")
    return words


def files(words: argparse.ArgumentParser) -> None:
    words.add_argument("--digests", metavar="BYTES", type=number(0, MAX_SIZE), help="a larger file goes as its digest")
    words.add_argument("--store", metavar="DIR", help="where such files are kept; WORK/store")
    words.add_argument("--fetch", metavar="COMMAND", help="gets a file that isn't there: TARGET, by HOST, SHA256, SIZE and NAME")
    words.add_argument("--copies", metavar="K", type=number(1, 9), default=1, help="how many stores have a file before it is handed in; 1")
    words.add_argument("--push", metavar="COMMAND", help="brings a file, SOURCE, into the store of HOST as SHA256")


def logs(words: argparse.ArgumentParser) -> None:
    words.add_argument("--logs", metavar="DIR", help="where what builds print goes; WORK/logs")
    words.add_argument("--keep-logs", metavar="K", type=number(1, 1000), default=3, help="how many logs of a unit are kept; 3")
    words.add_argument("--keep-failed", metavar="DIR", help="where the work trees of failed builds are kept")


def limits(words: argparse.ArgumentParser) -> None:
    words.add_argument("--limit", metavar="SECONDS", type=number(1, MAX_SECONDS), help="a build that takes longer fails")
    words.add_argument("--silent", metavar="SECONDS", type=number(1, MAX_SECONDS), help="so does one that prints nothing for so long")
    words.add_argument("--log-bytes", metavar="N", type=number(1, MAX_SIZE), help="so does one that prints more")
    words.add_argument("--out-bytes", metavar="N", type=number(1, MAX_SIZE), help="so does one that makes more")
    words.add_argument("--free", metavar="BYTES", type=number(0, MAX_SIZE), help="nothing begins with less free disk")
    words.add_argument("--limits", metavar="FILE", help="has such limits for units by name: PATH WORD NUMBER")


def options(given: List[str]) -> argparse.Namespace:
    words = parser()
    # argparse would take a `--` from among the command's arguments, too, so it doesn't see these
    seen = given.index("--") + 2 if "--" in given else len(given)
    asked = words.parse_args(given[:seen])
    asked.command += given[seen:]
    if asked.copies > 1 and (not asked.push or asked.digests is None):
        words.error("--copies needs --push and --digests")
    if bool(asked.reuse) != bool(asked.inputs):
        words.error("--reuse and --inputs need each other")
    if asked.reuse and not asked.listing:
        words.error("--reuse needs --listing, since the packages' names count")
    if asked.reuse_by_name and not asked.reuse:
        words.error("--reuse-by-name needs --reuse")
    return asked


def asked_for() -> argparse.Namespace:
    return options(sys.argv[1:])
