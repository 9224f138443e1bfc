"""Writes the file of builds that dpbn(1) reads, from a folder that has a folder for each package: make-builds(1)."""
from __future__ import annotations

import argparse
import os
import sys
from typing import List, TextIO

from dpbn_tools.builds import fit, text_of
from dpbn_tools.folders import Refused, packages_in
from dpbn_tools.version import add_version
from dpbn_tools.words import number


def write(parts: List[str], out: TextIO) -> None:
    for place, part in enumerate(parts):
        out.write(("," if place else "{") + part)
    out.write("}\n" if parts else "{}\n")
    out.flush()


def options() -> argparse.Namespace:
    words = argparse.ArgumentParser(prog="make-builds", description="Writes the file of builds that dpbn(1) reads.")
    add_version(words)
    words.add_argument("folder", metavar="FOLDER", help="has a folder for each package, named as its path with : for each /")
    words.add_argument("--digests", metavar="BYTES", type=number(0, 10**18 - 1),
                       help="a larger file gives way to its SHA-256, as do others in a build that would be too large")
    words.add_argument("--single", action="store_true", help="each package is a build by itself, as for dpbn --single")
    return words.parse_args()


def main() -> None:
    asked = options()
    try:
        packages = packages_in(asked.folder)
        lines = fit(packages, asked.digests, asked.single)
        parts = text_of(packages)
    except MemoryError:
        sys.exit("make-builds: there is no memory for it")
    except (OSError, Refused) as error:
        sys.exit(f"make-builds: {error}")
    try:
        write(parts, sys.stdout)
    except OSError as error:
        # what is still to be written isn't tried again at the end
        os.dup2(os.open(os.devnull, os.O_WRONLY), sys.stdout.fileno())
        sys.exit(f"make-builds: {error}")
    for line in lines:
        print(f"make-builds: {line}", file=sys.stderr)
