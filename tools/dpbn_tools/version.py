"""What the tools print if they are asked for their version."""
import argparse
import os

# the release, which dpbr and dpbn have in crates/dpbr_cli/src/release.rt
RELEASE = "0.9"

# where `make install` and `make dist` write the commit that the tools are of: next to the folder of these modules
COMMIT_FILE = f"{os.path.dirname(os.path.dirname(os.path.realpath(__file__)))}/VERSION"


def commit(path: str = COMMIT_FILE) -> str:
    """The commit that is written in the file, or nothing if there is no such file, as in a checkout."""
    try:
        with open(path, encoding="ascii", errors="replace") as file:
            return file.readline(80).strip()
    except OSError:
        return ""


def line(tool: str, path: str = COMMIT_FILE) -> str:
    """The tool's name, the release, and the commit if it is known."""
    known = commit(path)
    return f"{tool} {RELEASE} ({known})" if known else f"{tool} {RELEASE}"


def add_version(words: argparse.ArgumentParser) -> None:
    """Lets the parser take --version, which prints the line on standard output and ends with status 0."""
    words.add_argument("--version", action="version", version=line(words.prog))
