"""--version of the tools: the release, and the commit that `make install` and `make dist` write down."""
import os
import re
import subprocess
import sys
import tempfile

from topics.tally import TOP, contents

# the tools that take --version
TOOLS = ("build-jobs", "dpbn-host", "dpbn-hosts", "dpbn-report", "make-builds", "order-listing", "unpack-log")


def module(tally):
    """The line with a file VERSION, and without one."""
    sys.path.insert(0, f"{TOP}/tools")
    from dpbn_tools import version
    with tempfile.TemporaryDirectory() as folder:
        with open(f"{folder}/VERSION", "w", encoding="ascii") as file:
            subprocess.run([f"{TOP}/tools/commit"], stdout=file, check=True)
        written = contents(f"{folder}/VERSION").decode().strip()
        lines = [version.line("x", f"{folder}/{name}") for name in ("VERSION", "none")]
    plain = f"x {version.RELEASE}"
    wanted = [f"{plain} ({written})" if written else plain, plain]
    tally.add("tools/dpbn_tools/version.py", "" if lines == wanted else f"{lines}, not {wanted}")
    source = f"{TOP}/crates/dpbr_cli/src/release.rt"
    if os.path.exists(source):
        release = re.search(r'RELEASE: &str = "([^"]*)"', contents(source).decode())[1]
        tally.add("the release", "" if release == version.RELEASE else f"the programs have {release}, and the tools {version.RELEASE}")


def tools(tally):
    """Each tool prints its line, and ends with status 0."""
    from dpbn_tools import version
    for tool in TOOLS:
        done = subprocess.run([f"{TOP}/tools/{tool}", "--version"], stdin=subprocess.DEVNULL, capture_output=True, timeout=600)
        got = done.stdout.decode(), done.stderr.decode(), done.returncode
        tally.add(f"tools/{tool} --version", "" if got == (f"{version.line(tool)}\n", "", 0) else f"{got}")


def run(tally):
    module(tally)
    tools(tally)
