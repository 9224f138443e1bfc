"""The program `probes`, the driver that answers rows of questions on the crates below: a line `== TOPIC` says whom the rows after
it ask. The gate doesn't prove it. If it is built from the current sources, it is run. Otherwise its sources are compiled
without a proof, once for all texts of all topics, and the kit runs it."""
import os
import re
import subprocess
import sys
import tempfile

from topics.tally import TOP

sys.path.insert(0, f"{TOP}/tools")

import sources

# where `tools/prove probes` leaves it
PROBES = sources.program_of("probes")
HOW = "`tools/prove probes` builds it"
# how long its answers may take, in seconds, on a machine that does other things, too
SECONDS = 3600

# what topics ask for before any of it is answered: functions that return texts
ASKED = []
# what was answered, by the text; and why nothing more can be
ANSWERED = {}
FAILED = []


def is_built(tally, name):
    """Whether the program itself can be run; if not, the part of this name is skipped."""
    if sources.is_current("probes"):
        return True
    lacking = "the program `probes` is older than its sources" if os.path.exists(PROBES) else "the program `probes` isn't built"
    tally.skip(name, f"{lacking}: {HOW}")
    return False


def ask(texts):
    """Notes a function that returns texts which a topic will ask about, so that one compilation serves all topics."""
    ASKED.append(texts)


def answer(text):
    """What the program answers to a text."""
    if FAILED:
        raise FAILED[0]
    if text not in ANSWERED:
        asked = {text, *(it for texts in ASKED for it in texts())} - set(ANSWERED)
        try:
            ANSWERED.update(run_all(sorted(asked)) if sources.is_current("probes") else tried(sorted(asked)))
        except (OSError, subprocess.SubprocessError) as error:
            FAILED.append(error)
            raise
    return ANSWERED[text]


def is_current():
    """Whether the program that is built answers."""
    return sources.is_current("probes")


def how():
    """How it answers."""
    return "by the program that is built" if sources.is_current("probes") else "by its sources, without a proof"


def run_all(texts):
    """The answers of the program that is built."""
    return {text: subprocess.run([PROBES], input=text, stdout=subprocess.PIPE, check=True, timeout=SECONDS).stdout for text in texts}


def shown(out):
    """The answers by the names of the cases, as the kit shows them: each after a line `== NAME`."""
    parts = re.split(rb"^== (text\d+)\n", out, flags=re.MULTILINE)
    return {name.decode(): answer for name, answer in zip(parts[1::2], parts[2::2])}


def tried(texts):
    """The answers of the sources, which are compiled without a proof."""
    with tempfile.TemporaryDirectory(prefix="dpbn-") as folder:
        sources.copy(sources.with_all_below(["probes"]), folder)
        os.mkdir(f"{folder}/asked")
        for number, text in enumerate(texts):
            with open(f"{folder}/asked/text{number}", "wb") as file:
                file.write(text)
        done = subprocess.run(["rt", "try", "--steps", "1", "--seconds", str(SECONDS), "--cases", f"{folder}/asked"],
                              cwd=f"{folder}/crates/probes", stdin=subprocess.DEVNULL, stdout=subprocess.PIPE, stderr=subprocess.PIPE)
    told = shown(done.stdout)
    if done.returncode or len(told) != len(texts):
        raise OSError(f"rt try ended with {done.returncode}: {(done.stdout + done.stderr)[-2000:].decode(errors='replace')}")
    return {text: told[f"text{number}"] for number, text in enumerate(texts)}
