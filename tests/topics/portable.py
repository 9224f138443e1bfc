"""The tools without what only Linux has (tests/without-linux): a Python without waitid, sendfile, /proc and the like, the one true awk, a
ksh as sh, bmake as make, and no timeout, flock or sha256sum. That is in place of OpenBSD, on which nothing here ran. All of the topics
`jobs` and `tools` run so by hand: tests/without-linux tests/run jobs tools."""
import os
import shutil
import signal
import subprocess
import tempfile
from typing import Dict, List, Tuple

from topics import ssh
from topics.tally import TESTS, TOP, contents

# parts of other topics run below this, each with limits of its own
LIMIT = 1200
# parts of other topics that run there, with what is printed if all passed
PARTS = {"jobs": ("chain", "side_by_side", "failures"), "order": ("cases", "refused"), "tree": ("dumps", "refused", "too_large"), "packages": ("good_logs", "bad_logs")}
RUN = """import sys
sys.path.insert(0, {tests!r})
sys.dont_write_bytecode = True
from topics import {topic}
from topics.tally import Tally
tally = Tally()
for part in {parts!r}:
    tally.run(part, getattr({topic}, part))
print(tally.passed, "passed,", tally.failed, "failed")
sys.exit(bool(tally.failed))
"""


def without_linux(words: List[str], more: Dict[str, str]) -> Tuple[str, int]:
    done = subprocess.run([f"{TESTS}/without-linux", *words], stdin=subprocess.DEVNULL, stdout=subprocess.PIPE, stderr=subprocess.STDOUT, timeout=LIMIT,
                          env={**os.environ, **more}, cwd=TOP, check=False)
    return done.stdout.decode(errors="replace"), done.returncode


def parts(tally) -> None:
    """Parts of topics, each with all that it says of its own."""
    for topic, names in PARTS.items():
        said, status = without_linux(["python3", "-c", RUN.format(tests=TESTS, topic=topic, parts=names)], {})
        tally.add(f"without Linux: {topic}, {', '.join(names)}", "" if status == 0 else said[-1500:])


def taken_away(tally) -> None:
    """What is taken away is gone, or the rest of this topic says nothing."""
    said, status = without_linux(["python3", "-c", "import os, sys\nprint(hasattr(os, 'waitid'), hasattr(os, 'sendfile'), sys.executable)\n"
                                  "try:\n    open('/proc/self/stat')\nexcept FileNotFoundError:\n    print('no /proc')\n"
                                  "import subprocess\nprint(subprocess.run([sys.executable, '-I', '-S', '-c', 'import os; print(hasattr(os, \"waitid\"))'], stdout=-1).stdout)"], {})
    right = status == 0 and "False False " in said and "no /proc" in said and "b'False\\n'" in said and "/without-linux." in said
    tally.add("without Linux: the calls are gone", "" if right else said)
    said, _ = without_linux(["sh", "-c", "command -v timeout flock sha256sum setsid"], {})
    tally.add("without Linux: the commands are gone", said.replace("tests/without-linux: there is no oksh mksh: ksh is the usual one\n", "") if "/" in said.split("usual one\n")[-1] else "")


def locks(tally) -> None:
    """Where flock is refused, as by some servers of NFS, build-jobs works, and a second one of the folder doesn't."""
    with tempfile.TemporaryDirectory() as folder:
        os.mkdir(f"{folder}/work")
        words = [f"{TESTS}/without-linux", f"{TOP}/tools/build-jobs", f"{folder}/work", f"{folder}/log", "--", "true"]
        with open(f"{folder}/said", "wb") as out:
            first = subprocess.Popen(words, stdin=subprocess.DEVNULL, stdout=out, stderr=out, env={**os.environ, "NO_FLOCK": "1"}, start_new_session=True)
        try:
            runs = ssh.until(lambda: os.path.exists(f"{folder}/work/lock") and os.path.getsize(f"{folder}/work/lock") > 0)
            said, status = without_linux(words[1:], {"NO_FLOCK": "1"})
        finally:
            os.killpg(first.pid, signal.SIGTERM)
            first.wait(LIMIT)
        told = contents(f"{folder}/said").decode()
        tally.add("without Linux: build-jobs where flock is refused", "" if runs and "0 built" in told else f"{told}")
        tally.add("without Linux: a second one of the folder", "" if status == 1 and "another one works on" in said else f"status {status}, {said}")


def places_without_flock(tally) -> None:
    """build-over-ssh needs no flock(1) where the driver says which place a job has, and sha256(1) in place of sha256sum."""
    if not shutil.which("mksh") and not shutil.which("oksh"):
        tally.skip("build-over-ssh by a ksh", "there is no mksh and no oksh here")
        return
    with ssh.laid() as place:
        with open(f"{place.folder}/go", "w", encoding="utf-8") as file:
            file.write('cd "$1" && shift && exec "$@"\n')
        done = subprocess.run([f"{TESTS}/without-linux", "sh", f"{place.folder}/go", f"{place.folder}/obj", *place.words()], stdin=subprocess.DEVNULL, stdout=subprocess.PIPE,
                              stderr=subprocess.STDOUT, timeout=LIMIT, env={**os.environ, **place.env}, check=False)
        with open(f"{place.folder}/log", "wb") as log:
            log.write(done.stdout)
        tally.add("without Linux: build-over-ssh", f"status {done.returncode}: {contents(place.folder + '/log').decode()[-600:]}" if done.returncode else ssh.built(place))


def shells(tally) -> None:
    """Each tool that is a shell script is one for other shells, too."""
    names = [name for name in os.listdir(f"{TOP}/tools") if os.path.isfile(f"{TOP}/tools/{name}") and contents(f"{TOP}/tools/{name}").startswith(b"#!/bin/sh")]
    for shell in ("mksh", "oksh", "dash"):
        if shutil.which(shell):
            for name in sorted(names):
                done = subprocess.run([shell, "-n", f"{TOP}/tools/{name}"], capture_output=True, timeout=LIMIT, check=False)
                tally.add(f"tools/{name}, read by {shell}", done.stderr.decode() if done.returncode else "")


def run(tally) -> None:
    taken_away(tally)
    shells(tally)
    parts(tally)
    locks(tally)
    places_without_flock(tally)
