"""How much of a processor a process takes."""
import os
import subprocess
import sys
import time

import pytest

from topics import processor

pytestmark = pytest.mark.skipif(not os.path.exists("/proc/self/stat"), reason="there is no /proc here")
# a program that has something to do first
LATER = "import time\nwhile time.process_time() < 0.5: pass\ninput()"


@pytest.mark.parametrize("code", ["input()", LATER])
def test_a_process_at_rest(code):
    process = subprocess.Popen([sys.executable, "-c", code], stdin=subprocess.PIPE)
    try:
        assert processor.least_share(process.pid, 0.02, window=0.5, windows=200) < 0.02
    finally:
        process.kill()
        process.communicate()


def test_the_seconds_of_a_process():
    process = subprocess.Popen([sys.executable, "-c", LATER], stdin=subprocess.PIPE)
    try:
        end = time.monotonic() + 240
        while processor.seconds_of(process.pid) < 0.4 and time.monotonic() < end:
            time.sleep(0.05)
        assert processor.seconds_of(process.pid) >= 0.4
    finally:
        process.kill()
        process.communicate()


@pytest.mark.parametrize("used,windows,least", [((0.5, 1.0, 0.1, 0.3), 3, 0.1), ((0.5, 0.01, 0.1), 5, 0.01), ((0.5, 0.4), 2, 0.4)])
def test_which_windows_count(monkeypatch, used, windows, least):
    """The least of all windows, up to the first that is below the limit."""
    clock, taken, left = [0.0], [0.0], list(used)

    def sleep(seconds):
        clock[0] += seconds
        taken[0] += seconds * left.pop(0)

    monkeypatch.setattr(processor.time, "monotonic", lambda: clock[0])
    monkeypatch.setattr(processor.time, "sleep", sleep)
    monkeypatch.setattr(processor, "seconds_of", lambda _: taken[0])
    assert round(processor.least_share(1, 0.04, window=2, windows=windows), 6) == least
    assert len(left) == len(used) - max(1, windows if least >= 0.04 else used.index(least) + 1)
