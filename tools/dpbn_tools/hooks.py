"""Commands that a report runs once: at the first failure, and when the bulk is over."""
from __future__ import annotations

import os
import subprocess
import tempfile
import time
from typing import Any, Dict, List, NamedTuple, Optional

from dpbn_tools.status import FINISHED, STOPPED

# how long a report that ends waits for a command, in seconds
LONGEST_WAIT = 60
FAILURE, END = "failure", "end"


class Hook(NamedTuple):
    """A command, and what it is run at."""

    at: str
    command: str

    def is_due(self, status: Dict[str, Any]) -> bool:
        if self.at == FAILURE:
            return bool(status["failures"])
        return status["state"] in (FINISHED, STOPPED)


class Hooks:
    """Starts each command once it is due, and never waits for it while the report goes on."""

    def __init__(self, at_failure: Optional[str], at_end: Optional[str]) -> None:
        self.hooks = [Hook(at, command) for at, command in ((FAILURE, at_failure), (END, at_end)) if command]
        self.running: List["subprocess.Popen[bytes]"] = []

    def due(self, status: Dict[str, Any], done: Dict[str, str]) -> List[Hook]:
        """The commands that are to be run at this status, and weren't yet."""
        return [hook for hook in self.hooks if hook.at not in done and hook.is_due(status)]

    def start(self, hook: Hook, status: Dict[str, Any], text: str, folder: str) -> None:
        """Starts a command of the shell, with the status in words on its standard input."""
        more = {"REPORT": os.path.abspath(folder), "STATE": str(status["state"]), "FAILED": str(status["units"]["failed"])}
        with tempfile.TemporaryFile() as words:
            words.write(text.encode())
            words.seek(0)
            self.running.append(subprocess.Popen(hook.command, shell=True, stdin=words, env={**os.environ, **more}, start_new_session=True))

    def look(self) -> List[int]:
        """The statuses of the commands that ended since the last look."""
        ended = [process for process in self.running if process.poll() is not None]
        self.running = [process for process in self.running if process not in ended]
        return [process.returncode for process in ended]

    def end(self) -> List[int]:
        """Waits a while for commands that still run."""
        until = time.monotonic() + LONGEST_WAIT
        statuses = self.look()
        while self.running and time.monotonic() < until:
            time.sleep(0.05)
            statuses += self.look()
        return statuses
