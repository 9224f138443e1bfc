"""A host of a run: its node, and the driver that builds for it."""
from __future__ import annotations

import contextlib
import os
import re
import signal
import subprocess
from typing import TYPE_CHECKING, Dict, List, Tuple

from soak_parts.alone import die_with_parent
from soak_parts.logs import Follower

if TYPE_CHECKING:
    from soak_parts.runs import Run

NODE, DRIVER = "node", "driver"
FAULT = re.compile(r"^dpbn: fault (\d+)")
TICKS = os.sysconf("SC_CLK_TCK")
# how long a process has to end when it is asked to, in seconds
LONGEST_END = 180


def processor_seconds(process: int) -> float:
    """What a process took so far, in seconds of a processor."""
    with open(f"/proc/{process}/stat", encoding="utf-8") as file:
        fields = file.read().rpartition(")")[2].split()
    return (int(fields[11]) + int(fields[12])) / TICKS


def peak_memory(process: int) -> float:
    """The most memory that a process has had, in MiB."""
    with open(f"/proc/{process}/status", encoding="utf-8") as file:
        found = re.search(r"VmHWM:\s+(\d+) kB", file.read())
    return int(found[1]) / 1024 if found else 0.0


def command_line(process: str) -> str:
    """The words and the folder of a process; nothing if it is gone."""
    try:
        with open(f"/proc/{process}/cmdline", encoding="utf-8", errors="replace") as file:
            return f"{file.read()} {os.readlink(f'/proc/{process}/cwd')}"
    except OSError:
        return ""


class Host:
    """Its files, its processes, and what those took that ended."""

    def __init__(self, run: Run, me: int) -> None:
        self.run, self.me = run, me
        self.work, self.logs = f"{run.folder}/work-{me}", f"{run.folder}/logs-{me}"
        os.makedirs(f"{self.work}/jobs")
        os.makedirs(f"{self.work}/done")
        os.mkdir(self.logs)
        self.log = f"{self.logs}/node-{me}.log"
        self.follower = Follower(self.log)
        self.processes: Dict[str, subprocess.Popen[bytes]] = {}
        self.seconds = {NODE: 0.0, DRIVER: 0.0}
        self.memory = {NODE: 0.0, DRIVER: 0.0}
        self.starts = {NODE: 0, DRIVER: 0}
        # more in the environment of a part, and words before its command
        self.environment: Dict[str, Dict[str, str]] = {NODE: {}, DRIVER: {}}
        self.before: List[str] = []
        # whether it takes part, and whether its log is lost for good
        self.is_wanted, self.is_lost = True, False

    def out(self, part: str) -> str:
        """The file to which a part prints."""
        return f"{self.run.folder}/{part}-{self.me}.out"

    def words(self, part: str) -> List[str]:
        run = self.run
        if part == DRIVER:
            return [f"{run.asked.tools}/build-jobs", "-j", str(run.jobs), self.work, self.log, "--", f"{run.folder}/build"]
        return [*self.node_words("build"), "--work", self.work, "--jobs", str(run.jobs), "--takeover", str(run.takeover),
                "--progress", "2", *run.more]

    def node_words(self, command: str) -> List[str]:
        """The words that all commands have which run this member's node."""
        run = self.run
        return [*self.before, run.asked.program, command, "--listing", f"{run.folder}/listing", "--dir", self.logs, "--members",
                str(run.members), "--me", str(self.me), *run.peers(self.me)]

    def opened(self) -> subprocess.CompletedProcess[bytes]:
        """Has a node open the log, or make it, and take no turn; it prints how many paths have each letter."""
        builds = f"{self.run.folder}/no-builds"
        with open(builds, "w", encoding="utf-8") as file:
            file.write("{}\n")
        words = [*self.node_words("node"), "--builds", builds, "--turns", "0"]
        return subprocess.run(words, stdin=subprocess.DEVNULL, capture_output=True, check=False)

    def start(self, *parts: str) -> None:
        for part in parts or (NODE, DRIVER):
            environment = {**os.environ, "SOAK": self.run.folder, "FAILING": self.run.failing, **self.environment[part]}
            with open(self.out(part), "ab") as out:
                self.processes[part] = subprocess.Popen(self.words(part), cwd=self.run.folder, stdin=subprocess.DEVNULL, stdout=out,
                                                        stderr=out, env=environment, preexec_fn=die_with_parent)
            self.starts[part] += 1

    def end(self, number: int, *parts: str) -> None:
        """Sends a signal to these parts, or to both, and waits for their ends."""
        for part in parts or (DRIVER, NODE):
            process = self.processes.pop(part, None)
            if process:
                self.measure(part, process)
                process.send_signal(number)
                try:
                    process.wait(LONGEST_END)
                except subprocess.TimeoutExpired:
                    process.kill()
                    process.wait()
                    raise

    def kill(self, *parts: str) -> None:
        self.end(signal.SIGKILL, *parts)

    def measure(self, part: str, process: subprocess.Popen[bytes]) -> None:
        """Notes what a process took, unless it has ended already."""
        if process.poll() is None:
            self.seconds[part] += processor_seconds(process.pid)
            self.memory[part] = max(self.memory[part], peak_memory(process.pid))

    def is_up(self) -> bool:
        return NODE in self.processes and DRIVER in self.processes

    def ended(self) -> List[Tuple[str, int]]:
        """The parts that should run and ended, each with its status."""
        return [(part, process.returncode) for part, process in self.processes.items() if process.poll() is not None]

    def lines(self, part: str) -> List[str]:
        """What a part printed."""
        try:
            with open(self.out(part), encoding="utf-8", errors="replace") as file:
                return file.read().split("\n")[:-1]
        except FileNotFoundError:
            return []

    def faults(self) -> Dict[str, int]:
        """How often the node printed each fault."""
        found: Dict[str, int] = {}
        for line in self.lines(NODE):
            match = FAULT.match(line)
            if match:
                found[match[1]] = found.get(match[1], 0) + 1
        return found

    def marks(self) -> int:
        """How often the node printed that a build failed here."""
        return sum(line.startswith("dpbn: failed ") for line in self.lines(NODE))

    def end_builds(self) -> None:
        """Asks the builds to end that outlived their driver."""
        folder = f"{self.work}/build"
        for name in os.listdir(folder) if os.path.isdir(folder) else ():
            with contextlib.suppress(OSError):
                number = os.open(f"{folder}/{name}/control", os.O_WRONLY | os.O_NONBLOCK)
                os.write(number, b"e")
                os.close(number)

    def kill_builds(self) -> None:
        """Kills the builds that outlived their driver, as a loss of power does: each with its supervisor. The soak has a namespace of
        processes of its own, so no others are seen here."""
        for process in os.listdir("/proc"):
            if process.isdigit() and f"{self.work}/build/" in command_line(process):
                with contextlib.suppress(ProcessLookupError):
                    os.killpg(os.getpgid(int(process)), signal.SIGKILL)

    def builds_file(self) -> str:
        """The file in which its builds note that they begin and end."""
        return f"{self.run.folder}/builds-{self.me}"

    def log_bytes(self) -> int:
        return os.path.getsize(self.log) if os.path.exists(self.log) else 0
