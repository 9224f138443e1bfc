"""How a command is run on a host: by ssh, or whatever the file has in its place."""
from __future__ import annotations

import json
import shlex
import subprocess
from typing import Any, Dict, List, Sequence

from dpbn_tools.hosts_file import HERE, Host, HostsFile

# the status of ssh if it has no connection, and of a shell if a command isn't there
NO_CONNECTION, NO_COMMAND = 255, 127
# how long a host may take to answer, in seconds: its driver ends its builds before it stops
LONGEST_ANSWER = 180
MAX_TEXT = 300


class NoAnswer(Exception):
    """Why a host didn't answer, or what it refused."""


def words_for(file: HostsFile, host: Host, words: Sequence[str]) -> List[str]:
    """The words that run dpbn-host(1) with these words on the host."""
    program = f"{host.programs}/dpbn-host" if host.programs else "dpbn-host"
    command = " ".join(shlex.quote(word) for word in (program, *words))
    if host.target == HERE or file.ssh == [HERE]:
        return ["sh", "-c", f"cd && exec {command}"]
    return [*file.ssh, host.target, command]


def why_not(status: int, errors: bytes) -> str:
    """One line on a command that failed."""
    lines = [line for line in errors.decode("utf-8", "replace").splitlines() if line.strip()]
    text = lines[-1].strip()[:MAX_TEXT] if lines else f"it ended with status {status}"
    text = text[len("dpbn-host: "):] if text.startswith("dpbn-host: ") else text
    if status == NO_CONNECTION:
        return f"no answer: {text}"
    if status == NO_COMMAND:
        return f"dpbn isn't installed there, or `bin` is missing: {text}"
    return text


def ask(file: HostsFile, host: Host, words: Sequence[str], data: bytes = b"", seconds: float = LONGEST_ANSWER) -> bytes:
    """Runs dpbn-host(1) on the host, and returns what it prints."""
    command = words_for(file, host, words)
    try:
        done = subprocess.run(command, input=data, stdout=subprocess.PIPE, stderr=subprocess.PIPE, timeout=seconds, check=False)
    except subprocess.TimeoutExpired:
        raise NoAnswer(f"no answer in {seconds:.0f} s") from None
    except OSError as error:
        raise NoAnswer(f"{command[0]}: {error.strerror}") from None
    if done.returncode:
        raise NoAnswer(why_not(done.returncode, done.stderr))
    return done.stdout


def look(file: HostsFile, host: Host) -> Dict[str, Any]:
    """What the host says about itself."""
    return json_of(ask(file, host, ["look", host.folder]))


def json_of(text: bytes) -> Dict[str, Any]:
    try:
        found = json.loads(text)
    except ValueError:
        found = None
    if not isinstance(found, dict):
        raise NoAnswer("it prints what isn't dpbn-host's")
    return found
