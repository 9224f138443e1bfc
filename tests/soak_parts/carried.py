"""Puts a carrier between the hosts of a run: one of datagrams on loopback, or one of packets between namespaces of the network."""
from __future__ import annotations

import json
import subprocess
import sys
from typing import Any, Dict, List

from soak_parts import carrier
from soak_parts.alone import die_with_parent
from soak_parts.bad_line import Line
from soak_parts.runs import Run

DATAGRAMS, PACKETS = "datagrams", "packets"
MTU = 1500


class Carried:
    """The carrier of a run, under a key."""

    def __init__(self, run: Run, kind: str) -> None:
        self.run, self.kind, self.members = run, kind, run.members
        if kind == PACKETS:
            for me in range(self.members):
                lay_namespace(me)
        words = [sys.executable, carrier.__file__, kind, str(self.members)]
        self.process = subprocess.Popen(words, stdin=subprocess.PIPE, stdout=subprocess.PIPE, text=True, preexec_fn=die_with_parent)
        self.answer()
        self.key = run.key()
        run.peers = self.peers
        for host in run.hosts if kind == PACKETS else ():
            host.before = ["nsenter", f"--net=/run/netns/{carrier.namespace(host.me)}", "--"]

    def peers(self, me: int) -> List[str]:
        """The words by which a member finds the others."""
        if self.kind == PACKETS:
            addresses = [carrier.packet_address(other) for other in range(self.members)]
        else:
            addresses = [carrier.real_address(me) if other == me else carrier.seen_address(me, other) for other in range(self.members)]
        return ["--hosts", ",".join(f"{address}:{carrier.PORT}" for address in addresses), *self.key]

    def answer(self) -> str:
        assert self.process.stdout
        return self.process.stdout.readline()

    def order(self, words: str) -> Dict[str, Any]:
        """Has the carrier do something, and returns what it counted."""
        assert self.process.stdin
        self.process.stdin.write(f"{words}\n")
        self.process.stdin.flush()
        found: Dict[str, Any] = json.loads(self.answer())
        return found

    def set(self, line: Line) -> None:
        self.order(f"line {line.written()}")

    def end(self) -> None:
        self.process.kill()
        self.process.communicate()
        if self.kind == PACKETS:
            for me in range(self.members):
                subprocess.run(["ip", "netns", "del", carrier.namespace(me)], check=False)


def lay_namespace(me: int) -> None:
    """The namespace of a member, with a device that leads to the carrier."""
    name = carrier.namespace(me)
    subprocess.run(["ip", "netns", "add", name], check=True)
    for words in (["tuntap", "add", "dev", "line", "mode", "tun"], ["addr", "add", f"{carrier.packet_address(me)}/24", "dev", "line"],
                  ["link", "set", "lo", "up"], ["link", "set", "line", "mtu", str(MTU), "up"]):
        subprocess.run(["ip", "-n", name, *words], check=True)
