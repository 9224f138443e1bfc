"""Carries what hosts send each other, over a bad line: a process of its own, which reads orders from standard input, one in a line.

    carrier.py datagrams MEMBERS      a socket for each pair of members; see `Datagrams`
    carrier.py packets MEMBERS        a device in the namespace of each member; see `Packets`

    line JSON            how the line is from now on
    flood COUNT SEED     forges as many datagrams, and sends them to all members next to what they send each other (datagrams only)
    keep PATH            writes what was sent so far into a file, some thousands at most (datagrams only)
    strange PATH         has a flood send what is in this file, too
    counts               prints a line of JSON: what came, was sent, forged and lost

Each order is answered by a line."""
from __future__ import annotations

import fcntl
import heapq
import json
import os
import random
import selectors
import socket
import struct
import sys
import time
from typing import Callable, Dict, Iterator, List, NamedTuple, Tuple

sys.path.insert(0, os.path.dirname(os.path.dirname(os.path.abspath(__file__))))

from soak_parts import bad_line  # noqa: E402
from soak_parts.alone import LIBC  # noqa: E402
from soak_parts.bad_line import Line  # noqa: E402

PORT = 7000
LARGEST = 65_536
# how much a socket holds for its reader, in bytes
ROOM = 8_000_000
# how many datagrams are kept of those that were sent
KEPT = 4000
# how many forged ones are sent at a time, and how long is waited then, so that nodes still have time for others, in seconds
AT_ONCE, NAP = 64, 0.01
NET_NAMESPACE = 0x40000000
TUN, TUN_MODE = 0x400454CA, 0x1001


class Late(NamedTuple):
    """What is delivered at a time."""

    due: float
    number: int
    data: bytes
    source: int
    target: int


def real_address(member: int) -> str:
    """The address at which a member listens."""
    return f"127.0.0.{member + 1}"


def seen_address(member: int, other: int) -> str:
    """The address of the carrier by which a member knows another one."""
    return f"127.1.{member + 1}.{other + 1}"


class Datagrams:
    """The carrier is between each two members. What a member sends to another one's address arrives at a socket of the carrier. It goes on
    to the other one's real address, from the address by which that one knows the first."""

    def __init__(self, members: int) -> None:
        self.members = members
        self.sockets: Dict[Tuple[int, int], socket.socket] = {}
        for me in range(members):
            for other in range(members):
                if me != other:
                    self.sockets[me, other] = bound((seen_address(me, other), PORT))

    def numbers(self) -> Iterator[Tuple[int, Callable[[], Tuple[bytes, int, int]]]]:
        for (me, other), it in self.sockets.items():
            yield it.fileno(), lambda it=it, me=me, other=other: (it.recv(LARGEST), me, other)  # type: ignore[misc]

    def send(self, data: bytes, source: int, target: int) -> None:
        self.sockets[target, source].sendto(data, (real_address(target), PORT))


def bound(address: Tuple[str, int]) -> socket.socket:
    """A socket at an address, with room for many datagrams at once."""
    it = socket.socket(socket.AF_INET, socket.SOCK_DGRAM)
    for option in (33, socket.SO_RCVBUF):
        try:
            # 33 is SO_RCVBUFFORCE of Linux
            it.setsockopt(socket.SOL_SOCKET, option, ROOM)
            break
        except OSError:
            continue
    it.bind(address)
    it.setblocking(False)
    return it


class Packets:
    """Each member is in a namespace with a device tun(4), `line`, and the carrier hands on what one device sends to another, packet by
    packet. A large datagram is several packets, and is lost with any of them."""

    def __init__(self, members: int) -> None:
        home = os.open("/proc/self/ns/net", os.O_RDONLY)
        self.devices: List[int] = []
        for me in range(members):
            enter(f"/run/netns/{namespace(me)}")
            device = os.open("/dev/net/tun", os.O_RDWR | os.O_NONBLOCK)
            fcntl.ioctl(device, TUN, struct.pack("16sH22x", b"line", TUN_MODE))
            self.devices.append(device)
        if LIBC.setns(home, NET_NAMESPACE):
            raise OSError("setns")

    def numbers(self) -> Iterator[Tuple[int, Callable[[], Tuple[bytes, int, int]]]]:
        for me, device in enumerate(self.devices):
            yield device, lambda device=device, me=me: addressed(os.read(device, LARGEST), me)  # type: ignore[misc]

    def send(self, data: bytes, _: int, target: int) -> None:
        os.write(self.devices[target], data)


def namespace(member: int) -> str:
    """The name of a member's namespace."""
    return f"soak{member}"


def packet_address(member: int) -> str:
    return f"10.77.0.{member + 1}"


def enter(path: str) -> None:
    """Goes into a namespace of the network."""
    number = os.open(path, os.O_RDONLY)
    if LIBC.setns(number, NET_NAMESPACE):
        raise OSError(f"setns {path}")
    os.close(number)


def addressed(packet: bytes, source: int) -> Tuple[bytes, int, int]:
    """A packet with the members that it is from and for; -1 if it is for none."""
    is_ours = packet[:1] and packet[0] >> 4 == 4 and packet[16:19] == bytes((10, 77, 0))
    return packet, source, packet[19] - 1 if is_ours else -1


class Carrier:
    """The loop: whatever arrives is sent on when the line says."""

    def __init__(self, ports: Datagrams | Packets, members: int) -> None:
        self.ports, self.members, self.line = ports, members, Line()
        self.dice = random.Random(1)
        self.late: List[Late] = []
        self.counts = {"came": 0, "sent": 0, "lost": 0, "refused": 0, "forged": 0}
        self.kept: List[bytes] = []
        self.strange: List[bytes] = []
        self.flood, self.flood_due = 0, 0.0
        self.selector = selectors.DefaultSelector()
        for number, take in ports.numbers():
            self.selector.register(number, selectors.EVENT_READ, take)
        self.selector.register(sys.stdin.fileno(), selectors.EVENT_READ, None)

    def run(self) -> None:
        while True:
            dues = [self.late[0].due] if self.late else []
            dues += [self.flood_due] if self.flood else []
            wait = max(0.0, min(dues) - time.monotonic()) if dues else None
            for key, _ in self.selector.select(wait):
                if key.data is None:
                    line = sys.stdin.readline()
                    if not line:
                        return
                    print(self.order(*line.rstrip("\n").partition(" ")[::2]), flush=True)
                else:
                    self.take(key.data)
            while self.late and self.late[0].due <= time.monotonic():
                it = heapq.heappop(self.late)
                self.send(it.data, it.source, it.target)
            if self.flood and self.flood_due <= time.monotonic():
                self.forge()

    def take(self, take: Callable[[], Tuple[bytes, int, int]]) -> None:
        """Takes all that came to one number, some at a time."""
        for _ in range(AT_ONCE):
            try:
                data, source, target = take()
            except (BlockingIOError, ConnectionRefusedError):
                return
            if not 0 <= target < self.members:
                continue
            self.counts["came"] += 1
            self.keep(data)
            delays = self.line.delays(self.dice, source, target)
            self.counts["lost"] += not delays
            for delay in delays:
                if delay:
                    self.counts["sent"] += 1
                    heapq.heappush(self.late, Late(time.monotonic() + delay, self.counts["sent"], data, source, target))
                else:
                    self.send(data, source, target)

    def keep(self, data: bytes) -> None:
        """Keeps a sample of what is sent."""
        if len(self.kept) < KEPT:
            self.kept.append(data)
        elif self.dice.random() < 0.05:
            self.kept[self.dice.randrange(KEPT)] = data

    def send(self, data: bytes, source: int, target: int) -> None:
        try:
            self.ports.send(data, source, target)
        except OSError:
            # nobody listens there now, or there is no room
            self.counts["refused"] += 1

    def order(self, word: str, rest: str) -> str:
        if word == "line":
            self.line = bad_line.read(rest)
        elif word == "flood":
            self.flood = int(rest)
        elif word == "keep":
            with open(rest, "w", encoding="utf-8") as file:
                file.write("".join(f"{data.hex()}\n" for data in self.kept))
        elif word == "strange":
            with open(rest, encoding="utf-8") as file:
                self.strange = [bytes.fromhex(line) for line in file.read().split()]
        return json.dumps({**self.counts, "left": self.flood})

    def forge(self) -> None:
        """Sends some forged datagrams to members, each from the address of another one."""
        for _ in range(min(AT_ONCE, self.flood)):
            target = self.dice.randrange(self.members)
            source = (target + self.dice.randrange(1, self.members)) % self.members
            self.send(self.forged(), source, target)
            self.flood -= 1
            self.counts["forged"] += 1
        self.flood_due = time.monotonic() + NAP

    def forged(self) -> bytes:
        """Noise; a genuine datagram with a bit flipped, or cut; or one of another run."""
        kind = self.dice.randrange(4)
        if kind == 0 or not self.kept:
            return bytes(self.dice.getrandbits(8) for _ in range(self.dice.randrange(200)))
        if kind == 1 and self.strange:
            return self.dice.choice(self.strange)
        data = bytearray(self.dice.choice(self.kept))
        if kind == 2 and len(data) > 1:
            return bytes(data[:self.dice.randrange(1, len(data))])
        place = self.dice.randrange(8 * len(data))
        data[place // 8] ^= 1 << place % 8
        return bytes(data)


def main() -> None:
    kind, members = sys.argv[1], int(sys.argv[2])
    ports: Datagrams | Packets = Datagrams(members) if kind == "datagrams" else Packets(members)
    print("carries", flush=True)
    Carrier(ports, members).run()


if __name__ == "__main__":
    main()
