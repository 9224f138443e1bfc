"""A network of its own for a part of the tests: what it has, what is kept out, and what happens if the system refuses it."""
import os
import socket

import pytest

from topics import network
from topics.lanes import Lanes, Part
from topics.tally import Tally

# the network of this process
HERE = "/proc/self/ns/net"


def inode():
    return os.stat(HERE).st_ino if os.path.exists(HERE) else 0


def bound(address, port=0):
    it = socket.socket(socket.AF_INET6 if ":" in address else socket.AF_INET, socket.SOCK_DGRAM)
    it.bind((address, port))
    it.settimeout(60)
    return it


def ran(*parts):
    lanes = Lanes(Tally(), list(parts), 4)
    lanes.run()
    if lanes.shared:
        pytest.skip(lanes.shared)
    return lanes.tally


@pytest.mark.parametrize("address", ["127.0.0.1", "127.0.0.2", "127.9.9.9", "::1"])
def test_what_it_has(address):
    """A datagram to each address of the loopback device is heard, if it is heard in the network of the machine."""
    try:
        bound(address).close()
    except OSError:
        pytest.skip(f"there is no {address} here")

    def hears(tally):
        with bound(address) as ear, bound(address) as mouth:
            mouth.sendto(b"that", ear.getsockname())
            tally.add("heard", "" if ear.recv(10) == b"that" else "it is something else")
    assert ran(Part("hears", hears)).passed == 1


def test_that_others_have_others():
    """A port that another process has is free, and what is sent there stays in the network of who sends."""
    before = inode()
    with bound("127.0.0.1") as ours:
        port = ours.getsockname()[1]

        def takes(tally):
            with bound("127.0.0.1", port) as theirs, bound("127.0.0.1") as mouth:
                mouth.sendto(b"that", ("127.0.0.1", port))
                tally.add("heard", "" if theirs.recv(10) == b"that" and inode() != before else "it is something else")
        assert ran(Part("first", takes), Part("second", takes)).passed == 2
        ours.setblocking(False)
        with pytest.raises(BlockingIOError):
            ours.recv(10)
    assert inode() == before


def test_what_is_refused(monkeypatch):
    """If the system refuses it, or its device can't be brought up, the process stays in the network that it has."""
    before = inode()

    def refuses(*_):
        raise PermissionError(1, "on purpose")

    def stays(tally):
        with bound("127.0.0.1") as ear, bound("127.0.0.1") as mouth:
            mouth.sendto(b"that", ear.getsockname())
            tally.add("heard", "" if ear.recv(10) == b"that" and inode() == before else "it is something else")
    for name in ("called", "bring_up"):
        with monkeypatch.context() as patch:
            patch.setattr(network, name, refuses)
            lanes = Lanes(Tally(), [Part("stays", stays)], 1)
            lanes.run()
        assert (lanes.tally.passed, lanes.tally.names) == (1, []) and lanes.shared
