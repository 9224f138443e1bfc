"""Nodes that can't take their ports, or send nothing: other ports are tried, and what was waited for is said."""
import os
import stat
import sys
import tempfile

import pytest

from topics import nodes

# in place of dpbn: it ends with 1 as often as FAILS says, and then sends to the port after its own, or stays
STANDS_IN = """#!{python}
import os, socket, sys, time
words = sys.argv[1:]
me, base = (int(words[words.index(it) + 1]) for it in ("--me", "--base"))
place = os.environ["PLACE_OF_STARTS"] + f"-{{me}}"
with open(place, "a+") as file:
    file.write("x")
    starts = file.tell()
if starts <= int(os.environ["FAILS"]):
    print("dpbn: fault 1204", file=sys.stderr)
    sys.exit(1)
own = socket.socket(socket.AF_INET, socket.SOCK_DGRAM)
own.bind(("127.0.0.1", base + me))
if "--patience" in words:
    own.sendto(b"that", ("127.0.0.1", base + me + 1))
else:
    time.sleep(600)
"""


@pytest.fixture(name="folder")
def folder_of(tmp_path, monkeypatch):
    path = tmp_path / "dpbn"
    path.write_text(STANDS_IN.format(python=sys.executable))
    path.chmod(path.stat().st_mode | stat.S_IXUSR)
    monkeypatch.setattr(nodes, "NODES", str(path))
    monkeypatch.setenv("PLACE_OF_STARTS", str(tmp_path / "starts"))
    monkeypatch.setenv("FAILS", "2")
    with tempfile.TemporaryDirectory(dir=tmp_path) as folder:
        nodes.lay(folder)
        yield folder


def test_a_datagram_that_is_overheard(folder):
    assert nodes.overheard(folder) == b"that"


def test_nothing_is_overheard(folder, monkeypatch):
    """The statuses and what was printed are said."""
    monkeypatch.setenv("FAILS", "9")
    with pytest.raises(OSError, match="5 nodes of another listing sent nothing to the next one: .*fault 1204.*, 1"):
        nodes.overheard(folder)


def test_what_was_waited_for(monkeypatch):
    with nodes.taken(nodes.free_ports(1)) as ear:
        with pytest.raises(TimeoutError, match="nothing came for 0.05 s: a word of node 3"):
            nodes.heard(ear, "a word of node 3", 0.05)


@pytest.mark.skipif(not os.path.exists("/proc/net/udp"), reason="there is no /proc/net/udp here")
def test_nodes_that_listen(folder):
    """They are started at other ports until all of them listen."""
    three, where = nodes.that_listen(folder, range(3), ["--turns", "1"])
    for node in three:
        nodes.ended(node)
    ports = [port for place in where for _, port in place]
    assert ports == [ports[0], ports[0] + 1, ports[0] + 2] and all(address == "127.0.0.1" for place in where for address, _ in place)


@pytest.mark.skipif(not os.path.exists("/proc/net/udp"), reason="there is no /proc/net/udp here")
def test_nodes_that_never_listen(folder, monkeypatch):
    monkeypatch.setenv("FAILS", "9")
    with pytest.raises(OSError, match="5 times a node of .0, 2. didn't listen: .*fault 1204"):
        nodes.that_listen(folder, [0, 2], ["--turns", "1"])
