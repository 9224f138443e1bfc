"""The lines of events, as `dpbr run --events` prints them."""
import pytest

from dpbn_tools.event_lines import BadLine, Done, Sent, read

TEXT = """event 1 node 0 noted opened sent 0 offer to 0 1 2
event 2 node 2
event 3 node 10 sent 1 propose to 0 1 sent 2 propose to 0 1 agreed a/b,-main agreed a/b
node 0: I=1 B=0 Q=0 T=0 !=0
package a/b b-1 00
"""


def test_lines_are_read_up_to_those_of_the_nodes():
    assert read(TEXT) == [
        Done(0, "opened", (Sent(0, "offer", (0, 1, 2)),), ()),
        Done(2, "", (), ()),
        Done(10, "", (Sent(1, "propose", (0, 1)), Sent(2, "propose", (0, 1))), ("a/b,-main", "a/b")),
    ]


def test_there_may_be_none():
    assert read("node 0: down\n") == read("") == []


@pytest.mark.parametrize("line", [
    "event 2 node 0", "event one node 0", "event 1", "event 1 node", "event 1 node x", "event 1 member 0", "event 1 node 0 ", "event 1 node 0 noted",
    "event 1 node 0 sent 0 offer", "event 1 node 0 sent x offer to 0", "event 1 node 0 sent 0 offer to 0,1", "event 1 node 0 1", "event 1 node 0 agreed",
    "event 1 node \u0663",
])
def test_other_lines_are_refused(line):
    with pytest.raises(BadLine):
        read(line + "\n")
