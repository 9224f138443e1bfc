"""Unit tests of what order-listing is made of: the reading of listings, strongly connected components, and chains."""
import random

import pytest

from dpbn_tools.chains import Chains, components
from dpbn_tools.listing import BadLine, Listing


def reachable(graph, start):
    found, waiting = set(), [start]
    while waiting:
        node = waiting.pop()
        if node not in found:
            found.add(node)
            waiting += graph[node]
    return found


@pytest.mark.parametrize("seed", range(40))
def test_components(seed):
    """Nodes that reach one another, each set after all that can be reached from it."""
    dice = random.Random(seed)
    size = dice.randrange(1, 25)
    graph = [[dice.randrange(size) for _ in range(dice.randrange(4))] for _ in range(size)]
    reach = [reachable(graph, node) for node in range(size)]
    found = list(components(graph))
    assert sorted(node for nodes in found for node in nodes) == list(range(size))
    done = set()
    for nodes in found:
        assert all({other for other in reach[node] if node in reach[other]} == set(nodes) for node in nodes)
        done |= set(nodes)
        assert all(reach[node] <= done for node in nodes)


def test_components_of_a_long_row():
    """A row of any length takes no deeper stack."""
    graph = [[node + 1] for node in range(50_000)] + [[]]
    assert [nodes[0] for nodes in components(graph)] == list(range(50_000, -1, -1))


TREE = b"""===> x
x/a.FULLPKGNAME=a-1
x/b,-main.FULLPKGNAME=b-1
x/b,-main.BUILD_DEPENDS=x/a b->=1:x/b,-docs
x/b,-docs.FULLPKGNAME=b-docs-1
x/b,-docs.IGNORE=
x/c.FULLPKGNAME=c-1
x/c.LIB_DEPENDS=:x/b,-docs:patch
x/d.FULLPKGNAME=d-1
x/d.RUN_DEPENDS=x/none
x/e.FULLPKGNAME=e-1
x/e.BUILD_DEPENDS=x/d
"""


def test_listing():
    listing = Listing(TREE)
    assert list(listing.groups) == [b"x/a", b"x/b", b"x/c", b"x/d", b"x/e"]
    assert listing.ignored == {b"x/d", b"x/e"}
    assert [unit.paths for unit in listing.units()] == [[b"x/a"], [b"x/b,-main", b"x/b,-docs"], [b"x/c"], [], []]
    assert listing.build_needs(b"x/c") == listing.run_needs(b"x/c") == [b"x/b,-docs"]


def test_single_listing():
    assert list(Listing(TREE, single=True).groups)[1:3] == [b"x/b,-main", b"x/b,-docs"]


@pytest.mark.parametrize("text", [b"x", b"x/a.FULLPKGNAME", b"FULLPKGNAME=x", b"x.FULLPKGNAME=x-1", b"x/a,-b,-c.IGNORE=", b"x/a.IGNORE=1\nx/a.IGNORE=2"])
def test_bad_listings(text):
    with pytest.raises(BadLine):
        Listing(text)


def test_chains():
    chains = Chains(Listing(TREE))
    lengths, circles = chains.lengths({b"x/a": 1.0, b"x/b": 2.0, b"x/c": 4.0})
    assert (lengths, circles) == ([7.0, 6.0, 4.0], [])
    assert [unit.name for unit in chains.longest(lengths)] == [b"x/a", b"x/b", b"x/c"]


def test_circles():
    text = b"x/a.FULLPKGNAME=a-1\nx/a.BUILD_DEPENDS=x/b\nx/b.FULLPKGNAME=b-1\nx/b.RUN_DEPENDS=x/c\nx/c.FULLPKGNAME=c-1\nx/c.BUILD_DEPENDS=x/a\n"
    _, circles = Chains(Listing(text)).lengths(dict.fromkeys((b"x/a", b"x/b", b"x/c"), 1.0))
    # b is built, but can't be installed before c is
    assert [sorted(unit.name for unit in circle) for circle in circles] == [[b"x/a", b"x/c"]]
