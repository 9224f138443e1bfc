"""Stored rows: what the driver `probes` answers on paths, names, trees, records, builds, datagrams, notes, members, nodes, traces, BUILDS,
worlds and texts. A file of tests/probes/ has the rows of one topic, and the file next to it that ends in `.stdout` the answers."""
import functools
import os

from topics import driver, rows
from topics.tally import TESTS, contents, text_difference

STORED = f"{TESTS}/probes"


def names():
    """The topics, of which each can be run by itself: `probes/NAME`."""
    return sorted(it for it in os.listdir(STORED) if not it.endswith(".stdout"))


def asked():
    """The rows of each topic."""
    return [contents(f"{STORED}/{name}") for name in names()]


driver.ask(asked)


def case(tally, _kind, name):
    """The rows of one topic."""
    got, wanted = driver.answer(contents(f"{STORED}/{name}")), contents(f"{STORED}/{name}.stdout")
    tally.add(f"probes/{name}", "" if got == wanted else f"an answer differs\n{text_difference(got, wanted)}")


def run(tally):
    for name in names():
        tally.case(functools.partial(case, _kind="probes", name=name))
    count = sum(text.count(b"\n") for text in asked())
    print(f"tests/run: probes: {count:,} lines of rows were answered {driver.how()}", flush=True)


def run_with_rows(tally):
    """This topic and the topic `rows` by one compilation, since most of the time goes into the crates below both. A driver that is built
    isn't compiled."""
    rows.run(tally, () if driver.is_current() else asked())
    run(tally)
