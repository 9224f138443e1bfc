"""UDP ports that the topics of tests/run are given."""
import multiprocessing

from topics import nodes

FORK = multiprocessing.get_context("fork")


def given(told, is_over):
    """Gets ports, and keeps them until the test is over."""
    told.put([nodes.free_ports(1 + number % 9) for number in range(50)])
    is_over.wait(240)


def test_processes_at_one_time():
    """No two processes are given the same ports, although they try the same ones in the same order."""
    told, is_over = FORK.Queue(), FORK.Event()
    processes = [FORK.Process(target=given, args=(told, is_over)) for _ in range(3)]
    for process in processes:
        process.start()
    bases = [base for _ in processes for base in told.get(timeout=240)]
    is_over.set()
    for process in processes:
        process.join(240)
    assert len(bases) == len(set(bases)) == 150


def test_what_somebody_has():
    """Ports of which somebody has one aren't given."""
    # other tests may have those that follow
    base = next(it for it in (nodes.free_ports(3) for _ in range(100)) if all(map(is_free, range(it + 10, it + 30))))
    bases = iter([base + 10, base + 20])
    nodes.BASES, before = bases, nodes.BASES
    try:
        with nodes.taken(base + 12):
            assert nodes.free_ports(3) == base + 20
    finally:
        nodes.BASES = before


def is_free(port):
    try:
        nodes.taken(port).close()
    except OSError:
        return False
    return True
