"""A job goes while its build is handed in, and the system refuses to remove what was handed in: the driver goes on all the same."""
import os

import pytest

from dpbn_tools.driver import build as builds
from dpbn_tools.driver.build import Build
from unit.test_driver import driver, job


def over(own, tmp_path):
    """A build that is over, and was dropped as it was handed in."""
    it = job()
    build = Build(it, 0)
    build.make(f"{tmp_path}/work/build")
    build.state, build.needed, build.is_reused, build.dropped = builds.State.OVER, [], True, "another node built it"
    own.builds.append(build)
    return build


def refused_in(own, part, monkeypatch, number):
    """From now on nothing can be removed from this folder."""
    real = own.work.remove

    def remove(*names):
        if names[0].startswith(f"{part}/"):
            raise OSError(number, "refused on purpose", names[0])
        real(*names)

    monkeypatch.setattr(own.work, "remove", remove)


def ended(own):
    """Looks until nothing is done next to the loop."""
    while own.tasks.running:
        own.look()
        own.wait()


@pytest.mark.parametrize("number", [5, 13, 20, 116])
def test_an_answer_that_cannot_be_taken_back(tmp_path, monkeypatch, number):
    own = driver(tmp_path)
    build = over(own, tmp_path)
    refused_in(own, "done", monkeypatch, number)
    own.endings.step(build, lambda: None, lambda: own.endings.handed_in(build))
    ended(own)
    assert any(line.endswith(f"refused on purpose: 'done/{build.job.name}'\n") for line in own.lines.last)
    assert not os.path.exists(build.folder)


def test_a_mark_that_cannot_be_taken_back(tmp_path, monkeypatch):
    own = driver(tmp_path)
    build = over(own, tmp_path)
    refused_in(own, "failed", monkeypatch, 13)
    monkeypatch.setattr(own.steps, "mark", lambda build, limits: "a log")
    own.endings.mark(build)
    ended(own)
    assert any(line.endswith(f"refused on purpose: 'failed/{build.job.name}'\n") for line in own.lines.last)
    assert not os.path.exists(build.folder)


@pytest.mark.parametrize("error", [OSError(5, "it broke"), ValueError("it broke")])
def test_what_follows_a_task_ends_nothing(tmp_path, error):
    own = driver(tmp_path)

    def then(*_):
        raise error

    own.tasks.start(lambda: None, then)
    ended(own)
    assert any("it goes on in a while: " in line and "it broke" in line for line in own.lines.last)
