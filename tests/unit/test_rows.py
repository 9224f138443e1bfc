"""What the kit shows of crates that are compiled without a proof: how tests ended, and what the driver answered."""
from topics import rows

SAID = """tests: 3
test answered::answers_files ... ok
    == text0.
    claim 0; .
    .
      is short.
    == text1.
    1..
test rows::other ... FAILED
    left: 1.
test result: FAILED. 2 passed; 1 failed
"""


def test_answers_of_the_driver():
    """The dot at the end of each line is taken away, and blanks before it and empty lines stay."""
    assert rows.answers_in(SAID) == {"text0": b"claim 0; \n\n  is short\n", "text1": b"1.\n"}


def test_answers_that_are_not_whole():
    """If the test failed, or wasn't run, there are none."""
    assert rows.answers_in(SAID.replace("answers_files ... ok", "answers_files ... FAILED")) == {}
    assert rows.answers_in("error: it doesn't compile\n") == {}


def test_modules_of_one_crate():
    """All files of rows have names of their own, also next to those of the driver."""
    alone, both = rows.modules_of_all(False), rows.modules_of_all(True)
    assert set(alone) < set(both) and {"asking", "topic", "answered"} == set(both) - set(alone)
