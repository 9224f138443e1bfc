"""What the topics share: where things are, how the program is run, and what passed, failed and was skipped."""
import contextlib
import difflib
import os
import pickle
import re
import shlex
import subprocess
import traceback
from typing import Any, Callable, Iterator, List, NamedTuple, Optional, Set, Tuple

TOP = os.path.dirname(os.path.dirname(os.path.dirname(os.path.abspath(__file__))))
TESTS = f"{TOP}/tests"
EXAMPLES = f"{TOP}/examples"
PROGRAM = f"{TOP}/crates/dpbr/out/dpbr"


# how much of a difference is shown, and of what was seen of something that failed
MOST_LINES, MOST_COLUMNS = 40, 200
MOST_SEEN, MOST_OF_A_LINE = 80, 250
# a part of a topic that needs nothing from those before it
Case = Callable[["Tally"], None]


def say(text: str) -> None:
    """Prints a text and the end of its line in one piece, since cases may run side by side."""
    print(f"{text}\n", end="", flush=True)


# where a test is: the name of its case, if it is in one that can run by itself, and its own name
Place = Tuple[str, str]


class Result(NamedTuple):
    """How a test ended: it passed if there is no problem."""

    name: str
    problem: str
    case: Optional[Case]
    is_timed: bool

    def place(self) -> Place:
        return name_of(self.case) if self.case else "", self.name

    def first_line(self) -> str:
        """What was wrong, on one line, and which kind of check it is, if it is one of time."""
        return f"{'(a check of time) ' if self.is_timed else ''}{cut(' '.join(self.problem.split()))}"


class Tally:
    """Counts what passed, and says what failed and what was skipped."""

    def __init__(self) -> None:
        self.passed = 0
        self.failed = 0
        # the names of those that failed
        self.names: List[str] = []
        # how each test ended, but for those that the gate counts
        self.results: List[Result] = []
        # parts and cases that came to their ends
        self.whole: Set[Place] = set()
        # what failed at first, and passed when it ran again by itself
        self.only_alone: List[Result] = []
        # the case that runs
        self.current: Optional[Case] = None
        # what was not run for lack of a tool or a program, and how that is obtained
        self.skipped: List[str] = []

    def skip(self, name: str, lacking: str) -> None:
        """Notes a part that can't be run here, with what it lacks and how that is obtained. The last lines say so once more."""
        self.skipped.append(f"{name}: {lacking}")
        say(f"tests/run: skipped: {name}: {lacking}")

    def add(self, name: str, problem: str, timed: bool = False) -> None:
        """One more test, which passed if there is no problem. A check of time is `timed`: it asks how long something takes, how much
        of a processor, or for what follows only if processes come to run soon, and may fail on a busy machine. What fails runs once
        more by itself: its case; its whole part of the tests, if it is in no case."""
        self.results.append(Result(name, problem, self.current, timed))
        self.count(self.results[-1:], 1)
        if problem:
            say(f"tests/run: FAILED: {name}: {problem}")

    def count(self, results: List[Result], sign: int) -> None:
        """Counts these, or takes them back."""
        for it in results:
            self.passed += 0 if it.problem else sign
            self.failed += sign if it.problem else 0
            if it.problem and sign > 0:
                self.names.append(it.name)
            elif it.problem:
                self.names.remove(it.name)

    def take(self, other: "Tally") -> None:
        """Adds what another one counted."""
        self.passed += other.passed
        self.failed += other.failed
        self.names += other.names
        self.results += other.results
        self.whole |= other.whole
        self.only_alone += other.only_alone
        self.skipped += other.skipped

    def failures(self) -> List[Result]:
        """What failed."""
        return [it for it in self.results if it.problem]

    def failing_cases(self) -> Optional[List[Case]]:
        """The cases in which something failed; nothing if a failure is in no case."""
        found = [it.case for it in self.failures()]
        cases = [it for place, it in enumerate(found) if it and it not in found[:place]]
        return None if None in found else cases

    def correct(self, first: "Tally", second: "Tally") -> List[str]:
        """Counts the second run of a part, in place of what it repeats of the first run, which was counted. What failed and isn't
        repeated has failed, but for a part that broke off, if it came to its end now. Returns the names of what has failed after both."""
        repeated = {it.place() for it in second.results}
        passed = (repeated | second.whole) - {it.place() for it in second.failures()}
        self.count([it for it in first.results if it.place() in repeated | passed], -1)
        self.count(second.results, 1)
        self.only_alone += [it for it in first.failures() if it.place() in passed]
        lost = [it.name for it in first.failures() if it.place() not in repeated | passed]
        return lost + second.names

    def run(self, name: str, part: Callable[..., None], *more: Any) -> None:
        """Runs a part of the tests. One that breaks off is a failure, and the next one runs."""
        try:
            part(self, *more)
            self.whole.add(Result(name, "", self.current, False).place())
        except Exception as error:
            self.add(name, broken_off(error))

    def case(self, one: Case) -> None:
        """Runs a case, which may run once more by itself. One that breaks off is a failure, and the next one runs."""
        with self.inside(one):
            self.run(name_of(one), one)

    @contextlib.contextmanager
    def inside(self, one: Case) -> Iterator[None]:
        """What is added meanwhile is of this case: it runs again if that fails."""
        outer, self.current = self.current, one if is_sent(one) else None
        try:
            yield
        finally:
            self.current = outer


def is_sent(one: Case) -> bool:
    """Whether another process can be told which case it is: one of a module, with arguments or without."""
    try:
        pickle.dumps(one)
    except (pickle.PicklingError, AttributeError, TypeError):
        return False
    return True


def name_of(one: Case) -> str:
    """What a case is called: by its function, and that by its arguments."""
    function, more = getattr(one, "func", one), {**dict(enumerate(getattr(one, "args", ()))), **getattr(one, "keywords", {})}
    return " ".join([function.__name__.replace("_", " "), *map(str, more.values())])


def broken_off(error: Exception) -> str:
    """Where tests broke off, and why; and what builds the program that they lack, if that is why."""
    frames = [frame for frame in traceback.extract_tb(error.__traceback__) if frame.filename.startswith(TESTS)]
    place = max(frames, key=lambda frame: (frame.filename != os.path.abspath(__file__), frames.index(frame)))
    told = f"it broke off at {os.path.relpath(place.filename, TOP)}:{place.lineno}: {type(error).__name__}: {cut(str(error))}"
    program = re.search(r"/crates/(\w+)/out/\1$", str(getattr(error, "filename", "")))
    return told + (f"\n    not built: `tools/prove {program[1]}`" if program else "")


def contents(path: str) -> bytes:
    with open(path, "rb") as file:
        return file.read()


class Lines(List[str]):
    """Lines on what was seen, each of which is shown on a line of its own."""


def lines_of(value: Any) -> Iterator[str]:
    """What was seen as lines: what is short takes one, a list or a text of lines one for each."""
    if isinstance(value, Lines):
        yield from value
    elif isinstance(value, (bytes, str)) and len(value) > MOST_OF_A_LINE:
        text = value.decode(errors="backslashreplace") if isinstance(value, bytes) else value
        yield from text.split("\n")
    elif isinstance(value, dict) and len(repr(value)) > MOST_OF_A_LINE:
        yield from (line for pair in value.items() for line in lines_of(pair))
    elif isinstance(value, (list, tuple, set)) and (len(repr(value)) > MOST_OF_A_LINE or any(isinstance(it, Lines) for it in value)):
        yield from (line for it in value for line in lines_of(it))
    else:
        yield repr(value)


def seen(*values: Any) -> str:
    """What was seen of something that failed, in its order: on the same line if that is short, else each line by itself. Of a line that
    is too long the begin is shown, and of too many lines the first and the last ones."""
    lines = [line if len(line) <= MOST_OF_A_LINE else f"{line[:MOST_OF_A_LINE]} .." for value in values for line in lines_of(value)]
    if len(lines) > MOST_SEEN:
        lines[MOST_SEEN // 2:-MOST_SEEN // 2] = [f".. {len(lines) - MOST_SEEN} lines .."]
    short = " ".join(lines)
    is_short = len(short) <= MOST_OF_A_LINE and not any(isinstance(it, Lines) for it in values)
    return short if is_short else "\n".join(["it isn't so", *(f"    {line}" for line in lines)])


class Answer(tuple):
    """What a program wrote to both streams, and its status; and how it is run by hand, where its folder is still there."""

    by_hand = ""


def answer(words, folder, **more):
    """Runs the program in the folder."""
    done = subprocess.run([PROGRAM, *words], cwd=folder, stdin=subprocess.DEVNULL, capture_output=True, timeout=600, **more)
    got = Answer((done.stdout, done.stderr, done.returncode))
    if folder.startswith(TOP) and not more:
        where, program = os.path.relpath(folder, TOP), os.path.relpath(PROGRAM, folder)
        got.by_hand = f"cd {where} && {program} {' '.join(shlex.quote(os.fsdecode(word)) for word in words)}"
    return got


def cut(line: str) -> str:
    """A line that is not too long to be looked at."""
    return line if len(line) <= MOST_COLUMNS else f"{line[:MOST_COLUMNS]} .. ({len(line)} bytes)"


def text_difference(one, other):
    """How a text differs from the one that is required: as a diff, and the position of the first difference."""
    got, wanted = (text.decode(errors="backslashreplace").split("\n") for text in (one, other))
    lines = [cut(line) for line in difflib.unified_diff(wanted, got, "wanted", "got", n=1, lineterm="")]
    if len(lines) > MOST_LINES:
        lines[MOST_LINES:] = [f".. and {len(lines) - MOST_LINES} lines more"]
    place = len(os.path.commonprefix([one, other]))
    line, column = other.count(b"\n", 0, place) + 1, place - (other.rfind(b"\n", 0, place) + 1) + 1
    lines.append(f"they part at line {line}, byte {column}: {one[place:place + 40]!r}, not {other[place:place + 40]!r}")
    return "\n".join("    " + line for line in lines)


def difference(got, wanted):
    """What differs first between two answers, and how the program is run by hand; or nothing."""
    for stream, one, other in zip(("standard output", "standard error", "status"), got, wanted):
        if one != other:
            told = f"status {one}, not {other}" if stream == "status" else f"{stream} differs\n{text_difference(one, other)}"
            if stream == "standard output" and got[2] != wanted[2]:
                told += f"\n    status {got[2]}, not {wanted[2]}; standard error: {got[1]!r:.200}"
            by_hand = getattr(got, "by_hand", "")
            return told + (f"\n    by hand: {by_hand}" if by_hand else "")
    return ""


def fallen(said, status):
    """What is wrong with a program that should have ended with 0."""
    return "" if status == 0 else f"it ended with {status}: {said!r:.300}"


def built_shim(tally, folder, name):
    """Compiles a library of tests/ that is loaded before a program, into the folder, and says whether that could be done."""
    source = f"{TESTS}/{name}.c"
    built = subprocess.run(["cc", "-O1", "-shared", "-fPIC", "-o", f"{folder}/{name}.so", source])
    if built.returncode:
        tally.add(source, "it does not compile")
    return not built.returncode
