"""How much memory is requested if malformed builds arrive for a unit of which a long build is known. Nothing of that build is
spelled for a text that begins otherwise, or is shorter, and hardly more than what arrived for others. The same texts arrive for a
unit of which nothing is known, which shows the cost of reading them. That needs the program `probes` as it is built, which
`tools/prove probes` builds: without it this topic is skipped."""
import hashlib
import os
import struct
import subprocess
import tempfile

from topics.driver import PROBES, is_built
from topics.tally import built_shim, contents, fallen

# the unit whose build is known, and one whose isn't, each of one package, with its name
KNOWN, UNKNOWN = ("a/b", "b-1.0"), ("c/d", "d-1.0")
# what nodes say of their tree
TREE = hashlib.sha256("".join(f"P {path}\nN {name}\n" for path, name in (KNOWN, UNKNOWN)).encode()).digest()
NO_BYTES = hashlib.sha256(b"").hexdigest()
PIECE = 32_768
# how many empty files the known build has, each with as long a name as may be
FILES = 900
SHORT = 3_000
# what may be asked for next to a known build by each text, besides what is spelled of that build
FEW = 1_000


def build(unit, host=3, size=0):
    """The text of a build with the files, of which the last is said to have this many bytes."""
    path, name = unit
    lines = ["@dpb 1", f"@name {name}", f"@comment pkgpath={path}", f"@host {host}", "@claim 1.0"]
    for number in range(FILES):
        lines += [f"{number:0255}", f"@sha {NO_BYTES}", f"@size {size if number == FILES - 1 else 0}"]
    return "".join(f"{line}\n" for line in [*lines, ""]).encode()


# malformed builds, by the unit; how often each comes; and what may be spelled for one
TEXTS = {
    "other bytes": (lambda unit: b"x" * SHORT, 20, lambda text: 0),
    "a build of another host, cut": (lambda unit: build(unit, host=4)[:SHORT], 20, lambda text: 0),
    "a build of another host, with a size that isn't so": (lambda unit: build(unit, host=4, size=1), 3, lambda text: 0),
    "the known build, cut": (lambda unit: build(unit)[:SHORT], 20, lambda text: 0),
    "the known build, with a size that isn't so": (lambda unit: build(unit, size=1), 3, lambda text: len(text) * 5 // 4),
}


def datagrams(unit, text):
    """Lines that give node 0 the pieces in which member 1 says that the build with the text is agreed."""
    path = unit[0].encode()
    front = b"DPB2" + bytes([5, 1]) + TREE + struct.pack(">H", len(path)) + path + struct.pack(">I", len(text))
    for number, start in enumerate(range(0, len(text), PIECE)):
        yield f"bytes 0 {(front + struct.pack('>H', number) + text[start:start + PIECE]).hex()}"


def row(unit, text, times):
    """The text comes so often for the unit, after the known build."""
    lines = ["== nodes", "nodes 1 1 1", *(f"listing {path}.FULLPKGNAME={name}" for path, name in (KNOWN, UNKNOWN))]
    lines += [*datagrams(KNOWN, build(KNOWN)), f"knows 0 {KNOWN[0]}", *(times * list(datagrams(unit, text)))]
    return "".join(f"{line}\n" for line in lines).encode()


def asked(folder, given):
    """How many bytes of memory the program asks for, and what it answers to each line."""
    place = f"{folder}/asked"
    if os.path.exists(place):
        os.remove(place)
    environment = {**os.environ, "LD_PRELOAD": f"{folder}/refuse.so", "ASKED": place}
    done = subprocess.run([PROBES], input=given, capture_output=True, timeout=600, env=environment)
    if fallen(done.stderr, done.returncode):
        raise OSError(fallen(done.stderr, done.returncode))
    return int(contents(place)), [line.rpartition(b": ")[2] for line in done.stdout.split(b"\n")]


def problem(folder, text_of, times, may_be_spelled):
    """What is wrong with what these texts ask for, if anything."""
    text = text_of(KNOWN)
    with_known, answers = asked(folder, row(KNOWN, text, times))
    without, others = asked(folder, row(UNKNOWN, text_of(UNKNOWN), times))
    if sum(b" held," in it for it in answers) != 1 or answers.count(b"1202 1104") != times or answers != others:
        return f"they are answered {sorted(set(answers + others))}"
    most = times * (may_be_spelled(text) + FEW)
    return "" if with_known - without <= most else f"{with_known - without} bytes more are asked for, and {most} may be"


def problem_again(folder):
    """What is wrong with what the known build itself asks for, if anything: it is shared, and a text as long that is not one is read."""
    again, read = (asked(folder, row(KNOWN, text, 3))[0] for text in (build(KNOWN), build(KNOWN, size=1)))
    return "" if again < read else f"{again} bytes are asked for, and {read} if it is read"


def add(tally, name, problem, *given):
    """Looks for a problem, if one is also that the program didn't end, or reported nothing."""
    try:
        told = problem(*given)
    except (OSError, ValueError, subprocess.SubprocessError) as error:
        told = str(error)
    tally.add(f"memory next to a known build, {name}", told)


def run(tally):
    with tempfile.TemporaryDirectory() as folder:
        if is_built(tally, "asked") and built_shim(tally, folder, "refuse"):
            for name, (text_of, times, may_be_spelled) in TEXTS.items():
                add(tally, name, problem, folder, text_of, times, may_be_spelled)
            add(tally, "itself", problem_again, folder)
