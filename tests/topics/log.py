"""A log in a file and in memory: what a file opens to, the calls that reach the device, each of them failing, a full
device, and each allocation refused."""
import json
import os
import resource
import subprocess
import tempfile

from topics.tally import TESTS, TOP, built_shim, contents, text_difference

LOG_PROBE = f"{TOP}/crates/log_probe/out/log_probe"

# whose logs they are: the digest of the tree, the weights and the own number
OWNER = (bytes([7] * 32), bytes([1, 1, 1]), 0)


def log_file(owner, notes, gate=1, end=b"\0"):
    """The bytes of a log, as its format has them."""
    tree, weights, me = owner
    ones = all(weight == 1 for weight in weights)
    file = bytes([gate]) + (b"DPBLOG01" if ones else b"DPBLOG02") + tree + bytes([len(weights), me])
    file += b"" if ones else weights
    return file + b"".join(b"\1" + len(note).to_bytes(4, "big") + note for note in notes) + end


def run_probe(*words, **more):
    """The lines that the probe prints, each a word and a value."""
    done = subprocess.run([LOG_PROBE, *words], capture_output=True, text=True, timeout=600, **more)
    return [(word, value) for word, _space, value in (line.partition(" ") for line in done.stdout.splitlines())]


def appended(file, count, length, **more):
    """Opens a log, appends notes to it, and gives what was reported: how many it found and appended, and its refusal."""
    return {word: int(value) for word, value in run_probe(file, str(count), str(length), **more)}


def opened(folder, start, owner=OWNER):
    """What a file with these bytes opens to: its notes or the number of a refusal, and the bytes after it."""
    file, (tree, weights, me) = f"{folder}/opened", owner
    with open(file, "wb") as log:
        log.write(start)
    lines = run_probe(file, tree.hex(), weights.hex(), str(me))
    notes = [bytes.fromhex(value) for word, value in lines if word == "note"]
    refused = [int(value) for word, value in lines if word == "refused"]
    return (refused[0] if refused else notes), contents(file)


def lines_of(answer):
    """What a file opens to, a line for each note, or one for the refusal, and one for the bytes after it."""
    found, file = answer
    told = [f"refused {found}"] if isinstance(found, int) else [f"note {note.hex()}" for note in found]
    return "\n".join([*told, f"file {file.hex()}", ""]).encode()


def opening_difference(got, wanted, start, owner):
    """How what a file opens to differs from what is required, and how it is opened by hand; or nothing."""
    if got == wanted:
        return ""
    tree, weights, me = owner
    write = f"""python3 -c 'open("/tmp/log", "wb").write(bytes.fromhex("{start.hex()}"))'"""
    if len(start) > 1_000:
        write = f"write those {len(start)} bytes to /tmp/log"
    return (f"it opens otherwise\n{text_difference(lines_of(got), lines_of(wanted))}\n"
            f"    by hand: {write}; {os.path.relpath(LOG_PROBE, TOP)} /tmp/log {tree.hex()} {weights.hex()} {me}")


def stored_lines():
    """The stored files and what each opens to, a line each."""
    with open(f"{TESTS}/log/opening.jsonl") as lines:
        return list(lines)


def names():
    """What can be run by itself: `log/NUMBER`, a line of the stored files, counted from 1."""
    return [str(number) for number in range(1, len(stored_lines()) + 1)]


def stored_file(tally, folder, number, line):
    """A file whose answer is known: the notes and the bytes after opening, or the number and the same bytes."""
    stored = json.loads(line)
    start, wanted = bytes.fromhex(stored["bytes"]), stored["answer"]
    owner = bytes.fromhex(stored["tree"]), bytes(stored["weights"]), stored["me"]
    if "number" in wanted:
        right = wanted["number"], start
    else:
        right = [bytes.fromhex(note) for note in wanted["notes"]], bytes.fromhex(wanted["file"])
    tally.add(f"log/{number}", opening_difference(opened(folder, start, owner), right, start, owner))


def case(tally, _kind, name):
    """A stored file by its number."""
    with tempfile.TemporaryDirectory() as folder:
        stored_file(tally, folder, name, stored_lines()[int(name) - 1])


def stored_files(tally, folder):
    for name, line in zip(names(), stored_lines()):
        stored_file(tally, folder, name, line)


def check(tally, folder, name, start, right, owner=OWNER):
    """A file opens to these notes, or to a refusal that leaves it as it is."""
    wanted = (right, start if isinstance(right, int) else log_file(owner, right, end=start_gate(start, owner, right)))
    got = opened(folder, start, owner)
    tally.add(name, opening_difference(got, wanted, start, owner))


def start_gate(start, owner, notes):
    """The closed gate after the notes, which stays as it is; of a new log it is 0."""
    place = len(log_file(owner, notes, end=b""))
    return start[place:place + 1] if start[:1] == b"\1" and len(start) > place else b"\0"


def shapes(tally, folder):
    """A log of four notes cut at each length, with each gate closed, and opened by others; a log in making."""
    notes = [bytes([2] * length) for length in (14, 15, 162, 153)]
    whole, new = log_file(OWNER, notes), log_file(OWNER, [])
    tally.add("the lengths of a log", "" if [len(log_file(OWNER, notes[:n])) for n in range(5)] == [44, 63, 83, 250, 408] else "they differ")
    for length in range(len(whole)):
        check(tally, folder, f"a log cut to {length} bytes", whole[:length], [] if length < 2 else 1004)
    for place, count in ((43, 0), (62, 1), (82, 2), (249, 3), (407, 4)):
        for gate in (0, 2, 255):
            closed = whole[:place] + bytes([gate]) + whole[place + 1:]
            check(tally, folder, f"a log with {gate} at {place}", closed, notes[:count])
    for length in range(len(new) + 1):
        check(tally, folder, f"a log in making of {length} bytes", b"\0" + new[1:length] if length else b"", [])
        likely = length < 2 or length == len(new)
        check(tally, folder, f"{length} bytes after a strange gate", b"\xff" + new[1:length] if length else b"", [] if likely else 1004)
    check(tally, folder, "a log whose first gate is closed", b"\0" + whole[1:], 1004)
    tree, weights, me = OWNER
    for name, owner in (("another tree", (bytes([8] * 32), weights, me)), ("four members", (tree, bytes([1] * 4), me)),
                        ("other weights", (tree, bytes([1, 1, 3]), me)), ("another member", (tree, weights, 1))):
        check(tally, folder, f"a log opened by {name}", whole, 1005, owner)


def weighted(tally, folder):
    """Members that weigh 1, 1 and 3: three bytes more, and nobody else opens it."""
    heavy = (OWNER[0], bytes([1, 1, 3]), 2)
    notes = [bytes([5] * 14), bytes([6] * 300)]
    whole, new = log_file(heavy, notes), log_file(heavy, [])
    check(tally, folder, "a new log with weights", b"", [], heavy)
    tally.add("the length of a log with weights", "" if len(new) == 47 else f"{len(new)}")
    check(tally, folder, "a log with weights", whole, notes, heavy)
    for length in range(2, len(whole)):
        check(tally, folder, f"a log with weights cut to {length} bytes", whole[:length], 1004, heavy)
    for owner in (OWNER, (OWNER[0], bytes([1, 3, 1]), 2), (OWNER[0], bytes([1, 1, 3]), 1)):
        check(tally, folder, f"a log with weights opened by {list(owner[1])}, {owner[2]}", whole, 1005, owner)
        check(tally, folder, f"a log whose weights aren't whole opened by {list(owner[1])}", whole[:46], 1004, owner)
    check(tally, folder, "a log of others, opened with weights", log_file(OWNER, []), 1005, heavy)


def called(folder, start, count, length, fail=""):
    """The calls of a run over a file with these bytes, what it printed, and the file."""
    file, calls = f"{folder}/log", f"{folder}/calls"
    with open(file, "wb") as log:
        log.write(start)
    if os.path.exists(calls):
        os.remove(calls)
    more = {"LD_PRELOAD": f"{folder}/calls.so", "CALLS": calls, "FAIL": fail}
    told = appended(file, count, length, env={**os.environ, **more})
    lines = contents(calls).decode().splitlines() if os.path.exists(calls) else []
    return lines, told, file


def note_calls(end, length):
    """The calls that put a note after the closed gate at a place: all but the gate, and then the gate."""
    return [f"write {end + 1} {length + 5}", "sync", f"write {end} 1", "sync"]


def order(tally, folder):
    """The calls of making, of appending and of cutting off, in the order in which the format has them."""
    making = ["sync", "write 0 1", "sync", "write 1 43", "sync", "write 0 1", "sync"]
    opening = ["sync folder", "sync"]
    whole = log_file(OWNER, [bytes([7] * 14)])
    for name, start, count, wanted in (
            ("a new log", b"", 0, opening + making),
            ("a log in making", bytes(20), 0, opening + ["cut 0"] + making),
            ("two notes for a new log", b"", 2, opening + making + note_calls(43, 14) + note_calls(62, 14)),
            ("a log that is whole", whole, 0, opening),
            ("a note for it", whole, 1, opening + note_calls(62, 14)),
            ("a log with a torn note", whole + b"\0\0\0\x0etorn", 1, opening + ["cut 63", "sync"] + note_calls(62, 14))):
        lines, told, _file = called(folder, start, count, 14)
        problem = "" if told.get("appended") == count else f"{told}"
        if not problem and lines != wanted:
            problem = "they differ\n" + text_difference(*("\n".join(it).encode() for it in (lines, wanted)))
        tally.add(f"the calls of {name}", problem)


def failing(tally, folder, name, start, found, all_later):
    """Each call fails in turn, by itself or with all later ones: 1001, and the notes before are there, with one more or without."""
    number, problem, was_failed = 0, "", True
    while was_failed and not problem:
        number += 1
        lines, told, file = called(folder, start, 3, 14, f"{number}.." if all_later else str(number))
        was_failed = any(line.endswith(" failed") for line in lines)
        if was_failed:
            # the folder's sync comes before the disk, so there is no log that could be refused
            right = told.get("refused") == (2 if "sync folder failed" in lines else 1001)
            problem = reopened(file, {"found": found, **told}, 1) or ("" if right else f"call {number} failed: {told}")
        elif told != {"found": found, "appended": 3}:
            problem = f"{told}"
    print(f"tests/run: {name}: {number - 1} calls, each failed {'with all later ones' if all_later else 'once'}", flush=True)
    tally.add(f"failing calls of {name}", problem or ("" if number > 1 else "no call was seen"))


def reopened(file, before, more):
    """What is wrong with a log's notes after a run: it has at least those that were reported, and at most this many more."""
    found = appended(file, 0, 0).get("found", -1)
    sure = before.get("found", 0) + before.get("appended", 0)
    return "" if sure <= found <= sure + more else f"{found} notes after {before}"


def full_device(tally, folder):
    """A log on a device that gets full: the note that doesn't fit is refused, and the notes before it stay."""
    file = f"{folder}/full"

    def limited():
        resource.setrlimit(resource.RLIMIT_FSIZE, (500, 500))

    before = appended(file, 9, 100, preexec_fn=limited, restore_signals=False)
    tally.add("a log on a full device", "" if before == {"found": 0, "appended": 4, "refused": 1001} else f"{before}")
    tally.add("the same log, opened again", reopened(file, before, 1))
    after = appended(file, 2, 100)
    tally.add("the same log, with room", "" if after.get("appended") == 2 and "refused" not in after else f"{after}")


def log_refused(tally, folder, name, start, found):
    """A log that begins as these bytes, with this many notes, while each allocation is refused in turn: it has what was reported as found
    or appended, and nothing else."""
    number, problem, was_refused = 0, "", True
    while was_refused and not problem:
        number += 1
        file, mark = f"{folder}/{name}{number}", f"{folder}/mark{number}"
        with open(file, "wb") as log:
            log.write(start)
        more = {"LD_PRELOAD": f"{folder}/refuse.so", "REFUSE": str(number), "REFUSED": mark}
        before = appended(file, 3, 14, env={**os.environ, **more})
        was_refused = os.path.exists(mark)
        if was_refused:
            os.remove(mark)
        wanted = before == {"found": found, "appended": 3} or (was_refused and before.get("refused", 1) == 1)
        problem = reopened(file, {"found": found, **before}, 0) or ("" if wanted else f"allocation {number} refused: {before}")
    print(f"tests/run: {name}: {number - 1} allocations, each refused once", flush=True)
    tally.add(f"memory for {name}", problem)


def memory_refused(tally, folder):
    """A log on a disk in memory, likewise: what was reported as appended is left after a crash."""
    number, problem, was_refused = 0, "", True
    while was_refused and not problem:
        number += 1
        mark = f"{folder}/mark{number}"
        told = appended("-", 3, 14, env={**os.environ, "LD_PRELOAD": f"{folder}/refuse.so", "REFUSE": str(number), "REFUSED": mark})
        was_refused = os.path.exists(mark)
        if was_refused:
            os.remove(mark)
        sure = told.get("appended", 0)
        wanted = told == {"found": 0, "appended": 3, "left": 3} or (was_refused and told.get("refused", 1) == 1)
        problem = "" if wanted and told.get("left", sure) == sure else f"allocation {number} refused: {told}"
    print(f"tests/run: a log in memory: {number - 1} allocations, each refused once", flush=True)
    tally.add("memory for a log in memory", problem)


def run(tally):
    with tempfile.TemporaryDirectory() as folder:
        if not built_shim(tally, folder, "refuse") or not built_shim(tally, folder, "calls"):
            return
        stored_files(tally, folder)
        shapes(tally, folder)
        weighted(tally, folder)
        order(tally, folder)
        full_device(tally, folder)
        notes = log_file(OWNER, [bytes([7] * 40)] * 3)
        for name, start, found in (("a new log", b"", 0), ("a log with notes", notes, 3), ("a torn log", notes + b"\0\0\0\x28torn", 3)):
            failing(tally, folder, name, start, found, False)
            failing(tally, folder, name, start, found, True)
            log_refused(tally, folder, name, start, found)
        memory_refused(tally, folder)
