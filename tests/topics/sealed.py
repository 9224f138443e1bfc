"""Nodes of a run with a key. Datagrams that are forged, flipped, replayed or sealed otherwise change nothing. Also repeated requests
and faults, files of keys, and run files of logs that are lost, swapped, emptied and copied back."""
import functools
import hashlib
import hmac
import json
import os
import random
import re
import shutil
import socket
import subprocess
import tempfile
import time

from topics import nodes, processor
from topics.nodes import (LIMIT, LISTING, MEMORY, NODES, SHARED, agreed, answer, free_ports, grown, lay, lay_logs, logs_in, node_line, put,
                          refused, stays, taken)
from topics.tally import Lines, contents, difference, seen as shown

# how many datagrams are sent, in all, that are forged; and that are noise or genuine ones with a bit flipped
FORGED = FLIPPED = 1_000_000
# after this many a sender naps, so that what it sends finds room in the socket's line
AT_ONCE, NAP = 64, 0.001
STRANGER = "127.0.0.9"
TALLY = re.compile(rb"^dpbn: member (\d): heard (\d+)(?:, last \d+ s ago)?, sealed otherwise (\d+), asked again (\d+), unsent (\d+)$")
NOTHING = b"".join(b"dpbn: member %d: heard 0, sealed otherwise 0, asked again 0, unsent 0\n" % me for me in (1, 2)) + b"dpbn: strangers: 0\n"


# ---- what goes over the line

def code(key, text):
    """The first half of HMAC with SHA-512."""
    return hmac.new(key, text, hashlib.sha512).digest()[:32]


def run_key(key, tree, weights):
    return code(key, b"dpbn run 1" + tree + bytes([len(weights), *weights]))


def sealed(key, text):
    return text + code(key, text)


def claim(number, member):
    return number.to_bytes(8, "big") + bytes([member])


def front(magic, kind, sender, tree, path):
    return magic + bytes([kind, sender]) + tree + len(path).to_bytes(2, "big") + path


def record(path, name, content):
    """The text of a build of one package with one file."""
    lines = ["@dpb 1", f"@name {name}", f"@comment pkgpath={path}", "@host 1", "@claim 1.1", "x",
             f"@sha {hashlib.sha256(content).hexdigest()}", f"@size {len(content)}", "", ""]
    return "\n".join(lines).encode() + content


def datagrams_of(tree, path, build, sender):
    """A datagram of each kind, by its name, as that member may send it."""
    def whole(kind, body):
        return front(b"DPB1", kind, sender, tree, path) + body

    def piece(kind, carrier):
        return front(b"DPB2", kind, sender, tree, path) + carrier + len(build).to_bytes(4, "big") + bytes(2) + build

    greatest = claim(2 ** 63 - 1, sender)
    return {"an offer": whole(1, greatest), "a promise": whole(2, claim(1, 0) + b"\0"), "a vote": whole(4, claim(1, 0)), "a request": whole(6, b""),
            "a refusal": whole(7, claim(1, 0) + greatest), "a promise with a vote": piece(2, claim(1, 0) + b"\1" + claim(1, 1)),
            "a proposal": piece(3, claim(1, 1)), "an agreed build": piece(5, b"")}


def flood(mouth, to, datagrams):
    """Sends these, with naps between."""
    for number, datagram in enumerate(datagrams):
        mouth.sendto(datagram, to)
        if number % AT_ONCE == AT_ONCE - 1:
            time.sleep(NAP)


# ---- nodes that run

def where(port):
    return ",".join(f"127.0.0.{member + 1}:{port}" for member in range(3))


def keyed(port, key="key"):
    """The words on peers and key."""
    return ["--hosts", where(port), "--key", key, "--patience", "5"]


def node_words(me, turns, more, files=SHARED):
    return ["node", *files, "--members", "3", "--me", str(me), "--turns", str(turns), *more]


def begun(folder, me, more, turns=1_000_000, files=SHARED):
    """A node of three, which writes its lines to files."""
    with open(f"{folder}/out-{me}", "wb") as out, open(f"{folder}/err-{me}", "wb") as err:
        return subprocess.Popen([NODES, *node_words(me, turns, [*more, "--progress", "100"], files)], cwd=folder, stdout=out, stderr=err)


def over(node):
    node.kill()
    node.wait()


def lines_of(folder, me):
    """What the node printed so far."""
    return contents(f"{folder}/err-{me}").split(b"\n")[:-1]


def seen(folder, me):
    """What it printed last of each other member (heard, sealed otherwise, asked again, unsent), and of strangers."""
    tallies, strangers = {}, 0
    for line in lines_of(folder, me):
        found = TALLY.match(line)
        if found:
            tallies[int(found[1])] = tuple(int(it) for it in found.groups()[1:])
        elif line.startswith(b"dpbn: strangers: "):
            strangers = int(line.split()[-1])
    return tallies, strangers


def settled(folder, me):
    """That, once it no longer changes: not for a while, in which the node has reported several times."""
    now, end = None, time.monotonic() + LIMIT
    while time.monotonic() < end:
        before, reports, since = now, reports_of(folder, me), time.monotonic()
        while (reports_of(folder, me) < reports + 3 or time.monotonic() < since + 1.5) and time.monotonic() < end:
            time.sleep(0.1)
        now = seen(folder, me)
        if now == before:
            break
    return now


def reports_of(folder, me):
    """How often it reported on the others."""
    return sum(line.startswith(b"dpbn: strangers: ") for line in lines_of(folder, me))


def has_told(folder, me, *lines):
    """Waits until it has reported one of these lines."""
    until = time.monotonic() + LIMIT
    while time.monotonic() < until:
        if not set(lines).isdisjoint(lines_of(folder, me)):
            return True
        time.sleep(0.02)
    return False


def at_rest(folder, me):
    """Waits until the node's log stays as it is, and gives its bytes."""
    return nodes.at_rest(folder, me)[f"node-{me}.log"]


def last_of(folder, *members):
    """What these nodes printed last."""
    return Lines(text for me in members for text in (f"node {me}, the last:", *(f"    {line!r}" for line in lines_of(folder, me)[-5:])))


def others(line):
    """Whether only members, strangers and the node itself are reported."""
    return not (TALLY.match(line) or line.startswith((b"dpbn: strangers: ", b"node ")))


def make_key(folder, name):
    subprocess.run([NODES, "key", name], cwd=folder, check=True, timeout=600)


def lay_run(folder, listing=LISTING, builds=nodes.BUILDS):
    """Files of a listing and builds, and a key; and gives it."""
    lay(folder, listing, builds)
    make_key(folder, "key")
    return bytes.fromhex(contents(f"{folder}/key").decode().strip())


def tree_of(folder, me=0):
    """The listing's digest, as the node's run file has it."""
    return bytes.fromhex(contents(f"{folder}/logs/node-{me}.run").split(b"\n")[1].split()[1].decode())


def many(packages, seed=1, sizes=(10,)):
    """A listing in which packages need others, and files for each."""
    dice = random.Random(seed)
    listing = "".join(f"p/n{k}.FULLPKGNAME=n{k}-1\n" + (f"p/n{k}.LIB_DEPENDS=p/n{dice.randrange(k)}\n" if k % 3 else "") for k in range(packages))
    return listing, json.dumps({f"p/n{k}": [{"hex": dice.randbytes(dice.choice(sizes)).hex(), "name": "x"}] for k in range(packages)})


# ---- files of keys

def keys(tally):
    """What `key` makes, and which files of keys a node takes."""
    with tempfile.TemporaryDirectory() as folder:
        lay(folder)
        os.umask(0)
        tally.add("dpbn key", difference(answer(["key", "key"], folder), (b"", b"", 0)))
        os.umask(0o022)
        first, mode = contents(f"{folder}/key"), os.stat(f"{folder}/key").st_mode & 0o777
        tally.add("the file of a key", "" if re.fullmatch(rb"[0-9a-f]{64}\n", first) and mode == 0o600 else f"{first!r}, mode {mode:o}")
        tally.add("dpbn key, over a key", difference(answer(["key", "key"], folder), refused(2)))
        tally.add("the key that was there", "" if contents(f"{folder}/key") == first else "it changed")
        tally.add("dpbn key, in no folder", difference(answer(["key", "none/key"], folder), refused(2)))
        make_key(folder, "second")
        tally.add("a second key", "" if contents(f"{folder}/second") != first else "it is the first")
        port = free_ports(1)
        digits = first[:64]
        for name, text, mode, wanted in (("upper", digits.upper() + b"\n", 0o600, None), ("owners", first, 0o700, None), ("read", first, 0o400, None),
                                         ("group", first, 0o640, 1208), ("all", first, 0o604, 1208), ("write", first, 0o602, 1208),
                                         ("short", digits[:63] + b"\n", 0o600, 1207), ("long", first + b"\n", 0o600, 1207), ("end", digits, 0o600, 1207),
                                         ("empty", b"", 0o600, 1207), ("hex", b"g" + digits[1:] + b"\n", 0o600, 1207), ("dos", digits + b"\r\n", 0o600, 1207)):
            put(f"{folder}/{name}", text)
            os.chmod(f"{folder}/{name}", mode)
            lay_logs(folder)
            got = answer(node_words(0, 0, keyed(port, name)), folder)
            tally.add(f"the key {name}", difference(got, refused(wanted) if wanted else (node_line(0, q=1), NOTHING, 0)))
            tally.add(f"the logs with the key {name}", "" if bool(logs_in(folder)) == (not wanted) else f"{sorted(logs_in(folder))}")
        os.mkdir(f"{folder}/private", 0o700)
        os.mkfifo(f"{folder}/fifo", 0o600)
        for name, wanted in (("none", 2), ("private", 2), ("logs", 2), ("fifo", 2)):
            tally.add(f"the key {name}", difference(answer(node_words(0, 0, keyed(port, name)), folder), refused(wanted)))
        listing = ["--listing", "fifo", *SHARED[2:]]
        tally.add("a listing that is a FIFO", difference(answer(node_words(0, 0, keyed(port), listing), folder), refused(2)))


def printed(tally):
    """What a node that builds prints under a key: its line, and how many datagrams it dropped. For `node` other cases ask that."""
    with tempfile.TemporaryDirectory() as folder:
        lay_run(folder, LISTING + "a/b.IGNORE=broken\n")
        words = ["build", "--listing", "listing", "--dir", "logs", "--work", "work", "--members", "1", "--me", "0", "--key", "key"]
        got = answer([*words, "--hosts", f"127.0.0.1:{free_ports(1)}", "--rest", "1", "--progress", "10"], folder)
        line = b"node 0: I=0 B=0 Q=0 T=0 !=1"
        more = [it for it in got[1].split(b"\n")[:-1] if it not in (line, b"dpbn: strangers: 0")]
        tally.add("what build prints under a key", f"{more}, {got}" if more or got[::2] != (line + b"\n", 0) else "")


# ---- logs and run files

def runs(tally):
    """Logs that are lost, swapped, emptied, copied back, and run files of other runs."""
    with tempfile.TemporaryDirectory() as folder:
        lay_run(folder)
        make_key(folder, "second")
        put(f"{folder}/other", b"a/c.FULLPKGNAME=c-1.0\n")
        port = free_ports(1)
        words = keyed(port)
        first = node_words(0, 0, words)
        stays(tally, folder, "--continue, without a log and a run file", [*first, "--continue"], 1008)
        lay_logs(folder)
        put(f"{folder}/logs/node-0.log", b"")
        stays(tally, folder, "--continue, with an empty log and no run file", [*first, "--continue"], 1008)
        os.remove(f"{folder}/logs/node-0.log")
        three = [begun(folder, me, words) for me in range(3)]
        held = [has_told(folder, me, node_line(me, i=1)[:-1]) for me in range(3)]
        for node in three:
            over(node)
        tally.add("three nodes under a key", "" if all(held) else shown(last_of(folder, 0, 1, 2)))
        whole = logs_in(folder)
        tally.add("the folder", "" if sorted(whole) == [f"node-{me}.{it}" for me in range(3) for it in ("log", "run")] else f"{sorted(whole)}")
        tally.add("--continue", "" if answer([*first, "--continue"], folder)[::2] == (node_line(0, i=1), 0) else "it is refused")

        def restored():
            lay_logs(folder)
            for name, text in whole.items():
                put(f"{folder}/logs/{name}", text)

        def spoiled(name, files, words, wanted):
            """The folder with these files otherwise; none of a name: it isn't there."""
            restored()
            for file, text in files.items():
                if text is None:
                    os.remove(f"{folder}/logs/{file}")
                else:
                    put(f"{folder}/logs/{file}", text)
            stays(tally, folder, name, words, wanted)

        log, run = whole["node-0.log"], whole["node-0.run"]
        for name, text in (("no log", None), ("an emptied log", b""), ("a log of one byte", b"\1"), ("a blank log", bytes(40))):
            spoiled(f"{name} next to a run file", {"node-0.log": text}, first, 1007)
            spoiled(f"{name} next to a run file, --continue", {"node-0.log": text}, [*first, "--continue"], 1007)
        spoiled("the log of another member", {"node-0.log": whole["node-1.log"]}, first, 1005)
        spoiled("log and run file of another member", {"node-0.log": whole["node-1.log"], "node-0.run": whole["node-1.run"]}, first, "1006 at 4")
        spoiled("no run file, and a key", {"node-0.run": None}, first, "1006 at 0")
        spoiled("a run file of another version", {"node-0.run": run.replace(b"run 1", b"run 2")}, first, "1006 at 1")
        spoiled("a run file that was cut", {"node-0.run": run[:-1]}, first, "1006 at 5")
        spoiled("an empty run file", {"node-0.run": b""}, first, "1006 at 1")
        spoiled("another listing", {}, ["other" if it == "listing" else it for it in first], "1006 at 2")
        spoiled("other weights", {}, [*first, "--weights", "1,1,2"], "1006 at 3")
        two = ["--members", "2", "--me", "0", "--turns", "0", "--hosts", ",".join(where(port).split(",")[:2]), "--key", "key"]
        spoiled("fewer members", {}, ["node", *SHARED, *two], "1006 at 3")
        spoiled("another key", {}, node_words(0, 0, keyed(port, "second")), "1006 at 5")
        spoiled("no key", {}, node_words(0, 0, ["--hosts", where(port), "--unsealed"]), "1006 at 5")
        with taken(port):
            spoiled("an address that is taken", {}, first, 1204)
        spoiled("a cluster in the folder", {}, ["cluster", *SHARED, "--members", "3", "--turns", "0"], 1203)
        restored()
        put(f"{folder}/logs/node-0.log", log[:-1] + b"\0")
        got = answer(first, folder)
        tally.add("an older copy of the log opens: nothing detects it", "" if got[2] == 0 else f"{got[1]!r}")


def folders(tally):
    """A node starts only in a folder in which nobody but its owner may write; others may read there. Elsewhere nothing is made."""
    with tempfile.TemporaryDirectory() as folder:
        lay_run(folder)
        first = node_words(0, 0, keyed(free_ports(1)))
        for mode in (0o700, 0o755, 0o711, 0o720, 0o775, 0o757, 0o702, 0o1777):
            is_shared = bool(mode & 0o022)
            lay_logs(folder)
            os.chmod(f"{folder}/logs", mode)
            got = answer(first, folder)
            tally.add(f"a folder of logs with mode {mode:o}", difference(got, refused(1210) if is_shared else (node_line(0, q=1), NOTHING, 0)))
            tally.add(f"the logs in a folder with mode {mode:o}", "" if bool(logs_in(folder)) != is_shared else f"{sorted(logs_in(folder))}")
        os.chmod(f"{folder}/logs", 0o775)
        tally.add("--continue in a folder in which others may write", difference(answer([*first, "--continue"], folder), refused(1210)))


def unread(tally, turns=20_000):
    """A node whose messages nobody reads takes all its turns: standard error is a pipe, and its lines are more than it holds."""
    with tempfile.TemporaryDirectory() as folder:
        lay(folder)
        words = node_words(0, turns, ["--base", str(free_ports(3)), "--patience", "0", "--progress", "1"])
        with subprocess.Popen([NODES, *words], cwd=folder, stdout=subprocess.PIPE, stderr=subprocess.PIPE) as node:
            try:
                node.wait(timeout=LIMIT)
                out, told = node.stdout.read(), node.stderr.read()
            except subprocess.TimeoutExpired:
                node.kill()
                out, told = b"", b""
        lines = told.split(b"\n")
        tally.add("a node whose messages nobody reads", "" if (out, node.returncode) == (node_line(0, q=1), 0) else f"{out!r}, {node.returncode}")
        whole = bool(told) and lines[-1] == b"" and set(lines[:-1]) == {node_line(0, q=1)[:-1]}
        tally.add("its messages up to the end of the pipe", "" if whole and len(lines) <= turns else f"{len(lines)} lines, {lines[-3:]}")


# ---- what arrives

def believed(tally):
    """Without a key a build that a member's address announces as agreed is taken; the same datagrams do nothing under a key."""
    for name, words, line in (("no key", ["--unsealed"], node_line(0, i=1)), ("a key", ["--key", "key"], node_line(0, q=1))):
        with tempfile.TemporaryDirectory() as folder:
            lay_run(folder)
            port = free_ports(1)
            with taken(port, "127.0.0.2") as mouth:
                node = begun(folder, 0, ["--hosts", where(port), "--patience", "5", *words])
                grown(f"{folder}/logs/node-0.run", 1)
                # its line comes after its tallies
                grown(f"{folder}/err-0", 1)
                build = record("a/b", "b-1.0", b"forged")
                sent = datagrams_of(tree_of(folder), b"a/b", build, 1).values()
                for datagram in sent:
                    mouth.sendto(datagram, ("127.0.0.1", port))
                if line == node_line(0, i=1):
                    has_told(folder, 0, line[:-1])
                now = settled(folder, 0)
            over(node)
            told = [it for it in lines_of(folder, 0) if it.startswith(b"node ")][-1:]
            tally.add(f"forged datagrams, {name}", "" if told == [line[:-1]] else shown(told, now, last_of(folder, 0)))


def forgeries(tree, weights, count):
    """This many datagrams, of each kind and for each other member, that carry no seal of the run, or a wrong one."""
    dice, texts = random.Random(2), []
    for sender in (1, 2):
        texts += datagrams_of(tree, b"a/b", record("a/b", "b-1.0", b"forged"), sender).values()
    strange = run_key(bytes(32), tree, weights)
    forms = (lambda text: text, lambda text: text + dice.randbytes(32), lambda text: sealed(strange, text), lambda text: sealed(strange, text)[:-1],
             lambda text: text + bytes(32))
    for number in range(count):
        yield forms[number // len(texts) % len(forms)](texts[number % len(texts)])


def forged(tally):
    """A million forged datagrams at a node whose peers are away: a third from a stranger, the others from the members' addresses. Nothing
    is noted, no turn is used; then a peer comes, and both hold all."""
    with tempfile.TemporaryDirectory(dir=MEMORY) as folder:
        lay_run(folder)
        port = free_ports(1)
        node = begun(folder, 0, keyed(port))
        before = at_rest(folder, 0)
        tree = tree_of(folder)
        used, began = processor.seconds_of(node.pid), time.monotonic()
        for address, count in ((STRANGER, FORGED // 3), ("127.0.0.2", FORGED // 3), ("127.0.0.3", FORGED - 2 * (FORGED // 3))):
            with taken(port, address) as mouth:
                flood(mouth, ("127.0.0.1", port), forgeries(tree, (1, 1, 1), count))
        took = time.monotonic() - began
        tallies, strangers = settled(folder, 0)
        used = processor.seconds_of(node.pid) - used
        came = strangers + sum(it[1] for it in tallies.values())
        print(f"tests/run: {FORGED:,} forged datagrams in {took:.1f} s: {came:,} were read, {strangers:,} of a stranger; {used:.1f} s of processor", flush=True)
        # a node that gets no processor loses datagrams
        tally.add("forged datagrams that were read", "" if came > FORGED / 2 else f"{came}", timed=True)
        tally.add("forged datagrams that are heard", "" if all(it[0] == 0 for it in tallies.values()) else f"{tallies}")
        wanted = [b"dpbn: member %d seals otherwise: another key, listing, weights or members" % me for me in (1, 2)]
        told = sorted(line for line in lines_of(folder, 0) if others(line))
        tally.add("what is reported of forged datagrams", "" if told == wanted else f"{told[:5]}")
        tally.add("the log after forged datagrams", "" if contents(f"{folder}/logs/node-0.log") == before else "it changed")
        peer = begun(folder, 1, keyed(port))
        held = [has_told(folder, me, node_line(me, i=1)[:-1]) for me in (0, 1)]
        over(peer)
        over(node)
        tally.add("a peer after forged datagrams", "" if all(held) else shown(held, last_of(folder, 0, 1)))


def flipped(tally):
    """A million datagrams from a member's address at a node: noise, and genuine ones of this run with a bit flipped."""
    dice = random.Random(3)
    with tempfile.TemporaryDirectory(dir=MEMORY) as folder:
        lay_run(folder)
        port = free_ports(1)
        with taken(port, "127.0.0.3") as mouth:
            node = begun(folder, 0, keyed(port))
            genuine = [nodes.heard(mouth, f"datagram {number + 1} of node 0, which printed {lines_of(folder, 0)[-5:]}") for number in range(20)]
            before = at_rest(folder, 0)

            def one(number):
                if number % 2:
                    return dice.randbytes(dice.randrange(200))
                text = bytearray(genuine[number // 2 % len(genuine)])
                place = dice.randrange(8 * len(text))
                text[place // 8] ^= 1 << place % 8
                return bytes(text)

            flood(mouth, ("127.0.0.1", port), (one(number) for number in range(FLIPPED)))
            tallies, _ = settled(folder, 0)
            tally.add("noise and flipped bits", "" if tallies[2][0] == 0 else f"{tallies}")
            tally.add("noise and flipped bits that were read", "" if tallies[2][1] > FLIPPED / 2 else f"{tallies}", timed=True)
            tally.add("the log after noise and flipped bits", "" if contents(f"{folder}/logs/node-0.log") == before else "it changed")
            mouth.sendto(genuine[0], ("127.0.0.1", port))
            tally.add("a genuine one after them", "" if settled(folder, 0)[0][2][0] == 1 else f"{seen(folder, 0)}")
        over(node)
        told = [line for line in lines_of(folder, 0) if others(line)]
        print(f"tests/run: {FLIPPED:,} of noise and flipped bits: {tallies[2][1]:,} were read, and none was heard", flush=True)
        tally.add("what is reported of noise and flipped bits", "" if len(told) == 1 and b"member 2 seals otherwise" in told[0] else f"{told[:5]}")


def strangers_of_the_run(tally):
    """A member with another key, other weights or another listing is heard by none, and reported by name, once; the others go on without."""
    for name, more, files in (("key", keyed, None), ("weights", None, None), ("listing", None, "other")):
        with tempfile.TemporaryDirectory() as folder:
            lay_run(folder)
            make_key(folder, "second")
            put(f"{folder}/other", b"a/b.FULLPKGNAME=b-1.0\na/c.FULLPKGNAME=c-1.0\n")
            port = free_ports(1)
            words = keyed(port, "second") if more else keyed(port)
            words += ["--weights", "1,1,2"] if name == "weights" else []
            third = begun(folder, 2, words, files=["other" if it == "listing" else it for it in SHARED] if files else SHARED)
            # the others send nothing any more once they hold all
            nodes.listening(third)
            two = [begun(folder, me, keyed(port)) for me in (0, 1)]
            held = [has_told(folder, me, node_line(me, i=1)[:-1]) for me in (0, 1)]
            line = b"dpbn: member 2 seals otherwise: another key, listing, weights or members"
            named = [has_told(folder, me, line) for me in (0, 1)]
            # which of them sends it anything depends on who was the first to claim
            back = has_told(folder, 2, *(line.replace(b"member 2", b"member %d" % me) for me in (0, 1)))
            for node in (*two, third):
                over(node)
            tally.add(f"two nodes next to one with another {name}", "" if all(held) and all(named) and back else f"held {held}, named {named}, back {back}")
            once = [lines_of(folder, me).count(line) for me in (0, 1)]
            heard = [seen(folder, me)[0][2][0] for me in (0, 1)] + [it[0] for it in seen(folder, 2)[0].values()]
            tally.add(f"what is heard of another {name}", "" if once == [1, 1] and not any(heard) else f"reported {once} times, heard {heard}")


def replayed(tally, packages=30):
    """All that two nodes of a run sent to the third, sent again: to the same nodes, started again, and to those of a run with another key."""
    with tempfile.TemporaryDirectory(dir=MEMORY) as folder:
        lay_run(folder, *many(packages, sizes=(0, 10, 40_000)))
        port = free_ports(1)
        with taken(port, "127.0.0.3") as ear:
            ear.settimeout(0.05)
            ear.setsockopt(socket.SOL_SOCKET, socket.SO_RCVBUF, 4_000_000)
            two, sent, held = [begun(folder, me, keyed(port)) for me in (0, 1)], [], [False, False]
            until = time.monotonic() + LIMIT
            while not all(held) and time.monotonic() < until:
                try:
                    sent.append(ear.recv(65_536))
                except TimeoutError:
                    held = [node_line(me, i=packages)[:-1] in lines_of(folder, me) for me in (0, 1)]
            for node in two:
                over(node)
            tally.add("two nodes that are overheard", "" if all(held) and len(sent) > packages else f"{held}, {len(sent)}")
            two = [begun(folder, me, keyed(port)) for me in (0, 1)]
            for me in (0, 1):
                grown(f"{folder}/err-{me}", 1)
                flood(ear, (f"127.0.0.{me + 1}", port), sent)
            heard = [settled(folder, me)[0][2] for me in (0, 1)]
            for node in two:
                over(node)
            tally.add("what was sent, sent again in its run", "" if all(it[0] > 0 and it[1] == 0 for it in heard) else f"{heard}")
            agreed_of_two(tally, folder, "a run that is replayed")
            os.remove(f"{folder}/key")
            make_key(folder, "key")
            lay_logs(folder)
            node = begun(folder, 0, keyed(port))
            before = at_rest(folder, 0)
            flood(ear, ("127.0.0.1", port), sent)
            heard = settled(folder, 0)[0][2]
            over(node)
            print(f"tests/run: {len(sent):,} datagrams of an earlier run sent again: {heard[1]:,} were read, and {heard[0]} heard", flush=True)
            tally.add("what was sent, sent again in another run", "" if heard[0] == 0 and heard[1] > 0 else f"{heard}")
            tally.add("the log after another run's datagrams", "" if contents(f"{folder}/logs/node-0.log") == before else "it changed")


def agreed_of_two(tally, folder, when):
    """What the logs of nodes 0 and 1 hold: one package a path."""
    shutil.copy(f"{folder}/logs/node-1.log", f"{folder}/logs/node-2.log")
    agreed(tally, folder, when)
    os.remove(f"{folder}/logs/node-2.log")


def beside_a_flood(tally, packages=150):
    """Two nodes that build, and the same next to forged datagrams from the third one's address at both."""
    took = []
    for is_flooded in (False, True):
        with tempfile.TemporaryDirectory() as folder:
            lay_run(folder, *many(packages))
            port = free_ports(1)
            began = time.monotonic()
            two = [begun(folder, me, keyed(port)) for me in (0, 1)]
            held, sent = [False, False], 0
            grown(f"{folder}/logs/node-0.run", 1)
            texts = list(forgeries(tree_of(folder), (1, 1, 1), 4_096))
            with taken(port, "127.0.0.3") as mouth:
                while not all(held) and time.monotonic() < began + LIMIT:
                    for datagram in texts[:AT_ONCE] if is_flooded else []:
                        for me in (0, 1):
                            mouth.sendto(datagram, (f"127.0.0.{me + 1}", port))
                            sent += 1
                    texts = texts[AT_ONCE:] + texts[:AT_ONCE]
                    time.sleep(0.002)
                    held = [node_line(me, i=packages)[:-1] in lines_of(folder, me)[-8:] for me in (0, 1)]
            took.append((time.monotonic() - began, sent))
            for node in two:
                over(node)
            tally.add(f"two nodes {'beside a flood' if is_flooded else 'alone'}", "" if all(held) else shown(held, last_of(folder, 0, 1)))
    print(f"tests/run: two nodes, {packages} packages: {took[0][0]:.1f} s, and next to {took[1][1]:,} forged datagrams {took[1][0]:.1f} s", flush=True)


# ---- requests that come again

def asked_for(mouth, to, request, seconds):
    """Sends a member's request about every millisecond, and gives how often it was sent, and when datagrams with an agreed build came."""
    sent, came, began = 0, [], time.monotonic()
    while time.monotonic() < began + seconds:
        mouth.sendto(request, to)
        sent += 1
        try:
            if mouth.recv(65_536)[:5] == b"DPB2\5":
                came.append(time.monotonic() - began)
        except TimeoutError:
            pass
    return sent, came


def comes(mouth, front, seconds):
    """Whether a datagram that begins so comes within this many seconds."""
    until = time.monotonic() + seconds
    while time.monotonic() < until:
        try:
            if mouth.recv(65_536).startswith(front):
                return True
        except TimeoutError:
            pass
    return False


def repeated(tally, seconds=4):
    """A member that is in sends one request over and over: a node answers it once in a second, and drops and counts the others. It answers
    at once what is asked of another unit, and datagrams from another member's address."""
    with tempfile.TemporaryDirectory() as folder:
        key = lay_run(folder, *many(2))
        port = free_ports(1)
        node = ("127.0.0.1", port)
        two = [begun(folder, me, keyed(port)) for me in (0, 1)]
        held = [has_told(folder, me, node_line(me, i=2)[:-1]) for me in (0, 1)]
        over(two[1])
        tally.add("two nodes that are asked", "" if all(held) else f"{held}")
        tree = tree_of(folder)

        def request(path):
            return sealed(run_key(key, tree, (1, 1, 1)), datagrams_of(tree, path, b"", 2)["a request"])

        with taken(port, "127.0.0.3") as mouth, taken(port, "127.0.0.2") as other:
            for it in (mouth, other):
                it.settimeout(0.001)
            before = settled(folder, 0)[0]
            sent, came = asked_for(mouth, node, request(b"p/n0"), seconds)
            print(f"tests/run: one request, sent {sent:,} times in {seconds} s, was answered {len(came)} times", flush=True)
            tally.add("a request sent over and over", "" if len(came) <= seconds + 1 else f"sent {sent}, {came}")
            often = len(came) >= seconds - 1 and sent > 200 * seconds
            tally.add("a request sent over and over, how often it is answered", "" if often else f"sent {sent}, {came}", timed=True)
            for name, it, path in (("for another unit", mouth, b"p/n1"), ("from another member's address", other, b"p/n0")):
                it.sendto(request(path), node)
                tally.add(f"a request {name} after it", "" if comes(mouth, front(b"DPB2", 5, 0, tree, path), 0.9) else "it isn't answered at once", timed=True)
            heard, otherwise, again = [now - then for now, then in zip(settled(folder, 0)[0][2][:3], before[2])]
            # the request for the other unit is one more that is heard; an answer may have been overlooked
            told = f"sent {sent}, answered {len(came)}, heard {heard}, {otherwise}, again {again}"
            right = otherwise == 0 and heard + again <= sent + 1 and heard >= len(came)
            tally.add("what is counted of requests", "" if right else told)
            right = heard + again == sent + 1 and len(came) + 1 <= heard <= len(came) + 2
            tally.add("what is counted of requests, of which none is lost", "" if right else told, timed=True)
        over(two[0])


def silent_for(folder, me, member):
    """For how many seconds it heard nothing of a member, as it printed last."""
    told = re.findall(rb"^dpbn: member %d: heard \d+, last (\d+) s ago" % member, contents(f"{folder}/err-{me}"), re.MULTILINE)
    return int(told[-1]) if told else 0


def faults_again(tally, count=50):
    """A member that is in sends what means nothing: the fault is reported once, and then how often it came again; and how many seconds ago
    the member was heard."""
    with tempfile.TemporaryDirectory(dir=MEMORY) as folder:
        key = lay_run(folder)
        port = free_ports(1)
        with taken(port, "127.0.0.2") as mouth:
            node = begun(folder, 0, keyed(port))
            at_rest(folder, 0)
            run = run_key(key, tree_of(folder), (1, 1, 1))
            for number in range(count):
                mouth.sendto(sealed(run, b"noise %d" % number), ("127.0.0.1", port))
            sent = time.monotonic()
            again = has_told(folder, 0, b"dpbn: fault 1202 came %d times more" % (count - 1))
            silent, passed = 0, 0
            while silent < 2 and passed < LIMIT:
                time.sleep(0.1)
                silent, passed = silent_for(folder, 0, 1), time.monotonic() - sent
        over(node)
        told = [line for line in lines_of(folder, 0) if others(line)]
        once = told.count(b"dpbn: fault 1202")
        right = once == 1 and all(line.startswith(b"dpbn: fault 1202") for line in told)
        tally.add("a fault that comes again", "" if again and right else shown(told[-5:]))
        tally.add("since when a member is silent", "" if 2 <= silent <= passed else f"for {silent} s, and {passed:.1f} s passed")


def run(tally):
    for one in (keys, printed, runs, folders, unread, believed, forged, flipped, strangers_of_the_run, replayed, repeated, faults_again, beside_a_flood):
        tally.case(one)
    tally.case(functools.partial(nodes.kills, rounds=20, seed=2, sealing=True))
