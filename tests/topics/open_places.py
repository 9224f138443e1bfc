"""In which sources of Rattle a file, a log, a socket or a node may be opened. A program that opened a second one could do with it what no
contract speaks of: empty its log under a past that it supposes, or send what its own node never sent."""
import re
from typing import Dict, List, Tuple

from topics.warrants import code_of

# what opens one, and how often each source names it
ALLOWED: Dict[str, Dict[str, int]] = {
    # the past that a program supposes of its log's file, and all that can be supposed
    "SupposedEmpty": {"run_file/src/supposed.rt": 2, "run_file/src/lib.rt": 1, "dpbn_node/src/answering.rt": 2, "dpbn_build/src/answering.rt": 2},
    "Supposed": {"run_file/src/supposed.rt": 2, "run_file/src/lib.rt": 1, "run_file/src/system_folder.rt": 4},
    "SystemFolder::at": {"dpbn_node/src/answering.rt": 1, "dpbn_build/src/answering.rt": 1},
    # a file as a log's disk
    "FileDisk::new": {"run_file/src/system_folder.rt": 1, "dpbn_node/src/given.rt": 1, "log_probe/src/main.rt": 1, "check_log/src/real_file.rt": 1},
    "Node::open": {"dpbn_node/src/starting.rt": 1, "laws/src/reopening.rt": 2, "check_turns/src/reopened.rt": 2, "check_worlds/src/reopened.rt": 5},
    "Node::open_with_digest": {"node/src/opening.rt": 1, "cluster_turns/src/opening.rt": 1, "simulator/src/opening.rt": 1},
    # sockets
    "UdpSocket": {"udp/src/sockets.rt": 3},
    "UdpPort::alone_behind": {"dpbn_node/src/starting.rt": 1, "udp/src/udp_port.rt": 1},
    # any other file
    "std::fs": {
        "check_log/src/real_file.rt": 1, "dpbn/src/lines.rt": 2, "dpbn_cluster/src/answering.rt": 1, "dpbn_key/src/key_files.rt": 2,
        "dpbn_key/src/making.rt": 1, "job_folder/src/folder.rt": 2, "job_folder/src/lock.rt": 2, "program_io/src/named.rt": 1,
        "program_io/src/tree.rt": 1, "run_file/src/files.rt": 2, "run_file/src/folder_mode.rt": 1, "run_file/src/system_folder.rt": 1,
        "stable_record/src/file_disk.rt": 1,
    },
}
# these have no other names
RENAMED = re.compile(r"\b(SupposedEmpty|Supposed|SystemFolder|FileDisk|Node|UdpSocket|UdpPort|fs|std)\b(?: ?:: ?\{? ?self)? as\b")


def places_of(name: str, sources: Dict[str, str]) -> Dict[str, int]:
    """How often each source names it, in code."""
    first, *rest = name.split("::")
    # the last part may be in braces
    written = re.compile(rf"\b{first}\b" + "".join(rf" ?:: ?(?:{it}\b|\{{[^;]*\b{it}\b)" for it in rest))
    counts = {path: len(written.findall(code_of(source))) for path, source in sources.items()}
    return {path: count for path, count in counts.items() if count}


def renamed_in(sources: Dict[str, str]) -> List[str]:
    """The sources that give one of them another name."""
    return sorted(path for path, source in sources.items() if RENAMED.search(code_of(source)))


def problems(sources: Dict[str, str]) -> List[Tuple[str, str]]:
    """For each name what is wrong with its places, if anything. Sources are given by their paths below crates/."""
    renamed = renamed_in(sources)
    found = [("other names", f"{renamed} have some" if renamed else "")]
    for name, allowed in ALLOWED.items():
        places = places_of(name, sources)
        odd = sorted(path for path in {*places, *allowed} if places.get(path, 0) != allowed.get(path, 0))
        found.append((name, f"it is named more or less often than is allowed in {odd}" if odd else ""))
    return found


# samples, with the name that is looked for and how often it is found
SAMPLES: Tuple[Tuple[str, str, int], ...] = (
    ("SupposedEmpty", "let own: SystemFolder<'_, SupposedEmpty> = SystemFolder::at(rt, dir);", 1),
    ("SystemFolder::at", "let own = SystemFolder ::\n    at(rt, dir);", 1),
    ("Supposed", "struct Mine; impl Supposed for Mine {}", 1),
    ("Supposed", "// Supposed\nuse run_file::SupposedEmpty;", 0),
    ("FileDisk::new", "let text = \"FileDisk::new\"; let disk = FileDisk::new(file);", 1),
    ("std::fs", "use std::fs::{File, OpenOptions}; use std::os::unix::fs::FileExt;", 1),
    ("std::fs", "use std::{fmt, fs::{self, File}};", 1),
    ("Node::open", "Node::open_with_digest(alloc, disk)", 0),
)


def samples_problem() -> str:
    """What is wrong with what is found in the samples, if anything."""
    wrong = [text for name, text, count in SAMPLES if sum(places_of(name, {"a.rt": text}).values()) != count]
    guilty = {"use stable_record::FileDisk as Disk;", "use std::fs as files;", "use std as all;", "use std::{fs::{self as files}};"}
    wrong += [text for text in guilty if not renamed_in({"a.rt": text})]
    return f"it finds otherwise in {wrong}" if wrong else ""
