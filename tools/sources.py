"""Copies the sources of crates, and of all that they are built on, into a repository of their own. There the kit's commands prove or
compile them from nothing, and don't touch what was proved in the checkout.

The gate proves the crates of crates.txt. Next to them are the drivers of tests and benches (tests/drivers/) and crates of tests
(tests/rows/), which it doesn't prove; each of these folders has a list `crates`, of the same form. Their files have names of their own,
since the gate takes no file by one of the kit's names outside crates/.
"""
import functools
import hashlib
import os
import shutil
from typing import Dict, Iterable, Iterator, List, Set, Tuple

TOP = os.path.dirname(os.path.dirname(os.path.realpath(__file__)))
BESIDE = (f"{TOP}/tests/drivers", f"{TOP}/tests/rows")
# how a file there is named for the kit
KIT_NAMES = {".rs": ".rt", ".proof": ".antt"}
NOT_COPIED = ("out", "must-fail")


def lines_of(path: str) -> Dict[str, str]:
    """The lines of a list of crates by crate, bottom up."""
    with open(path) as file:
        texts = [line.split("#")[0] for line in file]
    return {text.partition(":")[0].split()[0]: text.strip() for text in texts if ":" in text}


def lines() -> Dict[str, str]:
    """The lines of crates.txt by crate, bottom up."""
    return lines_of(f"{TOP}/crates.txt")


def lines_beside() -> Dict[str, str]:
    """The lines of the crates that are next to those of crates.txt."""
    return {crate: line for folder in BESIDE for crate, line in lines_of(f"{folder}/crates").items()}


def below_by(known: Dict[str, str]) -> Dict[str, List[str]]:
    """Each crate of these lines with those of them that its line names."""
    return {crate: [it for it in text.partition(":")[2].split() if it in known] for crate, text in known.items()}


def named() -> Dict[str, List[str]]:
    """Each crate of crates.txt with those of this repository that its line names, bottom up."""
    return below_by(lines())


def with_all_below(chosen: Iterable[str]) -> List[str]:
    """The chosen crates and all that they are built on, bottom up."""
    below, left = below_by({**lines(), **lines_beside()}), list(chosen)
    found: Set[str] = set()
    while left:
        crate = left.pop()
        if crate not in found:
            found.add(crate)
            left += below[crate]
    return [crate for crate in below if crate in found]


def folder_of(crate: str) -> str:
    """The folder of the crate."""
    return next((f"{it}/{crate}" for it in BESIDE if os.path.isdir(f"{it}/{crate}")), f"{TOP}/crates/{crate}")


def is_program(crate: str) -> bool:
    return any(os.path.exists(f"{folder_of(crate)}/src/main{it}") for it in (".rt", ".rs"))


def program_of(crate: str) -> str:
    """The path of a crate's program once it is built."""
    return f"{folder_of(crate)}/out/{crate}"


def files_of(crate: str) -> Iterator[str]:
    """The files that a crate is made of, except for its wrong bodies, below its folder."""
    top = folder_of(crate)
    for folder, folders, names in os.walk(top):
        folders[:] = sorted(it for it in folders if it not in NOT_COPIED)
        yield from (os.path.relpath(f"{folder}/{name}", top) for name in sorted(names))


def kit_name(file: str) -> str:
    """How a file of a crate that is next to crates/ is named for the kit."""
    stem, end = os.path.splitext(file)
    return stem + KIT_NAMES.get(end, end)


def copy_crate(crate: str, to: str) -> None:
    """Copies a crate with its files named as the kit wants them."""
    is_beside = not folder_of(crate).startswith(f"{TOP}/crates/")
    for file in files_of(crate):
        there = f"{to}/{kit_name(file) if is_beside else file}"
        os.makedirs(os.path.dirname(there), exist_ok=True)
        shutil.copy(f"{folder_of(crate)}/{file}", there)


def copy(crates: Iterable[str], folder: str) -> None:
    """Makes a repository of these crates in the folder, with neither what was made of them nor their wrong bodies."""
    known = {**lines(), **lines_beside()}
    os.makedirs(f"{folder}/.git")
    shutil.copy(f"{TOP}/HANDLES", folder)
    with open(f"{folder}/crates.txt", "w") as file:
        file.writelines(f"{known[crate]}\n" for crate in crates)
    for crate in crates:
        copy_crate(crate, f"{folder}/crates/{crate}")


def is_current(program: str) -> bool:
    """Whether a program is built, and none of its source files is newer."""
    if not os.path.exists(program_of(program)):
        return False
    built = os.path.getmtime(program_of(program))
    return all(os.path.getmtime(f"{folder_of(crate)}/{file}") <= built for crate in with_all_below([program]) for file in files_of(crate))


def digest(files: Iterable[Tuple[str, str]]) -> str:
    """A digest of files, by the names that they go by here and their bytes; the times at which they were written don't matter."""
    whole = hashlib.sha256()
    for name, path in sorted(files):
        with open(path, "rb") as file:
            whole.update(f"{name} {hashlib.sha256(file.read()).hexdigest()}\n".encode())
    return whole.hexdigest()


@functools.lru_cache(maxsize=None)
def digest_of_crate(crate: str) -> str:
    """A digest of the crate's code, definitions and proofs."""
    files = [it for it in files_of(crate) if it.startswith(("src/", "specs/", "proofs/"))]
    return digest((it, f"{folder_of(crate)}/{it}") for it in files)


def digest_of_sources(crate: str) -> str:
    """A digest of the crate's code, definitions and proofs, and of those of all crates that it is built on."""
    lines = sorted(f"{it} {digest_of_crate(it)}\n" for it in with_all_below([crate]))
    return hashlib.sha256("".join(lines).encode()).hexdigest()
