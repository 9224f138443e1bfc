"""Package paths and package names, in the forms of dpbn-formats(5)."""
from __future__ import annotations

import hashlib
import re

MAX_PATH = 255
WORD = re.compile(rb"[!-+\--.0-9;?-~]+")
NAME = re.compile(rb"[\"-)+\-.0-9;?-{}~]+")
FILE_NAME = re.compile(rb"[ -~]{1,255}")
NUMBER = re.compile(rb"0|[1-9][0-9]*")
DIGEST = re.compile(rb"[0-9a-f]{64}")
# the longest name of a file or folder that is made of a unit's name; what is appended to it needs room, too
MAX_SHORT_NAME = 240


def is_path(text: bytes) -> bool:
    """Whether this is a package path in canonical form: flavors in order, the subpackage last."""
    directory, *parts = text.split(b",")
    words = directory.split(b"/")
    if len(words) < 2 or any(word in (b"", b".", b"..") for word in words) or len(text) > MAX_PATH:
        return False
    if parts and parts[-1].startswith(b"-"):
        words.append(parts.pop()[1:])
    if parts != [b""]:
        words += parts
        if parts != sorted(set(parts)) or any(part.startswith(b"-") for part in parts):
            return False
    return all(map(WORD.fullmatch, words))


def canonical(text: bytes) -> bytes:
    """The canonical form of a path in any spelling. The result for any other text isn't a path either: check it with is_path."""
    directory, *parts = text.split(b",")
    subpackages = [part for part in parts if part.startswith(b"-")]
    flavors = sorted({part for part in parts if not part.startswith(b"-")})
    if len(flavors) > 1 and b"" in flavors:
        flavors.remove(b"")
    return b",".join([directory, *flavors, *subpackages])


def is_name(text: bytes) -> bool:
    """Whether this is a package name: its version begins after the first dash, except for the first byte, before a digit."""
    found = re.match(rb".[^\n]*?-(?=[0-9])", text)
    return bool(found and len(text) <= 255 and NAME.fullmatch(text) and all(text[found.end():].split(b"-")))


def is_file_name(text: bytes) -> bool:
    """Whether a record may have a file of this name."""
    return bool(FILE_NAME.fullmatch(text)) and text[:1] != b"@" and not {b"", b".", b".."} & set(text.split(b"/"))


def is_signature(text: bytes) -> bool:
    """Whether this is `PATH NAME DIGEST`."""
    fields = text.split(b" ")
    return len(fields) == 3 and is_path(fields[0]) and is_name(fields[1]) and bool(DIGEST.fullmatch(fields[2]))


def group_of(path: bytes) -> bytes:
    """The path without its subpackage, if it has one: what is equal in it, one build makes."""
    front, comma, last = path.rpartition(b",")
    return front if comma and last.startswith(b"-") else path


def folder_name(path: bytes) -> str:
    """How a package's folder is named."""
    return path.decode().replace("/", ":")


def short_name(path: bytes) -> str:
    """The name of a package's folder, shortened if there would be no room to append to it."""
    name = folder_name(path)
    return name if len(name) <= MAX_SHORT_NAME else f"{name[:200]}.{hashlib.sha256(path).hexdigest()[:16]}"
