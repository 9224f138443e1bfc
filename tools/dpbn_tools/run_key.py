"""The key of a run, in the form of dpbn-formats(5): one line with the 64 hexadecimal digits of its 32 bytes."""
from __future__ import annotations

import hashlib
import hmac
import os
import re
import secrets
import stat

LINE = re.compile(rb"[0-9a-fA-F]{64}\n?")


class BadKey(Exception):
    """Why the file isn't a key."""


def read(path: str) -> bytes:
    """The line of a key's file, which only its owner may use."""
    with open(path, "rb", opener=lambda name, how: os.open(name, how | os.O_NONBLOCK)) as file:
        about = os.fstat(file.fileno())
        if not stat.S_ISREG(about.st_mode):
            raise BadKey(f"{path}: it isn't a file")
        if about.st_mode & 0o077:
            raise BadKey(f"{path}: others than its owner may use it (chmod 600)")
        text = file.read(66)
    if not LINE.fullmatch(text):
        raise BadKey(f"{path}: it isn't one line of 64 hexadecimal digits")
    return text.rstrip(b"\n") + b"\n"


def make(path: str) -> bytes:
    """A new key, whose file is on the disk before it has its name. A file that is there stays as it is, and is an error."""
    text = secrets.token_hex(32).encode() + b"\n"
    new = f"{path}.{secrets.token_hex(4)}.new"
    number = os.open(new, os.O_WRONLY | os.O_CREAT | os.O_EXCL, 0o600)
    try:
        with os.fdopen(number, "wb") as file:
            file.write(text)
            file.flush()
            os.fsync(file.fileno())
        os.link(new, path)
    finally:
        os.unlink(new)
    return text


def fingerprint(text: bytes) -> str:
    """What a run file has of the key: it says which key it is, and nothing about its bytes."""
    return hmac.new(bytes.fromhex(text.decode()), b"dpbn key 1", hashlib.sha512).hexdigest()[:32]
