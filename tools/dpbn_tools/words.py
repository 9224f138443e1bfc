"""Types of words on a command line."""
from __future__ import annotations

import argparse
import re
from typing import Callable


def number(least: int, most: int) -> Callable[[str], int]:
    """A decimal number in this range."""
    def read(text: str) -> int:
        if not re.fullmatch("[0-9]{1,18}", text) or not least <= int(text) <= most:
            raise argparse.ArgumentTypeError(f"{text!r} isn't one of {least} to {most}")
        return int(text)
    return read
