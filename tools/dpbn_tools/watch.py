"""Shows a text on a terminal again and again, as top(1) does."""
from __future__ import annotations

import contextlib
import os
import select
import sys
import time
from typing import Any, Callable, List, Optional

HOME, TO_END, TO_END_OF_LINE = "\x1b[H", "\x1b[J", "\x1b[K"
OTHER_SCREEN, FIRST_SCREEN = "\x1b[?1049h\x1b[?25l", "\x1b[?25h\x1b[?1049l"
QUIT = b"qQ\x03\x04"


class Screen:
    """The terminal, if standard output is one and something is to be shown. Else each text is printed below the one before."""

    def __init__(self, is_wanted: bool) -> None:
        self.is_terminal = is_wanted and sys.stdout.isatty()
        self.is_keyboard = self.is_terminal and sys.stdin.isatty()
        self.before: Optional[List[Any]] = None

    def __enter__(self) -> "Screen":
        if self.is_keyboard:
            import termios
            import tty
            self.before = termios.tcgetattr(sys.stdin.fileno())
            tty.setcbreak(sys.stdin.fileno())
        if self.is_terminal:
            write(OTHER_SCREEN)
        return self

    def __exit__(self, *_: object) -> None:
        if self.is_terminal:
            with contextlib.suppress(OSError):
                write(FIRST_SCREEN)
        if self.before is not None:
            import termios
            termios.tcsetattr(sys.stdin.fileno(), termios.TCSADRAIN, self.before)

    def show(self, text: str) -> None:
        """As much of the text as there is room for."""
        if not self.is_terminal:
            write(text + "\n")
            return
        size = os.get_terminal_size(sys.stdout.fileno())
        # a terminal that doesn't know its size has none
        columns, rows = size.columns or 80, size.lines or 24
        lines = [line[:columns] for line in text.split("\n")[:rows - 1]]
        write(HOME + "".join(f"{line}{TO_END_OF_LINE}\n" for line in lines) + TO_END)

    def rest(self, seconds: float, is_ended: Callable[[], bool]) -> bool:
        """Waits for this long, and answers whether it is to go on: until then nobody pressed q and nothing ended it."""
        until = time.monotonic() + seconds
        while not is_ended():
            left = until - time.monotonic()
            if left <= 0:
                return True
            if not self.is_keyboard:
                time.sleep(min(left, 0.1))
            elif select.select([sys.stdin], [], [], min(left, 0.1))[0]:
                pressed = os.read(sys.stdin.fileno(), 64)
                if not pressed or any(key in QUIT for key in pressed):
                    return False
        return False


def write(text: str) -> None:
    sys.stdout.write(text)
    sys.stdout.flush()
