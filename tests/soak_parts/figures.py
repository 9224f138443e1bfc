"""What a part measured, next to what it is to be measured by, and what went wrong: as lines to read, rows of a table and a line of JSON."""
from __future__ import annotations

import json
import time
from typing import Any, Dict, List


class Figures:
    """The figures of a part."""

    def __init__(self, part: str, words: Dict[str, Any]) -> None:
        self.part, self.words = part, words
        self.rows: List[Dict[str, Any]] = []
        self.wrong: List[str] = []
        self.began = time.monotonic()

    def add(self, what: str, figure: float, unit: str, beside: str = "") -> None:
        """A figure, and next to it what it is to be measured by, and how much that is."""
        self.rows.append({"what": what, "figure": round(figure, 3), "unit": unit, "beside": beside})
        print(f"    {what}: {shown(figure)} {unit}{f' ({beside})' if beside else ''}", flush=True)

    def fail(self, what: str) -> None:
        self.wrong.append(what)
        print(f"    WRONG: {what}", flush=True)

    def expect(self, holds: bool, what: str) -> None:
        """Something that has to hold."""
        if not holds:
            self.fail(what)

    def say(self, text: str) -> None:
        print(f"{time.strftime('%H:%M:%S')} {self.part}: {text}", flush=True)

    def table(self) -> str:
        """Rows as docs/TIMES.md has them."""
        return "\n".join(f"| {row['what']} | {shown(row['figure'])} {row['unit']} | {row['beside']} |" for row in self.rows)

    def line(self) -> str:
        """All of it in one line."""
        return json.dumps({"part": self.part, "words": self.words, "seconds": round(time.monotonic() - self.began, 1), "figures": self.rows,
                           "wrong": self.wrong}, default=str, sort_keys=True)


def shown(figure: float) -> str:
    """A number with three or four digits that say something."""
    if figure == int(figure) or abs(figure) >= 1000:
        return f"{figure:,.0f}"
    return f"{figure:.1f}" if abs(figure) >= 10 else f"{figure:.2f}"
