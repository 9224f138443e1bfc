"""The page of a report: a script shows status.json, and who runs no scripts reads plain tables."""
from __future__ import annotations

import os
from html import escape
from typing import Any, Dict, Sequence
from urllib.parse import quote

from dpbn_tools import status_text
from dpbn_tools.letters import LETTERS
from dpbn_tools.status_text import clock, count, duration, name_of, span

PAGE = os.path.join(os.path.dirname(os.path.realpath(__file__)), "page.html")
# how many rows a plain table has at most
MOST_ROWS = 200

Object = Dict[str, Any]


class Cell(str):
    """Text that is markup already."""


def cell(value: str) -> str:
    return value if isinstance(value, Cell) else escape(value)


def table(title: str, heads: Sequence[str], rows: Sequence[Sequence[str]]) -> str:
    """A plain table under a title; nothing if it has no rows."""
    if not rows:
        return ""
    head = "".join(f"<th>{escape(text)}</th>" for text in heads)
    body = "".join(f"<tr>{''.join(f'<td>{cell(value)}</td>' for value in row)}</tr>\n" for row in rows[:MOST_ROWS])
    more = f"<p>and {len(rows) - MOST_ROWS} more</p>\n" if len(rows) > MOST_ROWS else ""
    return f"<h2>{escape(title)}</h2>\n<table>\n<tr>{head}</tr>\n{body}</table>\n{more}"


def log_link(one: Object) -> str:
    return Cell(f'<a href="{quote(one["log"])}">log</a>') if one["log"] else ""


def plain(status: Object) -> str:
    """What the page says, without a script."""
    counts = status["counts"]
    failures = [(str(one["blocks"]), one["unit"], name_of(status, one["host"]), clock(one["time"]), one["reason"], log_link(one))
                for one in status["failures"]]
    running = [(one["unit"], name_of(status, one["host"]), duration(one["seconds"]), span(one["usual"])) for one in status["running"]]
    hosts = [(one["name"], one["state"], *(str(one[it]) for it in ("builds", "queued", "built", "failed")), clock(one["seen"]))
             for one in status["hosts"]]
    chain = status["chain"]["units"]
    parts = [f"<h1>Bulk build, {escape(clock(status['time']))}</h1>\n<p>{status_text.share(status)} %. "
             f"{escape(' '.join(status_text.summary(status)))}</p>\n",
             table("Paths by letter", list(LETTERS), [[str(counts[letter]) for letter in LETTERS]]),
             table("Failures", ("Blocks", "Unit", "Host", "When", "Why", "Log"), failures),
             table("Built now", ("Unit", "Host", "For", "Usually"), running),
             table("Hosts", ("Host", "Does", "Builds", "Queued", "Built", "Failed", "Seen"), hosts),
             f"<h2>Longest chain left: {count(len(chain), 'unit')}</h2>\n<p>{escape(' > '.join(chain))}</p>\n" if chain else "",
             "".join(f"<p>{escape(line.strip())}</p>\n" for line in status_text.problems(status)[2:])]
    return "".join(parts)


def page(status: Object, every: int) -> str:
    with open(PAGE, encoding="utf-8") as file:
        text = file.read()
    front, _, rest = text.partition("PLAIN\n")
    return front.replace("EVERY\"", f"{every}\"", 1) + plain(status) + rest
