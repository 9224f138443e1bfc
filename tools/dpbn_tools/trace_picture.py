"""A picture of a trace, as SVG: each node is a line from top to bottom, and each event a row. See draw-trace(1)."""
from __future__ import annotations

from typing import Callable, List, Optional, Sequence, Set, Tuple
from xml.sax.saxutils import escape

from dpbn_tools.trace_rows import (KINDS, PROMISE, PROPOSE, REPORT, ROW, TOP, Datagram, Heights, Row, fold_text, heights, is_stop, node_of,
                                   step_of)

Point = Tuple[float, float]
# from one point to another
Line = Tuple[Point, Point]
# left, top, right and foot
Box = Tuple[float, float, float, float]

# by the kind of message
COLOURS = dict(zip(KINDS, ("#1f77b4", "#149fb0", "#9467bd", "#d62728", "#2ca02c", "#7f7f7f", "#ff7f0e", "#0b6e7a")))
# letters have an outline if they lie on a line, and no place is free
HALO = 'paint-order="stroke" stroke="#fff" stroke-width="4" stroke-linejoin="round"'
LABEL, COLUMN, MARGIN = 340, 210, 260
# where the events' numbers end, and where their words begin
NUMBERS, WORDS = 48, 56
GROWTH, WIDTH_OF_LEGEND = 100, 820
# how wide a letter is at most, on the average of a word, and how high: of words at arrows, and of all others
LETTER, HEIGHT, BROAD = 6.4, 11, 7
# where the words at an arrow may be relative to their mark: how far to its right, or to its left, and how far below its middle their foot
BESIDE = [(away * side, below) for away in (10, 18, 30, 46) for below in (-4, 4, 13, -13, 21, -22) for side in (1, -1)]


def agreed_text(paths: Sequence[str]) -> str:
    """The paths, or how many they are."""
    told = "agreed: " + ", ".join(paths)
    return told if len(paths) <= 3 and len(told) <= 60 else f"{len(paths)} packages agreed"


def meets(box: Box, line: Line) -> bool:
    """Whether a line, from one point to another, meets a box: its left, its top, its right and its foot."""
    (x1, y1), (x2, y2) = line
    begin, end = 0.0, 1.0
    for start, step, low, high in ((x1, x2 - x1, box[0], box[2]), (y1, y2 - y1, box[1], box[3])):
        if step == 0:
            if not low <= start <= high:
                return False
            continue
        near, far = sorted(((low - start) / step, (high - start) / step))
        begin, end = max(begin, near), min(end, far)
    return begin <= end


def overlap(box: Box, other: Box) -> bool:
    return box[0] < other[2] and other[0] < box[2] and box[1] < other[3] and other[1] < box[3]


def curve(points: Sequence[Point], parts: int = 12) -> List[Line]:
    """The lines that make up a curve, which these four points give."""
    def at(share: float) -> Point:
        rest = 1 - share
        weights = rest ** 3, 3 * rest ** 2 * share, 3 * rest * share ** 2, share ** 3
        x, y = (sum(weight * point[axis] for weight, point in zip(weights, points)) for axis in (0, 1))
        return x, y

    ends = [at(part / parts) for part in range(parts + 1)]
    return list(zip(ends, ends[1:]))


class Picture:
    """The parts of an SVG, as they come; and what words at arrows may not lie on, as lines and as boxes."""

    def __init__(self) -> None:
        self.parts: List[str] = []
        self.lines: List[Line] = []
        self.boxes: List[Box] = []

    def line(self, x1: float, y1: float, x2: float, y2: float, colour: str, more: str = "") -> None:
        self.parts.append(f'<line x1="{x1}" y1="{y1}" x2="{x2}" y2="{y2}" stroke="{colour}" {more}/>')

    def free(self, x: float, y: float, text: str) -> Point:
        """The place of the words at a mark: their end or beginning, and their foot. It is the first free place, or else one with the
        least overlap."""
        width = LETTER * len(text)
        best: Optional[Tuple[int, float, float, Box]] = None
        for away, below in BESIDE:
            left = x + away if away > 0 else x + away - width
            box = left - 1, y + below - HEIGHT + 2, left + width + 1, y + below + 2
            count = sum(meets(box, line) for line in self.lines) + sum(overlap(box, other) for other in self.boxes)
            if best is None or count < best[0]:
                best = count, x + away, y + below, box
            if not count:
                break
        assert best
        self.boxes.append(best[3])
        return best[1], best[2]

    def square(self, x: int, y: int, side: int) -> None:
        self.parts.append(f'<rect x="{x - side // 2}" y="{y - side // 2}" width="{side}" height="{side}" fill="#333"/>')

    def circle(self, x: float, y: float, radius: int, fill: str, stroke: str = "#333") -> None:
        self.parts.append(f'<circle cx="{x}" cy="{y}" r="{radius}" fill="{fill}" stroke="{stroke}" stroke-width="1.5"/>')

    def text(self, x: float, y: float, text: str, more: str = "") -> None:
        self.parts.append(f'<text x="{x}" y="{y}" {more}>{escape(text)}</text>')

    def written(self, width: int, height: int) -> str:
        head = (f'<svg xmlns="http://www.w3.org/2000/svg" width="{width}" height="{height}" viewBox="0 0 {width} {height}" '
                'font-family="sans-serif" font-size="12"><defs>')
        for kind, colour in COLOURS.items():
            head += (f'<marker id="a{kind}" viewBox="0 0 8 8" refX="8" refY="4" markerWidth="7" markerHeight="7" orient="auto">'
                     f'<path d="M0,0L8,4L0,8z" fill="{colour}"/></marker>')
        return "\n".join([head + "</defs>", f'<rect width="{width}" height="{height}" fill="#fff"/>', *self.parts, "</svg>", ""])


def lane(node: int) -> int:
    return LABEL + node * COLUMN + COLUMN // 2


def draw_lanes(picture: Picture, rows: Sequence[Row], at: Sequence[int], members: int, end: int) -> None:
    """The nodes' lines, dotted on grey while they are down."""
    for node in range(members):
        picture.text(lane(node), TOP - 14, f"node {node}", 'text-anchor="middle" font-weight="bold"')
        top, is_up = TOP, True
        turns = [(at[place], not is_stop(row.event)) for place, row in enumerate(rows)
                 if node_of(row.event) == node and not row.refused and (is_stop(row.event) or row.event["event"] == "restart")]
        for y, rises in [*turns, (end, True)]:
            picture.lines.append(((lane(node), top), (lane(node), y)))
            if is_up:
                picture.line(lane(node), top, lane(node), y, "#333")
            else:
                draw_down(picture, lane(node), top, y)
            top, is_up = y, rises


def draw_down(picture: Picture, x: int, top: int, end: int) -> None:
    """The time for which a node is down."""
    picture.parts.append(f'<rect x="{x - 30}" y="{top}" width="60" height="{end - top}" fill="#f1f1f1"/>')
    picture.line(x, top, x, end, "#bbb", 'stroke-dasharray="2 4"')
    if end - top >= 2 * ROW:
        picture.boxes.append((x - 18, (top + end) // 2 - 8, x + 18, (top + end) // 2 + 8))
        picture.text(x, (top + end) // 2 + 4, "down", f'text-anchor="middle" fill="#888" {HALO}'.replace("#fff", "#f1f1f1"))


def draw_arrows(picture: Picture, rows: Sequence[Row], senders: Sequence[Datagram], shown: Set[int], at: Sequence[int]) -> None:
    """An arrow for each delivery that was taken and is shown, dashed where the sending is folded."""
    for place, row in enumerate(rows):
        event = step_of(row.event)
        if event["event"] != "deliver" or row.refused or place not in shown:
            continue
        began, kind = senders[event["datagram"]][:2]
        x1, x2 = lane(node_of(rows[began].event)), lane(event["node"])
        more = f'stroke-width="1.5" marker-end="url(#a{kind})"' + ("" if began in shown else ' stroke-dasharray="5 3"')
        if x1 == x2:
            bend = x1 + 34
            picture.parts.append(f'<path class="arrow" d="M{x1},{at[began]}C{bend},{at[began]} {bend},{at[place]} {x2 + 5},{at[place]}" '
                                 f'fill="none" stroke="{COLOURS[kind]}" {more}/>')
            picture.lines += curve(((x1, at[began]), (bend, at[began]), (bend, at[place]), (x2 + 5, at[place])))
            picture.boxes.append((x2 + 4, at[place] - 5, x2 + 13, at[place] + 5))
        else:
            side = -6 if x2 > x1 else 6
            picture.line(x1, at[began], x2 + side, at[place], COLOURS[kind], f'class="arrow" {more}')
            picture.lines.append(((x1, at[began]), (x2 + side, at[place])))
            low, high = sorted((x2 + side, x2 + 2 * side))
            picture.boxes.append((low, at[place] - 5, high, at[place] + 5))


def draw_bar(picture: Picture, paths: Sequence[str], y: int, members: int, width: int) -> None:
    """The bar where packages become agreed."""
    if paths:
        end = lane(members - 1) + COLUMN // 2
        picture.line(LABEL, y, end, y, "#2ca02c", f'class="bar" stroke-width="{width}" stroke-opacity="0.35"')
        picture.boxes.append((LABEL, y - width // 2, end, y + width // 2))
        picture.text(end + 8, y + 4, agreed_text(paths), 'fill="#2ca02c" font-weight="bold"')
        picture.boxes.append((end + 8, y - 8, end + 8 + BROAD * len(agreed_text(paths)), y + 6))


def draw_fold(picture: Picture, rows: Sequence[Row], y: int, members: int) -> None:
    """A row that represents many, with a broad bar where packages become agreed by them."""
    picture.line(LABEL, y, lane(members - 1) + COLUMN // 2, y, "#ccc", 'stroke-dasharray="1 5" stroke-width="8"')
    picture.text(WORDS, y + 4, fold_text(rows), 'fill="#999" font-style="italic"')
    picture.boxes.append((LABEL, y - 4, lane(members - 1) + COLUMN // 2, y + 4))
    draw_bar(picture, [path for row in rows for path in row.paths], y, members, 14)


def draw_row(picture: Picture, row: Row, place: int, y: int, members: int) -> None:
    """The words of an event, its marks, and the bar where packages become agreed."""
    event, x = row.event, lane(node_of(row.event))
    faint = ' fill="#a00"' if row.refused else ""
    draw_bar(picture, row.paths, y, members, 6)
    picture.text(NUMBERS, y + 4, f"{place + 1}", 'text-anchor="end" fill="#999"')
    text = row.text if len(row.text) < 46 else row.text[:44] + ".."
    picture.text(WORDS, y + 4, text, faint)
    picture.boxes.append((WORDS, y - 8, WORDS + BROAD * len(text), y + 8))
    if row.refused:
        return
    if is_stop(event):
        draw_cross(picture, x, y)
    elif event["event"] == "restart":
        picture.circle(x, y, 6, "#fff")
    elif event["event"] != "deliver":
        picture.circle(x, y, 5, "#fc3")
    if row.notes:
        picture.square(x, y, 6)
    picture.boxes.append((x - 7, y - 7, x + 7, y + 7))


def draw_words(picture: Picture, row: Row, y: int) -> None:
    """What a row sends, in words, at a place that is free."""
    x = lane(node_of(row.event))
    for kind in sorted(set(row.sends), key=KINDS.index):
        text = sent_text(row, kind)
        end, foot = picture.free(x, y, text)
        side = "start" if end > x else "end"
        picture.text(end, foot, text, f'class="words" text-anchor="{side}" fill="{COLOURS[kind]}" font-size="{HEIGHT}" {HALO}')


def sent_text(row: Row, kind: str) -> str:
    """What a row sends of a kind: the numbers of the datagrams and its name. A node that proposes on a delivery repeats a build that was
    reported."""
    numbers = [row.first + place for place, sent in enumerate(row.sends) if sent == kind]
    whose = "another's" if row.builder is None else f"node {row.builder}'s"
    more = {REPORT: f": it voted for {whose} build"}.get(kind, "")
    if kind == PROPOSE and row.event["event"] == "deliver":
        more = " a reported build again" if row.builder is None else f" {whose} build again"
    return f"{numbers[0]}{f' to {numbers[-1]}' if len(numbers) > 1 else ''} {PROMISE if kind == REPORT else kind}{more}"


def draw_legend(picture: Picture, y: int) -> None:
    """What the marks are."""
    x = WORDS
    marks: Tuple[Tuple[Callable[[], None], str], ...] = (
        (lambda: picture.circle(x, y, 5, "#fc3"), "asked of a node"), (lambda: picture.square(x, y, 6), "noted on its log"),
        (lambda: draw_cross(picture, x, y), "stop"), (lambda: picture.circle(x, y, 6, "#fff"), "restart"),
        (lambda: picture.line(x - 10, y, x + 10, y, "#2ca02c", 'stroke-width="6" stroke-opacity="0.35"'),
         "a majority has sent its votes: agreed"))
    for draw, name in marks:
        draw()
        picture.text(x + 16, y + 4, name, 'fill="#555"')
        x += 44 + 7 * len(name)


def draw_cross(picture: Picture, x: int, y: int, size: int = 6) -> None:
    for side in (size, -size):
        picture.line(x - size, y - side, x + size, y + side, "#000", 'stroke-width="2.5"')


def marks_of(most: int) -> List[int]:
    """Some round numbers from 0 up to the greatest, which is at the end."""
    step = next(step for power in range(9) for step in (10 ** power, 2 * 10 ** power, 5 * 10 ** power) if most <= 5 * step)
    return [*(mark for mark in range(0, most, step) if most - mark > step // 2), most]


def draw_axes(picture: Picture, count: int, events: int, across: Callable[[int], int], up: Callable[[int], int]) -> None:
    """The two axes: how many packages are agreed, and after how many events, each with some numbers."""
    foot, left = up(0), across(0)
    for mark in marks_of(count) if count else ():
        picture.line(left - 4, up(mark), across(events), up(mark), "#ccc")
        picture.text(left - 8, up(mark) + 4, f"{mark:,}", 'text-anchor="end" fill="#555"')
    for mark in marks_of(events):
        picture.line(across(mark), foot, across(mark), foot + 5, "#333")
        picture.text(across(mark), foot + 30, f"{mark:,}", 'text-anchor="middle" fill="#555"')
    picture.line(left, foot, across(events), foot, "#333")
    picture.line(left, foot, left, up(count) - 6, "#333")
    picture.text(WORDS, foot - GROWTH // 2, "packages agreed", 'fill="#555"')
    picture.text(WORDS, foot + 30, "after this many events", 'fill="#555"')


def draw_growth(picture: Picture, rows: Sequence[Row], shown: Set[int], y: int, members: int) -> None:
    """The number of agreed packages over the events, as a surface with axes. Below it is a tick for each event that has a row, and in it
    a cross for each stop."""
    left, right = LABEL, lane(members - 1) + COLUMN // 2
    most = sum(len(row.paths) for row in rows)

    def across(events: int) -> int:
        return left + (right - left) * events // len(rows)

    def up(packages: int) -> int:
        return y + GROWTH - GROWTH * packages // max(1, most)

    count, steps = 0, [(left, up(0))]
    stops: List[Tuple[int, int]] = []
    for place, row in enumerate(rows, 1):
        if row.paths:
            count += len(row.paths)
            # one step for each pixel
            if across(place) == steps[-1][0] and len(steps) > 1:
                steps.pop()
            steps.append((across(place), up(count)))
        if is_stop(row.event) and not row.refused:
            stops.append((across(place), up(count)))
    draw_axes(picture, most, len(rows), across, up)
    points = " ".join(f"{x},{height}" for x, height in [*steps, (right, steps[-1][1]), (right, up(0))])
    picture.parts.append(f'<polygon points="{points}" fill="#2ca02c" fill-opacity="0.35"/>')
    for x in sorted({across(place + 1) for place in shown}):
        picture.line(x, up(0) + 7, x, up(0) + 15, "#1f77b4")
    for x, height in stops:
        draw_cross(picture, x, height, 4)
    picture.text(right + 8, up(most) + 4, f"{count} packages after {len(rows)} events", 'fill="#2ca02c" font-weight="bold"')
    picture.text(right + 8, up(0) + 15, "events that have a row", 'fill="#1f77b4"')


def margin(rows: Sequence[Row], high: Heights) -> int:
    """The room for the words next to the bars."""
    bars = [list(rows[place].paths) for place in high.shown] + [[path for row in folded for path in row.paths] for _, folded in high.folds]
    return max([MARGIN, *(24 + 7 * len(agreed_text(paths)) for paths in bars if paths)])


def drawn(rows: Sequence[Row], senders: Sequence[Datagram], members: int) -> str:
    """The picture of these rows and datagrams, of this many members."""
    high = heights(rows)
    picture, end = Picture(), high.last + ROW
    draw_lanes(picture, rows, high.at, members, end)
    for height, folded in high.folds:
        draw_fold(picture, folded, height, members)
    draw_arrows(picture, rows, senders, high.shown, high.at)
    for place in sorted(high.shown):
        draw_row(picture, rows[place], place, high.at[place], members)
    for place in sorted(high.shown):
        draw_words(picture, rows[place], high.at[place])
    draw_legend(picture, end + 14)
    end += 48
    if high.folds:
        draw_growth(picture, rows, high.shown, end, members)
        end += GROWTH + 44
    return picture.written(max(lane(members - 1) + COLUMN // 2 + margin(rows, high), WIDTH_OF_LEGEND), end)
