"""Counts words and sentences that are hard to read, in documents, manual pages, and the comments and texts of tools and crates.

tools/plain-english.txt lists the words. A sentence is long if it has more than 35 words."""
import glob
import io
import os
import re
import tokenize
from typing import Dict, Iterator, List, NamedTuple, Tuple

TOP = os.path.dirname(os.path.dirname(os.path.realpath(__file__)))
LIST = f"{TOP}/tools/plain-english.txt"
MOST_WORDS = 35
GENERATED = ("docs/PROVED.md", "docs/DEFINITIONS.md")
# Pages that are about one of the words, and so have it.
EXEMPT = ("tools/plain-english.txt",)


class Place(NamedTuple):
    """A hard word or a long sentence, and its place."""
    path: str
    line: int
    text: str
    advice: str


def patterns() -> List[Tuple["re.Pattern[str]", str]]:
    """The words of the list, with what to write instead."""
    with open(LIST, encoding="utf-8") as file:
        rows = [line.rstrip("\n").split("\t") for line in file if line.strip() and not line.startswith("#")]
    return [(re.compile(row[0]), row[1]) for row in rows]


def files(top: str) -> Iterator[Tuple[str, str]]:
    """The files that are read, each with its kind."""
    def found(*forms: str) -> Iterator[str]:
        for form in forms:
            paths = sorted(glob.glob(f"{top}/{form}", recursive=True))
            yield from (os.path.relpath(path, top) for path in paths if os.path.isfile(path))

    for path in found("README.md", "CONTRIBUTING.md", "tests/README.md", "docs/*.md"):
        if path not in GENERATED:
            yield path, "text"
    for path in found("man/*.[1-8]"):
        yield path, "page"
    for path in found("tools/*", "tools/*/*.py", "bench/*", "tests/run", "tests/kills", "tests/soak", "tests/try-wrong-bodies", "tests/*.py",
                      "tests/topics/*.py", "tests/soak_parts/*.py",
                      "dpbr", "dpbn"):
        if path not in EXEMPT:
            yield path, "script"
    for path in found("crates/*/src/**/*.rt"):
        yield path, "rattle"
    for path in found("crates/*/specs/**/*.antt", "crates/*/proofs/**/*.antt"):
        yield path, "definitions"


def without_code(text: str) -> str:
    """The text without what is between backquotes."""
    return re.sub(r"`[^`\n]*`", "`x`", text)


def blocks_of_text(text: str) -> Iterator[Tuple[int, str]]:
    """The paragraphs, items and cells of a document, each with its line."""
    block: List[str] = []
    is_code, start = False, 1
    for number, line in enumerate([*text.split("\n"), ""], 1):
        if line.startswith("```"):
            is_code = not is_code
        ends = not line.strip() or line.lstrip().startswith(("```", "#", "|", "<!--", "!["))
        if block and (ends or is_code or re.match(r"\s*([-*]|\d+\.) ", line)):
            yield start, " ".join(block)
            block = []
        if line.lstrip().startswith("|"):
            yield from ((number, cell.strip()) for cell in line.split("|"))
        elif line.startswith("#"):
            yield number, line.lstrip("# ")
        elif not ends and not is_code and not (line.startswith("    ") and not block):
            start = start if block else number
            block.append(line.strip())


def blocks_of_page(text: str) -> Iterator[Tuple[int, str]]:
    """The paragraphs of a manual page, without its macros and what it shows literally."""
    block: List[str] = []
    is_code, start = False, 1
    for number, line in enumerate([*text.split("\n"), ".Pp"], 1):
        if line.startswith(".Bd -literal"):
            is_code = True
        elif line.startswith((".Ed", ".Sh DESC")):
            is_code = False
        elif line.startswith(".Sh SYN"):
            is_code = True
        macro = re.match(r"\.(Pp|It|Bl|El|Bd|Ed|Sh|Ss|Dl)\b", line)
        if macro and block:
            yield start, " ".join(block)
            block = []
        if macro and macro[1] == "It" and " Ta " in line:
            yield from ((number, cell) for cell in re.split(r" Ta ", line[4:]))
        elif not is_code and not macro and not line.startswith('.\\"'):
            start = start if block else number
            mark = re.search(r" ([.,;:])$", line)
            is_name = re.match(r"\.(Ql|Cm|Fl|Ar|Pa|Ev|Nm|Xr|Va|Sx|Li|Op)\b", line)
            block.append(f"`x`{mark[1] if mark else ''}" if is_name else re.sub(r"^\.\w+ ", "", line))


def blocks_of_python(text: str) -> Iterator[Tuple[int, str]]:
    """The comments of a Python script, joined if they follow each other, and its texts."""
    comment: List[str] = []
    start = last = 0
    is_first = True
    for token in tokenize.generate_tokens(io.StringIO(text).readline):
        if token.type == tokenize.COMMENT and not token.string.startswith("#!"):
            if comment and token.start[0] != last + 1:
                yield start, " ".join(comment)
                comment = []
            start = start if comment else token.start[0]
            comment.append(token.string.lstrip("# "))
            last = token.start[0]
        elif token.type == tokenize.STRING or tokenize.tok_name[token.type] == "FSTRING_MIDDLE":
            # a text of several lines is a comment if a statement begins with it, and else a script or an expected answer
            if '"""' in token.string[:4] and is_first:
                yield from ((token.start[0] + at - 1, block) for at, block in blocks_of_text(token.string.strip('rbf"')))
            elif " " in token.string and "\n" not in token.string:
                # without what is inserted into the text
                yield token.start[0], re.sub(r"\{[^{}]*\}", "", token.string)
        is_first = token.type in (tokenize.NEWLINE, tokenize.NL, tokenize.INDENT, tokenize.DEDENT, tokenize.COMMENT)
    if comment:
        yield start, " ".join(comment)


def blocks_of_comments(text: str, mark: str) -> Iterator[Tuple[int, str]]:
    """The comments of a source, joined if they follow each other."""
    block: List[str] = []
    start = 0
    for number, line in enumerate([*text.split("\n"), ""], 1):
        found = re.match(rf"^\s*{mark}[/!]* ?(.*)$", line)
        if found and found[1].strip() and not re.match(r"([-*]|\d+\.) ", found[1]):
            start = start if block else number
            block.append(found[1])
            continue
        if block:
            yield start, " ".join(block)
            block = []
        trailing = re.search(rf"\s{mark} (.*)$", line)
        if found and found[1].strip():
            start, block = number, [found[1]]
        elif not found and trailing and '"' not in trailing[1]:
            yield number, trailing[1]


def blocks(path: str, kind: str) -> Iterator[Tuple[int, str]]:
    with open(path, encoding="utf-8", errors="replace") as file:
        text = file.read()
    if kind == "text":
        yield from blocks_of_text(text.partition("<!-- What follows is generated")[0])
    elif kind == "page":
        yield from blocks_of_page(text)
    elif kind == "rattle":
        yield from blocks_of_comments(text, "//")
    elif kind == "definitions":
        yield from blocks_of_comments(text, "--")
    elif "python" in text.partition("\n")[0] or path.endswith(".py"):
        yield from blocks_of_python(text)
    else:
        yield from blocks_of_comments(text, "#")


def sentences(block: str) -> Iterator[str]:
    yield from re.split(r"(?<=[.!?])\s+(?=[A-Z`*\[(\d])", block)


def read(top: str) -> Iterator[Tuple[str, str, int, str]]:
    """Each block of the files below a checkout: its file, kind, line and text without code."""
    for path, kind in files(top):
        for line, block in blocks(f"{top}/{path}", kind):
            yield path, kind, line, without_code(block)


def words(top: str = TOP) -> Iterator[Place]:
    """The places of words of the list."""
    known = patterns()
    for path, _, line, block in read(top):
        for pattern, advice in known:
            yield from (Place(path, line, found[0].strip(), advice) for found in pattern.finditer(block))


def long_sentences(top: str = TOP) -> Iterator[Place]:
    """The places of sentences with more than 35 words."""
    for path, _, line, block in read(top):
        for sentence in sentences(block):
            count = len(re.findall(r"[\w'-]+", sentence))
            if count > MOST_WORDS:
                yield Place(path, line, sentence[:90], f"{count} words")


def counts(places: Iterator[Place]) -> Dict[str, int]:
    """How many places there are, by the first folder of their path."""
    result: Dict[str, int] = {}
    for place in places:
        folder = place.path.partition("/")[0]
        result[folder] = result.get(folder, 0) + 1
    return result
