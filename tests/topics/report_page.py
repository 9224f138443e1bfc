"""The page of dpbn-report in a real browser, in one without scripts, and as its status changes."""
import contextlib
import html.parser
import http.server
import os
import re
import shutil
import signal
import subprocess
import tempfile
import threading

from topics.report_played import LIMIT, check, held, played, put
from topics.tally import TESTS, contents

# where the screenshots of the page are left; .gitignore names it
ARTIFACTS = f"{TESTS}/artifacts"
# how long a browser may take on a machine that does other things, too, and how often it is started for a page: a busy one may hang
BROWSER_LIMIT, TRIES = 300, 3
BROWSERS = ("chromium", "chromium-browser", "google-chrome")


def browser():
    return next(filter(None, map(shutil.which, BROWSERS)), None)


def browse(url, *more):
    """What a browser has on its standard output for a page, and what the page wrote to its console."""
    for left in reversed(range(TRIES)):
        try:
            return browse_once(url, *more)
        except subprocess.TimeoutExpired:
            if not left:
                raise
    return "", []


def browse_once(url, *more):
    """What `browse` returns, by one browser, which is ended with all that it began if it takes too long."""
    profile = tempfile.mkdtemp()
    words = [browser(), "--headless=new", "--no-sandbox", "--disable-gpu", "--hide-scrollbars", f"--user-data-dir={profile}",
             "--virtual-time-budget=4000", "--enable-logging=stderr", "--v=0", *more, url]
    process = subprocess.Popen(words, stdin=subprocess.DEVNULL, stdout=subprocess.PIPE, stderr=subprocess.PIPE, cwd=profile, start_new_session=True)
    try:
        out, said = process.communicate(timeout=BROWSER_LIMIT)
    finally:
        with contextlib.suppress(ProcessLookupError):
            os.killpg(process.pid, signal.SIGKILL)
        process.wait()
        shutil.rmtree(profile, ignore_errors=True)
    # the browser's own pages say something, too, if the machine is busy
    return out.decode(), [line for line in re.findall(r"CONSOLE.*", said.decode(errors="replace")) if "source: chrome://" not in line]


class Texts(html.parser.HTMLParser):
    """The text of each element that has an id, and of each of a class, without spaces at its ends."""

    def __init__(self, page):
        super().__init__()
        self.open, self.texts, self.units = [], {}, []
        self.feed(page)

    def handle_starttag(self, tag, attrs):
        about = dict(attrs)
        if tag not in ("meta", "link", "input", "br"):
            self.open.append((tag, about.get("id")))
        if about.get("data-unit"):
            self.units.append(about["data-unit"])

    def handle_endtag(self, tag):
        while self.open and self.open.pop()[0] != tag:
            pass

    def handle_data(self, data):
        for _, name in self.open:
            if name:
                self.texts[name] = self.texts.get(name, "") + data + " "


def shown(tally, name, page, console, found):
    """The page has what the status has, and nothing is wrong in its console."""
    texts = Texts(page)
    check(tally, f"{name}, its console", not console, console)
    counts = [f"{letter} {found['counts'][letter]} " for letter in "IBQT!"]
    check(tally, f"{name}, its letters", all(it in texts.texts.get("bar", "") for it in counts), texts.texts.get("bar"))
    wanted = list(dict.fromkeys(one["unit"] for one in found["failures"]))
    check(tally, f"{name}, its failures", texts.units == wanted, texts.units, wanted)
    lacking = [one["reason"] for one in found["failures"] if one["reason"] not in texts.texts.get("failures", "")]
    lacking += [one["unit"] for one in found["running"] if one["unit"] not in texts.texts.get("running", "")]
    lacking += [one["name"] for one in found["hosts"] if one["name"] not in texts.texts.get("hosts", "")]
    lacking += [unit for unit in found["chain"]["units"] if unit not in texts.texts.get("chain", "")]
    check(tally, f"{name}, what it names", not lacking, lacking, texts.texts)
    return texts


class Answers(http.server.SimpleHTTPRequestHandler):
    """A server of a report's folder. From the second time on it has another status, as if the bulk went on."""

    later, asked = None, 0

    def do_GET(self):
        if self.path.startswith("/status.json"):
            type(self).asked += 1
            if type(self).asked > 1 and self.later is not None:
                put(f"{self.directory}/status.json", self.later)
        super().do_GET()

    def log_message(self, *_):
        pass


@contextlib.contextmanager
def served(folder, later=None):
    """The folder over HTTP, on loopback."""
    class Here(Answers):
        def __init__(self, *more):
            super().__init__(*more, directory=folder)

    Here.later = later
    with http.server.ThreadingHTTPServer(("127.0.0.1", 0), Here) as server:
        thread = threading.Thread(target=server.serve_forever, daemon=True)
        thread.start()
        try:
            yield f"http://127.0.0.1:{server.server_address[1]}"
        finally:
            server.shutdown()
            thread.join()


def page(tally):
    """The page in a real browser: as a file, from a server, and as the status changes; and without scripts."""
    with played() as run:
        _, found = run.run()
        plain(tally, run, found)
        if not browser():
            tally.skip("dpbn-report's page in a browser", "there is no chromium here")
            return
        name = "the page as a file"
        text, console = browse(f"file://{run.out}/index.html#tool/i", "--dump-dom")
        texts = shown(tally, name, text, console, found)
        told = "waits for lib/d, tool/h; can't be built before lib/c, tool/h"
        check(tally, f"{name}, a search", told in texts.texts.get("found", ""), texts.texts.get("found"))
        check(tally, f"{name}, a log", "error: <b>lib/c</b> &" in texts.texts.get("failures", ""), texts.texts.get("failures"))
        text, console = browse(f"file://{run.out}/index.html#x/l", "--dump-dom")
        texts = shown(tally, name, text, console, found)
        check(tally, f"{name}, a path that is ignored", "IGNORE: only for <vax>" in texts.texts.get("found", ""), texts.texts.get("found"))
        pictures(tally, run)
        changed(tally, run, found)


def changed(tally, run, found):
    """A page from a server shows the next status, too."""
    with served(run.out) as url:
        text, console = browse(f"{url}/", "--dump-dom")
        shown(tally, "the page from a server", text, console, found)
    run.append(0, held("x/n", "n-1", 1, "1.1"))
    shutil.copytree(run.out, f"{run.folder}/earlier")
    _, later = run.run()
    with served(f"{run.folder}/earlier", contents(f"{run.out}/status.json")) as url:
        text, console = browse(f"{url}/", "--dump-dom", "--virtual-time-budget=30000")
        check(tally, "a page whose status changes", later["counts"]["I"] == found["counts"]["I"] + 1, later["counts"])
        shown(tally, "the same, what it shows", text, console, later)


def pictures(tally, run):
    """Screenshots for who wants to look: light, dark, and as narrow as a phone."""
    os.makedirs(ARTIFACTS, exist_ok=True)
    dark = "--blink-settings=preferredColorScheme=0"
    for name, size, more in (("light", "1280,1100", ()), ("dark", "1280,1100", (dark,)), ("phone", "500,1800", ())):
        place = f"{ARTIFACTS}/report-{name}.png"
        with contextlib.suppress(FileNotFoundError):
            os.unlink(place)
        _, console = browse(f"file://{run.out}/index.html", f"--window-size={size}", f"--screenshot={place}", *more)
        good = os.path.exists(place) and contents(place)[:8] == b"\x89PNG\r\n\x1a\n" and os.path.getsize(place) > 10_000
        check(tally, f"a screenshot, {name}", good and not console, console)


def plain(tally, run, found):
    """What a browser without scripts shows: plain tables, and nothing of the rest."""
    text = contents(f"{run.out}/index.html").decode()
    inner = re.search(r"<noscript>(.*)</noscript>", text, re.DOTALL)
    tables = inner[1] if inner else ""
    wanted = ["<td>lib/c</td>", "<td>6</td>", "<td>it made no x/k</td>", '<a href="logs/0.lib%3Ac.txt">', "<td>x/n</td>", "x/n &gt; x/p"]
    check(tally, "the page without scripts", all(it in tables for it in wanted), [it for it in wanted if it not in tables], tables)
    check(tally, "the page needs nothing from elsewhere", not re.search(r"""(src|href)=["'](https?:)?//""", text) and "@import" not in text)
    if not shutil.which("w3m"):
        tally.skip("dpbn-report's page in a text browser", "there is no w3m here")
    else:
        done = subprocess.run(["w3m", "-dump", f"{run.out}/index.html"], capture_output=True, timeout=LIMIT)
        said = done.stdout.decode()
        check(tally, "the page in a text browser", "Failures" in said and "tool/h" in said and "Find a path" not in said, said)
