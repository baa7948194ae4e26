# SPDX-License-Identifier: Apache-2.0 OR BSD-3-Clause
"""The page docs/try.html: what it has packed, and what it does in a headless Chromium.

Each control does what features.txt says, and the console stays empty: the page lets the browser refuse any request. It
fits two widths and two schemes of colours, its controls have names for a screen reader, and it does little until it is
there. It replies to scripts as a search of the past does, and docs/try.svg and docs/try-narrow.svg show what it does;
--write-pictures writes them again.
"""
import itertools
import json
import os
import re
import socket
import subprocess
import threading
from collections import deque
from contextlib import contextmanager
from pathlib import Path

import pytest
from documents import Document
from generators.facts_of_tests import expanded
from generators.page import PAGE, sources, unpacked
from harness import LIMIT, ROOT, at_least
from script_tests import board_scripts
from superio import Board, parse

HERE = Path(__file__).parent
MOST_BYTES, RANDOM_SCRIPTS = 72_000, 2_000
MOST_RUNS = 70_000   # of functions and of their parts, until the page is there
# Frames of files may be read, and elements have the names that a screen reader says. The list below the address bar is
# a page, too, which would take as long to begin as ours. The super-user has no sandbox.
BROWSER = ["chromium", "--headless", "--disable-gpu", "--no-first-run", "--hide-scrollbars", "--window-size=1300,900",
           "--force-prefers-reduced-motion", "--enable-logging=stderr", "--allow-file-access-from-files",
           "--enable-blink-features=ComputedAccessibilityInfo",
           "--disable-features=WebUIOmniboxPopup,WebUIOmniboxFullPopup,WebUIOmniboxAimPopup",
           *(["--no-sandbox"] if os.geteuid() == 0 else [])]
# So a browser knows each element's name all the time. Otherwise it finds those of a whole page whenever it is asked for
# one; but to know them costs more than that where few are asked for.
FOR_A_READER = "--force-renderer-accessibility=basic"
# The browser's own pages, too, say something there, such as that the machine is slow.
TOLD = re.compile(r'CONSOLE\S+ "(.*)", source: (?!chrome:)')
# A Linux whose driver reads 256 bytes of a paste, as it does at an interrupt, while 17 more arrive. As many wait then.
BOOT = ";".join(f"sw 00 {byte:02x}" for byte in b"ttyS0 at I/O 0x3f8 is a 16550A\r\n\r\n~ # head -c 4096 | md5sum\r\n")
PASTE = b"Linux takes 256 bytes at an interrupt, and leaves the others. " * 5
PIECES = "".join(f"sq {PASTE[begin:end].hex()};{'sr 02;' * (begin == 0)}{'sr 05;sr 00;' * read}" for begin, end, read in
                 ((0, 64, 17), (64, 81, 64), (81, 145, 64), (145, 209, 64), (209, 273, 47)))
SHOWN = f"#sw 03 03;sw 04 0b;sw 01 05;{BOOT};sr 02;{PIECES}sr 02".replace(" ", "+")
# The pictures of docs: each with the width of the window, and the parts of the page that it has.
PICTURES = [("try.svg", SHOWN, 1200, "#port, #host, #why"), ("try-narrow.svg", SHOWN, 400, "#port, #host")]
DRAWN = """<svg xmlns="http://www.w3.org/2000/svg" width="{0}" height="{1}" viewBox="0 0 {0} {1}" role="img">
<title>A serial port in which bytes wait without an interrupt: registers with their bits, FIFO, line, terminal</title>
<foreignObject width="{0}" height="{1}">
<body xmlns="http://www.w3.org/1999/xhtml" style="color-scheme: light dark; border-radius: 10px"><style>
{2}</style>
{3}
</body></foreignObject>
</svg>
"""
FEATURES = re.sub(r"^# .*\n", "", (HERE / "features.txt").read_text("utf-8"), flags=re.M)
FEATURES = expanded(FEATURES).strip().split("\n\n")
FEATURES = {feature.split("\n")[0]: feature for feature in at_least(88, FEATURES)}
LOOKS = {f"{width} {scheme}": (width, scheme) for width in (1280, 400) for scheme in ("light", "dark")}
PICTURES = {picture[0]: picture for picture in PICTURES}
LEAST_CONTROLS = 75   # in each of LOOKS
# What a control has, and what the page says of that: the number of an option, and the line that a button makes.
OPTIONS = re.findall(r'<option value="(\d+)"[^>]*>([^<]*)', PAGE.read_text("utf-8"))
BUTTONS = re.findall(r'<button [^>]*data-line="([^"]*)" title="([^"]*)"', PAGE.read_text("utf-8"))


# The file

def links():
    """The links of the page, and those of its modules to headings."""
    found = set(re.findall(r'<a href="([^"@#]+(?:#[\w-]+)?)"', PAGE.read_text("utf-8")))
    for name, document in (("board", "DEVICES"), ("why", "DEVICES"), ("page", "DEVICES"), ("boot", "GUESTS")):
        text = (ROOT / "web" / f"{name}.mjs").read_text("utf-8")
        found.update(f"{document}.md#{heading}" for heading in re.findall(r'\.",\s+"([a-z0-9-]+)"\]', text))
    return sorted(found)


def test_packed():
    assert unpacked(PAGE.read_text("utf-8")) == sources(), "run tools/generate"


def test_size():
    assert PAGE.stat().st_size <= MOST_BYTES


@pytest.mark.parametrize("link", at_least(19, links()))
def test_link(link):
    name, _, heading = link.partition("#")
    path = PAGE.parent / name
    assert path.is_file()
    assert not heading or heading in Document(path).anchors


@pytest.mark.parametrize("number, said", at_least(4, OPTIONS))
def test_an_option_says_its_number(number, said):
    assert said == f"{int(number):,} calls a second"


@pytest.mark.parametrize("line, said", at_least(2, BUTTONS))
def test_a_button_says_its_line(line, said):
    assert said.partition(":")[0] == line


DESCRIBED = (ROOT / "docs" / "PAGE.md").read_text("utf-8")
ADDRESSES = re.findall(r"add `#([^`]+)` to the end of the demo's address and press Enter\..*so one byte is left, and no "
                       r"interrupt is pending", DESCRIBED)


@pytest.mark.parametrize("address", at_least(1, ADDRESSES))
def test_an_address_of_the_documents(address):
    """It leads to what the document says: a byte waits, until a timeout raises its interrupt."""
    board = Board()
    for line in address.replace("+", " ").split(";"):
        board.run(parse(line.encode()))
    state = board.serial.state
    assert (len(state.in_buffer), state.interrupt_identification & 0x06) == (1, 0)
    board.run(parse(b"si"))
    assert board.serial.state.interrupt_identification & 0x06


@pytest.mark.parametrize("label", at_least(9, sorted({*re.findall(r"(?<!- )\*\*([A-Z][^*\n]+)\*\*", DESCRIBED)})))
def test_a_label_of_the_documents(label):
    """What stands in bold, apart from the beginning of an item, is the label of a control or of a part of the page."""
    labels = re.findall(r">([^<>]+)<", re.sub(r"\s+", " ", PAGE.read_text("utf-8").partition("<script")[0]))
    assert label in [one.strip() for one in labels]


# In a browser

def browse(folder, tried, *options):
    """What frames.mjs tells in a browser. What the page tells, and an early end, is wrong."""
    text = json.dumps({"address": PAGE.as_uri(), "shown": SHOWN, **tried}).replace("<", r"\u003c")
    page = folder / "frames.html"
    page.write_text(f'<!doctype html><body><script type="application/json" id="tried">{text}</script>'
                    f'<script type="module" src="{(HERE / "frames.mjs").as_uri()}"></script>', "ascii")
    words = [*BROWSER, *options, f"--user-data-dir={folder}", page.as_uri()]
    last = deque(maxlen=5)   # lines
    with subprocess.Popen(words, stdout=subprocess.DEVNULL, stderr=subprocess.PIPE, encoding="utf-8") as browser:
        timer = threading.Timer(LIMIT, browser.kill)
        timer.start()
        try:
            for line in browser.stderr:
                last.append(line)
                if found := TOLD.search(line):
                    what = json.loads(found[1]) if found[1].startswith("{") else {"kind": "console", "wrong": found[1]}
                    if "end" in what:
                        return
                    yield what
            yield {"kind": "console", "wrong": f"the browser ended, or took more than {LIMIT} seconds: {[*last]}"}
        finally:
            timer.cancel()
            browser.terminate()


def browse_all(folders, tried):
    """What is told of all that is tried: of the looks in a browser for a screen reader."""
    looks = {**dict.fromkeys(tried, []), "looks": tried["looks"]}
    yield from browse(folders.mktemp("browser"), {**tried, "looks": []})
    if tried["looks"]:
        yield from browse(folders.mktemp("reader"), looks, FOR_A_READER)


class Told:
    """What browsers tell, of which no more is awaited than a test needs."""

    def __init__(self, more):
        self.rows, self.more = [], more

    def __call__(self, kind, name="all"):
        """What is told of a kind and a name. A page on whose console an error comes first may never come to it."""
        while not (found := [row for row in self.rows if (row["kind"], row.get("name", "all")) == (kind, name)]):
            row = next(self.more, None)
            self.rows += filter(None, [row])
            assert row and row["kind"] != "console", self.console()
        return found[0]

    def console(self, more=()):
        """All that the console had besides."""
        self.rows += more
        return [row["wrong"] for row in self.rows if row["kind"] == "console"]


@pytest.fixture(scope="module")
def told(request, tmp_path_factory):
    """Opens the browsers once, for the tests of this file that are run."""
    items = [item for item in request.session.items if item.path == Path(__file__)]
    names = dict.fromkeys(item.callspec.params.get("name") for item in items if hasattr(item, "callspec"))
    has_scripts = any(item.name == "test_scripts" for item in items)
    tried = {kind: [rows[name] for name in names if name in rows] for kind, rows in (
        ("features", FEATURES), ("looks", LOOKS), ("pictures", PICTURES))}
    tried["scripts"] = board_scripts("page", RANDOM_SCRIPTS) if has_scripts else []
    more = browse_all(tmp_path_factory, tried)
    yield Told(more)
    more.close()


@pytest.mark.needs("chromium")
@pytest.mark.parametrize("name", FEATURES)
def test_feature(told, name):
    assert not told("feature", name)["wrong"]


@pytest.mark.needs("chromium")
@pytest.mark.parametrize("name", LOOKS)
def test_looks(told, name):
    """At a width and in a scheme of colours, nothing is cut or too wide, each text stands out, controls have names, and
    each class is seen, such as those of a bit that is set, or was changed by the last call."""
    said = told("looks", name)
    assert not said["wrong"]
    assert said["number"] >= LEAST_CONTROLS


@pytest.mark.needs("chromium")
@pytest.mark.parametrize("name", PICTURES)
def test_picture(told, name, request):
    """The picture of the documents shows the page. Only its height may differ, since it depends on the fonts."""
    said = told("picture", name)
    assert not said["wrong"]
    path, picture = ROOT / "docs" / name, DRAWN.format(*said["parts"]).replace("\r", "")
    if request.config.getoption("--write-pictures"):
        path.write_text(picture, "utf-8")
    kept, now = (re.sub(r' (height="\d+"|viewBox="[^"]*")', "", text) for text in (path.read_text("utf-8"), picture))
    assert kept == now, f"{name} shows another page: run pytest tests/page --write-pictures"


@pytest.mark.needs("chromium")
def test_scripts(told):
    """All scripts of tests/data, loads of any bytes, and random scripts: 2,000, and 400 for a board that refuses further
    lines. tests/js runs as many others on the same board, so these show that the page packs it whole."""
    said = told("scripts")
    assert not said["wrong"]
    assert said["number"] >= 2_700


@contextmanager
def debugged(folder):
    """A browser with its debugger, as a context: a function that tells it something, and gives what it replies. Each
    message is JSON, with a zero byte behind it. What the browser tells unasked goes by."""
    ours, theirs = socket.socketpair()
    words = ["bash", "-c", f'exec "$@" 3<&{theirs.fileno()} 4>&{theirs.fileno()}', "browser", *BROWSER,
             "--remote-debugging-pipe", f"--user-data-dir={folder}"]
    process = subprocess.Popen(words, stdout=subprocess.DEVNULL, stderr=subprocess.DEVNULL, pass_fds=[theirs.fileno()])
    theirs.close()
    ours.settimeout(LIMIT)
    numbers, session, seen = itertools.count(1), {}, b""

    def tell(method, **parameters):
        nonlocal seen
        number = next(numbers)
        message = {"id": number, "method": method, "params": parameters, **session}
        ours.sendall(json.dumps(message).encode() + b"\0")
        while True:
            while b"\0" not in seen:
                piece = ours.recv(65536)
                assert piece, "the browser ended"
                seen += piece
            reply, _, seen = seen.partition(b"\0")
            reply = json.loads(reply)
            if reply.get("id") == number:
                return reply["result"]

    try:
        page = tell("Target.createTarget", url="about:blank")["targetId"]
        session["sessionId"] = tell("Target.attachToTarget", targetId=page, flatten=True)["sessionId"]
        yield tell
    finally:
        process.kill()
        process.wait()
        ours.close()


# Awaits the page. Its own runs do not count, by the name that it has for the browser.
UNTIL_THERE = """new Promise((done) => {
  const at = setInterval(() => { if (window.superio) { clearInterval(at); done(); } });
})
//# sourceURL=awaits"""


@pytest.mark.needs("chromium")
def test_runs_until_it_is_there(tmp_path):
    """A page that is there fast, on any machine: the browser counts how often each part of its scripts runs."""
    with debugged(tmp_path) as tell:
        tell("Profiler.enable")
        tell("Profiler.startPreciseCoverage", callCount=True, detailed=True)
        tell("Page.navigate", url=PAGE.as_uri())
        tell("Runtime.evaluate", expression=UNTIL_THERE, awaitPromise=True)
        scripts = tell("Profiler.takePreciseCoverage")["result"]
    runs = [part["count"] for script in scripts if script["url"] != "awaits"
            for function in script["functions"] for part in function["ranges"]]
    assert len(runs) > 100 and sum(runs) < MOST_RUNS


# Of a phone: how wide it is, how wide the page and what it has are there, and whether its parts stand in one column.
ON_A_PHONE = """[screen.width, innerWidth, document.scrollingElement.scrollWidth,
  new Set(Array.from(document.querySelectorAll("section"), (one) => one.offsetLeft)).size]"""


@pytest.mark.needs("chromium")
def test_a_phone(tmp_path):
    """There the page is as wide as the screen, and not as wide as on a desk and then made small, and can be enlarged."""
    with debugged(tmp_path) as tell:
        tell("Emulation.setDeviceMetricsOverride", width=360, height=740, deviceScaleFactor=3, mobile=True)
        tell("Page.navigate", url=PAGE.as_uri())
        tell("Runtime.evaluate", expression=UNTIL_THERE, awaitPromise=True)
        said = tell("Runtime.evaluate", expression=ON_A_PHONE, returnByValue=True)["result"]["value"]
        tell("Emulation.setPageScaleFactor", pageScaleFactor=3)
        scale = tell("Runtime.evaluate", expression="visualViewport.scale", returnByValue=True)["result"]["value"]
    assert said == [360, 360, 360, 1] and scale == 3


# Asks another host for something in each way that a page has, and for a worker, which no other host can give. Gives the
# ways that the browser refused, by the names that a policy has for them, once no further one comes.
ASKS = """(async () => {
  const refused = [];
  addEventListener("securitypolicyviolation", ({ effectiveDirective: name }) => refused.push(name));
  const add = (name, attributes) =>
    document.body.append(Object.assign(document.createElement(name), attributes));
  const place = "https://127.0.0.1:9/other";
  fetch(place).catch(() => {});
  add("img", { src: place });
  add("script", { src: place });
  add("link", { rel: "stylesheet", href: place });
  add("iframe", { src: place });
  add("audio", { src: place });
  add("object", { data: place });
  new FontFace("other", `url(${place})`).load().catch(() => {});
  new Worker("data:text/javascript,");
  for (let before = -1; before < refused.length; await new Promise((done) => setTimeout(done, 300))) {
    before = refused.length;
  }
  return refused.sort().join(" ");
})()"""
REFUSED = ["connect-src", "font-src", "frame-src", "img-src", "media-src", "object-src", "script-src-elem",
           "style-src-elem", "worker-src"]


@pytest.mark.needs("chromium")
def test_the_browser_refuses_requests(tmp_path):
    """Whatever the page's scripts do, nothing goes to another place."""
    with debugged(tmp_path) as tell:
        tell("Page.navigate", url=PAGE.as_uri())
        tell("Runtime.evaluate", expression=UNTIL_THERE, awaitPromise=True)
        said = tell("Runtime.evaluate", expression=ASKS, awaitPromise=True)["result"]["value"]
    assert said.split() == REFUSED


@pytest.mark.needs("chromium")
def test_console(told):
    assert not told.console(told.more)
