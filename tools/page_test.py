#!/usr/bin/env python3
"""Drives the page in docs/page in Chromium as a person would, and compares what it shows with what the program prints.

usage: tools/page_test.py [--pictures FOLDER] PROGRAM

Each example is chosen and gone through line by line: its transcript, lists and pictures are to be those of the program. A script is typed,
the slider is moved, a fork is dropped, changed and saved, a link is followed, the module is made to trap, and a script of 100,000 lines is
replayed while keys are pressed. Chromium is driven over a pipe, by its DevTools protocol. With --pictures the page is drawn at 390 and at
1,600 pixels, light and dark, into a folder. Where no Chromium is, a line says 'skipped'. The last line is 'N passed, M failed', of checks.
"""
import base64
import contextlib
import functools
import http.server
import json
import os
import shutil
import struct
import subprocess
import sys
import tempfile
import threading
import time
import xml.etree.ElementTree as ElementTree

TOP = os.path.dirname(os.path.dirname(os.path.abspath(__file__)))
PAGE, EXAMPLES = f"{TOP}/docs/page", f"{TOP}/examples"
SECONDS = 300
LARGE = 100_000
# The longest that the page may take for a key while 100,000 lines are replayed, in milliseconds.
LONGEST_KEY = 1000
CONTROLS = ["example", "size", "link", "back", "line", "forth", "script", "list", "file", "fork-example", "listing", "statement", "set", "save", "back-to", "bytes",
            "typed", "source"]
KEYS = {"Tab": 9, "Enter": 13, "End": 35, "Home": 36, "ArrowLeft": 37, "ArrowUp": 38, "ArrowRight": 39, "ArrowDown": 40, "Delete": 46}


class Browser:
    """Chromium, and what it says over its pipe: messages in JSON, each with a byte 0 after it."""

    def __init__(self, path, folder):
        theirs, self.out = os.pipe()
        self.into, ours = os.pipe()
        words = ["--headless=new", "--no-sandbox", "--disable-gpu", "--remote-debugging-pipe", f"--user-data-dir={folder}/profile", "about:blank"]
        self.process = subprocess.Popen(["bash", "-c", f'exec "$0" "$@" 3<&{theirs} 4>&{ours}', path, *words], pass_fds=(theirs, ours),
                                        stdin=subprocess.DEVNULL, stdout=subprocess.DEVNULL, stderr=subprocess.DEVNULL)
        os.close(theirs)
        os.close(ours)
        self.number, self.rest, self.events = 0, b"", []

    def read(self):
        while b"\0" not in self.rest:
            part = os.read(self.into, 1 << 20)
            if not part:
                raise EOFError("Chromium has ended")
            self.rest += part
        text, _, self.rest = self.rest.partition(b"\0")
        return json.loads(text)

    def call(self, method, session=None, **params):
        """Calls a method; what is reported meanwhile is kept."""
        self.number += 1
        message = {"id": self.number, "method": method, "params": params, **({"sessionId": session} if session else {})}
        os.write(self.out, json.dumps(message).encode() + b"\0")
        while True:
            told = self.read()
            if told.get("id") == self.number:
                if "error" in told:
                    raise RuntimeError(f"{method}: {told['error']['message']}")
                return told["result"]
            self.events.append(told)

    def close(self):
        with contextlib.suppress(Exception):
            self.call("Browser.close")
        self.process.wait(SECONDS)


class Tab:
    """The page in a tab."""

    def __init__(self, browser, address):
        self.browser = browser
        self.target = browser.call("Target.createTarget", url="about:blank")["targetId"]
        self.session = browser.call("Target.attachToTarget", targetId=self.target, flatten=True)["sessionId"]
        for it in ("Page", "Runtime", "Network", "Log"):
            self.call(f"{it}.enable")
        self.call("Target.setAutoAttach", autoAttach=True, waitForDebuggerOnStart=False, flatten=True)
        self.call("Page.navigate", url=address)
        self.until("document.readyState === 'complete' && typeof scriptHalf === 'object'")
        self.settle()

    def call(self, method, **params):
        return self.browser.call(method, self.session, **params)

    def value(self, code, session=None):
        told = self.browser.call("Runtime.evaluate", session or self.session, expression=code, returnByValue=True, awaitPromise=True)
        if "exceptionDetails" in told:
            raise RuntimeError(told["exceptionDetails"].get("exception", {}).get("description", code))
        return told["result"].get("value")

    def until(self, code, seconds=SECONDS):
        """Waits until something holds of the page."""
        end = time.monotonic() + seconds
        while not self.value(f"!!({code})"):
            if time.monotonic() > end:
                raise TimeoutError(code)
            time.sleep(0.005)

    def settle(self):
        """Waits until the page has done what it was asked for."""
        self.until("![scriptHalf, forkHalf].some(it => it.pending || it.machine.busy || it.machine.waiting.size)")

    def key(self, name, count=1, modifiers=0):
        for _ in range(count):
            more = {"key": name, "code": name, "windowsVirtualKeyCode": KEYS[name], "modifiers": modifiers}
            text = {"text": "\r"} if name == "Enter" and not modifiers else {}
            self.call("Input.dispatchKeyEvent", type="keyDown", **more, **text)
            self.call("Input.dispatchKeyEvent", type="keyUp", **more)

    def type(self, text):
        for letter in text:
            if letter == "\n":
                self.key("Enter")
            else:
                self.call("Input.insertText", text=letter)

    def focused(self):
        return self.value("document.activeElement.id")

    def tab_to(self, wanted):
        """Presses Tab until an element is reached."""
        self.value("document.activeElement.blur()")
        for _ in range(40):
            self.key("Tab")
            if self.focused() == wanted:
                return True
        return False

    def choose(self, name, wanted):
        """Chooses an item of a list with the keyboard."""
        if not self.tab_to(name):
            return
        self.key("Home")
        for _ in range(100):
            if self.value(f"document.getElementById('{name}').value") == wanted:
                break
            self.key("ArrowDown")
        self.settle()

    def place(self, name, part=0.5):
        """The middle of an element, in sight."""
        return self.value(f"""(() => {{ const it = document.getElementById('{name}'); it.scrollIntoView({{ block: 'center' }});
            const box = it.getBoundingClientRect(); return [box.left + box.width * {part}, box.top + box.height / 2]; }})()""")

    def click(self, name):
        x, y = self.place(name)
        for kind in ("mousePressed", "mouseReleased"):
            self.call("Input.dispatchMouseEvent", type=kind, x=x, y=y, button="left", clickCount=1)

    def drop(self, path):
        x, y = self.place("fork-title")
        data = {"items": [], "files": [path], "dragOperationsMask": 1}
        for kind in ("dragEnter", "dragOver", "drop"):
            self.call("Input.dispatchDragEvent", type=kind, x=x, y=y, data=data)

    def worker(self):
        """The session of the worker that replays scripts."""
        self.value("0")
        sessions = [it["params"] for it in self.browser.events if it["method"] == "Target.attachedToTarget" and it.get("sessionId") == self.session]
        return [it["sessionId"] for it in sessions if it["targetInfo"]["type"] == "worker"][-1]

    def size(self, width, height, scheme):
        self.call("Emulation.setDeviceMetricsOverride", width=width, height=height, deviceScaleFactor=1, mobile=width < 600)
        self.call("Emulation.setEmulatedMedia", features=[{"name": "prefers-color-scheme", "value": scheme}])

    def draw(self, path):
        told = self.call("Page.captureScreenshot", format="png", captureBeyondViewport=True)
        with open(path, "wb") as it:
            it.write(base64.b64decode(told["data"]))


class Checks:
    """What was checked, and how that went."""

    def __init__(self, program):
        self.program = program
        self.passed = self.failed = 0

    def same(self, what, shown, wanted):
        if shown == wanted:
            self.passed += 1
        else:
            self.failed += 1
            print(f"{what}: the page has\n{str(shown)[:600]}\nand should have\n{str(wanted)[:600]}")

    def holds(self, what, test):
        self.same(what, bool(test), True)

    def printed(self, *words):
        """What the program prints."""
        return subprocess.run([self.program, *words], stdout=subprocess.PIPE, stderr=subprocess.STDOUT, cwd=EXAMPLES).stdout.decode()


def same_picture(one, other):
    """Whether two texts of SVG are one picture."""
    return ElementTree.canonicalize(one) == ElementTree.canonicalize(other)


def transcript_by_line(transcript):
    """What stands beside each line of a script, by its transcript; and at its end."""
    beside, end = {}, ""
    for entry in transcript.splitlines():
        line, _, told = entry.lstrip("+").partition(" ")
        if line.isdigit():
            beside[int(line)] = f"{beside[int(line)]}, {told}" if int(line) in beside else told
        elif line == "end":
            end = entry
    return beside, end


ROWS = "[...document.querySelectorAll('#lines .row')].map(it => [it.querySelector('.number').textContent, it.querySelector('.told').textContent])"
LIST = "[...document.querySelectorAll('#list .row')].map(it => it.textContent + '\\n').join('')"
DRAWN = "(id => { const it = document.getElementById(id).shadowRoot.querySelector('svg'); if (!it) return ''; const copy = it.cloneNode(true); " \
    "copy.removeAttribute('role'); copy.removeAttribute('aria-label'); return new XMLSerializer().serializeToString(copy); })"


def zone_as_printed(tab, checks, name, size, line):
    """Compares what the page shows after a line with what the program prints."""
    what = f"{name} after line {line}"
    checks.same(f"the list of {what}", tab.value(LIST), checks.printed("heap", "--at", str(line), size, name))
    picture = checks.printed("heap", "--svg", "--at", str(line), size, name)
    checks.holds(f"the picture of {what}", same_picture(tab.value(f"{DRAWN}('picture')"), picture))
    if line:
        steps = checks.printed("heap", "--svg", "--steps", f"{line - 1}..{line}", size, name)
        checks.holds(f"the moments of {what}", same_picture(tab.value(f"{DRAWN}('steps')"), steps))
        words = checks.printed("heap", "--text", "--steps", f"{line}..{line}", size, name)
        checks.same(f"the words of {what}", tab.value("document.getElementById('words').textContent"), words.rstrip("\n"))


def check_example(tab, checks, name):
    """Chooses an example, and goes through its lines with the keyboard."""
    tab.choose("example", name)
    size = tab.value("document.getElementById('size').value")
    with open(f"{EXAMPLES}/{name}", encoding="utf-8") as it:
        text = it.read()
    checks.same(f"the text of {name}", tab.value("document.getElementById('script').value"), text)
    transcript = checks.printed("script", size, name)
    beside, end = transcript_by_line(transcript)
    count = len(text.splitlines())
    wanted = [[str(line), beside.get(line, "")] for line in range(1, count + 1)] + [["", end]]
    checks.same(f"the transcript of {name}", tab.value(ROWS), wanted)
    tab.tab_to("line")
    tab.key("Home")
    for line in range(count + 1):
        if line:
            tab.key("ArrowRight")
        tab.until(f"scriptHalf.shown?.line === {line}")
        tab.settle()
        zone_as_printed(tab, checks, name, size, line)


def check_examples(tab, checks):
    for name in sorted(it for it in os.listdir(EXAMPLES) if it.endswith(".script")):
        check_example(tab, checks, name)


def check_typing(tab, checks, folder):
    """A script is typed, with a mistake, which is mended."""
    tab.tab_to("script")
    tab.key("Home", modifiers=2)
    tab.key("End", modifiers=2 + 8)
    tab.key("Delete")
    tab.type("NewHandle a 100\nNewPtr p 20\nNewHandel b 10")
    tab.settle()
    rows = tab.value(ROWS)
    checks.same("what is typed is replayed up to the fault", rows[:2], [["1", "NewHandle 0"], ["2", "NewPtr 0"]])
    checks.holds("a faulty line has words", "NewHandel" in rows[2][1] and tab.value("document.querySelectorAll('#lines .faulty').length") == 1)
    tab.key("ArrowLeft", 7)
    tab.key("Delete", 2)
    tab.type("le")
    tab.settle()
    text = tab.value("document.getElementById('script').value")
    checks.same("what was typed", text, "NewHandle a 100\nNewPtr p 20\nNewHandle b 10")
    path = f"{folder}/typed.script"
    with open(path, "w", encoding="utf-8") as it:
        it.write(text)
    size = tab.value("document.getElementById('size').value")
    beside, _ = transcript_by_line(checks.printed("script", size, path))
    checks.same("the transcript of what was typed", tab.value(ROWS)[:3], [[str(n), beside[n]] for n in (1, 2, 3)])
    zone_as_printed(tab, checks, path, size, 3)
    tab.key("ArrowUp")
    tab.until("scriptHalf.shown?.line === 2")
    zone_as_printed(tab, checks, path, size, 2)


def check_keyboard(tab, checks):
    """All that can be used is reached with Tab, once a fork is open."""
    tab.choose("fork-example", "Document.rsrc")
    for name in CONTROLS:
        checks.holds(f"'{name}' is reached with Tab", tab.tab_to(name))


def check_partition(tab, checks):
    """The size of the partition is typed: one that can't be, and one that can."""
    tab.choose("example", "kept_pointer.script")
    tab.tab_to("size")
    for size, said in (("1000", "A partition has a multiple of 16 bytes, from 512 to 134,217,728."), ("2048", "")):
        tab.key("Home")
        tab.key("End", modifiers=8)
        tab.type(size)
        tab.settle()
        checks.same(f"what is said of {size} bytes", tab.value("document.getElementById('said').textContent"), said)
    beside, _ = transcript_by_line(checks.printed("script", "2048", "kept_pointer.script"))
    checks.same("the transcript in 2,048 bytes", tab.value(ROWS)[7], ["8", beside[8]])


def check_slider(tab, checks):
    """The slider is moved with the mouse."""
    tab.choose("example", "compaction.script")
    for part in (0.02, 0.98, 0.5):
        x, y = tab.place("line", part)
        for kind in ("mousePressed", "mouseReleased"):
            tab.call("Input.dispatchMouseEvent", type=kind, x=x, y=y, button="left", clickCount=1)
        tab.settle()
        line = tab.value("document.getElementById('line').valueAsNumber")
        checks.same("the slider's line is shown", tab.value("scriptHalf.shown.line"), line)
        zone_as_printed(tab, checks, "compaction.script", "1024", line)
    tab.click("forth")
    tab.settle()
    checks.same("the next line", tab.value("scriptHalf.shown.line"), line + 1)


def downloaded(tab, folder, name):
    """The file that was saved."""
    path, end = f"{folder}/saved/{name}", time.monotonic() + SECONDS
    while not os.path.exists(path) or os.path.exists(path + ".crdownload"):
        if time.monotonic() > end:
            raise TimeoutError(path)
        tab.value("0")
        time.sleep(0.02)
    with open(path, "rb") as it:
        return it.read()


def check_listing(tab, checks, name, path):
    """What the page says of a fork is what the program prints."""
    info = tab.value("document.getElementById('info').textContent")
    state = checks.printed("check", "--why", path).partition("\t")[2].strip()
    listing = checks.printed("map", "--text", "--utf8", "--verbose", path).splitlines()
    head = next(n for n, it in enumerate(listing) if it.startswith("map "))
    checks.same(f"what {name} is", info.splitlines(), [state, *listing[:head]])
    rows = tab.value("[...document.querySelectorAll('#listing .row')].map(it => it.textContent)")
    checks.same(f"the listing of {name}", rows, listing[head + 1:])
    source = tab.value("[...document.querySelectorAll('#source .row')].map(it => it.textContent)")
    checks.same(f"the source of {name}", source, checks.printed("derez", "--utf8", path).removesuffix("\n").split("\n"))
    return len(rows)


def check_resources(tab, checks, name, path, count):
    """Each resource is chosen with the arrow keys: its bytes and its statement are those that the program prints."""
    tab.tab_to("listing")
    tab.key("Home")
    for n in range(count):
        if n:
            tab.key("ArrowDown")
        tab.settle()
        kind, number = tab.value(f"[forkHalf.rows[{n}].kind, forkHalf.rows[{n}].id]")
        words = [path, f"${kind:08x}", str(number)]
        wanted = subprocess.run([checks.program, "get", *words], stdout=subprocess.PIPE, cwd=EXAMPLES).stdout
        rows = tab.value("[...document.querySelectorAll('#bytes .row')].map(it => it.textContent.slice(8, 55))")
        checks.same(f"the bytes of resource {n} of {name}", bytes.fromhex("".join(rows).replace(" ", "")), wanted)
        statement = tab.value("document.getElementById('statement').value")
        checks.same(f"the statement of resource {n} of {name}", statement, checks.printed("show", "--utf8", *words))


def check_fork(tab, checks, folder, path, change):
    """A file is dropped, looked at, changed and saved."""
    name = os.path.basename(path)
    tab.drop(path)
    tab.until(f"document.getElementById('file-name').textContent === {json.dumps(name)}")
    tab.settle()
    check_resources(tab, checks, name, path, check_listing(tab, checks, name, path))
    number, old, new = change
    tab.tab_to("listing")
    tab.key("Home")
    tab.key("ArrowDown", number)
    tab.settle()
    tab.tab_to("statement")
    statement = tab.value("document.getElementById('statement').value")
    at = statement.index(old)
    tab.value(f"document.getElementById('statement').setSelectionRange({at}, {at + len(old)})")
    tab.type(new)
    kind, resource = tab.value(f"[forkHalf.rows[{number}].kind, forkHalf.rows[{number}].id]")
    tab.tab_to("set")
    tab.key("Enter")
    tab.settle()
    checks.same(f"{name} is set", tab.value("document.getElementById('statement-told').textContent"), "It is set. Save the file to keep it.")
    tab.tab_to("save")
    tab.key("Enter")
    with open(f"{folder}/statement.r", "w", encoding="utf-8") as it:
        it.write(statement.replace(old, new, 1))
    made = f"{folder}/set.{name}"
    checks.printed("set", "--rez", path, f"${kind:08x}", str(resource), f"{folder}/statement.r", made)
    with open(made, "rb") as it:
        checks.same(f"{name} as it is saved", downloaded(tab, folder, name), it.read())


def apple_single(fork):
    """An AppleSingle file with a fork alone."""
    return struct.pack(">II16xHIII", 0x00051600, 0x00020000, 1, 2, 38, len(fork)) + fork


def check_forks(tab, checks, folder):
    """Forks alone, in MacBinary and in AppleSingle."""
    tab.browser.call("Browser.setDownloadBehavior", behavior="allow", downloadPath=f"{folder}/saved")
    with open(f"{EXAMPLES}/Document.rsrc", "rb") as it:
        single = apple_single(it.read())
    with open(f"{folder}/Single", "wb") as it:
        it.write(single)
    check_fork(tab, checks, folder, f"{EXAMPLES}/Document.rsrc", (0, "Hello", "Good morning"))
    check_fork(tab, checks, folder, f"{EXAMPLES}/Note.bin", (0, '"', '"N.B. '))
    check_fork(tab, checks, folder, f"{EXAMPLES}/OtherForm.rsrc", (1, "Goodbye", "Adieu, \\0x8e"))
    check_fork(tab, checks, folder, f"{folder}/Single", (2, "stale", "stale, which is seen late"))
    tab.tab_to("statement")
    tab.key("End", modifiers=2)
    tab.type("resource")
    tab.settle()
    checks.holds("a faulty statement has words", tab.value("document.getElementById('statement-told').textContent"))


def check_link(tab, checks):
    """A link is made, and followed in another tab."""
    tab.choose("example", "growing.script")
    tab.tab_to("link")
    tab.key("Enter")
    tab.until("location.hash.includes('script=')")
    other = Tab(tab.browser, tab.value("location.href"))
    for it in ("script", "size", "line"):
        code = f"document.getElementById('{it}').value"
        checks.same(f"the link's {it}", other.value(code), tab.value(code))
    tab.browser.call("Target.closeTarget", targetId=other.target)


def check_trap(tab, checks):
    """The module traps, and the page goes on with a fresh instance."""
    tab.choose("example", "first.script")
    wanted = tab.value(ROWS)
    tab.value("try { instance.exports.macmem_fork_check(1n << 46n, 9n, 0n, 0n, 0n) } catch {}", tab.worker())
    tab.tab_to("line")
    tab.key("Home")
    tab.settle()
    checks.holds("the page says that the module stopped", "The module stopped" in tab.value("document.getElementById('said').textContent"))
    tab.choose("example", "moving.script")
    tab.choose("example", "first.script")
    checks.same("the module runs again", [tab.value(ROWS), tab.value("document.getElementById('said').textContent")], [wanted, ""])


def large_script():
    """A script of 100,000 lines: blocks come and go over 1,009 names."""
    lines, there = [], set()
    for n in range(LARGE):
        name = (n * 7919) % 1009
        lines.append(f"DisposeHandle h{name}" if name in there else f"NewHandle h{name} {n * 31 % 400}")
        there ^= {name}
    return "".join(f"{line}\n" for line in lines)


# Keeps the times from each key to the frame that is drawn after it.
TIMED = """window.times = []; addEventListener('keydown', () => { const began = performance.now();
    requestAnimationFrame(() => setTimeout(() => times.push(performance.now() - began))); }, true)"""


def check_large(tab, checks, folder):
    """100,000 lines are dropped, and replayed while keys are pressed: no key waits long."""
    path = f"{folder}/large.script"
    with open(path, "w", encoding="utf-8") as it:
        it.write(large_script())
    tab.tab_to("size")
    tab.key("Home")
    tab.key("End", modifiers=8)
    tab.type("1048576")
    tab.settle()
    tab.drop(path)
    tab.until(f"scriptHalf.count === {LARGE}")
    tab.until("!document.getElementById('stop').hidden")
    tab.click("stop")
    checks.same("a replay that was stopped", tab.value("document.getElementById('said').textContent"), "It was stopped. What is changed next is replayed.")
    tab.tab_to("size")
    tab.key("ArrowUp")
    tab.key("ArrowDown")
    tab.settle()
    checks.same("the end of 100,000 lines", tab.value("scriptHalf.end"), checks.printed("script", "1048576", path).splitlines()[-1])
    print(f"100,000 lines are replayed in {tab.value('scriptHalf.took'):.0f} ms, and the zone is shown in {tab.value('scriptHalf.shown.took'):.0f} ms")
    tab.value(TIMED)
    for focus, key in (("line", "ArrowLeft"), ("script", "ArrowUp"), ("script", "Enter")):
        tab.tab_to(focus)
        tab.value("times.length = 0")
        for n in range(8):
            tab.key(key)
            tab.until(f"times.length > {n}")
        longest = tab.value("Math.max(...times)")
        print(f"the longest of 8 times for {key} in '{focus}': {longest:.0f} ms")
        checks.holds(f"{key} in '{focus}' takes less than {LONGEST_KEY} ms", longest < LONGEST_KEY)
    tab.settle()


def check_requests(browser, checks, address):
    """Nothing but the page's own files was asked for, and nothing was reported as wrong."""
    asked = {it["params"]["request"]["url"].partition("#")[0] for it in browser.events if it["method"] == "Network.requestWillBeSent"}
    foreign = sorted(it for it in asked if not it.startswith((address, "blob:", "data:")))
    checks.same("requests to others", foreign, [])
    wrong = [it["params"] for it in browser.events if it["method"] in ("Runtime.exceptionThrown", "Log.entryAdded")]
    checks.same("what the browser reports", [json.dumps(it)[:300] for it in wrong], [])


def draw_pictures(tab, folder):
    """Draws the page, narrow and wide, light and dark."""
    os.makedirs(folder, exist_ok=True)
    tab.choose("example", "kept_pointer.script")
    tab.tab_to("line")
    tab.key("Home")
    tab.key("ArrowRight", 8)
    tab.choose("fork-example", "Document.rsrc")
    for width in (390, 1600):
        for scheme in ("light", "dark"):
            tab.size(width, 900, scheme)
            tab.settle()
            time.sleep(0.3)
            tab.draw(f"{folder}/{width}_{scheme}.png")


@contextlib.contextmanager
def served():
    """The page by HTTP, from this machine to itself."""
    class Quiet(http.server.SimpleHTTPRequestHandler):
        def log_message(self, *_):
            pass

    server = http.server.ThreadingHTTPServer(("127.0.0.1", 0), functools.partial(Quiet, directory=PAGE))
    threading.Thread(target=server.serve_forever, daemon=True).start()
    yield f"http://127.0.0.1:{server.server_address[1]}/"
    server.shutdown()


def check_served(browser, checks, folder):
    """The page by HTTP has its module from a file."""
    with served() as address:
        tab = Tab(browser, address + "index.html")
        checks.holds("the module is read from its file", any(it["method"] == "Network.requestWillBeSent" and it["params"]["request"]["url"].endswith(".wasm")
                                                             for it in browser.events))
        check_example(tab, checks, "kept_pointer.script")
        check_requests(browser, checks, address)
    browser.events.clear()


def check_all(browser, checks, folder, pictures):
    check_served(browser, checks, folder)
    tab = Tab(browser, f"file://{PAGE}/index.html")
    check_examples(tab, checks)
    check_typing(tab, checks, folder)
    check_keyboard(tab, checks)
    check_partition(tab, checks)
    check_slider(tab, checks)
    check_forks(tab, checks, folder)
    check_link(tab, checks)
    check_large(tab, checks, folder)
    check_trap(tab, checks)
    check_requests(browser, checks, f"file://{PAGE}/")
    if pictures:
        draw_pictures(tab, pictures)


def main(words):
    pictures = None
    if words[:1] == ["--pictures"]:
        pictures, words = os.path.abspath(words[1]), words[2:]
    if len(words) != 1:
        sys.exit(__doc__.strip())
    path = shutil.which("chromium")
    if not path:
        print("skipped: there is no chromium on the path")
        return 0
    checks = Checks(os.path.abspath(words[0]))
    with tempfile.TemporaryDirectory(prefix="macmem-page-test-") as folder:
        browser = Browser(path, folder)
        try:
            check_all(browser, checks, folder, pictures)
        finally:
            browser.close()
    print(f"{checks.passed} passed, {checks.failed} failed")
    return 1 if checks.failed else 0


if __name__ == "__main__":
    sys.exit(main(sys.argv[1:]))
