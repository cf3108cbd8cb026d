"""The parts of checks/tools that look at the console: in a terminal, over HTTP, in a browser, and its commands; and at the manual pages."""
import http.client
import json
import os
import pathlib
import pty
import re
import select
import shutil
import signal
import subprocess
import sys
import time
import urllib.parse

import browsing
import tooling
from tooling import NAMES, TOOLS, TOP, Running, run, until
from tools_parts import Plant

SECONDS = 600
# A screen of 30 rows and 110 columns.
SIZE = {"LINES": "30", "COLUMNS": "110", "TERM": "xterm"}


class Terminal:
    """A tool at a terminal of its own. What it draws is kept as it comes."""

    def __init__(self, name, *words):
        self.pid, self.end = pty.fork()
        if self.pid == 0:
            signal.alarm(SECONDS)
            os.execve(sys.executable, tooling.words_of(name, *words), tooling.environment(**SIZE))
        self.drawn = b""

    def shows(self, text, seconds=tooling.WAIT):
        """Waits until a text was drawn."""
        until_then = time.monotonic() + seconds
        while text not in self.drawn and time.monotonic() < until_then:
            ready, _, _ = select.select([self.end], [], [], 0.1)
            try:
                self.drawn += os.read(self.end, 65536) if ready else b""
            except OSError:
                break
        return text in self.drawn

    def press(self, keys):
        self.drawn = b""
        os.write(self.end, keys)

    def ended(self):
        self.shows(b"\0nothing", 0.5)
        end = time.monotonic() + 10
        while time.monotonic() < end:
            pid, status = os.waitpid(self.pid, os.WNOHANG)
            if pid:
                os.close(self.end)
                return os.waitstatus_to_exitcode(status)
            self.shows(b"\0nothing", 0.1)
        os.kill(self.pid, signal.SIGKILL)
        os.waitpid(self.pid, 0)
        raise ValueError("the console in a terminal doesn't end")


def unacknowledged(it):
    return {row["object"]: row["unacknowledged"] for row in it.rows()}


def try_terminal(told, program, folder):
    """The page shows the alarms by the device's clock, acknowledges the chosen one by a key, says when nobody answers, and goes on behind a kill."""
    with Plant(program, folder, zone_minutes=120) as it:
        it.write("integer-value:1", "90")
        it.write("binary-value:1", "active")
        page = Terminal("alarm-console", "--to", it.relay.to(), "--every", "0.3", "--wait", "0.3", "--retries", "1")
        told.want(page.shows(b"Freezer 1") and page.shows(b"2 in alarm, 2 to be acknowledged"), f"the page is {page.drawn!r}")
        told.want(page.shows(b" s ago"), f"the page doesn't say how long ago it asked: {page.drawn!r}")
        see_clock(told, it, page.drawn.decode("utf-8", "replace"))
        page.press(b"\x1bOB")
        time.sleep(0.4)
        page.press(b"a")
        told.want(page.shows(b'"Freezer 1": to-offnormal acknowledged'), f"behind its key the page is {page.drawn!r}")
        told.same("what is acknowledged by a key", unacknowledged(it), {"binary-value:1": ["to-offnormal"], "integer-value:1": []})
        it.kill()
        told.want(page.shows(b"NO ANSWER"), f"without a server the page is {page.drawn!r}")
        it.start()
        page.press(b"k")
        time.sleep(1)
        it.write("integer-value:2", "90")
        told.want(page.shows(b"Freezer 2"), f"behind a kill the page is {page.drawn!r}")
        page.press(b"q")
        told.same("the end of the page", page.ended(), 0)
        told.same("without a terminal", run("alarm-console", "--to", it.relay.to())[0], 1)
        with Running(folder, "alarm-console", "--json", "--to", it.relay.to(), "--every", "0.2", given="") as lines:
            until(lambda: len(lines.output().splitlines()) >= 2)
            told.same("a line of JSON", sorted(row["object"] for row in json.loads(lines.output().splitlines()[1])["alarms"]), ["binary-value:1", "integer-value:1", "integer-value:2"])
        return it.relay.datagrams


def see_clock(told, it, text):
    """Each time of the day on a page is that of a stamp of the device, whose clock is two hours ahead of this machine's."""
    stamps = {stamp[11:19] for row in it.rows() for stamp in row["times"].values() if stamp}
    shown = set(re.findall(r"\b\d\d:\d\d:\d\d\b", text))
    told.want(shown and shown <= stamps, f"the page shows {shown}, and the device's stamps are {stamps}")


# Over HTTP.


def asked(port, method, path, fields=None, **heads):
    """The status, the heads and the text of an answer."""
    connection = http.client.HTTPConnection("127.0.0.1", port, timeout=10)
    body = None if fields is None else urllib.parse.urlencode(fields)
    if body is not None:
        heads.setdefault("Content-Type", "application/x-www-form-urlencoded")
    connection.request(method, path, body, heads)
    answer = connection.getresponse()
    text = answer.read().decode()
    connection.close()
    return answer.status, answer.headers, text


def try_web(told, program, folder):
    with Plant(program, folder, zone_minutes=120) as it:
        it.write("integer-value:1", "90")
        it.write("binary-value:1", "active")
        port = tooling.free_port_of_tcp()
        with Running(folder, "alarm-console", "--web", f"127.0.0.1:{port}", "--by", "Ann <b>", "--to", it.relay.to(), "--every", "0.3", given="") as console:
            told.want(until(lambda: f"http://127.0.0.1:{port}/" in console.output()), f"the console told {console.output()!r}, {console.errors()!r}")
            see_http(told, it, port)
            see_browser(told, it, port, folder)
        return it.relay.datagrams


def see_http(told, it, port):
    status, _, said = run("alarm-console", "--web", "80")
    told.want(status == 2 and "ADDRESS:PORT is wanted" in said, f"a port without an address: {status}, {said!r}")
    until(lambda: "Freezer 1" in asked(port, "GET", "/")[2])
    status, heads, text = asked(port, "GET", "/")
    told.want(status == 200 and "Freezer 1" in text and "Ann &lt;b&gt;" in text and "Ann <b>" not in text, f"the page is {text}")
    told.want(" s ago" in text, f"the page doesn't say how long ago it asked: {text}")
    see_clock(told, it, text)
    told.want("default-src 'none'" in heads["Content-Security-Policy"] and heads["Cache-Control"] == "no-store", f"its heads are {heads}")
    token = re.search(r'data-token="([^"]+)"', text)[1]
    for host, wanted in [("plant.example", 403), (f"localhost:{port}", 200), ("[::1]", 200)]:
        told.same(f"the page by the name {host}", asked(port, "GET", "/", Host=host)[0], wanted)
    told.same("what isn't there", asked(port, "GET", "/etc")[0], 404)
    told.same("without its token", asked(port, "POST", "/acknowledge", {"object": "integer-value:1"})[0], 403)
    told.same("too much", asked(port, "POST", "/acknowledge", {"object": "x" * 5000, "token": token})[0], 413)
    told.same("nothing was acknowledged by these", unacknowledged(it), {"binary-value:1": ["to-offnormal"], "integer-value:1": ["to-offnormal"]})
    status, heads, _ = asked(port, "POST", "/acknowledge", {"object": "binary-value:1", "token": token, "by": "Bo"})
    told.want(status == 303 and "acknowledged" in urllib.parse.unquote(heads["Location"]), f"a form without a script is answered {status}, {heads['Location']}")
    told.same("acknowledged by a form", unacknowledged(it)["binary-value:1"], [])
    state = json.loads(asked(port, "GET", "/alarms.json")[2])
    told.same("as JSON", [(row["object"], row["unacknowledged"]) for row in state["alarms"]], [("integer-value:1", ["to-offnormal"]), ("binary-value:1", [])])


# In a browser.


def see_browser(told, it, port, folder):
    """Chromium shows the page, its button acknowledges by the keyboard alone, and a new alarm comes without loading anew."""
    if not browsing.found():
        told.skip("chromium isn't installed: the page isn't shown in a browser")
        return
    browser = browsing.Browser(folder)
    try:
        browser.open(f"http://127.0.0.1:{port}/")
        told.want(until(lambda: browser.value("document.querySelectorAll('tbody tr').length") == 2), "the browser doesn't show two alarms")
        picture = browser.picture()
        told.want(picture.startswith(b"\x89PNG") and len(picture) > 5000, f"a picture of {len(picture)} octets")
        if "KEEP_PICTURES" in os.environ:
            pathlib.Path(os.environ["KEEP_PICTURES"], "console.png").write_bytes(picture)
        told.same("the count", browser.value("document.getElementById('waiting').textContent"), "1")
        browser.value("document.querySelector('tbody button').focus()")
        browser.key("Enter", 13)
        told.want(until(lambda: unacknowledged(it)["integer-value:1"] == []), "the button acknowledges nothing")
        told.want(until(lambda: "Freezer 1" in (browser.value("document.getElementById('said').textContent") or "")), "the page doesn't say what was acknowledged")
        told.want(until(lambda: browser.value("document.querySelectorAll('tbody button').length") == 0), "the button stays")
        it.write("integer-value:2", "90")
        told.want(until(lambda: browser.value("document.querySelectorAll('tbody tr').length") == 3), "a new alarm isn't shown")
        told.same("the first row", browser.value("document.querySelector('tbody tr strong').textContent"), "Freezer 2")
        told.same("what the page's policy refuses", browser.value("performance.getEntriesByType('resource').every((it) => it.responseStatus === 200)"), True)
        it.kill()
        told.want(until(lambda: browser.value("!document.getElementById('error').hidden")), "the page doesn't say that nobody answers")
    finally:
        browser.close()


# Commands, and manual pages.


def try_escalation(told, program, folder):
    """A command is run once for each transition that nobody acknowledges, told by its environment; one that fails three times; none for what was acknowledged."""
    with Plant(program, folder) as it:
        it.write("integer-value:1", "90")
        ran, failed = folder / "ran", folder / "failed"
        command = f'echo "$ALARM_OBJECT|$ALARM_NAME|$ALARM_STATE|$ALARM_TRANSITION|$ALARM_PRIORITY" >> {ran}'
        words = ["--no-page", "--every", "0.2", "--site", it.site, "--to", it.relay.to()]
        for minutes, step in [("0", command), ("0", f"echo >> {failed}; false"), ("60", f"echo late >> {ran}")]:
            words += ["--on-unacknowledged", minutes, step]
        with Running(folder, "alarm-console", *words, given="") as console:
            told.want(until(lambda: failed.exists() and failed.read_text().count("\n") == 3), f"a command that fails was tried otherwise: {console.errors()}")
            it.write("binary-value:1", "active")
            wanted = ["integer-value:1|Freezer 1|high-limit|to-offnormal|100", "binary-value:1|Door|offnormal|to-offnormal|100"]
            told.want(until(lambda: ran.exists() and ran.read_text().splitlines() == wanted), f"commands ran: {ran.read_text() if ran.exists() else None}, {console.errors()}")
            it.client("ack", "--all")
            it.kill()
            time.sleep(0.5)
            it.start()
            time.sleep(1)
            told.same("commands behind an acknowledgement and a kill", ran.read_text().splitlines(), wanted)
        return it.relay.datagrams


def try_manuals(told, *_):
    """Each tool has its help and its manual page, which is made of the same words and which the reader of manual pages takes."""
    made = subprocess.run([sys.executable, str(TOOLS / "man" / "make"), "--check"], capture_output=True, text=True, timeout=60, check=False)
    told.want(made.returncode == 0, f"tools/man/make --check: {made.stdout}{made.stderr}")
    page = (TOP / "docs" / "TOOLS.md").read_text(encoding="utf-8")
    for name in NAMES:
        status, output, _ = run(name, "--help")
        told.want(status == 0 and "exit statuses:" in output and "examples:" in output, f"{name} --help ends with {status}")
        told.want(f"\n## {name}" in page, f"docs/TOOLS.md doesn't tell of {name}")
        told.same(f"{name} with a word that it doesn't know", run(name, "--nonsense")[0], 2)
    if not shutil.which("mandoc"):
        told.skip("mandoc isn't installed: manual pages aren't read")
        return
    read = subprocess.run(["mandoc", "-T", "lint", "-W", "warning", *sorted(map(str, (TOOLS / "man").glob("*.1")))], capture_output=True, text=True, timeout=60, check=False)
    told.want(read.returncode == 0, f"mandoc says {read.stdout}{read.stderr}")


def try_nmap(told, program, folder):
    """nmap's script finds the server, and is answered; what it then says is told in docs/TOOLS.md."""
    if not shutil.which("nmap") or os.geteuid() != 0:
        told.skip("nmap isn't installed, or isn't run by root: bacnet-info isn't tried")
        return None
    with Plant(program, folder) as it:
        ran = subprocess.run(["nmap", "-n", "-sU", "-p", str(it.port), "--script", "+bacnet-info", "127.0.0.1"], capture_output=True, text=True, timeout=60, check=False)
        told.want("udp open  bacnet" in ran.stdout and "bacnet-info" in ran.stdout, f"nmap says {ran.stdout}{ran.stderr}")
    return None
