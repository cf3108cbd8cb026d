"""The parts of checks/tools that look at many alarms at once, and at the pictures of the pages: lists, the console over HTTP, and in a browser as wide as a phone."""
import json
import pathlib
import re
import struct
import time

import browsing
import serving
import tooling
from tooling import TOP, Relay, Running, lines_of_json, until
from tools_console import asked
from tools_parts import PATIENT, Plant

# How many alarms come at once, of at most 2,048 objects of a site.
ALARMS = [400]
STEP = 50
# Which elements of a page reach beyond its right edge.
WIDER = "[...document.querySelectorAll('body, body *')].filter((it) => it.getBoundingClientRect().right > 420).map((it) => `${it.tagName} ${it.className} ${it.id}`).join('; ')"


def flood(count):
    """The sections of a site whose tanks are all in alarm as soon as it runs, but for the first one; every third one asks for no acknowledgement."""
    rows = [serving.tank(number, 8 if number % 3 == 0 else 7, name=f"Tank {number}", value=50 if number == 1 else 90) for number in range(1, count + 2)]
    return [serving.device(name="Tank farm"), serving.of_class(7), serving.of_class(8, acknowledged=False), *rows, ("[[log]]", {"instance": 1, "name": "History", "size": 100, "classes": [7, 8]})]


class Farm(Plant):
    """The site of `flood` with its journal, its server and a relay before it."""

    def __init__(self, program, folder, count):
        self.program, self.folder, self.recipient, self.port = program, folder, serving.free_port(), serving.free_port()
        self.site, self.journal = serving.blank(program, folder, *flood(count))
        self.server, self.relay = None, Relay(self.port)


def try_flood(told, program, folder):
    """Hundreds of alarms: a list, by a filter; the console's page, whose answers stay small; and the page in a browser as wide as a phone."""
    count = ALARMS[0]
    with Farm(program, folder, count) as it:
        status, output, said = tooling.run("alarm-client", "list", "--json", "--text", "tank 2", "--class", "7", "--to", it.relay.to(), *PATIENT)
        wanted = {f"Tank {number}" for number in range(2, count + 2) if str(number).startswith("2") and number % 3}
        told.want(status == 0 and {row["name"] for row in lines_of_json(output)} == wanted, f"a list of {count} alarms: {status}, {len(output.splitlines())} rows, {said}")
        port = tooling.free_port_of_tcp()
        words = ["--web", f"127.0.0.1:{port}", "--by", "Ann", "--audit", folder / "record", "--shelf", folder / "shelf", "--to", it.relay.to(), *PATIENT]
        with Running(folder, "alarm-console", *words, given="") as console:
            told.want(until(lambda: f"http://127.0.0.1:{port}/" in console.output()), f"the console told {console.errors()}")
            told.want(until(lambda: state_of(port)["counts"] == [count, count - count_of_calm(count)]), f"the console counts {state_of(port)['counts']}")
            see_answers(told, it, port, count)
            if browsing.found():
                see_phone(told, it, port, count)
            else:
                told.skip("chromium isn't installed: no page of many alarms is shown")
            rows = lines_of_json((folder / "record").read_text(encoding="utf-8"))
            told.same("the record of the console", [(row["tool"], row["by"], row["address"], row["object"], row["answer"]) for row in rows], [("alarm-console", "Bo", "127.0.0.1", "integer-value:2", "taken")])
        return it.relay.datagrams


def count_of_calm(count):
    """How many of the alarms ask for no acknowledgement."""
    return sum(number % 3 == 0 for number in range(2, count + 2))


def state_of(port, query="", **heads):
    return json.loads(asked(port, "GET", f"/alarms.json?{query}", **heads)[2])


def see_answers(told, it, port, count):
    """What is asked for is answered, and no more of it than a page shows; where nothing has changed the answer is a line."""
    state = state_of(port)
    told.want(len(state["rows"]) == min(STEP, count) and len(json.dumps(state)) < 150_000, f"{len(state['rows'])} rows in {len(json.dumps(state))} octets")
    again = asked(port, "GET", f"/alarms.json?have={state['have']}")[2]
    told.want(json.loads(again)["same"] and len(again) < 300, f"the same is answered by {len(again)} octets")
    two = {f"integer-value:{number}" for number in range(2, count + 2) if "TANK 2" in f"TANK {number}"}
    wanted = [
        ("text=TANK+2&show=5000", two), ("state=low-limit", set()), ("class=8&show=5000", {f"integer-value:{number}" for number in range(2, count + 2) if number % 3 == 0}),
        ("priority=99", set()), ("priority=x&state=y&class=z&show=-1", None), (f"looked={state['run']}-{state['last']}&new=1", set()), ("looked=other-99999&new=1&show=100", None),
    ]
    for query, objects in wanted:
        rows = state_of(port, query)["rows"]
        told.want(objects is None and rows or {of for of, _ in rows} == objects, f"{query}: {len(rows)} rows, {sorted(of for of, _ in rows)[:4]}")
    _, _, page = asked(port, "GET", "/?text=tank+2&language=de", **{"Accept-Language": "en"})
    told.want('lang="de"' in page and "Quittieren" in page and "Nichts von dem" in page and 'value="tank 2"' in page and " open>" in page, "the page in German isn't")
    token = re.search(r'data-token="([^"]+)"', page)[1]
    status, heads, _ = asked(port, "POST", "/acknowledge", {"object": "integer-value:2", "token": token, "by": "Bo", "back": "text=tank+2"}, **{"Accept-Language": "de"})
    told.want(status == 303 and heads["Location"].startswith("/?text=tank+2&said=") and "quittiert" in heads["Location"], f"a form leads to {heads['Location']}")
    told.want("none asked for" in state_of(port, "class=8")["rows"][0][1], "the page doesn't say where nobody is asked to acknowledge")


def see_phone(told, it, port, count):
    """The page as wide as a phone: no wider, no longer than its step, by filters, with a mark and a tone for what is new, and in the browser's language."""
    browser = browsing.Browser(it.folder)
    try:
        browser.open("about:blank")
        browser.resize(420, 800, phone=True)
        browser.do("Page.navigate", url=f"http://127.0.0.1:{port}/")
        rows = "document.querySelectorAll('tbody tr').length"
        told.want(browser.holds(f"{rows} === {min(STEP, count)}"), f"a phone shows {browser.value(rows)} rows")
        fits = browser.holds("document.readyState === 'complete' && document.documentElement.scrollWidth === 420")
        told.want(fits and browser.value(WIDER) == "", f"the page is {browser.value('document.documentElement.scrollWidth')} wide, and wider are {browser.value(WIDER)}")
        told.want(browser.holds(f"document.getElementById('active').textContent === '{count}'"), "the phone's count is another one")
        browser.press("#more")
        told.want(browser.holds(f"{rows} === {min(2 * STEP, count)}"), f"more are {browser.value(rows)} rows")
        browser.press("#choose summary")
        browser.press("#filter input[name=text]")
        browser.do("Input.insertText", text=f"tank {count}")
        told.want(browser.holds(f"{rows} === 1"), f"a search shows {browser.value(rows)} rows")
        told.same("the address has the search", browser.value("location.search"), f"?text=tank+{count}")
        browser.value("(() => { const it = document.querySelector('#filter input[name=text]'); it.value = ''; it.dispatchEvent(new Event('input', {bubbles: true})); })()")
        browser.press("#filter input[name=new]")
        browser.press("#looked")
        told.want(browser.holds(f"{rows} === 0"), f"since it was looked at there are {browser.value(rows)} rows")
        browser.press("#sound")
        time.sleep(0.1)
        it.write("integer-value:1", "90")
        told.want(browser.holds(f"{rows} === 1 && document.querySelector('tbody mark').textContent === 'new'"), "a new alarm isn't marked")
        told.want(browser.holds("document.body.dataset.rang === '1'"), f"a new alarm rings {browser.value('document.body.dataset.rang')}")
        browser.value("document.querySelector('.frequent').open = true")
        told.want(browser.holds("document.querySelectorAll('#frequent li').length === 10"), f"the most frequent are {browser.value('document.getElementById(`frequent`).textContent')}")
        told.same("how wide it is with all that, and what is wider", (browser.value("document.documentElement.scrollWidth"), browser.value(WIDER)), (420, ""))
        browser.do("Network.enable")
        browser.do("Network.setExtraHTTPHeaders", headers={"Accept-Language": "de-DE,de;q=0.9"})
        browser.do("Page.navigate", url=f"http://127.0.0.1:{port}/")
        told.want(browser.holds("document.documentElement.lang === 'de' && document.querySelector('tbody button')?.textContent === 'Quittieren'"), "the browser's language isn't taken")
    finally:
        browser.close()


# Pictures.


def size_of(path):
    """The width and the height of a PNG."""
    head = path.read_bytes()[:24]
    return struct.unpack(">II", head[16:24]) if head.startswith(b"\x89PNG\r\n\x1a\n") else None


def try_pictures(told, *_):
    """The pictures that the pages show are there, as wide as they are to be, and are shown."""
    page = (TOP / "docs" / "TOOLS.md").read_text(encoding="utf-8")
    for name, width in [("console-wide.png", 1280), ("console-phone.png", 420)]:
        path = pathlib.Path(TOP / "docs" / "pictures" / name)
        told.want(path.exists() and size_of(path)[0] == width, f"docs/pictures/{name} isn't {width} wide")
        told.want(f"pictures/{name}" in page, f"docs/TOOLS.md doesn't show {name}")
