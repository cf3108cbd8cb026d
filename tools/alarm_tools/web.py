"""The console's page in a browser: one page over http.server, with the active alarms and a button to acknowledge each."""
import hashlib
import hmac
import html
import http.server
import ipaddress
import json
import secrets
import threading
import time
import urllib.parse

from . import alarms, filters, language, measure, names, shelf, web_proxy, words
from .language import say
from .web_page import PAGE, SCRIPT, STYLE

POLICY = "default-src 'none'; style-src 'self'; script-src 'self'; connect-src 'self'; img-src data:; form-action 'self'; base-uri 'none'; frame-ancestors 'none'"
HEADS = {"Cache-Control": "no-store", "Content-Security-Policy": POLICY, "X-Content-Type-Options": "nosniff", "Referrer-Policy": "no-referrer"}
# What stands for each state beside its name, so that a colour is never the only sign.
SIGNS = {"high-limit": "\u25b2", "low-limit": "\u25bc", "offnormal": "\u25a0", "fault": "\u2715", "normal": "\u2713"}
MOST_OCTETS = 4096
# How many rows a page begins with and adds, and has at most.
STEP, MOST_ROWS = 50, 5000
NOT_ASKED = "The log isn't asked yet."


def is_allowed(host, allowed):
    """Whether a Host is one that this server goes by: an address, localhost, or a name that was given. Another one may be a site that makes a browser ask here."""
    name = host.rpartition(":")[0] if host.rpartition(":")[2].isdigit() and not host.endswith("]") else host
    try:
        ipaddress.ip_address(name.strip("[]"))
        return True
    except ValueError:
        return name == "localhost" or name in allowed


def rows_of(shown, looked):
    """What the page shows of each alarm."""
    for it in shown:
        yield it | {"sign": SIGNS[it["state"]], "since": (it["since"] or say("never"))[:19], "waits": bool(it["unacknowledged"]), "new": it.get("number", 0) > looked > 0}


def cells_of(it, token, back):
    """The cells of a row, each with the label that it has on a narrow screen, or none."""
    e, name = html.escape, it["name"] if it["name"] and it["name"] != it["object"] else ""
    message = f'<small class="message">{e(it["text"])}</small>' if it["text"] else ""
    limit = f'<small class="limit">{e(say("limit {}", it["limit_text"]))}</small>' if it["limit_text"] else ""
    new = f'<mark>{e(say("new"))}</mark>' if it["new"] else ""
    state = say(it["state"] if it["active"] else "normal again")
    yield "", f'<span class="state"><span aria-hidden="true">{it["sign"]}</span> {e(state)}</span>{new}'
    yield "", f'<strong>{e(measure.bare(name) or it["object"])}</strong>' + (f'<small>{e(it["object"])}</small>' if name else "") + message
    yield "", (e(it["value_text"]) + limit) if it["value_text"] else ""
    yield "", f'<time>{e(it["since"])}</time>'
    yield say("To acknowledge"), e(", ".join(map(say, it["unacknowledged"]))) or "&ndash;"
    yield say("Priority"), str(it["priority"])
    yield "", button_html(it, token, back)


def row_html(it, token, back=""):
    """A row of the table."""
    kind = "waits" if it["active"] and it["waits"] else "seen" if it["active"] else "over"
    cells = [f'<td data-label="{html.escape(label)}">{cell}</td>' if label else f"<td>{cell}</td>" for label, cell in cells_of(it, token, back)]
    return f'<tr class="{kind}" data-object="{html.escape(it["object"])}">' + "".join(cells) + "</tr>"


def button_html(it, token, back):
    if not it["waits"]:
        return f'<span class="quiet">{html.escape(alarms.acknowledgement_text(it))}</span>'
    e = html.escape
    return (
        f'<form method="post" action="/acknowledge"><input type="hidden" name="token" value="{e(token)}">'
        f'<input type="hidden" name="object" value="{e(it["object"])}"><input type="hidden" name="back" value="{e(back)}">'
        f'<button type="submit" aria-label="{e(say("Acknowledge {}", it["name"] or it["object"]))}">{e(say("Acknowledge"))}</button></form>'
    )


def age_of(state):
    """How many seconds ago the server was asked, or None before the first answer."""
    return None if state["as_of"] is None else max(0, round(time.time() - state["as_of"]))


def error_text(state):
    """What is said where nobody answers: nothing is known then, or what was known before."""
    if not state["error"]:
        return ""
    if not state["as_of"]:
        return say("No answer yet, so nothing is known. {}", state["error"])
    return say("No answer: what is shown was told {} s ago. {}", age_of(state), state["error"])


def counts(state):
    """How many alarms there are, and how many are to be acknowledged; before the first answer a dash for either."""
    if not state["as_of"]:
        return "\u2013", "\u2013"
    return sum(it["active"] for it in state["alarms"]), sum(bool(it["unacknowledged"]) for it in state["alarms"])


class Asked:
    """What a browser asks to see: a filter, how many rows, and up to which number somebody has looked at them."""

    def __init__(self, query, state):
        one = {key: it[0] for key, it in urllib.parse.parse_qs(query).items()}
        self.one, self.said, self.have = one, one.get("said", ""), one.get("have", "")
        self.show = min(max(int(one["show"]), STEP), MOST_ROWS) if one.get("show", "").isdecimal() and len(one["show"]) < 7 else STEP
        run, _, number = one.get("looked", "").partition("-")
        self.looked = int(number) if run == state["run"] and number.isdecimal() else 0
        self.new = "new" in one
        try:
            self.filter = filters.made([one["class"]] if one.get("class") else [], one.get("priority"), [one["state"]] if one.get("state") else [], one.get("text", ""), "waiting" in one)
        except ValueError:
            self.filter = filters.Filter()

    def rows(self, state):
        """The alarms that are asked for."""
        return [it for it in filters.passed(self.filter, state["alarms"]) if not self.new or it.get("number", 0) > self.looked]

    def query(self, **changed):
        """The same in the words of an address, with something else changed."""
        kept = {key: self.one[key] for key in ("text", "state", "class", "priority", "waiting", "new", "looked", "show", "language") if self.one.get(key)}
        return urllib.parse.urlencode(kept | changed)


def options(rows, chosen):
    """The choices of a list: values with their texts."""
    e = html.escape
    return "".join(f'<option value="{e(value)}"{" selected" if value == chosen else ""}>{e(text)}</option>' for value, text in [("", say("any")), *rows])


def class_rows(state):
    """The classes of what is in alarm, each with its name where it has one."""
    found = {it["class"]: it["class_name"] for it in state["alarms"] if it["class"] is not None}
    return [(str(number), f"{number} {name}" if name and name != f"notification-class:{number}" else str(number)) for number, name in sorted(found.items())]


def shelf_html(rows):
    """What is on the shelf."""
    if not rows:
        return ""
    e = html.escape
    lines = [f'<li><strong>{e(it.get("name") or it["object"])}</strong> {e(say("until {}, by {}", shelf.moment_text(it["until"]), it["by"]))}{e(": " + it["why"] if it.get("why") else "")}</li>' for it in rows]
    return f'<h2>{e(say("On the shelf"))}</h2><ul>{"".join(lines)}</ul>'


def frequent_html(most):
    """The objects that came to an alarm most often."""
    e = html.escape
    if most is None:
        return f'<p class="quiet">{e(say(NOT_ASKED))}</p>'
    rows, since = most
    if not rows:
        return f'<p class="quiet">{e(say("No log of this server has an alarm of the week."))}</p>'
    lines = [f'<li><strong>{e(measure.bare(it["name"]) or it["object"])}</strong> {e(say("{} ×, last {}", it["times"], it["last"][:19]))}</li>' for it in rows]
    note = f'<p class="quiet">{e(say("the logs tell of all since {}", since[:19]))}</p>' if since else ""
    return f"<ol>{''.join(lines)}</ol>{note}"


def shown_of(state, asked, token):
    """What a page shows of the alarms, by name: rows and all that changes with them."""
    found = asked.rows(state)
    back = asked.query()
    rows = [(it["object"], row_html(it, token, back)) for it in rows_of(found[: asked.show], asked.looked)]
    is_all = len(found) == len(state["alarms"])
    return {
        "device": state["device"], "rows": rows, "counts": counts(state), "more": len(found) > asked.show, "last": state["last"], "run": state["run"],
        "shown": say("{} of {} shown", len(rows), len(state["alarms"])) if len(rows) < len(state["alarms"]) else "",
        "empty": say("Nothing is in alarm, and nothing is to be acknowledged." if is_all else "Nothing of what is chosen."),
        "classes": options(class_rows(state), asked.one.get("class", "")), "shelf": shelf_html(state["shelf"]), "frequent": frequent_html(state["most"]),
        "rings": max((it.get("number", 0) for it in state["alarms"] if it["active"] and it["unacknowledged"]), default=0),
    }


# The words of the page, by their places in it.
TEXTS = {
    "t_asked": "asked", "t_in_alarm": "in alarm", "t_waiting": "to be acknowledged", "t_filter": "Search", "t_search": "Search", "t_state": "State", "t_class": "Class",
    "t_priority": "priority up to", "t_only_waiting": "to be acknowledged only", "t_new": "new since I looked", "t_show": "Show", "t_sound": "Sound",
    "t_looked": "I have looked", "t_object": "Object", "t_value": "Value", "t_since": "Since", "t_to_acknowledge": "To acknowledge", "t_prio": "Priority",
    "t_action": "Action", "t_more": "More", "t_frequent": "The ten most frequent of the week", "t_by": "Acknowledged by",
    "t_clocks": "Since: by the device's clock. Asked: by this console.",
}
SCRIPT_TEXTS = {
    "server": "Alarm server", "gone": "The console itself doesn't answer: what is shown is old.", "notYet": "not yet", "ago": "{} s ago",
    "unknown": "It isn't known whether it was acknowledged: the console doesn't answer.",
}


def page_of(state, asked, token, by):
    """The whole page."""
    e, shown, age = html.escape, shown_of(state, asked, token), age_of(state)
    active, waiting = shown["counts"]
    states = [(it, say(it)) for it in names.STATES.values()]
    return PAGE.format(
        **{key: e(say(text)) for key, text in TEXTS.items()}, language=language.current(), device=e(state["device"] or say("Alarm server")), where=e(state["where"]),
        rows="\n".join(row for _, row in shown["rows"]), active=active, waiting=waiting, age="" if age is None else age, run=e(state["run"]), last=state["last"],
        age_text=e(say("not yet") if age is None else say("{} s ago", age)), by=e(by), said=e(asked.said), token=e(token), error=e(error_text(state)),
        words=e(json.dumps({key: say(text) for key, text in SCRIPT_TEXTS.items()})), no_error="" if state["error"] else "hidden",
        is_empty="hidden" if shown["rows"] or state["error"] else "", has_rows="" if shown["rows"] else "hidden", t_empty=e(shown["empty"]), shown=e(shown["shown"]),
        more_link=e("/?" + asked.query(show=asked.show + STEP)), has_more="" if shown["more"] else "hidden", text=e(asked.filter.text),
        priority=e(asked.one.get("priority", "")), state_options=options(states, asked.one.get("state", "")), class_options=shown["classes"],
        is_waiting="checked" if asked.filter.waiting else "", is_new="checked" if asked.new else "", is_chosen="open" if asked.filter != filters.Filter() or asked.new else "",
        looked=e(asked.one.get("looked", "")), looked_link=e("/?" + asked.query(looked=f"{state['run']}-{state['last']}")),
        chosen_language=e(asked.one.get("language", "")), shelf=shown["shelf"], frequent=shown["frequent"],
    )


class Handler(http.server.BaseHTTPRequestHandler):
    """Answers a browser. The server has `watch`, `token`, `by`, `hosts`, `language` and `shelved`."""

    protocol_version, server_version, sys_version = "HTTP/1.1", "alarm-console", ""
    timeout = 30
    # How the page is reached; the console may set another one.
    front = web_proxy.Front()

    def log_message(self, *_):
        """Nothing is told of requests."""

    def answer(self, status, kind, text, **heads):
        octets = text.encode()
        self.send_response(status)
        for name, value in {"Content-Type": f"{kind}; charset=utf-8", "Content-Length": str(len(octets)), **HEADS, **heads}.items():
            self.send_header(name, value)
        self.end_headers()
        if self.command != "HEAD":
            self.wfile.write(octets)

    def refuses(self):
        """Answers a request by another name than this server goes by, and says whether it did."""
        if text := self.front.refusal(self.headers, self.client_address[0], self.command):
            self.answer(403, "text/plain", text, Connection="close")
            return True
        if is_allowed(self.headers.get("Host", ""), self.server.hosts):
            return False
        self.answer(403, "text/plain", "another Host: ask by an address, by localhost, or by a name that --host gives\n")
        return True

    def choose_language(self, asked=None):
        """Has this request answered in the language of --language, else in the one that it names, else in the browser's."""
        named = asked if asked in language.TABLES else language.wanted_by(self.headers.get("Accept-Language"))
        language.chosen.set(self.server.language or named)

    def state(self):
        """All that a page shows, as it is now."""
        state = self.server.watch.state()
        return state | {"shelf": self.server.shelved(state["where"]), "most": self.server.watch.most}

    def do_GET(self):
        if self.refuses():
            return
        path = urllib.parse.urlsplit(self.path)
        state = self.state()
        asked = Asked(path.query, state)
        self.choose_language(asked.one.get("language"))
        answers = {
            "/": ("text/html", lambda: page_of(state, asked, self.server.token, self.server.by)), "/page.css": ("text/css", lambda: STYLE),
            "/page.js": ("text/javascript", lambda: SCRIPT), "/alarms.json": ("application/json", lambda: self.alarms(state, asked)),
        }
        if path.path not in answers:
            self.answer(404, "text/plain", "there is nothing here\n")
            return
        kind, make = answers[path.path]
        self.answer(200, kind, self.front.shown(make(), self.headers))

    do_HEAD = do_GET

    def alarms(self, state, asked):
        """What is shown now; where a page has it already, no more than that it does."""
        shown = shown_of(state, asked, self.server.token)
        changes = {"age": age_of(state), "told": error_text(state)}
        have = hashlib.sha256(json.dumps(shown).encode()).hexdigest()[:16]
        if asked.have == have:
            return json.dumps(changes | {"same": True})
        found = asked.rows(state)[: asked.show]
        return json.dumps(changes | shown | {"same": False, "have": have, "alarms": found, "as_of": state["as_of"], "error": state["error"], "where": state["where"]})

    def whose(self, of):
        """Who asks: the name that the proxy gives, else the page, else that of the console; and the address of the browser."""
        return self.front.by(self.headers) or of.get("by", "").strip()[:60] or self.server.by, self.client_address[0]

    def do_POST(self):
        if self.refuses():
            return
        length = self.headers.get("Content-Length", "")
        if not length.isdigit() or int(length) > MOST_OCTETS:
            self.answer(413, "text/plain", "a longer request than this one takes\n", Connection="close")
            return
        of = {key: it[0] for key, it in urllib.parse.parse_qs(self.rfile.read(int(length)).decode("utf-8", "replace")).items()}
        self.choose_language(of.get("language"))
        if self.path != "/acknowledge" or not hmac.compare_digest(of.get("token", "").encode(), self.server.token.encode()):
            self.answer(403, "text/plain", say("The page is an old one: load it anew.") + "\n")
            return
        said, done = self.server.watch.acknowledge(of.get("object", ""), *self.whose(of))
        if "application/json" in self.headers.get("Accept", ""):
            self.answer(200, "application/json", json.dumps({"said": said, "done": done}))
        else:
            back = dict(urllib.parse.parse_qsl(of.get("back", "")))
            self.answer(303, "text/plain", said + "\n", Location="/?" + urllib.parse.urlencode(back | {"said": said}))


def serve(watch, address, every, **keys):
    """Serves the page until it is ended. The keys are what its handler wants of it."""
    server = http.server.ThreadingHTTPServer(address, Handler)
    server.daemon_threads = True
    server.watch, server.token = watch, secrets.token_urlsafe(24)
    for name, value in keys.items():
        setattr(server, name, value)
    for call in (watch.go_on, watch.read_logs):
        threading.Thread(target=call, args=(every, threading.Event()), daemon=True).start()
    host, port = server.server_address[:2]
    words.put(f"http://{host}:{port}/")
    server.serve_forever()
