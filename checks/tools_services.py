"""The parts of checks/tools that look at what runs beside a server for good: the escalation, and copies of the journal."""
import csv
import email
import email.policy
import http.server
import json
import os
import re
import shutil
import subprocess
import threading
import time
import xml.etree.ElementTree

import serving
import tooling
import tools_console
from tooling import Running, run, until
from tools_parts import Plant

# A stand-in for sendmail: it keeps what it is given, and its words, and fails where a file says so.
SENDMAIL = """#!/bin/sh
[ ! -e "$KEPT/fails" ] || { echo "no way to $*" >&2; exit 75; }
echo "$*" >> "$KEPT/words"
cat > "$KEPT/mail.$$"
mv "$KEPT/mail.$$" "$KEPT/$$.mail"
"""


class Mails:
    """The mails that a stand-in for sendmail was given."""

    def __init__(self, folder):
        self.folder = folder / "mails"
        self.folder.mkdir()
        (self.folder / "sendmail").write_text(SENDMAIL, encoding="utf-8")
        (self.folder / "sendmail").chmod(0o755)
        self.environment = {"PATH": f"{self.folder}:{os.environ['PATH']}", "KEPT": str(self.folder)}

    def all(self):
        """The subject and the text of each, the oldest first."""
        paths = sorted(self.folder.glob("*.mail"), key=lambda path: path.stat().st_mtime_ns)
        letters = [email.message_from_bytes(path.read_bytes(), policy=email.policy.default) for path in paths]
        return [(letter["Subject"], letter.get_content(), letter["To"], letter["From"]) for letter in letters]

    def subjects(self):
        return [it[0] for it in self.all()]


class Web(http.server.BaseHTTPRequestHandler):
    """Takes what is posted. The server has `posted` and `status`."""

    def do_POST(self):
        octets = self.rfile.read(int(self.headers["Content-Length"]))
        self.server.posted.append((self.path, self.headers["Content-Type"], json.loads(octets)))
        self.send_response(self.server.status)
        self.end_headers()

    def log_message(self, *_):
        """Nothing is told of requests."""


def begin_web():
    web = http.server.ThreadingHTTPServer((serving.HOST, 0), Web)
    web.posted, web.status = [], 200
    threading.Thread(target=web.serve_forever, daemon=True).start()
    return web


def records(path):
    return [json.loads(line) for line in path.read_text(encoding="utf-8").splitlines()] if path.exists() else []


def try_escalated(told, program, folder):
    """Mails, requests and commands tell text, value, limit and since when; what was told is kept over a new start, what failed is tried again, and all is recorded."""
    see_words(told, folder)
    with Plant(program, folder) as it:
        mails, web, record, ran = Mails(folder), begin_web(), folder / "sent", folder / "ran"
        secret = folder / "url"
        secret.write_text(f"http://127.0.0.1:{web.server_address[1]}/hook?token=secret\n", encoding="utf-8")
        words = ["--every", "0.2", "--site", it.site, "--to", it.relay.to(), "--wait", "0.5", "--retries", "1", "--keep", folder / "told", "--record", record, "--sender", "alarms@example.org"]
        command = f'command:echo "$ALARM_NAME|$ALARM_STATE|$ALARM_VALUE|$ALARM_LIMIT|$ALARM_TEXT|$ALARM_TRANSITION" >> {ran}'
        steps = ["--unacknowledged", "0", "mail:duty@example.org,head@example.org", "--unacknowledged", "0", command, "--no-answer", "0.03", "mail:it@example.org"]
        steps += ["--unacknowledged", "0", f"webhook:@{secret}"] if shutil.which("curl") else []
        it.write("integer-value:1", "90")
        with Running(folder, "alarm-escalation", *words, *steps, given="", **mails.environment) as first:
            told.want(until(lambda: mails.subjects() == ["Freezer 1: high-limit 90, not acknowledged for 0 min"]), f"mails: {mails.all()}, {first.errors()}")
            see_mail(told, mails)
            told.want(until(lambda: ran.exists() and ran.read_text() == "Freezer 1|high-limit|90|80||to-offnormal\n"), f"a command was told {ran.read_text() if ran.exists() else None}")
            see_web(told, web)
            mails.folder.joinpath("fails").write_text("", encoding="utf-8")
            it.write("binary-value:1", "active")
            told.want(until(lambda: sum(not row["sent"] for row in records(record)) >= 2), f"a mail that fails: {records(record)}")
            mails.folder.joinpath("fails").unlink()
            told.want(until(lambda: len(mails.all()) == 2), f"a mail that failed isn't sent later: {mails.subjects()}, {first.errors()}")
            told.same("what the second mail is about", mails.subjects()[1], "Door: offnormal active, not acknowledged for 0 min")
        see_new_start(told, it, (mails, record, ran, folder), [*words, *steps])
        web.shutdown()
        web.server_close()
        return it.relay.datagrams


def see_mail(told, mails):
    _, text, whom, sender = mails.all()[0]
    told.same("whom a mail goes to, and from whom", (whom, sender), ("duty@example.org, head@example.org", "alarms@example.org"))
    for wanted in (r'integer-value:1 "Freezer 1": high-limit since \d{4}-\d\d-\d\d \d\d:\d\d:\d\d, 0 min', "value 90, limit 80", "not acknowledged: to-offnormal", "priority 100", 'device:1001 "Kitchen"'):
        told.want(re.search(wanted, text), f"a mail without {wanted}: {text}")
    told.same("how sendmail is called", mails.folder.joinpath("words").read_text().splitlines()[0], "-i -t")


def see_web(told, web):
    """A request is JSON, at the address that the file has."""
    if not shutil.which("curl"):
        print("curl isn't installed: no request is sent")
        return
    told.want(until(lambda: len(web.posted) >= 1), "nothing was posted")
    path, kind, message = web.posted[0]
    alarm = message["alarms"][0]
    told.same("a request", (path, kind, message["device"], len(message["alarms"])), ("/hook?token=secret", "application/json", 'device:1001 "Kitchen"', 1))
    told.same("its alarm", [alarm[key] for key in ("object", "name", "state", "value", "limit", "transition")], ["integer-value:1", "Freezer 1", "high-limit", 90, 80, "to-offnormal"])


def see_new_start(told, it, places, words):
    """A new start tells nothing again; it tells what is new, reminds of what lasts, also where it was acknowledged, and of a server that is gone."""
    mails, record, ran, folder = places
    before, rows = len(mails.all()), len(records(record))
    with Running(folder, "alarm-escalation", *words, "--lasting", "0.02", "mail:lasts@example.org", given="", **mails.environment) as second:
        it.client("ack", "--all")
        lasting = lambda: [subject for subject, _, whom, _ in mails.all() if whom == "lasts@example.org"]
        told.want(until(lambda: len(lasting()) >= 3), f"what lasts is told {lasting()}, {second.errors()}")
        told.want(all(re.fullmatch(r"(Freezer 1|Door): .*in alarm for \d+ min", subject) for subject in lasting()), f"what lasts is told as {lasting()}")
        told.same("mails of what was told before", [subject for subject, _, whom, _ in mails.all()[before:] if whom.startswith("duty")], [])
        it.write("integer-value:2", "5")
        told.want(until(lambda: "Freezer 2|low-limit|5|20||to-offnormal" in ran.read_text()), f"a new alarm behind a new start: {ran.read_text()}, {second.errors()}")
        told.same("commands", len(ran.read_text().splitlines()), 3)
        it.kill()
        told.want(until(lambda: any("no answer for" in subject for subject in mails.subjects())), f"a server that is gone isn't told: {mails.subjects()}, {second.errors()}")
        it.start()
    sent = records(record)[rows:]
    told.want(all({"time", "step", "way", "why", "sent", "alarms"} <= set(row) for row in sent), f"the record is {sent}")
    told.want(not any("secret" in json.dumps(row) for row in records(record)), "the record has the secret part of an address")
    told.want(any(row["way"] == "mail lasts@example.org" and row["sent"] for row in sent), f"the record is {sent}")


def see_words(told, folder):
    """What no step can be is refused at once, with what is wanted."""
    empty = folder / "empty"
    empty.mkdir()
    rows = [
        ([], 2, "ALARM_ESCALATION"), (["--unacknowledged", "ten", "mail:a@b.c"], 2, "a number of minutes"), (["--unacknowledged", "1", "sms:5"], 2, "webhook:URL"),
        (["--unacknowledged", "1", "mail:two words"], 2, "mail:ADDRESS"), (["--lasting", "0", "command:true"], 2, "more than 0"),
        (["--unacknowledged", "1", "webhook:@/nosuch"], 1, "No such file"), (["--keep", str(folder / "site"), "--unacknowledged", "1", "command:true"], 1, "isn't what --keep has written"),
    ]
    (folder / "site").write_text("[device]\n", encoding="utf-8")
    for words, status, text in rows:
        found, _, said = run("alarm-escalation", *words)
        told.want(found == status and text in said, f"alarm-escalation {words}: {found}, {said}")
    found, _, said = run("alarm-escalation", "--try", "mail:duty@example.org", PATH=str(empty))
    told.want(found == 1 and "install a mail transport" in said or shutil.which("sendmail"), f"without sendmail: {found}, {said}")
    found, output, _ = run("alarm-escalation", "--try", f"command:echo \"$ALARM_WHY\" > {folder}/tried")
    told.want(found == 0 and (folder / "tried").read_text() == "a trial of the escalation\n", f"a trial: {found}, {output}")


# What is alerted: of each rule the series that lead to it, and after how many minutes it is there and before not.
ALERTED = {
    "AlarmServerDown": ("alarm_server_up 1 0x20", 4, 1), "AlarmUnacknowledged": ("alarm_server_oldest_unacknowledged_seconds 0+60x60", 32, 29),
    "AlarmServerClockAhead": ("alarm_server_last_event_seconds 5 -61x20", 2, 0), "AlarmServerDatagramsLost": ("alarm_server_datagrams_lost_total 0x10 5x20", 13, 9),
    "AlarmCopyOld": ("alarm_server_newest_copy_seconds 129000+60x60", 11, 9), "AlarmWritesNotTaken": ("alarm_feed_full_total 0x10 1x20", 13, 9),
    "AlarmWritesRefused": ("alarm_feed_refused_total 0x10 1x20", 13, 9), "AlarmWritesUnanswered": ("alarm_feed_unanswered_total 0x10 7x20", 13, 9),
    "AlarmRecipientSilent": ("alarm_server_given_up_last_hour 0x10 48x20", 13, 9),
}


def try_rules(told, program, folder):
    """Prometheus itself says of each rule when it alerts, and when not yet, by a series that somebody wrote by hand."""
    del program
    if not shutil.which("promtool"):
        told.skip("promtool isn't installed: no rule is played")
        return
    rules = tooling.TOOLS / "alarm-server.rules.yml"
    parts = []
    for name, (series, at, before) in ALERTED.items():
        called, _, values = series.partition(" ")
        parts.append(f"  - interval: 1m\n    input_series: [{{series: {called}, values: '{values}'}}]\n    alert_rule_test:\n")
        severity = re.search(rf"alert: {name}\n.*?severity: (\w+)", rules.read_text(encoding="utf-8"), re.S)[1]
        for minutes, alerts in [(before, "[]"), (at, f"[{{exp_labels: {{severity: {severity}}}}}]")]:
            parts.append(f"      - {{eval_time: {minutes}m, alertname: {name}, exp_alerts: {alerts}}}\n")
    # The texts of an alert are for people, and aren't compared: a copy of the rules has none.
    bare = re.sub(r"\n        annotations:(?:\n          .*)+", "", rules.read_text(encoding="utf-8"))
    (folder / "rules.yml").write_text(bare, encoding="utf-8")
    (folder / "tests.yml").write_text("rule_files: [rules.yml]\ntests:\n" + "".join(parts), encoding="utf-8")
    ended = subprocess.run(["promtool", "test", "rules", str(folder / "tests.yml")], capture_output=True, text=True, timeout=tooling.SECONDS, check=False)
    told.want(ended.returncode == 0, f"promtool says {ended.stdout}{ended.stderr}")


# The history.


def try_history(told, program, folder):
    """What a log has and what was followed are one history, of the days that are asked for; its table, its page and its picture tell each record and state."""
    with Plant(program, folder) as it:
        for of, word in [("integer-value:1", "90"), ("binary-value:1", "active"), ("integer-value:1", "50"), ("integer-value:2", "5")]:
            it.write(of, word)
            # The picture has whole seconds: what lasts less isn't seen.
            time.sleep(1.2)
        followed = folder / "followed"
        followed.write_text(it.client("follow", "1", "--once")[1], encoding="utf-8")
        table, page, picture = folder / "table.csv", folder / "page.html", folder / "states.svg"
        words = ["--site", it.site, "--to", it.relay.to(), "--log", "1", "--csv", table, "--page", page, "--svg", picture]
        found, output, said = run("alarm-history", *words, followed)
        told.same("a history", (found, output, said), (0, "", ""))
        with open(table, encoding="utf-8", newline="") as file:
            rows = list(csv.DictReader(file))
        wanted = [
            ("integer-value:1", "Freezer 1", "normal", "high-limit"), ("binary-value:1", "Door", "normal", "offnormal"),
            ("integer-value:1", "Freezer 1", "high-limit", "normal"), ("integer-value:2", "Freezer 2", "normal", "low-limit"),
        ]
        told.same("its rows, each once", [tuple(row[key] for key in ("object", "name", "from", "to")) for row in rows], wanted)
        told.want("value 90" in rows[0]["values"] and "limit 80" in rows[0]["values"], f"the values of a row are {rows[0]}")
        titles = [title.text for title in xml.etree.ElementTree.parse(picture).iter("{http://www.w3.org/2000/svg}title")]
        for of, state in [("integer-value:1", "high-limit"), ("binary-value:1", "offnormal"), ("integer-value:2", "low-limit"), ("integer-value:1", "normal")]:
            told.want(any(title.startswith(f'{of} "') and f": {state} from " in title for title in titles), f"the picture has no {state} of {of}: {titles}")
        text = page.read_text(encoding="utf-8")
        told.want(text.count("<tr><td>") == 4 and "<svg" in text and "4 records" in text, f"the page is {text[:300]}")
        see_days(told, followed, folder)
        return it.relay.datagrams


def see_days(told, followed, folder):
    """Days and objects are chosen, without a server; what is no record is told by its line."""
    old = {"time": "2026-01-05 12:00:00.00", "object": "binary-value:1", "name": "=Door", "from": "normal", "to": "offnormal", "notify": "alarm"}
    lines = folder / "lines"
    lines.write_text(json.dumps(old) + "\n" + followed.read_text(encoding="utf-8"), encoding="utf-8")
    for words, count in [
        ([], 5), (["--until", "2026-01-06"], 1), (["--since", "2026-01-05T12:00:00", "--until", "2026-01-05T12:00:01"], 1), (["--since", "2026-01-06"], 4), (["--object", "integer-value:1"], 2),
        (["--object", "binary-value:1", "--since", "2026-01-06"], 1),
    ]:
        found, output, said = run("alarm-history", *words, "--json", lines)
        told.same(f"records of {words}", (found, len(output.splitlines()), said), (0, count, ""))
    told.want("'=Door" in run("alarm-history", "--csv", "-", "--until", "2026-01-06", lines)[1], "a name that a table would take for a formula stands as it is")
    told.same("no record", run("alarm-history", "--until", "2020-01-01", lines)[:2], (0, "there is no record\n"))
    for words, given, status, text in [
        ([], "{}\n", 5, "line 1 is none that alarm-client follow writes"), (["--since", "yesterday"], "", 2, "is no moment"), (["--object", "door"], "", 2, "KIND:INSTANCE"),
        (["--svg", folder / "none.svg"], "", 1, "nothing to draw"), (["--csv", folder / "none" / "x"], "", 1, "No such file"),
    ]:
        found, _, said = run("alarm-history", *words, given=given)
        told.want(found == status and text in said, f"alarm-history {words}: {found}, {said}")


# The console behind a proxy.


def console(folder, it, *words):
    """A console at a port of its own, with what it said once it listens."""
    port = tooling.free_port_of_tcp()
    return port, Running(folder, "alarm-console", "--web", f"127.0.0.1:{port}", "--to", it.relay.to(), "--every", "0.3", *words, given="")


def is_served(told, page, port):
    told.want(until(lambda: f"http://127.0.0.1:{port}/" in page.output()), f"the console told {page.output()!r}, {page.errors()!r}")


def try_proxy(told, program, folder):
    """Who acknowledges is who the proxy's head names; nothing is answered without it or from elsewhere; a page for looking alone acknowledges nothing."""
    for words, text in [(["--by-header", "X Remote"], "no name of a head"), (["--proxy", "192.0.2.7"], "--proxy is for --by-header"), (["--by-header", "X-User", "--proxy", "there"], "--proxy: ")]:
        found, _, said = run("alarm-console", "--web", "127.0.0.1:45001", *words)
        told.want(found == 2 and text in said, f"alarm-console {words}: {found}, {said}")
    with Plant(program, folder) as it:
        it.write("integer-value:1", "90")
        it.write("binary-value:1", "active")
        port, page = console(folder, it, "--by-header", "X-Remote-User")
        with page:
            is_served(told, page, port)
            see_named(told, it, port)
        port, page = console(folder, it, "--by-header", "X-Remote-User", "--proxy", "192.0.2.7")
        with page:
            is_served(told, page, port)
            told.same("a request past the proxy", tools_console.asked(port, "GET", "/", **{"X-Remote-User": "Ann"})[0], 403)
        port, page = console(folder, it, "--read-only")
        with page:
            is_served(told, page, port)
            told.want(until(lambda: "Door" in tools_console.asked(port, "GET", "/")[2]), "a page for looking alone shows no alarm")
            _, _, text = tools_console.asked(port, "GET", "/")
            _, _, rows = tools_console.asked(port, "GET", "/alarms.json")
            token = re.search(r'data-token="([^"]+)"', text)[1]
            told.want("<form method=" not in text and "<form method=" not in rows and "Door" in rows, f"a page for looking alone is {text}")
            told.same("an acknowledgement by it", tools_console.asked(port, "POST", "/acknowledge", {"object": "binary-value:1", "token": token})[0], 403)
        told.same("what it acknowledged", tools_console.unacknowledged(it)["binary-value:1"], ["to-offnormal"])
        return it.relay.datagrams


def see_named(told, it, port):
    """By a head: its name is shown and sent, and not what the browser says."""
    told.same("a page without the head", tools_console.asked(port, "GET", "/")[0], 403)
    told.same("one with an empty head", tools_console.asked(port, "GET", "/", **{"X-Remote-User": ""})[0], 403)
    head = {"X-Remote-User": "J%C3%BCrgen <b>"}
    told.want(until(lambda: "Freezer 1" in tools_console.asked(port, "GET", "/", **head)[2]), "the page shows no alarm")
    _, _, text = tools_console.asked(port, "GET", "/", **head)
    told.want("J\u00fcrgen &lt;b&gt;" in text and "readonly" in text, f"the page by a head is {text}")
    token = re.search(r'data-token="([^"]+)"', text)[1]
    fields = {"object": "integer-value:1", "token": token, "by": "Bo from the street"}
    told.same("an acknowledgement without the head", tools_console.asked(port, "POST", "/acknowledge", fields)[0], 403)
    told.same("one with it", tools_console.asked(port, "POST", "/acknowledge", fields, **head)[0], 303)
    told.same("what is acknowledged by it", tools_console.unacknowledged(it)["integer-value:1"], [])
    sent = b"".join(it.relay.sent())
    told.want("J\u00fcrgen <b>".encode() in sent and b"from the street" not in sent, "another name was sent than the head's")


# Copies.


def try_kept_copies(told, program, folder):
    """Copies are made under a server, opened, and the newest stay; one that doesn't open is named so, and removes none."""
    copies = folder / "copies"
    with Plant(program, folder) as it:
        make = ["make", it.journal, copies, "--keep", "2", "--program", program]
        found, _, said = run("alarm-copies", *make)
        told.want(found == 1 and "there is no folder" in said and "install -d -o" in said, f"without a folder: {found}, {said}")
        copies.mkdir()
        found, _, said = run("alarm-copies", "look", copies, "--program", program)
        told.want(found == 1 and "there is no copy" in said, f"without a copy: {found}, {said}")
        for name in ("journal-20260101T000000Z", "journal-20260102T000000Z", "other-20260101T000000Z", "journal-of-mine"):
            (copies / name).write_bytes(b"")
        it.write("integer-value:1", "90")
        found, output, said = run("alarm-copies", *make, "--json")
        events = serving.events_in(program, it.site, it.journal) if found else None
        told.want(found == 0, f"a copy ended with {found}, {output}, {said}, {events}")
        made = json.loads(output or "{}")
        names = sorted(path.name for path in copies.iterdir())
        told.same("what is left", names, sorted(["journal-20260102T000000Z", "other-20260101T000000Z", "journal-of-mine", os.path.basename(made["copy"])]))
        told.same("events in a copy", serving.events_in(program, it.site, folder / "copies" / os.path.basename(made["copy"])), made["events"])
        see_newest(told, it, copies, program)
        see_refused(told, it, copies, (program, folder))
        return it.relay.datagrams


def see_newest(told, it, copies, program):
    (copies / "other-20260101T000000Z").unlink()
    found, output, _ = run("alarm-copies", "look", copies, "--within", "1h", "--program", program)
    told.want(found == 0 and " opens, " in output and "2 copies" in output, f"the newest: {found}, {output}")
    newest = max(copies.glob("journal-*Z"))
    old = newest.with_name("journal-20260103T000000Z")
    newest.rename(old)
    found, _, said = run("alarm-copies", "look", copies, "--within", "26h", "--program", program)
    told.want(found == 9 and "one of the last 26h is wanted" in said, f"an old one: {found}, {said}")
    port = it.relay.to()
    for words, wanted in [(["--copies", copies], "alarm_server_newest_copy_seconds "), (["--copies", copies / "nosuch"], None)]:
        found, output, said = run("alarm-client", "metrics", *words, "--to", port)
        told.want(found == 0 and (wanted in output if wanted else "newest_copy" not in output), f"metrics {words}: {found}, {output}, {said}")
    found, _, said = run("alarm-client", "metrics", "--textfile", copies / "nosuch" / "file", "--to", port)
    told.want(found == 1 and "install prometheus-node-exporter" in said and "ALARM_METRICS_FILE" in said, f"without a folder: {found}, {said}")


def see_refused(told, it, copies, places):
    """A program that opens no copy stands for a journal that can't be opened."""
    program, folder = places
    refusing = folder / "refusing"
    refusing.write_text("#!/bin/sh\necho 'journal refused: damaged 4711' >&2\nexit 8\n", encoding="utf-8")
    refusing.chmod(0o755)
    before = sorted(path.name for path in copies.iterdir())
    found, _, said = run("alarm-copies", "make", it.journal, copies, "--keep", "1", "--program", refusing)
    behind = sorted(path.name for path in copies.iterdir())
    told.want(found == 8 and "journal refused: damaged 4711" in said and "no copy was removed" in said, f"a copy that doesn't open: {found}, {said}")
    told.same("what is left behind it", [name for name in behind if not name.endswith(".refused")], before)
    told.same("its name", [bool(re.fullmatch(r"journal-\d{8}T\d{6}Z\.refused", name)) for name in behind if name not in before], [True])
    newest = max(copies.glob("journal-*Z"))
    newest.write_bytes(newest.read_bytes()[:5000])
    found, _, said = run("alarm-copies", "look", copies, "--program", program)
    told.want(found == 8 and newest.name in said, f"a copy that was cut: {found}, {said}")
    told.same("without a program", run("alarm-copies", "look", copies, "--program", "none")[0], 1)
