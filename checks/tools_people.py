"""The parts of checks/tools that are about people: names, the record of who did what, lists of many alarms, the shelf, and languages."""
import ast
import datetime
import json
import os
import pathlib
import re
import signal
import string
import time

import bacnet
import serving
import tooling
from tooling import TOOLS, Relay, Running, lines_of_json, run, until
from tools_parts import PATIENT, Plant

from alarm_tools import alarms, client, language, names


def ward(port):
    """A site of a class that asks for acknowledgement and one that asks for none, with texts, units in names, a switch, and two of one name."""
    texts = {"texts": ["It is too warm in the freezer", "The sensor has failed", "It is cold again"]}
    return [
        serving.device(name="Ward", apdu_timeout=300, retries=15), serving.of_class(7), serving.of_class(8, acknowledged=False),
        ("[[class]]", {"instance": 9, "name": "Food", "priority": [10, 20, 30], "ack_required": [True, True, False]}), serving.told_at(port, 7, False),
        serving.tank(1, 9, name="Freezer room [0.1 \u00b0C]", **texts), serving.tank(2, 8, name="Fire dampers"), serving.tank(3, 7, name="Twin"),
        serving.tank(4, 7, name="Twin"), serving.tank(5, 7, name="Pump", inhibit_ref="binary-value:2"), serving.integer(6, name="Counter"),
        ("[[object]]", {"kind": "binary-value", "instance": 2, "name": "Maintenance", "value": "inactive"}),
        ("[[object]]", {"kind": "binary-value", "instance": 3, "name": "Valve", "value": "inactive"}),
        ("[[object]]", {"kind": "binary-value", "instance": 4, "name": "Valve is open", "value": "inactive"}),
        ("[[enrollment]]", {"instance": 1, "name": "Valve fails", "algorithm": "command-failure", "monitored": "binary-value:3", "feedback": "binary-value:4", "class": 8}),
        ("[[log]]", {"instance": 1, "name": "History", "size": 200, "classes": [7, 8, 9]}),
    ]


class Ward(Plant):
    """The site of `ward` with its journal, its server and a relay before it."""

    def __init__(self, program, folder):
        self.program, self.folder = program, folder
        self.recipient, self.port = serving.free_port(), serving.free_port()
        self.site, self.journal = serving.blank(program, folder, *ward(self.recipient))
        self.server, self.relay = None, Relay(self.port)
        self.record, self.shelf = folder / "record", folder / "shelf"

    def client(self, *words, **keys):
        return run("alarm-client", *words, "--to", self.relay.to(), *PATIENT, **keys)

    def clients(self, lines):
        return tooling.run_many("client_command", [[*map(str, line), "--to", self.relay.to(), *PATIENT] for line in lines])

    def inhibited(self, of):
        """Whether an object is inhibited, as the server says."""
        with client.Client((serving.HOST, self.port), 1.0, 15) as asked:
            return bool(asked.number(names.object_from(of), bacnet.EVENT_ALGORITHM_INHIBIT))

    def kept(self):
        """The lines of the record."""
        return lines_of_json(self.record.read_text(encoding="utf-8")) if self.record.exists() else []


# Names, values, texts, classes.


def try_names(told, program, folder):
    """Objects by their names wherever one is taken; value, limit, unit and text; what nobody is asked to acknowledge; lists by class, priority, state and text."""
    with Ward(program, folder) as it:
        rows = [
            (["write", "freezer ROOM [0.1 \u00b0C]", "95"], 0, "integer-value:1 "), (["write", "Fire dampers", "10"], 0, "integer-value:2 "),
            (["read", "Counter"], 0, "present-value  50"), (["read", "Twin"], 2, "is the name of integer-value:3 and integer-value:4"), (["read", "Freezer"], 2, "Freezer room"),
            (["recipients", "show", "food"], 0, 'notification-class:9 "Food": nobody is told'), (["recipients", "show"], 0, "notification-class:8"),
            (["follow", "history", "--once", "--text"], 0, "value 9.5 \u00b0C, deadband 0.5 \u00b0C, limit 8.0 \u00b0C"), (["follow", "Twin", "--once"], 2, "is no event-log"),
            (["read", "device"], 0, "object-name  Ward"), (["read", "Counter", "high-limit"], 4, 'integer-value:6 "Counter": high-limit: Error 2,32'),
            (["read", "Pump", "event-message-texts"], 4, "event-message-texts: Error 2,32"), (["read", "integer-value:1", "event-message-texts"], 0, 'It is too warm in the freezer, "", ""'),
            (["write", "Counter", "1", "--property", "low-limit"], 4, "unknown-property"), (["write", "maintenance", "active"], 0, "taken"), (["write", "Pump", "90", "--property", "low-limit"], 0, "isn't below its high-limit 80"),
            (["write", "Pump", "20", "--property", "low-limit"], 0, "taken"), (["--json", "read", "Counter"], 0, '"present-value": 50'),
        ]
        for (words, wanted, text), (status, output, said) in zip(rows, it.clients([words for words, _, _ in rows])):
            told.want(status == wanted and text in output + said, f"{words}: status {status}, {output!r}, {said!r}")
        see_list(told, it)
        it.write("binary-value:3", "active")
        told.want("command active, feedback inactive" in it.client("follow", "history", "--once", "--text")[1], "a command and its feedback aren't told by their names")
        journal = run("alarm-journal", "events", it.journal, "--object", "Fire dampers")
        told.same("a journal's events of a name", [row["value"] for row in lines_of_json(journal[1])], [10])
        return it.relay.datagrams


def see_list(told, it):
    """What is listed of each alarm, and which alarms are."""
    chosen = [
        (["--class", "food"], [1]), (["--class", "8"], [2]), (["--state", "low-limit"], [2]), (["--priority", "50"], [1]), (["--priority", "60-100"], [2]), (["--text", "warm"], [1]),
        (["--text", "dampers"], [2]), (["--waiting"], []), (["--class", "7"], []), (["--looked", it.folder / "looked"], [1, 2]), (["--looked", it.folder / "looked"], []),
    ]
    wrong = [["list", "--priority", "high"], ["list", "--state", "ill"], ["list", "--class", "none"]]
    first = [["list", "--json"], ["list"], ["ack", "Freezer room [0.1 \u00b0C]", "--by", "Ann", "--audit", it.record], ["list"]]
    ended = it.clients([*first, *(["list", "--json", *words] for words, _ in chosen), *wrong])
    rows = {row["object"]: row for row in lines_of_json(ended[0][1])}
    freezer, dampers = rows["integer-value:1"], rows["integer-value:2"]
    wanted = {"value": 95, "limit": 80, "units": "\u00b0C", "value_text": "9.5 \u00b0C", "limit_text": "8.0 \u00b0C", "text": "It is too warm in the freezer", "class": 9, "class_name": "Food", "asks": True}
    told.same("the freezer's alarm", {key: freezer[key] for key in wanted}, wanted)
    told.same("the dampers' alarm", [dampers[key] for key in ("value", "limit", "asks", "unacknowledged", "state")], [10, 20, False, [], "low-limit"])
    table = ended[1][1]
    told.want("none asked for" in table and "acknowledged" not in table.replace("to be acknowledged", ""), f"the table says {table}")
    table = ended[3][1]
    told.want("none asked for" in table and "  acknowledged  " in table, f"behind an acknowledgement the table says {table}")
    for (words, wanted), (status, output, said) in zip(chosen, ended[4:]):
        told.want(status == 0 and sorted(row["object"] for row in lines_of_json(output)) == [f"integer-value:{number}" for number in wanted], f"list {words}: {output}, {said}")
    told.same("lists of what isn't there", [status for status, _, _ in ended[-3:]], [2, 2, 2])
    it.write("integer-value:3", "90")
    for value in ("50", "90", "50", "10"):
        it.write("integer-value:4", value)
    looked, most = it.clients([["list", "--looked", it.folder / "looked", "--json"], ["frequent", "--json"]])
    told.same("what came since it was looked at", sorted(row["object"] for row in lines_of_json(looked[1])), ["integer-value:3", "integer-value:4"])
    rows = [(row["object"], row["times"]) for row in lines_of_json(most[1])]
    told.same("the most frequent", (rows[0], sorted(rows[1:])), (("integer-value:4", 2), [("integer-value:1", 1), ("integer-value:2", 1), ("integer-value:3", 1)]))


# The record.


def try_record(told, program, folder):
    """Who acknowledged, wrote, edited and was refused stands in the record, and is read from it; without it nothing is done."""
    with Ward(program, folder) as it:
        by = ["--by", "Ann, ward 3", "--audit", it.record]
        lines = [
            ["write", "Twin", "90", *by], ["write", "integer-value:3", "90", *by], ["write", "integer-value:6", "x", "--property", "object-name", "--type", "text", *by], ["ack", "integer-value:3", *by],
            ["recipients", "add", "7", "127.0.0.1:9", *by], ["recipients", "remove", "7", "127.0.0.1:9", *by], ["ack", "integer-value:3", *by],
            ["write", "integer-value:3", "50", "--audit", folder / "none" / "record"],
        ]
        ended = it.clients(lines)
        told.same("how they ended", [status for status, _, _ in ended], [2, 0, 4, 0, 0, 0, 0, 1])
        stamp = it.rows()[0]["times"]["to-offnormal"]
        kept = it.kept()
        shown = [(row["tool"], row["act"], row["object"], row.get("transition"), row.get("stamp"), row["answer"]) for row in kept]
        told.same("the record", shown, [
            ("alarm-client write", "write", "integer-value:3", None, None, "taken"), ("alarm-client write", "write", "integer-value:6", None, None, "Error 2,40, write-access-denied"),
            ("alarm-client ack", "acknowledge", "integer-value:3", "to-offnormal", stamp, "taken"), ("alarm-client recipients", "add recipient", "notification-class:7", None, None, "taken"),
            ("alarm-client recipients", "remove recipient", "notification-class:7", None, None, "taken"),
        ])
        told.want(all(row["by"] == "Ann, ward 3" and row["address"] == "local" and row["name"] and row["server"] == it.relay.to() for row in kept), f"who, where and what: {kept}")
        told.want(all(abs(time.time() - at) < 600 for at in map(moment_of, kept)), f"times of {kept}")
        told.want("nothing was done" in ended[-1][2] and it.number("integer-value:3") == 90, f"without a record: {ended[-1]}")
        told.same("a name of the environment", (it.client("write", "Counter", "2", ALARM_AUDIT=str(it.record))[0], len(it.kept())), (0, 6))
        see_report(told, it)
        return it.relay.datagrams


def moment_of(row):
    return datetime.datetime.fromisoformat(row["time"]).timestamp()


def see_report(told, it):
    """alarm-report audit tells the record, by object, name, person and time, and what is none of it."""
    rows = [(["--object", "twin"], 2), (["--object", "integer-value:6"], 2), (["--by", "Ann, ward 3"], 5), (["--since", "1h"], 6), (["--since", "2099-01-01"], 0)]
    table, *others = tooling.run_many("audit_command", [[it.record, "--act", "acknowledge"], *([it.record, "--json", *words] for words, _ in rows)])
    lines = table[1].splitlines()
    told.want(len(lines) == 2 and "Ann, ward 3" in lines[1] and 'integer-value:3 "Twin"' in lines[1] and lines[1].endswith("taken"), f"the report is {table}")
    for (words, wanted), (_, output, _) in zip(rows, others):
        told.same(f"audit {words}", len(output.splitlines()), wanted)
    status, output, said = run("alarm-report", "audit", "--json", given=it.record.read_text() + "{}\nnonsense\n")
    told.want(status == 4 and len(output.splitlines()) == 6 and said.count("standard input:") == 2 and "standard input:8" in said, f"of lines that are none: {status}, {said!r}")


# The shelf.


def try_shelf(told, program, folder):
    """An object on the shelf gives no alarm, is listed and recorded, and comes back by itself: also where its keeper, or the server, was gone meanwhile."""
    with Ward(program, folder) as it:
        words = ["--shelf", it.shelf, "--audit", it.record, "--by", "Ann"]
        status, output, said = it.client("shelve", "Freezer room [0.1 \u00b0C]", "1h", "--why", "defrosting", *words)
        told.want(status == 0 and "on the shelf until" in output, f"shelve ended with {status}, {output!r}, {said!r}")
        it.write("integer-value:1", "90")
        found, on_shelf, listed = it.clients([["list", "--json"], ["shelf", "--json", *words], ["list", "--shelf", it.shelf]])
        told.same("an alarm that is shelved", (it.inhibited("integer-value:1"), found[1]), (True, ""))
        row = lines_of_json(on_shelf[1])[0]
        told.same("the shelf", (row["object"], row["by"], row["why"], row["state"]), ("integer-value:1", "Ann", "defrosting", ""))
        told.want("1 on the shelf" in listed[1], f"a list doesn't say what is shelved: {listed}")
        see_no_shelf(told, it, words)
        told.same("before its time", (it.client("unshelve", "integer-value:1", *words)[0], it.inhibited("integer-value:1")), (0, False))
        told.want(until(lambda: len(it.rows()) == 1), "what came back gives no alarm")
        see_return(told, it, words)
        acts = [(row["act"], row["object"], row["by"], row["answer"]) for row in it.kept()]
        ends = [("shelve", "integer-value:1", "Ann", "taken"), ("unshelve", "integer-value:1", "Ann", "taken"), ("shelve", "integer-value:3", "Ann", "taken"), ("comes back", "integer-value:3", "the time", "taken")]
        told.same("the record", [row for row in acts if row[3] == "taken"], ends)
        return it.relay.datagrams


def see_no_shelf(told, it, words):
    """What can't be shelved, and what is inhibited otherwise."""
    rows = [
        (["write", "integer-value:2", "true", "--property", "event-algorithm-inhibit", "--audit", it.folder / "other"], 0, "taken"),
        (["shelve", "Counter", "1h"], 4, "has no class"), (["shelve", "Pump", "1h"], 4, 'inhibited by binary-value:2 "Maintenance" alone'), (["shelve", "integer-value:2", "1h"], 4, "not from this shelf"),
        (["shelve", "integer-value:3", "8d"], 2, "isn't from 1s to 7d"), (["shelve", "integer-value:3", "soon"], 2, "is no length"), (["unshelve", "integer-value:4"], 4, "isn't on the shelf"),
        (["shelve", "integer-value:99", "1h"], 4, "unknown-object"), (["shelf"], 0, "inhibited, and not from this shelf"),
    ]
    for (line, wanted, text), (status, output, said) in zip(rows, it.clients([[*line, *(words if line[0] != "write" else [])] for line, _, _ in rows])):
        told.want(status == wanted and text in output + said, f"{line}: status {status}, {output!r}, {said!r}")
    told.same("what else is on the shelf", [row["object"] for row in json.loads(it.shelf.read_text())], ["integer-value:1"])


def see_return(told, it, words):
    """The keeper is killed, the server is gone when the time comes, and a console that begins later brings it back."""
    told.same("shelved once more", it.client("shelve", "integer-value:3", "1h", *words)[0], 0)
    keeper = pathlib.Path(f"{it.shelf}.keeper")
    told.want(until(lambda: keeper.exists() and keeper.read_text().strip()), "nobody keeps the shelf")
    os.kill(int(keeper.read_text()), signal.SIGKILL)
    it.kill()
    rows = json.loads(it.shelf.read_text())
    it.shelf.write_text(json.dumps([row | {"until": time.time() - 1} for row in rows]))
    told.same("without a keeper it stays", len(rows), 1)
    console = ["--no-page", "--on-unacknowledged", "600", "true", "--shelf", it.shelf, "--audit", it.record, "--to", it.relay.to(), "--wait", "0.3", "--retries", "1"]
    with Running(it.folder, "alarm-console", *console, given=""):
        told.want(until(lambda: "nobody answers" in it.shelf.read_text()), f"why it doesn't come back isn't told: {it.shelf.read_text()}")
        it.start()
        told.want(until(lambda: json.loads(it.shelf.read_text()) == []), f"it doesn't come back: {it.shelf.read_text()}")
    told.same("it came back", it.inhibited("integer-value:3"), False)


# Languages.


def said_in(path):
    """The texts that a module says: what stands in a call of `say`, by itself or as one of two."""
    for node in ast.walk(ast.parse(path.read_text(encoding="utf-8"))):
        if isinstance(node, ast.Call) and getattr(node.func, "id", "") == "say" and node.args and path.name not in ("listening.py", "feed_command.py"):
            first = node.args[0]
            parts = [first.body, first.orelse] if isinstance(first, ast.IfExp) else [first]
            yield from (it.value for it in parts if isinstance(it, ast.Constant))


def places(text):
    return [name for _, name, _, _ in string.Formatter().parse(text) if name is not None]


def try_languages(told, program, folder):
    """Each text that the tools say has its German, with as many places; --language and the browser choose it; lines of JSON stay as they are."""
    for text, german in language.GERMAN.items():
        told.want(places(text) == places(german), f"{text!r} and {german!r} have other places")
    for path in sorted((TOOLS / "alarm_tools").glob("*.py")):
        for text in said_in(path):
            told.want(text in language.GERMAN, f"{path.name} says {text!r}, which has no German")
    from alarm_tools import web
    for text in [*web.TEXTS.values(), *web.SCRIPT_TEXTS.values(), *alarms.HEAD]:
        told.want(text in language.GERMAN, f"the page says {text!r}, which has no German")
    for header, wanted in [("de-AT,de;q=0.9,en;q=0.8", "de"), ("en-GB,en;q=0.9,de;q=0.8", "en"), ("fr, de;q=0.2", "de"), ("fr", None), ("de;q=0, en", "en"), (None, None), (";;q=x,", None)]:
        told.same(f"the language of {header}", language.wanted_by(header), wanted)
    with Ward(program, folder) as it:
        it.write("integer-value:1", "90")
        it.write("integer-value:2", "90")
        lines = [["list", "--language", "xx"], ["list", "--language", "de"], ["list", "--json", "--language", "de"], ["list", "--json"], ["list"]]
        none, german, of_json, plain, english = (output for _, output, _ in it.clients(lines))
        told.same("another language", none, "")
        told.want("ZUSTAND" in german and "zu hoch" in german and "nicht verlangt" in german and "2 in Alarm, 1 zu quittieren" in german, f"in German: {german}")
        told.same("lines of JSON in German", of_json, plain)
        told.want("2 in alarm, 1 to be acknowledged" in english, f"in English: {english}")
        told.want("zu quittieren" in it.client("list", ALARM_LANGUAGE="de")[1], "the environment doesn't choose the language")
        return it.relay.datagrams
