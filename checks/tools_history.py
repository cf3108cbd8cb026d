"""The part of checks/tools for the history of an archive: beside what was followed of a log, and beside what a script says."""
import csv
import datetime
import json
import subprocess
import time
import xml.etree.ElementTree

import serving
from tooling import lines_of_json, run
from tools_parts import Plant

from alarm_tools import archive, octets, replay_lines

FIRST, STEP, HOUR = 1_700_000_000_000, 1_000, datetime.timezone(datetime.timedelta(hours=1))
PAIR, ROUNDS = 2, 40
# What a log says of a record and an archive doesn't.
OF_THE_LOG = ("log", "number")


def try_archived(told, program, folder):
    """An archive's history has each alarm, also those that a log has dropped, was switched off for, or never recorded; without a program, or with a gap, it says so."""
    keys = {"ALARM_SERVER_PROGRAM": program}
    see_followed(told, program, folder, keys)
    see_dropped(told, program, folder, keys)


def see_followed(told, program, folder, keys):
    """Of a server that runs: what was followed, record by record, also where somebody acknowledged, and the log dropped its oldest records meanwhile."""
    with Plant(program, folder) as it:
        place, followed = folder / "place", folder / "followed"
        lines = ""
        for number in range(14):
            of, word = [("integer-value:1", ("90", "50")), ("binary-value:1", ("active", "inactive")), ("integer-value:2", ("5", "50"))][number % 3]
            it.write(of, word[number // 3 % 2])
            # What is the same in the same hundredth of a second is one record to a history.
            time.sleep(0.02)
            if number == 3:
                told.same("an acknowledgement", it.client("ack", "Door", "--by", "Ann", "--audit", folder / "audit")[0], 0)
            if number % 7 == 6:
                lines += it.client("follow", "1", "--once", "--keep", place)[1]
        followed.write_text(lines, encoding="utf-8")
        wanted = lines_of_json(lines)
        told.want(len(wanted) == 14, f"{len(wanted)} records were followed")
        kept = folder / "archive"
        told.same("an archive under a server", run("alarm-journal", "archive", it.journal, kept, **keys)[0], 0)
        for called, file in [("an archive", kept), ("a journal in use", it.journal)]:
            status, output, said = run("alarm-history", file, "--json", **keys)
            told.same(f"the history of {called}", (status, said), (0, ""))
            rows = [{key: of for key, of in row.items() if key not in OF_THE_LOG} for row in wanted]
            told.same(f"the records of {called}", lines_of_json(output), rows)
        _, output, _ = run("alarm-history", kept, followed, "--json", **keys)
        told.same("both together, each record once", lines_of_json(output), wanted)
        status, output, _ = run("alarm-history", "--log", "1", "--to", it.relay.to(), "--json")
        told.same("of which the log has the last", lines_of_json(output), wanted[-8:])


def small_log(folder, program):
    """A site whose log has room for two records of one of its two classes, and a journal of it."""
    door = "[[object]]", {"kind": "binary-value", "instance": 1, "name": 'Door "north"', "value": "inactive", "class": 8, "alarm_value": "active"}
    tank = serving.tank(1, 7, name="Tank", texts=["too hot", "", "well again"])
    log = "[[log]]", {"instance": 3, "size": 2, "classes": [7]}
    site = serving.device(name="Tanks", zone_minutes=60), serving.of_class(7), serving.of_class(8, acknowledged=False), tank, door, log
    return serving.blank(program, folder, *site)


def script():
    """Two objects that go into alarm and back again, each a second apart, while the log is switched off for a while; and what has to come of it."""
    lines, wanted, moment = [], [], FIRST
    for number in range(ROUNDS):
        for of, states, words in [("integer-value:1", ("normal", "high-limit"), ("signed:50", "signed:90")), ("binary-value:1", ("normal", "offnormal"), ("inactive", "active"))]:
            moment += STEP
            now = (number + 1) % PAIR
            lines.append(f"set {moment} {of} {words[now]}")
            wanted.append((datetime.datetime.fromtimestamp(moment / 1000, HOUR).strftime("%Y-%m-%d %H:%M:%S"), of, states[1 - now], states[now]))
        if number in (10, 20):
            lines.append(replay_lines.asked(moment, octets.write_property(0, (25, 3), 133, octets.boolean(number == 20))))
    return lines, wanted


def see_dropped(told, program, folder, keys):
    """Of a log that has dropped nearly all: the states that the script says, at its moments, as lines, as a table, on a page and in a picture."""
    of = folder / "dropped"
    of.mkdir()
    site, journal = small_log(of, program)
    lines, wanted = script()
    ended = subprocess.run([program, "session", site, journal], input="\n".join(lines) + "\n", capture_output=True, text=True, timeout=serving.SECONDS, check=False)
    told.same("how the script ends", (ended.returncode, ended.stderr), (0, ""))
    kept, table, page, picture = of / "archive", of / "table.csv", of / "page.html", of / "states.svg"
    told.same("an archive", run("alarm-journal", "archive", journal, kept, **keys)[0], 0)
    status, output, said = run("alarm-history", kept, "--json", **keys)
    rows = lines_of_json(output)
    told.same("how the history ends", (status, said), (0, ""))
    told.same("its records", [(row["time"][:19], row["object"], row["from"], row["to"]) for row in rows], wanted)
    told.same("names, texts and values", [(row["name"], row.get("text"), row["values"].get("value"), row["class"]) for row in rows[:3]], [("Tank", "too hot", 90, 7), ('Door "north"', None, None, 8), ("Tank", "well again", 50, 7)])
    status, output, said = run("alarm-history", kept, "--csv", table, "--page", page, "--svg", picture, "--since", wanted[4][0].replace(" ", "T"), "--object", "binary-value:1", **keys)
    told.same("a table, a page and a picture", (status, output, said), (0, "", ""))
    with open(table, encoding="utf-8", newline="") as file:
        told.same("the rows of the table", [(row["time"][:19], row["object"], row["from"], row["to"]) for row in csv.DictReader(file)], [it for it in wanted[4:] if it[1] == "binary-value:1"])
    titles = [title.text for title in xml.etree.ElementTree.parse(picture).iter("{http://www.w3.org/2000/svg}title")]
    told.want(any("offnormal from " in title and "Door" in title for title in titles), f"the picture has {titles[:3]}")
    told.want(page.read_text(encoding="utf-8").count("<tr><td>") == ROUNDS - 2 and "<svg" in page.read_text(encoding="utf-8"), "the page has other rows")
    see_refused(told, (of, journal, kept), keys)


def see_refused(told, places, keys):
    """Without a program, of a file that isn't there, or of an archive whose first events are gone, it ends with a status and says what is wanted."""
    of, journal, kept = places
    status, _, said = run("alarm-history", kept, "--program", "none")
    told.want(status == 1 and "name it by --program" in said, f"without a program: {status}, {said}")
    status, _, said = run("alarm-history", of / "nosuch", **keys)
    told.want(status == 1 and "No such file" in said, f"of no file: {status}, {said}")
    with archive.Archive(kept) as it:
        text, last = it.head.text, list(it.events())[-1]
    for name, more in (("gone", [last]), ("ended", [])):
        with archive.Appending(of / name, text) as made:
            made.add_gap(last.number - 1, b"a state")
            for event in more:
                made.add(event.number, event.octets)
            made.end()
        status, _, said = run("alarm-history", of / name, **keys)
        told.want(status == 8 and f"events 1 to {last.number - 1} " in said and "alarm-client follow" in said, f"of an archive whose events are {name}: {status}, {said}")
    blank = of / "blank"
    blank.write_bytes(bytes(100_000))
    status, _, said = run("alarm-history", blank, **keys)
    told.want(status == 5 and "blank: line 1 is none" in said, f"of a blank file: {status}, {said[:200]}")
    status, output, _ = run("alarm-history", "--json", kept, "--until", "2020-01-01", **keys)
    told.same("of days before it", (status, output), (0, ""))
    told.want(json.loads(run("alarm-journal", "show", journal, "--json")[1])["whole"], "the journal isn't whole")
