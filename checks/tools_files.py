"""The parts of checks/tools that read files: octets and clocks, sites, journals with their copies, and reports."""
import argparse
import concurrent.futures
import datetime
import errno
import json
import os
import re
import socket
import struct
import subprocess
import threading
import time
import unittest.mock
import xml.etree.ElementTree
import zoneinfo

import bacnet
import mistakes
import mistakes_of_a_ward
import serving
import tooling
from serving import MANY, START, Server
from tooling import TOP, lines_of_json, run

from alarm_tools import journal, journal_command, names, report, site_lint, site_text, week, words
from alarm_tools.zone import Zone

TANK = (bacnet.INTEGER_VALUE, 1)
# How many copies are made at least under load, and at most until both areas and a change were seen.
COPIES, MOST_COPIES = 25, 80

# Octets that no page has, written by hand from the tables of the standard (15.1, 15.7, 15.8, 20.2, 21): what is written.
WRITTEN = [
    ("810a0013 0104 0005010e 0c0b400001 1e 0908 1f", bacnet.read_all(1, TANK)),
    ("810a0017 0104 0005011a 0c06400001 1983 6e 2107 3164 6f", bacnet.read_range(1, (25, 1), 7, 100)),
    ("810a000f 0104 0005011d 0c0b400001", bacnet.get_event_information(1, TANK)),
    ("810a0013 0104 0005010c 0c0b400001 1982 2900", bacnet.read_property(1, TANK, 130, 0)),
    ("810a0032 0104 00050108 0c03c00007 1966 3e 8201fe b400000000 b4173b3b63 1e 2100 65060a000008bac0 1f 2102 10 8205e0 3f", bacnet.edit_list(
        1, 8, (15, 7), 102, bacnet.destination(bacnet.Destination("1111111", bytes(4), bytes([23, 59, 59, 99]), (0, bytes([10, 0, 0, 8]) + (47808).to_bytes(2, "big")), 2, False, "111")))),
    ("74 00 6f7065", bacnet.text("ope")), ("8201c0", bacnet.bits("1100000")), ("8100", bacnet.bits("")), ("443f800000", bacnet.application(bacnet.REAL, 1.0)),
]
# And what is read: the octets, the call, what they are.
READ = [
    ("810a001c 0100 30010e 0c0b400001 1e 2924 4e 9100 4f 2955 4e 3132 4f 1f", bacnet.many_read, "[36, None, 0], [85, None, 50]"),
    ("810a0018 0100 30010e 0c0b400009 1e 2908 5e 9101 911f 5f 1f", bacnet.many_read, "[8, None, (1, 31)]"),
    ("810a0011 0100 500109 0e 9105 9151 0f 1901", bacnet.list_error_of, "(5, 81, 1)"),
    ("810a0017 0100 30011a 0c06400001 1983 3a0500 4900 5e5f", bacnet.range_read, "[]"),
]


def shown(found):
    """What was read, in short."""
    if isinstance(found, bacnet.Range):
        return str(found.records)
    if isinstance(found[0], tuple):
        return ", ".join(str([number, index, error or bacnet.number_of(value[0])]) for number, index, value, error in found[1])
    return str(found)


def try_octets(told, *_):
    for spelled, written in WRITTEN:
        told.same("what is written", written.hex(), spelled.replace(" ", ""))
    for spelled, call, wanted in READ:
        told.same(f"what {spelled} is", shown(call(bacnet.read(bytes.fromhex(spelled)))), wanted)
    routed = bytes.fromhex("810b001d 0128 ffff00 0005 01 22 ff 1000 c4020003e9 2205c4 9103 2203e7".replace(" ", ""))
    message, station = bacnet.received(routed)
    told.same("an I-Am from behind a router", (bacnet.device_of(message), station), (((8, 1001), 1476, 3, 999), (5, b"\x22")))
    sent = [line.split()[3] for path in sorted((TOP / "cases").glob("*.stdout")) for line in path.read_text().splitlines() if " send " in line]
    for octets in sent:
        try:
            report.decoded(bytes.fromhex(octets))
        except ValueError as error:
            told.want(False, f"{octets} isn't decoded: {error}")
    told.want(len(sent) > 200, f"cases/ has {len(sent)} datagrams")


def try_clocks(told, *_):
    """Zone rules are followed as the system's own list of zones has them, at each hour of two years: clocks are put at whole ones."""
    for rule, name in [
        ("CET-1CEST,M3.5.0,M10.5.0/3", "Europe/Berlin"), ("EST5EDT,M3.2.0,M11.1.0", "America/New_York"),
        ("AEST-10AEDT,M10.1.0,M4.1.0/3", "Australia/Sydney"), ("JST-9", "Asia/Tokyo"),
    ]:
        try:
            known = zoneinfo.ZoneInfo(name)
        except zoneinfo.ZoneInfoNotFoundError:
            print("the system has no list of zones: clocks aren't compared")
            return
        zone, other = Zone(rule=rule), 0
        for seconds in range(1_767_225_600, 1_830_297_600, 3600):
            at = datetime.datetime.fromtimestamp(seconds, known)
            other += zone.ahead(1000 * seconds) != at.utcoffset().total_seconds()
            if not at.fold and seconds % 86400 == 43200:
                other += zone.moment(at.replace(tzinfo=None)) != 1000 * seconds
        told.same(f"hours at which {rule} isn't {name}", other, 0)


# Sites.


def octets_of(text):
    return re.sub(rb"\\(n|x[0-9a-f]{2})", lambda it: b"\n" if it[1] == b"n" else bytes([int(it[1][1:], 16)]), text.encode())


def changed_sites():
    """Each change of a site in cases/, with what is told of it, and the line, where it is refused."""
    for path in sorted((TOP / "cases").glob("*.changes")):
        name = path.with_suffix(".args").read_text().splitlines()[1]
        site = next(it for it in (TOP / "cases" / name, TOP / "examples" / name) if it.exists()).read_bytes()
        for block in path.read_text().strip("\n").split("\n\n"):
            keys = dict(re.fullmatch(r"(\w+): (.*)", line).groups() for line in block.splitlines())
            old, new, add = (octets_of(keys.get(key, "")) for key in ("old", "new", "add"))
            more = b"".join(add.replace(b"{}", str(number).encode()) for number in range(int(keys.get("times", "1"))))
            yield path.name, site.replace(old, new, 1) + more, keys.get("told"), keys.get("line")


def try_readings(told, *_):
    """What this package reads of a site agrees with what is written down for each change in cases/, with the line where one is told."""
    count = 0
    for name, text, wanted, line in changed_sites():
        try:
            site_text.read(text)
            found = None, None
        except site_text.SiteRefused as fault:
            found = fault.told, fault.line
        told.same(f"a change of {name}", found[0], wanted)
        if line:
            told.same(f"the line of a change of {name}", str(found[1]), line)
        count += 1
    told.want(count > 100, f"cases/ has {count} changes of sites")


def try_mistakes(told, program, folder):
    """alarm-site tells of each mistake the line and what is wanted, and of those that are taken the warning; the program says the same refusal in checks/commands."""
    was, rows = (TOP / "examples" / "school.toml").read_text(encoding="utf-8"), mistakes.texts()
    paths = [folder / f"{number}.toml" for number in range(len(rows))]
    for path, (_, text) in zip(paths, rows):
        path.write_text(text, encoding="utf-8")
    warned = iter(mistakes.WARNED)
    for path, (mistake, text), ended in zip(paths, rows, tooling.run_many("site_command", [["check", path, "--program", "none"] for path in paths])):
        status, output, said = ended
        if mistake.told is None:
            kind = next(warned)
            told.want(status == 0 and (f"[{kind}]" in output if kind else "warning" in output), f"{mistake.name}: {status}, {output}, {said}")
            continue
        found = re.fullmatch(rf"{re.escape(str(path))}(?::(\d+))?: site refused: (.*)", output.splitlines()[0] if output else "")
        line = mistakes.line_of(text, mistake, was)
        good = found and found[2] == mistake.told and found[1] and line in (None, int(found[1])) and all(it in output for it in mistake.says)
        told.want(status == 3 and good, f"{mistake.name}: {status}, line {line} is wanted, {output}{said}")
    told.want(len(rows) >= 93, f"{len(rows)} mistakes")
    see_many_faults(told, folder)
    see_ward(told, program, folder)


def refusal(program, site):
    """What the program says of a site that is none: its refusal, and the line where it tells one."""
    ended = subprocess.run([program, "session", site, "/dev/null"], input="", capture_output=True, text=True, errors="replace", timeout=tooling.SECONDS, check=False)
    found = re.fullmatch(r"site refused: (.*)\n(?:line (\d+)\n)?", ended.stderr)
    return (found[1], found[2]) if found else (ended.stderr, None)


def see_ward(told, program, folder):
    """Each mistake in a ward's text is refused as the program refuses it, in the line that was changed, with what is wanted, and once."""
    was, rows = mistakes_of_a_ward.texts()
    paths = [folder / f"ward-{number}.toml" for number in range(len(rows))]
    for path, (_, text, _, _) in zip(paths, rows):
        path.write_text(text, encoding="utf-8", newline="")
    with concurrent.futures.ThreadPoolExecutor(4) as pool:
        said = list(pool.map(lambda path: refusal(program, path), paths))
    for path, (name, text, number, wanted), by_program, ended in zip(paths, rows, said, tooling.run_many("site_command", [["check", path, "--program", "none"] for path in paths])):
        status, output, _ = ended
        found = re.findall(rf"^{re.escape(str(path))}(?::(\d+))?: site refused: (.*)$", output, re.M)
        told.want(status == 3 and found and found[0][1] == by_program[0], f"{name}: {status}, {output[:300]}, and the program says {by_program}")
        line = mistakes_of_a_ward.line_of(name, text, number, found[0][1] if found else "")
        told.want(found and line in (None, int(found[0][0] or 0)) and (by_program[1] in (None, found[0][0]) or name in mistakes_of_a_ward.BEHIND), f"{name}: line {line} is wanted, the program says {by_program[1]}, and alarm-site {output[:200]}")
        told.want(wanted in output and (len(found) == 1 or name in mistakes_of_a_ward.SEVERAL), f"{name}: {wanted!r} is wanted, once: {output[:400]}")
    path = folder / "ward.toml"
    path.write_text(was, encoding="utf-8")
    found = refusal(program, path)[0], run("alarm-site", "check", path, "--program", "none")[0]
    told.want("site refused" not in found[0] and found[1] == 0, f"the ward without a mistake: {found}")


def see_many_faults(told, folder):
    """A text with several faults has all of them told, and one that nothing is in or that isn't UTF-8 says what is wanted."""
    path = folder / "many.toml"
    text = (TOP / "examples" / "school.toml").read_text(encoding="utf-8")
    for old, new in [("vendor = 999", "vendr = 999"), ("value = -200", "value = -20.0"), ('days = "0000011"', 'days = "Sat"'), ("classes = [1, 2]", "classes = [1, 7]")]:
        text = text.replace(old, new)
    path.write_text(text, encoding="utf-8")
    status, output, _ = run("alarm-site", "check", path, "--program", "none")
    lines = [int(it) for it in re.findall(r"\.toml:(\d+): site refused", output)]
    wanted = [number for number, line in enumerate(text.splitlines(), 1) if line.startswith(("vendr", "value = -20.0", 'days = "Sat"'))]
    log = next(number for number, line in enumerate(text.splitlines(), 1) if line == "[[log]]")
    told.same("the lines of four faults", (status, sorted(lines)), (3, sorted([*wanted, log])))
    for octets, says in [(b"", "[device] is wanted, with instance and start"), ("[device]\n".encode("utf-16"), "save it as UTF-8"), (b'[device]\nname = "K\xfcche"\n', "save it as UTF-8")]:
        path.write_bytes(octets)
        status, output, _ = run("alarm-site", "check", path, "--program", "none")
        told.want(status == 3 and says in output, f"a text of {octets[:20]!r}: {status}, {output}")


CLEAN = """[device]
instance = 7
name = "Clean"
vendor = 999
start = 1700000000000
zone_rule = "CET-1CEST,M3.5.0,M10.5.0/3"
[[class]]
instance = 1
name = "All"
priority = [10, 20, 200]
[[destination]]
class = 1
address = "10.1.0.5:47808"
[[object]]
kind = "integer-value"
instance = 1
name = "Freezer"
value = -200
fault_low = -600
fault_high = 600
class = 1
low = -300
high = -150
deadband = 10
[[object]]
kind = "bitstring-value"
instance = 1
name = "Valves"
value = "0000"
class = 1
alarm_values = ["1000"]
mask = "1100"
[[object]]
kind = "multi-state-value"
instance = 1
name = "Boiler"
value = 1
states = 5
class = 1
alarm_values = [3, 4]
[[log]]
instance = 1
name = "History"
size = 100
classes = [1]
"""
# The recipient of the clean site, as one that confirms, and once more at another process.
CONFIRMS = 'address = "10.1.0.5:47808"', 'address = "10.1.0.5:47808"\nconfirmed = true', '\n[[destination]]\nclass = 1\naddress = "10.1.0.5:47808"\nprocess = 2'
# A change of the clean site, the kind of its one warning, and what it says.
HARDLY_MEANT = [
    ('name = "Valves"', 'name = "Freezer"', "name-twice", "line 14"), ('name = "Valves"', 'name = ""', "empty-name", "bitstring-value:1"),
    ("low = -300", "low = -100", "low-above-high", "low -100 is above high -150"), ("deadband = 10", "deadband = 150", "deadband-too-wide", "the deadband 150"),
    ('mask = "1100"', 'mask = "11000"', "another-length", "'11000' of 5 bits"), ('["1000"]', '["10"]', "another-length", "alarm_values has '10'"),
    ("[3, 4]", "[3, 9]", "no-state", "the state 9, and there are 1 to 5"), ("value = 1\n", "value = 3\n", "alarm-at-start", "begins with 3"),
    ("fault_low = -600", "fault_low = 700", "fault-low-above-high", "fault_low 700"), ("high = -150", "high = 700", "limit-behind-fault", "outside of -600 to 600"),
    ('address = "10.1.0.5:47808"', 'address = "10.1.0.5:47808"\ndays = "1111100"', "told-to-nobody", "Sat and Sun; event-log:1 records them"),
    ('address = "10.1.0.5:47808"', 'address = "10.1.0.5:47808"\nfrom = "06:00:00.00"', "told-to-nobody", "every day 00:00 to 06:00"),
    ('address = "10.1.0.5:47808"', 'address = "10.1.0.5:47808"\ntransitions = "101"', "told-to-nobody", "faults are told to nobody at any time"),
    ('[[destination]]\nclass = 1\naddress = "10.1.0.5:47808"\n', "", "told-to-nobody", "at any time"),
    ("[[object]]", '[[destination]]\nclass = 1\naddress = "10.1.0.6:47808"\nfrom = "18:00:00.00"\nto = "06:00:00.00"\n[[object]]',
     "never-open", "a night is two destinations"),
    ('address = "10.1.0.5:47808"', 'address = "10.1.0.5:47808"\n[[destination]]\nclass = 1\naddress = "10.1.0.5:47808"', "recipient-twice", "line 11 again"),
    ("vendor = 999", "vendor = 0", "vendor", "ASHRAE"), ("deadband = 10", "time_delay = 600000", "long-delay", "milliseconds"),
    ("deadband = 10", "detection = false", "no-detection", "never in alarm"), ("instance = 7", "instance = 7\noutbox = 64\n", None, ""),
    ("start = 1700000000000", "start = 4000000000000", "start-ahead", "to come"),
    ("[[object]]", "".join(f'[[destination]]\nclass = 1\naddress = "10.1.1.{number}:47808"\n' for number in range(9)) + "[[object]]", "small-outbox", "300 is ten times as many"),
    # 256 at four changes a second, of which one is given up each 12 s, and at one: 256 / (4 - 1/12) and 256 / (1 - 1/12) seconds.
    (CONFIRMS[0], CONFIRMS[1], "silent-recipient", "once a second fills the outbox of 256 after 4 min, and four times a second after 66 s; from then on"),
    (CONFIRMS[0], CONFIRMS[1] + "\ntransitions = \"110\"", "silent-recipient", "four times a second after 2 min"),
    (CONFIRMS[0], CONFIRMS[1] + CONFIRMS[2], "silent-recipient", "four times a second after 33 s"),
    ("instance = 7\n", "instance = 7\nflush_silent = true\noutbox = 64\n", None, ""),
]
# What has no warning though a recipient confirms: the text says what it wants, nothing changes without a delay, or nobody is told of it.
CALM = [
    ("instance = 7\n", "instance = 7\nflush_silent = true\n"), ("instance = 7\n", "instance = 7\nflush_silent = false\n"),
    ("class = 1\nlow", "class = 1\ntime_delay = 1\nlow", "class = 1\nalarm_values = [\"1", "class = 1\ntime_delay = 1\nalarm_values = [\"1", "class = 1\nalarm_values = [3", "class = 1\ntime_delay_normal = 1\nalarm_values = [3"),
]


# A change by which it is no site, the line and the reason that are told, and whether the program is asked.
REFUSED = [
    ("low = -300", "low = -30.5", 22, 'site refused: bad-value object 1 low\n  "Freezer": -30.5 is no whole number', True),
    ("low = -300", "low = -30.5", 22, 'site refused: bad-value object 1 low\n  "Freezer": -30.5 is no whole number', False),
    ("start = 1700000000000", "start = 1700000000", 5, "would be seconds", True), ('kind = "multi-state-value"', 'kind = "analog-value"', 34, "one of integer-value", False),
    ("classes = [1]", "classes = [9]", 41, "there is no class 9", True), ('name = "Boiler"', 'name = "Boiler', 36, "not-toml", True),
    ("class = 1\nlow", "low", 23, "and this one has none", False),
]


def try_lint(told, program, folder):
    for old, new, kind, text in [("name", "name", None, ""), *HARDLY_MEANT]:
        rows = site_lint.warnings_of(site_text.read(CLEAN.replace(old, new, 1).encode()))
        told.same(f"the warnings with {new!r}", [row.kind for row in rows], [kind] if kind else [])
        told.want(all(text in row.text and row.line for row in rows), f"with {new!r} it warns {rows}")
    see_calm(told)
    site = folder / "site.toml"
    site.write_text(CLEAN.replace("deadband = 10", "deadband = 150"))
    status, output, _ = run("alarm-site", "check", site, "--program", program)
    told.want(status == 0 and f"site.toml:14: warning: integer-value:1" in output and f"a site, says {program}; 1 warning" in output, f"a check with a warning: {status}, {output}")
    told.same("the same as JSON", [row["warning"] for row in lines_of_json(run("alarm-site", "check", site, "--json", "--program", program)[1])], ["deadband-too-wide"])
    told.same("strict", run("alarm-site", "check", site, "--strict", "--program", program)[0], 1)
    for old, new, line, text, by in REFUSED:
        site.write_text(CLEAN.replace(old, new, 1))
        status, output, _ = run("alarm-site", "check", site, "--program", program if by else "none")
        told.want(status == 3 and text in output and f"site.toml:{line}: " in output and f"said by {program if by else 'this tool'}" in output, f"with {new!r}: {status}, {output}")


def see_calm(told):
    """No silent recipient is warned of where the text says what it wants of one, or where nothing changes without a delay."""
    for changes in CALM:
        text = CLEAN.replace(CONFIRMS[0], CONFIRMS[1])
        for old, new in zip(changes[::2], changes[1::2]):
            told.want(old in text, f"{old!r} isn't there to be changed")
            text = text.replace(old, new)
        rows = site_lint.warnings_of(site_text.read(text.encode()))
        told.same(f"the warnings with {changes[1]!r}", [row.kind for row in rows], [])


# What an outbox has to hold, counted by hand: the device's timing, the load, the number of destinations of one recipient that confirm, of another one
# that confirms, and of one that doesn't; what waits for those that are silent, that answer, and that don't confirm; all of it; or None where some are slow.
ROOMS = [
    # Four sendings of 3 s and 0.1 s, and 0.1 s more are 12.5 s, in which 4 + 50 changes come; an answer within 0.2 s is quick enough for four a second.
    ((3000, 3), ("4", "1"), (1, 1, 1), (54, 4, 4), True), ((3000, 3), ("4", "2"), (1, 1, 1), (108, 0, 4), True), ((3000, 3), ("4", "0"), (1, 1, 0), (0, 8, 0), True),
    # Two for each change: 0.2 s for each of eight a second are too long.
    ((3000, 3), ("4", "1"), (2, 2, 0), (108, 8, 0), False),
    # One sending of 1 s: 1 + 0.1 + 0.1 = 1.2 s, in which 10 + 12 changes come.
    ((1000, 0), ("10", "1"), (3, 0, 0), (66, 0, 0), True), ((1000, 0), ("0.5", "1"), (1, 0, 0), (1, 0, 0), True),
]


def see_rooms(told, folder):
    """How large an outbox is to be, beside what was counted by hand; without the key there is none for a recipient that stays silent."""
    path, class_of = folder / "room.toml", CLEAN.index("[[destination]]")
    for (timeout, retries), (changes, silent), counts, wanted, quick in ROOMS:
        them = "".join(
            f'[[destination]]\nclass = 1\naddress = "10.1.0.{place}:47808"\nprocess = {number}\nconfirmed = {str(place < 7).lower()}\n'
            for place, count in zip((5, 6, 7), counts) for number in range(count)
        )
        text = CLEAN[:class_of] + them + CLEAN[CLEAN.index("[[object]]") :]
        for key in ("true", "false"):
            path.write_text(text.replace("instance = 7\n", f"instance = 7\napdu_timeout = {timeout}\nretries = {retries}\nflush_silent = {key}\n", 1))
            words = ["alarm-site", "size", path, "--program", "none", "--changes", changes, "--silent", silent]
            status, output, said = run(*words, "--json")
            found = json.loads(output)["room"] if status == 0 else {}
            # Three objects have an alarm.
            parts = [3 * sum(counts)] + [sum(octets for what, octets in found["parts"].items() if what.startswith(f"recipients that {it}")) for it in ("are", "answer", "don't")]
            told.same(f"what {counts} want at {changes} changes a second", (status, parts, sum(found["parts"].values())), (0, [3 * sum(counts), *wanted], 3 * sum(counts) + sum(wanted)))
            told.same("the outbox that is wanted", found["wanted"], sum(parts) if quick and key == "true" else None)
            text_of = run(*words)[1]
            told.want(("no outbox is large enough" in text_of) == (key == "false") and ("it fills any outbox" in text_of) == (not quick), f"{counts}: {text_of}")
    told.same("without the key it is full after", (json.loads(run(*words[:4], "none", "--changes", "4", "--json")[1])["room"]["full_after"]), 86)


def try_plans(told, program, folder):
    """The size is the program's, and the week tells of each minute who is told by the windows themselves."""
    for path in [TOP / "examples" / "school.toml", TOP / "examples" / "plant.toml", TOP / "cases" / "summer-time.toml", TOP / "cases" / "each-algorithm.toml"]:
        status, output, _ = run("alarm-site", "size", path, "--json", "--program", program)
        told.want(status == 0 and json.loads(output)["octets"] == json.loads(output)["program"], f"the size of {path.name}: {output}")
    site = site_text.read((TOP / "examples" / "plant.toml").read_bytes())
    for of_class, destinations in site_text.lists(site).items():
        for place in range(3):
            rows, other = week.rows_of(destinations, place, lambda found: sorted(it["address"] for it in found)), 0
            for day in range(7):
                for minute in range(0, 1440, 7):
                    at, text = 6000 * minute, f"{minute // 60:02}:{minute % 60:02}:00.00"
                    wanted = sorted(it["address"] for it in destinations if it["days"][day] == "1" and it["transitions"][place] == "1" and it["from"] <= text <= it["to"])
                    other += next(cells[day] for begin, end, cells in rows if begin <= at < end) != wanted
            told.same(f"minutes at which the week of class {of_class} is another", other, 0)
    status, output, _ = run("alarm-site", "describe", TOP / "examples" / "plant.toml")
    told.want(status == 0 and all(text in output for text in (
        '  alarms and faults:      Mon  Tue', "06:00 to 18:00        A    A    A    A    A    AB   AB",
        'integer-value:1 "Flow temperature": above 85 or below 40 for 10 s is an alarm, which ends above 43 and below 82',
        "B  10.0.0.7:47808 process 2, confirms: sent up to 4 times, given up after 12 s",
    )), f"the plan is {output}")
    text = (TOP / "examples" / "plant.toml").read_text(encoding="utf-8").replace("outbox = 512", "outbox = 512\nflush_silent = true", 1)
    (folder / "flushing.toml").write_text(text, encoding="utf-8")
    status, output, _ = run("alarm-site", "describe", folder / "flushing.toml")
    told.want(status == 0 and "given up after 12 s, with all that waits behind it" in output, f"the plan with flush_silent: {output}")
    see_rooms(told, folder)
    told.same("the plan as JSON", json.loads(run("alarm-site", "describe", TOP / "examples" / "plant.toml", "--json")[1])["recipients"]["A"]["address"], "10.0.0.5:47808")


# Journals.


def session(program, site, kept, script):
    ended = subprocess.run([program, "session", str(site), str(kept)], input=script.encode(), capture_output=True, timeout=60, check=False)
    bacnet.want(ended.returncode == 0, f"a session ended with {ended.returncode}, {ended.stderr}")
    return ended.stdout.decode()


STAMP = bacnet.stamp_of(START / 1000)
# The lines of a session, and the events that come of them, as a line of JSON has them, by docs/SCRIPT.md and JOURNAL.md.
PLAYED = [
    (f"set {START} integer-value:1 signed:90", {"act": "write", "object": "integer-value:1", "name": "Tank", "property": "present-value", "value": 90}),
    (f"from {START + 1} 10.0.0.9:47808 {bacnet.acknowledge_alarm(1, 1, TANK, 3, STAMP, STAMP).hex()}",
     {"act": "acknowledgement", "object": "integer-value:1", "transition": "to-offnormal", "state": "high-limit"}),
    (f"pump {START + 2}", {"act": "pump"}),
    (f"from {START + 3} 127.0.0.1:47000 {bacnet.simple_ack(0, 2).hex()}", {"act": "answer", "peer": "127.0.0.1:47000", "invoke": 0, "answer": "simple-ack"}),
    (f"from {START + 4} 10.0.0.9:47808 {bacnet.write_property(2, TANK, 354, bacnet.boolean(True)).hex()}", {"act": "write", "property": "event-algorithm-inhibit", "value": True}),
    (f"fault {START + 5} integer-value:1 7", {"act": "fault", "reliability": "unreliable-other"}),
    (f"set {START + 6} binary-value:1 active", {"act": "write", "object": "binary-value:1", "value": "active"}),
    (f"set {START + 7} bitstring-value:1 bits:0110", {"value": "0110"}), (f"set {START + 8} characterstring-value:1 text:c3b6", {"value": "ö"}),
    (f"set {START + 9} positive-integer-value:1 unsigned:4294967295", {"value": 4294967295}), (f"set {START + 9} integer-value:1 signed:-2147483648", {"value": -2147483648}),
]


def of_kind(kind, value, **keys):
    return "[[object]]", {"kind": kind, "instance": 1, "value": value, **keys}


def small_site(folder, program):
    return serving.blank(
        program, folder, serving.device(outbox=64), serving.of_class(7), serving.told_at(47000, 7, True), serving.tank(1, 7, name="Tank"),
        of_kind("binary-value", "inactive"), of_kind("bitstring-value", "0000"), of_kind("characterstring-value", "ok"), of_kind("positive-integer-value", 1),
    )


def try_journal(told, program, folder):
    site, kept = small_site(folder, program)
    told.same("a blank journal", (run("alarm-journal", "show", kept)[0], run("alarm-journal", "events", kept)[0]), (0, 8))
    session(program, site, kept, "".join(f"{line}\n" for line, _ in PLAYED))
    rows = lines_of_json(run("alarm-journal", "events", kept)[1])
    for number, ((line, wanted), row) in enumerate(zip(PLAYED, rows), 1):
        wanted = {"event": number, "moment": int(line.split()[1]), **wanted}
        told.same(f"the event of {line[:60]}", {key: row.get(key) for key in wanted}, wanted)
    told.same("how many events", len(rows), len(PLAYED))
    told.same("its time", rows[0]["time"], "2023-11-14T22:13:20.000+00:00")
    shown = json.loads(run("alarm-journal", "show", "--json", kept)[1])
    wanted = {"events": len(PLAYED), "device": 1001, "name": "Plant", "last_moment": START + 9, "area": "A", "octets": kept.stat().st_size}
    told.same("what it shows", {key: shown[key] for key in wanted}, wanted)
    told.same("its last moment", journal.last_moment(str(kept)), START + 9)
    some = lines_of_json(run("alarm-journal", "events", kept, "--since", START + 5, "--object", "integer-value:1")[1])
    told.same("events since a moment, of an object", [row["event"] for row in some], [6, 11])
    told.same("its site", run("alarm-journal", "site", kept)[1], site.read_text())
    told.same("a check", run("alarm-journal", "check", kept)[0], 0)
    session(program, site, kept, f"tick {int(time.time() * 1000) + 3_600_000}\nset {int(time.time() * 1000) + 3_600_000} integer-value:1 signed:50\n")
    status, output, said = run("alarm-journal", "show", "--limit", "60", kept)
    told.want(status == 9 and "AHEAD" in output and "ahead of the clock" in said, f"an hour ahead: {status}, {output}, {said}")
    see_guard(told, str(kept))
    see_damage(told, program, folder, site, kept)


def see_damage(told, program, folder, site, kept):
    """Where a journal can't be, the check names the place that the program names."""
    octets, hurt = kept.read_bytes(), folder / "hurt"
    first = 26 + len(site.read_bytes())
    for place, value in [(3, 0), (first + 5 + 8, 99), (first + 1, 255), (first + 4, 200), (first + 5, 255), (first + 5 + 17, 77), (first - 4, 200), (17, 255)]:
        hurt.write_bytes(octets[:place] + bytes([value]) + octets[place + 1 :])
        ended = serving.session(program, site, hurt)
        wanted = re.search(rb"(?:damaged|foreign) (\d+)", ended.stderr)
        status, _, said = run("alarm-journal", "check", hurt)
        at = re.search(r"at octet (\d+)", said)
        told.want(status == 8 and at and wanted and (int(at[1]) == int(wanted[1]) or place == 3), f"octet {place} as {value}: the check says {said!r}, the program {ended.stderr!r}")
    hurt.write_bytes(octets[:-1])
    told.want(run("alarm-journal", "check", hurt)[0] == 8, "a journal that was cut is taken")
    hurt.write_bytes(b"a photo of somebody, and no journal")
    told.want(run("alarm-journal", "show", hurt)[1].endswith("blank: nothing was kept in it yet\n"), "a photo isn't called blank")


class Load(threading.Thread):
    """Writes ever new numbers to a server, eight on their way at a time and some thousand a second, until it is stopped, and counts those that were answered."""

    def __init__(self, port):
        super().__init__(daemon=True)
        self.port, self.answered, self.stops, self.number = port, 0, False, 0

    def run(self):
        with socket.socket(socket.AF_INET, socket.SOCK_DGRAM) as client:
            client.connect((serving.HOST, self.port))
            client.settimeout(1)
            for _ in range(8):
                self.send(client)
            while not self.stops:
                try:
                    self.answered += client.recv(2048)[6] == 0x20
                    self.send(client)
                    time.sleep(0.0005)
                except (TimeoutError, ConnectionRefusedError):
                    time.sleep(0.01)

    def send(self, client):
        self.number += 1
        client.send(bacnet.write_property(self.number % 256, NOTE, 85, bacnet.text(f"{self.number:0{LONG}}")))


# What is written under load: a text of so many octets, so that an area has room for some thousand events.
NOTE, LONG = (names.OBJECT_NUMBERS["characterstring-value"], 1), 240


def filled(program, site, kept):
    """Fills the first area with events up to some fifty before its end, as docs/JOURNAL.md has their octets, and says how many they are."""
    serving.events_in(program, site, kept)
    first = 26 + len(site.read_bytes())
    count = ((kept.stat().st_size - first + 4) // 2 - 4) // (25 + LONG) - 50
    with open(kept, "r+b") as file:
        file.seek(first)
        for number in range(count):
            text = f"{number:0{LONG}}".encode()
            file.write(struct.pack(">BIQBIIBH", 1, 20 + LONG, START + number, 2, NOTE[0] << 22 | NOTE[1], 85, 7, LONG) + text)
    return count


def try_copies(told, program, folder):
    """Copies of the journal of a server under load: each opens, with no fewer events than were answered before it. It tells how it went."""
    site, kept = serving.blank(program, folder, serving.device(outbox=64), of_kind("characterstring-value", "ok"))
    port, before = serving.free_port(), filled(program, site, kept)
    told.same("the events of a journal that was filled by hand", serving.events_in(program, site, kept), before)
    areas, events = [], 0
    with Server(program, site, kept, port, MANY):
        load = Load(port)
        load.start()
        while len(areas) < COPIES or len(set(areas)) < 2 and len(areas) < MOST_COPIES:
            answered, copy = load.answered, folder / "copy"
            status, output, said = run("alarm-journal", "copy", kept, copy, "--json")
            if status != 0:
                told.want(False, f"copy {len(areas) + 1} ended with {status}: {said}")
                break
            found = json.loads(output)
            opened, last = serving.events_in(program, site, copy), journal.last_moment(str(copy))
            good = opened == found["events"] and opened >= max(before + answered, events) and last
            told.want(good, f"copy {len(areas) + 1} opens at {opened}, it told {found}, and {before + answered} were answered before it")
            areas, events = [*areas, found["area"]], opened
            copy.unlink()
        load.stops = True
        load.join()
        told.same("a check of a running journal", run("alarm-journal", "check", kept)[0], 0)
        told.want(run("alarm-journal", "copy", kept, kept)[0] == 1, "a copy onto a file that is there was made")
        told.want(not is_copied_unsynced(kept, folder / "unsynced"), "a copy was made of a journal whose disk can't be synced")
    see_history(told, kept)
    changes = sum(before != behind for before, behind in zip(areas, areas[1:]))
    told.want(len(areas) >= COPIES and set(areas) == {"A", "B"} and changes, f"{len(areas)} copies, of the areas {''.join(areas)}")
    print(f"{len(areas)} copies while {load.answered} writes were answered, {changes} changes of area seen")


def is_copied_unsynced(kept, copy):
    """Whether a copy is made of a journal whose sync fails: it might have an event that the journal's disk hasn't."""
    with unittest.mock.patch.object(os, "fdatasync", side_effect=OSError(errno.EIO, "Input/output error")):
        try:
            journal_command.copy_journal(argparse.Namespace(journal=str(kept), copy=str(copy), json=True))
        except words.Ends as fault:
            return "Input/output error" not in str(fault) or copy.exists()
    return True


class Restless(journal.Journal):
    """A journal whose selector is another one each time, so many times."""

    def __init__(self, path, changes):
        super().__init__(path)
        self.changes = changes

    def selected(self):
        self.changes -= 1
        return self.changes % 2 if self.changes > 0 else 0


def see_guard(told, kept):
    """An area that changed while it was read is read again, and given up where that doesn't end."""
    with Restless(kept, 5) as it:
        told.same("the area behind five changes", (it.settled().number, it.changes < 0), (0, True))
    with Restless(kept, 10_000) as it:
        try:
            told.want(False, f"an area that changes without end was read: {it.settled().snapshot}")
        except journal.NoJournal as fault:
            told.want("while they were read" in str(fault), f"it ends with {fault}")


def see_history(told, kept):
    """Events are numbered on, from one area to the next: all of the last one, and before it those that led up to its snapshot, but for what came with it."""
    _, output, said = run("alarm-journal", "events", kept)
    numbers = [row["event"] for row in lines_of_json(output)]
    shown = json.loads(run("alarm-journal", "show", kept, "--json")[1])
    missing = sorted(set(range(numbers[0], shown["events"] + 1)) - set(numbers))
    ascend = numbers == sorted(set(numbers)) and numbers[-1] == shown["events"]
    told.want(ascend and missing and missing[-1] == shown["snapshot_events"], f"events {numbers[:1]} to {numbers[-1:]} without {missing} of {shown}")
    told.want(len(missing) <= 8 and f"event {missing[0]}" in said, f"without {missing} it says {said!r}")


# Reports.


def try_reports(told, program, folder):
    """A session in words, with the counts, states and names that its script has."""
    site, kept = small_site(folder, program)
    script, drawn = "".join(f"{line}\n" for line, _ in PLAYED) + "nonsense\n", folder / "states.svg"
    lines = folder / "lines"
    lines.write_text(script)
    said = subprocess.run([program, "session", str(site), str(kept)], input=script.encode(), capture_output=True, timeout=60, check=False).stdout.decode()
    status, output, _ = run("alarm-report", "--site", site, "--script", lines, "--svg", drawn, given=said)
    for text in [
        '  2023-11-14 22:13:20  set integer-value:1 "Tank" 90: event 1', 'integer-value:1 "Tank": normal -> high-limit', "to 10.0.0.9:47808: SimpleACK of AcknowledgeAlarm, invoke ID 1",
        'to 127.0.0.1:47000: confirmed notification, invoke ID 0: alarm: integer-value:1 "Tank" normal -> high-limit at '
        "2023-11-14 22:13:20.00, value 90, deadband 5, limit 80, class 7, priority 100, to be acknowledged",
        'integer-value:1 "Tank": normal -> fault', 'set characterstring-value:1 "ö": event 9',
    ]:
        told.want(status == 0 and text in output, f"the report lacks {text!r}: {output}")
    told.want(re.search(r'\ninteger-value:1 "Tank"  \^+\.*F+\n', output), f"the timeline is {output[-400:]}")
    titles = [it.text for it in xml.etree.ElementTree.parse(drawn).iter("{http://www.w3.org/2000/svg}title")]
    told.want(any(text.startswith('integer-value:1 "Tank": high-limit from 2023-11-14 22:13:20') for text in titles), f"the picture has {titles}")
    rows = lines_of_json(run("alarm-report", "--json", given=said)[1])
    counts = len(rows), sum(row["kind"] == "entered" for row in rows), sum("datagram" in row for row in rows)
    told.same("lines of JSON", counts, (len(said.splitlines()), len(PLAYED), said.count(" send ")))
    told.want(len(run("alarm-report", "--brief", given=said)[1]) < len(run("alarm-report", given=said)[1]), "the brief report isn't shorter")
    told.same("what is no report", run("alarm-report", given="open 0\nhello\n")[0], 4)
    see_curves(told, program, folder)


def see_curves(told, program, folder):
    """A plant that is made up is a script that a session takes to its end, and in which the freezer gets too warm and cold again."""
    site, kept = TOP / "examples" / "school.toml", folder / "school"
    serving.make_journal(program, site, kept)
    status, script, said = run("alarm-feed", "--curves", TOP / "tools" / "school.curves", "--script", "1704110400000", "--for", "5400", "--every", "10")
    told.want(status == 0 and not said, f"curves ended with {status}, {said}")
    played = session(program, site, kept, script)
    told.want("change integer-value:1 normal high-limit" in played and "change integer-value:1 high-limit normal" in played, f"the curves moved {re.findall('change .*', played)}")
    (folder / "curves").write_text("integer-value:1 repeat 4: 0 0, 2 100, 4 0\nbinary-value:1: 1 active, 3 inactive\n")
    status, output, _ = run("alarm-feed", "--curves", folder / "curves", "--print", "--for", "6", "--speed", "1000")
    wanted = ["0", "50", "100", "50", "0", "50", "100"]
    printed = [line.split() for line in output.splitlines()]
    found = [[word for of, word in printed if of == name] for name in ("integer-value:1", "binary-value:1")]
    told.same("curves that are printed", (status, found), (0, [wanted, ["active", "inactive"]]))
    (folder / "curves").write_text("integer-value:1: 0 5, 10 nonsense\n")
    told.want(run("alarm-feed", "--curves", folder / "curves", "--print", "--for", "1")[0] == 2, "a curve that is none is taken")
