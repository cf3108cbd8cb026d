"""A ward with a past, and a server of it in a folder of its own that is begun and ended as its unit would do it, for checks/change."""
import json
import os
import pathlib
import shutil
import signal
import socket
import subprocess
import sys
import threading
import time

import serving
import tooling

TOP = pathlib.Path(__file__).resolve().parent.parent
sys.path.insert(0, str(TOP / "tools"))
from alarm_tools import journal, octets

# For how long a command is awaited: on a busy machine each takes long.
SECONDS = 300
START = 1_780_000_000_000
COUNTER = (48, 3)
PRESENT_VALUE = 85
MAKING = threading.Lock()
# The class that tells a desk which confirms and a pager which is dead, the one that tells a screen, and the one that tells nobody.
VITAL, TECHNICAL, HOUSE = 1, 2, 3


def tank(which, name, of, value, limits, **keys):
    kind, instance = which.split(":")
    return "[[object]]", {"kind": kind, "instance": int(instance), "name": name, "value": value, "class": of, "low": limits[0], "high": limits[1], "deadband": 5, **keys}


def contact(instance, name, of, **keys):
    return "[[object]]", {"kind": "binary-value", "instance": instance, "name": name, "value": "inactive", "class": of, "alarm_value": "active", **keys}


def told(of, port, **keys):
    return "[[destination]]", {"class": of, "address": f"{serving.HOST}:{port}", **keys}


def ward_text(desk, dead):
    """A ward of twelve points and three classes."""
    classes = [
        ("[[class]]", {"instance": VITAL, "name": "Vital", "priority": [10, 20, 200], "ack_required": [True, True, False]}),
        ("[[class]]", {"instance": TECHNICAL, "name": "Technical", "priority": [120, 120, 220], "ack_required": [True, False, False]}),
        ("[[class]]", {"instance": HOUSE, "name": "House", "priority": [200, 200, 250], "ack_required": [False, False, False]}),
    ]
    recipients = [told(VITAL, desk, process=1, confirmed=True), told(VITAL, dead, process=2, confirmed=True), told(TECHNICAL, desk, process=3)]
    points = [
        tank("integer-value:1", "Vaccine refrigerator", VITAL, 50, (20, 80)),
        tank("integer-value:2", "Medicine refrigerator", VITAL, 50, (20, 80), time_delay=10),
        tank("positive-integer-value:1", "Oxygen pressure", VITAL, 420, (350, 500)),
        tank("positive-integer-value:2", "Suction", TECHNICAL, 300, (200, 400)),
        contact(1, "Nurse call failure", VITAL),
        contact(2, "Fire dampers", HOUSE),
        contact(3, "Pharmacy door", TECHNICAL, time_delay=120),
        contact(4, "Water leak", TECHNICAL),
        ("[[object]]", {"kind": "multi-state-value", "instance": 1, "name": "Ventilation", "value": 1, "states": 4, "class": TECHNICAL, "alarm_values": [3]}),
        tank("integer-value:3", "Room temperature", HOUSE, 220, (160, 280)),
        serving.integer(4, value=210, name="Corridor temperature"),
        ("[[object]]", {"kind": "positive-integer-value", "instance": 3, "name": "Counter", "value": 0}),
    ]
    log = "[[log]]", {"instance": 1, "name": "History", "size": 100, "classes": [VITAL, TECHNICAL, HOUSE]}
    device = "[device]", {"instance": 7002, "name": "Ward 7B", "vendor": 999, "start": START}
    return "# A ward.\n" + serving.site_text(device, *classes, *recipients, *points, log)


# One point more, as an engineer appends it.
THIRTEENTH = """
[[object]]
kind = "positive-integer-value"
instance = 13
name = "Freezer of the laboratory"
value = 100
class = 1
low = 50
high = 200
"""


def past(events=0):
    """A past of the ward in which five objects go into alarm, one of them after its delay, and two others come and go; and so many writes more."""
    moments = iter(range(START + 1000, START + 10_000_000_000, 1000))
    lines = [f"set {next(moments)} positive-integer-value:3 unsigned:{number}" for number in range(1, events + 1)]
    for text in (
        "binary-value:4 active", "positive-integer-value:1 unsigned:300", "integer-value:1 signed:90", "integer-value:2 signed:10", "binary-value:4 inactive",
        "binary-value:1 active", "multi-state-value:1 unsigned:3", "integer-value:3 signed:300", "integer-value:3 signed:220",
    ):
        lines.append(f"set {next(moments)} {text}")
    lines += [f"tick {next(moments)}" for _ in range(12)]
    return "".join(f"{line}\n" for line in lines)


# The state in which each object is behind that, with its name.
IN_ALARM = {
    "positive-integer-value:1": "low-limit", "integer-value:1": "high-limit", "integer-value:2": "low-limit", "binary-value:1": "offnormal",
    "multi-state-value:1": "offnormal",
}

RESTART = """#!/bin/sh
# Ends the server and begins it, as systemd does with the unit.
cd "$(dirname "$0")" || exit 1
{ kill "$(cat pid)"; } 2> /dev/null
flock --timeout 60 state/current/journal true
. ./begin
"""
BEGIN = """
begin() {
    bin/alarm-server change --finish --folder state --site etc/site.toml 2>> finished || true
    : > errors
    setsid bin/alarm-server serve state/current/site.toml state/current/journal > served 2> errors < /dev/null &
    echo $! > pid
    while ! grep -q '^listening' errors; do [ -e "/proc/$(cat pid)" ] || return 1; sleep 0.005; done
}
# Again where it ends, as the unit, but not for good.
tries=0
until begin; do tries=$((tries + 1)); [ "$tries" -lt 5 ] || exit 1; sleep 1; done
"""
# Stands before libexec/change: it kills the one who prepares, or the one who finishes, at a step whose name stands in the file `kill`.
KILLING = """#!/usr/bin/env python3
import os, pathlib, signal, sys, time
HERE = pathlib.Path(__file__).resolve().parent
sys.path[:0] = [str(HERE.parent.parent / "lib" / "alarm-server")]
from alarm_tools import change, change_command, place
seen = HERE.parent.parent
def passed(step):
    with open(seen / "steps", "a") as file:
        file.write(f"{step} {time.monotonic():.3f}\\n")
    try:
        found = (seen / "kill").read_text()
    except OSError:
        return
    if found == step:
        (seen / "kill").unlink()
        os.kill(os.getpid(), signal.SIGKILL)
for module in (change, change_command, place):
    module.passed = passed
sys.exit(change_command.main())
"""


class Unit:
    """A folder in which the command is installed with a program, and a server is begun and ended."""

    def __init__(self, folder, program, tools=None):
        self.folder, self.state, self.site = folder, folder / "state", folder / "etc" / "site.toml"
        for name in ("bin", "libexec/alarm-server", "lib/alarm-server", "state", "etc"):
            (folder / name).mkdir(parents=True)
        shutil.copy2(TOP / "alarm-server", folder / "bin")
        libexec = folder / "libexec" / "alarm-server"
        for name in ("libexec/explain", "VERSION"):
            shutil.copy2(TOP / name, libexec)
        shutil.copy2(program, libexec / "alarm_server")
        self.write(libexec / "change", KILLING)
        (folder / "lib" / "alarm-server" / "alarm_tools").symlink_to(tools or TOP / "tools" / "alarm_tools")
        for tool in ("alarm-site", "alarm-journal", "alarm-client"):
            shutil.copy2(TOP / "tools" / tool, folder / "lib" / "alarm-server")
            (folder / "bin" / tool).symlink_to(f"../lib/alarm-server/{tool}")
        self.write(folder / "restart", RESTART)
        self.write(folder / "begin", BEGIN)
        self.port = serving.free_port()
        self.environment = {**{key: it for key, it in os.environ.items() if not key.startswith("ALARM_")}, "ALARM_SERVER_ADDRESS": serving.HOST, "ALARM_SERVER_PORT": str(self.port)}

    @staticmethod
    def write(path, text):
        path.write_text(text, encoding="utf-8")
        path.chmod(0o755)

    def run(self, *words, given="", seconds=SECONDS):
        """How a command of the folder ended: its status, its output and its errors together."""
        ended = subprocess.run(
            [self.folder / "bin" / words[0], *map(str, words[1:])], cwd=self.folder, env=self.environment, input=given, capture_output=True, text=True, timeout=seconds, check=False
        )
        return ended.returncode, ended.stdout + ended.stderr

    def change(self, *words, **keys):
        return self.run("alarm-server", "change", "--folder", "state", "--site", "etc/site.toml", "--restart", "./restart", *words, **keys)

    def begin(self):
        """As the unit: first what was begun is finished, and then the server."""
        ended = subprocess.run(["sh", "-e", "-c", ". ./begin"], cwd=self.folder, env=self.environment, capture_output=True, text=True, timeout=SECONDS, check=False)
        if ended.returncode:
            raise ValueError(f"the server doesn't begin: {ended.stderr}{(self.folder / 'errors').read_text(encoding='utf-8')}")

    def end(self):
        """Ends the server, if one runs."""
        try:
            os.kill(int((self.folder / "pid").read_text(encoding="ascii")), signal.SIGTERM)
        except (OSError, ValueError):
            return
        subprocess.run(["flock", "--timeout", str(SECONDS), str(self.state / "current" / "journal"), "true"], check=True)

    def play(self, lines):
        """Plays a script to the pair at the old places, or to that in force."""
        there = self.state / "current"
        site, kept = (there / "site.toml", there / "journal") if there.is_symlink() else (self.site, self.state / "journal")
        status, told = self.run("alarm-server", "session", site, kept, given=lines)
        if status:
            raise ValueError(f"a session ended with {status}: {told[-300:]}")
        return told

    def client(self, *words):
        """What alarm-client tells, as JSON where it is asked for so."""
        status, told = self.run("alarm-client", *words)
        if status:
            raise ValueError(f"alarm-client {' '.join(map(str, words))} ended with {status}: {told[-300:]}")
        return [json.loads(line) for line in told.splitlines()] if "--json" in words else told

    def asks(self, *lines):
        """What alarm-client tells for each of several lines of words, which one process does in turn."""
        told = tooling.run_many("client_command", [[*line, "--to", f"{serving.HOST}:{self.port}", "--retries", "15"] for line in lines])
        if bad := [(line, it) for line, it in zip(lines, told) if it[0]]:
            raise ValueError(f"alarm-client {bad[0]}")
        return [it[1] for it in told]

    def text(self):
        return (self.state / "current" / "site.toml").read_text(encoding="utf-8")

    def steps(self):
        found = self.folder / "steps"
        return [line.rsplit(" ", 1)[0] for line in found.read_text(encoding="utf-8").splitlines()] if found.exists() else []

    def __enter__(self):
        return self

    def __exit__(self, *_):
        self.end()


def ward(folder, program, events=0, tools=None):
    """A ward whose past is in the two files of old, with a server that is not begun yet."""
    unit = Unit(folder, program, tools)
    unit.desk = socket.socket(socket.AF_INET, socket.SOCK_DGRAM)
    unit.desk.bind((serving.HOST, 0))
    unit.site.write_text(ward_text(unit.desk.getsockname()[1], serving.free_port()), encoding="utf-8")
    status, said = unit.run("alarm-server", "new-journal", unit.site, unit.state / "journal")
    if status:
        raise ValueError(said)
    unit.play(past(events))
    return unit


def lonely_ward(folder, program, made, tools=None):
    """The same, whose recipients are all dead; its two files are copies of those in a folder, and are made there where they aren't yet."""
    unit = Unit(folder, program, tools)
    with MAKING:
        if not (made / "journal").exists():
            first = ward(made / "first", program)
            first.desk.close()
            shutil.copy2(first.site, made / "site.toml")
            os.replace(first.state / "journal", made / "journal")
    shutil.copy2(made / "site.toml", unit.site)
    shutil.copy2(made / "journal", unit.state / "journal")
    return unit


class Beside:
    """What does its work in a thread of its own, in a block."""

    def __init__(self, work):
        self.stops, self.thread = False, threading.Thread(target=work, daemon=True)

    def __enter__(self):
        self.thread.start()
        return self

    def __exit__(self, *_):
        self.stops = True
        self.thread.join()


class Desk(Beside):
    """The recipient who confirms what it is told, in a block."""

    def __init__(self, socket_of):
        super().__init__(self.confirm)
        self.socket, self.told = socket_of, []
        self.socket.settimeout(0.1)

    def confirm(self):
        while not self.stops:
            try:
                datagram, sender = self.socket.recvfrom(2048)
                message = octets.read(datagram)
            except (OSError, ValueError):
                continue
            self.told.append(message)
            if message.kind == "request":
                self.socket.sendto(octets.simple_ack(message.invoke, message.number), sender)


class Writer(Beside):
    """Writes ever greater numbers to the ward's counter, each until it is answered, in a block. It knows for how long nobody answered."""

    def __init__(self, unit, pause=0.1, behind=100_000):
        super().__init__(self.write)
        self.unit, self.pause, self.behind, self.answered, self.longest = unit, pause, behind, [], 0.0

    def write(self):
        asking = socket.socket(socket.AF_INET, socket.SOCK_DGRAM)
        number, last = self.behind, time.monotonic()
        while not self.stops:
            number, patience = number + 1, 0.05
            request = octets.write_property(number % 256, COUNTER, PRESENT_VALUE, octets.application(2, number))
            while not self.stops:
                # It asks less often where nobody answers, so that a slow server isn't flooded.
                asking.settimeout(patience)
                patience = min(2 * patience, 5)
                try:
                    asking.sendto(request, (serving.HOST, self.unit.port))
                    answer = octets.read(asking.recvfrom(2048)[0])
                except (OSError, ValueError):
                    continue
                if (answer.kind, answer.invoke) == ("simple-ack", number % 256):
                    self.answered.append(number)
                    break
            now = time.monotonic()
            self.longest, last = max(self.longest, now - last), now
            time.sleep(self.pause)
        asking.close()


def written(path):
    """Each number that was written to the counter, by the journal's records."""
    with journal.Journal(path) as it:
        older, area = it.history()
        return [
            record.fields["value"][1] for part in filter(None, (older, area)) for record in journal.records_in(part)
            if record.act == 2 and (record.fields["object"], record.fields["property"]) == (COUNTER, PRESENT_VALUE)
        ]


def missing(unit, answered):
    """The numbers that were answered and aren't in the journal, or not in their order."""
    found = [it for it in written(unit.state / "current" / "journal") if it > 100_000]
    return [it for it in answered if it not in set(found)] + ([] if found == sorted(found) else ["order"])
