"""Whom to tell when of an alarm that nobody acknowledges, that lasts, or of a server that doesn't answer; and what was told already."""
import collections
import datetime
import json
import os
import pathlib
import sys
import threading
import time

from . import client, names, octets, values, ways, words
from .alarms import alarms_of
from .words import CANNOT_OPEN, Ends

# A step: `unacknowledged`, `lasting` or `no-answer`, behind how many minutes, and by which way.
Step = collections.namedtuple("Step", "kind minutes way")
WHY = {"unacknowledged": "not acknowledged for {} min", "lasting": "in alarm for {} min", "no-answer": "no answer for {} min"}
# Behind how many seconds a way is tried again that failed, at most.
MOST_PAUSE = 300
# Of each state the property of an integer value that has the limit.
LIMITS = {"high-limit": "high-limit", "low-limit": "low-limit"}


def called(step):
    return f"{step.kind} {step.minutes:g} {step.way.kind}:{step.way.whom}"


# What was told.


class Ledger:
    """What was told and first seen, by keys; in a file too, where there is one, so that a new start doesn't tell it again."""

    def __init__(self, path):
        self.path, self.lock, self.rows, self.is_new = path and pathlib.Path(path), threading.Lock(), {}, False
        if not self.path or not self.path.exists():
            return
        try:
            for row in json.loads(self.path.read_text(encoding="utf-8")):
                self.rows[tuple(row["key"])] = (int(row["times"]), float(row["seen"]))
        except (ValueError, KeyError, TypeError):
            raise Ends(CANNOT_OPEN, f"{path} isn't what --keep has written: move it away, and what is open is told once more") from None
        except OSError as error:
            raise Ends(CANNOT_OPEN, f"{path}: {error.strerror}") from None

    def seen(self, key, now):
        """When a key was seen first."""
        with self.lock:
            self.is_new = self.is_new or key not in self.rows
            return self.rows.setdefault(key, (0, now))[1]

    def times(self, key):
        return self.rows.get(key, (0, 0))[0]

    def told(self, counts, now):
        """Notes how often each of several keys was told by now."""
        with self.lock:
            for key, count in counts.items():
                self.rows[key] = (count, self.rows.get(key, (0, now))[1])
            self.is_new = True
        self.write()

    def forget(self, open_ones):
        """Leaves out each key whose alarm isn't open any more."""
        with self.lock:
            gone = [key for key in self.rows if key[1:4] not in open_ones]
            for key in gone:
                del self.rows[key]
            self.is_new = self.is_new or bool(gone)

    def write(self):
        """Replaces the file at once, by one that is on the disk, where something is new. Others may not read it: a key has the way."""
        with self.lock:
            if not self.path or not self.is_new:
                return
            beside = self.path.with_name(f".{self.path.name}.{os.getpid()}")
            rows = [{"key": key, "times": times, "seen": seen} for key, (times, seen) in self.rows.items()]
            try:
                with open(os.open(beside, os.O_WRONLY | os.O_CREAT | os.O_TRUNC, 0o600), "w", encoding="utf-8") as file:
                    file.write(json.dumps(rows))
                    file.flush()
                    os.fsync(file.fileno())
                os.replace(beside, self.path)
                self.is_new = False
            except OSError as error:
                print(f"alarm-escalation: {self.path}: {error.strerror}: a new start would tell again what was told", file=sys.stderr, flush=True)


class Record:
    """The lines of what was sent, in a file, and in short on standard output."""

    def __init__(self, path):
        self.file, self.lock = words.opened(path, "a", encoding="utf-8") if path else None, threading.Lock()

    def put(self, step, message, failed):
        told = [{key: it[key] for key in ("object", "name", "state", "transition", "time", "value", "limit", "text") if it.get(key) is not None} for it in message["alarms"]]
        line = {
            "time": datetime.datetime.now().astimezone().isoformat(timespec="seconds"), "step": f"{step.kind} {step.minutes:g}", "way": ways.shown(step.way),
            "why": message["why"], "sent": not failed, **({"failed": failed} if failed else {}), "alarms": told,
        }
        with self.lock:
            try:
                if self.file:
                    self.file.write(words.json_line(line) + "\n")
                    self.file.flush()
            except OSError as error:
                print(f"alarm-escalation: {self.file.name}: {error.strerror}: it isn't recorded", file=sys.stderr, flush=True)
            what = ", ".join(words.named(it["object"], it.get("name")) for it in told[:3]) + (f" and {len(told) - 3} more" if len(told) > 3 else "")
            words.put(f"{'FAILED' if failed else 'told'}: {ways.shown(step.way)}: {message['why']}" + (f": {what}" if what else "") + (f": {failed}" if failed else ""))


# When.


class Escalation:
    """The steps over a server: each look asks for its alarms, and begins what is due. A way that hangs keeps no other one waiting."""

    def __init__(self, asked, steps, ledger, record, settings):
        self.asked, self.steps, self.ledger, self.record = asked, steps, ledger, record
        self.zone, self.sender, self.every = settings
        self.device, self.busy, self.pauses = None, set(), {}

    def look(self):
        """Asks once, and begins each step that is due."""
        now = time.time()
        try:
            self.device = self.device or words.named(names.object_text(self.asked.device()[0]), self.asked.name(self.asked.device()[0]))
            alarms = alarms_of(self.asked)
        except (client.NoAnswer, client.Refusal, ValueError, OSError) as error:
            self.begin_all(lambda step: self.silent(step, now, str(error)))
            return
        self.ledger.forget(open_of(alarms))
        self.begin_all(lambda step: self.due(step, alarms, now))

    def begin_all(self, find):
        """Begins each step for which there is something to tell, and that isn't at it and doesn't wait behind a failure."""
        for step in self.steps:
            if step not in self.busy and self.pauses.get(step, (0, 0))[0] <= time.monotonic() and (found := find(step)):
                self.busy.add(step)
                threading.Thread(target=self.send_all, args=(step, found), daemon=True).start()
        self.ledger.write()

    def message(self, why, alarms):
        return {"why": why, "device": self.device, "where": self.asked.where(), "alarms": alarms}

    def silent(self, step, now, error):
        """What a step tells of a server that doesn't answer: a message, and of each key how often it was told then."""
        if step.kind != "no-answer":
            return []
        key = (called(step), "", "no-answer", "")
        minutes = (now - self.ledger.seen(key, now)) / 60
        if minutes < step.minutes or self.ledger.times(key):
            return []
        return [(self.message(f"{WHY[step.kind].format(int(minutes))}: {error}", []), {key: 1})]

    def due(self, step, alarms, now):
        """What a step tells of these alarms: a message for all of them, and for a command one for each; and of each key how often it was told then."""
        found = []
        for alarm in alarms if step.kind != "no-answer" else []:
            for transition, stamp in entries_of(step, alarm):
                key = (called(step), alarm["object"], transition, stamp or "")
                waited = max(now - self.ledger.seen(key, now), self.waited(stamp, now)) / 60
                count = int(waited // max(step.minutes, 1e-9)) if step.kind == "lasting" else int(waited >= step.minutes)
                if count > self.ledger.times(key):
                    found.append((alarm | {"transition": transition, "time": stamp, "minutes": int(waited)}, {key: count}))
        found = [(it | (facts_of(self.asked, it) if place < ways.IN_FULL else {}), counts) for place, (it, counts) in enumerate(found)]
        if step.way.kind != "command" and found:
            found = [([it for it, _ in found], {key: count for _, counts in found for key, count in counts.items()})]
        else:
            found = [([it], counts) for it, counts in found]
        return [(self.message(WHY[step.kind].format(max(it["minutes"] for it in its)), its), counts) for its, counts in found]

    def waited(self, stamp, now):
        """For how many seconds a transition lies back by the device's clock, where that is known."""
        if self.zone is None or not stamp:
            return 0
        return now - self.zone.moment(datetime.datetime.strptime(stamp, "%Y-%m-%d %H:%M:%S.%f")) / 1000

    def send_all(self, step, found):
        """Tells by a step's way, until one message fails. It is tried again, at first soon and then each five minutes, for as long as it is due."""
        try:
            for message, counts in found:
                if not self.send(step, message, counts):
                    break
        finally:
            self.busy.discard(step)

    def send(self, step, message, counts):
        """Tells a message, notes and records that, and says whether it was told."""
        failed = None
        try:
            ways.tell(step.way, message, self.sender)
            self.ledger.told(counts, time.time())
            self.pauses.pop(step, None)
        except ways.Failed as fault:
            failed = str(fault)
            pause = min(2 * self.pauses.get(step, (0, self.every / 2))[1], MOST_PAUSE)
            self.pauses[step] = (time.monotonic() + pause, pause)
        self.record.put(step, message, failed)
        return not failed


def entries_of(step, alarm):
    """The transitions of an alarm of which a step tells, with their stamps."""
    if step.kind == "unacknowledged":
        return [(it, alarm["times"][it]) for it in alarm["unacknowledged"]]
    return [("lasts", alarm["since"])] if alarm["active"] else []


def open_of(alarms):
    """What is open: of each alarm its transitions that wait, and that it lasts."""
    found = {(it["object"], transition, it["times"][transition] or "") for it in alarms for transition in it["unacknowledged"]}
    return found | {(it["object"], "lasts", it["since"] or "") for it in alarms if it["active"]}


def facts_of(asked, alarm):
    """What is told of an alarm besides: its value, the limit or the alarm values, its reliability, and the text of the transition."""
    of, facts = names.object_from(alarm["object"]), {}
    place = names.TRANSITIONS.index(alarm["transition"]) if alarm["transition"] in names.TRANSITIONS else names.transition_to(state_number(alarm["state"]))
    wanted = [("value", "present-value", None), ("text", "event-message-texts", place + 1)]
    if alarm["state"] in LIMITS:
        wanted.append(("limit", LIMITS[alarm["state"]], None))
    if alarm["state"] == "fault":
        wanted.append(("reliability", "reliability", None))
    for key, name, index in wanted:
        number = names.PROPERTY_NUMBERS[name]
        try:
            found = values.value_of(of, number, asked.read(of, number, index), index)
        except (client.NoAnswer, client.Refusal, ValueError, OSError):
            continue
        if found not in (None, ""):
            facts[key] = found
    return facts


def state_number(name):
    return next((number for number, it in names.STATES.items() if it == name), octets.OFFNORMAL)
