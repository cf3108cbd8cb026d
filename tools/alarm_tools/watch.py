"""What a console looks at: the active alarms of a server, asked again and again, and what is to be done about those that nobody acknowledges."""
import datetime
import os
import subprocess
import sys
import threading
import time

from . import alarms, client, frequent, names, words
from .client import NoAnswer, Refusal
from .client_command import acknowledge_row
from .language import say

# How often a command is tried that fails, and for how long it may run, in seconds.
TRIES, SECONDS = 3, 60


# How often the logs are read for what comes most often, in seconds.
OF_LOGS = 60


class Watch:
    """The alarms as they were when they were last asked for. Its calls may come from several threads; one of them asks at a time.

    Each alarm has a number: the order in which this console first saw it in its state. By it a page tells what is new to who looks.
    """

    def __init__(self, asked, escalations=(), zone=None, record=None):
        self.asked, self.asking, self.lock, self.record = asked, threading.RLock(), threading.Lock(), record
        self.alarms, self.error, self.as_of, self.device = [], "it is asked for the first time", None, None
        self.run, self.numbers, self.last = f"{time.time_ns():x}", {}, 0
        self.most = None
        self.escalation = Escalation(escalations, zone)

    def refresh(self):
        """Asks once. Where nobody answers, what was known stays, with the reason."""
        with self.asking:
            try:
                device = self.called(self.asked.device()[0])
                found = alarms.alarms_of(self.asked)
            except (NoAnswer, Refusal, ValueError, OSError) as error:
                alarms.details_of(self.asked).forget()
                with self.lock:
                    self.error = str(error)
                return
            self.number(found)
            with self.lock:
                self.device, self.alarms, self.error, self.as_of = device, found, None, time.time()
            self.escalation.look(found)

    def number(self, found):
        """Gives each alarm its number: the same for as long as it stays as it is."""
        before, self.numbers = self.numbers, {}
        for alarm in sorted(found, key=lambda it: it["since"] or ""):
            key = alarm["object"], alarm["state"], alarm["since"]
            if key not in before:
                self.last += 1
            self.numbers[key] = alarm["number"] = before.get(key, self.last)

    def called(self, of):
        return words.named(names.object_text(of), self.asked.name(of))

    def state(self):
        """All that a page shows, as it is now."""
        with self.lock:
            return {
                "device": self.device, "where": self.asked.where(), "as_of": self.as_of, "error": self.error, "alarms": list(self.alarms), "run": self.run,
                "last": self.last,
            }

    def acknowledge(self, object_text, by, address=None):
        """Acknowledges what there is to acknowledge of an object, and says in words what came of it, and whether it was done."""
        with self.asking:
            try:
                of = names.object_from(object_text)
                row = next((it for it in self.asked.summaries() if it.object == of), None)
                done, called = acknowledge_row(self.asked, row, (by, 0, address), self.record) if row else [], self.called(of)
            except (NoAnswer, Refusal, ValueError, OSError) as error:
                return say("{} isn't acknowledged: {}", object_text, error), False
            self.refresh()
        which = say(" and ").join(say(it) for it, _ in done)
        return (say("{}: {} acknowledged", called, which) if done else say("{}: there was nothing to acknowledge", called)), True

    def read_logs(self, every, stop):
        """Reads the logs at once, and then each minute, until an event is set: `most` then has what came most often in a week, and since when the logs tell all."""
        with client.Client(self.asked.address, self.asked.wait, self.asked.retries) as asked:
            logs = frequent.Logs(asked)
            while True:
                try:
                    logs.read()
                    rows, since = logs.most()
                    asked.learn_names([it.object for it in rows])
                    self.most = [{"object": names.object_text(it.object), "name": asked.names.get(it.object), "times": it.count, "last": it.last} for it in rows], since
                    pause = OF_LOGS
                except (NoAnswer, Refusal, ValueError, OSError):
                    asked.names.clear()
                    pause = every
                if stop.wait(pause):
                    return

    def go_on(self, every, stop):
        """Asks at once, and then again and again, until an event is set."""
        self.refresh()
        while not stop.wait(every):
            self.refresh()


class Escalation:
    """Commands that are run for what nobody has acknowledged after some minutes, once for each transition and each command."""

    def __init__(self, commands, zone):
        self.commands, self.zone, self.seen, self.done, self.running = commands, zone, {}, {}, set()

    def look(self, alarms):
        now, open_ones = time.monotonic(), set()
        for alarm in alarms:
            for transition in alarm["unacknowledged"]:
                key = alarm["object"], transition, alarm["times"][transition]
                open_ones.add(key)
                first = self.seen.setdefault(key, now)
                waited = self.waited(alarm["times"][transition], now - first)
                for place, (minutes, command) in enumerate(self.commands):
                    if waited >= 60 * minutes:
                        self.begin((*key, place), command, alarm, transition, waited)
        for table in (self.seen, self.done):
            for key in [it for it in table if it[:3] not in open_ones]:
                del table[key]

    def waited(self, stamp, seen):
        """For how many seconds a transition waits: by its stamp where the device's clock is known, and else since it was first seen."""
        if self.zone is None or stamp is None:
            return seen
        return time.time() - self.zone.moment(datetime.datetime.strptime(stamp, "%Y-%m-%d %H:%M:%S.%f")) / 1000

    def begin(self, key, command, alarm, transition, waited):
        if self.done.get(key, 0) >= TRIES or key in self.running:
            return
        self.done[key] = self.done.get(key, 0) + 1
        self.running.add(key)
        threading.Thread(target=self.run, args=(key, command, environment(alarm, transition, waited)), daemon=True).start()

    def run(self, key, command, variables):
        """Runs a command, with what it is about in its environment. One that fails is tried again at the next look."""
        try:
            ran = subprocess.run(["/bin/sh", "-c", command], env={**os.environ, **variables}, stdin=subprocess.DEVNULL, timeout=SECONDS, check=False)
            failed = f"ended with {ran.returncode}" if ran.returncode else None
        except (OSError, subprocess.SubprocessError) as error:
            failed = str(error)
        if failed:
            print(f"alarm-console: {command}: {failed}", file=sys.stderr, flush=True)
        else:
            self.done[key] = TRIES
        self.running.discard(key)


def environment(alarm, transition, waited):
    """What a command is told, as variables: no value of it becomes a word of the shell."""
    return {
        "ALARM_OBJECT": alarm["object"], "ALARM_NAME": alarm["name"] or "", "ALARM_STATE": alarm["state"], "ALARM_TRANSITION": transition,
        "ALARM_TIME": alarm["times"][transition] or "", "ALARM_PRIORITY": str(alarm["priority"]), "ALARM_MINUTES": str(int(waited // 60)),
    }
