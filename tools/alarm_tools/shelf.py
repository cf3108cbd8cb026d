"""Alarms that somebody put on the shelf for a while: they are inhibited, come back by themselves, and are on the record."""
import contextlib
import fcntl
import json
import os
import pathlib
import re
import sys
import time

from . import audit, client, names, octets, words

LONGEST = 7 * 86400
UNITS = {"s": 1, "m": 60, "h": 3600, "d": 86400}
# How often what is due is looked for, and how often a server that doesn't answer or refuses is asked again, in seconds.
EVERY, AGAIN = 0.5, 5.0


def default_path():
    """The shelf of this user, as ALARM_SHELF has it."""
    state = os.environ.get("XDG_STATE_HOME") or os.path.join(os.path.expanduser("~"), ".local", "state")
    return os.environ.get("ALARM_SHELF") or os.path.join(state, "alarm-client", "shelf")


def seconds_from(text):
    """The seconds of a length as 90m, 2h, 1d, 1h30m."""
    if not re.fullmatch(r"(?:\d{1,6}[smhd])+", text):
        raise ValueError(f"{text!r} is no length: 30m, 2h, 1h30m or 1d are")
    seconds = sum(int(number) * UNITS[unit] for number, unit in re.findall(r"(\d+)([smhd])", text))
    if not 1 <= seconds <= LONGEST:
        raise ValueError(f"{text!r} isn't from 1s to {LONGEST // 86400}d")
    return seconds


def moment_text(seconds):
    """A moment by this machine's clock."""
    return time.strftime("%Y-%m-%d %H:%M:%S", time.localtime(seconds))


class Shelf:
    """The file of what is on the shelf: a list of rows, each with server, object, name, since, until, by and why. It is replaced as a whole."""

    def __init__(self, path):
        self.path = pathlib.Path(path).absolute()
        try:
            self.path.parent.mkdir(parents=True, exist_ok=True)
            self.rows()
        except OSError as error:
            raise words.Ends(words.CANNOT_OPEN, f"{path}: {error.strerror}") from None
        except ValueError:
            raise words.Ends(words.CANNOT_OPEN, f"{path}: it is no shelf, and stays as it is") from None

    def rows(self):
        """What is on the shelf."""
        try:
            found = json.loads(self.path.read_text(encoding="utf-8"))
        except FileNotFoundError:
            return []
        if not isinstance(found, list) or not all(isinstance(it, dict) and {"server", "object", "until", "by"} <= set(it) for it in found):
            raise ValueError
        return found

    def of(self, server, rows=None):
        """The rows of one server, by their objects."""
        return {it["object"]: it for it in (self.rows() if rows is None else rows) if it["server"] == server}

    @contextlib.contextmanager
    def changing(self):
        """The rows in a block in which nobody else changes them; what they are behind it is kept, on the disk."""
        with open(f"{self.path}.lock", "w", encoding="ascii") as lock:
            fcntl.flock(lock, fcntl.LOCK_EX)
            rows = self.rows()
            before = json.dumps(rows)
            try:
                yield rows
            finally:
                if json.dumps(rows) != before:
                    self.write(rows)

    def write(self, rows):
        beside = self.path.with_name(f".{self.path.name}.{os.getpid()}")
        with open(beside, "w", encoding="utf-8") as file:
            json.dump(rows, file, ensure_ascii=False, indent=1)
            file.flush()
            os.fsync(file.fileno())
        os.replace(beside, self.path)


def remove(rows, server, the_object):
    rows[:] = [it for it in rows if (it["server"], it["object"]) != (server, the_object)]


def inhibit(asked, of, flag):
    """Writes Event_Algorithm_Inhibit."""
    asked.write(of, octets.EVENT_ALGORITHM_INHIBIT, octets.boolean(flag))


class Keeper:
    """Brings back what is due. One keeper of a shelf works at a time; another one takes over where that is gone."""

    def __init__(self, path, make_audit, wait=2.0):
        self.shelf, self.make_audit, self.wait, self.lock, self.later = Shelf(path), make_audit, wait, None, {}

    def has_lock(self):
        """Whether this is the one that works, which it becomes where nobody is."""
        if self.lock is None:
            lock = open(f"{self.shelf.path}.keeper", "a+", encoding="ascii")
            try:
                fcntl.flock(lock, fcntl.LOCK_EX | fcntl.LOCK_NB)
            except OSError:
                lock.close()
                return False
            lock.truncate(0)
            lock.write(f"{os.getpid()}\n")
            lock.flush()
            self.lock = lock
        return True

    def look(self):
        """Brings back what is due, and says whether anything is left on the shelf."""
        rows = self.shelf.rows()
        for row in [it for it in rows if it["until"] <= time.time()]:
            key = row["server"], row["object"]
            if self.later.get(key, 0) <= time.monotonic():
                self.bring_back(row, *key)
        return bool(self.shelf.rows())

    def bring_back(self, row, server, the_object):
        """Ends the inhibition of an object whose time is over, unless somebody has changed that meanwhile."""
        with self.shelf.changing() as rows:
            if self.shelf.of(server, rows).get(the_object) != row:
                return
            try:
                with client.Client(client.address_from(server), self.wait, 2) as asked:
                    inhibit(asked, names.object_from(the_object), False)
                fault = None
            except (ValueError, OSError, words.Ends) as error:
                fault = str(error)
            if fault is None:
                remove(rows, server, the_object)
            elif fault != row.get("fault"):
                self.shelf.of(server, rows)[the_object]["fault"] = fault
            self.later[server, the_object] = time.monotonic() + AGAIN
        if fault != row.get("fault", ""):
            told = {"act": "comes back", "object": the_object, "name": row.get("name"), "shelved_by": row["by"], "by": "the time"}
            self.make_audit(server).record({**told, "user": audit.user(), "address": audit.here(), "answer": fault or "taken"})

    def run(self, stop=lambda: False):
        """Works until nothing is on the shelf or another keeper works. It looks a last time while nobody can put anything there."""
        while not stop():
            if not self.has_lock():
                return
            if not self.look():
                with self.shelf.changing() as rows:
                    if not rows:
                        self.lock.truncate(0)
                        self.lock.close()
                        self.lock = None
                        return
            time.sleep(EVERY)

    def go_on(self, stop):
        """Works for as long as another thread doesn't set an event, also while nothing is on the shelf or another keeper works."""
        while not stop.wait(EVERY):
            try:
                if self.shelf.path.exists() and self.has_lock():
                    self.look()
            except (OSError, ValueError) as fault:
                print(f"{self.shelf.path}: {fault}", file=sys.stderr, flush=True)
                stop.wait(AGAIN)


def begin_keeper(keeper):
    """Has a keeper work in a process of its own, which outlives this one and its terminal."""
    if os.fork():
        os.wait()
        return
    os.setsid()
    os.chdir("/")
    if os.fork():
        os._exit(0)
    try:
        null = os.open(os.devnull, os.O_RDWR)
        for stream in range(3):
            os.dup2(null, stream)
        keeper.run()
    finally:
        os._exit(0)
