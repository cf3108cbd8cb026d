"""How a changed site comes into force: who prepares it while the server runs, and who puts it in place between two servers.

The one who *prepares* holds the lock of FOLDER/change.lock, plays the history to the changed text, and asks for a restart of the server.
The one who *finishes* stands before each start of the server. He takes the lock of the journal, so that nobody writes to it, and where
somebody prepared he says so by a word in `change.ended`; the other one plays the rest, writes and syncs all of it, and answers with this word and the
folder's name in `change.ready`. Then the one who finishes sets the link, alone: whoever is killed, either the folder before is in force,
with all that was answered, or the new one. He waits for an answer only while the other one lives, and not for good.
"""
import contextlib
import os
import secrets
import shutil
import signal
import subprocess
import tempfile
import time

from .place import EDITED, JOURNAL, TEXT, as_owner, locked, passed, take_lock, write_synced
from .words import Ends

LOCK, PREPARED, ENDED, READY, WORK = "change.lock", "change.prepared", "change.ended", "change.ready", "change.work"
IN_MEMORY, WORK_PREFIX = "/dev/shm", "alarm-server-change."
# The exit statuses of a change that was given up, and of one whose result isn't what it has to be.
GIVEN_UP, WRONG = 75, 9
# For how many seconds the one who finishes waits for an answer, and the one who prepares for the server's end; how often both look.
MOST, RESTART, LOOK = 60, 180, 0.005
# For how long another one may have the lock that prepares, as where he only looks.
PATIENCE = 10
# A round that takes less is short enough to be played while nobody is served.
SHORT = 0.3


def clean(place):
    """Removes what a change that has ended, or was killed, left beside its folder."""
    for name in (PREPARED, ENDED, READY):
        (place.folder / name).unlink(missing_ok=True)
    if (left := word_in(place.folder / WORK)) and os.path.basename(left).startswith(WORK_PREFIX):
        shutil.rmtree(left, ignore_errors=True)
    (place.folder / WORK).unlink(missing_ok=True)


def word_in(path):
    """What a file says, or nothing where it isn't there."""
    try:
        return path.read_text(encoding="utf-8")
    except OSError:
        return ""


def is_free(path):
    """Whether nobody has the lock of a file, or there is none."""
    try:
        with locked(path) as free:
            return free
    except FileNotFoundError:
        return True


# Between two servers.


def finish(place, seconds=MOST):
    """Before a server begins: takes in what stands at the old places, puts in force what was prepared, and sees that text and journal belong together.

    It gives lines that say what was done.
    """
    with as_owner(place.folder):
        told, edited = between(place, seconds)
    if edited is not None:
        if place.give_back(edited):
            with as_owner(place.folder):
                place.drop_edited()
        told.append(f"the text in force was edited, which brings nothing into force: {place.current / TEXT} is again the text of its journal")
    with as_owner(place.folder):
        kept = place.folder / EDITED if edited is not None and (place.folder / EDITED).exists() else place.site
        is_other = kept != place.site or bool(place.name()) and place.edited_site()
    if not is_other:
        place.set_site()
    elif place.name():
        told.append(f"{kept} isn't the text in force: alarm-server change {kept} brings it into force")
    return told


def between(place, seconds):
    """What was done, and the text in force as somebody had edited it, or None."""
    place_of_journal = place.old_journal if place.is_to_take_in() else place.current / JOURNAL
    if not place_of_journal.exists():
        return [], None
    with locked(place_of_journal) as free, locked(place.folder / LOCK, make=True) as alone:
        if not free:
            return [f"{place_of_journal} is in use: nothing was looked at"], None
        told = place.take_in() if alone else hand_over(place, seconds)
        edited = place.mend()
        if alone:
            clean(place)
            place.clear()
    if not alone:
        clear_if_left(place)
    return [told] if told else [], edited


def clear_if_left(place):
    """Removes what somebody who prepared and was killed has left, and nothing of one who is still there."""
    with locked(place.folder / LOCK, make=True) as alone:
        if alone:
            clean(place)
            place.clear()


def hand_over(place, seconds):
    """Asks whoever prepares for what is to be in force, and puts it there. What came of it, or None where nobody has prepared anything yet."""
    if not (place.folder / PREPARED).exists():
        return None
    word, end = secrets.token_hex(8), time.monotonic() + seconds
    with said(place.folder / ENDED, word) as asked:
        passed("asked")
        while True:
            lives = not is_free(place.folder / LOCK)
            if name := answer_to(place, word):
                place.put(name)
                return f"{place.folder / name} is in force"
            if not lives or time.monotonic() > end:
                asked.unlink(missing_ok=True)
                return f"a change was given up: {place.folder / (place.name() or '')} is in force, as before"
            time.sleep(LOOK)


@contextlib.contextmanager
def said(path, word):
    """A file with a word, whose lock lasts as long as who said it: it is there from the beginning on."""
    beside = path.with_name(f".{path.name}.{os.getpid()}")
    beside.write_text(word, encoding="ascii")
    with locked(beside):
        os.replace(beside, path)
        yield path


def answer_to(place, word):
    """The folder that was made ready for a word, or None."""
    found = word_in(place.folder / READY).split()
    return found[1] if len(found) == 2 and found[0] == word and (place.folder / found[1] / JOURNAL).exists() else None


# While the server runs.


class Preparing:
    """Whoever prepares, in a block: one alone. What was begun and isn't in force is gone behind it."""

    def __init__(self, place):
        self.place = place

    def __enter__(self):
        end = time.monotonic() + PATIENCE
        while (lock := take_lock(self.place.folder / LOCK, make=True)) is None:
            if time.monotonic() > end:
                raise Ends(GIVEN_UP, "another change is on its way: nothing was changed")
            time.sleep(LOOK)
        self.lock = lock
        self.clear()
        return self

    def clear(self):
        """Removes what was begun and isn't in force, if whoever finishes isn't at it."""
        if is_free(self.place.folder / ENDED):
            clean(self.place)
            self.place.clear()

    def __exit__(self, *_):
        try:
            self.clear()
        finally:
            os.close(self.lock)

    def room(self, octets):
        """A folder for files that go again, in memory where so many octets have room there."""
        free = os.statvfs(IN_MEMORY) if os.access(IN_MEMORY, os.W_OK) else None
        inside = IN_MEMORY if free and free.f_bavail * free.f_frsize > 2 * octets else self.place.folder
        made = tempfile.mkdtemp(prefix=WORK_PREFIX, dir=inside)
        write_synced(self.place.folder / WORK, made.encode())
        return made


def put_in_force(place, ready, restart):
    """Has the server ended, `ready` make the folder that is to be in force, and the server begun. Gives the folder's name and the seconds between.

    `ready` is called with nobody at the journal, and gives the name. Where no server runs none is begun.
    """
    with locked(place.current / JOURNAL) as free:
        if free:
            begun = time.monotonic()
            name = ready()
            place.put(name)
            return name, time.monotonic() - begun
    for number in (signal.SIGINT, signal.SIGHUP):
        signal.signal(number, signal.SIG_IGN)
    (place.folder / PREPARED).touch()
    passed("prepared")
    begun = time.monotonic()
    with restarting(restart) as run:
        word = await_end(place, run, begun + RESTART)
        passed("server ended")
        name = ready()
        write_synced(place.folder / READY, f"{word} {name}\n".encode())
        passed("answered")
        await_word(place, word)
        if place.name() != name:
            raise Ends(GIVEN_UP, "the change was given up, as the server began before it was ready: nothing was changed")
        run.wait(RESTART)
        return name, time.monotonic() - begun


class restarting:
    """The command that ends the server and begins it, in a block."""

    def __init__(self, command):
        self.command = command

    def __enter__(self):
        # As who asked, and not as the folder's owner.
        own = os.getuid(), os.getgid()
        self.run = subprocess.Popen(["sh", "-c", self.command], stdin=subprocess.DEVNULL, user=own[0] if os.geteuid() != own[0] else None, group=own[1] if os.getegid() != own[1] else None)
        return self.run

    def __exit__(self, *_):
        if self.run.poll() is None:
            try:
                self.run.wait(RESTART)
            except subprocess.TimeoutExpired:
                self.run.kill()


def await_end(place, run, end):
    """The word of whoever stands before the server's next start."""
    ended_at = None
    while time.monotonic() < end:
        word = word_in(place.folder / ENDED)
        if word and not is_free(place.folder / ENDED):
            return word
        if run.poll() is not None and ended_at is None:
            ended_at = time.monotonic()
            end = min(end, ended_at + 5)
        time.sleep(LOOK)
    told = f" (it ended with {run.returncode})" if run.poll() is not None else ""
    raise Ends(GIVEN_UP, f"the server wasn't ended, or begins without 'alarm-server change --finish' before it{told}: nothing was changed")


def await_word(place, word):
    """Waits until whoever asked has set the link or is gone."""
    while not is_free(place.folder / ENDED) and word_in(place.folder / ENDED) == word:
        time.sleep(LOOK)


# What is put in place.


def catch_up(run):
    """Plays what happens while the server runs, in rounds, until one is short or they become no shorter."""
    took = None
    while took is None or took > SHORT:
        begun, before = time.monotonic(), took
        run.catch_up()
        took = time.monotonic() - begun
        if before is not None and took > before * 0.7:
            return


def copy_into(source, target):
    """Makes a file as another one is, by writing what differs. It isn't synced."""
    step = 1 << 20
    with open(source, "rb") as given, open(os.open(target, os.O_RDWR | os.O_CREAT, 0o600), "r+b") as file:
        at = 0
        while part := given.read(step):
            file.seek(at)
            if file.read(len(part)) != part:
                file.seek(at)
                file.write(part)
            at += len(part)
        file.truncate(at)


def sync_file(path):
    opened = os.open(path, os.O_RDONLY)
    try:
        os.fsync(opened)
    finally:
        os.close(opened)


def opens(program, folder):
    """How many events the program finds in a folder's journal, with the folder's text."""
    ran = subprocess.run([program, "session", str(folder / TEXT), str(folder / JOURNAL)], stdin=subprocess.DEVNULL, capture_output=True, check=False, text=True)
    first = ran.stdout.split()
    if ran.returncode or first[:1] != ["open"]:
        raise Ends(WRONG, f"the new journal doesn't open ({ran.stderr.strip()}): nothing was changed")
    return int(first[1])

