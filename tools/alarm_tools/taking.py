"""Stands before the input of `alarm-server standby`: compares the text of the site, and the journal, with the leader's.

The lines of its input go to the program as they come, but for those that are for it:

    # site SUM            the SHA-256 of the leader's text. Where this site has another one nothing behind the line is taken, and it
                          ends with 3. It may come again, as where several ships stand one behind the other.
    # compare SECONDS     in the first line alone: it tells the journal by sums (`alarm-journal digest --ranges`) before the program
                          begins, each line behind `# `, and then `# compared`; and from there on it ends the program's input where
                          no line has come for so many seconds.

The program begins once the first line has come, or after two seconds without one.

What is read back behind a failed sync need not be on the disk, and a standby tells that it is. So a run that ended well leaves a file
JOURNAL.settled, and where there is none the journal is first written once more as it is read, and synced.
"""
import errno
import os
import re
import select
import shutil
import signal
import stat
import subprocess
import sys
import time

from . import journal, same

SITE_REFUSED, DISK_FAULT, FIRST_SECONDS, MOST, COMPARED = 3, 7, 2, 1 << 16, "# compared"
# How many octets of a journal are written once more at once, and with how many left a disk is full.
WRITTEN_AT_ONCE, LITTLE = 1 << 20, 1 << 16
SITE = re.compile(rb"# site ([0-9a-f]{64})\r?\n?")
COMPARE = re.compile(rb"# compare ([1-9][0-9]{0,4})\r?\n?")


class Lines:
    """The lines of a file that is read without waiting for a whole one. What is longer than any line that means something comes in parts."""

    def __init__(self, source):
        self.source, self.rest, self.ended, self.begun = source, b"", False, False

    def read(self, seconds, also=()):
        """The lines that come within some seconds, each with whether it begins there; [] where none came, or something else is ready."""
        ready = select.select([self.source, *also], [], [], seconds)[0]
        if self.source not in ready:
            return []
        octets = os.read(self.source, MOST)
        self.ended = not octets
        whole, mark, self.rest = (self.rest + octets).rpartition(b"\n")
        if self.ended or len(self.rest) > MOST:
            whole, mark, self.rest = whole + mark + self.rest, b"", b""
        found = []
        for line in (whole + mark).splitlines(keepends=True):
            found.append((line, not self.begun))
            self.begun = not line.endswith(b"\n")
        return found


def say(text):
    print(f"alarm-server: {text}", file=sys.stderr, flush=True)


class Guard:
    """What stands between the lines of a leader and the program."""

    def __init__(self, site, path):
        with open(site, "rb") as file:
            self.sum = same.sum_of(file.read())
        self.path, self.lines, self.silence, self.heard, self.refused = path, Lines(0), None, 0.0, None

    def pass_on(self, found):
        """What the program gets of lines: what stands before one by which the leader's site has another text."""
        passed = []
        for line, begins in found:
            if begins and (told := SITE.fullmatch(line)):
                if told[1].decode() != self.sum:
                    self.refused = f"the leader's site is another text: its SHA-256 is {told[1].decode()}, and that of this site is {self.sum}"
                    break
            elif not (begins and COMPARE.fullmatch(line)):
                passed.append(line)
        return b"".join(passed)

    def first(self):
        """The first lines, behind what is told because of them."""
        found = self.lines.read(FIRST_SECONDS)
        if found and (asked := COMPARE.fullmatch(found[0][0])):
            self.silence = int(asked[1])
            self.note()
            self.tell()
        return self.pass_on(found)

    def tell(self):
        """Tells the journal by sums. One that can't be read is told by the program."""
        try:
            lines = list(same.digest_lines(same.digest_of(self.path)))
        except (OSError, journal.NoJournal) as fault:
            say(f"{self.path} can't be compared: {fault}")
            lines = []
        try:
            print("".join(f"# {line}\n" for line in lines) + COMPARED, flush=True)
        except BrokenPipeError:
            # Nobody hears what the program tells either, which says so.
            pass

    def note(self):
        """Notes beside the journal that the leader was heard, once in a second, for whoever watches."""
        now = time.monotonic()
        if self.silence is None or now < self.heard + 1:
            return
        self.heard = now
        try:
            with open(f"{self.path}.heard", "w", encoding="ascii") as file:
                file.write(f"{time.time():.3f}\n")
        except OSError:
            pass


# The disk.


def settle(path):
    """Sees that what is read of a journal is on its disk: where the last run didn't end well each octet is written anew, and synced."""
    try:
        os.unlink(settled_mark(path))
        return
    except OSError:
        # There is none, or it stays and says nothing.
        pass
    try:
        opened = os.open(path, os.O_RDWR)
    except OSError:
        # The program says why.
        return
    try:
        for at, end in data_of(opened):
            while at < end:
                octets = os.pread(opened, min(WRITTEN_AT_ONCE, end - at), at)
                at += os.pwrite(opened, octets, at) if octets else end - at
        os.fsync(opened)
    finally:
        os.close(opened)


def data_of(opened):
    """Where a file has octets on its disk, each part with its end: what has none stays without. A device has them everywhere."""
    at, size = 0, os.lseek(opened, 0, os.SEEK_END)
    while at < size:
        try:
            at = os.lseek(opened, at, os.SEEK_DATA)
            end = os.lseek(opened, at, os.SEEK_HOLE)
        except OSError as fault:
            if fault.errno == errno.ENXIO:
                return
            end = size
        yield at, end
        at = end


def settled_mark(path):
    return f"{path}.settled"


def note_settled(path):
    """A run has ended well. Where that can't be noted, as on a full disk, the next one writes the journal anew."""
    try:
        with open(settled_mark(path), "wb"):
            pass
    except OSError:
        pass


def tell_full(path):
    """Says where the disk has no room left, since the program tells of a fault alone."""
    try:
        told = os.statvfs(path)
    except OSError:
        return
    if told.f_bavail * told.f_frsize < LITTLE:
        say(f"the disk of {path} is full")


def can_read():
    """Whether the input is there to be read. What isn't is told by the program."""
    try:
        return not stat.S_ISDIR(os.fstat(0).st_mode)
    except OSError:
        return False


def begin(words):
    """The program, which ends where this does. What is locked stays so for it, and a file that may not grow is a fault of its disk."""
    bound = ["setpriv", "--pdeathsig", "TERM", "--"] if shutil.which("setpriv") else []
    as_before = lambda: signal.signal(signal.SIGPIPE, signal.SIG_DFL)
    return subprocess.Popen([*bound, *words], stdin=subprocess.PIPE, close_fds=False, restore_signals=False, preexec_fn=as_before)


def feed(guard, child, octets):
    """Gives the program its input until one of both has ended, or the leader's site is another one."""
    watch, heard = os.pidfd_open(child.pid), time.monotonic()
    while True:
        if octets:
            child.stdin.write(octets)
            child.stdin.flush()
            guard.note()
        if guard.refused or guard.lines.ended or select.select([watch], [], [], 0)[0]:
            return
        found = guard.lines.read(1 if guard.silence else None, [watch])
        if found:
            heard = time.monotonic()
        elif guard.silence and time.monotonic() > heard + guard.silence:
            say(f"nothing has come for {guard.silence} seconds: the leader is gone, or the way to it")
            return
        octets = guard.pass_on(found)


def run(guard, words, first):
    """How the program ended that is named by the words, and gets the first lines and all that come behind them."""
    child = begin(words)
    try:
        feed(guard, child, first)
        child.stdin.close()
    except BrokenPipeError:
        child.stdin = None
    ended = child.wait()
    return ended if ended >= 0 else 128 - ended


def main(words):
    """The status with which it ends that is named by the words: SITE JOURNAL PROGRAM WORDS.."""
    signal.signal(signal.SIGINT, signal.SIG_DFL)
    if not can_read():
        os.execvp(words[2], words[2:])
    guard = Guard(*words[:2])
    try:
        settle(guard.path)
    except OSError as fault:
        say(f"{guard.path} can't be written: {fault.strerror}")
        return DISK_FAULT
    first = guard.first()
    status = 0 if guard.refused and not first else run(guard, words[2:], first)
    if status == DISK_FAULT:
        tell_full(guard.path)
    elif status == 0:
        note_settled(guard.path)
    if guard.refused:
        say(guard.refused)
        return SITE_REFUSED
    return status
