"""The way to a standby: a command at whose other end `alarm-server standby` reads lines and answers, as `alarm-carry` uses it."""
import fcntl
import os
import select
import signal
import subprocess
import time

from . import packets, same
from .taking import COMPARED

# How long the other end may take to open its journal, and to end; and after how many lines a standby is begun anew, since a script of
# the program has at most a million.
OPENING, ENDING, MOST_LINES = 120, 5, 900_000
# How many packets are on their way at once, behind how many of them new events are waited for, so that more of these come in one,
# and after how many seconds without a packet the last one is sent again.
FLYING, FEW, BEAT = 64, 2, 1


class WayLost(Exception):
    """The way has ended, or nothing comes of it. `status` is that of its command where it has ended."""

    def __init__(self, text, status=None):
        super().__init__(text)
        self.status = status


class Way:
    """A command that runs, with lines to it and from it. It is ended at the end of its block, with what it began."""

    def __init__(self, words, patience):
        self.patience = patience
        try:
            self.child = subprocess.Popen(words, stdin=subprocess.PIPE, stdout=subprocess.PIPE, start_new_session=True, bufsize=0)
        except OSError as error:
            raise WayLost(f"{words[0]}: {error.strerror}") from None
        self.input, self.output = self.child.stdin.fileno(), self.child.stdout.fileno()
        for each in (self.input, self.output):
            fcntl.fcntl(each, fcntl.F_SETFL, fcntl.fcntl(each, fcntl.F_GETFL) | os.O_NONBLOCK)
        self.unsent, self.rest, self.sent, self.owed, self.heard = b"", b"", 0, 0, time.monotonic()

    def say(self, line):
        """Sends a line, once there is room for it."""
        self.unsent += line
        self.sent += 1
        self.push()

    def give(self, packet):
        """Sends a packet, to which one answer is owed."""
        if not self.owed:
            self.heard = time.monotonic()
        self.owed += 1
        self.say(packets.line_of(packet))

    def push(self):
        """Sends what there is room for."""
        while self.unsent:
            try:
                self.unsent = self.unsent[os.write(self.input, self.unsent) :]
            except BlockingIOError:
                return
            except BrokenPipeError:
                raise self.ended() from None

    def wait(self, seconds):
        """Waits until something comes, or so long; sends what waits meanwhile."""
        select.select([self.output], [self.input] if self.unsent else [], [], seconds)
        self.push()

    def lines(self):
        """The whole lines that have come."""
        try:
            octets = os.read(self.output, 1 << 16)
        except BlockingIOError:
            return []
        if not octets:
            raise self.ended()
        self.heard = time.monotonic()
        *whole, self.rest = (self.rest + octets).split(b"\n")
        return [line.decode("utf-8", "replace") for line in whole]

    def ended(self):
        """What is told of a command that has closed its ends."""
        self.close()
        try:
            status = self.child.wait(ENDING)
        except subprocess.TimeoutExpired:
            return WayLost("the way was closed, and doesn't end")
        return WayLost(f"the way has ended with {status}", status)

    def see_patience(self):
        if self.owed and time.monotonic() > self.heard + self.patience:
            raise WayLost(f"nothing has been answered for {self.patience} seconds")

    def close(self):
        for stream in (self.child.stdin, self.child.stdout):
            try:
                stream.close()
            except OSError:
                pass

    def __enter__(self):
        return self

    def __exit__(self, *_):
        """Its input ends, and after a moment so does it, where it hasn't ended by itself."""
        self.close()
        try:
            self.child.wait(ENDING)
        except subprocess.TimeoutExpired:
            try:
                os.killpg(self.child.pid, signal.SIGKILL)
            except ProcessLookupError:
                pass
            self.child.wait()


def opened(way, site, note):
    """The digest that the other end tells of its journal, or None where it tells none, and how many events it opened with. `note` is done meanwhile."""
    way.say(f"# compare {way.patience}\n# site {site}\n".encode())
    told, digest, until = [], None, time.monotonic() + OPENING
    while time.monotonic() < until:
        note()
        way.wait(1)
        found = way.lines()
        if not found:
            # Its journal may take long to be opened, and where nothing is heard for so long it takes the way as lost.
            way.say(b"\n")
        for line in found:
            if line == COMPARED:
                digest = same.digest_from(told) if told else None
            elif line.startswith("# "):
                told.append(line[2:])
            elif line.startswith("open ") and line[5:].isdigit():
                return digest, int(line[5:])
            else:
                raise WayLost(f"it answers {line[:100]!r}, and not as a standby does")
    raise WayLost(f"the standby hasn't opened its journal in {OPENING} seconds")
