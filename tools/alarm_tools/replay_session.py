"""A session that is played to in step: lines go in, and what the program says to them comes back.

A block of a report has no end of its own, so a look puts a Who-Is behind the lines, whose answer ends it. A reply is no event.
A script has at most a million lines, so a long history takes several sessions on one journal, one after the other.
"""
import collections
import os
import queue
import subprocess
import threading

from . import octets, running
from .replay_lines import TOOL, asked
from .words import CANNOT_OPEN, Ends

MOST_LINES = 900_000
# What came of a line: `entered`, `idle`, `ignored`, `refused`, `reply` or `full`, the words behind it, the changes, the datagrams.
Block = collections.namedtuple("Block", "word rest changes sends")


class Session:
    """The program, at a script that is written while it is read."""

    def __init__(self, program, site, journal, most_lines=MOST_LINES):
        self.words, self.most_lines = [program, "session", str(site), str(journal)], most_lines
        self.number, self.blocks, self.waiting, self.lines, self.run = 0, {}, [], None, None
        self.begin()

    def begin(self):
        self.run = subprocess.Popen(self.words, stdin=subprocess.PIPE, stdout=subprocess.PIPE, stderr=subprocess.PIPE)
        self.lines, self.number, self.blocks, self.waiting = queue.SimpleQueue(), 0, {}, []
        threading.Thread(target=self.read, args=(self.run.stdout, self.lines), daemon=True).start()
        self.events = int(self.next_line().split()[1])

    @staticmethod
    def read(stream, lines):
        """Reads all that is said, so that the program never waits for a reader; None is the end."""
        rest = b""
        while piece := os.read(stream.fileno(), 1 << 16):
            *whole, rest = (rest + piece).split(b"\n")
            lines.put(whole)
        lines.put(None)

    def next_line(self):
        while not self.waiting:
            found = self.lines.get()
            if found is None:
                raise self.broke()
            self.waiting = found[::-1]
        return self.waiting.pop().decode()

    def broke(self):
        """The program ended where it shouldn't: what it said."""
        status = self.run.wait()
        return Ends(CANNOT_OPEN, f"the session ended with {status}: {self.run.stderr.read().decode(errors='replace').strip()}")

    def put(self, line):
        """Gives a line; its number."""
        self.number += 1
        try:
            self.run.stdin.write(line.encode() + b"\n")
        except BrokenPipeError:
            raise self.broke() from None
        return self.number

    def settle(self, moment):
        """All that came of the lines so far, by their numbers. Where the script has grown long the next session begins."""
        end = self.put(asked(moment, octets.who_is()))
        try:
            self.run.stdin.flush()
        except BrokenPipeError:
            raise self.broke() from None
        while self.take(self.next_line()) != end:
            pass
        found, self.blocks = self.blocks, {}
        found.pop(end)
        if self.number >= self.most_lines:
            self.end()
            self.begin()
        return found

    def take(self, line):
        """Notes a line of the report, and says which line of the script it ends: the answer of the Who-Is ends it alone."""
        number, word, *rest = line.split(" ")
        number = int(number)
        if word == "change":
            self.blocks[number].changes.append(rest)
        elif word == "send":
            self.blocks[number].sends.append((rest[0], bytes.fromhex(rest[1])))
            return number
        else:
            self.blocks[number] = Block(word, rest, [], [])
        return None

    def ask(self, moment, datagram):
        """The answer to a datagram, and what came of the lines before it."""
        number = self.put(asked(moment, datagram, TOOL))
        found = self.settle(moment)
        return octets.read(found.pop(number).sends[0][1]), found

    def end(self):
        """Ends the script, and waits until the program has ended well."""
        try:
            self.run.stdin.close()
        except BrokenPipeError:
            pass
        while (found := self.lines.get()) is not None:
            pass
        if self.run.wait():
            raise self.broke()
        self.close()

    def close(self):
        """Ends the program in any case."""
        running.end_at_once(self.run)
