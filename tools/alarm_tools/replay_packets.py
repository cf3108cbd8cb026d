"""Packets of a standby (docs/STANDBY.md), by which events and a state go into a blank journal as they are: nothing is translated.

A script has at most a million lines, so a long history takes several standbys on one journal, one after the other.
"""
import subprocess

from . import running
from .replay_session import MOST_LINES
from .words import CANNOT_OPEN, Ends

RECORDS, PIECE = 1, 2
# How many octets of records, or of a snapshot, a packet has at most.
MOST = 1_400


class Standby:
    """The program as a standby, which says of each packet what came of it."""

    def __init__(self, program, site, kept):
        self.words, self.waiting, self.size = [program, "standby", str(site), str(kept)], [], 0
        self.begin()

    def begin(self):
        self.run = subprocess.Popen(self.words, stdin=subprocess.PIPE, stdout=subprocess.PIPE, stderr=subprocess.PIPE)
        self.lines, self.events = 0, int(self.said().split()[1])

    def said(self):
        line = self.run.stdout.readline()
        if not line:
            status = self.run.wait()
            raise Ends(CANNOT_OPEN, f"the standby ended with {status}: {self.run.stderr.read().decode(errors='replace').strip()}")
        return line.decode()

    def give(self, packet):
        """The words of the answer to a packet."""
        self.lines += 1
        try:
            self.run.stdin.write(b"packet " + packet.hex().encode() + b"\n")
            self.run.stdin.flush()
        except BrokenPipeError:
            pass
        return self.said().split()[1:]

    def add(self, record):
        """Gives a record, once a packet is full. Whether all so far were taken."""
        if self.size + len(record) > MOST and not self.flush():
            return False
        self.waiting.append(record)
        self.size += len(record)
        return True

    def flush(self):
        if not self.waiting:
            return True
        octets, wanted = b"".join(self.waiting), self.events + len(self.waiting)
        head = bytes([RECORDS]) + self.events.to_bytes(8, "big") + len(self.waiting).to_bytes(2, "big") + len(octets).to_bytes(2, "big")
        answer = self.give(head + octets)
        self.waiting, self.size = [], 0
        if answer != ["taken", str(wanted)]:
            return False
        self.events = wanted
        if self.lines >= MOST_LINES:
            self.end()
            self.begin()
        return True

    def snapshot(self, events, octets):
        """Whether a snapshot of so many events was taken, piece by piece."""
        for place in range(0, len(octets), MOST):
            part = octets[place : place + MOST]
            head = bytes([PIECE]) + events.to_bytes(8, "big") + len(octets).to_bytes(4, "big") + place.to_bytes(4, "big") + len(part).to_bytes(2, "big")
            answer = self.give(head + part)
        if answer != ["taken", str(events)]:
            return False
        self.events = events
        return True

    def end(self):
        self.run.stdin.close()
        self.run.stdout.read()
        if self.run.wait():
            raise Ends(CANNOT_OPEN, f"the standby ended with {self.run.returncode}: {self.run.stderr.read().decode(errors='replace').strip()}")
        self.close()

    def close(self):
        running.end_at_once(self.run)

    def __enter__(self):
        return self

    def __exit__(self, *_):
        self.close()
