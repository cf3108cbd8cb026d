"""The journal of a server that runs, as `alarm-carry` reads it: on from where it was read last, and only what is on its disk."""
import os

from . import journal, packets, same

# How many octets are read at once, and so how large a part of the journal is held.
CHUNK = 1 << 18
HEAD = 5


class Changed(Exception):
    """The journal isn't the one that was read until now: it was replaced, or written over."""


class Source:
    """A journal that only grows, from a place in the area in use on. It is read while a server writes to it."""

    def __init__(self, path):
        self.path = path
        self.it = journal.Journal(path)
        self.identity = identity_of(os.fstat(self.it.file.fileno()))
        if not self.it.header.blank:
            self.find_area()

    def find_area(self):
        """Goes to the beginning of the area in use."""
        self.number, self.head = self.it.settled(lambda number: (number, self.it.head(number)))
        self.place = self.it.place_of(self.number)
        self.end = self.place + self.it.header.area_octets
        self.events, self.moment = self.head.events, self.head.last_moment
        self.at = self.place + 4 + self.head.length
        self.last = b""

    def close(self):
        self.it.file.close()

    def is_blank(self):
        return self.it.header.blank

    def site(self):
        return same.sum_of(self.it.header.text)

    def compared(self, theirs):
        """How this journal stands to another one of which the digest is known."""
        return same.compared(self.it, theirs)

    def check(self):
        """Sees that the path still leads to this file, and that what was read last still stands there."""
        try:
            if identity_of(os.stat(self.path)) != self.identity:
                raise Changed("the journal was replaced")
        except FileNotFoundError:
            raise Changed("the journal is gone") from None
        if self.it.read(self.at - len(self.last), len(self.last)) != self.last:
            raise Changed("the journal was written over")

    def has_changed_area(self):
        return self.it.selected() != self.number or self.it.head(self.number) != self.head

    def read(self):
        """The records that have come, each as octets, or None where the server has gone to the other area.

        They are on the disk: it is synced behind what was read and before anything is told of it.
        """
        if self.has_changed_area():
            return None
        found, at = self.batches()
        if not found:
            return []
        os.fdatasync(self.it.file.fileno())
        if self.has_changed_area():
            return None
        self.at = at
        self.events += len(found)
        self.moment = int.from_bytes(found[-1][:8], "big")
        return found

    def batches(self):
        """The records of the whole batches that a chunk has from the place on, and the place behind these."""
        gate = self.it.read(self.at, 1) if self.at + HEAD <= self.end else b""
        octets = self.it.read(self.at, min(CHUNK, self.end - self.at)) if gate == bytes([journal.OPEN]) else b""
        found, at = [], 0
        while at + HEAD <= len(octets) and octets[at] == journal.OPEN:
            behind = at + HEAD + int.from_bytes(octets[at + 1 : at + HEAD], "big")
            if behind > len(octets):
                break
            self.last = octets[at:behind]
            at += HEAD
            while at < behind:
                end = at + same.octets_of(octets, at, self.at)
                found.append(octets[at:end])
                at = end
        return found, self.at + at

    def snapshot(self, most=None):
        """The octets of the snapshot at the beginning of the area, or the first of these; None where the area has changed meanwhile."""
        octets = self.it.read(self.place + 4, min(most or self.head.length, self.head.length))
        os.fdatasync(self.it.file.fileno())
        return None if self.has_changed_area() else octets

    def total(self):
        """How many events the journal has by now."""
        return 0 if self.is_blank() else journal.events_in(self.it.settled())


def identity_of(told):
    return told.st_dev, told.st_ino


class Offers:
    """The packets that a standby lacks which has so many events, on and on: the snapshot where it tells of more, and the records."""

    def __init__(self, source, known):
        self.source, self.known, self.waiting, self.again = source, known, [], None
        self.begin()

    def begin(self):
        """Goes to the area in use, and offers its snapshot where the standby lacks it."""
        while True:
            self.source.find_area()
            events, lacks = self.source.events, self.source.events > self.known
            octets = self.source.snapshot(None if lacks else packets.MOST)
            if octets is not None:
                break
        if lacks:
            self.known = events
            self.waiting = [(events, packet) for packet in packets.of_snapshot(events, octets)]
            self.waiting.reverse()
        elif octets:
            self.again = packets.of_piece(events, self.source.head.length, 0, octets)

    def more(self):
        """Reads on, where nothing waits to be sent. Says whether something came."""
        before, found = self.source.events, self.source.read()
        if found is None:
            self.begin()
            if self.source.events < before:
                raise Changed("the journal has fewer events than it had")
            return True
        new = found[max(self.known - before, 0) :]
        if new:
            self.waiting = list(packets.packed(max(before, self.known), new))
            self.waiting.reverse()
            self.known = self.source.events
        elif found:
            self.again = packets.of_records(self.source.events - 1, found[-1:])
        return bool(found)

    def has_some(self):
        """Whether there is anything that a standby can acknowledge."""
        return bool(self.known or self.waiting or self.again)

    def next(self):
        """The next packet, with the number of events that the standby has behind it, or None."""
        if not self.waiting:
            return None
        events, packet = self.waiting.pop()
        if packet[0] == packets.RECORDS or not self.waiting:
            self.again = packet
        return events, packet
