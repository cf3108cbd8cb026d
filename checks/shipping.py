"""What a leader offers and a follower answers, read a second time from docs/STANDBY.md, and a leader's history by its journals.

For checks/standby, checks/crash and checks/faults. Journals are read by tools/alarm_tools, by docs/JOURNAL.md.
"""
import collections
import hashlib
import re
import subprocess

import bacnet
from alarm_tools import journal

RECORDS, PIECE = 1, 2
# How many octets of records, or of a snapshot, a packet has at most.
MOST = 1_400
SECONDS = 120
# A packet of records: how many events are before them, how many there are, and their octets.
Records = collections.namedtuple("Records", "before count octets")
# A piece of a snapshot: of how many events this tells, how long it is, where the piece begins in it, and its octets.
Piece = collections.namedtuple("Piece", "events whole place octets")


# Packets.


def records_packet(before, records):
    """The packet of records behind so many events."""
    octets = b"".join(records)
    return bytes([RECORDS]) + before.to_bytes(8, "big") + len(records).to_bytes(2, "big") + len(octets).to_bytes(2, "big") + octets


def piece_packet(events, snapshot, place):
    """The packet of the piece of a snapshot that begins at a place."""
    octets = snapshot[place : place + MOST]
    head = bytes([PIECE]) + events.to_bytes(8, "big") + len(snapshot).to_bytes(4, "big") + place.to_bytes(4, "big")
    return head + len(octets).to_bytes(2, "big") + octets


def packet_of(octets):
    """What octets are as a packet. It is a ValueError where they are none; the records themselves aren't looked at."""
    head = {RECORDS: 13, PIECE: 19}.get(octets[0] if octets else 0)
    if head is None or len(octets) < head or len(octets) != head + int.from_bytes(octets[head - 2 : head], "big") or len(octets) > head + MOST:
        raise ValueError("no packet")
    number = int.from_bytes(octets[1:9], "big")
    if octets[0] == RECORDS:
        return Records(number, int.from_bytes(octets[9:11], "big"), octets[head:])
    return Piece(number, int.from_bytes(octets[9:13], "big"), int.from_bytes(octets[13:17], "big"), octets[head:])


def line_of(packet):
    return b"packet " + packet.hex().encode() + b"\n"


def sum_of(path):
    """The SHA-256 of a file, as `# site` has it."""
    return hashlib.sha256(path.read_bytes()).hexdigest()


# What is offered.


def records_of(area):
    """The octets of each record of an area, in its order."""
    for place, body in journal.batches_in(area):
        at = 0
        while at < len(body):
            _, end = journal.record_at(body, at, place)
            yield body[at:end]
            at = end


def packed(before, records):
    """The packets of records behind so many events: as many whole ones in each as fit."""
    at = 0
    while at < len(records):
        end, octets = at, 0
        while end < len(records) and octets + len(records[end]) <= MOST:
            octets, end = octets + len(records[end]), end + 1
        yield records_packet(before + at, records[at:end])
        at = end


def offered(area, known):
    """The packets that a leader of an area offers behind so many events, and how many events it has."""
    first, records = area.snapshot.events, list(records_of(area))
    snapshot = area.octets[4 : 4 + area.snapshot.length]
    packets = []
    if known < first:
        packets, known = [piece_packet(first, snapshot, place) for place in range(0, len(snapshot), MOST)], first
    return packets + list(packed(known, records[known - first :])), first + len(records)


def ship_report(area, known):
    """What `ship` prints of an area."""
    packets, events = offered(area, known)
    return b"".join(map(line_of, packets)) + f"end {len(packets)} {events}\n".encode()


# What is answered.


class Following:
    """How far a follower has come: the number of its events, and the snapshot that it gathers. Records and whole snapshots are good."""

    def __init__(self, events):
        self.events, self.gathering = events, None

    def take(self, octets):
        """What is answered to octets."""
        try:
            packet = packet_of(octets)
        except ValueError:
            return "malformed"
        return self.take_records(packet) if isinstance(packet, Records) else self.take_piece(packet)

    def take_records(self, packet):
        if packet.before > self.events:
            return f"gap {self.events}"
        if packet.before + packet.count <= self.events:
            return f"repeat {self.events}"
        self.events = packet.before + packet.count
        return f"taken {self.events}"

    def take_piece(self, packet):
        if packet.events <= self.events:
            return f"repeat {self.events}"
        goes_on = self.gathering and self.gathering == (packet.events, packet.whole, packet.place)
        if packet.place != 0 and not goes_on:
            return f"gap {self.events}"
        place = packet.place + len(packet.octets)
        if place < packet.whole:
            self.gathering = packet.events, packet.whole, place
            return f"part {place}"
        self.events, self.gathering = packet.events, None
        return f"taken {self.events}"


def acknowledged(lines):
    """The numbers of events that lines of a standby's report acknowledge."""
    return [int(found[1]) for found in (re.fullmatch(r"[0-9]+ (?:taken|repeat) ([0-9]+)", line) for line in lines) if found]


# A history.


class Files:
    """The program, a site, and a folder in which journals are looked into by copies of them."""

    def __init__(self, program, site, folder, probe):
        self.program, self.site, self.folder, self.probe = program, site, folder, probe

    def run(self, *words, given=b""):
        """How the program ended with these words."""
        return subprocess.run([self.program, *map(str, words)], input=given, capture_output=True, timeout=SECONDS, check=False)

    def session(self, octets, script=b""):
        """What a session prints that plays a script to a journal of these octets, and the journal then. It has to end well."""
        copy = self.folder / "looked-into"
        copy.write_bytes(octets)
        ended = self.run("session", self.site, copy, given=script)
        bacnet.want((ended.returncode, ended.stderr) == (0, b""), f"a session ended with {ended.returncode}, {ended.stderr[-200:]!r}, {ended.stdout[-200:]!r}")
        return ended.stdout.decode(), copy

    def events_in(self, octets):
        """The number of the event from which a session with an empty script goes on."""
        said, _ = self.session(octets)
        found = re.fullmatch(r"open ([0-9]+)\nend 0 ([0-9]+)\n", said)
        bacnet.want(found and found[1] == found[2], f"an empty session told {said!r}")
        return int(found[1])

    def state_in(self, octets):
        """The snapshot of the state behind one more event, the probe, in a journal of these octets.

        The area in use is filled up by batches without a record, so that this event finds no room, and comes with a snapshot.
        """
        copy = self.folder / "looked-into"
        copy.write_bytes(octets)
        with journal.Journal(copy) as it:
            area = it.settled()
            left = it.header.area_octets - len(area.octets)
        filled = b"\x01\0\0\0\0" * (left // 5) + bytes(left % 5)
        end = area.place + len(area.octets)
        said, copy = self.session(octets[:end] + filled + octets[end + left :], self.probe)
        with journal.Journal(copy) as it:
            behind = it.settled()
            bacnet.want(behind.number != area.number, f"the probe made no snapshot: {said!r}")
            return behind.octets[4 : 4 + behind.snapshot.length]


class History:
    """The events of a leader: the record of each, where its journals had one, and its journals, by the number of events of their snapshots."""

    def __init__(self):
        self.records, self.journals = {}, {}

    def note(self, octets, path):
        """Notes what a leader's journal has in both areas. It may only go on: an event that was noted stays what it was."""
        path.write_bytes(octets)
        with journal.Journal(path) as it:
            if it.header.blank:
                return
            for area in filter(None, it.history()):
                first = area.snapshot.events
                for number, record in enumerate(records_of(area), first + 1):
                    bacnet.want(self.records.setdefault(number, record) == record, f"event {number} of the leader was another one before")
                known = self.journals.get(first)
                if known is None or len(known[1].octets) < len(area.octets):
                    self.journals[first] = octets, area

    def journal_at(self, events):
        """The octets of a leader's journal as it was behind so many events: a snapshot, and one batch of the records behind it."""
        for octets, area in self.journals.values():
            first, records = area.snapshot.events, list(records_of(area))
            if not first <= events <= first + len(records):
                continue
            body = b"".join(records[: events - first])
            batch = b"\x01" + len(body).to_bytes(4, "big") + body if body else b""
            return cut(octets, area, area.octets[: area.batches] + batch)
        raise ValueError(f"the leader's journals don't tell how it stood behind {events} events")


def cut(octets, area, new):
    """The octets of a journal whose area in use has these octets, zeros behind them, and nothing in the other one."""
    with_length = int.from_bytes(octets[17:21], "big")
    selector = 21 + with_length
    each = (int.from_bytes(octets[9:17], "big") - 22 - with_length) // 2
    areas = [new.ljust(each, b"\0") if number == area.number else bytes(each) for number in (0, 1)]
    return octets[:selector] + bytes([area.number]) + areas[0] + areas[1] + octets[selector + 1 + 2 * each :]
