"""What a journal holds: its header, its areas, its batches and the records of events, by docs/JOURNAL.md. It only reads.

A running server may write while it is read. A batch lies behind its gate, which is opened only once the batch stands, so what is
read up to the first gate that isn't open is whole; and an area is left alone until the server has changed to the other one and
back, which the selector and the number of events in the snapshot show. `settled` gives what was read between two looks at these
that saw the same.
"""
import collections
import mmap
import os
import struct
import time

MARK, OPEN = b"BACALRM1", 1
# What stands in each area beside the largest snapshot; the moments that may be (docs/SCRIPT.md).
BATCH_ROOM, FIRST_MOMENT, LAST_MOMENT = 60_010, 946_684_800_000, 4_102_444_799_999
# How many records the longest batch has, each of nine octets at least.
MOST_IN_BATCH = 60_000 // 9
# How often an area is read again that changed while it was read.
TRIES = 50

Header = collections.namedtuple("Header", "blank size text selector_place area_octets")
# An area as it was read: its number, its place, the octets up to its first closed gate, and where in these the batches begin, and
# the last one does.
Area = collections.namedtuple("Area", "number place octets batches last snapshot")
# The head of a snapshot, and its place; without a snapshot its length is 0.
Snapshot = collections.namedtuple("Snapshot", "place length version events last_moment")
# An event: its place on the device, its moment, its act by number, and the fields of this by name.
Record = collections.namedtuple("Record", "place moment act fields")

ACTS = {1: "tick", 2: "write", 3: "fault", 4: "acknowledgement", 5: "pump", 6: "answer", 7: "edit"}
# How many octets the records of acts of one length have, and those of values with their tag.
OCTETS, OCTETS_OF_VALUES = {1: 9, 3: 14, 4: 15, 5: 9, 6: 27}, {1: 2, 2: 5, 3: 5, 8: 10, 9: 5}
PDUS = {2: "simple-ack", 5: "error", 6: "reject", 7: "abort"}


class NoJournal(Exception):
    """Octets that are no journal, or none that can be: `place` is the first place that can't be there."""

    def __init__(self, text, place=None):
        super().__init__(text if place is None else f"{text}, at octet {place}")
        self.place = place


# The header and the areas.


def header_of(read, size):
    """The header of a journal that has `size` octets, of which `read(place, count)` gives some."""
    head = read(0, 21)
    if len(head) < 21:
        raise NoJournal(f"it has {size} octets, and a journal has more")
    if head[0] != OPEN:
        return Header(True, size, b"", None, 0)
    if head[1:9] != MARK:
        raise NoJournal("it is no journal: the mark BACALRM1 isn't there", 1)
    formatted, length = int.from_bytes(head[9:17], "big"), int.from_bytes(head[17:21], "big")
    if formatted > size:
        raise NoJournal(f"it has {size} octets, and had {formatted} when it was formatted: it was cut")
    if 22 + length + 10 > formatted:
        raise NoJournal("the length of the site's text leaves the journal", 17)
    return Header(False, formatted, read(21, length), 21 + length, (formatted - 22 - length) // 2)


class Journal:
    """A journal's file, which is read and never written. It is used in a `with` block."""

    def __init__(self, path):
        self.path = path
        self.file = open(path, "rb", buffering=0)
        try:
            self.size = os.lseek(self.file.fileno(), 0, os.SEEK_END)
            self.header = header_of(self.read, self.size)
        except BaseException:
            self.file.close()
            raise

    def read(self, place, count):
        return os.pread(self.file.fileno(), max(count, 0), place)

    def selected(self):
        """The number of the area that is in use: 0 or 1."""
        return self.read(self.header.selector_place, 1)[0] % 2

    def place_of(self, number):
        return self.header.selector_place + 1 + number * self.header.area_octets

    def area(self, number):
        """An area up to its first gate that isn't open."""
        place, octets = self.place_of(number), self.header.area_octets
        snapshot = snapshot_of(self.read(place, 21), place, octets)
        page = place - place % mmap.ALLOCATIONGRANULARITY
        with mmap.mmap(self.file.fileno(), place + octets - page, access=mmap.ACCESS_READ, offset=page) as view:
            batches = place - page + 4 + snapshot.length
            last, end = end_of_batches(view, batches, place - page + octets, page)
            return Area(number, place, view[place - page : end], 4 + snapshot.length, last - place + page, snapshot)

    def settled(self, take=None):
        """The area in use, as it was at one moment; or what `take` makes of its number in that time."""
        for tried in range(TRIES):
            number = self.selected()
            try:
                head, found = self.head(number), (take or self.area)(number)
            except NoJournal:
                if tried + 1 == TRIES:
                    raise
                continue
            if head and self.selected() == number and self.head(number) == head:
                return found
            time.sleep(0.002 * tried)
        raise NoJournal(f"its areas changed {TRIES} times while they were read")

    def history(self):
        """The other area, where its last event leads up to the one in use, else None; and the one in use."""
        return self.settled(lambda number: (self.joined(number), self.area(number)))

    def head(self, number):
        """The head of an area's snapshot as it is now, or None where it is none."""
        try:
            return snapshot_of(self.read(self.place_of(number), 21), self.place_of(number), self.header.area_octets)
        except NoJournal:
            return None

    def joined(self, number):
        """The area that isn't in use, where its events lead up to the snapshot of the one in use; else None.

        The batch for which it had no room is in that snapshot alone, so some numbers may be between its last event and those behind.
        """
        wanted = self.head(number)
        if not wanted or not wanted.length:
            return None
        try:
            area = self.area(1 - number)
            leads_up = 0 <= wanted.events - events_in(area) <= MOST_IN_BATCH and (last_of(area) or FIRST_MOMENT) <= wanted.last_moment
        except NoJournal:
            return None
        return area if leads_up and self.head(1 - number) == area.snapshot else None

    def __enter__(self):
        return self

    def __exit__(self, *_):
        self.file.close()


def snapshot_of(head, place, area_octets):
    """The head of the snapshot at the beginning of an area."""
    length = int.from_bytes(head[:4], "big")
    if length == 0:
        return Snapshot(place + 4, 0, None, 0, None)
    if length < 17 or 4 + length + 1 > area_octets:
        raise NoJournal("the length of a snapshot can't be", place)
    version, events, last = struct.unpack_from(">BQQ", head, 4)
    if version not in (1, 2) or events >= 1 << 63 or not FIRST_MOMENT <= last <= LAST_MOMENT:
        raise NoJournal("the head of a snapshot can't be", place + 4)
    return Snapshot(place + 4, length, version, events, last)


def end_of_batches(octets, at, end, before):
    """The place of the last batch whose gate is open, and that behind it."""
    head, last = struct.Struct(">BI").unpack_from, at
    while at + 5 <= end:
        gate, length = head(octets, at)
        if gate != OPEN:
            break
        if length > end - at - 5:
            raise NoJournal("a batch leaves its area", before + at + 1)
        last, at = at, at + 5 + length
    return last, at


# Batches and records.


def batches_in(area):
    """The body of each batch, with its place on the device."""
    at, octets = area.batches, area.octets
    while at < len(octets):
        length = int.from_bytes(octets[at + 1 : at + 5], "big")
        yield area.place + at + 5, octets[at + 5 : at + 5 + length]
        at += 5 + length


def records_in(area):
    """Each event of an area, oldest first."""
    last = area.snapshot.last_moment or FIRST_MOMENT
    for place, body in batches_in(area):
        at = 0
        if not body:
            raise NoJournal("a batch without a record", place)
        while at < len(body):
            try:
                record, at = record_at(body, at, place)
            except (IndexError, struct.error, ValueError) as error:
                raise NoJournal(f"no record: {error}", place + at) from None
            if record.moment < last:
                raise NoJournal("a moment before that of the event before it", record.place)
            last = record.moment
            yield record


def record_at(body, at, place):
    """The record at a place of a body, and the place behind it."""
    moment, act = struct.unpack_from(">QB", body, at)
    if not FIRST_MOMENT <= moment <= LAST_MOMENT:
        raise ValueError(f"the moment {moment}")
    reader = READERS.get(act)
    if reader is None:
        raise ValueError(f"the act {act}")
    fields, end = reader(body, at + 9)
    return Record(place + at, moment, act, fields), end


def want(holds, what):
    if not holds:
        raise ValueError(what)


def read_nothing(_, at):
    return {}, at


def object_in(number):
    return number >> 22, number & (1 << 22) - 1


def read_write(body, at):
    of, number = struct.unpack_from(">II", body, at)
    value, at = value_at(body, at + 8)
    return {"object": object_in(of), "property": number, "value": value}, at


def value_at(body, at):
    """A value: its application tag, and itself. A string of bits is a text of 0 and 1."""
    tag, at = body[at], at + 1
    if tag == 1:
        want(body[at] < 2, "a flag above 1")
        return (tag, bool(body[at])), at + 1
    if tag in (2, 3, 9):
        return (tag, struct.unpack_from(">i" if tag == 3 else ">I", body, at)[0]), at + 4
    if tag == 7:
        length = struct.unpack_from(">H", body, at)[0]
        octets = body[at + 2 : at + 2 + length]
        want(len(octets) == length <= 256, "a text that is cut, or longer than 256 octets")
        return (tag, octets.decode()), at + 2 + length
    want(tag == 8, f"a value of the tag {tag}")
    length, bits = struct.unpack_from(">BQ", body, at)
    want(length <= 64 and bits >> length == 0, "bits above a string's length")
    return (tag, "".join(str(bits >> it & 1) for it in range(length))), at + 9


def read_fault(body, at):
    of, number = struct.unpack_from(">IB", body, at)
    return {"object": object_in(of), "reliability": number}, at + 5


def read_acknowledgement(body, at):
    of, transition, state = struct.unpack_from(">IBB", body, at)
    want(transition < 3 and state < 5, f"the transition {transition}, the state {state}")
    return {"object": object_in(of), "transition": transition, "state": state}, at + 6


def read_answer(body, at):
    peer, at = peer_at(body, at)
    return {"peer": peer, "invoke": body[at], "answer": body[at + 1]}, at + 2


def peer_at(body, at):
    """A peer as A.B.C.D:PORT, with network and station behind it where it has them."""
    a, b, c, d, port, net, length = struct.unpack_from(">4BHHB", body, at)
    mac = body[at + 9 : at + 16]
    want(len(mac) == 7 and port > 0 and length <= 7 and not any(mac[length:]), "a peer that can't be")
    want((net == 0) == (length == 0), "a peer that can't be")
    return f"{a}.{b}.{c}.{d}:{port}" + (f"/{net}:{mac[:length].hex()}" if net else ""), at + 16


def read_edit(body, at):
    of_class, count = struct.unpack_from(">IB", body, at)
    want(count <= 32, f"{count} recipients")
    recipients, at = [], at + 5
    for _ in range(count):
        days, begin, end = struct.unpack_from(">BII", body, at)
        peer, at = peer_at(body, at + 9)
        process, confirmed, transitions = struct.unpack_from(">IBB", body, at)
        at += 6
        want(days < 128 and max(begin, end) < 8_640_000 and confirmed < 2 and transitions < 8, "a recipient that can't be")
        recipients.append({
            "days": bits_text(days, 7), "from": hundredths_text(begin), "to": hundredths_text(end), "peer": peer, "process": process,
            "confirmed": bool(confirmed), "transitions": bits_text(transitions, 3),
        })
    return {"class": of_class, "recipients": recipients}, at


READERS = {1: read_nothing, 2: read_write, 3: read_fault, 4: read_acknowledgement, 5: read_nothing, 6: read_answer, 7: read_edit}


def bits_text(number, count):
    """Bits as digits, the lowest first."""
    return "".join(str(number >> it & 1) for it in range(count))


def hundredths_text(number):
    """A time of the day in hundredths of a second, as 06:00:00.00."""
    return f"{number // 360_000:02}:{number // 6000 % 60:02}:{number // 100 % 60:02}.{number % 100:02}"


# What is asked of a journal.


def last_moment(path):
    """The moment of the last event of a journal, in milliseconds since 1970, or None where it has none.

    A file that can't be read gives OSError, and one that is no journal NoJournal. Only the last batch's records are read, so
    it takes well below a second; a server may run on the journal.
    """
    with Journal(path) as journal:
        if journal.header.blank:
            return None
        area = journal.settled()
    return last_of(area)


def last_of(area):
    """The moment of the last event of an area, or None where there is none."""
    last = area.snapshot.last_moment if area.snapshot.events else None
    for record in records_in(area._replace(place=area.place + area.last, octets=area.octets[area.last :], batches=0)):
        last = record.moment
    return last


def events_in(area):
    """How many events there are up to the end of an area: those in its snapshot, and its records, of which only the lengths are read."""
    octets, at, events, end = area.octets, area.batches, area.snapshot.events, len(area.octets)
    while at < end:
        behind = at + 5 + int.from_bytes(octets[at + 1 : at + 5], "big")
        at += 5
        while at < behind:
            try:
                at, events = at + (OCTETS.get(octets[at + 8]) or octets_of_record(octets, at)), events + 1
            except (IndexError, KeyError):
                raise NoJournal("no record", area.place + at) from None
        if at > behind:
            raise NoJournal("no record that ends with its batch", area.place + behind)
    return events


def octets_of_record(octets, at):
    """How long the record of a write or an edit is; that of another act is a KeyError."""
    if octets[at + 8] == 7:
        return 14 + 31 * octets[at + 13]
    tag = octets[at + 17] if octets[at + 8] == 2 else None
    if tag == 7:
        return 20 + int.from_bytes(octets[at + 18 : at + 20], "big")
    return 17 + OCTETS_OF_VALUES[tag]


def copy_octets(journal, area):
    """The parts of a copy that has the header and one area of a journal, in turn. The other area is zeros."""
    header = journal.header
    yield journal.read(0, header.selector_place) + bytes([area.number])
    for number in (0, 1):
        octets = area.octets if number == area.number else b""
        yield octets
        yield from zeros(header.area_octets - len(octets))
    yield from zeros(header.size - header.selector_place - 1 - 2 * header.area_octets)


def zeros(count):
    whole = bytes(1 << 20)
    while count > 0:
        yield whole[:count]
        count -= len(whole)
