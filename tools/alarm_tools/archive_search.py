"""The event that came with a snapshot: it found no room in its area, so that no record tells it, and it is found again by trying.

The older area's end is a state, and the snapshot is the next one. Each event by which the two may part is given to a standby whose
journal has the first state and no room; the one behind which the snapshot is the same, octet for octet, is the one. Where events do
the same, as writes of values that two objects have, one of them stands for all: no state ever tells them apart.
"""
import os
import pathlib
import tempfile

from . import journal, replay, replay_site, site_text, snapshots
from .replay_packets import Standby

EMPTY_BATCH = b"\x01\0\0\0\0"
TICK, WRITE, FAULT, ACKNOWLEDGEMENT, PUMP, ANSWER, EDIT = 1, 2, 3, 4, 5, 6, 7
# What a write of a key is in a record: its value's tag and octets. Flags of a record are spelled with the lowest bit first.
BITS = {"enable": 3, "limit_enable": 2}
PRESENT_VALUE, RECORD_COUNT = 85, 141
SIGNED_KEYS = ("high", "low")
ACKNOWLEDGEABLE = 255


def record_of(moment, act, fields=b""):
    return moment.to_bytes(8, "big") + bytes([act]) + fields


def object_octets(of):
    return (of[0] << 22 | of[1]).to_bytes(4, "big")


def write_of(moment, of, number, value):
    """The record of a write; the value as a record spells it."""
    return record_of(moment, WRITE, object_octets(of) + number.to_bytes(4, "big") + value)


def key_value(of, key, value):
    """The value of a key of a snapshot as a record spells it."""
    if key in BITS:
        return bytes([8, BITS[key]]) + value.to_bytes(8, "big")
    if key in ("out_of_service", "inhibit", "reliability_inhibit"):
        return bytes([1, value])
    tag = 9 if key == "alarm_value" else 3 if key in SIGNED_KEYS and of[0] == 45 else 2
    return bytes([tag]) + value.to_bytes(4, "big")


class Search:
    """Looks for missing events with the program, in a folder of its own."""

    def __init__(self, program):
        self.program, self.tried = program, 0

    def find(self, text, older, area):
        """The record of the one event between an area's end and a snapshot, as octets and as it is read; None where none was found."""
        try:
            site = site_text.read(text)
            with tempfile.TemporaryDirectory(prefix="alarm-search-", dir=replay.in_memory()) as folder:
                (pathlib.Path(folder) / "site.toml").write_bytes(text)
                return self.try_all(site, text, older, area, pathlib.Path(folder))
        except (ValueError, journal.NoJournal, replay.Ends):
            return None

    def try_all(self, site, text, older, area, folder):
        wanted = snapshots.of_area(area)
        behind = snapshots.read(site, wanted)
        place = Place(self.program, folder, text, older)
        before = self.state_at(site, older, place)
        for octets in candidates(site, before, behind) if before else ():
            self.tried += 1
            if place.behind(octets) == wanted:
                return octets, journal.record_at(octets, 0, 0)[0]
        return None

    @staticmethod
    def state_at(site, older, place):
        """The state at the end of an area: that behind one more event, which writes the value that an object has, but for its number."""
        if not site.objects:
            return None
        of, moment = site.objects[0], older.snapshot.last_moment
        value = value_at_first(site, of, older)
        for record in journal.records_in(older):
            moment = record.moment
            if record.act == WRITE and record.fields["object"] == of["object"] and record.fields["property"] == PRESENT_VALUE:
                value = value_octets(*record.fields["value"])
        if moment is None:
            return None
        found = place.behind(write_of(moment, of["object"], PRESENT_VALUE, value))
        if found is None:
            return None
        state = snapshots.read(site, found)
        return state._replace(events=state.events - 1)


def value_at_first(site, of, older):
    """The value of an object before an area's first event."""
    if older.snapshot.length:
        return snapshots.read(site, snapshots.of_area(older)).objects[of["object"]]["value"]
    tag = replay_site.TYPES[of["object"][0]]
    return value_octets(tag, {"inactive": 0, "active": 1}[of["value"]] if tag == 9 else of["value"])


def value_octets(tag, value):
    """A value as a record spells it."""
    if tag == 1:
        return bytes([1, value])
    if tag == 7:
        octets = value.encode()
        return bytes([7]) + len(octets).to_bytes(2, "big") + octets
    if tag == 8:
        return bytes([8, len(value)]) + int(value[::-1] or "0", 2).to_bytes(8, "big")
    return bytes([tag]) + value.to_bytes(4, "big", signed=tag == 3)


class Place:
    """A journal of an area without room, to which one event can be given again and again: each time the state behind it is written as a snapshot."""

    def __init__(self, program, folder, text, older):
        self.program, self.site, self.path = program, folder / "site.toml", folder / "tried"
        need = replay.need_of(program, self.site, "the site")
        area = max((need - 22 - len(text)) // 2, len(older.octets))
        size = 22 + len(text) + 2 * area + 1
        head = b"\x01" + journal.MARK + size.to_bytes(8, "big") + len(text).to_bytes(4, "big") + text
        self.selector, self.other = len(head), len(head) + 1 + area
        with open(self.path, "wb") as file:
            file.write(head + b"\0" + older.octets + EMPTY_BATCH * ((area - len(older.octets)) // 5))
            file.truncate(size)

    def behind(self, octets):
        """The snapshot of the state behind an event, or None where it may not come."""
        with open(self.path, "r+b", buffering=0) as file:
            os.pwrite(file.fileno(), b"\0", self.selector)
        with Standby(self.program, self.site, self.path) as standby:
            taken = standby.add(octets) and standby.flush()
            if taken:
                standby.end()
        with open(self.path, "rb") as file:
            file.seek(self.selector)
            if not taken or file.read(1) == b"\0":
                return None
            file.seek(self.other)
            return file.read(int.from_bytes(file.read(4), "big"))


def candidates(site, before, behind):
    """Each event by which two states may part, at the moment of the second: first those that what differs tells."""
    moment = behind.moment
    for of, now in behind.objects.items():
        yield from of_object(moment, of, before.objects[of], now)
    for of, now in behind.alarms.items():
        yield from of_alarm(moment, of, before.alarms[of], now)
    for of, now in behind.classes.items():
        if before.classes[of] != now:
            yield record_of(moment, EDIT, of[1].to_bytes(4, "big") + bytes([len(now)]) + b"".join(now))
    for of, now in behind.logs.items():
        if before.logs[of].enable != now.enable:
            yield write_of(moment, of, replay_site.LOG_ENABLE, bytes([1, now.enable]))
        if before.logs[of].records and len(now.records) < len(before.logs[of].records):
            yield write_of(moment, of, RECORD_COUNT, value_octets(2, 0))
    if before != behind._replace(events=before.events, moment=before.moment):
        # A tick or a pump behind which all is as before is no event of a session or a server.
        yield record_of(moment, TICK)
        yield record_of(moment, PUMP)
    for it in before.peers:
        if it.deadline:
            for invoke in dict.fromkeys(((it.invoke - 1) % 256, it.invoke)):
                yield record_of(moment, ANSWER, it.peer + bytes([invoke, 2]))
    # What a write of the value that is there does, most other writes that change nothing do.
    for item in site.objects:
        yield write_of(moment, item["object"], PRESENT_VALUE, behind.objects[item["object"]]["value"])


def of_object(moment, of, before, now):
    for key in now:
        if key == "value" and before[key] != now[key]:
            yield write_of(moment, of, PRESENT_VALUE, now[key])
        elif key == "reliability" and before[key] != now[key]:
            yield record_of(moment, FAULT, object_octets(of) + bytes([now[key]]))
        elif key in replay_site.KEYS and before[key] != now[key]:
            yield write_of(moment, of, replay_site.KEYS[key][0], key_value(of, key, now[key]))


def of_alarm(moment, of, before, now):
    for key in ("inhibit", "enable"):
        if key in now and before[key] != now[key]:
            yield write_of(moment, of, replay_site.KEYS[key][0], key_value(of, key, now[key]))
    for transition in range(3):
        bit = 1 << transition
        if now["acked"] & bit and not before["acked"] & bit and now["entered"][transition] != ACKNOWLEDGEABLE:
            yield record_of(moment, ACKNOWLEDGEMENT, object_octets(of) + bytes([transition, now["entered"][transition]]))
