"""An archive: all events of a site, in a file that grows. docs/JOURNAL.md tells its octets.

A head names the text, and the archive that ended where the text changed; then come frames. A frame that a crash has cut is none,
and the next append begins there. An append reads the last frame alone, whose place is kept in a file beside the archive.
"""
import collections
import fcntl
import hashlib
import json
import os
import pathlib
import struct
import zlib

from . import journal
from .journal import NoJournal

MARK = b"alarm-archive 1 "
# What a frame has: records as the journal had them; the one record that a search has found; a snapshot, where events are missing.
RECORDS, FOUND, SNAPSHOT = 1, 2, 3
FRAME = struct.Struct(">BQI")
# A frame: its kind, the number of its first event, or of the last one that a snapshot stands for, its octets, and the place behind it.
Frame = collections.namedtuple("Frame", "kind number octets end")
# An event: its number, its octets, what it is, and whether a search has found it.
Event = collections.namedtuple("Event", "number octets record found")
Head = collections.namedtuple("Head", "text before end")
LONGEST_HEAD = 200
# How many octets of records a frame has at most.
MOST = 1 << 20


def is_archive(path):
    """Whether a file begins as an archive does."""
    with open(path, "rb") as file:
        return file.read(len(MARK)) == MARK


def sum_of(path):
    """The SHA-256 of a file."""
    with open(path, "rb") as file:
        return hashlib.file_digest(file, "sha256").hexdigest()


def head_octets(text, before):
    """The head of an archive of a text, behind the archive of a sum, or of none."""
    return MARK + f"{len(text)} {before or '-'}\n".encode() + text


def head_of(file):
    """The head of an archive."""
    file.seek(0)
    line = file.readline(LONGEST_HEAD)
    words = line[len(MARK) :].split()
    if not line.startswith(MARK) or not line.endswith(b"\n") or len(words) != 2 or not words[0].isdigit():
        raise NoJournal("it is no archive: its first line isn't `alarm-archive 1 LENGTH SUM`")
    length = int(words[0])
    text = file.read(length)
    if len(text) != length:
        raise NoJournal("the site's text of the archive is cut")
    return Head(text, None if words[1] == b"-" else words[1].decode(), len(line) + length)


def frame_octets(kind, number, octets):
    frame = FRAME.pack(kind, number, len(octets)) + octets
    return frame + zlib.crc32(frame).to_bytes(4, "big")


def frames(file, at):
    """Each whole frame from a place on. The first that isn't whole ends them: a crash has cut it."""
    while True:
        file.seek(at)
        head = file.read(FRAME.size)
        if len(head) < FRAME.size:
            return
        kind, number, length = FRAME.unpack(head)
        if kind not in (RECORDS, FOUND, SNAPSHOT) or length > 1 << 30:
            return
        rest = file.read(length + 4)
        if len(rest) < length + 4 or zlib.crc32(head + rest[:length]) != int.from_bytes(rest[length:], "big"):
            return
        at += FRAME.size + length + 4
        yield Frame(kind, number, rest[:length], at)


def records_in(octets, number, place=0):
    """Each record in octets, from a number on: its number, its octets and what it is."""
    at = 0
    while at < len(octets):
        try:
            record, end = journal.record_at(octets, at, place)
        except (IndexError, struct.error, ValueError) as error:
            raise NoJournal(f"no record: {error}", place + at) from None
        yield number, octets[at:end], record
        number, at = number + 1, end


def count_in(octets):
    """How many records there are, by their lengths."""
    at = count = 0
    while at < len(octets):
        at, count = at + (journal.OCTETS.get(octets[at + 8]) or journal.octets_of_record(octets, at)), count + 1
    return count


class Archive:
    """An archive that is read."""

    def __init__(self, path):
        self.path = str(path)
        self.file = open(path, "rb")
        # The snapshot that was passed over last.
        self.passed = None
        try:
            self.head = head_of(self.file)
        except BaseException:
            self.file.close()
            raise

    def events(self, behind=0):
        """Each event behind a number, in its order. A frame that doesn't go on from those before it is a fault; a snapshot is passed over."""
        last = None
        for frame in frames(self.file, self.head.end):
            if frame.kind == SNAPSHOT:
                last, self.passed = frame.number, frame.octets
                continue
            if last is not None and frame.number != last + 1:
                raise NoJournal(f"event {frame.number:,} stands behind event {last:,}", frame.end)
            for number, octets, record in records_in(frame.octets, frame.number):
                last = number
                if number > behind:
                    yield Event(number, octets, record, frame.kind == FOUND)

    def gaps(self):
        """The numbers of the first and the last event of each gap."""
        last, missing = 0, []
        for frame in frames(self.file, self.head.end):
            if frame.kind == SNAPSHOT:
                missing += [(last + 1, frame.number)] if frame.number > last else []
                last = max(last, frame.number)
            else:
                last = frame.number + count_in(frame.octets) - 1
        return missing

    def snapshot(self):
        """The last snapshot, with the number of its events; None where no event is missing."""
        found = None
        for frame in frames(self.file, self.head.end):
            found = (frame.number, frame.octets) if frame.kind == SNAPSHOT else found
        return found

    def __enter__(self):
        return self

    def __exit__(self, *_):
        self.file.close()


# Appending.


class Appending:
    """An archive that is appended to: the number of its last event, and its end. What is behind its last whole frame is cut off."""

    def __init__(self, path, text, before=None):
        self.path, self.beside = pathlib.Path(path), pathlib.Path(f"{path}.end")
        self.file = open(os.open(path, os.O_RDWR | os.O_CREAT, 0o600), "r+b")
        fcntl.flock(self.file, fcntl.LOCK_EX | fcntl.LOCK_NB)
        self.events, self.added, self.missing = 0, 0, []
        self.waiting, self.first, self.size, self.kind, self.last = [], None, 0, RECORDS, None
        if os.fstat(self.file.fileno()).st_size == 0 or self.is_cut_head(text, before):
            self.file.truncate(0)
            self.file.seek(0)
            self.file.write(head_octets(text, before))
            self.head = Head(text, before, self.file.tell())
        else:
            self.head = head_of(self.file)
            self.go_to_end()

    def is_cut_head(self, text, before):
        """Whether a crash has cut the very head that is to be written."""
        self.file.seek(0)
        wanted = head_octets(text, before)
        found = self.file.read(len(wanted) + 1)
        return len(found) < len(wanted) and wanted.startswith(found)

    def go_to_end(self):
        """Goes behind the last whole frame: from the place that is kept beside it, else from the first frame."""
        at = self.head.end
        try:
            kept = json.loads(self.beside.read_text())
            at = kept["place"] if kept["text"] == zlib.crc32(self.head.text) and self.is_frame(kept["place"]) else at
        except (OSError, ValueError, KeyError, TypeError):
            pass
        end = at
        for frame in frames(self.file, at):
            self.events = frame.number if frame.kind == SNAPSHOT else frame.number + count_in(frame.octets) - 1
            end, self.last = frame.end, at
            at = end
        self.file.truncate(end)
        self.file.seek(end)

    def is_frame(self, place):
        return place >= self.head.end and next(frames(self.file, place), None) is not None

    def add(self, number, octets, found=False):
        """Appends a record; it is written once a frame is full, or at the end."""
        kind = FOUND if found else RECORDS
        if self.waiting and (kind != self.kind or self.size > MOST or number != self.events + 1):
            self.write()
        if not self.waiting:
            self.first, self.kind = number, kind
        self.waiting.append(octets)
        self.size, self.events, self.added = self.size + len(octets), number, self.added + 1

    def add_gap(self, number, snapshot):
        """Notes that events are missing: a snapshot stands for all up to a number."""
        self.write()
        self.missing.append((self.events + 1, number))
        self.put(frame_octets(SNAPSHOT, number, snapshot))
        self.events = number

    def write(self):
        if self.waiting:
            self.put(frame_octets(self.kind, self.first, b"".join(self.waiting)))
            self.waiting, self.size = [], 0

    def put(self, octets):
        self.last = self.file.tell()
        self.file.write(octets)

    def end(self):
        """All of it, synced; and then the place of the last frame."""
        self.write()
        self.file.flush()
        os.fsync(self.file.fileno())
        if self.last is not None:
            part = self.beside.with_name(self.beside.name + ".new")
            part.write_text(json.dumps({"place": self.last, "text": zlib.crc32(self.head.text)}) + "\n")
            os.replace(part, self.beside)
        folder = os.open(self.path.parent, os.O_RDONLY)
        os.fsync(folder)
        os.close(folder)

    def __enter__(self):
        return self

    def __exit__(self, *_):
        self.file.close()
