"""The events of a site, from a journal that may be in use, from an archive, or from an archive and then a journal."""
import os
import struct

from . import archive, journal, snapshots
from .archive import Event
from .journal import NoJournal
from .words import CANNOT_OPEN, Ends

REFUSED, BUSY = 8, 75


def fault_of(path, fault):
    """A file that can't be read as the end of the tool."""
    if isinstance(fault, OSError):
        return Ends(CANNOT_OPEN, f"{path}: {fault.strerror}")
    return Ends(BUSY if "while they were read" in str(fault) else REFUSED, f"{path}: {fault}")


class Source:
    """What has happened so far, and later what came since.

    `find` makes the one event that came with a snapshot alone, or gives None. Where events are missing `gap` takes the number of the
    last one and the snapshot that stands for them; without it that ends the tool.
    """

    def __init__(self, path, archive_path=None, find=None):
        self.path, self.archive, self.find, self.had, self.area, self.at = str(path), archive_path, find, 0, None, 0
        self.gap = None
        try:
            self.is_archive = archive.is_archive(path)
            self.text, self.octets = self.text_of()
        except (OSError, NoJournal) as fault:
            raise fault_of(self.path, fault) from None

    def text_of(self):
        """The text, and how many octets the journal has, None of an archive."""
        if self.is_archive:
            with archive.Archive(self.path) as it:
                return it.head.text, None
        with journal.Journal(self.path) as it:
            if it.header.blank:
                raise NoJournal("it is blank: nothing was kept in it yet")
            return it.header.text, it.header.size

    def more(self):
        """Each event that wasn't given yet, of those that are there now."""
        try:
            if self.is_archive:
                yield from self.of_archive(self.path)
                return
            if self.archive and not self.had:
                yield from self.of_archive(self.archive)
            yield from self.of_journal()
        except (OSError, NoJournal) as fault:
            raise fault_of(self.path, fault) from None

    def of_archive(self, path):
        with archive.Archive(path) as it:
            if it.head.text != self.text:
                raise Ends(REFUSED, f"{path} is of another text than {self.path}")
            for event in it.events(self.had):
                if event.number != self.had + 1:
                    raise self.missing(event.number - 1)
                self.had = event.number
                yield event

    def of_journal(self):
        with journal.Journal(self.path) as it:
            if it.header.text != self.text:
                raise NoJournal("it is another journal than before")
            older, area = it.history()
            # An event that a crash of the machine may still take from the journal is none yet.
            os.fdatasync(it.file.fileno())
            for part in filter(None, (older, area)):
                yield from self.of_area(part, older if part is area else None)

    def of_area(self, part, older):
        """The events of an area behind those that were given. It goes on from where the last one ended."""
        which, number, cut = (part.number, part.snapshot), part.snapshot.events, part
        if which == self.area:
            cut, number = part._replace(place=part.place + self.at, octets=part.octets[self.at :], batches=0), self.had
        elif number > self.had:
            found = self.find(self.text, older, part) if self.find and older and number == self.had + 1 == journal.events_in(older) + 1 else None
            if not found and not self.gap:
                raise self.missing(number)
            self.had = number
            if found:
                yield Event(number, *found, True)
            else:
                self.gap(number, snapshots.of_area(part))
        for place, body in journal.batches_in(cut):
            for number, octets, record in archive.records_in(body, number + 1, place):
                if number > self.had:
                    self.had = number
                    yield Event(number, octets, record, False)
        self.area, self.at = which, len(part.octets)

    def missing(self, last):
        """Events that no record tells."""
        if not self.had:
            return Ends(REFUSED, f"the first {last:,} events of {self.path} are in a snapshot alone: give an archive, or --from-state")
        which = f"event {last:,} of {self.path} is" if last == self.had + 1 else f"events {self.had + 1:,} to {last:,} of {self.path} are"
        return Ends(REFUSED, f"{which} in a snapshot alone, and can't be found: give an archive that has them, or --from-state")


class Tail:
    """What a journal gets, read on from where it ended: one that a session of this tool writes, which is looked at while it waits.

    `find` and `gap` are as of a source; without them what came with a snapshot is passed over.
    """

    def __init__(self, path, find=None, gap=None):
        self.path, self.find, self.gap = path, find, gap
        self.area, self.at, self.had = None, 0, 0

    def more(self):
        """Each event that wasn't given yet: its number, its octets, and whether it was found by trying."""
        with journal.Journal(self.path) as it:
            if it.header.blank:
                return
            now = it.selected()
            if self.area is None:
                self.begin(now, it.head(now))
            elif self.area != (now, it.head(now)):
                if it.head(self.area[0]) == self.area[1]:
                    yield from self.rest(it)
                yield from self.missing(it)
                self.begin(now, it.head(now))
            yield from self.rest(it)

    def begin(self, number, head):
        self.area, self.at, self.had = (number, head), 4 + head.length, max(self.had, head.events)

    def rest(self, it):
        """The events behind the place to which the area was read."""
        place, end = it.place_of(self.area[0]), it.header.area_octets
        while self.at + 5 <= end:
            gate, length = struct.unpack(">BI", it.read(place + self.at, 5))
            if gate != journal.OPEN:
                return
            body = it.read(place + self.at + 5, length)
            self.at += 5 + length
            for number, octets, _ in archive.records_in(body, self.had + 1):
                self.had = number
                yield number, octets, False

    def missing(self, it):
        """What came with the snapshot of the area that is in use now."""
        older, area = it.history()
        count = area.snapshot.events - self.had
        if count and self.gap:
            found = self.find(it.header.text, older, area) if self.find and older and count == 1 else None
            if found:
                yield area.snapshot.events, found[0], True
            else:
                self.gap(area.snapshot.events, snapshots.of_area(area))
