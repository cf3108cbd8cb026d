"""What an archive, or a journal that is whole, tells of alarms: its events, played once more to its own text with one log of all classes.

The site's own logs may leave a class out, be switched off, or have dropped their oldest records. So the text that is played to has one
log in place of them, which is read before it is full. What was written to the site's logs moves nothing else: in its place all objects
are looked at, as they were then.
"""
import json
import pathlib
import tempfile
import tomllib

from . import archive, archive_search, glance, journal, names, octets, replay, values
from .replay_session import Session
from .replay_source import Source
from .words import CANNOT_OPEN, UNREADABLE, Ends

LOG = names.OBJECT_NUMBERS["event-log"], 1
# How many records a log has at most, and how many are asked for at once.
MOST, STEP = 16_384, 50
REFUSED = 8


def record_of(stamp, note, name):
    """A record of a log by names. It is told to no process, so the number of one isn't in it."""
    told = values.notification_words(note, name) | {"time": values.stamp_text(stamp)}
    told.pop("process", None)
    return told


def is_history(path):
    """Whether a file begins as an archive or a journal does."""
    try:
        with open(path, "rb") as file:
            head = file.read(len(archive.MARK))
    except OSError as error:
        raise Ends(CANNOT_OPEN, f"{path}: {error.strerror}") from None
    return head == archive.MARK or head[1 : 1 + len(journal.MARK)] == journal.MARK


def written(value):
    """A value as TOML has it."""
    if isinstance(value, bool):
        return "true" if value else "false"
    if isinstance(value, list):
        return f"[{', '.join(map(written, value))}]"
    return json.dumps(value, ensure_ascii=False).replace("\x7f", "\\u007f") if isinstance(value, str) else str(value)


def with_one_log(text, called):
    """A site's text with one log of all classes in place of its own logs."""
    try:
        document = tomllib.loads(text.decode("utf-8-sig"))
    except ValueError as fault:
        raise Ends(UNREADABLE, f"{called}: the program takes its text, and this tool can't read it: {fault}") from None
    classes = [it["instance"] for it in glance.tables_of(document, "class")]
    sections = document | {"log": [{"instance": LOG[1], "size": MOST, "classes": classes}]}
    lines = []
    for name, items in sections.items():
        for item in items if isinstance(items, list) else [items]:
            lines += [f"[[{name}]]" if isinstance(items, list) else f"[{name}]", *(f"{key} = {written(it)}" for key, it in item.items())]
    return "\n".join(lines).encode() + b"\n"


class Whole(Source):
    """The events of a file that has all of them."""

    def __init__(self, path, find):
        super().__init__(path, None, find)
        if self.is_archive:
            with archive.Archive(path) as it:
                for first, last in it.gaps():
                    raise self.lacks(first, last)

    def missing(self, last):
        return self.lacks(self.had + 1, last)

    def lacks(self, first, last):
        which = f"events {first:,} to {last:,} of {self.path} are" if first < last else f"event {last:,} of {self.path} is"
        return Ends(REFUSED, f"{which} in a snapshot alone, so that it can't be played: an archive of all events is wanted, or lines of alarm-client follow, or --log")


class Played:
    """The records of all alarms of a file, in the order in which they came."""

    def __init__(self, program, path):
        self.program, self.path = program, str(path)
        self.source = Whole(path, archive_search.Search(program).find)
        self.view = glance.glance(self.source.text)
        self.moved, self.number, self.last = False, 0, None

    def records(self):
        with tempfile.TemporaryDirectory(prefix="alarm-history-", dir=replay.in_memory()) as folder:
            site, kept = pathlib.Path(folder, "site.toml"), pathlib.Path(folder, "journal")
            site.write_bytes(with_one_log(self.source.text, self.path))
            replay.make_blank(kept, replay.need_of(self.program, site, f"the text of {self.path}"))
            session = Session(self.program, site, kept)
            try:
                yield from self.played(replay.Side(session, self.hear))
                session.end()
            finally:
                session.close()

    def played(self, side):
        """Plays so many events at once that the log has room for what comes of them, and reads it."""
        objects = sum(len(glance.tables_of(self.view.tables, it)) for it in ("object", "enrollment"))
        together = max(1, min(replay.TOGETHER, MOST // (2 * objects + 1)))
        for count, event in enumerate(self.source.more(), 1):
            self.last = event.record.moment
            is_of_log = event.record.fields.get("object", (None,))[0] == LOG[0]
            for line in [f"tick {self.last}"] if is_of_log else side.lines(event.record):
                side.put(line)
            if count % together == 0:
                yield from self.new_records(side)
        if self.last is not None:
            yield from self.new_records(side)

    def hear(self, _, block, __):
        self.moved = self.moved or bool(block.changes)

    def new_records(self, side):
        """What the log has got since it was last read."""
        side.settle(self.last)
        while self.moved:
            message = side.ask(self.last, octets.read_range(0, LOG, self.number + 1, STEP))
            found = octets.range_read(message).records
            if found and found[0][0] != self.number + 1:
                raise Ends(UNREADABLE, f"{self.path}: the log has record {found[0][0]:,} behind record {self.number:,}")
            for self.number, stamp, note in found:
                yield record_of(stamp, note, self.view.names.get(note.object))
            self.moved = bool(found)
