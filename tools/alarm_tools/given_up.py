"""Which notifications were given up: the events of a journal or an archive, played once more to the program, which says what moved and what was sent.

Who was told of it, and what became of that, follows from the rules (delivery.py); each pump has to have sent to each recipient as many datagrams as
these say, else nothing is told from there on.
"""
import collections
import datetime
import os
import pathlib
import queue
import tempfile

from . import archive, delivery, journal, names, replay, site_text, snapshots, words
from .journal import NoJournal
from .replay_session import Session
from .words import Ends

WRITE, ACKNOWLEDGEMENT, PUMP, ANSWER, EDIT = 2, 4, 5, 6, 7
EVENT_ENABLE = 35
# How long the end of what a session said is awaited, where it may have been read before.
CLOSES = 1
# An event as it is given: its number, what it is; where the state before it begins anew the snapshot of that, b"" where nothing was before it; and whether a search has found it.
Row = collections.namedtuple("Row", "number record start found", defaults=[None, False])
# A giving up: the recipient, and how many notifications it took, of which the first had been sent each time.
GivenUp = collections.namedtuple("GivenUp", "peer count")


class Differs(ValueError):
    """The program did something else than the record, or than the rules say."""


def rows_of_journal(older, area):
    """The rows of both areas of a journal, as they were read."""
    for part in filter(None, (older, area)):
        start = snapshots.of_area(part) if part.snapshot.length else b""
        for number, record in enumerate(journal.records_in(part), part.snapshot.events + 1):
            yield Row(number, record, start)
            start = None


def rows_of_archive(path):
    """The rows of an archive."""
    with archive.Archive(path) as it:
        it.passed = b""
        for event in it.events():
            start, it.passed = it.passed, None
            yield Row(event.number, event.record, start, event.found)


class Lists:
    """Who is told of what: the lists of recipients, and which transitions of each object are told, as they are at an event."""

    def __init__(self, site, start):
        self.zone = site.zone
        self.items = {it["object"]: it for it in site_text.alarm_objects(site)}
        self.enable = {of: it["enable"] for of, it in self.items.items()}
        self.lists = {of: [it | {"peer": it["address"]} for it in them] for of, them in site_text.lists(site).items()}
        self.deliveries = collections.defaultdict(delivery.Delivery)
        if start:
            self.take(site, snapshots.read(site, start))

    def take(self, site, state):
        for of in self.items:
            self.enable[of] = journal.bits_text(state.objects[of]["enable"] if of in state.objects else state.alarms[of]["enable"], 3)
        for of, them in state.classes.items():
            self.lists[of[1]] = journal.read_edit(of[1].to_bytes(4, "big") + bytes([len(them)]) + b"".join(them), 0)[0]["recipients"]
        for it in state.peers:
            self.deliveries[journal.peer_at(it.peer, 0)[0]] = delivery.Delivery([bool(confirmed) for confirmed, _ in it.notes], it.attempts, it.deadline)

    def tell(self, of, transition, moment):
        """Queues the notifications to all who are told of a transition of an object now."""
        shown = datetime.datetime(1970, 1, 1) + datetime.timedelta(milliseconds=moment // 10 * 10 + 1000 * self.zone.ahead(moment))
        time = f"{shown:%H:%M:%S}.{shown.microsecond // 10_000:02}"
        for it in self.lists[self.items[of]["class"]]:
            if it["transitions"][transition] == "1" and it["days"][shown.weekday()] == "1" and it["from"] <= time <= it["to"]:
                self.deliveries[it["peer"]].queue(it["confirmed"])


class Player:
    """A session of the program on the state of a snapshot, to which events are played. `found` has what each gave up, by its number."""

    def __init__(self, program, text, start, folder):
        site_path, kept = pathlib.Path(folder, "site.toml"), pathlib.Path(folder, "journal")
        site_path.write_bytes(text)
        site = site_text.read(text)
        make_journal(kept, text, replay.need_of(program, site_path, "the text"), start)
        self.lists, self.timing, self.found, self.last = Lists(site, start), delivery.timing_of(site.device), {}, None
        self.session = Session(program, site_path, kept)
        self.side = replay.Side(self.session, self.hear)

    def put(self, number, record):
        self.last = record.moment
        for line in self.side.lines(record):
            self.side.put(line, (number, record))

    def settle(self):
        if self.last is not None:
            self.side.settle(self.last)

    def hear(self, _, block, given):
        """What came of an event; a question has none."""
        if given is None:
            return
        number, record = given
        if block.word != "entered" or [int(it) for it in block.rest] != [number, record.moment]:
            raise Differs(f"at event {number:,} the program says {' '.join([block.word, *block.rest])}")
        for of, _, to in block.changes:
            transition = 1 if to == "fault" else 2 if to == "normal" else 0
            if self.lists.enable[names.object_from(of)][transition] == "1":
                self.lists.tell(names.object_from(of), transition, record.moment)
        of = record.fields
        if record.act == ACKNOWLEDGEMENT:
            self.lists.tell(of["object"], of["transition"], record.moment)
        elif record.act == ANSWER:
            self.lists.deliveries[of["peer"]].answer()
        elif record.act == EDIT:
            self.lists.lists[of["class"]] = of["recipients"]
        elif record.act == WRITE and of["property"] == EVENT_ENABLE:
            self.lists.enable[of["object"]] = of["value"][1]
        elif record.act == PUMP:
            self.pump(number, record.moment, block.sends)

    def pump(self, number, moment, sends):
        """What is sent and given up; as many datagrams as the program sent to each address."""
        sent = collections.Counter()
        for peer, of in sorted(self.lists.deliveries.items()):
            did = of.pump(moment, self.timing)
            sent[peer.partition("/")[0]] += did.sent
            if did.given_up:
                self.found.setdefault(number, []).append(GivenUp(peer, did.given_up))
        if +sent != collections.Counter(peer for peer, _ in sends):
            raise Differs(f"at event {number:,} the program sends to {dict(collections.Counter(peer for peer, _ in sends))}, and by the rules it is {dict(+sent)}")

    def close(self):
        """Ends the session, once all that it said was read."""
        self.session.run.kill()
        try:
            while self.session.lines.get(timeout=CLOSES) is not None:
                pass
        except queue.Empty:
            pass
        self.session.close()


def make_journal(path, text, size, start):
    """A journal of a text whose state is that of a snapshot, without an event behind it; a blank one where there is none."""
    replay.make_blank(path, size)
    if not start:
        return
    with open(path, "r+b") as file:
        file.write(bytes([journal.OPEN]) + journal.MARK + size.to_bytes(8, "big") + len(text).to_bytes(4, "big") + text + bytes(1))
        file.write(len(start).to_bytes(4, "big") + start)


class Told:
    """Rows with what each gave up. Where that can't be told, `fault` has why, and the rows go on without it."""

    def __init__(self, program, text):
        self.program, self.text, self.fault, self.player = program, text, None, None

    def over(self, rows):
        """Each row, with the list of what it gave up."""
        with tempfile.TemporaryDirectory(prefix="alarm-given-up-", dir=replay.in_memory()) as folder:
            waiting = []
            try:
                for row in rows:
                    if row.start is not None or len(waiting) >= replay.TOGETHER:
                        yield from self.settled(waiting)
                        waiting = []
                    self.doing(lambda row=row: self.put(row, folder))
                    waiting.append(row)
                yield from self.settled(waiting)
            finally:
                self.end()

    def put(self, row, folder):
        if row.start is not None:
            self.end()
            where = os.path.join(folder, str(row.number))
            os.mkdir(where)
            self.player = Player(self.program, self.text, row.start, where)
        self.player.put(row.number, row.record)

    def settled(self, waiting):
        self.doing(lambda: self.player and self.player.settle())
        found = self.player.found if self.player else {}
        for row in waiting:
            yield row, found.pop(row.number, [])

    def doing(self, call):
        """Does something, unless it can't be told any more."""
        if self.fault:
            return
        try:
            call()
        except (Ends, NoJournal, ValueError, KeyError, OSError) as fault:
            self.fault = str(fault) or type(fault).__name__
            self.end()

    def end(self):
        if self.player:
            self.player.close()
        self.player = None


def has_pump(area, moment):
    """Whether an area has a pump at a moment or later. Only the batches since then are read, and the one before them."""
    bodies = []
    for _, body in journal.batches_in(area):
        if int.from_bytes(body[:8], "big") < moment:
            bodies.clear()
        bodies.append(body)
    return any(record.act == PUMP and record.moment >= moment for body in bodies for _, _, record in archive.records_in(body, 1))


def since(program, path, moment):
    """How many notifications a journal says that were given up from a moment on; Ends where that can't be told."""
    with journal.Journal(path) as it:
        if it.header.blank:
            return 0
        older, area = it.history()
        text = it.header.text
    # What happened before the snapshot of the area in use isn't looked at, where that is old enough; and without a pump since then nothing is.
    parts = (None, area) if area.snapshot.length and area.snapshot.last_moment < moment else (older, area)
    if not any(has_pump(part, moment) for part in parts if part):
        return 0
    told = Told(program, text)
    count = sum(one.count for row, found in told.over(rows_of_journal(*parts)) if row.record.moment >= moment for one in found)
    if told.fault:
        raise Ends(words.CANNOT_OPEN, f"what was given up can't be told: {told.fault}")
    return count
