"""A replay: the events of a site, played to a changed text of it by a session of the program (docs/JOURNAL.md, "A replay").

Each event becomes a line that makes it again. It goes to a session of the new text and to one of the old text, the old run, which
tells the time stamps that were acknowledged and the lists before edits, and which has to become the old journal once more, octet
for octet: else the replay ends, and nothing is made. What the new text holds back of the past is written before the first event
and let go behind the last one; all of that are events of the new journal.
"""
import collections
import dataclasses
import os
import pathlib
import re
import subprocess

from . import archive, glance, journal, names, octets, replay_lines, replay_site, replay_words
from .replay_lines import asked
from .replay_session import MOST_LINES, Session
from .replay_source import Source, Tail
from .words import CANNOT_OPEN, UNREADABLE, USAGE, Ends

SITE_REFUSED, REFUSED, PARTED = 3, 8, 9
SECONDS, IN_MEMORY = 60, "/dev/shm"
# How many events are given before a look at what came of them.
TOGETHER = 512
# How often what nobody waits for is answered for, at most, at one moment.
ANSWERS = 600
Outcome = collections.namedtuple("Outcome", "lines end")


@dataclasses.dataclass
class Options:
    """How it is played. `take` has the keys whose value is to be the text's though they were written: {((45, 1), "high")}, or {"all"}."""

    as_if: bool = False
    take: frozenset = frozenset()
    octets: int | None = None
    archive: str | None = None
    find: object = None
    new_archive: str | None = None
    most_lines: int = MOST_LINES


def need_of(program, site, called):
    """How many octets a journal of a site has at least, as the program says; or the end of the tool, where it refuses the site."""
    with open(os.open(f"{site}.blank", os.O_CREAT | os.O_WRONLY | os.O_TRUNC, 0o600), "wb"):
        pass
    try:
        ran = subprocess.run([program, "session", str(site), f"{site}.blank"], stdin=subprocess.DEVNULL, capture_output=True, timeout=SECONDS, check=False, text=True, errors="replace")
    except OSError as error:
        raise Ends(CANNOT_OPEN, f"there is no program {program}: {error.strerror}") from None
    if found := re.fullmatch(r"journal refused: small-device 0 (\d+)\n", ran.stderr):
        return int(found[1])
    if found := re.fullmatch(r"(site refused: .*)\n(?:line (\d+)\n)?", ran.stderr):
        raise Ends(SITE_REFUSED, f"{called}{':' + found[2] if found[2] else ''}: {found[1]}")
    raise Ends(CANNOT_OPEN, f"{program} ended with {ran.returncode}: {ran.stderr.strip()}")


def size_of(need, size, options, called):
    """How large the new journal is to be: as the old one, where its size is known."""
    if options.octets is not None and options.octets < need:
        raise Ends(USAGE, f"a journal of {called} has at least {need} octets")
    return options.octets or max(need, size or 0)


def in_memory():
    """A folder in memory, where nothing waits for a disk; None is that of temporary files."""
    return IN_MEMORY if os.access(IN_MEMORY, os.W_OK) else None


def make_blank(path, size):
    """A blank journal to be played to: a file of zeros."""
    with open(os.open(path, os.O_WRONLY | os.O_CREAT | os.O_EXCL, 0o600), "wb") as file:
        file.truncate(size)


class Side:
    """A session of one text, and what it has told: how its objects moved, and what is in flight of it."""

    def __init__(self, session, hear):
        self.session, self.hear, self.given = session, hear, {}
        # When an object last made a transition of a kind, and to which state; the invoke ID in flight to each peer.
        self.stood, self.flights, self.lists = {}, {}, {}

    def put(self, line, of=None):
        self.given[self.session.put(line)] = of

    def settle(self, moment):
        """Hears all that came of what was given."""
        self.take(self.session.settle(moment))

    def ask(self, moment, datagram):
        """The answer to a question, which is no event."""
        message, before = self.session.ask(moment, datagram)
        self.take(before)
        return message

    def stamp(self, record):
        """The time stamp of a transition, as the program has it now."""
        of = record.fields
        message = self.ask(record.moment, octets.read_property(0, of["object"], replay_lines.EVENT_TIME_STAMPS, of["transition"] + 1))
        if message.kind != "complex-ack":
            raise Ends(PARTED, f"{names.object_text(of['object'])} has no time stamps")
        return octets.stamp_in(octets.elements(message.parameters)[-1].content[0])

    def list_now(self, moment, of_class):
        """The list of a class as elements, or None where there is no such class."""
        message = self.ask(moment, octets.read_property(0, (15, of_class), octets.RECIPIENT_LIST))
        if message.kind != "complex-ack":
            return None
        return [octets.destination(it) for it in octets.destinations_of(octets.values_read(message)[3])]

    def lines(self, record):
        """The line of a record that was made here, or where another hand made it the lines."""
        if record.act == 4:
            return [asked(record.moment, replay_lines.acknowledgement(record.fields, self.stamp(record)))]
        if record.act == 7:
            wanted, of_class = [replay_lines.destination(it) for it in record.fields["recipients"]], record.fields["class"]
            return [asked(record.moment, it) for it in replay_lines.edits(of_class, self.list_now(record.moment, of_class) or [], wanted)]
        return [replay_lines.plain(record)]

    def take(self, blocks):
        # The session may have begun anew, and then it counts its lines anew.
        for number, block in blocks.items():
            if block.word == "entered":
                moment = int(block.rest[1])
                for of, _, to in block.changes:
                    self.stood[of, 1 if to == "fault" else 2 if to == "normal" else 0] = moment, to
            for peer, datagram in block.sends:
                if datagram[6] >> 4 == 0 and datagram[9] == octets.CONFIRMED_EVENT_NOTIFICATION:
                    self.flights[peer] = datagram[8]
            self.hear(self, block, self.given.pop(number, None))


# What a line was given for: an event of the old journal; or what the replay says of itself, which is held or let go.
Given = collections.namedtuple("Given", "event what is_held", defaults=[None, False])


class Replay:
    """Plays events to two sessions."""

    def __init__(self, sessions, texts, options):
        self.old, self.new = Side(sessions[0], self.hear_old), Side(sessions[1], self.hear_new)
        self.texts, self.options = texts, options
        self.events, self.first, self.last, self.number = 0, None, None, 0
        self.moves, self.told, self.written = collections.Counter(), [], {}
        self.gone = {of for of in texts.alone(0)}
        self.changed_objects = {it.object for it in texts.changed()} | {item["object"] for item, *_ in texts.others()}
        self.follows = set() if options.as_if else texts.follows()
        self.watched = {(it.object, it.property) for it in self.keys()}
        self.drains, self.of_change, self.holds = options.as_if or texts.rewrites(), 0, True

    # What comes back.

    def hear_old(self, _, block, given):
        if given is not None and given.event is not None:
            event = given.event
            if block.word != "entered" or [int(it) for it in block.rest] != [event.number, event.record.moment]:
                raise Ends(PARTED, f"at event {event.number:,}, which is {journal.ACTS[event.record.act]}, the old text says {' '.join([block.word, *block.rest])}")
        self.count(block, 1)

    def hear_new(self, _, block, given):
        self.of_change += block.word == "entered" and (given is None or given.event is None)
        if given is not None:
            self.see_refusal(block, given)
            if given.is_held and block.changes:
                self.tell_first_look({names.object_from(of) for of, *_ in block.changes})
        self.count(block, -1)

    def tell_first_look(self, moved):
        """A write looks at all objects before it is done: what moves there moves by the new text's keys, and its notification has them."""
        for it in self.texts.changed():
            if it.object in moved:
                self.told.append({"kind": "not-held", "of": (it.object, it.key), "why": "it moves at its first look, before it can be held"})

    def keys(self):
        """The keys that are held, and those whose text's value is asked for though both texts have it."""
        found = list(self.texts.changed())
        return found + [it for it in map(self.texts.change_of, self.options.take - {"all"}) if it not in found]

    def count(self, block, sign):
        """Counts the moves that one of both has more often than the other."""
        if block.changes:
            moment = int(block.rest[1])
            for it in block.changes:
                key = moment, *it
                self.moves[key] += sign
                if not self.moves[key]:
                    del self.moves[key]

    def see_refusal(self, block, given):
        """Tells what the new text doesn't take."""
        if block.word in ("entered", "idle") or block.word == "ignored" and given.event and given.event.record.act == 6:
            return
        why = " ".join([block.word, *block.rest])
        for _, datagram in block.sends:
            message = octets.read(datagram)
            if message.kind == "simple-ack":
                # It is as it is to be already.
                return
            why = refusal_of(message, why)
        self.tell_left(given, why)

    def tell_left(self, given, why):
        if given.event is not None:
            self.told.append({"kind": "left-out", "event": given.event.number, "record": given.event.record, "why": why})
        else:
            self.told.append({"kind": "not-held" if given.is_held else "not-let-go", "of": given.what, "why": why})

    # What goes in.

    def take(self, event):
        """Plays an event."""
        record = event.record
        if self.first is None:
            self.first = record.moment
            self.hold(record.moment)
        self.events, self.number, self.last = self.events + 1, event.number, record.moment
        {4: self.acknowledge, 6: self.answer, 7: self.edit}.get(record.act, self.plain)(event)
        if record.act == 5 and self.drains:
            self.settle()
            self.drain()
        elif self.events % TOGETHER == 0:
            self.settle()

    def settle(self):
        for side in (self.old, self.new):
            side.settle(self.last)

    def plain(self, event):
        record, of = event.record, event.record.fields.get("object")
        line = replay_lines.plain(record)
        self.old.put(line, Given(event))
        if of in self.gone:
            # All others are looked at, at its moment.
            self.tell_left(Given(event), "unknown-object")
            self.new.put(f"tick {record.moment}")
            return
        self.new.put(line, Given(event))
        if record.act == 2:
            self.see_write(event, of)

    def see_write(self, event, of):
        """What else a write means where the new text has another object there."""
        record = event.record
        if (of, record.fields["property"]) in self.watched:
            self.written[of, record.fields["property"]] = event.number
        if of in self.changed_objects:
            self.new.put(f"tick {record.moment}")
        if record.fields["property"] == replay_site.KEYS["time_delay"][0] and of in self.follows:
            value = octets.application(*record.fields["value"])
            self.request(record.moment, octets.write_property(0, of, replay_site.KEYS["time_delay_normal"][0], value), (of, "time_delay_normal"))

    def acknowledge(self, event):
        """It is carried only for the very transition that somebody acknowledged."""
        record, of = event.record, event.record.fields
        self.old.put(asked(record.moment, replay_lines.acknowledgement(of, self.old.stamp(record))), Given(event))
        self.settle()
        key = names.object_text(of["object"]), of["transition"]
        there, here = self.old.stood.get(key), self.new.stood.get(key)
        if there != here:
            self.tell_left(Given(event), "another transition" if here else "no such transition")
            return
        self.new.put(asked(record.moment, replay_lines.acknowledgement(of, self.new.stamp(record))), Given(event))

    def edit(self, event):
        """One request made the record, so one of both makes it again; the new text's list gets the same change."""
        record, of_class = event.record, event.record.fields["class"]
        wanted = [replay_lines.destination(it) for it in record.fields["recipients"]]
        before = self.old.list_now(record.moment, of_class)
        for request in replay_lines.edits(of_class, before, wanted):
            self.old.put(asked(record.moment, request), Given(event))
        here = self.new.list_now(record.moment, of_class)
        if here is None:
            self.tell_left(Given(event), "unknown-object")
            return
        gone, come = [it for it in before if it not in wanted], [it for it in wanted if it not in before]
        for request in replay_lines.edits(of_class, here, [it for it in here if it not in gone] + [it for it in come if it not in here]):
            self.new.put(asked(record.moment, request), Given(event))

    def answer(self, event):
        """The invoke ID is the one that is in flight there."""
        record, peer = event.record, event.record.fields["peer"]
        self.old.put(replay_lines.plain(record), Given(event))
        self.settle()
        self.old.flights.pop(peer, None)
        invoke = self.new.flights.pop(peer, None)
        if invoke is not None:
            self.new.put(replay_lines.answer(record.moment, peer, invoke, record.fields["answer"]), Given(event))

    def drain(self):
        """Answers for those to whom the old run has nothing in flight, until the same holds of the new one: nobody answers of a past that wasn't."""
        for _ in range(ANSWERS):
            more = [it for it in self.new.flights if it not in self.old.flights]
            if not more:
                return
            for peer in more:
                self.new.put(replay_lines.answer(self.last, peer, self.new.flights.pop(peer), 2))
            self.new.put(f"pump {self.last}")
            self.new.settle(self.last)

    # What is held, and let go.

    def request(self, moment, datagram, what):
        self.new.put(asked(moment, datagram), Given(None, what, self.holds))

    def hold(self, moment):
        """The new text begins as the old one was, as far as that can be written."""
        if self.options.as_if:
            return
        if self.is_quiet():
            moment = self.start()
        for it in self.texts.changed():
            self.request(moment, octets.write_property(0, it.object, it.property, it.old), (it.object, it.key))
        for of in self.texts.new_alarms():
            self.request(moment, octets.write_property(0, of, replay_site.INHIBIT, octets.boolean(True)), (of, "inhibit"))
        for of in self.texts.new_logs():
            self.request(moment, octets.write_property(0, of, replay_site.LOG_ENABLE, octets.boolean(False)), (of, "enable"))
        for service, which in ((octets.REMOVE_LIST_ELEMENT, 1), (octets.ADD_LIST_ELEMENT, 0)):
            for of, elements in self.texts.list_changes(which):
                self.request(moment, replay_lines.edit(service, of, elements), ((15, of), elements))
        self.new.settle(moment)
        self.holds = False

    def start(self):
        return max(it.device["start"] for it in (self.texts.old, self.texts.new))

    def is_quiet(self):
        """Whether a look at the start moves nothing of the old text. Else its objects have to be looked at first by the first event."""
        probe = pathlib.Path(self.old.session.words[2]).with_name("quiet")
        make_blank(probe, os.path.getsize(self.old.session.words[3]))
        ran = subprocess.run([*self.old.session.words[:3], str(probe)], input=f"tick {self.start()}\n".encode(), capture_output=True, check=False)
        probe.unlink()
        return b"1 idle\n" in ran.stdout

    def let_go(self, moment):
        """The new text comes into force. A key that was written meanwhile stays as it was written, where its text's value isn't asked for."""
        for side in (self.old, self.new):
            side.put(f"tick {moment}")
        for it in self.keys():
            self.let_key_go(moment, it)
        for of in self.texts.new_alarms():
            self.request(moment, octets.write_property(0, of, replay_site.INHIBIT, octets.boolean(False)), (of, "inhibit"))
        for of in self.texts.new_logs():
            self.request(moment, octets.write_property(0, of, replay_site.LOG_ENABLE, octets.boolean(True)), (of, "enable"))
        for of, elements in self.texts.list_changes(1):
            self.request(moment, replay_lines.edit(octets.ADD_LIST_ELEMENT, of, elements), ((15, of), elements))
        for of, elements in self.texts.list_changes(0):
            here = self.new.list_now(moment, of)
            left = [it for it in elements if it in here]
            if left:
                self.request(moment, replay_lines.edit(octets.REMOVE_LIST_ELEMENT, of, left), ((15, of), left))
        self.last = moment
        self.settle()

    def let_key_go(self, moment, it):
        now = self.now_of(self.new, moment, it)
        is_asked = "all" in self.options.take or (it.object, it.key) in self.options.take
        if (now != it.old or it.key == "value") and not is_asked:
            if now != it.new:
                self.told.append({"kind": "stays", "of": it, "now": now, "event": self.written.get((it.object, it.property))})
            return
        if now == it.new:
            return
        self.told.append({"kind": "from-now-on", "of": it, "now": now})
        self.request(moment, octets.write_property(0, it.object, it.property, it.new), (it.object, it.key))

    def now_of(self, side, moment, it):
        """The element that a key's property has now."""
        message = side.ask(moment, octets.read_property(0, it.object, it.property))
        if message.kind != "complex-ack":
            return None
        found = octets.values_read(message)[3][0]
        return octets.boolean(found.content[0]) if found.number == octets.BOOLEAN else octets.tagged(found.number, found.content, context=False)


def refusal_of(message, why):
    """Why a request is refused, by its answer."""
    if message.kind == "error":
        pair = octets.list_error_of(message)[:2] if message.number in (octets.ADD_LIST_ELEMENT, octets.REMOVE_LIST_ELEMENT) else octets.error_of(message)
        return names.ERRORS.get(pair, f"error {pair[0]},{pair[1]}")
    if message.kind in ("reject", "abort"):
        return why if why != "reply" else f"{message.kind} {message.number}"
    return why


def texts_of(old_text, text):
    """Both texts, read; one that the program takes and this tool can't read, as what needs TOML 1.1, ends the tool."""
    try:
        return replay_site.Texts(old_text, text)
    except ValueError as fault:
        raise Ends(UNREADABLE, f"the program takes the text, and this tool can't read it: {fault}") from None


def see_keys(texts, take):
    """Sees that each key whose text's value is asked for is one."""
    for it in take - {"all"}:
        try:
            texts.change_of(it)
        except ValueError as fault:
            raise Ends(USAGE, f"--set: {fault}") from None


class Run:
    """A replay from beginning to end, in a folder of its own. The sessions end with its block."""

    def __init__(self, program, path, text, folder, options=None, called="SITE"):
        self.program, self.folder, self.options, self.text, self.called = program, pathlib.Path(folder), options or Options(), text, called
        self.source = Source(path, self.options.archive, self.options.find)
        self.path, self.old_text = str(path), self.source.text
        self.journal, self.copy = self.folder / "journal", self.folder / "old-journal"
        self.sessions, self.replay, self.kept, self.expected = [], None, None, collections.deque()

    def __enter__(self):
        new, old = self.folder / "new.toml", self.folder / "old.toml"
        new.write_bytes(self.text)
        old.write_bytes(self.old_text)
        try:
            need = need_of(self.program, new, self.called)
            old_need = need_of(self.program, old, f"the text of {self.path}")
            self.size = size_of(need, self.source.octets, self.options, self.called)
            make_blank(self.journal, self.size)
            make_blank(self.copy, max(old_need, self.source.octets or 0))
            texts = texts_of(self.old_text, self.text)
            see_keys(texts, self.options.take)
            for site, kept in ((old, self.copy), (new, self.journal)):
                self.sessions.append(Session(self.program, site, kept, self.options.most_lines))
        except BaseException:
            self.close()
            raise
        self.replay, self.again = Replay(self.sessions, texts, self.options), Tail(self.copy)
        self.begin_archive()
        return self

    def begin_archive(self):
        """Where an archive of the new journal is asked for, its records go there while they are made: the new journal may be folded too."""
        if self.options.new_archive:
            before = archive.sum_of(self.options.archive or self.path) if self.source.is_archive or self.options.archive else None
            self.kept = archive.Appending(self.options.new_archive, self.text, before)
            self.made = Tail(self.journal, self.options.find, self.kept.add_gap)

    def keep(self):
        if self.kept:
            for event in self.made.more():
                self.kept.add(*event)

    def catch_up(self):
        """Plays what is there now, and says how many events it was."""
        before = self.replay.events
        for event in self.source.more():
            if self.replay.first is None:
                self.see_start(event.record.moment)
            self.expected.append((event.number, event.octets))
            self.play(event)
        if self.replay.last is not None:
            self.parting(self.replay.settle)
        self.compare()
        return self.replay.events - before

    def play(self, event):
        self.parting(lambda: self.replay.take(event))
        if self.replay.events % TOGETHER == 0:
            self.compare()

    def parting(self, call):
        try:
            call()
        except Ends as end:
            raise Ends(end.status, f"the replay of {self.path} isn't {self.path}: {end}") if end.status == PARTED else end from None

    def see_start(self, first):
        start = glance.glance(self.text).tables["device"]["start"]
        if start > first:
            zone = self.replay.texts.new.zone
            raise Ends(REFUSED, f"{self.called} starts at {zone.text(start)}, behind the first event, of {zone.text(first)}")

    def compare(self):
        """Sees that the journal of the old run has the records that the old one has, octet for octet; but for what it has only in a snapshot."""
        self.keep()
        if not self.expected:
            return
        for number, found, _ in self.again.more():
            while self.expected and self.expected[0][0] < number:
                self.expected.popleft()
            if not self.expected:
                return
            _, wanted = self.expected.popleft()
            if found != wanted:
                raise Ends(PARTED, f"the replay of {self.path} isn't {self.path}: at event {number:,} the record is {found.hex()} and not {wanted.hex()}")

    def finish(self, moment=None):
        """Lets go what was held, at a moment that isn't before the last event, and ends both sessions. What came of it."""
        it = self.replay
        if it.last is None:
            it.told += [{"kind": "from-now-on", "of": of, "now": of.old} for of in it.keys() if of.old != of.new]
        else:
            if self.options.as_if:
                it.drain()
            else:
                it.let_go(max(it.last, moment or 0))
        for session in self.sessions:
            session.end()
        self.keep()
        if self.kept:
            self.kept.end()
        with journal.Journal(self.journal) as made:
            events = 0 if made.header.blank else journal.events_in(made.settled())
        lines = list(replay_words.lines_of(it))
        counts = {word: sum(of["kind"] == kind for of in lines) for word, kind in (("left_out", "left-out"), ("stays", "stays"))}
        return Outcome(lines, {"kind": "end", "journal": None, "events": events, "of_journal": events - it.of_change, "of_change": it.of_change, **counts})

    def close(self):
        for session in self.sessions:
            session.close()
        if self.kept:
            self.kept.file.close()

    def __exit__(self, *_):
        self.close()
