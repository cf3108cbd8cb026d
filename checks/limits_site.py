"""A site at the limits of docs/SITE.md, and what the rules of docs/PROFILE.md say of it, for checks/limits.

It is written from these pages, and knows nothing of the program: which objects move by a tick, to which states, who is told what
and in which order, which records a log then has, and what GetEventInformation and reads of properties answer.
"""
import collections
import json

import bacnet
import serving

# The limits, each of which a smaller site has a share of; the recipients of a class, its logs, a text and the lists of values are never fewer or shorter.
OBJECTS, CLASSES, OUTBOX, RECORDS, TEXT, RECIPIENTS, LOGS, LONGEST, VALUES, BITS = 2048, 256, 16_384, 16_384, 1_048_576, 32, 16, 256, 32, 64
# The kinds of objects by the numbers of their types, and the event types of their algorithms (clause 21).
KINDS = {5: "binary-value", 9: "event-enrollment", 19: "multi-state-value", 39: "bitstring-value", 40: "characterstring-value", 45: "integer-value", 48: "positive-integer-value"}
EVENT_TYPES = {5: 1, 9: 11, 19: 1, 39: 0, 40: 17, 45: 15, 48: 16}
# Of sixteen objects so many have each kind. One positive integer is watched by half of the enrollments, the others by one here and there.
SHARES = [45] * 6 + [48] * 3 + [9] * 2 + [5] * 2 + [19, 39, 40]
DEVICE, LOG, CLASS = bacnet.DEVICE, 25, 15
PRIORITY, RETURN_DELAY, DEADBAND = [100, 90, 200], 10, 5
NEVER = b"\xff" * 8
LOW, HIGH, CALM = 10, 90, 50
# The end of a day in hours, minutes, seconds and hundredths.
DAY_ENDS = bytes([23, 59, 59, 99])

# A recipient as its class lists it, and a move of an object at a moment in milliseconds.
Recipient = collections.namedtuple("Recipient", "address process confirmed")
Move = collections.namedtuple("Move", "object before after moment")


def between(number, content):
    """Elements between the tags of a number, which has an octet of its own from 15 on (20.2.1.2)."""
    return bacnet.between(number, content) if number < 15 else bytes([0xFE, number]) + content + bytes([0xFF, number])


def long_text(head):
    """A text of the greatest length."""
    return head.ljust(LONGEST, "x")


def short_text(sections):
    """The text of a site, in fewer octets than serving.site_text takes, so that more has room."""
    rows = ([head, *(f"{key}={json.dumps(value, separators=(',', ':'))}" for key, value in keys.items())] for head, keys in sections)
    return "".join(f"{row}\n" for it in rows for row in it)


class Site:
    """The site of a share of the limits, and its state. One object in four is of a class with recipients, the others of class 0, which has none."""

    # What a notification takes of a snapshot at least, in octets; and which logs are read from end to end.
    LEAST, READ = 64, (1, 9, 16)

    def __init__(self, share=1):
        self.share, self.classes = share, CLASSES // share
        self.objects = [(kind, place + 1) for place, kind in enumerate(self.kind_at(it) for it in range(OBJECTS // share))]
        self.positives = [it for it in self.objects if it[0] == 48]
        told = [it for place, it in enumerate(self.objects) if self.is_told(place)]
        self.class_of = self.classes_of_others() | {it: self.class_at(place) for place, it in enumerate(told)}
        self.recipients = {of: [self.recipient(of, place) for place in range(RECIPIENTS)] for of in self.told_classes()}
        self.records = RECORDS // share // LOGS
        # What has a class moves.
        self.moving = [it for it in self.objects if self.class_of[it] is not None]
        self.states = {it: bacnet.NORMAL for it in self.moving}
        self.stamps = {it: [NEVER] * 3 for it in self.moving}
        self.acknowledged = {it: [True] * 3 for it in self.moving}
        # The names of those that have one of the greatest length.
        self.names = {}
        # Of each log, all records that came, from number 1 on; of each recipient, what waits for it; and how many confirmed ones were finished.
        self.logged = {log: [] for log in range(1, LOGS + 1)}
        self.waiting, self.finished = collections.defaultdict(list), collections.Counter()

    def kind_at(self, place):
        return SHARES[place % len(SHARES)]

    def is_told(self, place):
        return (place + place // len(SHARES)) % 4 == 1

    def class_at(self, number):
        """The class of an object that is told, by its number among them."""
        return 1 + number % (self.classes - 1)

    def classes_of_others(self):
        return {it: 0 for it in self.objects}

    def told_classes(self):
        return range(1, self.classes)

    def recipient(self, of, place):
        """Those of class 1 confirm. Each address is of this machine, and nobody listens there."""
        return Recipient(f"127.1.{of}.{place + 1}:47809", 1000 * of + place, of == 1)

    # The text.

    def is_high(self, the_object):
        return the_object[1] % 2 == 0

    def watched(self, the_object):
        """What an enrollment watches: one in two the first positive integer."""
        return self.positives[0 if the_object[1] % 2 else the_object[1] // 3 % len(self.positives)]

    def number(self, the_object, calm):
        """The value of a number, in alarm or not."""
        return CALM if calm else HIGH if self.is_high(the_object) else LOW

    def value(self, the_object, calm):
        """The value of an object as the site's text has it."""
        kind = the_object[0]
        if kind == 40:
            return long_text("calm" if calm else "fire")
        if kind == 39:
            return ("0" if calm else "1") * BITS
        return {5: "inactive" if calm else "active", 19: 1 if calm else 3}.get(kind, self.number(the_object, calm))

    def line_value(self, the_object, calm):
        """The same as a line of a script has it."""
        kind, value = the_object[0], self.value(the_object, calm)
        forms = {5: "{}", 19: "unsigned:{}", 39: "bits:{}", 45: "signed:{}", 48: "unsigned:{}"}
        return f"text:{value.encode().hex()}" if kind == 40 else forms[kind].format(value)

    def values(self, the_object):
        """How many alarm values and fault values an object has: the most there may be, where it is told of."""
        return VALUES if self.class_of[the_object] else 1

    def alarm_values(self, the_object):
        """The alarm values of an object that has a list of them; the value of an alarm is the last one."""
        others = range(self.values(the_object) - 1)
        return {
            19: [*(10 + it for it in others), 3], 39: [*("0" * (it + 1) + "1" * (BITS - 1 - it) for it in others), "1" * BITS],
            40: [*(f"none {it}" for it in others), "fire"],
        }[the_object[0]]

    def fault_values(self, the_object):
        """The fault values of an object that has a list of them. No value is one."""
        return [(50 + it if the_object[0] == 19 else f"broken {it}") for it in range(self.values(the_object))]

    def section(self, the_object):
        """The keys of an object or an enrollment."""
        kind, instance = the_object
        keys = {"instance": instance, "class": self.class_of[the_object], "time_delay_normal": RETURN_DELAY}
        if kind == 9:
            watched = f"{KINDS[48]}:{self.watched(the_object)[1]}"
            return "[[enrollment]]", keys | {"algorithm": "unsigned-range", "monitored": watched, "low": 20, "high": 80}
        keys |= {"kind": KINDS[kind], "value": self.value(the_object, False)}
        if kind in (45, 48):
            return "[[object]]", keys | {"low": 20, "high": 80, "deadband": DEADBAND}
        if kind == 5:
            return "[[object]]", keys | {"alarm_value": "active"}
        keys |= {"alarm_values": self.alarm_values(the_object)}
        faults = {"mask": "1" * BITS} if kind == 39 else {"fault_values": self.fault_values(the_object)}
        return "[[object]]", keys | faults | ({"states": 99} if kind == 19 else {})

    def wants_ack(self, of):
        """Which transitions of a class want an acknowledgement: of every other class those to offnormal."""
        return [of % 2 == 1, False, False]

    def sections(self):
        yield serving.device(outbox=OUTBOX // self.share, apdu_timeout=3_600_000, retries=3)
        for of in range(self.classes):
            yield "[[class]]", {"instance": of, "priority": PRIORITY, "ack_required": self.wants_ack(of)}
        for of in self.told_classes():
            for it in self.recipients[of]:
                confirmed = {"confirmed": True} if it.confirmed else {}
                yield "[[destination]]", {"class": of, "address": it.address, "process": it.process, **confirmed}
        for it in self.objects:
            yield self.section(it)
        for log in self.logged:
            yield "[[log]]", {"instance": log, "size": self.records, "classes": self.classes_of(log), "stop_when_full": self.stops(log)}

    def text(self):
        """Names of the greatest length are given to as many objects as the text has room for, and a comment fills the rest."""
        sections, room = list(self.sections()), TEXT // self.share
        left = room - len(short_text(sections)) - 100
        for it, (_, keys) in zip(self.objects, sections[-LOGS - len(self.objects) :]):
            if left > LONGEST + 10:
                self.names[it] = keys["name"] = long_text(f"Name {it[1]} ")
                left -= LONGEST + 10
        text = short_text(sections)
        bacnet.want(len(text) < room - 1, f"the site has {len(text)} octets before it is filled")
        return text + "#" + "x" * (room - len(text) - 2) + "\n"

    # The logs. The first eight and the ninth record each class, and the ninth stops when it is full; the others leave class 0 out.

    def classes_of(self, log):
        return list(range(0 if log <= 9 else 1, self.classes))

    def stops(self, log):
        return log == 9

    def kept(self, log):
        """The numbers of the records that a log keeps, and the notifications that they are, and the number of the last it took."""
        came = self.logged[log][: self.records] if self.stops(log) else self.logged[log]
        first = max(0, len(came) - self.records)
        return [(number + 1, came[number]) for number in range(first, len(came))], len(came)

    # What moves.

    def alarm_state(self, the_object):
        if the_object[0] in (9, 45, 48):
            of = self.watched(the_object) if the_object[0] == 9 else the_object
            return bacnet.HIGH_LIMIT if self.is_high(of) else bacnet.LOW_LIMIT
        return bacnet.OFFNORMAL

    def tick(self, moment, calm):
        """Moves each object, all at one point: in alarm, or back. Gives the moves in the order in which they are told."""
        moves = []
        for it in sorted(self.moving):
            moves.append(Move(it, self.states[it], bacnet.NORMAL if calm else self.alarm_state(it), moment))
            transition, of = 2 if calm else 0, self.class_of[it]
            self.states[it] = moves[-1].after
            self.stamps[it][transition] = bacnet.stamp_of(moment / 1000)
            self.acknowledged[it][transition] = not self.wants_ack(of)[transition]
        for move in moves:
            self.tell(move)
        return moves

    def tell(self, move):
        """Puts a move where it is to be told, and into the logs."""
        of, note = self.class_of[move.object], self.notification(move)
        for it in self.recipients.get(of, []):
            self.waiting[it].append(note._replace(process=it.process))
        for log in self.logged:
            if of in self.classes_of(log):
                self.logged[log].append(note)

    def notification(self, move):
        """What a move tells, as a log records it: with the process identifier 0."""
        of, transition = self.class_of[move.object], 2 if move.after == bacnet.NORMAL else 0
        return bacnet.Notification(
            0, (DEVICE, 1001), move.object, bacnet.stamp_of(move.moment / 1000), of, PRIORITY[transition], EVENT_TYPES[move.object[0]],
            bacnet.ALARM, int(self.wants_ack(of)[transition]), move.before, move.after, bacnet.elements(self.event_values(move)),
        )

    def event_values(self, move):
        """The event values by the table of docs/PROFILE.md. On a return the limit and the alarm value are those of the state that is left."""
        kind, calm = move.object[0], move.after == bacnet.NORMAL
        flags = bacnet.tagged(1, bacnet.bits_content("0000" if calm else "1000"))
        if kind in (9, 45, 48):
            return self.values_of_number(move, flags, calm)
        if kind == 40:
            said = [b"\x00" + text.encode() for text in (self.value(move.object, calm), self.alarm_values(move.object)[-1])]
            return between(17, bacnet.tagged(0, said[0]) + flags + bacnet.tagged(2, said[1]))
        if kind == 39:
            return bacnet.between(0, bacnet.tagged(0, bacnet.bits_content(self.value(move.object, calm))) + flags)
        state = bacnet.tagged(1, bytes([not calm])) if kind == 5 else bacnet.tagged(11, bytes([1 if calm else 3]))
        return bacnet.between(1, bacnet.between(0, state) + flags)

    def values_of_number(self, move, flags, calm):
        kind = move.object[0]
        of = self.watched(move.object) if kind == 9 else move.object
        value, limit = self.number(of, calm), 80 if self.is_high(of) else 20
        content = lambda it: bacnet.signed(it)[1:] if kind == 45 else bacnet.shortest(it)
        deadband = b"" if kind == 9 else bacnet.tagged(2, bacnet.shortest(DEADBAND))
        return between(EVENT_TYPES[kind], bacnet.tagged(0, content(value)) + flags + deadband + bacnet.tagged(2 if kind == 9 else 3, content(limit)))

    # What is sent, and what is read.

    def order_of(self, recipient):
        address, port = recipient.address.split(":")
        return [int(it) for it in address.split(".")], int(port)

    def pump(self):
        """What a pump sends when nothing is in flight: of each recipient, ascending, all up to the first that is to be confirmed."""
        for it in sorted(self.waiting, key=self.order_of):
            if it.confirmed:
                yield from [(it, self.finished[it] % 256, note) for note in self.waiting[it][:1]]
            else:
                yield from [(it, None, note) for note in self.waiting.pop(it)]

    def confirm(self):
        """Each recipient that has one in flight confirms it: gives who, and its invoke ID."""
        confirmed = [it for it in sorted(self.waiting, key=self.order_of) if it.confirmed and self.waiting[it]]
        for it in confirmed:
            self.waiting[it].pop(0)
            yield it, self.finished[it] % 256
            self.finished[it] += 1

    def is_calm(self):
        """Whether the values are those of no alarm."""
        return all(it == bacnet.NORMAL for it in self.states.values())

    def unfinished(self):
        return sum(map(len, self.waiting.values()))

    def summaries(self):
        """The active objects, ascending."""
        return [
            bacnet.Summary(it, self.states[it], tuple(self.acknowledged[it]), list(self.stamps[it]), bacnet.ALARM, (True,) * 3, PRIORITY)
            for it in sorted(self.moving) if self.states[it] != bacnet.NORMAL or not all(self.acknowledged[it])
        ]

    def object_list(self):
        others = [(DEVICE, 1001), *((CLASS, of) for of in range(self.classes)), *((LOG, log) for log in self.logged)]
        return sorted(self.objects + others)

    def destinations(self, of):
        """The Recipient_List of a class, as the text has it."""
        return [self.destination(it) for it in self.recipients.get(of, [])]

    def destination(self, recipient):
        octets, port = self.order_of(recipient)
        station = bytes(octets) + port.to_bytes(2, "big")
        return bacnet.Destination("1" * 7, bytes(4), DAY_ENDS, (0, station), recipient.process, recipient.confirmed, "1" * 3)


class WideSite(Site):
    """A site with the most recipients that there may be, 8,192 of 256 classes, and the longest notifications, of texts of 256 octets.

    One object in four has a class, and is such a text; the others have none, and don't move. Each log records each class.
    """

    LEAST, READ = 560, (16,)

    def kind_at(self, place):
        kind = super().kind_at(place)
        return 40 if self.is_told(place) else 45 if kind in (9, 40) else kind

    def is_told(self, place):
        return place % 4 == 1

    def class_at(self, number):
        return number % self.classes

    def classes_of_others(self):
        return {it: None for it in self.objects}

    def told_classes(self):
        return range(self.classes)

    def recipient(self, of, place):
        return Recipient(f"127.2.{of}.{place + 1}:47809", 1000 * of + place, False)

    def classes_of(self, log):
        return list(range(self.classes))

    def stops(self, log):
        return False

    def alarm_values(self, the_object):
        return [long_text("fire")]

    def fault_values(self, the_object):
        return ["broken"]

    def section(self, the_object):
        """One without a class has fewer keys."""
        kind, instance = the_object
        if self.class_of[the_object] is not None:
            return super().section(the_object)
        keys = {"kind": KINDS[kind], "instance": instance, "value": self.value(the_object, False)}
        return "[[object]]", keys | ({"states": 99} if kind == 19 else {})
