"""The mixed load of checks/endurance: what a server is asked and told again and again, and what it then has to have told."""
import collections
import pathlib
import socket
import statistics
import threading
import time

import bacnet
import kills
import serving
from serving import HOST

COUNTER, TANK, BOILER, LATE = ((bacnet.INTEGER_VALUE, instance) for instance in range(1, 5))
LABEL, LOG, CLASS = (40, 1), (25, 1), (15, 9)
HIGH, CALM, OUTBOX = 90, 50, 64
# How many requests are on their way at once; how many of each kind a lap has; how many kilobytes a page has.
IN_FLIGHT, MANY, SOME, PAGE = 8, 200, 20, 4
# The octets of noise, which are no message.
NOISE = (0, 1, 5, 300, 1400, 1497, 1600)
# So many seconds behind a start the delay of what was moved before it is over; and so many are soon.
SETTLING, SOON = 3, 0.01


class Recipient:
    """A recipient of alarms that is dead, but for when it is told to confirm what has come."""

    def __init__(self, server_port):
        self.socket, self.server_port, self.notes = socket.socket(socket.AF_INET, socket.SOCK_DGRAM), server_port, []
        self.socket.bind((HOST, 0))
        self.port = self.socket.getsockname()[1]

    def confirm(self, seconds):
        """Confirms what has come, and what comes in so many seconds. Says whether something did."""
        self.socket.settimeout(seconds)
        try:
            octets = self.socket.recv(2048)
        except TimeoutError:
            return False
        message = bacnet.read(octets)
        self.notes.append((message, octets, bacnet.notification_of(message)))
        self.socket.sendto(bacnet.simple_ack(message.invoke, message.number), (HOST, self.server_port))
        return True


def told_once(notes):
    """What was told and is to be confirmed, without what came again: with the invoke ID and the octets of the one before it."""
    rows, last = [], None
    for message, octets, note in notes:
        if message.kind == "request" and octets != last:
            rows.append((note.object, note.notify_type, note.to_state))
            last = octets
    return rows


def sections(client, dead):
    label = "[[object]]", {"kind": "characterstring-value", "instance": 1, "value": "", "name": "Label"}
    log = "[[log]]", {"instance": 1, "size": 64, "classes": [7, 8, 9]}
    return [
        serving.device(apdu_timeout=4000, retries=15, outbox=OUTBOX), serving.of_class(7), serving.told_at(client.port, 7, True),
        serving.of_class(8, acknowledged=False), serving.told_at(dead.port, 8, True), serving.of_class(9, acknowledged=False), serving.told_at(client.port, 9, False),
        serving.integer(1), serving.tank(2, 7), serving.tank(3, 8), serving.tank(4, 9, time_delay=1), label, log,
    ]


class Load:
    """What a client asks over all lives of a server, and what was answered."""

    def __init__(self, told, client, dead, rng):
        self.told, self.client, self.dead, self.rng = told, client, dead, rng
        self.writes, self.flying, self.laps = kills.Writes(50), {}, 0
        # How many events were answered; how many requests were refused, as they are to be; what was moved, by recipient.
        self.answered = self.refused = self.noise = self.alarms = 0
        self.moved = {TANK: [], BOILER: []}
        self.values = collections.defaultdict(lambda: CALM)
        # When the late one was moved in this life of the server, and from when on what it did in the last one is over.
        self.late, self.settles = None, 0

    # Many on their way at once.

    def send(self):
        number = self.writes.send()
        invoke = self.client.send_request(lambda it: bacnet.write_property(it, COUNTER, bacnet.PRESENT_VALUE, bacnet.signed(number)))
        self.flying[invoke] = COUNTER, number

    def write_many(self, count):
        for _ in range(count):
            while len(self.flying) >= IN_FLIGHT:
                bacnet.want(kills.receive(self, serving.ANSWER), "a write isn't answered")
            self.send()
        while self.flying:
            bacnet.want(kills.receive(self, serving.ANSWER), "a write isn't answered")

    # One after the other.

    def move(self, the_object):
        """Moves an object into alarm, or back, and says whether that was taken."""
        value = HIGH if self.values[the_object] == CALM else CALM
        answer = self.client.write(the_object, bacnet.signed(value))
        if answer.kind == "abort":
            self.told.same("the answer to a write that doesn't fit", answer.number, 0)
            self.refused += 1
            return False
        self.told.same("the answer to a write", answer[::2], ("simple-ack", bacnet.WRITE_PROPERTY))
        self.answered, self.alarms, self.values[the_object] = self.answered + 1, self.alarms + 1, value
        if the_object in self.moved:
            self.moved[the_object].append((the_object, bacnet.ALARM, bacnet.HIGH_LIMIT if value == HIGH else bacnet.NORMAL))
        return True

    def alarm(self):
        """The tank moves, is told, and where that was an alarm it is acknowledged, which is told too."""
        bacnet.want(self.move(TANK), "the outbox is full where nothing waits")
        self.await_told()
        if self.values[TANK] != HIGH or not self.client.notes:
            return
        note = self.last_confirmed()
        now = bacnet.stamp_of(time.time())
        answer = self.client.ask(lambda it: bacnet.acknowledge_alarm(it, 7, TANK, bacnet.HIGH_LIMIT, note.stamp, now))
        self.told.same("the answer to an acknowledgement", answer[::2], ("simple-ack", bacnet.ACKNOWLEDGE_ALARM))
        self.answered += 1
        self.moved[TANK].append((TANK, bacnet.ACKNOWLEDGED, bacnet.HIGH_LIMIT))
        self.await_told()

    def last_confirmed(self):
        return next(note for _, _, message, note in reversed(self.client.notes) if message.kind == "request")

    def tank_told(self):
        return told_once([(message, octets, note) for _, octets, message, note in self.client.notes])

    def late_told(self):
        """The states that the late one was told to be in."""
        return [note.to_state for _, _, message, note in self.client.notes if message.kind == "unconfirmed" and note.object == LATE]

    def await_told(self):
        """What moved the tank is told, in its order, and nothing else."""
        until = time.monotonic() + serving.ANSWER
        while self.tank_told() != self.moved[TANK] and time.monotonic() < until:
            bacnet.want(self.client.receive(time.monotonic() + 0.02) is None, "an answer to nothing")
        found = self.tank_told()
        self.told.want(found == self.moved[TANK], f"{len(self.moved[TANK])} moves of the tank, and {len(found)} are told: {found[-3:]}, and not {self.moved[TANK][-3:]}")
        # What was told is seen to, and needn't be kept for hours.
        kept = [it for it in self.client.notes if it[2].kind == "request"][-1:]
        self.client.notes = [it for it in self.client.notes if it[2].kind == "unconfirmed"] + kept
        self.moved[TANK] = self.moved[TANK][-1:]

    def move_late(self):
        """The late one moves each time that its last move was told, a second behind it, and by then nothing else was told of it."""
        if time.monotonic() < self.settles:
            return
        wanted = bacnet.HIGH_LIMIT if self.values[LATE] == HIGH else bacnet.NORMAL
        found = self.late_told()
        if self.late is not None and not found:
            self.told.want(time.monotonic() < self.late + serving.ANSWER, f"a late alarm isn't told: {wanted}")
            return
        if self.late is not None:
            self.told.same("what the late one tells", found, [wanted])
        self.client.notes = [it for it in self.client.notes if it[2].kind == "request"]
        bacnet.want(self.move(LATE), "the outbox is full where nothing waits")
        self.late = time.monotonic()

    def come_back(self):
        """The dead recipient confirms, until all that moved the boiler is told."""
        until = time.monotonic() + serving.ANSWER
        while told_once(self.dead.notes) != self.moved[BOILER] and time.monotonic() < until:
            self.dead.confirm(0.1)
        found = told_once(self.dead.notes)
        self.told.want(found == self.moved[BOILER], f"{len(self.moved[BOILER])} moves of the boiler, and {len(found)} are told")
        self.dead.notes, self.moved[BOILER] = self.dead.notes[-1:], self.moved[BOILER][-1:]

    def fill_outbox(self):
        """The boiler moves till as many notifications wait as may. What the late one tells may wait beside them for a moment, till it is sent."""
        waits, until = 0, time.monotonic() + serving.ANSWER
        while waits < OUTBOX and time.monotonic() < until:
            if self.move(BOILER):
                waits += 1
            else:
                time.sleep(SOON)
        self.told.same("notifications in a full outbox", waits, OUTBOX)

    def overflow(self, count):
        """So many writes for whose notifications a full outbox has no room. Each is refused."""
        for _ in range(count):
            if self.move(TANK):
                self.told.want(False, "a full outbox took a move")
                return

    def flood_outbox(self, count):
        """A recipient is dead, and comes back when the outbox was full for so many writes."""
        self.fill_outbox()
        self.overflow(count)
        self.come_back()

    def read(self, count):
        """Reads of all kinds, so often each."""
        active = {it for it, value in self.values.items() if value == HIGH and it != LATE}
        for _ in range(count):
            self.told.same("the counter", self.client.number_read(COUNTER), self.writes.last)
            rows, more = bacnet.summaries_of(self.client.ask(bacnet.get_event_information))
            self.told.want(active <= {it.object for it in rows} and not more, f"{active} are in alarm, and {rows} are told")
            page = bacnet.range_read(self.client.ask(lambda it: bacnet.read_range(it, LOG, 1, 1)))
            self.told.want(len(page.records) <= 1, f"one record was asked for, and {page} came")
            self.client.send(bacnet.who_is())
            answer = self.client.receive(time.monotonic() + serving.ANSWER)
            self.told.want(answer and answer.kind == "unconfirmed", f"a Who-Is was answered with {answer}")

    def refuse(self, count):
        """Requests of which each is refused, by an Error, a Reject or an Abort."""
        unknown, wrong = (bacnet.INTEGER_VALUE, 77), bacnet.text("x" * 300)
        wants = [
            (lambda it: bacnet.read_property(it, unknown, bacnet.PRESENT_VALUE), "error"),
            (lambda it: bacnet.write_property(it, COUNTER, bacnet.PRESENT_VALUE, wrong), "error"),
            (lambda it: bacnet.write_property(it, LABEL, bacnet.PRESENT_VALUE, wrong), "error"),
            (lambda it: bacnet.acknowledge_alarm(it, 7, TANK, bacnet.HIGH_LIMIT, b"\x01" * 8, b"\x02" * 8), "error"),
            (lambda it: bacnet.request(it, 99, b""), "reject"),
            (lambda it: bacnet.request(it, bacnet.READ_PROPERTY, b"\x0c"), "reject"),
            (lambda it: bacnet.datagram(bytes([8, 5, it, 0, 1, bacnet.READ_PROPERTY]), expects_reply=True), "abort"),
        ]
        for number in range(count):
            make, kind = wants[number % len(wants)]
            self.told.same("the answer to a wrong request", self.client.ask(make).kind, kind)
        self.refused += count

    def edit(self, count):
        """A recipient is put into a list and taken out again, so often; a program without these services rejects that."""
        of = bacnet.destination(bacnet.Destination("1111111", bytes(4), b"\x17\x3b\x3b\x63", (0, b"\x7f\x00\x00\x01\xba\xc1"), 1, False, "111"))
        for _ in range(count):
            for service in (bacnet.ADD_LIST_ELEMENT, bacnet.REMOVE_LIST_ELEMENT):
                answer = self.client.ask(lambda it, service=service: bacnet.edit_list(it, service, CLASS, bacnet.RECIPIENT_LIST, of))
                self.told.want(answer.kind == "simple-ack" or (answer.kind, answer.number) == ("reject", 9), f"an edit was answered with {answer}")
                self.answered += answer.kind == "simple-ack"

    def disturb(self, count):
        """Noise: octets of any length that are no message. The read behind it is answered as before."""
        for number in range(count):
            length = NOISE[number % len(NOISE)]
            self.client.send_anything((b"\xff" + self.rng.randbytes(length))[:length])
            if number % SOME == SOME - 1:
                self.client.number_read(COUNTER)
        self.noise += count
        self.client.number_read(COUNTER)

    def label(self, count):
        """Texts of the greatest length, which fill an area of the journal soon."""
        for _ in range(count):
            answer = self.client.write(LABEL, bacnet.text(f"{self.rng.randrange(10**9)}".ljust(256, "x")))
            self.told.same("the answer to a text", answer[::2], ("simple-ack", bacnet.WRITE_PROPERTY))
            self.answered += 1

    def lap(self):
        """Some of all of it."""
        self.laps += 1
        self.write_many(MANY)
        for _ in range(SOME // 2):
            self.alarm()
        self.move_late()
        self.read(SOME)
        self.refuse(SOME)
        self.edit(SOME // 4)
        self.disturb(SOME)
        self.label(MANY)
        if self.laps % 4 == 1:
            self.flood_outbox(SOME)

    # A life and its end.

    def go_on(self):
        """Reads the counter in the next server, and goes on from what it has."""
        number = self.client.number_read(COUNTER)
        self.told.want(self.writes.may_stand(number), f"the counter is {number}, and the last write that was answered has {max(self.writes.answered)}")
        last = max(self.writes.last, number)
        self.writes, self.flying = kills.Writes(number), {}
        self.writes.last = last
        # A write behind it, so that the counter is what was written last.
        self.write_many(1)
        self.late, self.settles = None, time.monotonic() + SETTLING
        self.come_back()

    def play_until_killed(self, server, seconds):
        """Notifications wait for the dead recipient, and writes are on their way, when the server is killed."""
        for _ in range(self.rng.randrange(8)):
            self.move(BOILER)
        killer = threading.Timer(seconds, server.child.kill)
        killer.start()
        while server.runs():
            while len(self.flying) < IN_FLIGHT:
                self.send()
            kills.receive(self, 0.05)
        while kills.receive(self, 0.05):
            pass
        killer.join()


# What a process has.


class Holds(collections.namedtuple("Holds", "kilobytes threads files journal")):
    """Its own memory, also what was swapped out; its threads; its open files; the octets of its journal."""

    @classmethod
    def of(cls, server, journal):
        folder = pathlib.Path("/proc") / str(server.child.pid)
        rows = dict(line.split(":", 1) for line in (folder / "status").read_text(encoding="utf-8").splitlines() if ":" in line)
        kilobytes = sum(int(rows.get(key, "0").split()[0]) for key in ("RssAnon", "VmSwap"))
        return cls(kilobytes, int(rows["Threads"]), len(list((folder / "fd").iterdir())), journal.stat().st_size)


def growth(told, what, rows):
    """By how many kilobytes the memory grew from the middle third of a time to its last third, where all else has to be the same."""
    third = len(rows) // 3
    middle, last = rows[third : 2 * third], rows[2 * third :]
    for it in rows[third:]:
        told.same(f"threads, files and octets of the journal, {what}", it[1:], rows[third][1:])
    return statistics.median(it.kilobytes for it in last) - statistics.median(it.kilobytes for it in middle)
