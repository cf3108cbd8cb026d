"""The part of checks/serve that kills the server under load, and starts it again."""
import shutil
import threading
import time

import bacnet
import serving
from serving import MANY, Server

COUNTER, TANK = (bacnet.INTEGER_VALUE, 1), (bacnet.INTEGER_VALUE, 2)
IN_FLIGHT = 8
# After how many seconds a server is killed.
SOONEST, LATEST = 0.01, 0.8
# After how many seconds the tank is written anew where nothing is told, and after how many milliseconds a notification comes again.
PATIENCE, TIMEOUT = 0.3, 60


class Writes:
    """Writes of ever new numbers to a value that has a number. Each was sent at a turn, and answered at a later one or not yet."""

    def __init__(self, number):
        self.turn, self.last, self.latest = 0, number, 0
        self.sent, self.answered = {number: 0}, {number: 0}

    def send(self):
        """A new number, which is sent now."""
        self.turn, self.last = self.turn + 1, self.last + 1
        self.sent[self.last] = self.turn
        return self.last

    def answer(self, number):
        self.turn += 1
        self.answered[number] = self.turn
        self.latest = max(self.latest, self.sent[number])

    def may_stand(self, number):
        """Whether the value may be a number: of the writes that were answered, none was sent behind the answer to that of the number."""
        return number in self.sent and self.answered.get(number, self.latest) >= self.latest


def receive(load, seconds):
    """Takes the next answer to what a load has on its way, if one comes: it has to be that of a write. Says whether one came."""
    message = load.client.receive(time.monotonic() + seconds)
    if not message:
        return False
    good = (message.kind, message.number) == ("simple-ack", bacnet.WRITE_PROPERTY) and message.invoke in load.flying
    bacnet.want(good, f"a write was answered with {message}")
    the_object, number = load.flying.pop(message.invoke)
    if the_object == COUNTER:
        load.writes.answer(number)
    load.answered += 1
    return True


class Load:
    """What a client keeps on its way: writes to the counter, and one to the tank, in alarm and not in turn, once that was told."""

    def __init__(self, client, number):
        self.client, self.writes, self.flying = client, Writes(number), {}
        self.alarms = self.answered = 0
        self.told_of, self.next_alarm = len(client.notes), 0.0

    def send(self, the_object, number):
        """Sends a write, and notes it by its invoke ID."""
        invoke = self.client.send_request(lambda it: bacnet.write_property(it, the_object, bacnet.PRESENT_VALUE, bacnet.signed(number)))
        bacnet.want(invoke not in self.flying, f"250 requests came behind one that isn't answered, with the invoke ID {invoke}")
        self.flying[invoke] = the_object, number

    def move_tank(self):
        now = time.monotonic()
        if len(self.client.notes) > self.told_of or now > self.next_alarm:
            self.alarms += 1
            self.told_of, self.next_alarm = len(self.client.notes), now + PATIENCE
            self.send(TANK, 90 if self.alarms % 2 else 50)

    def play(self, server):
        """Keeps writes on their way until the server is gone, and takes what it had answered."""
        while server.runs():
            while len(self.flying) < IN_FLIGHT:
                self.send(COUNTER, self.writes.send())
            self.move_tank()
            receive(self, 0.05)
        while receive(self, 0.02):
            pass

    def go_on(self, told):
        """Reads the counter in the next server, and goes on from what it has."""
        number = self.client.number_read(COUNTER)
        told.want(self.writes.may_stand(number), f"the counter is {number}, and the last write that was answered has {max(self.writes.answered)}")
        last = self.writes.last
        self.writes, self.flying = Writes(number), {}
        self.writes.last = last


def play_until_killed(load, server, seconds):
    """Plays a load during which the server is killed after some seconds."""
    killer = threading.Timer(seconds, server.child.kill)
    killer.start()
    try:
        load.play(server)
    finally:
        killer.cancel()
        killer.join()


def see_journal(told, files, load):
    """A copy of the journal opens, with each event that was answered, and each by which a notification was sent."""
    program, site, journal = files
    copy = journal.with_name("copy")
    shutil.copyfile(journal, copy)
    events, least = serving.events_in(program, site, copy), load.answered + len(load.client.notes)
    told.want(events >= least, f"the journal opens at event {events}, and {least} were answered or told of")
    return events


def see_notes(told, notes):
    """The invoke IDs of notifications don't run backwards, and one that comes again has the same octets. Says how many came again."""
    again = 0
    for (_, before, first, _), (_, after, second, _) in zip(notes, notes[1:]):
        again += first.invoke == second.invoke
        told.want((second.invoke - first.invoke) % 256 < 128, f"the invoke ID {second.invoke} comes behind {first.invoke}")
        told.want(second.invoke != first.invoke or before == after, f"with one invoke ID {before.hex()} comes, and then {after.hex()}")
    return again


def try_kills(told, program, folder, client, count, rng):
    site, journal = serving.blank(
        program, folder, serving.device(apdu_timeout=TIMEOUT, retries=15), serving.of_class(7), serving.told_at(client.port, 7, True),
        serving.integer(1), serving.tank(2, 7),
    )
    load, events = Load(client, 50), 0
    client.confirms = lambda: rng.random() < 0.7
    for _ in range(count):
        with Server(program, site, journal, client.server_port, MANY) as server:
            load.go_on(told)
            play_until_killed(load, server, rng.uniform(SOONEST, LATEST))
        told.kills += 1
        before, events = events, see_journal(told, (program, site, journal), load)
        told.want(events >= before, f"after a kill there are {events} events, and before it there were {before}")
    with Server(program, site, journal, client.server_port, 1) as server:
        load.go_on(told)
        status, said, errors = server.ended()
    last = serving.events_in(program, site, journal)
    told.same("the end after all kills", (status, said), (0, f"served 1 {last} {last} 0\n".encode()))
    told.want(last >= events, f"at the end there are {last} events, and after the last kill there were {events}")
    again, came = see_notes(told, client.notes), len(client.notes)
    told.want(load.answered >= count and came >= count, f"{load.answered} writes were answered, and {came} notifications came")
    print(f"{events} events over all kills, {came} notifications, {again} of which came again")
