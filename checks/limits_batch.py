"""Has a server's disk be slow, so that as many events wait for one batch as may, for checks/limits.

The thread that writes is stopped by ptrace(2), while the others go on. It wants Linux that allows it.
"""
import contextlib
import os
import pathlib
import subprocess
import tempfile
import threading
import time

import bacnet
import serving
import tracing
from alarm_tools.journal import Journal, batches_in, record_at
from serving import MANY, Client, Server

COUNTER, LABEL = (bacnet.INTEGER_VALUE, 1), (40, 1)
# How many events and octets a batch has at most; a record, for which there has to be room behind what waits; and one of a text of 256 octets.
EVENTS, OCTETS, RECORD, OF_TEXT = 1024, 60_000, 2_048, 9 + 8 + 3 + 256
# So many requests have room in the socket of a server; and for so many seconds no answer is seen where none comes.
AT_ONCE, QUIET = 50, 0.3
JOURNAL = 16_000_000
TEXT = "[[object]]", {"kind": "characterstring-value", "instance": 1, "value": ""}
# The calls to the system in which a thread waits: futex, nanosleep, clock_nanosleep, recvfrom.
RESTS = ("202", "35", "230", "45")


@contextlib.contextmanager
def stopped(process, thread):
    """A thread of another process is stopped in this block, at a moment at which it rests and holds up no other one."""
    until = time.monotonic() + serving.ANSWER
    while True:
        tracing.ptrace(tracing.ATTACH, thread)
        os.waitpid(thread, tracing.ANY_THREAD)
        said = pathlib.Path(f"/proc/{process}/task/{thread}/syscall").read_text(encoding="ascii").split()
        if said[0] in RESTS or time.monotonic() > until:
            break
        tracing.ptrace(tracing.DETACH, thread)
        time.sleep(0.002)
    try:
        yield
    finally:
        tracing.ptrace(tracing.DETACH, thread)


def waits_at(port):
    """How many octets the system keeps for the socket at a port that weren't received yet."""
    rows = [line.split() for line in (pathlib.Path("/proc") / "net" / "udp").read_text(encoding="ascii").splitlines()[1:]]
    return sum(int(row[4].split(":")[1], 16) for row in rows if row[1].endswith(f":{port:04X}"))


class Burst:
    """Sends many writes, and counts the answers by a thread of its own, as they come faster than they are read else."""

    def __init__(self, client):
        self.client, self.answers, self.ends = client, 0, False
        self.thread = threading.Thread(target=self.count)
        self.thread.start()

    def count(self):
        while not self.ends:
            self.answers += self.client.receive(time.monotonic() + 0.05) is not None

    def write(self, count, the_object, make):
        """Sends so many writes, of which the server has received each."""
        for number in range(count):
            self.client.send_request(lambda it, number=number: bacnet.write_property(it, the_object, bacnet.PRESENT_VALUE, make(number)))
            if number % AT_ONCE == AT_ONCE - 1 or number == count - 1:
                until = time.monotonic() + serving.ANSWER
                while waits_at(self.client.server_port) and time.monotonic() < until:
                    time.sleep(0.001)

    def await_answers(self, count, seconds):
        until = time.monotonic() + seconds
        while self.answers < count and time.monotonic() < until:
            time.sleep(0.005)
        return self.answers

    def __enter__(self):
        return self

    def __exit__(self, *_):
        self.ends = True
        self.thread.join()


def write_one(client):
    client.send_request(lambda it: bacnet.write_property(it, COUNTER, bacnet.PRESENT_VALUE, bacnet.signed(1)))


def writer_of(server, client):
    """The thread that writes: while it is stopped, a write is received and isn't answered. All threads run once one was answered."""
    process = server.child.pid
    write_one(client)
    bacnet.want(client.receive(time.monotonic() + serving.ANSWER), "a write isn't answered")
    for thread in sorted(int(it.name) for it in pathlib.Path(f"/proc/{process}/task").iterdir()):
        with stopped(process, thread):
            write_one(client)
            answered, received = client.receive(time.monotonic() + QUIET), not waits_at(client.server_port)
        bacnet.want(answered or client.receive(time.monotonic() + serving.ANSWER), "a write isn't answered")
        if received and not answered:
            return thread
    raise ValueError("there is no thread that writes")


def fill_batch(told, client, count, the_object, make):
    """While nothing is written, so many writes wait and aren't answered. Behind one more they are."""
    with Burst(client) as burst:
        burst.write(count, the_object, make)
        told.same(f"answers to {count} writes of which none is kept", burst.await_answers(1, QUIET), 0)
        burst.write(1, the_object, make)
        told.want(burst.await_answers(1, serving.ANSWER), f"{count} writes and one more aren't answered")


def receive_all(client):
    """Takes what has come and comes soon. Some answers may be lost, as they come faster than a socket has room for them."""
    while client.receive(time.monotonic() + QUIET):
        pass


def play_batches(told, program, folder, client):
    """A batch with the most events, and one with the most octets."""
    files = (program, *serving.blank(program, folder, serving.device(), serving.integer(1), TEXT, octets=JOURNAL))
    with Server(*files, client.server_port, MANY) as server:
        writer = writer_of(server, client)
        with stopped(server.child.pid, writer):
            fill_batch(told, client, EVENTS, COUNTER, bacnet.signed)
        receive_all(client)
        told.same("the counter behind a batch", client.number_read(COUNTER), 0)
        most = (OCTETS - RECORD) // OF_TEXT + 1
        with stopped(server.child.pid, writer):
            fill_batch(told, client, most, LABEL, lambda it: bacnet.text(f"{it}".ljust(256, "x")))
        receive_all(client)
    told.same("events and octets of the longest batches", longest(files[2]), (EVENTS, most * OF_TEXT))
    told.want(serving.events_in(*files) >= EVENTS + 1 + most, "an event of a batch is lost")


def try_batches(told, program):
    """With a folder and a client of its own."""
    with tempfile.TemporaryDirectory() as name, Client() as client:
        try:
            play_batches(told, program, pathlib.Path(name), client)
        except (OSError, ValueError, subprocess.SubprocessError) as error:
            told.want(False, f"batches: {type(error).__name__}: {error}")
        told.replies += client.replies


def longest(journal):
    """The most events and the most octets that a batch of a journal has."""
    events = octets = 0
    with Journal(journal) as it:
        for place, body in batches_in(it.settled()):
            at = count = 0
            while at < len(body):
                _, at = record_at(body, at, place)
                count += 1
            events, octets = max(events, count), max(octets, len(body))
    return events, octets
