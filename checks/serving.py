"""A server that runs on this machine, and a client that asks it and is told of alarms, for checks/serve and bench/serve."""
import json
import os
import random
import re
import resource
import signal
import socket
import subprocess
import time

import bacnet

HOST = "127.0.0.1"
# For how long a server runs at most, and for how long an answer is awaited.
SECONDS, ANSWER = 600, 10
# How long the start of a server may take, on a machine that has much else to do.
STARTS = 60
# How many datagrams a client keeps, to be decoded.
KEPT = 5_000
# How many datagrams a server takes at most.
MANY = 1_000_000
START = 1_700_000_000_000
# The first of the ports that Linux gives to sockets which ask for none (ip_local_port_range).
FIRST_OF_NO_NUMBER = 32_768


def site_text(*sections):
    """The text of a site: of each section its head, and its keys with their values."""
    return "\n".join("\n".join([head, *(f"{key} = {json.dumps(value)}" for key, value in keys.items()), ""]) for head, keys in sections)


def device(**keys):
    return "[device]", {"instance": 1001, "name": "Plant", "vendor": 999, "start": START, **keys}


def of_class(instance, acknowledged=True):
    return "[[class]]", {"instance": instance, "priority": [100, 90, 200], "ack_required": [acknowledged, acknowledged, False]}


def told_at(port, instance, confirmed):
    """The client at a port as the recipient of a class, whose instance is its process identifier."""
    return "[[destination]]", {"class": instance, "address": f"{HOST}:{port}", "process": instance, "confirmed": confirmed}


def integer(instance, **keys):
    return "[[object]]", {"kind": "integer-value", "instance": instance, "value": 50, **keys}


def tank(instance, of, **keys):
    """An integer value of a class, whose alarms come below 20 and above 80."""
    return integer(instance, **{"class": of, "low": 20, "high": 80, "deadband": 5, **keys})


def session(program, site, journal):
    """How a session with an empty script ended."""
    words = [program, "session", str(site), str(journal)]
    return subprocess.run(words, input=b"", capture_output=True, timeout=SECONDS, check=False)


def make_journal(program, site, journal, octets=0):
    """Makes a blank journal of a site, as small as it may be or of so many octets."""
    journal.write_bytes(b"")
    ended = session(program, site, journal)
    found = re.fullmatch(rb"journal refused: small-device 0 ([1-9][0-9]*)\n", ended.stderr)
    bacnet.want(found and ended.returncode == 8, f"an empty journal was answered with {ended.returncode}, {ended.stderr!r}")
    journal.write_bytes(bytes(max(octets, int(found[1]))))


def blank(program, folder, *sections, octets=0):
    """The files of a site and of a blank journal."""
    site, journal = folder / "site.toml", folder / "journal"
    site.write_text(site_text(*sections), encoding="utf-8")
    make_journal(program, site, journal, octets)
    return site, journal


def events_in(program, site, journal):
    """The number of the event from which a session with an empty script goes on. It has to end well."""
    ended = session(program, site, journal)
    found = re.fullmatch(rb"open ([0-9]+)\nend 0 ([0-9]+)\n", ended.stdout)
    good = ended.returncode == 0 and not ended.stderr and found and found[1] == found[2]
    bacnet.want(good, f"an empty session ended with {ended.returncode}, {ended.stdout[-200:]!r}, {ended.stderr[-200:]!r}")
    return int(found[1])


def free_port(kind=socket.SOCK_DGRAM):
    """A port of this machine that was free a moment ago, and is below those of sockets that ask for none: no such socket takes it before a server does."""
    while True:
        port = random.SystemRandom().randrange(10_000, FIRST_OF_NO_NUMBER)
        with socket.socket(socket.AF_INET, kind) as found:
            try:
                found.bind((HOST, port))
                return port
            except OSError:
                pass


def environment(port):
    return {**os.environ, "ALARM_SERVER_ADDRESS": HOST, "ALARM_SERVER_PORT": str(port)}


def begin(most):
    """Has the process that begins end in time, and write no file beyond so many octets, where they are given."""
    signal.alarm(SECONDS)
    if most is not None:
        signal.signal(signal.SIGXFSZ, signal.SIG_IGN)
        resource.setrlimit(resource.RLIMIT_FSIZE, (most, most))


class Told:
    """What failed, and how much was tried."""

    def __init__(self):
        self.kills = self.replies = self.failed = self.skipped = 0

    def want(self, holds, text):
        if not holds:
            self.failed += 1
            print(f"FAILED: {text}")

    def skip(self, text):
        """Says what isn't tried, as where something isn't installed."""
        self.skipped += 1
        print(f"NOT TRIED: {text}")

    def same(self, what, found, wanted):
        self.want(found == wanted, f"{what}: {found}, and not {wanted}")


class Server:
    """A server at a port of this machine, which is killed at the end of its block where it still runs, and ends in any case."""

    def __init__(self, program, site, journal, port, count, most=None):
        words = [program, "serve", str(site), str(journal), str(count)]
        self.parts = [journal.with_name(name) for name in ("served", "errors")]
        with open(self.parts[0], "wb") as output, open(self.parts[1], "wb") as errors:
            self.child = subprocess.Popen(
                words, env=environment(port), stdin=subprocess.DEVNULL, stdout=output, stderr=errors, preexec_fn=lambda: begin(most)
            )
        try:
            self.await_line(f"listening on {HOST}:{port}\n".encode())
        except ValueError:
            self.kill()
            raise

    def await_line(self, line):
        until = time.monotonic() + STARTS
        while line not in self.parts[1].read_bytes():
            bacnet.want(self.child.poll() is None and time.monotonic() < until, f"no line {line!r}: {self.said()}")
            time.sleep(0.002)

    def said(self):
        """Its status, or None while it runs, its standard output, and its standard error."""
        return (self.child.poll(), *(part.read_bytes() for part in self.parts))

    def ended(self):
        """The same once it has ended by itself."""
        try:
            self.child.wait(ANSWER)
        except subprocess.TimeoutExpired:
            raise ValueError(f"the server doesn't end: {self.said()}") from None
        return self.said()

    def runs(self):
        return self.child.poll() is None

    def kill(self):
        self.child.kill()
        self.child.wait()

    def __enter__(self):
        return self

    def __exit__(self, *_):
        self.kill()


class Client:
    """A socket of this machine: it asks the server, is told of alarms as their recipient, and confirms what is to be."""

    def __init__(self):
        self.socket = socket.socket(socket.AF_INET, socket.SOCK_DGRAM)
        self.socket.bind((HOST, 0))
        self.port, self.server_port = self.socket.getsockname()[1], free_port()
        self.invoke = self.sent = self.replies = 0
        # Says of each notification that is to be confirmed whether it is.
        self.confirms = lambda: True
        # Of each notification: when it came, its octets, its header and what it tells.
        self.notes = []
        # Of each datagram that is kept: whether it was sent, and its octets.
        self.datagrams = []

    def keep(self, was_sent, octets):
        if len(self.datagrams) < KEPT:
            self.datagrams.append((was_sent, octets))

    def send(self, octets):
        """Sends octets that are a message of BACnet/IP."""
        self.keep(True, octets)
        self.send_anything(octets)

    def send_anything(self, octets):
        self.socket.sendto(octets, (HOST, self.server_port))
        self.sent += 1

    def send_request(self, make):
        """Sends what is made for a new invoke ID, and gives this."""
        self.invoke = (self.invoke + 1) % 256
        self.send(make(self.invoke))
        return self.invoke

    def receive(self, until):
        """The next answer, or None where none has come until a moment. Notifications are noted, and those to be confirmed are."""
        while True:
            self.socket.settimeout(max(until - time.monotonic(), 0.000_001))
            try:
                octets, sender = self.socket.recvfrom(2048)
            except TimeoutError:
                return None
            bacnet.want(sender == (HOST, self.server_port), f"a datagram of another sender: {sender}")
            self.keep(False, octets)
            message = bacnet.read(octets)
            if message.kind == "request" or (message.kind, message.number) == ("unconfirmed", bacnet.UNCONFIRMED_EVENT_NOTIFICATION):
                self.take_note(octets, message)
                continue
            self.replies += 1
            return message

    def take_note(self, octets, message):
        self.notes.append((time.time(), octets, message, bacnet.notification_of(message)))
        bacnet.want(message.kind != "request" or message.number == bacnet.CONFIRMED_EVENT_NOTIFICATION, f"another request: {message}")
        if message.kind == "request" and self.confirms():
            self.send(bacnet.simple_ack(message.invoke, message.number))

    def ask(self, make):
        """The answer to a request that is made for an invoke ID."""
        invoke = self.send_request(make)
        message = self.receive(time.monotonic() + ANSWER)
        bacnet.want(message and message.invoke == invoke, f"a request was answered with {message}")
        return message

    def write(self, the_object, value):
        """The answer to a write of an element to a Present_Value."""
        return self.ask(lambda invoke: bacnet.write_property(invoke, the_object, bacnet.PRESENT_VALUE, value))

    def number_read(self, the_object, of=bacnet.PRESENT_VALUE):
        answer = bacnet.value_read(self.ask(lambda invoke: bacnet.read_property(invoke, the_object, of)))
        bacnet.want(answer[:2] == (the_object, of), f"another property was read: {answer}")
        return answer[2]

    def await_note(self, number):
        """The notification of a number, from 1 on, once it has come; no answer may come before it."""
        until = time.monotonic() + ANSWER
        while len(self.notes) < number and time.monotonic() < until:
            bacnet.want(self.receive(time.monotonic() + 0.01) is None, "an answer to nothing")
        bacnet.want(len(self.notes) >= number, f"notification {number} doesn't come")
        return self.notes[number - 1]

    def __enter__(self):
        return self

    def __exit__(self, *_):
        self.socket.close()
