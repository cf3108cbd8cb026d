"""Asks a server: a request is sent again with its invoke ID until it is answered or given up, and what is refused says why."""
import os
import socket
import time

from . import language, names, octets, words

PORT = 47808
# How often a request is sent anew while nothing listens, in seconds.
REFUSED_PAUSE = 0.25
# How much of an answer to a ReadPropertyMultiple is asked for at once, in octets as they are estimated: what an object takes, and a property of it.
MOST_OF_ANSWER, OF_OBJECT, OF_PROPERTY = 1_300, 7, 16
OF_LONG_PROPERTY = {octets.OBJECT_NAME: 48, octets.EVENT_MESSAGE_TEXTS: 90, octets.STATE_TEXT: 200}
# What an Abort of this server means.
WHY_ABORTED = {0: ": the notifications of it don't fit the outbox, so nothing was taken", 4: ": the answer is too long"}


class NoAnswer(Exception):
    """Nobody answered."""


class Refusal(Exception):
    """An Error, a Reject or an Abort in place of the answer. `kind` and `code` are the numbers."""

    def __init__(self, kind, code, text):
        super().__init__(text)
        self.kind, self.code = kind, code


def address_from(text, port=PORT):
    """The address and the port of HOST or HOST:PORT."""
    host, _, given = text.partition(":")
    if given and not (given.isdigit() and 1 <= int(given) <= 65535):
        raise ValueError(f"{text!r} is no address: HOST or HOST:PORT is wanted")
    try:
        return socket.gethostbyname(host or "127.0.0.1"), int(given or port)
    except OSError:
        raise ValueError(f"{host} isn't known to be a host") from None


def default_address():
    """The server of this machine, as ALARM_SERVER_ADDRESS and ALARM_SERVER_PORT have it."""
    host = os.environ.get("ALARM_SERVER_ADDRESS", "127.0.0.1")
    return f"{'127.0.0.1' if host == '0.0.0.0' else host}:{os.environ.get('ALARM_SERVER_PORT', PORT)}"


def add_words(parser):
    """The options of every tool that asks a server."""
    where = "the server (ALARM_SERVER_ADDRESS and ALARM_SERVER_PORT, else 127.0.0.1:47808)"
    parser.add_argument("--to", metavar="HOST[:PORT]", default=default_address(), help=where)
    parser.add_argument("--wait", type=seconds, metavar="SECONDS", default=2.0, help="for how long an answer is awaited (%(default)s)")
    language.add_words(parser)
    parser.add_argument("--retries", type=int, choices=range(16), metavar="N", default=3, help="how often a request is sent again (%(default)s)")


def seconds(text):
    number = float(text)
    if not 0.01 <= number <= 1e9:
        raise ValueError
    return number


def client_of(given):
    """The client of the words."""
    try:
        return Client(address_from(given.to), given.wait, given.retries)
    except ValueError as error:
        raise words.Ends(words.USAGE, str(error)) from None


def refusal_of(message):
    """What an Error, a Reject or an Abort says."""
    if message.kind == "reject":
        name = names.named(names.REJECTS, message.number)
        return Refusal("reject", message.number, f"Reject {message.number}, {name}")
    if message.kind == "abort":
        name = names.named(names.ABORTS, message.number)
        return Refusal("abort", message.number, f"Abort {message.number}, {name}{WHY_ABORTED.get(message.number, '')}")
    if message.number in (octets.ADD_LIST_ELEMENT, octets.REMOVE_LIST_ELEMENT):
        *code, element = octets.list_error_of(message)
        at = f", at recipient {element}" if element else ""
    else:
        code, at = octets.error_of(message), ""
    return Refusal("error", tuple(code), f"Error {code[0]},{code[1]}, {names.ERRORS.get(tuple(code), 'unknown')}{at}")


def fault_text(error):
    """What the system says of a datagram that couldn't be sent or taken, behind what is told of no answer."""
    return ", and nothing listens there" if isinstance(error, ConnectionRefusedError) else f": {error.strerror}"


def batches_of(wanted):
    """Properties of objects, parted so that the answer of each part has room in a datagram."""
    batch, size, last = [], 0, None
    for it in wanted:
        cost = OF_LONG_PROPERTY.get(it[1], OF_PROPERTY) + (OF_OBJECT if it[0] != last else 0)
        if batch and size + cost > MOST_OF_ANSWER:
            yield batch
            batch, size, cost = [], 0, OF_LONG_PROPERTY.get(it[1], OF_PROPERTY) + OF_OBJECT
        batch.append(it)
        size, last = size + cost, it[0]
    if batch:
        yield batch


class Client:
    """A socket that asks one server."""

    def __init__(self, address, wait=2.0, retries=3):
        self.address, self.wait, self.retries = address, wait, retries
        self.socket = socket.socket(socket.AF_INET, socket.SOCK_DGRAM)
        try:
            self.socket.connect(address)
        except OSError as error:
            raise words.Ends(words.CANNOT_OPEN, f"{self.where()}: {error.strerror}") from None
        self.invoke = int.from_bytes(os.urandom(1), "big")
        self.names, self.fault = {}, None

    def where(self):
        return f"{self.address[0]}:{self.address[1]}"

    def send(self, sent):
        try:
            self.socket.send(sent)
        except OSError as error:
            self.fault = fault_text(error)

    def receive(self, until):
        """The next APDU, or None where none came until a moment or nothing listens."""
        while True:
            left = until - time.monotonic()
            if left <= 0:
                return None
            self.socket.settimeout(left)
            try:
                return octets.received(self.socket.recv(2048))[0]
            except TimeoutError:
                return None
            except ValueError:
                continue
            except OSError as error:
                self.fault = fault_text(error)
                return None

    def ask(self, make):
        """The answer to the request that `make` gives for an invoke ID: of this service, or a Refusal."""
        self.invoke = (self.invoke + 1) % 256
        sent = make(self.invoke)
        service = octets.received(sent)[0].number
        for _ in range(self.retries + 1):
            message = self.one_try(sent, service)
            if message:
                return message
        raise NoAnswer(f"nobody answers at {self.where()}: asked {self.retries + 1} times in {self.wait * (self.retries + 1):g} s{self.fault or ''}")

    def one_try(self, sent, service):
        """Sends a request, and awaits its answer for the time of one try; while nothing listens it is sent again and again."""
        until, self.fault = time.monotonic() + self.wait, None
        self.send(sent)
        while time.monotonic() < until:
            message = self.receive(until)
            if message is None:
                if self.fault and time.monotonic() < until:
                    time.sleep(max(0, min(REFUSED_PAUSE, until - time.monotonic())))
                    self.send(sent)
                continue
            if message.invoke != self.invoke or message.kind in ("request", "unconfirmed"):
                continue
            if message.kind in ("reject", "abort") or message.kind == "error" and message.number == service:
                raise refusal_of(message)
            if message.number == service:
                return message
        return None

    def answered(self, make, of):
        """What `of` reads of the answer. One that isn't an answer by the standard is a ValueError."""
        return of(self.ask(make))

    def read(self, the_object, number, index=None):
        """The elements of a property, or of an element of it."""
        found = self.answered(lambda invoke: octets.read_property(invoke, the_object, number, index), octets.values_read)
        octets.want(found[:3] == (the_object, number, index), f"another property was answered: {found}")
        return found[3]

    def number(self, the_object, number):
        return octets.number_of(self.read(the_object, number)[0])

    def name(self, the_object):
        """The Object_Name of an object, or None where it can't be had; it is asked once."""
        if the_object not in self.names:
            try:
                self.names[the_object] = octets.text_of(self.read(the_object, octets.OBJECT_NAME)[0])
            except Refusal:
                self.names[the_object] = None
        return self.names[the_object]

    def write(self, the_object, number, element, index=None):
        return self.ask(lambda invoke: octets.write_property(invoke, the_object, number, element, index))

    def read_many(self, wanted):
        """What several properties are, each given as an object, a number and an index or None: its elements, or the two numbers of its Error."""
        found = {}
        for batch in batches_of(wanted):
            found |= self.read_batch(batch)
        return found

    def read_batch(self, batch):
        """The same of as many as one answer may have. Where it is too long, halves are asked; where there is no such service, each by itself."""
        try:
            answer = self.answered(lambda invoke: octets.read_many(invoke, batch), octets.objects_read)
        except Refusal as refusal:
            if (refusal.kind, refusal.code) == ("abort", 4) and len(batch) > 1:
                half = len(batch) // 2
                return self.read_batch(batch[:half]) | self.read_batch(batch[half:])
            if (refusal.kind, refusal.code) in (("reject", 9), ("abort", 4)):
                return {it: self.read_or_error(*it) for it in batch}
            raise
        return {(of, number, index): error or found for of, rows in answer for number, index, found, error in rows}

    def read_or_error(self, the_object, number, index):
        """The elements of a property, or the two numbers of the Error by which it was refused."""
        try:
            return self.read(the_object, number, index)
        except Refusal as refusal:
            if refusal.kind == "error":
                return refusal.code
            raise

    def learn_names(self, objects):
        """Asks for the names of objects that aren't known yet, many at once."""
        wanted = [(of, octets.OBJECT_NAME, None) for of in dict.fromkeys(objects) if of not in self.names]
        for (of, _, _), found in self.read_many(wanted).items():
            self.names[of] = octets.text_of(found[0]) if isinstance(found, list) else None

    def summaries(self):
        """All active objects, page by page."""
        found, behind = [], None
        while True:
            rows, more = self.answered(lambda invoke: octets.get_event_information(invoke, behind), octets.summaries_of)
            found += rows
            if not more or not rows:
                return found
            behind = rows[-1].object

    def objects(self):
        """The identifiers of all objects of the device, whose instance is asked by a Who-Is."""
        device = self.device()[0]
        try:
            return [octets.object_of(it) for it in self.read(device, octets.OBJECT_LIST)]
        except Refusal as refusal:
            if (refusal.kind, refusal.code) != ("abort", 4):
                raise
        count = octets.number_of(self.read(device, octets.OBJECT_LIST, 0)[0])
        found = self.read_many([(device, octets.OBJECT_LIST, place) for place in range(1, count + 1)])
        return [octets.object_of(it[0]) for it in found.values() if isinstance(it, list)]

    def device(self):
        """What the server's I-Am says: the device, its longest APDU, segmentation and vendor."""
        for _ in range(self.retries + 1):
            until, self.fault = time.monotonic() + self.wait, None
            self.send(octets.who_is())
            while time.monotonic() < until:
                message = self.receive(until)
                if message and (message.kind, message.number) == ("unconfirmed", octets.I_AM):
                    return octets.device_of(message)
                if message is None and self.fault and time.monotonic() < until:
                    time.sleep(max(0, min(REFUSED_PAUSE, until - time.monotonic())))
                    self.send(octets.who_is())
        raise NoAnswer(f"nobody answers a Who-Is at {self.where()}: asked {self.retries + 1} times in {self.wait * (self.retries + 1):g} s{self.fault or ''}")

    def close(self):
        self.socket.close()

    def __enter__(self):
        return self

    def __exit__(self, _, fault, __):
        self.close()
        ends(fault)


def ends(fault):
    """Ends the tool where an answer doesn't come, is a refusal, or can't be read."""
    if isinstance(fault, NoAnswer):
        raise words.Ends(words.NOBODY, str(fault)) from None
    if isinstance(fault, Refusal):
        raise words.Ends(words.REFUSED, str(fault)) from None
    if isinstance(fault, ValueError):
        raise words.Ends(words.UNREADABLE, str(fault)) from None
