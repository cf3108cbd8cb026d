"""The part of checks/fuzz that runs a server on this machine, and sends it random and damaged datagrams, with valid requests in between.

A window of them is sent, and then its answers are awaited: so few are in flight that the system has room for them. The
sockets of the check are also the recipients of the site's classes; one notification in four isn't confirmed, and comes again.
"""
import collections
import pathlib
import re
import select
import socket
import time

import bacnet
import serving
from bacnet import want
from drawing import KINDS_OF_OBJECTS, datagram

# The longest datagram that the server takes whole; of a longer one it has what comes first.
LONGEST = 1_497
# How many drawn datagrams, and how many valid ones between them, are sent before the answers are awaited: so many fit what the
# system keeps for a socket.
WINDOW, VALID = 32, 8
# Each so many windows the objects come to rest, and so many windows are then sent, with a look behind each.
BUSY, RESTING = 4, 4
# More datagrams than a window takes, with what confirms its notifications, and than is sent to objects that come to rest.
FEW, MANY = 128, 800
# After how many milliseconds the server sends a notification again.
TIMEOUT = 50
# How many recipients there are, of how many objects all is read, and what.
RECIPIENTS, SEEN = 3, 4
OF_A_VALUE, OF_A_LOG, OF_A_CLASS = [85, 36, 103, 111, 81, 130, 0, 35, 45, 59, 25, 52, 113, 354, 7, 6], [133, 141, 145], [102]
OBJECT_NAME, TIME_DELAY, TIME_DELAY_NORMAL = 77, 113, 356
# What stands in an edit of recipients, and in nothing else that is drawn: the property, and the tag behind which the elements begin.
RECIPIENTS_EDITED = b"\x19\x66\x3e"
READ_RANGE, SERVICES, EDITS = 26, (0, 3, 4, 8, 9, 12, 14, 15, 26, 29), (8, 9)
# The services that have a result, and those that are answered with no Error.
WITH_RESULTS, WITHOUT_ERRORS = (3, 4, 12, 14, 26, 29), (3, 4, 14)
MAXIMA = [50, 128, 206, 480, 1024, 1476]
# The values that valid writes give an object of a kind, as elements.
VALUES = {
    "integer-value": [bacnet.signed(it) for it in (50, 90, 10)], "positive-integer-value": [bytes([0x21, it]) for it in (50, 90, 10)],
    "multi-state-value": [bytes([0x21, it]) for it in (1, 2, 3)], "binary-value": [b"\x91\x00", b"\x91\x01"],
    "characterstring-value": [b"\x75\x03\x00ok", b"\x75\x05\x00fire"], "bitstring-value": [b"\x82\x04\x00", b"\x82\x04\x80"],
}

# What a datagram is where it isn't ignored: the peer that is answered, the station behind it, if there is one, and the APDU.
Frame = collections.namedtuple("Frame", "peer station apdu")
# An answer that is owed: the station to which it goes, and the request's APDU.
Owed = collections.namedtuple("Owed", "station request")


# A second reading of docs/WIRE.md.


def frame_of(octets, sender):
    """What a datagram of a sender is, or None where it is to be ignored."""
    whole = len(octets) >= 4 and octets[0] == 0x81 and octets[1] in (4, 10, 11) and int.from_bytes(octets[2:4], "big") == len(octets)
    at = 10 if whole and octets[1] == 4 else 4
    if not whole or len(octets) < at + 2 or octets[at] != 1 or octets[at + 1] & 0x80:
        return None
    peer = (socket.inet_ntoa(octets[4:8]), int.from_bytes(octets[8:10], "big")) if at == 10 else sender
    control, at = octets[at + 1], at + 2
    destination, at = address_at(octets, at) if control & 0x20 else (None, at)
    source, at = address_at(octets, at) if control & 0x08 else (None, at)
    at += 1 if control & 0x20 else 0
    if at > len(octets) or peer[1] == 0 or destination and destination[0] != 0xFFFF:
        return None
    if source and (source[0] == 0 or not 1 <= len(source[1]) <= 7):
        return None
    return Frame(peer, source, octets[at:])


def address_at(octets, at):
    """The network and the address that stand at a place, and the place behind them, which is past the end where they are cut."""
    length = octets[at + 2] if at + 2 < len(octets) else len(octets)
    return (int.from_bytes(octets[at : at + 2], "big"), octets[at + 3 : at + 3 + length]), at + 3 + length


def owed_for(frame, device):
    """The answer that a device owes for a frame, or None."""
    apdu = frame.apdu
    kind = apdu[0] >> 4 if apdu else None
    is_request = kind == 0 and len(apdu) >= (6 if apdu[0] & 8 else 4)
    is_who_is = kind == 1 and apdu[1:2] == bytes([bacnet.WHO_IS]) and is_within(apdu[2:], device)
    return Owed(frame.station, apdu) if is_request or is_who_is else None


def is_within(parameters, device):
    """Whether the parameters of a Who-Is are none, or a range that holds a device."""
    if not parameters:
        return True
    low, at = unsigned_at(parameters, 0, 0)
    high, at = unsigned_at(parameters, at, 1)
    return low is not None and high is not None and at == len(parameters) and low <= device <= high


def unsigned_at(octets, at, number):
    """The Unsigned with a number in a context that stands at a place, or None, and the place behind it."""
    first, at = octets[at : at + 1] or b"\x00", at + 1
    tag, length = first[0] >> 4, first[0] & 7
    if tag == 15:
        tag, at = int.from_bytes(octets[at : at + 1], "big"), at + 1
    if length == 5:
        length, at = int.from_bytes(octets[at : at + 1], "big"), at + 1
        if length >= 254:
            size = 2 if length == 254 else 4
            length, at = int.from_bytes(octets[at : at + size], "big"), at + size
    elif length > 5:
        return None, at
    good = first[0] & 8 and tag == number and 1 <= length <= 4 and at + length <= len(octets)
    return (int.from_bytes(octets[at : at + length], "big"), at + length) if good else (None, at)


def answered_by(octets):
    """The station to which a datagram of the server goes, if it names one, and its APDU."""
    whole = len(octets) >= 8 and octets[:2] == b"\x81\x0a" and int.from_bytes(octets[2:4], "big") == len(octets) <= LONGEST
    want(whole, f"no datagram came: {octets.hex()}")
    want(octets[4:5] == b"\x01" and octets[5] in (0, 4, 0x20, 0x24), f"another head came: {octets.hex()}")
    station, at = address_at(octets, 6) if octets[5] & 0x20 else (None, 6)
    want(station is None or octets[at : at + 1] == b"\xff", f"another hop count came: {octets.hex()}")
    apdu = octets[at + (1 if station else 0) :]
    want(len(apdu) >= 3, f"an APDU came that is cut: {octets.hex()}")
    return station, apdu


def is_note(apdu):
    return apdu[0] >> 4 == 0 or apdu[:2] == bytes([0x10, bacnet.UNCONFIRMED_EVENT_NOTIFICATION])


def is_error(service, apdu):
    """Whether an Error has the octets that it has of a service: of an edit of a list a class and a code between tags, and an element's number."""
    if service in EDITS:
        return len(apdu) in (11, 12, 13) and apdu[3:5] == b"\x0e\x91" and apdu[6] == 0x91 and apdu[8] == 0x0F and apdu[9] - 0x18 == len(apdu) - 10
    return len(apdu) == 7


class Ledger:
    """What a socket is owed for the datagrams that were sent, in their order."""

    def __init__(self):
        self.owed = collections.deque()

    def take(self, station, apdu):
        """An answer comes: it has to be the next one that is owed. Gives its kind."""
        want(self.owed, f"an answer to nothing: {apdu.hex()}")
        kind, due = "i-am" if apdu[0] == 0x10 else bacnet.KINDS.get(apdu[0] >> 4), self.owed.popleft()
        text = f"{due.request.hex()} is answered with {apdu.hex()}"
        want(station == due.station, f"{text}, to {station} and not to {due.station}")
        self.see_fit(kind, due.request, apdu, text)
        return kind

    @staticmethod
    def see_fit(kind, asked, apdu, text):
        """The answer is of a kind that its request may have, and has its invoke ID and its service."""
        if asked[0] >> 4 == 1:
            want(kind == "i-am" and apdu[1] == bacnet.I_AM, text)
            return
        is_segment = bool(asked[0] & 8)
        want(kind in ("simple-ack", "complex-ack", "error", "reject", "abort") and apdu[1] == asked[2], text)
        service = None if is_segment else asked[3]
        want(kind not in ("simple-ack", "complex-ack", "error") or apdu[2] == service, text)
        want(kind != "simple-ack" or len(apdu) == 3 and service in (0, 15, *EDITS), text)
        want(kind != "complex-ack" or len(apdu) <= MAXIMA[min(asked[1] & 15, 5)] and service in WITH_RESULTS, text)
        want(kind != "error" or is_error(service, apdu) and service in SERVICES and service not in WITHOUT_ERRORS, text)
        want(kind != "reject" or len(apdu) == 3 and apdu[2] in ((4, 5, 7) if service in SERVICES else (9,)), text)
        want(kind != "abort" or len(apdu) == 3 and apdu[0] == 0x71 and apdu[2] in ((4,) if is_segment else (0, 4)), text)
        want(is_segment <= (kind == "abort"), text)

    def lacks(self):
        """The requests whose answers haven't come."""
        return [it.request.hex() for it in self.owed]


def events_at_end(ended, count, port):
    """How many events there are, by the last line of a server that has ended: well, behind so many datagrams, and with nothing lost."""
    status, output, errors = ended
    found = re.fullmatch(rb"served ([0-9]+) ([0-9]+) ([0-9]+) ([0-9]+)\n", output)
    want(status == 0 and errors == f"listening on {serving.HOST}:{port}\n".encode(), f"the server ended with {status}, {errors[-200:]!r}")
    want(found, f"the server's last line is {output[-200:]!r}")
    received, events, durable, lost = map(int, found.groups())
    want((received, durable, lost) == (count, events, 0), f"after {count} datagrams the server's last line is {output!r}")
    return events


def see_rest(before, after, kinds):
    """Where every datagram between two looks was ignored or refused, or only asked, both have the same answers, octet for octet."""
    changed = [f"{first.hex()} is then {second.hex()}" for first, second in zip(before, after) if first != second]
    want(kinds["simple-ack"] or before == after, f"nothing was acknowledged, and of what is read {changed[:1]}")


# The client.


class Peers:
    """Sockets of this machine, which ask a server and are its recipients, and what they are owed."""

    def __init__(self, device, count):
        self.device, self.sockets = device, {}
        for _ in range(RECIPIENTS):
            one = socket.socket(socket.AF_INET, socket.SOCK_DGRAM)
            one.bind((serving.HOST, 0))
            one.setsockopt(socket.SOL_SOCKET, socket.SO_RCVBUF, 4_000_000)
            one.setblocking(False)
            self.sockets[one.getsockname()] = one, Ledger()
        self.names = list(self.sockets)
        self.port, self.left = serving.free_port(), count
        self.kinds, self.last_note, self.answers, self.sent = collections.Counter(), None, None, []

    def send(self, name, octets):
        """Sends a datagram from a socket, and notes which answer is owed to which socket."""
        want(self.left > 0, "the check sends more than it told the server")
        frame = frame_of(octets[:LONGEST], name)
        if frame and frame.peer not in self.sockets:
            # What goes to somebody else goes to one of these sockets.
            host, port = self.names[sum(octets) % RECIPIENTS]
            octets = octets[:4] + socket.inet_aton(host) + port.to_bytes(2, "big") + octets[10:]
            frame = frame_of(octets[:LONGEST], name)
        owed = owed_for(frame, self.device) if frame else None
        if owed:
            self.sockets[frame.peer][1].owed.append(owed)
        self.kinds["ignored"] += not owed
        self.sockets[name][0].sendto(octets, (serving.HOST, self.port))
        self.sent.append(f"{name[1]} {octets.hex()}\n")
        self.left -= 1

    def receive(self, seconds):
        """Takes what has come, and waits so long where nothing has. Says whether something came."""
        ready, _, _ = select.select([one for one, _ in self.sockets.values()], [], [], seconds)
        for one in ready:
            octets, sender = one.recvfrom(2048)
            want(sender == (serving.HOST, self.port), f"a datagram of another sender: {sender}")
            station, apdu = answered_by(octets)
            name = one.getsockname()
            if is_note(apdu):
                self.take_note(name, apdu)
            else:
                self.kinds[self.sockets[name][1].take(station, apdu)] += 1
                if self.answers is not None:
                    self.answers.append(octets)
        return bool(ready)

    def take_note(self, name, apdu):
        """A notification comes; of those that are to be confirmed one in four isn't."""
        self.kinds["notification"] += 1
        if apdu[0] >> 4 == 1:
            return
        self.last_note = bacnet.notification_of(bacnet.Message("request", apdu[2], apdu[3], apdu[4:]))
        if self.left > FEW and apdu[2] % 4 != 3:
            self.send(name, bacnet.simple_ack(apdu[2], apdu[3]))

    def await_answers(self):
        """Receives until nothing is owed, and what came with it."""
        until = time.monotonic() + serving.ANSWER
        while any(ledger.lacks() for _, ledger in self.sockets.values()):
            lacks = [it for _, ledger in self.sockets.values() for it in ledger.lacks()]
            want(self.receive(0.1) or time.monotonic() < until, f"no answer to {lacks}")
        while self.receive(0):
            pass

    def ask(self, makers):
        """Sends what is made for invoke IDs, so that few are in flight, and gives the datagrams that answer it, in their order."""
        answers = []
        for at in range(0, len(makers), WINDOW):
            self.answers = []
            for number, make in enumerate(makers[at : at + WINDOW]):
                self.send(self.names[0], make(number))
            self.await_answers()
            answers += self.answers
        self.answers = None
        return answers

    def close(self):
        for one, _ in self.sockets.values():
            one.close()


# The rounds.


def number_of(the_object):
    """An object as its type's number and its instance."""
    return KINDS_OF_OBJECTS[the_object[0]], the_object[1]


def looks_at(objects):
    """Requests for what can be seen of objects, and of the alarms."""
    makers = [bacnet.get_event_information]
    for name, instance in objects:
        numbers = OF_A_LOG if name == "event-log" else OF_A_CLASS if name == "notification-class" else [] if name == "device" else OF_A_VALUE
        it = number_of((name, instance))
        makers += [lambda invoke, it=it, number=number: bacnet.read_property(invoke, it, number) for number in numbers]
        if name == "event-log":
            of = bacnet.tagged(0, bacnet.object_octets(it)) + bacnet.tagged(1, b"\x83")
            makers.append(lambda invoke, of=of: bacnet.request(invoke, READ_RANGE, of))
    return makers


def valid_request(draws, peers, invoke):
    """A write of a value, the acknowledgement of the last notification, or a look at an object."""
    name, instance = draws.one_of(draws.objects)
    it, kind, note = number_of((name, instance)), draws.below(8), peers.last_note
    if kind < 6 and name in VALUES:
        return bacnet.write_property(invoke, it, bacnet.PRESENT_VALUE, draws.one_of(VALUES[name]))
    if kind < 7 and note:
        return bacnet.acknowledge_alarm(invoke, note.process, note.object, note.to_state, note.stamp, bacnet.stamp_of(time.time()))
    return bacnet.read_property(invoke, it, bacnet.EVENT_STATE)


def drawn(draws, moment):
    """A datagram as in a session, and now and then an empty one, or one that is longer than is taken. No edit of recipients: the sockets of the
    check are to stay the only ones."""
    octets, kind = datagram(draws, moment), draws.below(100)
    while RECIPIENTS_EDITED in octets:
        octets = datagram(draws, moment)
    if kind == 0:
        return b""
    return octets.ljust(LONGEST, b"\x00") + draws.octets(500) if kind == 1 else octets


def send_window(draws, peers, valid):
    """Sends a window of drawn datagrams, with so many valid requests in between, and awaits the answers. Counts those by kind."""
    before = peers.kinds.copy()
    peers.kinds["drawn"] += WINDOW
    for number in range(WINDOW):
        peers.send(draws.one_of(peers.names), drawn(draws, int(time.time() * 1000)))
        if number < valid:
            peers.send(draws.one_of(peers.names), valid_request(draws, peers, number))
    peers.send(peers.names[0], bacnet.who_is())
    peers.await_answers()
    return peers.kinds - before


def come_to_rest(draws, peers, looks):
    """Takes the delays of all objects away, so that time moves none any more, and looks; or gives None where a write isn't taken."""
    makers = [
        lambda invoke, it=number_of(it), number=number: bacnet.write_property(invoke, it, number, b"\x21\x00")
        for it in draws.objects for number in (TIME_DELAY, TIME_DELAY_NORMAL) if it[0] in VALUES
    ]
    aborts = peers.kinds["abort"]
    peers.ask(makers)
    return peers.ask(looks) if peers.kinds["abort"] == aborts else None


def see_resting(draws, peers):
    """Sends windows to objects that rest, and looks at these before and after."""
    looks = looks_at([draws.one_of(draws.objects) for _ in range(SEEN)])
    before = come_to_rest(draws, peers, looks)
    for _ in range(RESTING):
        if before is None:
            break
        kinds = send_window(draws, peers, 0)
        after = peers.ask(looks)
        see_rest(before, after, kinds)
        peers.kinds["windows without a change"] += not kinds["simple-ack"]
        # What was acknowledged may have a delay.
        before = None if kinds["simple-ack"] else after


def play(draws, peers, server):
    """Sends the server its number of datagrams."""
    windows = 0
    while peers.left >= 2 * FEW:
        windows += 1
        if windows % BUSY or peers.left < MANY + 2 * len(draws.objects):
            send_window(draws, peers, VALID)
        else:
            see_resting(draws, peers)
        want(server.runs(), f"with {peers.left} datagrams to come the server ended: {server.said()}")
    while peers.left > 0:
        peers.ask([lambda invoke: bacnet.read_property(invoke, number_of(draws.objects[0]), OBJECT_NAME)] * min(peers.left, WINDOW))


def site_of(draws, ports):
    """The text of the site, whose recipients are the sockets of the check, and which sends again soon. Nothing is delayed at its start."""
    text, found = draws.site, sorted(set(re.findall(rb'^address = "([^"]*)"', draws.site, re.MULTILINE)))
    for number, address in enumerate(found):
        text = text.replace(b'"%b"' % address, f'"{serving.HOST}:{ports[number % len(ports)]}"'.encode())
    text = re.sub(rb"(?m)^(time_delay|time_delay_normal) = [0-9]+", rb"\1 = 0", text)
    text = re.sub(rb"(?m)^apdu_timeout = .*\n", b"", text)
    return text.replace(b"[device]\n", b"[device]\napdu_timeout = %d\n" % TIMEOUT, 1)


def served(program, draws, folder, count):
    """A server that gets so many datagrams."""
    device = int(re.search(rb"^instance = ([0-9]+)", draws.site, re.MULTILINE)[1])
    peers, site, journal = Peers(device, count), pathlib.Path(folder) / "site", pathlib.Path(folder) / "journal"
    try:
        site.write_bytes(site_of(draws, [port for _, port in peers.names]))
        serving.make_journal(program, site, journal)
        with serving.Server(program, site, journal, peers.port, count) as server:
            play(draws, peers, server)
            events = events_at_end(server.ended(), count, peers.port)
        while peers.receive(0):
            pass
    finally:
        peers.close()
        site.with_name("sent").write_text("".join(peers.sent), encoding="ascii")
    opened = serving.events_in(program, site, journal)
    want(opened == events, f"the journal opens at event {opened}, and the server's last line tells {events}")
    return collections.Counter({"server datagrams": count, "server events": events, **{f"server {kind}": many for kind, many in peers.kinds.items()}})


# The check's own test.


def told(sent, came):
    """Sends datagrams to nobody and has answers come, all of the local network, and says what is wrong with them, or None."""
    ledger = Ledger()
    try:
        for octets in sent:
            frame = frame_of(octets, (serving.HOST, 1))
            owed = owed_for(frame, 1001) if frame else None
            ledger.owed.extend([owed] if owed else [])
        for octets in came:
            ledger.take(*answered_by(octets))
        want(not ledger.lacks(), "an answer is lacking")
    except ValueError as fault:
        return fault
    return None


def refuses(see, *words):
    try:
        see(*words)
    except ValueError:
        return True
    return False


def test_itself():
    """What isn't found in the answers of a server with a fault put in."""
    read, write, summary = (bytes.fromhex(it) for it in ("0005010c0c0b4000011924", "0005020f0c0b40000119553e31503f", "0005031d"))
    sent = [bacnet.datagram(it) for it in (read, b"\x10\x08", b"\x10\x08\x09\x01\x19\x02", b"\x20\x00\x02", write, b"\x08\x05\x04\x00\x04\x0f", summary)]
    sent.append(sent[0][:-1])
    came = [bacnet.datagram(bytes.fromhex(it)) for it in (
        "30010c0c0b40000119243e91003f", "1000c4020003e92205c491032203e7", "20020f", "710404", "50031d9102911f",
    )]
    fault = told(sent, came)
    found = [f"right answers of a server aren't taken: {fault}"] if fault else []
    for at in range(len(came)):
        wrong = [(came[:at] + came[at + 1 :], "lacks"), (came[: at + 1] + came[at:], "comes twice"), (came[:at] + came[at : at + 2][::-1] + came[at + 2 :], "comes late")]
        if at != 1:
            apdu = came[at][6:]
            wrong += [(came[:at] + [bacnet.datagram(it)] + came[at + 1 :], "is another") for it in (
                bytes([apdu[0], apdu[1] ^ 1]) + apdu[2:], apdu[:2] + bytes([apdu[2] ^ 1]) + apdu[3:], b"\x10" + apdu[1:],
            )]
        found += [f"answer {at + 1} of a server {what}, and that isn't found" for answers, what in wrong if answers != came and not told(sent, answers)]
    errors, line = b"listening on 127.0.0.1:1\n", b"served 9 4 4 0\n"
    found += ["a right end of a server isn't taken"] * (refuses(events_at_end, (0, line, errors), 9, 1) or events_at_end((0, line, errors), 9, 1) != 4)
    for ended in [(None, line, errors), (7, line, errors), (0, b"served 8 4 4 0\n", errors), (0, b"served 9 4 3 0\n", errors),
                  (0, b"served 9 4 4 1\n", errors), (0, b"", errors), (0, line, errors + b"disk fault\n")]:
        found += [f"an end {ended} of a server isn't found"] * (not refuses(events_at_end, ended, 9, 1))
    seen = [([b"a"], [b"a"], {}, False), ([b"a"], [b"b"], {}, True), ([b"a"], [b"b"], {"simple-ack": 1}, False)]
    found += [f"objects at rest: {before} and {after} isn't told rightly" for before, after, kinds, wanted in seen
              if refuses(see_rest, before, after, collections.Counter(kinds)) != wanted]
    return found
