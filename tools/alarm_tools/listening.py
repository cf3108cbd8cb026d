"""alarm-client listen and follow: notifications as they come, and the records of an event log, on and on."""
import os
import pathlib
import socket
import sys
import time

from . import alarms, client, finding, glance, language, measure, names, octets, values, words
from .client import NoAnswer
from .words import CANNOT_OPEN, DONE, USAGE, Ends

# For how long the sender of a notification is asked for a name, in seconds, and how many records are asked for at once.
NAME_WAIT, MANY = 0.5, 100


def add_commands(commands):
    listen = words.command_of(commands, "listen", "tells notifications that come, as a recipient, and confirms them", listen_for)
    listen.add_argument("--at", default="0.0.0.0", metavar="ADDRESS", help="the address of this machine (%(default)s)")
    listen.add_argument("--port", type=int, default=client.PORT, metavar="PORT", help="the port that the site names (%(default)s)")
    listen.add_argument("--no-confirm", action="store_true", help="confirm nothing: what is to be confirmed comes again")
    listen.add_argument("--site", metavar="SITE", help="take names from a site's text; without it the sender is asked for them")
    listen.add_argument("--count", type=int, default=0, metavar="N", help="end after N notifications")
    listen.add_argument("--json", action="store_true", help="lines of JSON")
    language.add_words(listen)
    follow = words.command_of(commands, "follow", "writes the records of an event log as lines of JSON, on and on", follow_log)
    follow.add_argument("log", metavar="LOG", help="KIND:INSTANCE, as event-log:1, its instance, or its name")
    follow.add_argument("--keep", metavar="FILE", help="keep the number of the next record in a file, and go on from it")
    first = "the first record: a number, oldest, or next, which is the next one that comes (%(default)s)"
    follow.add_argument("--first", default="oldest", metavar="NUMBER", help=first)
    follow.add_argument("--every", type=client.seconds, default=1.0, metavar="SECONDS", help="how often it asks (%(default)s)")
    follow.add_argument("--once", action="store_true", help="end once all that is there was written")
    follow.add_argument("--text", action="store_true", help="words in place of JSON")
    client.add_words(follow)


def say(text):
    print(f"alarm-client: {text}", file=sys.stderr, flush=True)


# listen


class Names:
    """The names of objects: of a site's text, or as the device itself tells them."""

    def __init__(self, path):
        self.of_site = None
        if path:
            with words.opened(path, "rb") as file:
                self.of_site = glance.glance(file.read()).names
        self.clients = {}

    def of(self, sender, the_object):
        if self.of_site is not None:
            return self.of_site.get(the_object)
        try:
            if sender not in self.clients:
                self.clients[sender] = client.Client(sender, NAME_WAIT, 0)
            return self.clients[sender].name(the_object)
        except (NoAnswer, ValueError, Ends):
            return None


def listen_for(given):
    if not 1 <= given.port <= 65535:
        raise Ends(USAGE, f"{given.port} is no port")
    known = Names(given.site)
    with socket.socket(socket.AF_INET, socket.SOCK_DGRAM) as heard:
        try:
            heard.bind((given.at, given.port))
        except OSError as error:
            raise Ends(CANNOT_OPEN, f"{given.at}:{given.port}: {error.strerror}") from None
        say(f"listening on {given.at}:{given.port}")
        last, told = {}, 0
        while not given.count or told < given.count:
            told += hear(given, heard, known, last)
    return DONE


def hear(given, heard, known, last):
    """Takes a datagram, tells its notification, and confirms it. Says how many were told: one that comes again isn't."""
    said, sender = heard.recvfrom(2048)
    try:
        message, _ = octets.received(said)
        is_note = (message.kind, message.number) in (("request", octets.CONFIRMED_EVENT_NOTIFICATION), ("unconfirmed", octets.UNCONFIRMED_EVENT_NOTIFICATION))
        note = octets.notification_of(message) if is_note else None
    except ValueError as error:
        say(f"{sender[0]}:{sender[1]}: {error}")
        return 0
    comes_again = message.kind == "request" and last.get(sender) == said
    if note and not comes_again:
        show_note(given, note, known.of(sender, note.object), sender, message.kind == "request")
    if message.kind == "request":
        last[sender] = said
        answer = octets.simple_ack(message.invoke, message.number) if note else octets.datagram(bytes([0x60, message.invoke, 9]))
        if not (note and given.no_confirm):
            heard.sendto(answer, sender)
    return int(bool(note) and not comes_again)


def show_note(given, note, name, sender, confirmed):
    told = values.notification_words(note, name, measure.measure_of(name, None))
    if given.json:
        words.put(words.json_line(told | {"sender": f"{sender[0]}:{sender[1]}", "confirmed": confirmed}))
    else:
        words.put(coloured_note(told))


def coloured_note(told):
    colour = None if told["notify"] == "ack-notification" else "green" if told["to"] == "normal" else "yellow" if told["to"] == "fault" else "red"
    return words.coloured(words.printable(values.notification_text(told)), colour)


# follow


class Position:
    """The number of the next record, which is kept in a file where one is named."""

    def __init__(self, path, first):
        self.path, self.next = path and pathlib.Path(path), first
        if self.path and self.path.exists():
            text = words.opened(self.path).read().strip()
            if not text.isdigit():
                raise Ends(CANNOT_OPEN, f"{path}: a number alone is wanted in it")
            self.next = int(text)

    def keep(self, number):
        """Takes a number as the next one, and has it on the disk before anything else is done."""
        self.next = number
        if not self.path:
            return
        beside = self.path.with_name(f".{self.path.name}.{os.getpid()}")
        try:
            with open(beside, "w", encoding="ascii") as file:
                file.write(f"{number}\n")
                file.flush()
                os.fsync(file.fileno())
            os.replace(beside, self.path)
        except OSError as error:
            raise Ends(CANNOT_OPEN, f"{self.path}: {error.strerror}") from None


def follow_log(given):
    if given.first not in ("oldest", "next") and not given.first.isdigit():
        raise Ends(USAGE, f"{given.first!r} is no number, nor oldest, nor next")
    position = Position(given.keep, int(given.first) if given.first.isdigit() else None)
    of, silent = None, False
    with client.client_of(given) as asked:
        while True:
            try:
                of = of or finding.wanted_object(asked, given.log, "event-log")
                written = write_new(given, asked, of, position)
                silent = False
            except NoAnswer as fault:
                if given.once:
                    raise
                if not silent:
                    say(f"{fault}; it goes on from record {position.next or given.first} once somebody does")
                written, silent = 0, True
            if given.once and not written:
                return DONE
            if not written:
                time.sleep(given.every)


def write_new(given, asked, of, position):
    """Writes the records that are new, keeps the next number, and says how many there were."""
    total = asked.number(of, octets.TOTAL_RECORD_COUNT)
    if position.next is None and given.first == "next":
        position.keep(total + 1)
    if position.next == total + 1:
        return 0
    found = [] if position.next is None else page_of(asked, of, position.next)
    if not found:
        count = asked.number(of, octets.RECORD_COUNT)
        oldest = max(1, total - count + 1)
        if position.next == oldest:
            return 0
        tell_gap(position.next, oldest, total, names.object_text(of))
        position.keep(oldest)
        found = page_of(asked, of, oldest) if count else []
    details = alarms.details_of(asked)
    details.learn([note.object for _, _, note in found])
    for number, _, note in found:
        told = {"log": names.object_text(of), "number": number} | values.notification_words(note, asked.name(note.object), details.measure(note.object))
        words.put(f"{number} {coloured_note(told)}" if given.text else words.json_line({key: it for key, it in told.items() if key != "process"}))
    if found:
        position.keep(found[-1][0] + 1)
    return len(found)


def page_of(asked, of, first):
    """The records from a number on, as many as an answer has."""
    return asked.answered(lambda invoke: octets.read_range(invoke, of, first, MANY), octets.range_read).records


def tell_gap(wanted, oldest, total, log):
    """Says what isn't there, where a record was wanted that the log doesn't have."""
    if wanted is None:
        return
    if wanted > total:
        say(f"{log} begins anew: record {wanted} was the next one, and its last one is {total}")
    else:
        say(f"records {wanted} to {oldest - 1} of {log} are gone: it has room for fewer, or was cleared")
