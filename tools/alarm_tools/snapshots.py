"""A snapshot of a state of a site, read and written by docs/JOURNAL.md, "Snapshots"."""
import collections
import struct

from . import journal, site_text
from .journal import NoJournal

INTEGERS, BINARY = (45, 48), 5
HEAD, VALUE_KEYS, LIMITS = struct.Struct(">BQQ"), struct.Struct(">BBBBBIBI"), struct.Struct(">IIIB")
ALARM, RUN = struct.Struct(">BBQQQBBBIB"), struct.Struct(">BQI")
PEER, LOG = struct.Struct(">16sBBQH"), struct.Struct(">BII")
RECIPIENT = 31
KEYS = ("out_of_service", "inhibit", "reliability_inhibit", "reliability", "enable", "time_delay", "has_normal", "time_delay_normal")
LIMIT_KEYS = ("high", "low", "deadband", "limit_enable")
# A state: how many events there were, the last moment, each value object, each alarm and each class by its identifier, each log by
# its identifier, in the site's order, and the known peers, ascending.
State = collections.namedtuple("State", "version events moment objects alarms classes logs peers")
Log = collections.namedtuple("Log", "enable total records")
# A record of a log: its stamp, its hundredths of a second since 1970 where the site has a zone rule, and its octets.
LogRecord = collections.namedtuple("LogRecord", "stamp hundredths octets")
# A known peer: its octets, the next invoke ID, how often what is in flight was sent, until when its answer is awaited, and its notes.
Peer = collections.namedtuple("Peer", "peer invoke attempts deadline notes")


class Reader:
    """Octets that are read from the front."""

    def __init__(self, octets):
        self.octets, self.at = octets, 0

    def take(self, count):
        self.at += count
        if self.at > len(self.octets):
            raise NoJournal("a snapshot that is cut")
        return self.octets[self.at - count : self.at]

    def unpack(self, form):
        return form.unpack(self.take(form.size))

    def number(self, count):
        return int.from_bytes(self.take(count), "big")


def order(site):
    """The value objects, those with an alarm, the classes and the logs of a site, as a snapshot has them."""
    objects = sorted(site.objects, key=lambda it: it["object"])
    alarms = sorted(site_text.alarm_objects(site), key=lambda it: it["object"])
    return objects, alarms, sorted(site.classes, key=lambda it: it["object"]), site.logs


def is_enrollment(item):
    return item["section"] == "enrollment"


def read(site, octets):
    """The state that a snapshot of a site tells; NoJournal where it can't be one."""
    reader = Reader(octets)
    objects, alarms, classes, logs = order(site)
    version, events, moment = reader.unpack(HEAD)
    try:
        state = State(
            version, events, moment, {it["object"]: read_object(reader, it) for it in objects}, {it["object"]: read_alarm(reader, it) for it in alarms},
            {it["object"]: [reader.take(RECIPIENT) for _ in range(reader.number(1))] for it in classes}, {it["object"]: read_log(reader, version) for it in logs},
            [read_peer(reader) for _ in range(reader.number(2))],
        )
    except (struct.error, IndexError, ValueError) as error:
        raise NoJournal(f"no snapshot: {error}") from None
    if reader.at != len(octets):
        raise NoJournal(f"octets behind a snapshot: {len(octets) - reader.at}")
    return state


def read_object(reader, item):
    _, end = journal.value_at(reader.octets, reader.at)
    found = {"value": reader.take(end - reader.at), **dict(zip(KEYS, reader.unpack(VALUE_KEYS)))}
    if item["object"][0] in INTEGERS:
        found |= dict(zip(LIMIT_KEYS, reader.unpack(LIMITS)))
    elif item["object"][0] == BINARY:
        found["alarm_value"] = reader.number(4)
    return found


def read_alarm(reader, item):
    state, acked, *rest = reader.unpack(ALARM)
    found = {"state": state, "acked": acked, "stamps": rest[:3], "entered": rest[3:6], "cause": rest[6], "reliability": rest[7]}
    found["runs"] = [reader.unpack(RUN) for _ in range(3)]
    if is_enrollment(item):
        found |= {"inhibit": reader.number(1), "enable": reader.number(1)}
    return found


def read_log(reader, version):
    enable, total, count = reader.unpack(LOG)
    records = []
    for _ in range(count):
        stamp, hundredths = reader.take(8), reader.number(8) if version == 2 else None
        records.append(LogRecord(stamp, hundredths, reader.take(reader.number(2))))
    return Log(enable, total, records)


def read_peer(reader):
    peer, invoke, attempts, deadline, count = reader.unpack(PEER)
    return Peer(peer, invoke, attempts, deadline, [(reader.number(1), reader.take(reader.number(2))) for _ in range(count)])


def write(site, state):
    """The octets of a state."""
    objects, alarms, classes, logs = order(site)
    parts = [HEAD.pack(state.version, state.events, state.moment)]
    parts += [object_octets(state.objects[it["object"]], it) for it in objects]
    parts += [alarm_octets(state.alarms[it["object"]], it) for it in alarms]
    for it in classes:
        parts += [bytes([len(state.classes[it["object"]])]), *state.classes[it["object"]]]
    parts += [log_octets(state.logs[it["object"]], state.version) for it in logs]
    parts += [len(state.peers).to_bytes(2, "big"), *map(peer_octets, state.peers)]
    return b"".join(parts)


def object_octets(of, item):
    octets = of["value"] + VALUE_KEYS.pack(*(of[key] for key in KEYS))
    if item["object"][0] in INTEGERS:
        octets += LIMITS.pack(*(of[key] for key in LIMIT_KEYS))
    elif item["object"][0] == BINARY:
        octets += of["alarm_value"].to_bytes(4, "big")
    return octets


def alarm_octets(of, item):
    octets = ALARM.pack(of["state"], of["acked"], *of["stamps"], *of["entered"], of["cause"], of["reliability"])
    octets += b"".join(RUN.pack(*run) for run in of["runs"])
    return octets + (bytes([of["inhibit"], of["enable"]]) if is_enrollment(item) else b"")


def log_octets(log, version):
    parts = [LOG.pack(log.enable, log.total, len(log.records))]
    for it in log.records:
        parts += [it.stamp, it.hundredths.to_bytes(8, "big") if version == 2 else b"", len(it.octets).to_bytes(2, "big"), it.octets]
    return b"".join(parts)


def peer_octets(of):
    parts = [PEER.pack(of.peer, of.invoke, of.attempts, of.deadline, len(of.notes))]
    for confirmed, octets in of.notes:
        parts += [bytes([confirmed]), len(octets).to_bytes(2, "big"), octets]
    return b"".join(parts)


def of_area(area):
    """The octets of the snapshot of an area."""
    return area.octets[4 : 4 + area.snapshot.length]
