"""The state of a site, translated for a changed text, where neither all records nor an archive are there.

A standby of the old text takes the snapshot and the records behind it, and then writes of a value that is there already until it
writes its state as a snapshot. That is put together anew for the changed text, by identifiers, and given to a standby of it, which
refuses what is no state of its site. It is a packet of another hand: docs/STANDBY.md says what is promised then, and what isn't.
"""
import os
import pathlib

from . import archive, archive_search, journal, octets, replay, replay_lines, replay_site, replay_words, snapshots
from .replay_packets import MOST, Standby
from .words import Ends

REFUSED, NOT_TAKEN = 8, 9
KINDS_OF_FLAGS = ("out_of_service", "inhibit", "reliability_inhibit")
NEVER = {"state": 0, "acked": 7, "stamps": [0, 0, 0], "entered": [255, 255, 255], "cause": 0, "reliability": 0, "runs": [(0, 0, 0)] * 3}
# What an alarm's course depends on: where one of these is another one, its delays begin anew.
COURSE = (
    "time_delay", "time_delay_normal", "low", "high", "deadband", "limit_enable", "alarm_value", "alarm_values", "mask", "fault_low", "fault_high", "fault_values",
    "inhibit", "inhibit_ref", "monitored", "feedback", "algorithm", "detection", "states",
)
MOST_FILLING = 1_000_000


def state_of(program, path, folder):
    """The old text of a journal, its state behind the last event as the program has it, and how many octets the journal has."""
    with journal.Journal(path) as it:
        if it.header.blank:
            raise journal.NoJournal("it is blank: nothing was kept in it yet")
        area, text, size = it.settled(), it.header.text, it.header.size
        os.fdatasync(it.file.fileno())
    events = journal.events_in(area)
    if not events:
        raise journal.NoJournal("it has no event, and so no state beside its text")
    site_path, kept = folder / "old.toml", folder / "filled"
    site_path.write_bytes(text)
    replay.make_blank(kept, replay.need_of(program, site_path, f"the text of {path}"))
    site = replay_site.site_text.read(text)
    with Standby(program, site_path, kept) as standby:
        taken = not area.snapshot.length or standby.snapshot(area.snapshot.events, snapshots.of_area(area))
        records = [record for place, body in journal.batches_in(area) for _, record, _ in archive.records_in(body, 1, place)]
        taken = taken and all(standby.add(it) for it in records) and standby.flush()
        if not taken:
            raise Ends(NOT_TAKEN, f"the program doesn't take what {path} holds, behind event {standby.events:,}")
        found = filled(standby, kept, longest_write(site, area))
    return text, snapshots.read(site, found)._replace(events=events), size


def longest_write(site, area):
    """The record of a write of the longest value that an object has, which it has already."""
    values = {it["object"]: archive_search.value_at_first(site, it, area) for it in site.objects}
    moment = area.snapshot.last_moment
    for record in journal.records_in(area):
        moment = record.moment
        if record.act == archive_search.WRITE and record.fields["property"] == archive_search.PRESENT_VALUE:
            values[record.fields["object"]] = archive_search.value_octets(*record.fields["value"])
    if not values:
        raise Ends(REFUSED, "the site has no value object: there is no state to translate")
    of = max(values, key=lambda it: len(values[it]))
    return archive_search.write_of(moment, of, archive_search.PRESENT_VALUE, values[of])


def filled(standby, kept, record):
    """The snapshot that the standby writes once its area has no room for one more such write."""

    def area():
        with journal.Journal(kept) as it:
            return it.selected()

    before = area()
    for _ in range(MOST_FILLING):
        if not standby.add(record):
            break
        if standby.size + len(record) <= MOST:
            continue
        if not standby.flush():
            break
        if area() != before:
            with journal.Journal(kept) as it:
                return snapshots.of_area(it.settled())
    raise Ends(NOT_TAKEN, "the program writes no snapshot of the state")


# The translation.


def bits_number(digits):
    """A text of digits as a number whose lowest bit is the first."""
    return int(digits[::-1] or "0", 2)


def key_number(item, key, value):
    """The value of a key of a text as a snapshot has it."""
    if value is None:
        return 0
    if isinstance(value, bool):
        return int(value)
    if key in ("enable", "limit_enable"):
        return bits_number(value)
    if key == "alarm_value":
        return int(value == "active")
    return value & 0xFFFFFFFF


def first_object(item):
    """What a value object of a text begins with."""
    tag = replay_site.TYPES[item["object"][0]]
    found = {"value": archive_search.value_octets(tag, {"inactive": 0, "active": 1}[item["value"]] if tag == octets.ENUMERATED else item["value"])}
    for key in ("out_of_service", "inhibit", "reliability_inhibit", "enable", "time_delay", "time_delay_normal", *snapshots.LIMIT_KEYS, "alarm_value"):
        found[key] = key_number(item, key, item.get(key))
    if item.get("inhibit_ref"):
        found["inhibit"] = 0
    return found | {"reliability": 0, "has_normal": int(item.get("time_delay_normal") is not None)}


class Translation:
    """A state of the old text as one of the new text, and what of it stays as it was written."""

    def __init__(self, texts, state):
        self.texts, self.state, self.told = texts, state, []

    def translated(self):
        site = self.texts.new
        version = 1 if site.device["zone_rule"] is None else 2
        objects, alarms, classes, logs = snapshots.order(site)
        made = self.state._replace(
            version=version, objects={it["object"]: self.object_of(it) for it in objects}, alarms={it["object"]: self.alarm_of(it) for it in alarms},
            classes={it["object"]: self.list_of(it["object"]) for it in classes}, logs={it["object"]: self.log_of(it, version) for it in logs},
        )
        return made._replace(peers=self.peers_of(made.classes))

    def row(self, of):
        return self.texts.rows[0].get(of)

    def object_of(self, item):
        of, first, had = item["object"], first_object(item), self.state.objects.get(item["object"])
        if had is None:
            return first
        was = first_object(self.row(of))
        found = {key: had[key] if key in had and had[key] != was[key] and self.may_stay(item, key) else it for key, it in first.items()}
        for key in first:
            if key in had and found[key] == had[key] != first[key] and was[key] != first[key] and key in replay_site.KEYS and key != "value":
                self.told.append((of, key, had[key]))
        fits = item["object"][0] != 19 or int.from_bytes(had["value"][1:], "big") <= item["states"]
        return found | {"value": had["value"] if fits else first["value"], "reliability": had["reliability"]}

    @staticmethod
    def may_stay(item, key):
        if key in ("out_of_service", "reliability_inhibit", "reliability"):
            return True
        if key == "has_normal" or item.get("class") is None:
            return False
        return key != "inhibit" or not item.get("inhibit_ref")

    def alarm_of(self, item):
        of, had, was = item["object"], self.state.alarms.get(item["object"]), self.row(item["object"])
        flags = {"inhibit": key_number(item, "inhibit", item["inhibit"] and not item["inhibit_ref"]), "enable": key_number(item, "enable", item["enable"])}
        if had is None or was is None or not item["detection"] or not was["detection"]:
            return {**NEVER, **flags}
        if "enable" in had:
            for key in ("enable", "inhibit"):
                before = key_number(was, key, was[key])
                flags[key] = had[key] if had[key] != before and not item["inhibit_ref"] else flags[key]
        made = had | flags
        if any(was.get(key) != item.get(key) for key in COURSE):
            made = made | {"runs": [(0, 0, 0)] * 3}
        return made | {"cause": self.cause_of(item, was, had)}

    @staticmethod
    def cause_of(item, was, had):
        """The place of the alarm value that was the cause, in the new text's list."""
        values, before = item.get("alarm_values") or [], was.get("alarm_values") or []
        if not had["cause"] or not values:
            return 0
        value = before[had["cause"] - 1] if had["cause"] <= len(before) else None
        return values.index(value) + 1 if value in values else 1

    def list_of(self, of):
        lists = [[peer_octets(it) for it in self.recipients(which, of)] for which in (0, 1)]
        had = self.state.classes.get(of)
        if had is None:
            return lists[1]
        kept = [it for it in had if it not in lists[0] or it in lists[1]]
        return kept + [it for it in lists[1] if it not in lists[0] and it not in kept]

    def recipients(self, which, of):
        site = (self.texts.old, self.texts.new)[which]
        return [it for it in site.destinations if (15, it["class"]) == of]

    def log_of(self, item, version):
        of, had = item["object"], self.state.logs.get(item["object"])
        if had is None:
            return snapshots.Log(int(item["enable"]), 0, [])
        was = self.row(of)
        enable = had.enable if had.enable != int(was["enable"]) else int(item["enable"])
        return snapshots.Log(enable, had.total, [self.record_of(it, version) for it in had.records[-item["size"] :]])

    def record_of(self, record, version):
        if version == 1 or record.hundredths is not None:
            return record
        minutes = self.texts.old.device["zone_minutes"]
        return record._replace(hundredths=round((octets.seconds_of(record.stamp) - 60 * minutes) * 100))

    def peers_of(self, classes):
        retries, known = self.texts.new.device["retries"], {it.peer: it for it in self.state.peers}
        for recipients in classes.values():
            for it in recipients:
                known.setdefault(it[9:25], snapshots.Peer(it[9:25], 0, 0, 0, []))
        peers = [it._replace(attempts=min(it.attempts, retries + 1)) for _, it in sorted(known.items())]
        waiting = sum(len(it.notes) for it in peers)
        if waiting > self.texts.new.device["outbox"]:
            raise Ends(REFUSED, f"{waiting} notifications wait, and the outbox of the changed text has room for {self.texts.new.device['outbox']}")
        return peers


def peer_octets(of):
    """A recipient of a text as a snapshot has it."""
    address, port = of["address"].split(":")
    peer = bytes(int(it) for it in address.split(".")) + int(port).to_bytes(2, "big") + bytes(10)
    times = [hundredths(replay_lines.clock(of[key])) for key in ("from", "to")]
    head = bytes([bits_number(of["days"])]) + b"".join(it.to_bytes(4, "big") for it in times) + peer
    return head + of["process"].to_bytes(4, "big") + bytes([of["confirmed"], bits_number(of["transitions"])])


def hundredths(clock):
    hour, minute, second, hundredth = clock
    return ((hour * 60 + minute) * 60 + second) * 100 + hundredth


def move(program, path, text, folder, options, called):
    """The outcome of a translation, and the new journal, which stays in the folder."""
    folder = pathlib.Path(folder)
    site, kept = folder / "new.toml", folder / "journal"
    site.write_bytes(text)
    need = replay.need_of(program, site, called)
    old_text, state, size = state_of(program, path, folder)
    texts = replay.texts_of(old_text, text)
    if texts.new.device["start"] > state.moment:
        raise Ends(REFUSED, f"{called} starts behind the last event")
    translation = Translation(texts, state)
    made = snapshots.write(texts.new, translation.translated())
    replay.make_blank(kept, replay.size_of(need, size, options, called))
    with Standby(program, site, kept) as standby:
        if not standby.snapshot(state.events, made):
            raise Ends(NOT_TAKEN, f"the program doesn't take the state that was translated for {called}: nothing was made")
        standby.end()
    lines = list(replay_words.state_lines(texts, translation.told))
    stays = sum(line["kind"] == "stays" for line in lines)
    end = {"kind": "end", "journal": None, "events": state.events, "of_journal": state.events, "of_change": 0, "left_out": 0, "stays": stays}
    return replay.Outcome(lines, end), kept
