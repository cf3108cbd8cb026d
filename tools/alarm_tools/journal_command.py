"""alarm-journal: what a journal holds, events as lines, a check, a copy of a journal in use, and the site's text that it was made for."""
import os
import pathlib
import sys
import time

from . import finding, given_up, glance, journal, names, plan, replay_command, same, site_command, site_text, words
from .journal import NoJournal
from .words import CANNOT_OPEN, DONE, Ends
from .zone import moment_from

REFUSED, BUSY, AHEAD = 8, 75, 9
WHAT = """\
Reads a journal of the alarm server. It never writes to it, and a server or a session may run on it meanwhile: what it
tells is as the journal stood at one moment. What replay, archive and copy make are files of their own.

A journal holds the events since its last snapshot, and those before it as long as the area that isn't in use still has them."""
STATUSES = [
    (0, "done"),
    (1, "a file can't be opened, or a copy can't be written"),
    (2, "the words are none that it knows"),
    (3, "replay: SITE is no site"),
    (4, "replay: done, and some of it was left out, or stays as it was written"),
    (8, "it is no journal, or what stands in it can't be there: the text names the octet. replay: its first events are gone. archive: events are missing"),
    (9, "show --limit: the last event is further ahead of the clock. replay: the old text didn't make the old journal again"),
    (10, "same: the two have parted; the text names the first event that differs"),
    (11, "same: the two have different texts of the site"),
    (12, "same: it can't be told, since they share no record"),
    (75, "the journal changed each time while it was read: try again"),
]
EXAMPLES = [
    ("alarm-journal show journal", "the number of events, the last one against the clock, and what room is left"),
    ("alarm-journal events journal --since 12h --object integer-value:1", "what happened to an object in the last twelve hours"),
    ("alarm-journal events journal --given-up --text", "whom the server gave up, when, and how many notifications each time"),
    ("alarm-journal copy journal backup", "a copy, also while the server runs"),
    ("alarm-journal same journal standby", "whether two journals are of one history, or where they part"),
    ("alarm-journal site journal > the-text-of-it.toml", "the site's text that it was made for"),
    ("alarm-journal replay journal changed.toml new-journal --dry-run", "what a changed text of the site would change"),
    ("alarm-journal archive journal archive", "appends what is new to a file that has all events"),
    ("alarm-journal show --limit 60 journal", "before a start: ends with 9 where the last event is over a minute ahead"),
]
UNTIL_THEN = "until the clock has passed it no delay passes and nothing is sent again"
# What `check` doesn't look at.
LEFT = (
    "not looked at: the snapshot behind its first 17 octets, whether each event may follow on those before it, and what the disk "
    "keeps. A session with an empty script on a copy looks at all of it."
)


def parser():
    made = words.parser_of("alarm-journal", WHAT, STATUSES, EXAMPLES)
    commands = made.add_subparsers(metavar="COMMAND", required=True)
    show = words.command_of(commands, "show", "tells what a journal has", show_journal)
    show.add_argument("--limit", type=float, metavar="SECONDS", help="end with 9 where the last event is further ahead of the clock")
    events = words.command_of(commands, "events", "writes each event as a line of JSON", show_events)
    events.add_argument("--since", metavar="MOMENT", help="from a moment on: 2024-01-13T02:30 by the site's clock, or 90m, 12h, 3d ago")
    events.add_argument("--object", metavar="OBJECT", help="of one object alone: KIND:INSTANCE, or its name")
    events.add_argument("--given-up", action="store_true", help="only those by which notifications were given up")
    events.add_argument("--text", action="store_true", help="as text for people in place of JSON")
    events.add_argument("--program", metavar="PROGRAM", help="the program to which the events are played, so that each pump tells what it gave up "
                        "(ALARM_SERVER_PROGRAM, else the one that was built or installed beside this tool); none: that isn't told")
    check = words.command_of(commands, "check", "looks at each record by its grammar", check_journal)
    copy = words.command_of(commands, "copy", "copies a journal, also one in use", copy_journal)
    site = words.command_of(commands, "site", "writes the site's text that a journal was made for", show_site)
    for command in (show, events, check, copy, site):
        command.add_argument("journal", metavar="JOURNAL")
    copy.add_argument("copy", metavar="COPY", help="a file that isn't there yet")
    replay_command.add_replay(commands)
    replay_command.add_archive(commands)
    for command in (show, check, copy):
        command.add_argument("--json", action="store_true", help="as one line of JSON")
    same.add_commands(commands, opened)
    return made


class opened:
    """A journal in a block, whose faults end the tool. A blank one is a fault where `blank` says so."""

    def __init__(self, path, blank=False):
        self.path, self.takes_blank = path, blank

    def __enter__(self):
        try:
            self.journal = journal.Journal(self.path)
        except OSError as error:
            raise Ends(CANNOT_OPEN, f"{self.path}: {error.strerror}") from None
        except NoJournal as fault:
            raise Ends(REFUSED, f"{self.path}: {fault}") from None
        if self.journal.header.blank and not self.takes_blank:
            self.journal.file.close()
            raise Ends(REFUSED, f"{self.path}: it is blank: nothing was kept in it yet")
        return self.journal

    def __exit__(self, _, fault, __):
        self.journal.file.close()
        if isinstance(fault, NoJournal):
            raise Ends(BUSY if "while they were read" in str(fault) else REFUSED, f"{self.path}: {fault}") from None


# show


def told_of(it, older, area):
    """What `show` tells of a journal, by name."""
    view = glance.glance(it.header.text)
    events, last = journal.events_in(area), journal.last_of(area)
    return view, {
        "journal": it.path, "octets": it.size, "device": view.device, "name": view.names.get((8, view.device)),
        "text_octets": len(it.header.text), "events": events, "area": "AB"[area.number],
        "snapshot_events": area.snapshot.events, "snapshot_octets": area.snapshot.length, "records": events - area.snapshot.events,
        "first_record": first_record(older, area), "whole": is_whole(older, area), "area_octets": it.header.area_octets, "room_left": it.header.area_octets - len(area.octets), "last_moment": last,
        "last_time": None if last is None else view.zone.text(last), "seconds_ahead": None if last is None else round(last / 1000 - time.time(), 3),
    }


def first_record(older, area):
    """The number of the first event that a record tells, or None where none does."""
    first = (older or area).snapshot.events + 1
    return first if first <= journal.events_in(area) else None


def is_whole(older, area):
    """Whether the journal has the record of each event, from the first one on."""
    return (older or area).snapshot.events == 0 and (older is None or journal.events_in(older) == area.snapshot.events)


def show_journal(given):
    with opened(given.journal, blank=True) as it:
        if it.header.blank:
            words.put(words.json_line({"journal": given.journal, "octets": it.size, "blank": True}) if given.json else
                      f"{given.journal}: {words.octets_text(it.size)}, blank: nothing was kept in it yet")
            return DONE
        view, told = told_of(it, *it.history())
    if given.json:
        words.put(words.json_line(told))
    else:
        print("\n".join(lines_of(told, view)))
    ahead = told["seconds_ahead"]
    if given.limit is not None and ahead is not None and ahead > given.limit:
        raise Ends(AHEAD, f"the last event is {words.length_text(ahead)} ahead of the clock: {UNTIL_THEN}")
    return DONE


def lines_of(told, view):
    """What `show` tells, for people."""
    of_site = words.named(f"device:{told['device']}", told["name"]) if told["device"] is not None else "a text that isn't read here"
    yield f"{told['journal']}: a journal of {words.octets_text(told['octets'])}"
    yield f"site        {of_site}, a text of {told['text_octets']:,} octets"
    before = f"{told['snapshot_events']:,} in a snapshot of {words.octets_text(told['snapshot_octets'])}, " if told["snapshot_octets"] else ""
    yield f"events      {told['events']:,}: {before}{told['records']:,} behind it" if before else f"events      {told['events']:,}, and no snapshot yet"
    yield whole_text(told)
    yield f"room left   {told['room_left']:,} of the {told['area_octets']:,} octets of area {told['area']}; when it is full, a snapshot goes into the other one"
    if told["last_moment"] is None:
        yield "last event  none"
        return
    ahead = told["seconds_ahead"]
    against = f"{words.length_text(-ahead)} ago" if ahead <= 0 else words.coloured(f"{words.length_text(ahead)} AHEAD of the clock", "red")
    yield f"last event  {view.zone.text(told['last_moment'])}, {against}"


def whole_text(told):
    """Whether the journal is its whole history, for people."""
    if told["whole"]:
        return "whole       yes: each event has its record"
    first = "no event has" if told["first_record"] is None else f"only those from event {told['first_record']:,} on have"
    return f"whole       no: {first} a record, and what came before is in a snapshot alone"


# events


def show_events(given):
    program = program_asked(given)
    if replay_command.is_archive(given.journal):
        text, rows = replay_command.archived(given.journal)
    else:
        text, rows = kept_events(given.journal)
    view = glance.glance(text)
    wanted = None if given.object is None else object_wanted(given.object, view)
    since = since_of(given.since, view)
    told = given_up.Told(program, text)
    for row, found in told.over(rows) if program else ((row, []) for row in rows):
        record = row.record
        if (since is None or record.moment >= since) and (wanted is None or record.fields.get("object") == wanted) and (found or not given.given_up):
            event = event_of(row.number, record, view) | given_up_of(found)
            words.put(event_text(event) if given.text else words.json_line(event))
    if told.fault:
        words.say(f"alarm-journal: what was given up isn't told: {told.fault}")
        return CANNOT_OPEN if given.given_up else DONE
    return DONE


def program_asked(given):
    """The program, without which it isn't told what was given up; where that alone is asked for it has to be there."""
    program = site_command.program_of(given)
    if program is None and given.given_up:
        raise Ends(CANNOT_OPEN, "there is no program, and only it says what was given up: build or install it, or name it by --program")
    return program


def given_up_of(found):
    """What a pump gave up, as a line of JSON has it."""
    return {"given_up": [{"peer": one.peer, "notifications": one.count} for one in found]} if found else {}


def kept_events(path):
    """The text of a journal, and each event that a record tells, as a row."""
    with opened(path) as it:
        older, area = it.history()
        text = it.header.text
    if older:
        tell_gap(journal.events_in(older) + 1, area.snapshot.events)
    return text, rows_of(older, area, path)


def tell_gap(first, last):
    """Says which events stand in the snapshot alone, since the area before had no room for their batch."""
    if first <= last:
        which = f"event {first}" + (f" to {last}" if first < last else "")
        print(f"alarm-journal: {which} came with a snapshot: what it did is in the state, and no record tells it", file=sys.stderr)


def object_wanted(text, view):
    """The object of a word: KIND:INSTANCE, or a name of the journal's own site."""
    try:
        return names.object_from(text)
    except ValueError:
        try:
            return finding.named_in(text, view.names)
        except ValueError as error:
            raise Ends(words.USAGE, str(error)) from None


def since_of(text, view):
    try:
        return None if text is None else moment_from(text, view.zone)
    except ValueError as error:
        raise Ends(words.USAGE, str(error)) from None


def rows_of(older, area, path):
    try:
        yield from given_up.rows_of_journal(older, area)
    except NoJournal as fault:
        raise Ends(REFUSED, f"{path}: {fault}") from None


def event_of(number, record, view):
    """An event by names, as a line of JSON has it."""
    event = {"event": number, "moment": record.moment, "time": view.zone.text(record.moment), "act": journal.ACTS[record.act]}
    fields = dict(record.fields)
    if "object" in fields:
        of = fields.pop("object")
        event |= {"object": names.object_text(of), "name": view.names.get(of)}
    if "property" in fields:
        tag, value = fields.pop("value")
        event |= {"property": names.named(names.PROPERTIES, fields.pop("property")), "value": value_text(record.fields["object"], tag, value)}
    if "reliability" in fields:
        fields["reliability"] = names.named(names.RELIABILITIES, fields["reliability"])
    if "transition" in fields:
        fields |= {"transition": names.TRANSITIONS[fields["transition"]], "state": names.STATES[fields["state"]]}
    if "answer" in fields:
        fields["answer"] = names.named(journal.PDUS, fields["answer"])
    if "class" in fields:
        event["name"] = view.names.get((15, fields["class"]))
    return event | fields


def value_text(of, tag, value):
    """A value as the tools write it: a binary one by its name."""
    return ("inactive", "active")[value] if tag == 9 and of[0] == names.OBJECT_NUMBERS["binary-value"] and value in (0, 1) else value


def event_text(event):
    """An event in words."""
    head = f"{event['event']:>8}  {event['time'][:23].replace('T', ' ')}  {event['act']:<16}"
    rest = [words.named(event["object"], event["name"])] if "object" in event else []
    if event["act"] == "edit":
        rest = [words.named(f"notification-class:{event['class']}", event["name"]), f"{len(event['recipients'])} recipients"]
    if "property" in event:
        rest += [event["property"], "=", str(event["value"])]
    rest += [str(event[key]) for key in ("reliability", "transition", "state", "peer", "answer") if key in event]
    rest += [", ".join(f"gave up {plan.counted(it['notifications'], 'notification')} to {it['peer']}" for it in event.get("given_up", []))]
    return words.printable(f"{head}{' '.join(rest)}".rstrip())


# check


def check_journal(given):
    with opened(given.journal) as it:
        need = need_of(it.header.text)
        area = it.settled()
        if need and it.header.size < need:
            raise NoJournal(f"it was formatted with {it.header.size} octets, and this site wants {need}", 9)
        counts = {}
        for record in journal.records_in(area):
            counts[journal.ACTS[record.act]] = counts.get(journal.ACTS[record.act], 0) + 1
        version = 2 if isinstance(glance.glance(it.header.text).tables.get("device", {}).get("zone_rule"), str) else 1
        if area.snapshot.length and area.snapshot.version != version:
            raise NoJournal(f"a snapshot of version {area.snapshot.version}, and this site's have {version}", area.snapshot.place)
    batches = sum(1 for _ in journal.batches_in(area))
    told = {"journal": given.journal, "events": area.snapshot.events + sum(counts.values()), "batches": batches, "acts": counts, "need": need}
    if given.json:
        words.put(words.json_line(told))
        return DONE
    acts = ", ".join(f"{count:,} {act}" for act, count in sorted(counts.items())) or "none"
    print(f"{given.journal}: no fault found; {told['events']:,} events")
    print(f"looked at: the header, the site's text, the head of the snapshot, {batches:,} batches, and each record in them: {acts}")
    print(LEFT)
    return DONE


def need_of(text):
    """How many octets the program wants of a journal of this text, where it is read here."""
    try:
        return site_text.need(site_text.read(text), len(text))
    except ValueError:
        return None


# copy


def copy_journal(given):
    made = pathlib.Path(given.copy)
    if made.exists() or made.is_symlink():
        raise Ends(CANNOT_OPEN, f"{made} is there already, and stays as it is")
    with opened(given.journal) as it:
        area = it.settled()
        sync(it)
        events = journal.events_in(area)
        write_copy(made, journal.copy_octets(it, area))
        size, view = it.header.size, glance.glance(it.header.text)
    told = {"copy": given.copy, "events": events, "octets": size, "area": "AB"[area.number]}
    words.put(words.json_line(told) if given.json else f"{given.copy}: {events:,} events, {words.octets_text(size)}{of_device(view)}")
    return DONE


def sync(it):
    """Waits until what was read is on the journal's disk too: a copy has no event that a crash of the machine may take from the journal."""
    try:
        os.fdatasync(it.file.fileno())
    except OSError as error:
        raise Ends(CANNOT_OPEN, f"{it.path}: {error.strerror}") from None


def of_device(view):
    return "" if view.device is None else f", of {words.named(f'device:{view.device}', view.names.get((8, view.device)))}"


def write_copy(made, parts):
    """Writes a file beside its place, synced, and only then gives it its name, which must not be there."""
    beside = made.with_name(f".{made.name}.{os.getpid()}")
    try:
        with open(os.open(beside, os.O_WRONLY | os.O_CREAT | os.O_EXCL, 0o600), "wb") as file:
            for part in parts:
                file.write(part)
            file.flush()
            os.fsync(file.fileno())
        os.link(beside, made)
        folder = os.open(made.parent, os.O_RDONLY)
        os.fsync(folder)
        os.close(folder)
    except OSError as error:
        raise Ends(CANNOT_OPEN, f"{made}: {error.strerror}") from None
    finally:
        beside.unlink(missing_ok=True)


# site


def show_site(given):
    with opened(given.journal) as it:
        sys.stdout.buffer.write(it.header.text)
        sys.stdout.buffer.flush()
    return DONE


def main():
    return words.run(parser())
