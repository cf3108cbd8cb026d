"""alarm-client metrics: what a server's state is, as a textfile for the node exporter of Prometheus."""
import os
import pathlib
import time

from . import client, copies_command, given_up, glance, journal, names, octets, site_command, values, words
from .client import NoAnswer, Refusal
from .words import CANNOT_OPEN, DONE, Ends
from .zone import MachineZone, datetime_of

# Where the kernel lists the sockets of UDP, with how many datagrams it dropped at each.
SOCKETS = os.path.join(os.sep, "proc", "net", "udp")
HOUR = 3600
# Each metric: its name behind alarm_server_, its type, and what it is.
METRICS = {
    "up": ("gauge", "1 where the server answers GetEventInformation, else 0"),
    "active_objects": ("gauge", "objects in each event state other than normal"),
    "unacknowledged_objects": ("gauge", "objects with a transition that nobody has acknowledged"),
    "oldest_unacknowledged_seconds": ("gauge", "for how long the oldest transition waits to be acknowledged, by the device's clock"),
    "log_records": ("gauge", "Total_Record_Count of each event log, which goes on over what the log drops"),
    "last_event_seconds": ("gauge", "how old the last event is that the journal, else the first log, has; below 0 it is ahead of the clock"),
    "journal_room_left_octets": ("gauge", "octets that are left in the area in use of the journal"),
    "given_up_last_hour": ("gauge", "notifications that were given up in the last hour, since their recipients didn't answer"),
    "newest_copy_seconds": ("gauge", "how old the newest copy of the journal is, by its name; left out where there is none"),
    "datagrams_lost_total": ("counter", "datagrams that the system lost at the server's socket, as the kernel counts them for each"),
    "scrape_timestamp_seconds": ("gauge", "when this was written"),
}


def add_command(commands):
    command = words.command_of(commands, "metrics", "writes the server's state for Prometheus", write_metrics)
    command.add_argument("--textfile", metavar="FILE", help="write to a file, which is replaced at once (standard output)")
    command.add_argument("--journal", metavar="JOURNAL", help="take the last event and the room left from the server's journal")
    command.add_argument("--given-up", action="store_true", help="tell how many notifications were given up in the last hour, by the journal's events, which are played to the program")
    command.add_argument("--program", metavar="PROGRAM", help="that program (ALARM_SERVER_PROGRAM, else the one that was built or installed beside this tool)")
    command.add_argument("--copies", metavar="FOLDER", help="tell how old the newest copy of the journal is that alarm-copies made there")
    command.add_argument("--site", metavar="SITE", help="take the clock of the device from its site's text (this machine's)")
    command.add_argument("--log", action="append", default=[], metavar="N", help="the instance of an event log; again for each (1)")
    client.add_words(command)
    command.add_argument("--json", action="store_true", help="as one line of JSON, to standard output")


def write_metrics(given):
    if given.given_up and not given.journal:
        raise Ends(words.USAGE, "--given-up wants --journal")
    rows = rows_of(given)
    if given.json:
        words.put(words.json_line({name + (f"{{{labels}}}" if labels else ""): value for name, labels, value in rows}))
        return DONE
    text = text_of(rows)
    if not given.textfile:
        print(text, end="")
        return DONE
    path = pathlib.Path(given.textfile)
    if not path.parent.is_dir():
        exporter = "install prometheus-node-exporter, or make it and have your collector read it"
        raise Ends(CANNOT_OPEN, f"there is no folder {path.parent}: {exporter}; of the service ALARM_METRICS_FILE names another file")
    beside = path.with_name(f".{path.name}.{os.getpid()}")
    try:
        beside.write_text(text, encoding="ascii")
        beside.chmod(0o644)
        os.replace(beside, path)
    except PermissionError:
        who = words.user_text()
        raise Ends(CANNOT_OPEN, f"{path.parent}: {who} may not write there: chgrp {who} {path.parent} && chmod g+w {path.parent}") from None
    except OSError as error:
        raise Ends(CANNOT_OPEN, f"{path}: {error.strerror}") from None
    return DONE


def text_of(rows):
    """The textfile of rows, each a name, labels and a value."""
    lines, told = [], None
    for name, labels, value in rows:
        if name != told:
            kind, what = METRICS[name]
            lines += [f"# HELP alarm_server_{name} {what}", f"# TYPE alarm_server_{name} {kind}"]
        told = name
        lines.append(f"alarm_server_{name}{f'{{{labels}}}' if labels else ''} {value:.15g}")
    return "".join(f"{line}\n" for line in lines)


def rows_of(given):
    """All that is known: where nobody answers, little is."""
    zone, now = zone_of(given.site), time.time()
    rows, last = [], None
    with client.client_of(given) as asked:
        try:
            rows += rows_of_alarms(asked.summaries(), zone, now)
            logs, last = rows_of_logs(asked, given.log, zone, now)
            rows = [("up", "", 1), *rows, *logs]
        except (NoAnswer, ValueError):
            rows = [("up", "", 0)]
        address = asked.address
    rows += rows_of_journal(given.journal) if given.journal else last or []
    rows += rows_of_given_up(given, now) if given.given_up else []
    rows += rows_of_copies(given.copies) if given.copies else []
    lost = datagrams_lost(address[1])
    rows += [] if lost is None else [("datagrams_lost_total", "", lost)]
    return [*rows, ("scrape_timestamp_seconds", "", round(now, 3))]


def zone_of(path):
    if not path:
        return MachineZone()
    with words.opened(path, "rb") as file:
        return glance.glance(file.read()).zone


def seconds_since(stamp, zone, now):
    """How many seconds ago the device's clock showed a stamp."""
    return now - zone.moment(datetime_of(stamp)) / 1000


def rows_of_alarms(summaries, zone, now):
    states = {state: 0 for state in names.STATES.values() if state != "normal"}
    for row in summaries:
        if row.state != octets.NORMAL:
            states[names.named(names.STATES, row.state)] += 1
    waiting = [stamp for row in summaries for done, stamp in zip(row.acknowledged, row.stamps) if not done and stamp != values.NEVER]
    yield from (("active_objects", f'state="{state}"', count) for state, count in states.items())
    yield "unacknowledged_objects", "", sum(not all(row.acknowledged) for row in summaries)
    yield "oldest_unacknowledged_seconds", "", max((seconds_since(it, zone, now) for it in waiting), default=0)


def rows_of_logs(asked, logs, zone, now):
    """The totals of logs, and when the first one's last record came. A log that isn't there is left out."""
    rows, last = [], None
    for number in logs or ["1"]:
        of = names.object_from(f"event-log:{number}")
        try:
            total = asked.number(of, octets.TOTAL_RECORD_COUNT)
        except Refusal:
            continue
        rows.append(("log_records", f'log="{names.object_text(of)}"', total))
        if total and last is None:
            found = asked.answered(lambda invoke: octets.read_range(invoke, of, total, -1), octets.range_read).records
            last = [("last_event_seconds", "", seconds_since(stamp, zone, now)) for _, stamp, _ in found[-1:]]
    return rows, last


def rows_of_journal(path):
    """How old the last event of a journal is, and what room is left in it."""
    try:
        with journal.Journal(path) as it:
            if it.header.blank:
                return []
            area = it.settled()
            left = it.header.area_octets - len(area.octets)
    except OSError as error:
        raise Ends(CANNOT_OPEN, f"{path}: {error.strerror}") from None
    except journal.NoJournal as fault:
        raise Ends(CANNOT_OPEN, f"{path}: {fault}") from None
    last = journal.last_of(area)
    rows = [] if last is None else [("last_event_seconds", "", time.time() - last / 1000)]
    return [*rows, ("journal_room_left_octets", "", left)]


def rows_of_given_up(given, now):
    """How many notifications were given up in the last hour. Where it can't be told that is said, and the rest is written."""
    program = site_command.program_of(given)
    try:
        if program is None:
            raise Ends(CANNOT_OPEN, "there is no program that tells what was given up: build or install it, or name it by --program")
        return [("given_up_last_hour", "", given_up.since(program, given.journal, int(1000 * (now - HOUR))))]
    except (OSError, journal.NoJournal, Ends) as fault:
        words.say(f"alarm-client: {given.journal}: {getattr(fault, 'strerror', None) or fault}")
        return []


def rows_of_copies(folder):
    """How old the newest copy in a folder is, where there is one."""
    try:
        copies = copies_command.copies_in(pathlib.Path(folder))
    except OSError:
        return []
    return [("newest_copy_seconds", "", copies_command.age_of(it)) for it in copies[:1]]


def datagrams_lost(port):
    """How many datagrams the system lost at the sockets of a port of this machine, or None where it has none."""
    try:
        with open(SOCKETS, encoding="ascii") as file:
            rows = [line.split() for line in file][1:]
    except OSError:
        return None
    drops = [int(row[-1]) for row in rows if int(row[1].split(":")[1], 16) == port]
    return sum(drops) if drops else None
