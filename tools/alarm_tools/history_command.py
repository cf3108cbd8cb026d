"""alarm-history: what event logs tell of any days, as a table of text, as CSV, as a page and as a picture of the states."""
import csv
import datetime
import html
import io
import json
import pathlib
import sys

from . import client, drawing, glance, history_archive, names, octets, report, site_command, values, words
from .words import CANNOT_OPEN, DONE, USAGE, Ends
from .zone import MachineZone, moment_from

UNREADABLE = 5
COLUMNS = ("time", "object", "name", "from", "to", "notify", "values", "priority", "class", "text", "log", "number")
WHAT = """\
Tells what came of alarms in any days: from archives of `alarm-journal archive`, from files of lines that `alarm-client follow` wrote, one
or many and also with records that stand in several, or with --log from the logs of a server themselves, as far as they reach back. Without
a file and without --log it reads lines from standard input. Times are those of the device's clock.

An archive has all events, and the program plays them once more: so its history has each alarm of each class, also where no log was kept or
a log has dropped it. A journal that is whole is read so too, also while a server runs on it.

Without another word it prints a table. --csv, --page and --svg write files: the records, a page with them and with a picture of each
object's states, and that picture alone. An object's state before its first record is the one from which this record came."""
STATUSES = [
    (0, "it was told"),
    (1, "a file can't be opened or written"),
    (2, "the words are none that it knows"),
    (3, "nobody answers"),
    (4, "the answer is an Error, a Reject or an Abort, which is told"),
    (5, "a line is none of a log, or an answer can't be read"),
    (8, "a journal or an archive can't be played, as where its first events are gone"),
]
EXAMPLES = [
    ("alarm-history --log 1 --since 2026-11-30 --until 2026-12-01 --page night.html", "a page of one day, from the server's log"),
    ("alarm-history --csv year.csv alarms-2026-*.jsonl", "a table of all that was followed"),
    ("alarm-history --since 2026-03-01 --until 2026-04-01 --page march.html archive", "a page of a month, from an archive"),
    ("alarm-history --since 7d --object integer-value:1 --svg week.svg alarms.jsonl", "the states of an object in the last week"),
]


def parser():
    made = words.parser_of("alarm-history", WHAT, STATUSES, EXAMPLES)
    made.add_argument("files", nargs="*", metavar="FILE", help="an archive, a journal that is whole, or lines that alarm-client follow wrote")
    made.add_argument("--log", action="append", default=[], metavar="N", help="read the server's event log of this instance; again for further ones")
    made.add_argument("--since", metavar="MOMENT", help="from a moment on: 2024-01-13 or 2024-01-13T02:30 by the device's clock, or 90m, 12h, 3d ago")
    made.add_argument("--until", metavar="MOMENT", help="before a moment")
    made.add_argument("--object", action="append", default=[], metavar="KIND:INSTANCE", help="of this object alone; again for further ones")
    made.add_argument("--site", metavar="SITE", help="take names and the clock of the device from its site's text (those of the first archive, else this machine's clock)")
    for name, what in [("csv", "write the records as CSV; - is standard output"), ("page", "write a page for a browser"), ("svg", "write a picture of the states")]:
        made.add_argument(f"--{name}", metavar="FILE", help=what)
    made.add_argument("--json", action="store_true", help="print the records as lines of JSON in place of a table")
    made.add_argument("--program", metavar="PROGRAM", help="the program that plays an archive (ALARM_SERVER_PROGRAM, else the one that was built or installed beside this tool)")
    client.add_words(made)
    made.set_defaults(call=tell)
    return made


# Where records come from.


def lines_in(file, called):
    """The records of lines of JSON."""
    for number, line in enumerate(file, 1):
        if not line.strip():
            continue
        try:
            record = json.loads(line)
            values_of_stamp(record["time"])
            good = isinstance(record["object"], str) and record["to"] in names.STATES.values()
        except (ValueError, KeyError, TypeError):
            good = False
        if not good:
            raise Ends(UNREADABLE, f"{called}: line {number} is none that alarm-client follow writes: {line.strip()[:80]!r}")
        yield record


def values_of_stamp(text):
    """The date and time of a record's stamp, without a zone."""
    return datetime.datetime.fromisoformat(text)


def records_of_log(asked, number):
    """All records that a server's log has, the oldest first."""
    try:
        of = names.object_from(number if ":" in number else f"event-log:{number}")
    except ValueError as error:
        raise Ends(USAGE, str(error)) from None
    total, count = asked.number(of, octets.TOTAL_RECORD_COUNT), asked.number(of, names.PROPERTY_NUMBERS["record-count"])
    at = total - count + 1
    while at <= total:
        found = asked.answered(lambda invoke: octets.read_range(invoke, of, at, 50), octets.range_read).records
        if not found:
            return
        for place, stamp, note in found:
            yield {"log": names.object_text(of), "number": place, **history_archive.record_of(stamp, note, asked.name(note.object))}
        at = found[-1][0] + 1


def histories_of(given):
    """The archives and journals among the files, each with the program that plays it, by their paths."""
    paths = [it for it in given.files if history_archive.is_history(it)]
    program = site_command.program_of(given) if paths else None
    if paths and program is None:
        raise Ends(CANNOT_OPEN, "there is no program, which plays an archive: build or install it, or name it by --program")
    return {path: history_archive.Played(program, path) for path in paths}


def records_of(given, histories):
    """All records, each once, in the order of their times."""
    found = [record for it in histories.values() for record in it.records()]
    if given.log:
        with client.client_of(given) as asked:
            for number in given.log:
                found += records_of_log(asked, number)
    for path in (it for it in given.files if it not in histories):
        with words.opened(path, encoding="utf-8", errors="replace") as file:
            found += lines_in(file, path)
    if not given.log and not given.files:
        found += lines_in(sys.stdin, "standard input")
    once = {(it["time"], it["object"], it.get("from"), it["to"], it.get("notify")): it for it in found}
    return sorted(once.values(), key=lambda it: (it["time"], it.get("number") or 0))


def bound_of(text, zone, name):
    """The stamp of a moment, as records have theirs."""
    if text is None:
        return None
    try:
        return zone.shown(moment_from(text, zone))
    except ValueError as error:
        raise Ends(USAGE, f"--{name}: {error}") from None


# What is told.


def value_text(record):
    return ", ".join(f"{key} {values.event_value_text(it)}" for key, it in record.get("values", {}).items() if key != "flags" and it not in (None, []))


def row_of(record):
    return [value_text(record) if key == "values" else record.get(key, "") for key in COLUMNS]


def csv_of(found):
    """The records as CSV; a cell that a table would take for a formula begins with a quote."""
    file = io.StringIO()
    writer = csv.writer(file)
    writer.writerow(COLUMNS)
    for record in found:
        writer.writerow([f"'{cell}" if isinstance(cell, str) and cell[:1] in ("=", "+", "-", "@", "\t") else cell for cell in row_of(record)])
    return file.getvalue()


def states_of(found, zone):
    """The changes of each object, and the first and the last moment."""
    changes = {}
    for record in found:
        if record.get("notify") != "ack-notification":
            moment = zone.moment(values_of_stamp(record["time"]))
            changes.setdefault(record["object"], []).append(report.Change(moment, record.get("from", "normal"), record["to"]))
    return changes


def picture_of(found, zone, bounds):
    changes = states_of(found, zone)
    called = {it["object"]: words.named(it["object"], it.get("name")) for it in found}
    moments = [it.moment for its in changes.values() for it in its]
    begin = zone.moment(values_of_stamp(bounds[0])) if bounds[0] else min(moments)
    end = zone.moment(values_of_stamp(bounds[1])) if bounds[1] else max(moments) + max(1000, (max(moments) - begin) // 50)
    return drawing.picture(changes, (begin, end), zone, lambda of: called[of])


def page_of(found, zone, bounds):
    """A page that needs nothing else: the picture, and below it a table of the records."""
    e = lambda text: html.escape(words.printable(str(text)))
    title = f"Alarms, {bounds[0] or (found[0]['time'][:19] if found else 'no record')} to {bounds[1] or (found[-1]['time'][:19] if found else '')}"
    head = "".join(f"<th>{e(key)}</th>" for key in COLUMNS)
    rows = "\n".join("<tr>" + "".join(f"<td>{e(cell)}</td>" for cell in row_of(record)) + "</tr>" for record in found)
    style = "body{font:15px system-ui,sans-serif;margin:2rem;color:#1d2b33}table{border-collapse:collapse}td,th{border:1px solid #c9d3d8;padding:.3rem .6rem;text-align:left}th{background:#eef2f4}"
    picture = picture_of(found, zone, bounds) if found else "<p>There is no record.</p>"
    return (
        f'<!DOCTYPE html>\n<html lang="en"><head><meta charset="utf-8"><title>{e(title)}</title><style>{style}</style></head>\n<body><h1>{e(title)}</h1>\n'
        f"<p>{len(found)} records. Times are those of the device's clock.</p>\n{picture}\n<table><thead><tr>{head}</tr></thead><tbody>\n{rows}\n</tbody></table></body></html>\n"
    )


def write(path, text):
    if path == "-":
        sys.stdout.write(text)
        return
    try:
        pathlib.Path(path).write_text(text, encoding="utf-8", newline="")
    except OSError as error:
        raise Ends(CANNOT_OPEN, f"{path}: {error.strerror}") from None


def view_of(given, histories):
    """Names and the clock: of the site's text that is given, else of the first archive, else none."""
    if given.site:
        with words.opened(given.site, "rb") as file:
            return glance.glance(file.read())
    return next((it.view for it in histories.values()), None)


def tell(given):
    histories = histories_of(given)
    view = view_of(given, histories)
    zone = view.zone if view else MachineZone()
    bounds = bound_of(given.since, zone, "since"), bound_of(given.until, zone, "until")
    try:
        objects = {names.object_text(names.object_from(it)) for it in given.object}
    except ValueError as error:
        raise Ends(USAGE, str(error)) from None
    found = [it for it in records_of(given, histories) if not objects or it["object"] in objects]
    found = [it for it in found if (bounds[0] is None or it["time"] >= bounds[0]) and (bounds[1] is None or it["time"] < bounds[1])]
    if view:
        found = [it | {"name": it.get("name") or view.names.get(names.object_from(it["object"]))} for it in found]
    if given.svg and not found:
        raise Ends(CANNOT_OPEN, f"{given.svg}: there is no record, so there is nothing to draw")
    for path, make in [(given.csv, csv_of), (given.page, lambda it: page_of(it, zone, bounds)), (given.svg, lambda it: picture_of(it, zone, bounds))]:
        if path:
            write(path, make(found))
    if given.json:
        for record in found:
            words.put(words.json_line(record))
    elif not (given.csv or given.page or given.svg):
        rows = [[it["time"][:19], words.named(it["object"], it.get("name")), it.get("from", ""), it["to"], value_text(it), it.get("text", "")] for it in found]
        print("\n".join(words.table(["TIME", "OBJECT", "FROM", "TO", "VALUES", "TEXT"], rows)) if rows else "there is no record")
    return DONE


def main():
    return words.run(parser())
