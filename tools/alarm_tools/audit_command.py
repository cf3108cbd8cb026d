"""alarm-report audit: what people did by the tools, of the lines that these keep."""
import datetime
import json
import sys

from . import language, words
from .language import say
from .words import DONE, USAGE, Ends
from .zone import MachineZone, moment_from

UNREADABLE = 4
WHAT = """\
Tells what people did by the tools, of the lines of JSON that alarm-client and alarm-console keep (--audit): who acknowledged, wrote,
edited recipients, shelved and brought back, when, from where, and what the server said to it. Without a FILE it reads standard input, as
of journalctl -t alarm-audit -o cat. It is the tools' record, and not the device's: whoever asks the server otherwise isn't in it."""
STATUSES = [
    (0, "all lines were told"), (1, "a file can't be opened"), (2, "the words are none that it knows"), (4, "a line is none of a record: it is told on standard error, and the others are told"),
]
EXAMPLES = [
    ("alarm-report audit record --since 7d --object \"Oxygen pressure\"", "who acknowledged this alarm in a week"),
    ("journalctl -t alarm-audit -o cat | alarm-report audit", "what the system's log has"),
]
HEAD = ("TIME", "BY", "FROM", "DID", "OBJECT", "WHAT", "ANSWER")


def parser():
    made = words.parser_of("alarm-report audit", WHAT, STATUSES, EXAMPLES)
    made.add_argument("files", metavar="FILE", nargs="*", help="files; standard input without one")
    made.add_argument("--since", metavar="MOMENT", help="from a moment on: 2024-01-13T02:30 by this machine's clock, or 90m, 12h, 7d ago")
    made.add_argument("--object", metavar="OBJECT", help="of one object alone: KIND:INSTANCE, or its name")
    made.add_argument("--by", metavar="NAME", help="of one person alone")
    made.add_argument("--act", metavar="ACT", help="of one act alone, as acknowledge, write or shelve")
    made.add_argument("--json", action="store_true", help="the lines as they are")
    language.add_words(made)
    made.set_defaults(call=tell)
    return made


def told_of(line):
    """What a line tells. One that is none of a record is a ValueError."""
    told = json.loads(line)
    if not isinstance(told, dict) or not all(isinstance(told.get(key), str) for key in ("time", "tool", "act", "by")):
        raise ValueError("it has no time, tool, act and by")
    return told | {"moment": datetime.datetime.fromisoformat(told["time"]).timestamp()}


def lines_of(paths):
    """All lines, each with where it stands."""
    for path in paths or ["-"]:
        file = sys.stdin if path == "-" else words.opened(path, encoding="utf-8", errors="replace")
        for number, line in enumerate(file, 1):
            if line.strip():
                yield f"{'standard input' if path == '-' else path}:{number}", line


def read(paths):
    """What the lines tell, and how many are none."""
    found, bad = [], 0
    for where, line in lines_of(paths):
        try:
            found.append(told_of(line))
        except (ValueError, TypeError) as error:
            bad += 1
            print(f"alarm-report audit: {where}: {str(error)[:80]}: {line.strip()[:60]!r}", file=sys.stderr)
    return found, bad


def is_wanted(given, since, told):
    called = (told.get("object"), (told.get("name") or "").casefold())
    return (
        (since is None or told["moment"] >= since) and (given.object is None or given.object == called[0] or given.object.casefold() == called[1])
        and given.by in (None, told["by"]) and given.act in (None, told["act"])
    )


def what_of(told):
    """What was done, beside to which object."""
    if "transition" in told:
        return f"{say(told['transition'])} {told.get('stamp') or ''}".strip()
    if "property" in told:
        return f"{told['property']} = {told.get('value')}"
    if "recipients" in told:
        return ", ".join(str(it.get("address")) for it in told["recipients"])
    return " ".join(f"{key} {told[key]}" for key in ("until", "why", "shelved_by") if told.get(key))


def row_of(told):
    of = told.get("object") or ""
    return [told["time"][:19].replace("T", " "), told["by"], told.get("address", ""), told["act"], words.named(of, told.get("name")), what_of(told), told.get("answer", "")]


def tell(given):
    try:
        since = None if given.since is None else moment_from(given.since, MachineZone()) / 1000
    except ValueError as error:
        raise Ends(USAGE, str(error)) from None
    found, bad = read(given.files)
    found = sorted((it for it in found if is_wanted(given, since, it)), key=lambda it: it["moment"])
    if given.json:
        for told in found:
            words.put(words.json_line({key: it for key, it in told.items() if key != "moment"}))
    else:
        for line in words.table(list(map(say, HEAD)), list(map(row_of, found))) if found else [say("there is no record of it")]:
            print(line)
    return UNREADABLE if bad else DONE
