"""alarm-report: a session's report in words, with its datagrams decoded and a timeline of states, as text or as a picture."""
import pathlib
import sys

from . import archive, audit_command, drawing, glance, names, replay_report, report, site_command, words
from .words import CANNOT_OPEN, DONE, Ends
from .zone import Zone

UNREADABLE = 4
WHAT = """\
Tells a session's report in words: dates in place of moments, names beside numbers, datagrams decoded, and below it a
timeline of the states of each object that changed. With --script each line of the script stands beside what came of it.

alarm-report audit tells another record: what people did by the tools (alarm-report audit --help)."""
STATUSES = [
    (0, "the whole report was told"),
    (1, "a file can't be opened or written"),
    (2, "the words are none that it knows"),
    (4, "a line is none of a report: those before it were told"),
]
EXAMPLES = [
    ("alarm-server session site.toml journal < lines | alarm-report --site site.toml", "a session in words"),
    ("alarm-report --site site.toml --script lines --svg states.svg report", "with what each line said, and a picture of the states"),
    ("alarm-report --brief archive", "an archive of alarm-journal, whose events are played once more"),
]


def parser():
    made = words.parser_of("alarm-report", WHAT, STATUSES, EXAMPLES)
    made.add_argument("report", metavar="REPORT", nargs="?", default="-", help="a file, which may be an archive of alarm-journal; standard input without it")
    made.add_argument("--site", metavar="SITE", help="take names and the clock from a site's text (UTC, and no names)")
    made.add_argument("--script", metavar="SCRIPT", help="the script that was played")
    made.add_argument("--svg", metavar="FILE", help="draw the timeline into a file")
    made.add_argument("--width", type=int, default=100, metavar="COLUMNS", help="of the timeline as text; 0 leaves it out (%(default)s)")
    made.add_argument("--brief", action="store_true", help="leave out lines that moved, sent and refused nothing")
    made.add_argument("--json", action="store_true", help="a line of JSON for each line of the report, and no timeline")
    made.add_argument("--program", metavar="PROGRAM", help="the program that plays an archive (ALARM_SERVER_PROGRAM, else the one that was built or installed beside this tool)")
    made.set_defaults(call=tell)
    return made


class Teller:
    """Names and the clock, for what is told."""

    def __init__(self, given):
        self.names, self.zone = {}, Zone()
        if given.site:
            with words.opened(given.site, "rb") as file:
                view = glance.glance(file.read())
            self.names, self.zone = view.names, view.zone
        self.script = {}
        if given.script:
            with words.opened(given.script, encoding="utf-8", errors="replace") as file:
                self.script = report.script_lines(file)

    def called(self, text):
        """An object with its name."""
        try:
            return words.named(text, self.names.get(names.object_from(text)))
        except ValueError:
            return text

    def said(self, number):
        """What the script's line said: values in words, datagrams by their length."""
        _, parts = self.script.get(number, (None, None))
        if not parts:
            return ""
        if parts[0] == "from" and len(parts) == 4:
            return f"{parts[0]} {parts[2]}, {len(parts[3]) // 2} octets"
        if parts[0] in ("set", "fault") and len(parts) == 4:
            return f"{parts[0]} {self.called(parts[2])} {value_text(parts[3])}"
        return parts[0]


def value_text(word):
    """A value of a script: a text by its characters."""
    if word.startswith("text:"):
        try:
            return '"' + bytes.fromhex(word[5:]).decode() + '"'
        except ValueError:
            return word
    return word.partition(":")[2] if word.startswith(("signed:", "unsigned:", "bits:")) else word


def line_text(teller, line):
    """A line of a report in words."""
    kind, of = line.kind, line.words
    if kind == "open":
        return f"before it the journal has {of[0]} events"
    if kind == "end":
        return f"the end: {of[0]} lines, {of[1]} events"
    head = f"{line.number:>6}  {'' if line.moment is None else teller.zone.shown(line.moment):<19}  "
    if kind in ("change", "send"):
        head = " " * 29
    said = teller.said(line.number) if kind not in ("change", "send") else ""
    what = {
        "entered": lambda: f"event {of[1]}", "idle": lambda: "changes nothing", "ignored": lambda: "is ignored", "reply": lambda: "is answered, without an event",
        "refused": lambda: f"REFUSED: {of[1]}", "full": lambda: f"NOT TAKEN: {of[1]} notifications would wait, and {of[2]} may",
        "change": lambda: f"{teller.called(of[1])}: {of[2]} -> {of[3]}", "send": lambda: f"to {of[1]}: {datagram_text(teller, of[2])}",
    }[kind]()
    return head + (f"{said}: " if said else "") + what


def datagram_text(teller, digits):
    try:
        return report.decoded_text(report.decoded(bytes.fromhex(digits)), teller.called)
    except ValueError:
        return f"{len(digits) // 2} octets that aren't read: {digits}"


def colour_of(line):
    if line.kind in ("refused", "full"):
        return "red"
    return None if line.kind != "change" else "green" if line.words[3] == "normal" else "yellow" if line.words[3] == "fault" else "red"


def told_of(teller, line):
    """A line of a report, as a line of JSON has it."""
    told = {"line": line.number, "kind": line.kind}
    if line.moment is not None:
        told |= {"moment": line.moment, "time": teller.zone.text(line.moment)}
    keys = {
        "open": ("events",), "end": ("lines", "events"), "entered": (None, "event", None), "refused": (None, "word"), "full": (None, "would", "limit"),
        "change": (None, "object", "from", "to"), "send": (None, "to", None),
    }.get(line.kind, ())
    told |= {key: int(word) if word.isdigit() else word for key, word in zip(keys, line.words) if key}
    if line.kind == "change":
        told["name"] = teller.names.get(names.object_from(told["object"]))
    if line.kind == "send":
        try:
            told["datagram"] = report.decoded(bytes.fromhex(line.words[2]))
        except ValueError:
            told["octets"] = line.words[2]
    return {key: it for key, it in told.items() if it is not None}


def keeping(kept, lines):
    """Lines that are kept as they go by."""
    for line in lines:
        kept.append(line)
        yield line


def worth_telling(lines):
    """The lines without those that moved, sent and refused nothing: each once it is known what comes behind it."""
    held = None
    for line in lines:
        if line.kind in ("change", "send") and held:
            yield held
        held = line if line.kind in ("entered", "idle", "reply", "ignored") else None
        if not held:
            yield line


def tell(given):
    teller, lines, fault = Teller(given), [], None
    script = words.opened(given.script, encoding="utf-8", errors="replace") if given.script else None
    file = lines_of_archive(given, teller) or (sys.stdin if given.report == "-" else words.opened(given.report, encoding="utf-8", errors="replace"))
    try:
        kept = keeping(lines, report.lines_of(file, script))
        for line in worth_telling(kept) if given.brief else kept:
            words.put(words.json_line(told_of(teller, line)) if given.json else words.coloured(words.printable(line_text(teller, line)), colour_of(line)))
    except report.NoReport as error:
        fault = error
    changes, bounds = report.changes_of(lines)
    if bounds:
        bounds = bounds[0], bounds[1] + max(1000, (bounds[1] - bounds[0]) // 50)
    if changes and given.width and not given.json:
        print()
        for line in report.timeline_lines(changes, bounds, teller.zone, teller.called, given.width):
            print(line)
    if given.svg:
        draw(given.svg, changes, bounds, teller)
    if fault:
        raise Ends(UNREADABLE, str(fault))
    return DONE


def lines_of_archive(given, teller):
    """The lines of the report of an archive, whose events the program plays once more; None where REPORT is another file."""
    if given.report == "-":
        return None
    with words.opened(given.report, "rb") as file:
        if file.read(len(archive.MARK)) != archive.MARK:
            return None
    program = site_command.program_of(given)
    if program is None:
        raise Ends(CANNOT_OPEN, "there is no program, which plays the archive: build or install it, or name it by --program")
    told = replay_report.Told(program, given.report)
    view = glance.glance(told.source.text)
    teller.names, teller.zone, teller.script = view.names, view.zone, told.script
    return told.lines()


def draw(path, changes, bounds, teller):
    if not changes:
        raise Ends(CANNOT_OPEN, f"{path}: no object changed its state, so there is nothing to draw")
    try:
        pathlib.Path(path).write_text(drawing.picture(changes, bounds, teller.zone, teller.called), encoding="utf-8")
    except OSError as error:
        raise Ends(CANNOT_OPEN, f"{path}: {error.strerror}") from None


# Other reports, by the first word: each has words, help and statuses of its own.
COMMANDS = {"audit": audit_command.parser}


def main():
    if sys.argv[1:2] and sys.argv[1] in COMMANDS:
        return words.run(COMMANDS[sys.argv[1]](), sys.argv[2:])
    return words.run(parser())
