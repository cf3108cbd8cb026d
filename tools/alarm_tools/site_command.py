"""alarm-site: looks at a site's text: whether it is one, what in it nobody wants, what it comes to in words, and how large its journal is."""
import os
import pathlib
import re
import subprocess
import tempfile

from . import client, glance, journal, outbox_room, place, plan, site_lint, site_text, texts, words
from .words import CANNOT_OPEN, DONE, Ends

SITE_REFUSED = 3
SECONDS = 60
TOP = pathlib.Path(__file__).resolve().parent.parent.parent
# Where the program is: in a checkout as it was built, and where a package has put it.
PROGRAMS = [str(TOP / "crates" / "alarm_server" / "out" / "alarm_server"), str(TOP.parent / "libexec" / "alarm-server" / "alarm_server")]
# The journal of this machine's server, in the folder in force or at its old place.
JOURNALS = [os.path.join(place.FOLDER, it) for it in ("current/journal", "journal")]
WHAT = """\
Looks at a site's text before a server does.

check has the program read it, where one is at hand, and else reads it by itself, by the rules of docs/SITE.md, and says which
of both it was. A fault is told as the program tells it, with the line, the name and what is wanted, and behind it all others that
the text has; a site that is taken is looked over for what is allowed and hardly meant, and compared with the text of the journal in
place. describe says in words what is an alarm and who is told of it at which hour."""
STATUSES = [
    (0, "it is a site; check --strict: and there is no warning"),
    (1, "the file can't be opened, or --strict and there are warnings"),
    (2, "the words are none that it knows"),
    (3, "it is no site"),
    (5, "the program takes it, and this tool can't read it, as where it needs TOML 1.1"),
]
EXAMPLES = [
    ("alarm-site check site.toml", "all its faults, or what in it is hardly meant"),
    ("alarm-site describe site.toml", "what is an alarm, and a table of the week for each class"),
    ("alarm-site size site.toml", "how many octets its journal has, part by part, and whether the outbox is large enough"),
    ("alarm-site size site.toml --changes 4 --silent 2", "how large the outbox is to be where objects change four times a second and two recipients are silent"),
]


def parser():
    made = words.parser_of("alarm-site", WHAT, STATUSES, EXAMPLES)
    commands = made.add_subparsers(metavar="COMMAND", required=True)
    check = words.command_of(commands, "check", "says all its faults, or what in it is hardly meant", check_site)
    check.add_argument("--strict", action="store_true", help="end with 1 where there are warnings")
    check.add_argument("--journal", metavar="JOURNAL", help="the journal with whose text it is compared; else that of this machine's server, where it is of the same device")
    describe = words.command_of(commands, "describe", "says in words what is an alarm and who is told when", describe_site)
    size = words.command_of(commands, "size", "says how large its journal is, and what the outbox takes", size_site)
    size.add_argument("--changes", type=client.seconds, metavar="N", help="say how large the outbox is to be where objects change N times a second, all of one class")
    size.add_argument("--silent", type=whole, default=1, metavar="N", help="of a class, so many recipients are silent (%(default)s)")
    size.add_argument("--within", type=client.seconds, default=0.1, metavar="SECONDS", help="and the others answer within so long (%(default)s)")
    size.add_argument("--gap", type=client.seconds, default=0.1, metavar="SECONDS", help="the longest time between two looks of the server at what it sends (%(default)s)")
    for command in (check, describe, size):
        command.add_argument("site", metavar="SITE")
        command.add_argument("--json", action="store_true", help="as JSON, a line for each fault and warning")
    which = "the program (ALARM_SERVER_PROGRAM, else the one that was built or installed beside this tool); none: this tool's own reading alone"
    for command in (check, size):
        command.add_argument("--program", metavar="PROGRAM", help=which)
    return made


def whole(text):
    """A number of recipients."""
    if not text.isdecimal():
        raise ValueError(text)
    return int(text)


def octets_of(path):
    with words.opened(path, "rb") as file:
        return file.read()


def program_of(given):
    """The program that is at hand, or None."""
    named = given.program or os.environ.get("ALARM_SERVER_PROGRAM")
    if named == "none":
        return None
    if named and not os.access(named, os.X_OK):
        raise Ends(CANNOT_OPEN, f"there is no program {named}")
    return named or next((it for it in PROGRAMS if os.access(it, os.X_OK)), None)


def program_says(program, path):
    """What the program says of a site, by a session over an empty script: its refusal and the line, or how many octets its journal has."""
    with tempfile.NamedTemporaryFile() as journal:
        ran = subprocess.run(
            [program, "session", path, journal.name], stdin=subprocess.DEVNULL, capture_output=True, timeout=SECONDS, check=False, text=True, errors="replace"
        )
    if found := re.fullmatch(r"site refused: (.*)\n(?:line (\d+)\n)?", ran.stderr):
        return found[1], found[2] and int(found[2]), None
    if found := re.fullmatch(r"journal refused: small-device 0 (\d+)\n", ran.stderr):
        return None, None, int(found[1])
    raise Ends(CANNOT_OPEN, f"{program} ended with {ran.returncode}: {ran.stderr.strip()}")


def own_reading(octets):
    """The site of a text, and the fault that this tool finds; one of both is None."""
    try:
        return site_text.read(octets), None
    except site_text.SiteRefused as fault:
        return None, fault


# check


def check_site(given):
    octets, program = octets_of(given.site), program_of(given)
    site, fault = own_reading(octets)
    said_by = program or "this tool's own reading, no program is at hand"
    if program:
        told, line, _ = program_says(program, given.site)
        if told is not None:
            fault = fault_of(octets, told, line, fault)
        elif fault:
            raise Ends(words.UNREADABLE, f"{given.site}: {program} takes it, and this tool doesn't read it: {fault}, {fault.reason}; nothing else was looked at")
        else:
            fault = None
    if fault:
        show_faults(given, octets, fault, said_by)
        return SITE_REFUSED
    found = site_lint.warnings_of(site)
    for it in found:
        show_warning(given, it)
    show_other_text(given, octets)
    if not given.json:
        print(f"{given.site}: a site, says {said_by}; {plan.counted(len(found), 'warning')}")
    return CANNOT_OPEN if given.strict and found else DONE


def show_faults(given, octets, first, said_by):
    """The fault that the program answers, and behind it the others that this tool's reading finds, each with its line and what is wanted."""
    show_fault(given, first, said_by)
    rest = [it for it in site_text.faults_of(octets) if it.told != first.told]
    for it in rest:
        show_fault(given, it, None if not given.json else "this tool's own reading")
    if rest and not given.json:
        print(f"{plan.counted(len(rest) + 1, 'fault')}; the first is what the program answers, the others are of this tool's own reading")


def fault_of(octets, told, line, own):
    """The program's refusal, with the line, the name and the reason that this tool finds for it."""
    if own and own.told == told:
        own.line = line or own.line
        return own
    place = re.fullmatch(r"\S+ (device|class|destination|object|enrollment|log|binding) (\d+) (.*)", told)
    at = site_text.Places(octets).line(place[1], int(place[2]), place[3]) if place else None
    return site_text.SiteRefused(told, "docs/SITE.md says what is wanted", line or at)


def show_fault(given, fault, said_by):
    if given.json:
        words.put(words.json_line({"site": given.site, "line": fault.line, "refused": fault.told, "name": fault.whose, "reason": fault.reason, "said_by": said_by}))
        return
    at = f":{fault.line}" if fault.line else ""
    print(words.coloured(f"{given.site}{at}: site refused: {fault.told}", "red"))
    print(f"  {fault.whose + ': ' if fault.whose else ''}{words.printable(fault.reason)}")
    if said_by:
        print(f"  said by {said_by}")


def show_warning(given, it):
    if given.json:
        words.put(words.json_line({"site": given.site, "line": it.line, "warning": it.kind, "text": it.text}))
        return
    at = f":{it.line}" if it.line else ""
    print(f"{given.site}{at}: {words.coloured('warning', 'yellow')}: {it.text} [{it.kind}]")


def show_other_text(given, octets):
    """Says that the journal in place is of another text, on which a server of this text won't begin. It is a note and no warning: a changed text is always another one."""
    path = given.journal or next((it for it in JOURNALS if os.access(it, os.R_OK)), None)
    if path is None:
        return
    try:
        with journal.Journal(path) as it:
            text = it.header.text
    except (OSError, journal.NoJournal) as fault:
        if given.journal:
            raise Ends(CANNOT_OPEN, f"{path}: {getattr(fault, 'strerror', None) or fault}") from None
        return
    if not text or text == octets or not given.journal and glance.glance(text).device != glance.glance(octets).device:
        return
    line = texts.first_difference(text, octets)[0]
    told = f"{path} is of another text, which differs first in line {line}: a server with this one won't begin on it. alarm-server change {given.site} brings this one into force"
    if given.json:
        words.put(words.json_line({"site": given.site, "line": line, "note": "journal", "text": told}))
    else:
        print(f"{given.site}:{line}: {words.coloured('note', 'bold')}: {told} [journal]")


# describe and size


def read_site(given, octets):
    site, fault = own_reading(octets)
    if fault:
        show_fault(given, fault, "this tool's own reading")
    return site


def describe_site(given):
    site = read_site(given, octets_of(given.site))
    if site is None:
        return SITE_REFUSED
    if given.json:
        words.put(words.json_line(plan.told_of(site)))
    else:
        print("\n".join(plan.lines_of(site)))
    return DONE


def size_site(given):
    octets = octets_of(given.site)
    site = read_site(given, octets)
    if site is None:
        return SITE_REFUSED
    program, need, least = program_of(given), site_text.need(site, len(octets)), site_text.notes_at_once(site)
    said = program_says(program, given.site)[2] if program else None
    room = None if given.changes is None else outbox_room.room(site, outbox_room.Load(given.changes, given.silent, given.within, given.gap))
    if given.json:
        parts = {what: count * each for what, count, each in site_text.parts_of_need(site, len(octets))}
        told = {"site": given.site, "octets": need, "program": said, "parts": parts, "outbox": site.device["outbox"], "notes_at_once": least}
        words.put(words.json_line(told | ({} if room is None else {"room": told_room(site, given, room)})))
        return DONE
    print("\n".join(rows_of("OCTETS", site_text.parts_of_need(site, len(octets)))))
    agreed = "" if said is None else f"; so says {program}" if said == need else f"; {program} says {said:,}"
    print(f"the smallest journal has {words.octets_text(need)}{agreed}")
    times = f", {site.device['outbox'] / least:.1f} times as many as all objects at once make ({least})" if least else ""
    print(f"the outbox has room for {site.device['outbox']} notifications{times}")
    if room is not None:
        print("\n".join(room_lines(site, given, room)))
    return DONE


def rows_of(what, parts):
    """A table of parts, each with how many there are and what each takes."""
    return words.table(["WHAT", "COUNT", "EACH", what], [[part, f"{count:,}", f"{each:,}", f"{count * each:,}"] for part, count, each in parts])


def told_room(site, given, room):
    """What the outbox is to have room for, by name: no number where no outbox is large enough."""
    enough = site.device["flush_silent"] and room.quick
    return {
        "class": room.of_class, "changes": given.changes, "silent": given.silent, "within": given.within, "gap": given.gap, "flush_silent": site.device["flush_silent"],
        "seconds": outbox_room.longest(site.device, given.gap), "wanted": outbox_room.total(room) if enough else None,
        "full_after": None if site.device["flush_silent"] else room.full_after,
        "parts": {f"{what}, {each} each": count * each for what, count, each in room.parts},
    }


def room_lines(site, given, room):
    """How large the outbox is to be, for people."""
    told = told_room(site, given, room)
    yield f"where objects of class {room.of_class} change {given.changes:g} times a second, and the server looks at what it sends at least each {given.gap:g} s:"
    if not told["flush_silent"]:
        full = "" if told["full_after"] is None else f": this one is full {words.length_text(told['full_after'])} after the first change"
        yield f"no outbox is large enough for a recipient that stays silent{full}. With flush_silent = true in [device]"
    yield f"what waits for a silent recipient was queued within the last {told['seconds']:g} s, since a giving up takes all that stands behind it"
    yield from rows_of("NOTIFICATIONS", room.parts)
    if not room.quick:
        yield f"and a recipient that takes {given.within:g} s for an answer is too slow for so many changes: it fills any outbox"
        return
    wanted = outbox_room.total(room)
    most = f", more than the {outbox_room.MOST_NOTES:,} that it may have: a time_delay, fewer retries or a smaller apdu_timeout help" if wanted > outbox_room.MOST_NOTES else ""
    has = "" if most else ": this one has room for it" if site.device["outbox"] >= wanted else f": this one has room for {site.device['outbox']:,}"
    yield f"an outbox of {wanted:,} holds that{most}{has}"


def main():
    return words.run(parser())
