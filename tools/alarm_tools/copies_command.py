"""alarm-copies: makes a copy of a journal that may be in use, sees that it opens, and keeps so many of them."""
import calendar
import os
import pathlib
import re
import subprocess
import tempfile
import time

from . import glance, journal, site_command, words
from .journal_command import REFUSED, opened, sync, write_copy
from .words import CANNOT_OPEN, DONE, USAGE, Ends

OLD, SECONDS = 9, 600
WHAT = """\
Keeps copies of a journal in a folder, for instance one each night, while the server runs.

make copies the journal as it is at one moment, to a name with the time at UTC, and has the program open the copy, by a session with
an empty script. Only where it opens are the oldest copies removed, so that the newest ones stay; else the copy gets .refused behind
its name, nothing is removed, and it ends with 8. look opens the newest copy again, and says how old it is."""
STATUSES = [
    (0, "a copy was made, or the newest one opens"),
    (1, "the journal, the folder or the program can't be opened, or there is no copy"),
    (2, "the words are none that it knows"),
    (8, "it is no journal, or the copy doesn't open"),
    (9, "look --within: the newest copy is older"),
    (75, "the journal changed each time while it was read: try again"),
]
EXAMPLES = [
    ("alarm-copies make journal backups --keep 14", "a copy of tonight; the newest fourteen stay"),
    ("alarm-copies look backups --within 26h", "whether last night's copy is there and opens"),
]


def parser():
    made = words.parser_of("alarm-copies", WHAT, STATUSES, EXAMPLES)
    commands = made.add_subparsers(metavar="COMMAND", required=True)
    make = words.command_of(commands, "make", "makes a copy, has it opened, and removes the oldest ones", make_copy)
    make.add_argument("journal", metavar="JOURNAL")
    look = words.command_of(commands, "look", "opens the newest copy, and says how old it is", look_at_newest)
    make.add_argument("--keep", type=int, default=14, metavar="N", help="how many copies of this journal's name stay (%(default)s)")
    look.add_argument("--within", metavar="LENGTH", help="end with 9 where the newest copy is older, as 26h or 8d")
    for command in (make, look):
        command.add_argument("folder", metavar="FOLDER")
        command.add_argument("--program", metavar="PROGRAM", help="the program (ALARM_SERVER_PROGRAM, else the one that was built or installed beside this tool)")
        command.add_argument("--json", action="store_true", help="as one line of JSON")
    return made


def program_of(given):
    """The program, which has to be there."""
    program = site_command.program_of(given)
    if not program:
        raise Ends(CANNOT_OPEN, "there is no program that opens a copy: --program, or ALARM_SERVER_PROGRAM, names it")
    return program


def folder_of(given):
    """The folder of the copies, which isn't made here: one that is missing may be a disk that isn't mounted."""
    folder = pathlib.Path(given.folder)
    if not folder.is_dir():
        who = words.user_text()
        raise Ends(CANNOT_OPEN, f"there is no folder {folder}: mount its disk, or make it for {who}: install -d -o {who} -m 700 {folder}")
    return folder


def copies_in(folder, name=None):
    """The copies in a folder, of one journal's name or of all, the newest first."""
    form = rf"({re.escape(name) if name else '.+'})-(\d{{8}}T\d{{6}}Z)"
    found = [(found[2], path) for path in folder.iterdir() if (found := re.fullmatch(form, path.name))]
    return [path for _, path in sorted(found, reverse=True)]


def opens(program, copy):
    """How many events the program finds in a copy; or why it doesn't open, as a text."""
    with opened(str(copy)) as it:
        text = it.header.text
    with tempfile.NamedTemporaryFile() as site:
        site.write(text)
        site.flush()
        try:
            ran = subprocess.run(
                [program, "session", site.name, str(copy)], stdin=subprocess.DEVNULL, capture_output=True, timeout=SECONDS, check=False, text=True, errors="replace"
            )
        except (OSError, subprocess.SubprocessError) as error:
            raise Ends(CANNOT_OPEN, f"{program}: {error}") from None
    found = re.fullmatch(r"open (\d+)\nend 0 \1\n", ran.stdout)
    if ran.returncode or not found:
        return None, (ran.stderr.strip().splitlines() or [f"status {ran.returncode}"])[0]
    return int(found[1]), None


def make_copy(given):
    if given.keep < 1:
        raise Ends(USAGE, "--keep wants 1 or more")
    folder, program = folder_of(given), program_of(given)
    copy = folder / f"{pathlib.Path(given.journal).name}-{time.strftime('%Y%m%dT%H%M%SZ', time.gmtime())}"
    if copy.exists():
        raise Ends(CANNOT_OPEN, f"{copy} is there already, and stays as it is")
    with opened(given.journal) as it:
        area = it.settled()
        sync(it)
        events = journal.events_in(area)
        write_copy(copy, journal.copy_octets(it, area))
        octets = it.header.size
    found, fault = opens(program, copy)
    if found != events:
        refused = copy.with_name(f"{copy.name}.refused")
        os.replace(copy, refused)
        raise Ends(REFUSED, f"{refused}: it doesn't open as it should: {fault or f'it has {found} events, and the journal had {events}'}; no copy was removed")
    gone = copies_in(folder, pathlib.Path(given.journal).name)[given.keep:]
    for path in gone:
        path.unlink(missing_ok=True)
    told = {"copy": str(copy), "events": events, "octets": octets, "removed": [str(it) for it in gone]}
    text = f"{copy}: {events:,} events, {words.octets_text(octets)}; {program} opens it; {len(gone)} older removed, the newest {given.keep} stay"
    words.put(words.json_line(told) if given.json else text)
    return DONE


def length_of(text):
    """The seconds of a length of time."""
    found = re.fullmatch(r"(\d{1,6})([smhd])", text)
    if not found:
        raise Ends(USAGE, f"{text!r} is no length of time: 26h, 90m or 8d are")
    return int(found[1]) * {"s": 1, "m": 60, "h": 3600, "d": 86400}[found[2]]


def age_of(copy):
    """How many seconds ago a copy was made, by its name."""
    return time.time() - calendar.timegm(time.strptime(copy.name[-16:], "%Y%m%dT%H%M%SZ"))


def look_at_newest(given):
    within, folder = length_of(given.within) if given.within else None, folder_of(given)
    newest = next(iter(copies_in(folder)), None)
    if newest is None:
        raise Ends(CANNOT_OPEN, f"{folder}: there is no copy in it")
    age, (events, fault) = age_of(newest), opens(program_of(given), newest)
    if fault:
        raise Ends(REFUSED, f"{newest}: it doesn't open: {fault}")
    with opened(str(newest)) as it:
        view = glance.glance(it.header.text)
    told = {"copy": str(newest), "events": events, "seconds": round(age), "copies": len(copies_in(folder)), "device": view.device}
    words.put(words.json_line(told) if given.json else f"{newest}: opens, {events:,} events, {words.length_text(age)} old; {told['copies']} copies in {folder}")
    if within is not None and age > within:
        raise Ends(OLD, f"{newest}: it is {words.length_text(age)} old, and one of the last {given.within} is wanted")
    return DONE


def main():
    return words.run(parser())
