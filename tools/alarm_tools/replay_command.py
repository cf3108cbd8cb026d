"""The commands `replay` and `archive` of alarm-journal."""
import os
import pathlib
import shutil
import tempfile
import time

from . import archive, archive_search, from_state, given_up, journal, journal_command, names, replay, replay_source, replay_words, site_command, words
from .replay_packets import Standby
from .replay_source import Source
from .words import CANNOT_OPEN, DONE, Ends
from .zone import moment_from

WHERE_FOUND = "found again by trying: the state behind it is that of the snapshot, octet for octet"


def add_replay(commands):
    made = words.command_of(commands, "replay", "plays a journal's events to a changed text of its site, and makes a journal of that", replay_journal)
    made.add_argument("journal", metavar="JOURNAL", help="a journal, also one in use, or an archive")
    made.add_argument("site", metavar="SITE", help="the changed text")
    made.add_argument("new", metavar="NEW", nargs="?", help="a file that isn't there yet; it may be left out with --dry-run")
    made.add_argument("--dry-run", action="store_true", help="make nothing, and tell the same")
    made.add_argument("--as-if", action="store_true", help="as if SITE had been in force from the beginning")
    made.add_argument("--set", action="append", default=[], metavar="KIND:INSTANCE.KEY", help="take the text's value of a key that was written over the network; all")
    made.add_argument("--octets", type=int, metavar="N", help="the size of NEW (as large as JOURNAL, and as SITE needs)")
    made.add_argument("--at", metavar="MOMENT", help="the moment of the change: milliseconds, a time by the site's clock, or now (that of the last event)")
    made.add_argument("--archive", metavar="ARCHIVE", help="take from it the events that JOURNAL hasn't any more")
    made.add_argument("--new-archive", metavar="FILE", help="keep the events of NEW in an archive of its own too, as where they are more than NEW has room for")
    made.add_argument("--from-state", action="store_true", help="translate the state in place of playing events: for who has neither all records nor an archive")
    made.add_argument("--lines", action="store_true", help="play an unchanged history as lines too, and not as packets")
    made.add_argument("--json", action="store_true", help="each line as JSON")
    made.add_argument("--program", metavar="PROGRAM", help="the program (ALARM_SERVER_PROGRAM, else the one that was built or installed beside this tool)")


def program_of(given):
    program = site_command.program_of(given)
    if program is None:
        raise Ends(CANNOT_OPEN, "there is no program: build or install it, or name it by --program")
    return program


def keys_asked(given):
    """The keys whose text's value is asked for."""
    found = set()
    for text in given.set:
        of, _, key = text.rpartition(".")
        try:
            found.add("all" if text == "all" else (names.object_from(of), key))
        except ValueError:
            raise Ends(words.USAGE, f"--set {text}: KIND:INSTANCE.KEY is wanted, as integer-value:1.high, or all") from None
    return frozenset(found)


def moment_of(given, source):
    """The moment of the change, or None for that of the last event."""
    if given.at in (None, "now"):
        return None if given.at is None else int(time.time() * 1000)
    try:
        return moment_from(given.at, journal_command.glance.glance(source.text).zone)
    except ValueError as error:
        raise Ends(words.USAGE, f"--at {given.at}: {error}") from None


def work_folder(size, beside):
    """Where it is played: in memory where there is room for it, since each event is synced, else beside the new journal."""
    memory = replay.in_memory()
    folder = memory if memory and shutil.disk_usage(memory).free > 3 * size + (1 << 20) else beside
    return tempfile.TemporaryDirectory(prefix="alarm-replay-", dir=folder)


def see_new(given):
    """Sees that the new journal may be made, before anything is played."""
    if given.new is None:
        if not given.dry_run:
            raise Ends(words.USAGE, "NEW is missing: the file of the new journal, or --dry-run")
        return None
    made = pathlib.Path(given.new)
    if not given.dry_run and (made.exists() or made.is_symlink()):
        raise Ends(CANNOT_OPEN, f"{made} is there already, and stays as it is")
    if not made.parent.is_dir():
        raise Ends(CANNOT_OPEN, f"there is no folder {made.parent}")
    return made


def see_room(made, size):
    if made and shutil.disk_usage(made.parent).free < size + (1 << 20):
        raise Ends(CANNOT_OPEN, f"{made}: there is no room for {words.octets_text(size)} in {made.parent}")


def replay_journal(given):
    made, program = see_new(given), program_of(given)
    with words.opened(given.site, "rb") as file:
        text = file.read()
    options = replay.Options(given.as_if, keys_asked(given), given.octets, given.archive, archive_search.Search(program).find)
    see_new_archive(given)
    with work_folder(size_asked(given), made.parent if made else None) as folder:
        options.new_archive = given.new_archive and os.path.join(folder, "archive")
        outcome, played = play(given, program, text, folder, options)
        tell(given, outcome)
        if not given.dry_run:
            see_room(made, os.path.getsize(played))
            journal_command.write_copy(made, parts_of(played))
            if options.new_archive:
                journal_command.write_copy(pathlib.Path(given.new_archive), parts_of(options.new_archive))
        tell_end(given, outcome)
    return replay_words.status_of(outcome)


def see_new_archive(given):
    """Sees that the archive of the new journal may be made."""
    if given.new_archive and given.from_state:
        raise Ends(words.USAGE, "--new-archive wants the events, and --from-state plays none")
    if given.new_archive and os.path.lexists(given.new_archive):
        raise Ends(CANNOT_OPEN, f"{given.new_archive} is there already, and stays as it is")


def size_asked(given):
    """How large the new journal may be, as far as that is known beforehand."""
    try:
        return max(given.octets or 0, os.path.getsize(given.journal))
    except OSError as error:
        raise Ends(CANNOT_OPEN, f"{given.journal}: {error.strerror}") from None


def play(given, program, text, folder, options):
    """What came of it, and the new journal in a folder: by its state, by packets where the text is the very one, else by lines."""
    if given.from_state:
        words.say(f"alarm-journal: the state of {given.journal} is put together for {given.site} by this tool, and no event is played: docs/STANDBY.md says what is promised then")
        try:
            return from_state.move(program, given.journal, text, folder, options, given.site)
        except journal.NoJournal as fault:
            raise replay_source.fault_of(given.journal, fault) from None
    source = Source(given.journal, given.archive, options.find)
    if source.text == text and not (given.lines or given.set or given.new_archive):
        return bring_back(program, source, folder, options, given.site)
    moment = moment_of(given, source)
    with replay.Run(program, given.journal, text, folder, options, given.site) as run:
        run.catch_up()
        return run.finish(moment), run.journal


def bring_back(program, source, folder, options, called):
    """An unchanged history, by packets of its records as they are."""
    site, kept = pathlib.Path(folder, "site.toml"), pathlib.Path(folder, "journal")
    site.write_bytes(source.text)
    replay.make_blank(kept, replay.size_of(replay.need_of(program, site, called), source.octets, options, called))
    with Standby(program, site, kept) as standby:
        taken = all(standby.add(event.octets) for event in source.more()) and standby.flush()
        if not taken:
            raise Ends(replay.PARTED, f"the replay of {source.path} isn't {source.path}: behind event {standby.events:,} a record can't follow")
        standby.end()
        count = standby.events
    return replay.Outcome([], {"kind": "end", "journal": None, "events": count, "of_journal": count, "of_change": 0, "left_out": 0, "stays": 0}), kept


def parts_of(path):
    """The octets of a file, in parts."""
    with open(path, "rb") as file:
        while part := file.read(1 << 20):
            yield part


def tell(given, outcome):
    for line in outcome.lines:
        print(words.json_line(line) if given.json else replay_words.text_of(line))


def tell_end(given, outcome):
    end = outcome.end | {"journal": given.new if not given.dry_run else None}
    words.put(words.json_line(end) if given.json else replay_words.text_of(end | {"source": given.journal, "called": given.new}))


# archive


def add_archive(commands):
    made = words.command_of(commands, "archive", "appends the events that an archive doesn't have yet", archive_journal)
    made.add_argument("journal", metavar="JOURNAL", help="a journal, also one in use")
    made.add_argument("archive", metavar="ARCHIVE", help="a file that grows; it is made where it isn't there")
    made.add_argument("--behind", metavar="OLD", help="of a new archive: the one that ended where the text changed, whose SHA-256 its head has")
    made.add_argument("--json", action="store_true", help="as one line of JSON")
    made.add_argument("--program", metavar="PROGRAM", help="the program, which looks for an event that came with a snapshot; as of replay")


def archive_journal(given):
    program = site_command.program_of(given)
    before = before_of(given)
    with journal_command.opened(given.journal) as it:
        it.settled()
        text = it.header.text
    try:
        kept = archive.Appending(given.archive, text, before)
    except journal.NoJournal as fault:
        raise Ends(journal_command.REFUSED, f"{given.archive}: {fault}") from None
    except BlockingIOError:
        raise Ends(journal_command.BUSY, f"{given.archive} is being appended to by another one") from None
    with kept:
        if kept.head.text != text:
            raise Ends(journal_command.REFUSED, f"{given.archive} is of another text than {given.journal}: begin a new one, with --behind {given.archive}")
        found = append(given, kept, archive_search.Search(program).find if program else None)
    told = {"archive": given.archive, "events": kept.events, "new": kept.added, "found": found, "missing": kept.missing}
    words.put(words.json_line(told) if given.json else f"{given.archive}: {kept.events:,} events, {kept.added:,} new")
    if kept.missing:
        which = " and ".join(f"{first:,} to {last:,}" for first, last in kept.missing)
        raise Ends(journal_command.REFUSED, f"events {which} are in a snapshot alone: {given.archive} has that snapshot, and goes on behind it")
    return DONE


def before_of(given):
    """The sum of the archive that ended where the text changed."""
    try:
        return archive.sum_of(given.behind) if given.behind else None
    except OSError as error:
        raise Ends(CANNOT_OPEN, f"{given.behind}: {error.strerror}") from None


def append(given, kept, find):
    """Appends all that is new. A gap is noted with its snapshot. The numbers of the events that were found by trying."""
    source, found = Source(given.journal, None, find), []
    source.had = kept.events
    source.gap = kept.add_gap
    for event in source.more():
        kept.add(event.number, event.octets, event.found)
        if event.found:
            found.append(event.number)
            words.say(f"alarm-journal: event {event.number:,} came with a snapshot, and was {WHERE_FOUND}")
    kept.end()
    return found


def is_archive(path):
    """Whether a file is an archive; one that can't be opened ends the tool."""
    try:
        return archive.is_archive(path)
    except OSError as error:
        raise Ends(CANNOT_OPEN, f"{path}: {error.strerror}") from None


def archived(path):
    """The text of an archive, and each of its events as a row. What is missing, and what was found by trying, is told."""
    with archive.Archive(path) as it:
        for first, last in it.gaps():
            journal_command.tell_gap(first, last)
        return it.head.text, list_of(path)


def list_of(path):
    """Each event of an archive."""
    try:
        for row in given_up.rows_of_archive(path):
            if row.found:
                words.say(f"alarm-journal: event {row.number:,} came with a snapshot, and was {WHERE_FOUND}")
            yield row
    except journal.NoJournal as fault:
        raise Ends(journal_command.REFUSED, f"{path}: {fault}") from None
