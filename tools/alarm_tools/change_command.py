"""alarm-server change: brings a changed site into force, with all that happened, and ends the server for the last of it alone."""
import argparse
import os
import pathlib
import sys
import tempfile
import time

from . import change, glance, journal, site_command, words
from .change import WRONG, Preparing
from .place import FOLDER, JOURNAL, SITE, TEXT, Place, as_owner, passed, text_of
from .words import CANNOT_OPEN, DONE, USAGE, Ends

RESTART = "systemctl restart alarm-server"
WHAT = """\
Brings the changed text SITE into force at the server of this machine, and keeps what happened: alarms with their stamps and
acknowledgements, logs, written values and properties, edited lists, and what waits to be sent.

While the server runs, its history is played to the changed text; it is told what will change, and asked. Then the server is
ended, the rest is played, and text and journal are put in place by one rename. Whatever fails or is killed on the way, the server
begins with the text and the journal that were in place, or with the new ones."""
STATUSES = [
    (0, "done"),
    (1, "a file can't be opened; there is no server's folder; or the answer was no"),
    (2, "the words are none that it knows"),
    (3, "SITE is no site"),
    (4, "--dry-run: something would be left out, or stays as it was written"),
    (8, "the journal is refused, or its first events are gone"),
    (9, "the history isn't itself when it is played: nothing was changed"),
    (75, "another change is on its way, or it was given up: nothing was changed"),
]
EXAMPLES = [
    ("alarm-server change --dry-run next.toml", "what will change, and what can't be as it was; nothing is touched"),
    ("alarm-server change next.toml", "the same, and then it asks and does it"),
    ("alarm-server change --back", "the text before, with all that happened since"),
]


def parser():
    made = words.parser_of("alarm-server change", WHAT, STATUSES, EXAMPLES)
    made.add_argument("text", metavar="SITE", nargs="?", help="the changed text")
    made.add_argument("--dry-run", action="store_true", help="tell what will change, and change nothing")
    made.add_argument("--yes", action="store_true", help="don't ask")
    made.add_argument("--back", action="store_true", help="the text that was in force before, in place of SITE")
    made.add_argument("--forget", action="store_true", help="with --back: also its journal as it was, without what happened since")
    made.add_argument("--set", action="append", default=[], metavar="KIND:INSTANCE.KEY", help="the text's value of a key that was written over the network; all: of each")
    made.add_argument("--octets", type=int, metavar="N", help="the size of the new journal; else as large as that in force, and as SITE needs")
    made.add_argument("--archive", metavar="ARCHIVE", help="take from it the events that the journal hasn't any more (alarm-journal archive)")
    made.add_argument("--finish", action="store_true", help="before a server begins, as its unit does: finish or give up what was begun")
    made.add_argument("--folder", default=FOLDER, help="the server's folder (%(default)s)")
    made.add_argument("--site", default=SITE, metavar="FILE", help="where the text in force is linked (%(default)s)")
    made.add_argument("--restart", default=RESTART, metavar="COMMAND", help="what ends the server and begins it, behind `alarm-server change --finish` (%(default)s)")
    made.add_argument("--program", required=True, help=argparse.SUPPRESS)
    made.set_defaults(call=call)
    return made


def call(given):
    if sum([given.text is not None, given.back, given.finish]) != 1:
        raise Ends(USAGE, "a SITE is wanted, or --back, or --finish, and one of them alone")
    if given.forget and not given.back or given.finish and (given.dry_run or given.yes):
        raise Ends(USAGE, "--forget goes with --back, and --finish goes alone")
    place = Place(given.folder, given.site)
    if not place.folder.is_dir():
        raise Ends(CANNOT_OPEN, f"there is no folder {place.folder}")
    return finish(place) if given.finish else bring(given, place)


# Before a server begins.


def finish(place):
    try:
        for line in change.finish(place):
            say(line)
    except PermissionError as error:
        raise Ends(CANNOT_OPEN, f"{error.filename}: {error.strerror}: it has to belong to whom {place.folder} belongs to (chown)") from None
    return DONE


def say(line):
    print(f"alarm-server: {line}", file=sys.stderr, flush=True)


# A change.


def bring(given, place):
    text = None if given.back else octets_of(given.text)
    if text is not None:
        see_site(given, text)
    try:
        with as_owner(place.folder):
            see_place(place)
            before = place.text()
            name = Bringing(given, place).bring(text)
            if name is None:
                return given.status
            if before != place.text() and place.name_before() and place.mend(place.name_before()) == place.text():
                place.drop_edited()
    except PermissionError as error:
        raise Ends(CANNOT_OPEN, f"{error.filename}: {error.strerror} (this is user {os.geteuid()}, and root is wanted)") from None
    if not place.set_site(before):
        say(f"{place.site} isn't the text in force, which is {place.current}")
    return given.status


def see_site(given, text):
    """Ends with the line, the item and what is wanted where the program refuses the text."""
    with tempfile.NamedTemporaryFile() as copy:
        copy.write(text)
        copy.flush()
        told, line, _ = site_command.program_says(given.program, copy.name)
    if told is not None:
        fault = site_command.fault_of(text, told, line, site_command.own_reading(text)[1])
        at, whose = (f":{fault.line}" if fault.line else ""), (f"{fault.whose}: " if fault.whose else "")
        raise Ends(site_command.SITE_REFUSED, f"{given.text}{at}: site refused: {fault.told}\n  {whose}{words.printable(fault.reason)}")


def octets_of(path):
    try:
        with open(path, "rb") as file:
            return file.read()
    except OSError as error:
        raise Ends(CANNOT_OPEN, f"{path}: {error.strerror}") from None


def see_place(place):
    if place.name() is None and place.is_to_take_in():
        raise Ends(CANNOT_OPEN, f"{place.old_journal} isn't in a folder of its own yet: begin the server once, or say alarm-server change --finish while it is ended")
    if place.name() is None or not (place.current / JOURNAL).exists():
        raise Ends(CANNOT_OPEN, f"{place.folder} has no text and no journal that are in force (docs/OPERATE.md, First start)")


class Bringing:
    """A change of a place, as the words say."""

    def __init__(self, given, place):
        self.given, self.place, self.told = given, place, set()
        given.status = DONE

    def bring(self, text):
        """Brings a text into force, or the one before. Gives the folder's name, or None where nothing was changed."""
        if self.given.back:
            before = self.place.name_before()
            if before is None:
                raise Ends(CANNOT_OPEN, f"{self.place.current} has nothing before it")
            if self.given.forget:
                return self.forget(before)
            text = text_of(self.place.folder / before / JOURNAL) or (self.place.folder / before / TEXT).read_bytes()
        if text == self.place.text():
            change.clear_if_left(self.place)
            print(f"{self.given.text or 'the text before'} is the text in force already: nothing is to be changed")
            return self.place.name()
        return self.play(text)

    def play(self, text):
        """Brings a text into force behind all that happened under the one before."""
        from . import archive_search, replay, replay_command, replay_words

        kept = self.place.current / JOURNAL
        self.words_of, find = replay_words, archive_search.Search(self.given.program).find
        options = replay.Options(take=replay_command.keys_asked(self.given), octets=self.given.octets, archive=self.given.archive, find=find)
        called = self.given.text or "the text before"
        with Preparing(self.place) as preparing:
            if text_of(kept) is None:
                return self.begin_anew(text, replay.need_of, preparing)
            size = 4 * max(kept.stat().st_size, self.given.octets or 0)
            if not self.given.yes or self.given.dry_run:
                with replay.Run(self.given.program, kept, text, preparing.room(size), options, called) as run:
                    run.catch_up()
                    self.tell(run.finish(now()))
                if self.given.dry_run:
                    return None
                self.ask()
                preparing.clear()
            with replay.Run(self.given.program, kept, text, preparing.room(size), options, called) as run:
                return self.put_in_force(run, text)

    def begin_anew(self, text, need_of, preparing):
        """Where nothing was kept yet there is nothing to be played."""
        work = pathlib.Path(preparing.room(1 << 20), "site.toml")
        work.write_bytes(text)
        size = max(need_of(self.given.program, work, self.given.text), self.given.octets or 0)
        print(f"{self.place.current}: the journal is blank, so a blank one of {words.octets_text(size)} takes its place")
        if self.given.dry_run:
            return None
        self.ask()
        made = self.place.make(text)
        with open(os.open(self.place.folder / made / JOURNAL, os.O_WRONLY | os.O_CREAT, 0o600), "wb") as file:
            file.writelines(journal.zeros(size))
            file.flush()
            os.fsync(file.fileno())

        def ready():
            if text_of(self.place.current / JOURNAL) is not None:
                raise Ends(change.GIVEN_UP, "something was kept in the meantime: say it again")
            self.place.sync(made)
            return made

        name, seconds = change.put_in_force(self.place, ready, self.given.restart)
        print(f"{self.place.folder / name} is in force; the server was away for {seconds:.2f} s at most")
        return name

    def tell(self, outcome):
        """What will change, and what was left out."""
        print(f"{self.place.current} -> {self.place.name()}: {device_of(self.place.text())}, {outcome.end['of_journal']:,} events")
        self.tell_lines(outcome)
        if not self.told:
            print("  nothing of what is served changes")
        self.given.status = self.words_of.status_of(outcome) if self.given.dry_run else DONE
        sys.stdout.flush()

    def tell_lines(self, outcome):
        """The lines that weren't told yet."""
        for it in map(self.words_of.text_of, outcome.lines):
            if it not in self.told:
                self.told.add(it)
                print(f"  {it}")

    def ask(self):
        if self.given.yes:
            return
        if not sys.stdin.isatty():
            raise Ends(USAGE, "nobody can be asked: --yes says yes, and --dry-run changes nothing")
        answer = input("Is it to be brought into force? The server is ended and begun again for it [y/N] ")
        if answer.strip().lower() not in ("y", "yes"):
            raise Ends(CANNOT_OPEN, "nothing was changed")

    def put_in_force(self, run, text):
        """Plays what is there, makes the folder, and has it put in force behind the last event."""
        change.catch_up(run)
        passed("caught up")
        made, outcomes = self.place.make(text), []
        folder = self.place.folder / made
        change.copy_into(run.journal, folder / JOURNAL)
        passed("copied")

        def ready():
            run.catch_up()
            passed("rest played")
            outcomes.append(run.finish(now()))
            change.copy_into(run.journal, folder / JOURNAL)
            passed("written")
            change.sync_file(folder / JOURNAL)
            self.place.sync(made)
            passed("synced")
            if change.opens(self.given.program, folder) != outcomes[0].end["events"]:
                raise Ends(WRONG, "the new journal has another number of events: nothing was changed")
            passed("opened")
            return made

        return self.done(*change.put_in_force(self.place, ready, self.given.restart), outcomes[0])

    def done(self, name, seconds, outcome):
        self.tell_lines(outcome)
        end = outcome.end
        print(f"{self.place.folder / name} is in force: {end['events']:,} events, {end['of_journal']:,} that happened and {end['of_change']:,} of the change; the server was away for {seconds:.2f} s at most")
        print(f"{self.place.folder / (self.place.name_before() or '')} is kept as it was; alarm-server change --back brings its text back")
        return name

    def forget(self, before):
        """The folder before, as it was."""
        moments = [moment_of(self.place.folder / it / JOURNAL) for it in (before, self.place.name())]
        print(f"{self.place.folder / before} had its last event at {moments[0]}, and {self.place.folder / self.place.name()} has its own at {moments[1]}: what happened between them will not have happened")
        if self.given.dry_run:
            return None
        self.ask()
        with Preparing(self.place):
            name, seconds = change.put_in_force(self.place, lambda: before, self.given.restart)
        print(f"{self.place.folder / name} is in force, as it was; the server was away for {seconds:.2f} s at most")
        return name


def now():
    return int(time.time() * 1000)


def device_of(text):
    view = glance.glance(text)
    return words.named(f"device:{view.device}", view.names.get((8, view.device)))


def moment_of(path):
    """The time of a journal's last event, by its site's clock."""
    last, text = journal.last_moment(path), text_of(path)
    return "no moment" if last is None else glance.glance(text or b"").zone.text(last)


def main():
    return words.run(parser())
