"""The place of a server: a folder in which the link `current` leads to a folder with the text and the journal that are in force.

A text and a journal that don't go together are refused, so both change by one rename, that of the link. What stood at their old
places, the site's file and FOLDER/journal, is taken in once, and links are left there. Whatever is killed on its way, the link leads to a
whole pair. Of a folder `site.N` with a file `making` nothing is in force yet; where the link leads to it all the same, it is.

    FOLDER/current -> site.3     FOLDER/site.3/site.toml, FOLDER/site.3/journal, FOLDER/site.3/before (the name of the one before)
    FOLDER/journal -> current/journal     SITE -> FOLDER/current/site.toml
"""
import contextlib
import fcntl
import os
import pathlib
import re
import shutil

from . import journal

FOLDER, SITE = "/var/lib/alarm-server", "/etc/alarm-server/site.toml"
TEXT, JOURNAL, MAKING, BEFORE, EDITED = "site.toml", "journal", "making", "before", "site.toml.edited"
# A text in force is read: who edits it is told so by the editor.
MODE_OF_TEXT = 0o444
NAME = re.compile(r"site\.([0-9]+)")


def passed(_step):
    """A step is done: here checks/change kills."""


def sync_folder(path):
    opened = os.open(path, os.O_RDONLY | os.O_DIRECTORY)
    try:
        os.fsync(opened)
    finally:
        os.close(opened)


def write_synced(path, octets, mode=0o600):
    """Writes a file beside its place, synced, and gives it its name."""
    beside = path.with_name(f".{path.name}.part")
    beside.unlink(missing_ok=True)
    with open(os.open(beside, os.O_WRONLY | os.O_CREAT | os.O_EXCL, mode), "wb") as file:
        os.fchmod(file.fileno(), mode)
        file.write(octets)
        file.flush()
        os.fsync(file.fileno())
    os.replace(beside, path)


def link_at(path, target):
    """Sets a link in one rename, over whatever stands there."""
    beside = path.with_name(f".{path.name}.link")
    beside.unlink(missing_ok=True)
    os.symlink(target, beside)
    os.replace(beside, path)


def text_of(path):
    """The text that a journal was made for, or None of one that is blank, is none or isn't there."""
    try:
        with journal.Journal(path) as it:
            return None if it.header.blank else it.header.text
    except (OSError, journal.NoJournal):
        return None


def take_lock(path, make=False):
    """The lock of a file, as the command takes that of a journal: an open file that holds it until it is closed, or None where another one has it."""
    opened = os.open(path, os.O_RDWR | os.O_CREAT | os.O_CLOEXEC if make else os.O_RDONLY | os.O_CLOEXEC, 0o600)
    try:
        fcntl.flock(opened, fcntl.LOCK_EX | fcntl.LOCK_NB)
    except BlockingIOError:
        os.close(opened)
        return None
    return opened


@contextlib.contextmanager
def locked(path, make=False):
    """Whether the lock of a file was to be had: then it lasts as long as the block."""
    opened = take_lock(path, make)
    try:
        yield opened is not None
    finally:
        if opened is not None:
            os.close(opened)


@contextlib.contextmanager
def as_owner(folder):
    """As the user whom a folder belongs to, where root does it: what is made there is that user's, and no link of that user leads root astray."""
    before = os.geteuid(), os.getegid(), os.umask(0o077)
    owner = os.stat(folder)
    try:
        if before[0] == 0 and owner.st_uid != 0:
            os.setegid(owner.st_gid)
            os.seteuid(owner.st_uid)
        yield
    finally:
        os.seteuid(before[0])
        os.setegid(before[1])
        os.umask(before[2])


class Place:
    """A server's folder, and where its site's file stands for people."""

    def __init__(self, folder=FOLDER, site=SITE):
        self.folder, self.site = pathlib.Path(folder), pathlib.Path(site)
        self.current, self.old_journal = self.folder / "current", self.folder / JOURNAL

    def name(self):
        """The name of the folder in force, or None."""
        try:
            found = os.readlink(self.current)
        except OSError:
            return None
        return found if NAME.fullmatch(found) and (self.folder / found).is_dir() else None

    def text(self):
        """The text in force: that of the journal, and of a blank one that of the file."""
        found = text_of(self.current / JOURNAL)
        return (self.current / TEXT).read_bytes() if found is None else found

    def name_before(self):
        """The name of the folder that was in force before this one, where it is still there."""
        try:
            found = (self.current / BEFORE).read_text(encoding="utf-8").strip()
        except OSError:
            return None
        return found if NAME.fullmatch(found) and (self.folder / found / JOURNAL).exists() else None

    def make(self, text):
        """A new folder with a text, that isn't in force; its name."""
        numbers = [int(found[1]) for it in self.folder.iterdir() if (found := NAME.fullmatch(it.name))]
        made = self.folder / f"site.{max(numbers, default=0) + 1}"
        made.mkdir(0o700)
        (made / MAKING).touch()
        passed("folder made")
        write_synced(made / TEXT, text, MODE_OF_TEXT)
        if before := self.name():
            write_synced(made / BEFORE, f"{before}\n".encode())
        passed("text written")
        return made.name

    def sync(self, name):
        sync_folder(self.folder / name)
        sync_folder(self.folder)

    def put(self, name):
        """Puts a folder in force: its text and its journal, by one rename."""
        link_at(self.current, name)
        passed("in place")
        sync_folder(self.folder)
        self.keep_links()
        passed("links set")
        (self.folder / name / MAKING).unlink(missing_ok=True)

    def keep_links(self):
        """At the journal's old place there is a link to the one in force."""
        if not self.old_journal.is_symlink() or os.readlink(self.old_journal) != f"current/{JOURNAL}":
            link_at(self.old_journal, f"current/{JOURNAL}")
            sync_folder(self.folder)

    def clear(self):
        """Removes what was begun and isn't in force. Nobody may be at it."""
        for it in self.folder.iterdir():
            if NAME.fullmatch(it.name) and it.name != self.name() and (it / MAKING).exists():
                shutil.rmtree(it)
            elif re.fullmatch(r"\.(current|journal)\.link", it.name):
                it.unlink()
        if (name := self.name()) and (self.folder / name / MAKING).exists():
            (self.folder / name / MAKING).unlink()

    # What stands at the old places.

    def is_to_take_in(self):
        """Whether a journal stands at the old place that isn't the one in force."""
        if not os.path.lexists(self.old_journal):
            return False
        if self.old_journal.is_symlink() and os.readlink(self.old_journal) == f"current/{JOURNAL}":
            return False
        return self.old_journal.exists()

    def take_in(self):
        """Makes the journal at the old place, with its text, the pair in force. It says what it did, or None.

        Until the last rename the file keeps its old name too, so a kill leaves it there.
        """
        if not self.is_to_take_in():
            return None
        if self.name() and os.path.samefile(self.old_journal, self.current / JOURNAL):
            self.keep_links()  # A kill came between the two renames.
            return None
        text = text_of(self.old_journal)
        if text is None:
            text = self.site.read_bytes()
        made = self.make(text)
        if self.old_journal.is_symlink():
            os.symlink(os.path.realpath(self.old_journal), self.folder / made / JOURNAL)
        else:
            os.link(self.old_journal, self.folder / made / JOURNAL)
        self.sync(made)
        passed("taken in")
        self.put(made)
        return f"{self.old_journal} and its text are in {self.folder / made} now, to which {self.current} leads"

    def mend(self, name=None):
        """Puts the journal's text back where that of a folder was edited, which is the one in force if none is named. Gives what it had become, or None.

        That is kept as `site.toml.edited` first.
        """
        name = name or self.name()
        if not name:
            return None
        wanted, place = text_of(self.folder / name / JOURNAL), self.folder / name / TEXT
        found = place.read_bytes() if place.exists() else b""
        if wanted is None or wanted == found:
            return None
        write_synced(self.folder / EDITED, found)
        write_synced(place, wanted, MODE_OF_TEXT)
        self.sync(name)
        return found

    def drop_edited(self):
        (self.folder / EDITED).unlink(missing_ok=True)

    # Where people look for the site's file.

    def links_here(self):
        """Whether the site's file is the link to the text in force."""
        return self.site.is_symlink() and os.readlink(self.site) in (self.site_target(), str(self.current / TEXT))

    def site_target(self):
        return os.path.relpath(self.current / TEXT, os.path.realpath(self.site.parent))

    def may_set_site(self):
        return self.site.parent.is_dir() and os.access(self.site.parent, os.W_OK, effective_ids=True)

    def give_back(self, edited):
        """Leaves an edited text where it was edited through the link, as a file of its own. Whether that could be done."""
        if not self.links_here() or not self.may_set_site():
            return False
        write_synced(self.site, edited, 0o644)
        sync_folder(self.site.parent)
        return True

    def set_site(self, *earlier):
        """Sets the link where people look, if nothing of theirs stands there: neither the text in force nor an earlier one. Whether it is there now."""
        if self.links_here():
            return True
        if self.site.is_symlink() or self.site.exists() and self.site.read_bytes() not in (self.text(), *earlier) or not self.may_set_site():
            return False
        link_at(self.site, self.site_target())
        sync_folder(self.site.parent)
        return True

    def edited_site(self):
        """Whether the file where people look isn't the text in force."""
        try:
            return self.site.read_bytes() != self.text()
        except OSError:
            return False
