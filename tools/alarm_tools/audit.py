"""The record of what people did by the tools: lines of JSON in a file, else in the system's log. It is the tools' record, and not the device's."""
import contextlib
import datetime
import getpass
import json
import os
import sys
import syslog

from . import words
from .client import NoAnswer, Refusal

IDENTIFIER, LOG_SOCKET = "alarm-audit", "/dev/log"
HELP = "keep a line of JSON of what was done in a file (ALARM_AUDIT, else the system's log)"


def add_words(parser, what="does it"):
    """The options of whatever does something that is on the record."""
    parser.add_argument("--by", metavar="NAME", help=f"who {what} (the name of the user)")
    parser.add_argument("--audit", metavar="FILE", default=os.environ.get("ALARM_AUDIT"), help=HELP)


def user():
    """The user of this machine, also where it has no name."""
    try:
        return getpass.getuser()
    except (KeyError, OSError):
        return str(os.getuid())


def here():
    """From where the user of a terminal comes: the address of who came by ssh, else this machine."""
    return os.environ.get("SSH_CONNECTION", "").partition(" ")[0] or "local"


def now_text():
    """The time by this machine's clock, with how far it is ahead of UTC."""
    return datetime.datetime.now().astimezone().isoformat(timespec="milliseconds")


def append_line(path, told):
    """Appends a line to a file, whole, and has it on the disk."""
    at = os.open(path, os.O_WRONLY | os.O_APPEND | os.O_CREAT, 0o640)
    try:
        line = (words.json_line(told) + "\n").encode()
        written = os.write(at, line)
        if written != len(line):
            raise OSError(0, "only a part of the line was written", path)
        os.fsync(at)
    finally:
        os.close(at)


class Audit:
    """Where the lines go. A file that can't be written ends the tool before anything is done."""

    def __init__(self, path, tool, server):
        self.path, self.tool, self.server = path, tool, server
        if not path:
            syslog.openlog(IDENTIFIER, 0, syslog.LOG_USER)
            return
        try:
            os.close(os.open(path, os.O_WRONLY | os.O_APPEND | os.O_CREAT, 0o640))
        except OSError as error:
            raise words.Ends(words.CANNOT_OPEN, f"{path}: {error.strerror}: nothing was done, since no record of it could be kept") from None

    def is_kept(self):
        """Whether the lines go anywhere."""
        return bool(self.path) or os.path.exists(LOG_SOCKET)

    def record(self, told):
        """Keeps a line. Where that fails it is told with the line itself."""
        told = {"time": now_text(), "tool": self.tool, "server": self.server, **told}
        if not self.path:
            syslog.syslog(syslog.LOG_NOTICE, words.json_line(told))
            return
        try:
            append_line(self.path, told)
        except OSError as error:
            print(f"{self.tool}: {self.path}: {error.strerror}: this record isn't kept: {json.dumps(told)}", file=sys.stderr, flush=True)

    @contextlib.contextmanager
    def deed(self, act, by, address=None, **told):
        """What is done in the block, with what the server says to it. It is kept once that is known."""
        line = {"act": act, **told, "by": by, "user": user(), "address": address or here()}
        try:
            yield
        except (NoAnswer, Refusal, ValueError, OSError) as fault:
            self.record({**line, "answer": str(fault)})
            raise
        self.record({**line, "answer": "taken"})
