"""alarm-carry: carries the journal of a server that runs to a standby, and tells how far it is."""
import argparse
import json
import os
import pathlib
import re
import sys
import time

from . import journal, words
from .carry import NO_DIGEST, Carry, State
from .words import CANNOT_OPEN, DONE, Ends

BEHIND, PARTED, SILENT = 9, 10, 13
# How often the state is written, and metrics are; and how many seconds without an acknowledgement are too many.
STATE_EVERY, TEXT_EVERY, LIMIT = 1, 5, 60
STATE = "/run/alarm-carry/state"
WHAT = """\
Carries the journal of a server that runs to a standby on another machine, as its events come. WAY is a command at whose other
end `alarm-server standby SITE STANDBY` reads and answers, as `ssh -T root@standby.example` with that as its only command.

It runs for good, beside the server: it only reads the journal, and sends what is on its disk. It begins by comparing both
journals, and compares them again each hour; two that have parted aren't carried, and it says so. When the way is lost, either
side was killed, or a disk was full, it goes on from what the standby has."""
STATUSES = [
    (0, "--check: all that the leader had is acknowledged, within the limit"),
    (1, "a file can't be opened"),
    (2, "the words are none that it knows"),
    (9, "--check: the standby is behind by more than the limit, or nothing was acknowledged for so long"),
    (10, "--check: the two have parted, or their sites have different texts"),
    (13, "--check, --standby: nothing is known: it doesn't run, or the leader isn't heard"),
]
EXAMPLES = [
    ("alarm-carry /var/lib/alarm-server/journal -- ssh -T root@standby.example", "carries for good"),
    ("alarm-carry --check", "tells how the one that runs stands"),
    ("alarm-carry --standby /var/lib/alarm-server/standby", "on the standby: how many events it has, and when the leader was heard"),
]
LEADER = {
    "leader_events": "events that the leader's journal has on its disk", "standby_events": "events that the standby has acknowledged",
    "behind_events": "events that the standby hasn't acknowledged", "behind_seconds": "for how long the oldest event waits to be acknowledged",
    "acknowledged_seconds": "how old the last acknowledgement was when this was written",
    "parted": "1 where the two have parted, or their sites have different texts: nothing is carried",
    "compared": "1 where both were found to be of one history", "carried": "1 while a way is open and the standby answers",
    "ways": "how many ways were opened since it began", "pause_seconds": "how long it waits before it tries again, 0 where all is well",
}
FOLLOWER = {"standby_events": "events that the standby's journal has", "heard_timestamp_seconds": "when the leader was heard last"}


def parser():
    made = words.parser_of("alarm-carry", WHAT, STATUSES, EXAMPLES)
    made.usage = "alarm-carry JOURNAL [OPTION ..] -- WAY ..\n       alarm-carry --check [OPTION ..]\n       alarm-carry --standby STANDBY [OPTION ..]"
    made.add_argument("journal", nargs="?", metavar="JOURNAL", help="the journal of the server")
    made.add_argument("--check", action="store_true", help="tell how the carrying stands that runs on this machine, and end")
    made.add_argument("--standby", metavar="STANDBY", help="tell of a standby's journal on this machine, and end")
    made.add_argument("--state", metavar="FILE", default=STATE, help="where it keeps how it stands, for --check (%(default)s)")
    made.add_argument("--limit", type=float, metavar="SECONDS", default=LIMIT, help="how long an event may wait, and the standby be silent (%(default)s)")
    made.add_argument("--patience", type=whole, metavar="SECONDS", default=20, help="how long an answer is waited for, and a line on the standby (%(default)s)")
    made.add_argument("--compare-every", type=whole, metavar="SECONDS", default=3600, help="how often both journals are compared anew (%(default)s)")
    made.add_argument("--textfile", metavar="FILE", help="write metrics for Prometheus to a file, which is replaced at once")
    made.add_argument("--json", action="store_true", help="with --check and --standby: as one line of JSON")
    made.set_defaults(call=carry, way=[])
    return made


def whole(text):
    """A number of seconds of at most five digits."""
    if not re.fullmatch(r"[1-9][0-9]{0,4}", text):
        raise argparse.ArgumentTypeError(f"{text!r} is no whole number of seconds from 1 to 99999")
    return int(text)


def carry(given):
    asked = [bool(given.check), bool(given.standby), bool(given.journal)]
    if sum(asked) != 1 or given.journal and not given.way:
        raise Ends(words.USAGE, "one of these is wanted: JOURNAL -- WAY.., --check, or --standby STANDBY")
    return check(given) if given.check else watch(given) if given.standby else carry_for_good(given)


# The daemon.


def say(text):
    """Says a line. Where nobody takes it, as on a full disk, it is lost, and ends nothing."""
    try:
        print(text, flush=True)
    except OSError:
        pass


def replace(path, text):
    """Writes a file anew at once."""
    path = pathlib.Path(path)
    beside = path.with_name(f".{path.name}.{os.getpid()}")
    try:
        beside.write_text(text, encoding="utf-8")
        beside.chmod(0o644)
        os.replace(beside, path)
    except OSError as error:
        beside.unlink(missing_ok=True)
        raise Ends(CANNOT_OPEN, f"{path}: {error.strerror}") from None


class Notes:
    """Writes how it stands, now and then. A file that can't be written is told, and ends nothing."""

    def __init__(self, given, state):
        self.given, self.state, self.next, self.failed = given, state, [0.0, 0.0], set()

    def write(self):
        for place, (path, every, text_of) in enumerate([(self.given.state, STATE_EVERY, json.dumps), (self.given.textfile, TEXT_EVERY, leader_text)]):
            if path and time.monotonic() >= self.next[place]:
                self.next[place] = time.monotonic() + every
                self.put(path, text_of(self.state.told()))

    def put(self, path, text):
        try:
            replace(path, text)
            self.failed.discard(path)
        except Ends as fault:
            if path not in self.failed:
                say(f"not written: {fault}")
            self.failed.add(path)


def carry_for_good(given):
    state = State(say)
    notes = Notes(given, state)
    with words.opened(given.journal, "rb"):
        pass
    Carry(given.journal, given.way, state, notes.write, given.patience, given.compare_every).run()


# Metrics.


def metric_lines(prefix, meanings, told):
    for name, what in meanings.items():
        if name in told:
            yield f"# HELP {prefix}{name} {what}\n# TYPE {prefix}{name} gauge\n{prefix}{name} {told[name]:.15g}\n"


def leader_text(told):
    stamp = {"scrape_timestamp_seconds": "when this was written"}
    return "".join(metric_lines("alarm_carry_", {**LEADER, **stamp}, {**told, "scrape_timestamp_seconds": told["moment"]}))


# For people.


def check(given):
    """Tells how the carrying stands, by the file that it writes each second."""
    try:
        told = json.loads(pathlib.Path(given.state).read_text(encoding="utf-8"))
        since = time.time() - told["moment"]
    except FileNotFoundError:
        raise Ends(SILENT, f"nothing is carried here: there is no {given.state}") from None
    except (OSError, ValueError, KeyError) as fault:
        raise Ends(CANNOT_OPEN, f"{given.state}: {fault}") from None
    told["acknowledged_seconds"] += max(since, 0)
    told["behind_seconds"] += max(since, 0) if told["behind_events"] else 0
    status = status_of(told, since, given.limit)
    if given.json:
        words.put(words.json_line({**told, "status": status}))
    else:
        words.put(check_text(told, since))
    return status


def status_of(told, since, limit):
    # Before the first comparison nothing is known of the standby.
    if since > limit or not told["carried"] and told["verdict"] == NO_DIGEST:
        return SILENT
    if told["parted"]:
        return PARTED
    late = max(told["behind_seconds"], told["acknowledged_seconds"]) > limit
    return BEHIND if late or not told["carried"] and told["behind_events"] else DONE


def check_text(told, since):
    if since > STATE_EVERY * 10:
        return f"it hasn't run for {words.length_text(since)}; then the leader had {told['leader_events']:,} events, and the standby {told['standby_events']:,}"
    behind = told["behind_events"]
    waits = f"{behind:,} behind, for {told['behind_seconds']:.1f} s" if behind else "none behind"
    return (
        f"leader {told['leader_events']:,} events, standby {told['standby_events']:,}, {waits}; acknowledged {told['acknowledged_seconds']:.1f} s ago\n"
        f"{told['text']}"
    )


# On the standby.


def watch(given):
    """Tells of a standby's journal, and when the leader was heard."""
    told = standby_told(given.standby)
    if given.textfile:
        replace(given.textfile, "".join(metric_lines("alarm_standby_", FOLLOWER, {**told, "standby_events": told["events"]})))
    since = time.time() - told["heard_timestamp_seconds"]
    heard = f"the leader was heard {words.length_text(since)} ago" if told["heard_timestamp_seconds"] else "the leader was never heard"
    words.put(words.json_line(told) if given.json else f"{given.standby}: {told['events']:,} events; {heard}")
    return SILENT if since > given.limit else DONE


def standby_told(path):
    try:
        with journal.Journal(path) as it:
            events = 0 if it.header.blank else journal.events_in(it.settled())
    except OSError as error:
        raise Ends(CANNOT_OPEN, f"{path}: {error.strerror}") from None
    except journal.NoJournal as fault:
        raise Ends(CANNOT_OPEN, f"{path}: {fault}") from None
    try:
        heard = float(pathlib.Path(f"{path}.heard").read_text(encoding="ascii"))
    except (OSError, ValueError):
        heard = 0
    return {"standby": path, "events": events, "heard_timestamp_seconds": heard}


def main(given=None):
    """What stands behind the first -- is the way, with its own options."""
    given = sys.argv[1:] if given is None else given
    place = given.index("--") if "--" in given else len(given)
    made = parser()
    made.set_defaults(way=given[place + 1 :])
    return words.run(made, given[:place])
