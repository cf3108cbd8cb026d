"""Which objects gave alarms most often, from the event logs of a server: each is read once, and then only what is new in it."""
import collections
import datetime

from . import names, octets, values
from .client import Refusal

MANY, DAYS, MOST = 100, 7, 10
EVENT_LOG = names.OBJECT_NUMBERS["event-log"]
Frequent = collections.namedtuple("Frequent", "object count last")


class Logs:
    """The alarms and faults that a server's logs have."""

    def __init__(self, asked):
        self.asked, self.next, self.moves, self.reach = asked, {}, set(), {}

    def read(self):
        """Reads what is new in each log. One that has begun anew is read from its first record."""
        for log in [it for it in self.asked.objects() if it[0] == EVENT_LOG]:
            try:
                self.read_log(log)
            except Refusal:
                continue

    def read_log(self, log):
        total, count = (self.asked.number(log, it) for it in (octets.TOTAL_RECORD_COUNT, octets.RECORD_COUNT))
        oldest = max(1, total - count + 1)
        at = self.next.get(log, oldest)
        if at > total + 1:
            self.moves, at = {it for it in self.moves if it[0] != log}, oldest
        at = max(at, oldest)
        while at <= total:
            found = self.asked.answered(lambda invoke: octets.read_range(invoke, log, at, MANY), octets.range_read).records
            if not found:
                break
            for number, stamp, note in found:
                self.take(log, stamp, note, number)
            at = found[-1][0] + 1
        self.next[log] = at

    def take(self, log, stamp, note, number):
        if number == 1 or log not in self.reach:
            self.reach[log] = values.stamp_text(stamp), number == 1
        if note.notify_type != octets.ACKNOWLEDGED and note.to_state != octets.NORMAL:
            self.moves.add((log, note.object, bytes(note.stamp), note.to_state))

    def most(self, days=DAYS, count=MOST, now=None):
        """The objects with the most transitions to an alarm or a fault in so many days, and since when the logs tell of all of these days, or None.

        Days are counted by this machine's clock. A transition that stands in several logs counts once.
        """
        begin = ((now or datetime.datetime.now()) - datetime.timedelta(days=days)).strftime("%Y-%m-%d %H:%M:%S.00")
        self.moves = {it for it in self.moves if values.stamp_text(it[2]) >= begin}
        found = {}
        for of, stamp, _ in {it[1:] for it in self.moves}:
            found.setdefault(of, []).append(values.stamp_text(stamp))
        rows = [Frequent(of, len(stamps), max(stamps)) for of, stamps in found.items()]
        short = [since for since, is_first in self.reach.values() if not is_first and since > begin]
        return sorted(rows, key=lambda it: (-it.count, it.last, it.object))[:count], max(short, default=None)
