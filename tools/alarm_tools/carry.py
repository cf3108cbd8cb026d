"""Carries a journal that is in use to a standby, as its events come: what `alarm-carry` does for good."""
import collections
import time

from . import journal, same
from .carry_source import Changed, Offers, Source
from .carry_way import BEAT, FEW, FLYING, MOST_LINES, Way, WayLost, opened

# How often the journal is looked at.
POLL = 0.01
# How often the leader's events are counted while nothing is carried, and a standby is begun anew while neither side has an event.
COUNT, EMPTY = 15, 20
# For how long is waited behind a way that was lost; and before two that have parted are compared again, which takes the longer the
# larger they are.
SOONEST, LATEST, PARTED_WAIT = 0.2, 15, 2
# What the statuses of `alarm-server standby` mean.
OTHER_TEXT = 3
MEANINGS = {
    1: "the standby's files can't be opened", 3: "the standby's site has another text, or is refused", 4: "a line was refused: the other end is no standby, or one of another version", 7: "the disk of the standby is full, or fails",
    8: "the standby's journal is refused", 75: "the standby's journal is in use", 255: "ssh can't reach it",
}
GOOD, UNTOLD, PARTED, OTHER_SITE, NO_DIGEST = "same", "untold", "parted", "other-site", "not-compared"
VERDICTS = {0: GOOD, same.PARTED: PARTED, same.OTHER_SITE: OTHER_SITE, same.UNTOLD: UNTOLD}


class Parted(Exception):
    """The two don't go together: nothing is carried."""


class State:
    """How the carrying stands: for lines, metrics and people."""

    def __init__(self, say):
        self.say, self.text = say, ""
        self.leader = self.standby = 0
        self.acknowledged_at, self.verdict, self.compared_at = None, NO_DIGEST, None
        self.begun, self.ways, self.is_carried, self.pause = time.monotonic(), 0, False, 0.0
        # Numbers of events that aren't acknowledged yet, each with when it was seen.
        self.seen = collections.deque()

    def tell(self, text):
        """Says something that has changed, once."""
        if text != self.text:
            self.text = text
            self.say(text)

    def see(self, events):
        """The leader has so many events."""
        if events > max(self.leader, self.standby):
            self.seen.append((events, time.monotonic()))
        self.leader = max(events, 0)

    def acknowledge(self, events):
        """The standby has so many events on its disk."""
        self.standby, self.acknowledged_at = events, time.monotonic()
        while self.seen and self.seen[0][0] <= events:
            self.seen.popleft()

    def age(self):
        """For how many seconds nothing was acknowledged."""
        return time.monotonic() - (self.begun if self.acknowledged_at is None else self.acknowledged_at)

    def told(self):
        """All of it by names."""
        behind = max(self.leader - self.standby, 0)
        return {
            "leader_events": self.leader, "standby_events": self.standby, "behind_events": behind,
            "behind_seconds": round(time.monotonic() - self.seen[0][1], 3) if self.seen else 0, "acknowledged_seconds": round(self.age(), 3),
            "parted": int(self.verdict in (PARTED, OTHER_SITE)), "compared": int(self.verdict == GOOD), "verdict": self.verdict,
            "carried": int(self.is_carried), "ways": self.ways, "pause_seconds": round(self.pause, 3), "text": self.text, "moment": round(time.time(), 3),
        }


class Carry:
    """The carrying of one journal over one way: how long it waits for an answer, and how often both journals are compared, is given."""

    def __init__(self, path, words, state, note, patience, compare_every):
        self.path, self.words, self.state, self.note = path, words, state, note
        self.patience, self.compare_every = patience, compare_every
        self.wait, self.counted, self.good = SOONEST, 0.0, ""

    def run(self):
        """Carries for good: whatever comes in between, it is tried again."""
        while True:
            begun = time.monotonic()
            try:
                self.carry()
                self.wait = SOONEST
                continue
            except Parted as fault:
                self.state.tell(f"NOT CARRIED: {fault}")
                wait = PARTED_WAIT + 10 * (time.monotonic() - begun)
            except (WayLost, Changed, OSError, journal.NoJournal) as fault:
                wait = self.failed(fault)
            self.state.is_carried, self.state.pause = False, wait
            self.idle(wait)

    def failed(self, fault):
        """What comes of a fault: for how long is waited."""
        status = getattr(fault, "status", None)
        self.state.tell(f"not carried: {fault}{f': {MEANINGS[status]}' if status in MEANINGS else ''}")
        if status == OTHER_TEXT:
            self.state.verdict = OTHER_SITE
        wait, self.wait = self.wait, min(self.wait * 2, LATEST)
        return wait

    def idle(self, seconds):
        """Waits, and lets how it stands be told meanwhile."""
        until = time.monotonic() + seconds
        while (left := until - time.monotonic()) > 0:
            self.see_leader()
            self.note()
            time.sleep(min(left, 1))

    def see_leader(self):
        """Looks now and then how many events the leader has, while nothing is carried."""
        if time.monotonic() < self.counted + COUNT:
            return
        self.counted = time.monotonic()
        try:
            with journal.Journal(self.path) as it:
                self.state.see(0 if it.header.blank else journal.events_in(it.settled()))
        except (OSError, journal.NoJournal):
            pass

    def carry(self):
        """Carries over one way, until it is time for the next one."""
        source = Source(self.path)
        try:
            if source.is_blank():
                raise Changed("the journal is blank: nothing was kept in it yet")
            self.state.ways += 1
            with Way(self.words, self.patience) as way:
                digest, events = opened(way, source.site(), self.note)
                self.compare(source, digest, events)
                self.stream(source, way, events)
        finally:
            source.close()

    def compare(self, source, digest, events):
        """Sees that both are of one history; what has parted isn't carried."""
        total = source.total()
        self.state.see(total)
        self.state.compared_at = time.monotonic()
        if digest is None:
            self.state.verdict = NO_DIGEST
        else:
            verdict = source.compared(digest)
            self.state.verdict = VERDICTS[verdict.status]
            if self.state.verdict in (PARTED, OTHER_SITE):
                raise Parted(verdict.text)
        if events > total:
            self.state.verdict = PARTED
            raise Parted(f"they have parted: the leader has {total} events, and the standby {events}")
        self.state.acknowledge(events)
        self.good = f"carried from event {events} on; {TEXTS[self.state.verdict]}"

    def is_well(self):
        """The standby takes what it is sent. Only then the next pause is a short one: its disk may be full, which it says of no comparison."""
        self.state.is_carried, self.state.pause, self.wait = True, 0.0, SOONEST
        self.state.tell(self.good)

    def stream(self, source, way, events):
        """Sends what comes, and takes what is answered, until the standby is to be begun anew."""
        offers = Offers(source, 0 if self.state.verdict == UNTOLD else events)
        if not offers.has_some():
            self.is_well()
        until, beat = time.monotonic() + (self.compare_every if offers.has_some() else EMPTY), 0.0
        while time.monotonic() < until and way.sent < MOST_LINES or way.owed:
            anew = time.monotonic() >= until or way.sent >= MOST_LINES
            if not anew:
                source.check()
                beat = self.send(offers, way, beat)
            way.wait(POLL)
            for line in way.lines():
                self.answer(line, way)
            way.see_patience()
            self.note()

    def send(self, offers, way, beat):
        """Sends packets while few are on their way, and the last one again where there is nothing else. Gives when that is next."""
        while way.owed < FLYING:
            packet = offers.next()
            if packet is None and (way.owed >= FEW or not offers.more()):
                break
            self.state.see(offers.source.events)
            if packet:
                way.give(packet[1])
                beat = time.monotonic() + BEAT
        if time.monotonic() >= beat and not way.owed:
            way.give(offers.again) if offers.again else way.say(b"\n")
            beat = time.monotonic() + BEAT
        return beat

    def answer(self, line, way):
        """Takes what the standby answers to a packet."""
        _, word, number = (line.split(" ") + ["", ""])[:3]
        way.owed -= 1
        if word in ("taken", "repeat") and number.isdigit():
            self.state.acknowledge(int(number))
            self.is_well()
        elif word != "part":
            raise WayLost(f"the standby answers {line[:100]!r}")


TEXTS = {
    GOOD: "both have one history", NO_DIGEST: "the standby's command doesn't compare histories: it is of an older version",
    UNTOLD: "whether both have one history can't be told, so all is sent once more",
}
