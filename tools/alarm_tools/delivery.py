"""What becomes of the notifications for one recipient, by the rules of docs/PROFILE.md, "Notes on their way" (ANSI/ASHRAE 135-2020, 5.4.4, 13.8 and 13.9).

It is a second reading of them beside the program's: what a pump sends, and what it gives up, with `flush_silent` and without.
"""
import collections

# For how many milliseconds an answer is awaited, how often a notification is sent again, and whether a giving up takes all that stands behind it.
Timing = collections.namedtuple("Timing", "timeout retries flush")
# What a pump did for one recipient: how many datagrams it sent, and how many notifications it gave up, of which all but the first were never sent.
Pumped = collections.namedtuple("Pumped", "sent given_up", defaults=[0, 0])


def timing_of(device):
    return Timing(device["apdu_timeout"], device["retries"], device["flush_silent"])


class Delivery:
    """The notifications for a recipient that aren't finished, in their order: of each, whether it is to be confirmed. The first was sent so often, and its answer is awaited until a moment."""

    def __init__(self, waiting=(), attempts=0, deadline=0):
        self.waiting, self.attempts, self.deadline = collections.deque(waiting), attempts, deadline

    def queue(self, confirmed):
        self.waiting.append(confirmed)

    def answer(self):
        """An answer with the invoke ID of what is in flight came."""
        if self.attempts:
            self.waiting.popleft()
            self.attempts = self.deadline = 0

    def pump(self, moment, timing):
        """What is due is sent."""
        if self.attempts and moment < self.deadline:
            return Pumped()
        if 0 < self.attempts <= timing.retries:
            self.attempts, self.deadline = self.attempts + 1, moment + timing.timeout
            return Pumped(1)
        given_up = self.give_up(timing.flush) if self.attempts else 0
        return Pumped(0 if given_up and timing.flush else self.send(moment, timing.timeout), given_up)

    def give_up(self, flush):
        """The first is given up, and where `flush` says so all behind it."""
        count = len(self.waiting) if flush else 1
        for _ in range(count):
            self.waiting.popleft()
        self.attempts = self.deadline = 0
        return count

    def send(self, moment, timeout):
        """What was never sent goes out, up to and with the first that is to be confirmed, which is in flight then."""
        sent = 0
        while self.waiting:
            sent += 1
            if self.waiting[0]:
                self.attempts, self.deadline = 1, moment + timeout
                break
            self.waiting.popleft()
        return sent
