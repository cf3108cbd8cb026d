"""alarm-feed: writes values to a server, line by line and until they are taken, or those of a plant that is made up."""
import collections
import os
import pathlib
import sys
import threading
import time

from . import client, curves, finding, names, octets, values, words
from .client import NoAnswer, Refusal
from .words import CANNOT_OPEN, DONE, USAGE, Ends

WHAT = """\
Writes values to a server: lines 'OBJECT VALUE' from standard input, in their order. OBJECT is KIND:INSTANCE, or its name in quotes,
as "Flow temperature". A value that isn't answered is written again until it is; of those that come meanwhile the last one of each
object counts. Once somebody answers again, all last values are written again. One that is refused is told on standard error and left
out, but for an Abort 0, where the outbox is full: that one is written again until it is taken.

Each minute, and with each pair of --alive, it reads back what it wrote. What differs is written again, and told on standard error, as
where a server began on another journal. An object that is out of service is left as it is.

With --settle an object changes at most once in so many seconds: what comes sooner behind a change is held back, and of that the last
value is written once the time is over, also where the input has ended meanwhile. So the first change of a contact that chatters is
written at once, and the state in which it stays is never lost.

With --keep the last value of each object is kept in a file before it is written, and all of them are written at the start.
With --alive a binary value is set to inactive and then to active again and again, so that an alarm comes where this tool is gone.

With --curves the values are those of a plant that is made up, of a file of lines 'OBJECT [repeat SECONDS] [noise N]: SECONDS
VALUE, SECONDS VALUE ..'. Numbers go on a line from point to point, and other values stay until the next one."""
STATUSES = [
    (0, "the input has ended, and all was taken"),
    (1, "a file can't be opened or written"),
    (2, "the words are none that it knows, or a line of the curves"),
    (4, "the input has ended, and something was refused, which is told"),
]
EXAMPLES = [
    ("read-the-field | alarm-feed --keep values", "writes what a program prints that reads the field"),
    ("alarm-feed --curves school.curves --speed 60", "an hour of a plant in a minute"),
    ("alarm-feed --curves school.curves --script 1704110400000 --for 7200 > lines", "the same as a script for a session"),
    ("read-the-field | alarm-feed --settle 2", "a contact that chatters is written once in two seconds"),
    ("read-the-field | alarm-feed --alive binary-value:9 --alive-within 300", "a dead-man alarm, also where the field has gone silent"),
]
# How long is waited behind a full outbox, in seconds, and of how many objects a look back tells by name.
AGAIN, MOST_TOLD = 1.0, 5


def parser():
    made = words.parser_of("alarm-feed", WHAT, STATUSES, EXAMPLES)
    client.add_words(made)
    made.add_argument("--keep", metavar="FILE", help="keep the last value of each object, and write all of them at the start")
    made.add_argument("--settle", type=client.seconds, metavar="SECONDS", help="change each object at most once in so long; of what comes sooner the last value is written once it is over")
    made.add_argument("--look-every", type=client.seconds, default=60.0, metavar="SECONDS", help="how often what was written is read back (%(default)s)")
    made.add_argument("--site", metavar="SITE", help="take names of objects from a site's text; without it the server is asked for them")
    made.add_argument("--alive", metavar="OBJECT", help="a binary value that is set to inactive and active again and again")
    made.add_argument("--alive-every", type=client.seconds, default=60.0, metavar="SECONDS", help="how often (%(default)s)")
    made.add_argument("--alive-within", type=client.seconds, metavar="SECONDS", help="only while the last line isn't older")
    made.add_argument("--textfile", metavar="FILE", help="write how much was written and refused, for Prometheus")
    made.add_argument("--curves", metavar="FILE", help="take values from curves in place of standard input")
    made.add_argument("--every", type=client.seconds, default=1.0, metavar="SECONDS", help="how often a curve is looked at, in the plant's time (%(default)s)")
    made.add_argument("--speed", type=client.seconds, default=1.0, metavar="N", help="how many times as fast as the clock the plant's time goes (%(default)s)")
    made.add_argument("--for", dest="length", type=client.seconds, metavar="SECONDS", help="end after so long in the plant's time")
    made.add_argument("--print", dest="prints", action="store_true", help="print lines in place of writing values")
    made.add_argument("--script", type=int, metavar="MOMENT", help="print a session's script that begins at a moment, at once")
    made.add_argument("--json", action="store_true", help="a line of JSON for each value, once it was taken or refused, or passed over for a later one")
    made.set_defaults(call=feed)
    return made


def say(text):
    print(f"alarm-feed: {text}", file=sys.stderr, flush=True)


class Kept:
    """The last value of each object. Where there is a file each is a line of it before it is written anywhere else."""

    def __init__(self, path):
        self.last, self.path, self.file = {}, path and pathlib.Path(path), None
        if not self.path:
            return
        try:
            for line in self.path.read_text(encoding="utf-8").splitlines() if self.path.exists() else []:
                of, _, word = line.partition(" ")
                self.last[names.object_from(of)] = word
            self.last = {of: word for of, word in self.last.items() if word}
            beside = self.path.with_name(f".{self.path.name}.{os.getpid()}")
            beside.write_text("".join(f"{names.object_text(of)} {word}\n" for of, word in self.last.items()), encoding="utf-8")
            os.replace(beside, self.path)
            self.file = open(self.path, "a", encoding="utf-8")
        except ValueError:
            raise Ends(CANNOT_OPEN, f"{path}: {line[:60]!r} is no line KIND:INSTANCE VALUE") from None
        except OSError as error:
            raise Ends(CANNOT_OPEN, f"{path}: {error.strerror}") from None

    def keep(self, of, word):
        """Keeps a value, or forgets that of an object where there is none."""
        self.last[of] = word
        if not word:
            del self.last[of]
        self.note(of, word)

    def note(self, of, word):
        """Has a value in the file alone: one that is to be written yet."""
        if self.file:
            self.file.write(f"{names.object_text(of)} {word}\n")
            self.file.flush()


class Queue:
    """The values that are still to be written, in their order."""

    def __init__(self):
        self.lines, self.ready, self.has_ended, self.came = collections.deque(), threading.Condition(), False, 0.0

    def put(self, of, word):
        with self.ready:
            self.lines.append((of, word))
            self.ready.notify()

    def put_again(self, kept):
        """Puts the kept value of each object of which no later one waits."""
        with self.ready:
            waiting = {of for of, _ in self.lines}
            self.lines.extend((of, word) for of, word in kept.items() if of not in waiting)
            self.ready.notify()

    def take(self, of, word):
        """Puts a value that came from outside."""
        self.came = time.monotonic()
        self.put(of, word)

    def waiting(self):
        """The objects of which a value waits."""
        with self.ready:
            return {of for of, _ in self.lines}

    def end(self):
        with self.ready:
            self.has_ended = True
            self.ready.notify()

    def next(self, until):
        """The next value, or None where none comes until a moment or the input has ended."""
        with self.ready:
            while not self.lines and not self.has_ended and (until is None or time.monotonic() < until):
                self.ready.wait(None if until is None else max(until - time.monotonic(), 0))
            return self.lines.popleft() if self.lines else None

    def is_done(self):
        with self.ready:
            return self.has_ended and not self.lines

    def only_last(self, of, word):
        """Keeps the last value of each object alone. One that was taken out goes back, where no later one is there."""
        with self.ready:
            rest = dict([(of, word)])
            for other, value in self.lines:
                rest.pop(other, None)
                rest[other] = value
            self.lines = collections.deque(rest.items())


def read_lines(queue, counts, find):
    """Puts the lines of standard input into the queue. A line that is none is told and counted."""
    try:
        for number, line in enumerate(sys.stdin, 1):
            line = line.rstrip("\r\n")
            if not line.strip() or line.startswith("#"):
                continue
            try:
                queue.take(*parsed(line, find))
            except ValueError as error:
                counts["refused"] += 1
                say(f"line {number}: {error}")
    finally:
        queue.end()


def parsed(line, find):
    """The object and the value of a line, which an object of its kind may have. `find` gives the object of a word."""
    if not line.isascii() and any("\ud800" <= it <= "\udfff" for it in line):
        raise ValueError("it isn't UTF-8")
    name, word = finding.split(line)
    of = find(name)
    if not word:
        raise ValueError(f"{line!r} has no value: KIND:INSTANCE VALUE is wanted")
    word = word if of[0] == names.OBJECT_NUMBERS["characterstring-value"] else word.strip()
    values.element_from(of, octets.PRESENT_VALUE, word)
    return of, word


# Curves.


def read_curves(path, find):
    with words.opened(path, encoding="utf-8") as file:
        try:
            return curves.read(file, find)
        except ValueError as error:
            raise Ends(USAGE, f"{path}: {error}") from None


def play_curves(given, made, put):
    """Gives each change at its time."""
    begun = time.monotonic()
    for seconds, found in curves.changes(made, given.every, given.length):
        time.sleep(max(0, begun + seconds / given.speed - time.monotonic()))
        for of, word in found.items():
            put(of, word)


def print_script(given, made):
    if given.length is None:
        raise Ends(USAGE, "--script wants --for, since it has to end")
    for seconds, found in curves.changes(made, given.every, given.length):
        moment = given.script + round(1000 * seconds)
        for of, word in found.items():
            words.put(curves.script_line(moment, of, word))
        words.put(f"tick {moment}\npump {moment}")
    return DONE


# Writing.


class Settling:
    """What is held back: of each object the last value that came within so many seconds of a change that the server took."""

    def __init__(self, seconds, words):
        self.seconds, self.words, self.taken, self.held = seconds, dict(words), {}, {}

    def took(self, of, word):
        """Notes that the server took a value. One that it had already is no change."""
        if self.seconds and self.words.get(of) != word:
            self.words[of], self.taken[of] = word, time.monotonic()

    def over(self, of):
        """When an object may be written again."""
        return self.taken[of] + self.seconds if of in self.taken else 0.0

    def holds(self, of, word):
        """Whether a value is held back, in place of one that was held before."""
        if self.over(of) <= time.monotonic():
            self.held.pop(of, None)
            return False
        self.held[of] = word
        return True

    def next_over(self):
        """When the first of those that are held may be written."""
        return min(map(self.over, self.held), default=None)

    def due(self):
        """A value that may be written now, which is held no more; or None."""
        of = min(self.held, key=self.over, default=None)
        return None if of is None or self.over(of) > time.monotonic() else (of, self.held.pop(of))


class Feeder:
    """Writes values one by one until each is taken or refused."""

    def __init__(self, given, asked, kept, queue, counts):
        self.given, self.asked, self.kept, self.queue, self.counts = given, asked, kept, queue, counts
        self.silent, self.alive_at, self.look_at = False, time.monotonic(), time.monotonic() + given.look_every
        self.alive, self.left, self.settling = None, {}, Settling(given.settle, kept.last)

    def run(self):
        self.queue.put_again(self.kept.last)
        self.queue.came = time.monotonic()
        while not self.queue.is_done() or self.settling.held:
            found = self.settling.due() or self.next_settled()
            if found:
                before = self.kept.last.get(found[0], "")
                self.kept.keep(*found)
                if not self.is_possible(*found):
                    self.kept.keep(found[0], before if before != found[1] else "")
            if self.alive and time.monotonic() >= self.alive_at:
                self.show_alive()
            if time.monotonic() >= self.look_at:
                self.look_back()
            self.write_counts()
        return words.REFUSED if self.counts["refused"] else DONE

    def next_settled(self):
        """The next value that isn't held back, or None where none comes until something else is to be done."""
        moments = [self.look_at, *[self.alive_at] * bool(self.alive), *[self.settling.next_over()] * bool(self.settling.held)]
        found = self.queue.next(min(moments))
        if not found:
            if self.queue.is_done() and self.settling.held:
                time.sleep(max(0.0, min(moments) - time.monotonic()))
            return None
        of, word = found
        passed = self.settling.held.get(of)
        if passed is not None:
            self.counts["passed"] += 1
            self.tell(of, passed, "passed over")
        if not self.settling.holds(of, word):
            return found
        self.kept.note(of, word)
        return None

    def put_again(self, kept):
        """Has kept values written again, but for those of objects of which a later one is held back."""
        self.queue.put_again({of: word for of, word in kept.items() if of not in self.settling.held})

    def is_possible(self, of, word):
        """Writes a value, and says whether it isn't one that the server refuses for good. One that isn't answered goes back into the queue."""
        try:
            self.asked.write(of, octets.PRESENT_VALUE, values.element_from(of, octets.PRESENT_VALUE, word))
            self.counts["written"] += 1
            self.settling.took(of, word)
            self.tell(of, word, "taken")
            if self.silent:
                self.silent = False
                say(f"{self.asked.where()} answers again: all {len(self.kept.last)} values are written again")
                self.put_again(self.kept.last)
        except NoAnswer as fault:
            self.counts["unanswered"] += 1
            if not self.silent:
                say(f"{fault}; {names.object_text(of)} is written again until it is answered")
            self.silent = True
            self.queue.only_last(of, word)
        except Refusal as refusal:
            return self.may_come_again(of, word, refusal)
        return True

    def may_come_again(self, of, word, refusal):
        """Says whether a value that was refused is to be written again, which then goes back into the queue."""
        if (refusal.kind, refusal.code) == ("abort", 0):
            self.counts["full"] += 1
            if self.counts["full"] == 1 or self.counts["full"] % 60 == 0:
                say(f"{names.object_text(of)} {word}: {refusal}; it is written again until it is taken")
            self.queue.only_last(of, word)
            time.sleep(AGAIN)
            return True
        self.counts["refused"] += 1
        say(f"{names.object_text(of)} {word}: {refusal}")
        self.tell(of, word, str(refusal))
        return False

    def look_back(self):
        """Reads back what was written, and has written again what differs, as where the server began on another journal."""
        self.look_at = time.monotonic() + self.given.look_every
        waiting = self.queue.waiting() | set(self.settling.held)
        mine = {of: word for of, word in self.kept.last.items() if of not in waiting}
        try:
            found = self.asked.read_many([(of, number, None) for of in mine for number in (octets.PRESENT_VALUE, octets.OUT_OF_SERVICE)])
            self.asked.learn_names(of for of, word in mine.items() if found.get((of, octets.PRESENT_VALUE, None)) != written(of, word))
        except NoAnswer as fault:
            self.counts["unanswered"] += 1
            if not self.silent:
                say(f"{fault}; what was written is looked at again once somebody does")
            self.silent = True
            return
        except (Refusal, ValueError) as fault:
            say(f"what was written can't be read back: {fault}")
            return
        if self.silent:
            self.silent = False
            say(f"{self.asked.where()} answers again")
        told = []
        self.put_again({of: word for of, word in mine.items() if self.differs(of, word, found, told)})
        for line in told[:MOST_TOLD]:
            say(line)
        if told[MOST_TOLD:]:
            say(f"and so of {len(told) - MOST_TOLD} objects more")

    def differs(self, of, word, found, told):
        """Whether an object has another value than was written, and isn't left as it is. What is told of it comes to a list, and is told once."""
        has, out = (found.get((of, number, None)) for number in (octets.PRESENT_VALUE, octets.OUT_OF_SERVICE))
        name, why = words.named(names.object_text(of), self.asked.names.get(of)), None
        if not isinstance(has, list):
            why = f"{name} can't be read back: {values.error_text(has) if has else 'the answer has nothing of it'}"
        elif has == written(of, word):
            self.left.pop(of, None)
            return False
        elif isinstance(out, list) and octets.number_of(out[0]):
            why = f"{name} has {shown(of, has)} in place of {word}, and is out of service: it is left so"
        if why is None:
            self.left.pop(of, None)
            self.counts["restored"] += 1
            told.append(f"{name} has {shown(of, has)} in place of {word}: it is written again")
            return True
        told += [why] * (self.left.get(of) != why)
        self.left[of] = why
        return False

    def tell(self, of, word, what):
        if self.given.json:
            words.put(words.json_line({"object": names.object_text(of), "value": word, "answer": what}))

    def show_alive(self):
        """Sets the binary value that says that this tool lives, unless no line has come for too long."""
        self.alive_at = time.monotonic() + self.given.alive_every
        within = self.given.alive_within
        if within is not None and time.monotonic() - self.queue.came > within:
            return
        try:
            for word in ("inactive", "active"):
                self.asked.write(self.alive, octets.PRESENT_VALUE, values.element_from(self.alive, octets.PRESENT_VALUE, word))
            self.look_at = time.monotonic()
        except NoAnswer:
            self.counts["unanswered"] += 1
        except Refusal as refusal:
            say(f"{names.object_text(self.alive)}: {refusal}")

    def write_counts(self):
        if not self.given.textfile:
            return
        path = pathlib.Path(self.given.textfile)
        beside = path.with_name(f".{path.name}.{os.getpid()}")
        try:
            beside.write_text(textfile(self.counts), encoding="ascii")
            os.replace(beside, path)
        except OSError as error:
            raise Ends(CANNOT_OPEN, f"{path}: {error.strerror}") from None


COUNTED = {
    "written": "values that the server took", "refused": "values that it refused, and lines that are none",
    "full": "writes that an Abort 0 answered, since the outbox was full", "unanswered": "writes that nobody answered",
    "restored": "values that the server no longer had, and that were written again", "passed": "values that were held back by --settle, and passed over for a later one",
}


def written(of, word):
    """The elements that a Present_Value is once a word was written to it."""
    return octets.elements(values.element_from(of, octets.PRESENT_VALUE, word))


def shown(of, found):
    """A Present_Value that was read, as people read it."""
    return words.printable(values.text_of(values.value_of(of, octets.PRESENT_VALUE, found)))


def textfile(counts):
    return "".join(
        f"# HELP alarm_feed_{name}_total {what}\n# TYPE alarm_feed_{name}_total counter\nalarm_feed_{name}_total {counts[name]}\n" for name, what in COUNTED.items()
    )


def feed(given):
    finder = finding.Finder(given.site, lambda: client.client_of(given), say)
    made = read_curves(given.curves, finder.find) if given.curves else None
    if (given.prints or given.script is not None) and made is None:
        raise Ends(USAGE, "--print and --script want --curves")
    if given.settle and (given.prints or given.script is not None):
        raise Ends(USAGE, "--settle holds back what is written, and --print and --script write nothing")
    if given.script is not None:
        return print_script(given, made)
    if given.prints:
        play_curves(given, made, lambda of, word: words.put(f"{names.object_text(of)} {word}"))
        return DONE
    counts, queue, kept = collections.Counter(), Queue(), Kept(given.keep)
    threading.Thread(target=source, args=(made or finder.find, given, queue, counts), daemon=True).start()
    with client.client_of(given) as asked:
        feeder = Feeder(given, asked, kept, queue, counts)
        if given.alive:
            feeder.alive = alive_of(given.alive, finder.find)
        return feeder.run()


def alive_of(text, find):
    try:
        of = find(text)
    except ValueError as error:
        raise Ends(USAGE, str(error)) from None
    if of[0] != names.OBJECT_NUMBERS["binary-value"]:
        raise Ends(USAGE, f"{text} is no binary-value")
    return of


def source(of, given, queue, counts):
    """Fills the queue from curves, or from standard input by what finds its objects."""
    if not given.curves:
        read_lines(queue, counts, of)
        return
    try:
        play_curves(given, of, queue.take)
    finally:
        queue.end()


def main():
    return words.run(parser())
