"""Which alarms are looked at: by class, priority, state, text, and whether they wait or have come since somebody looked."""
import collections
import json
import os
import pathlib

from . import names, words

# None, or an empty set, lets all pass. Priorities are from the first to the second one; a text stands in the name, the object or the message.
Filter = collections.namedtuple("Filter", "classes priorities states text waiting", defaults=[frozenset(), None, frozenset(), "", False])
STATES = tuple(names.STATES.values())


def add_words(parser):
    """The options of what lists alarms."""
    parser.add_argument("--class", dest="classes", action="append", default=[], metavar="CLASS", help="of a class alone: its instance or its name; again for further ones")
    parser.add_argument("--state", dest="states", action="append", default=[], choices=STATES, help="in a state alone; again for further ones")
    parser.add_argument("--priority", metavar="N|LOW-HIGH", help="of a priority up to N, which is as urgent or more, or from LOW to HIGH")
    parser.add_argument("--text", default="", metavar="TEXT", help="with a text in the name, the object or the message, in capitals or not")
    parser.add_argument("--waiting", action="store_true", help="what is to be acknowledged alone")


def filter_of(given):
    """The filter of words, but for its classes, which may be names of the server's."""
    try:
        return made([], given.priority, given.states, given.text, given.waiting)
    except ValueError as error:
        raise words.Ends(words.USAGE, str(error)) from None


def made(classes, priority, states, text, waiting):
    """A filter of texts, as options and pages have them."""
    for it in classes:
        if not it.isdecimal():
            raise ValueError(f"{it!r} is no class: its instance is wanted, as 7")
    for it in states:
        if it not in STATES:
            raise ValueError(f"{it!r} is no state: one of {', '.join(STATES)} is wanted")
    return Filter(frozenset(map(int, classes)), priorities_of(priority), frozenset(states), text.strip(), waiting)


def priorities_of(text):
    """The priorities that N or LOW-HIGH lets pass."""
    low, dash, high = (text or "").partition("-")
    if not text:
        return None
    if not (low.isdecimal() and (high.isdecimal() or not dash)):
        raise ValueError(f"{text!r} is no priority: N or LOW-HIGH is wanted, from 0 to 255")
    return (int(low), int(high)) if dash else (0, int(low))


def passes(of, alarm):
    """Whether a filter lets an alarm pass."""
    low, high = of.priorities or (0, 255)
    text = of.text.casefold()
    shown = [alarm["name"] or "", alarm["object"], alarm["text"] or "", alarm["value_text"]]
    return (
        (not of.classes or alarm["class"] in of.classes) and (not of.states or alarm["state"] in of.states) and low <= alarm["priority"] <= high
        and (not of.waiting or bool(alarm["unacknowledged"])) and (not text or any(text in it.casefold() for it in shown))
    )


def passed(of, found):
    return [it for it in found if passes(of, it)]


class Looked:
    """What was looked at before, in a file: of each object the stamps of its transitions."""

    def __init__(self, path):
        self.path, self.before = pathlib.Path(path), {}
        if self.path.exists():
            try:
                self.before = dict(json.loads(words.opened(self.path, encoding="utf-8").read()))
            except ValueError:
                raise words.Ends(words.CANNOT_OPEN, f"{path}: it isn't what --looked keeps") from None

    def new(self, found):
        """Those that came since then, or moved since then."""
        return [it for it in found if self.before.get(it["object"]) != it["times"]]

    def keep(self, found):
        """Keeps what was looked at now."""
        beside = self.path.with_name(f".{self.path.name}.{os.getpid()}")
        try:
            beside.write_text(words.json_line({it["object"]: it["times"] for it in found}) + "\n", encoding="utf-8")
            os.replace(beside, self.path)
        except OSError as error:
            raise words.Ends(words.CANNOT_OPEN, f"{self.path}: {error.strerror}") from None
