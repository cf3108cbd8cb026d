"""A session's report (docs/SCRIPT.md) in words: its lines, the datagrams in it decoded, and when each object was in which state."""
import collections
import re

from . import names, octets, values, words
from .client import refusal_of

# A line of a report: the script's line, what it is, its words, and the moment where it is known.
Line = collections.namedtuple("Line", "number kind words moment")
# When an object came from a state to another one.
Change = collections.namedtuple("Change", "moment before after")

ENDINGS = ("idle", "ignored", "reply")
GRAMMAR = [
    ("open", r"open (\d+)"), ("end", r"end (\d+) (\d+)"), ("entered", r"(\d+) entered (\d+) (\d+)"), ("idle", r"(\d+) (idle)"), ("ignored", r"(\d+) (ignored)"),
    ("reply", r"(\d+) (reply)"), ("refused", r"(\d+) refused ([a-z-]+)"), ("full", r"(\d+) full (\d+) (\d+)"),
    ("change", r"(\d+) change (\S+) ([a-z-]+) ([a-z-]+)"), ("send", r"(\d+) send (\S+) ([0-9a-f]+)"),
]


class NoReport(ValueError):
    """A line that no report has."""


def lines_of(text, script=None):
    """The lines of a report. A line's moment is that of its event; of others it is that of the script's line, where the script is at hand."""
    moment, said = None, script_lines(script)
    for place, line in enumerate(text, 1):
        line = line.rstrip("\n")
        kind, found = next(((kind, found) for kind, form in GRAMMAR if (found := re.fullmatch(form, line))), (None, None))
        if kind is None:
            raise NoReport(f"line {place} is none of a report: {line[:80]!r}")
        number = None if kind in ("open", "end") else int(found[1])
        if kind == "entered":
            moment = int(found[3])
        elif kind not in ("change", "send", "open", "end"):
            moment = said.get(number, (None, None))[0]
        yield Line(number, kind, found.groups(), moment)


def script_lines(script):
    """Of each line of a script its moment and its words."""
    found = {}
    for number, line in enumerate(script or [], 1):
        parts = line.rstrip("\n").split(" ")
        if len(parts) > 1 and parts[1].isdigit():
            found[number] = int(parts[1]), parts
    return found


# Datagrams.


def decoded(octets_sent):
    """What a datagram says, by names."""
    message, _ = octets.received(octets_sent)
    if (message.kind, message.number) == ("request", octets.CONFIRMED_EVENT_NOTIFICATION):
        return {"is": "confirmed notification", "invoke": message.invoke, **values.notification_words(octets.notification_of(message))}
    if message.kind == "unconfirmed":
        if message.number == octets.UNCONFIRMED_EVENT_NOTIFICATION:
            return {"is": "unconfirmed notification", **values.notification_words(octets.notification_of(message))}
        device, longest, _, vendor = octets.device_of(message)
        return {"is": "I-Am", "object": names.object_text(device), "max_apdu": longest, "vendor": vendor}
    told = {"is": message.kind, "invoke": message.invoke}
    if message.kind in ("error", "reject", "abort"):
        return told | {"says": str(refusal_of(message))}
    return told | {"service": names.named(names.SERVICES, message.number)} | (answer_of(message) if message.kind == "complex-ack" else {})


def summary_of(row):
    waits = names.transitions_in(not flag for flag in row.acknowledged)
    return {"object": names.object_text(row.object), "state": names.named(names.STATES, row.state), "unacknowledged": waits}


def summary_text(told, called):
    waits = f", {' and '.join(told['unacknowledged'])} not acknowledged" if told["unacknowledged"] else ""
    return f"{called(told['object'])} {told['state']}{waits}"


def answer_of(message):
    """What the answer of a service with a result has."""
    if message.number == octets.READ_PROPERTY:
        of, number, index, found = octets.values_read(message)
        name = names.named(names.PROPERTIES, number) + ("" if index is None else f"[{index}]")
        return {"object": names.object_text(of), "property": name, "value": values.value_of(of, number, found, index)}
    if message.number == octets.GET_EVENT_INFORMATION:
        rows, more = octets.summaries_of(message)
        return {"summaries": [summary_of(it) for it in rows], "more": more}
    if message.number == octets.READ_RANGE:
        found = octets.range_read(message)
        return {"object": names.object_text(found.object), "records": [values.notification_words(note) for _, _, note in found.records], "more": found.more}
    return {}


def decoded_text(told, called):
    """The same in words. `called` gives an object with its name."""
    kind = told["is"]
    if kind.endswith("notification"):
        invoke = f", invoke ID {told['invoke']}" if "invoke" in told else ""
        of = called(told["object"])
        return f"{kind}{invoke}: {values.notification_text(told | {'object': of})}"
    if kind == "I-Am":
        return f"I-Am: {called(told['object'])}, vendor {told['vendor']}"
    if "says" in told:
        return f"{told['says']}, invoke ID {told['invoke']}"
    head = f"{'SimpleACK' if kind == 'simple-ack' else 'ComplexACK'} of {told['service']}, invoke ID {told['invoke']}"
    if "property" in told:
        return f"{head}: {called(told['object'])} {told['property']} = {values.text_of(told['value'])}"
    if "summaries" in told:
        rows = "; ".join(summary_text(it, called) for it in told["summaries"])
        return f"{head}: {rows or 'nothing is active'}{'; and more' if told['more'] else ''}"
    if "records" in told:
        return f"{head}: {len(told['records'])} records of {called(told['object'])}{', and more' if told['more'] else ''}"
    return head


# When which object was in which state.


def changes_of(lines):
    """The changes of each object, by KIND:INSTANCE, and the first and the last moment that a line has."""
    found, moments = {}, []
    for line in lines:
        if line.moment is not None:
            moments.append(line.moment)
        if line.kind == "change" and line.moment is not None:
            found.setdefault(line.words[1], []).append(Change(line.moment, line.words[2], line.words[3]))
    return found, (min(moments), max(moments)) if moments else None


def spans_of(changes, begin, end):
    """The states of an object, one after the other: from when, to when, and the state."""
    spans, since = [], begin
    for change in changes:
        if change.moment > since:
            spans.append((since, change.moment, change.before))
        since = max(since, change.moment)
    return [*spans, (since, end, changes[-1].after)]


MARKS = {"normal": ".", "fault": "F", "offnormal": "#", "high-limit": "^", "low-limit": "v"}
LEGEND = "  ".join(f"{mark} {state}" for state, mark in MARKS.items())


def timeline_lines(changes, bounds, zone, called, width):
    """A line for each object, each character a while: the state in it, and of two the one that isn't normal."""
    begin, end = bounds
    head = max((len(called(it)) for it in changes), default=0)
    columns = max(10, width - head - 2)
    step = max((end - begin) / columns, 1)
    yield f"{zone.shown(begin)} to {zone.shown(end)}, each character {words.length_text(step / 1000) if step >= 2000 else f'{step:.0f} ms'}:  {LEGEND}"
    for of, its in changes.items():
        spans = spans_of(its, begin, end)
        marks = []
        for column in range(columns):
            since, until = begin + column * step, begin + (column + 1) * step
            states = [state for start, stop, state in spans if start < until and (stop > since or start == stop >= since)]
            marks.append(MARKS[next((it for it in states if it != "normal"), "normal")])
        yield f"{called(of).ljust(head)}  {''.join(marks)}"
