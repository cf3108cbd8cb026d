"""What a replay tells: each line by its parts, as JSON has it, and as text."""
import json

from . import journal, names, octets, replay_site, words

# The kinds of lines, in the order in which they are told, with the words before each.
KINDS = {
    "left-out": "left out", "stays": "stays", "not-as-it-was": "not as it was", "gone": "gone", "come": "come", "from-now-on": "from now on",
}
INCOMPLETE = 4


def lines_of(of):
    """All that a replay has to tell."""
    told = [line for it in of.told for line in line_of(of, it)]
    if not of.options.as_if:
        told += texts_lines(of.texts)
    told += moves_lines(of)
    order = list(KINDS)
    yield from sorted(told, key=lambda line: order.index(line["kind"]))


def line_of(of, it):
    """The line of what a replay noted."""
    texts, kind = of.texts, it["kind"]
    if kind == "left-out":
        return [{"kind": kind, "event": it["event"], **time_of(of, it["record"].moment), **event_of(of, it["record"]), "why": it["why"]}]
    if kind in ("stays", "from-now-on"):
        change = it["of"]
        item = texts.rows[1][change.object]
        row = {**texts.named(change.object), "key": replay_site.key_word(change.key, item), "value": told_value(item, change.key, it["now"])}
        if kind == "stays":
            return [{"kind": kind, **row, "event": it["event"], "text": change.after, "before": change.before}]
        return [{"kind": kind, **row, "value": change.after, "before": row["value"]}]
    which, what = it["of"]
    item = texts.rows[1].get(which)
    row = texts.named(which)
    if isinstance(what, list):
        return [{"kind": "left-out" if kind == "not-let-go" else "not-as-it-was", **row, "recipient": replay_site.recipient(one), "why": it["why"]} for one in what]
    return [{"kind": "left-out" if kind == "not-let-go" else "not-as-it-was", **row, "key": replay_site.key_word(what, item), "why": it["why"]}]


def time_of(of, moment):
    return {"moment": moment, "time": of.texts.new.zone.text(moment)}


def event_of(of, record):
    """What an event did, by names."""
    fields, row = record.fields, {"act": journal.ACTS[record.act]}
    if "object" in fields:
        row |= of.texts.named(fields["object"])
    if "property" in fields:
        row |= {"property": names.named(names.PROPERTIES, fields["property"]), "value": plain_value(fields["object"], *fields["value"])}
    if "reliability" in fields:
        row["reliability"] = names.named(names.RELIABILITIES, fields["reliability"])
    if "transition" in fields:
        row |= {"transition": names.TRANSITIONS[fields["transition"]], "state": names.STATES[fields["state"]]}
    if "class" in fields:
        row |= of.texts.named((15, fields["class"]))
    return row | ({"peer": fields["peer"]} if "peer" in fields else {})


def plain_value(of, tag, value):
    """A value as the tools write it: a binary one by its name."""
    return ("inactive", "active")[value] if tag == octets.ENUMERATED and names.OBJECT_TYPES.get(of[0]) == "binary-value" and value in (0, 1) else value


def told_value(item, key, element):
    """The value that an element is, as a text of a site has it."""
    if element is None:
        return None
    found = octets.elements(element)[0]
    if found.number == octets.BITS:
        return octets.bits_of(found)
    if found.number == octets.TEXT:
        return octets.text_of(found)
    value = octets.number_of(found)
    return bool(value) if found.number == octets.BOOLEAN else plain_value(item["object"], found.number, value)


def texts_lines(texts, is_state=False):
    """What the texts have differently: what holds for the past too, where events are played, and what is there or gone from now on."""
    for item, key, before, after, past in texts.others():
        row = {**texts.named(item["object"]), "key": replay_site.key_word(key, item)}
        yield {"kind": "not-as-it-was", **row} if past and not is_state else {"kind": "from-now-on", **row, "value": after, "before": before}
    for which, word in ((1, "there"), (0, "gone")):
        for one in texts.alone(which):
            yield {"kind": "from-now-on", **texts.named(one), "is": word}
    for which, tells in ((1, True), (0, False)):
        for one, elements in texts.list_changes(which):
            for it in elements:
                yield {"kind": "from-now-on", **texts.named((15, one)), "tells": tells, "recipient": replay_site.recipient(it)}
    yield from bindings_lines(texts)


def state_lines(texts, stays):
    """What a translation of a state has to tell: all of it is from now on, but for what was written over the network."""
    kept = {(of, key) for of, key, _ in stays}
    for of, key, value in stays:
        change = texts.change_of((of, key))
        yield {"kind": "stays", **texts.named(of), "key": replay_site.key_word(key, texts.rows[1][of]), "value": value, "event": None, "text": change.after, "before": change.before}
    for it in texts.changed():
        if (it.object, it.key) not in kept:
            row = {**texts.named(it.object), "key": replay_site.key_word(it.key, texts.rows[1][it.object])}
            yield {"kind": "from-now-on", **row, "value": it.after, "before": it.before}
    for line in texts_lines(texts, True):
        yield line


def bindings_lines(texts):
    """Devices that a request may name as recipients."""
    before, after = ({it["device"]: it["address"] for it in site.bindings} for site in (texts.old, texts.new))
    for device in sorted(set(before) | set(after)):
        if before.get(device) != after.get(device):
            yield {"kind": "from-now-on", "object": f"device:{device}", "name": None, "key": "binding", "value": after.get(device), "before": before.get(device)}


def moves_lines(of):
    """The moves that the new text has not, or has besides."""
    for (moment, which, before, after), count in sorted(of.moves.items()):
        for _ in range(abs(count)):
            yield {"kind": "gone" if count > 0 else "come", **time_of(of, moment), **of.texts.named(names.object_from(which)), "from": before, "to": after}


# As text.


def text_of(line):
    """A line as text."""
    if line["kind"] == "end":
        return end_text(line)
    what = {"left-out": left_text, "stays": stays_text, "not-as-it-was": past_text, "gone": move_text, "come": move_text, "from-now-on": now_text}
    return words.printable(f"{KINDS[line['kind']]}: {what[line['kind']](line)}")


def when(line):
    return line["time"][:19].replace("T", " ")


def called(line):
    return words.named(line["object"], line["name"])


def valued(value):
    return value if isinstance(value, str) else json.dumps(value, ensure_ascii=False)


def left_text(line):
    if "event" not in line:
        what = f"recipient {line['recipient']}" if "recipient" in line else f"{line['key']}"
        return f"{what} of {called(line)}: {line['why']}"
    detail = {
        "acknowledgement": lambda: f" to {line['state']}", "write": lambda: f" {line['property']} = {valued(line['value'])}",
        "fault": lambda: f" {line['reliability']}",
    }.get(line["act"], lambda: "")()
    of = f" of {called(line) if 'object' in line else line['peer']}" if "object" in line or "peer" in line else ""
    return f"event {line['event']}, {when(line)}, {line['act']}{of}{detail}: {line['why']}"


def stays_text(line):
    by = f", written by event {line['event']}" if line["event"] else ""
    return f"{called(line)} {line['key']} {valued(line['value'])}{by}; the text has {valued(line['text'])} in place of {valued(line['before'])}"


def past_text(line):
    if "why" in line:
        what = f"recipient {line['recipient']}" if "recipient" in line else line["key"]
        return f"{called(line)} {what} holds for the past too: {line['why']}"
    return f"{called(line)} {line['key']} holds for the past too"


def move_text(line):
    return f"{when(line)}, {called(line)} {line['from']} -> {line['to']}"


def now_text(line):
    if "is" in line:
        return f"{called(line)} is {line['is']}"
    if "tells" in line:
        return f"{called(line)} {'tells' if line['tells'] else 'doesn' + chr(39) + 't tell'} {line['recipient']}"
    return f"{called(line)} {line['key']} {valued(line['value'])} in place of {valued(line['before'])}"


def end_text(line):
    """The last line, which tells how many events there are and whether all of it was taken."""
    rest = [f"{line['left_out']:,} left out"] if line["left_out"] else []
    rest += [f"{line['stays']:,} {'stays' if line['stays'] == 1 else 'stay'} as {'it was' if line['stays'] == 1 else 'they were'} written"] if line["stays"] else []
    counts = f"{line['events']:,} events, {line['of_journal']:,} of {line['source']} and {line['of_change']:,} of the change; {', '.join(rest) or 'nothing left out'}"
    return f"{line['journal']}: {counts}" if line["journal"] else f"nothing was made: {line['called'] or 'it'} would have {counts}"


def status_of(outcome):
    return INCOMPLETE if outcome.end["left_out"] or outcome.end["stays"] else words.DONE
