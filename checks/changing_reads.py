"""What a client reads of a journal's site, and what it has to read behind a change: the rules of docs/JOURNAL.md, "A replay", once more."""
import re

import bacnet
from alarm_tools import names
from changing_sites import play

# The properties that are the state of an alarm, and those that can be written, by the word of a replay's lines.
STATE = {0, 36, 103, 111, 130, 351}
# The keys by which an object without an alarm is in fault, which no move tells.
FAULT_KEYS = {"fault-low", "fault-high", "fault-values", "reliability-inhibit", "reliability-evaluation-inhibit"}
LATE = 4_000_000_000_000
KEYS = {
    "high": 45, "low": 59, "deadband": 25, "limit_enable": 52, "time_delay": 113, "time_delay_normal": 356, "alarm_value": 6, "enable": 35, "inhibit": 354,
    "out_of_service": 81, "reliability_inhibit": 357,
}
SECTIONS = {"class": 15, "enrollment": 9, "log": 25}


def identifier(section, item):
    kind = names.OBJECT_NUMBERS[item["kind"]] if section == "object" else SECTIONS[section]
    return kind, item["instance"]


def objects_of(document):
    return {identifier(section, it): it for section in ("class", "object", "enrollment", "log") for it in document[section]}


def read(program, site, kept, document):
    """All properties of each object of a site, as a client reads them, and the records of its logs. The journal is opened behind its last event, which no read moves."""
    asked = [(of, f"from {LATE} 10.0.0.21:47808 {bacnet.read_all(1, of).hex()}") for of in objects_of(document)]
    logs = [(of, f"from {LATE} 10.0.0.21:47808 {bacnet.read_range(1, of, 1, 4).hex()}") for of in objects_of(document) if of[0] == 25]
    found = {}
    for (of, _), (head, _, sends) in zip(asked + logs, play(program, site, kept, [line for _, line in asked + logs])):
        bacnet.want(head == ["reply"], f"a read of {of} is answered by {head}")
        message = bacnet.read(sends[0][1])
        if of in found:
            found[of]["records"] = message.parameters.hex() if message.kind == "complex-ack" else message.kind
        else:
            bacnet.want(message.kind == "complex-ack", f"a read of {of} is answered by {message}")
            found[of] = {number: value for number, _, value, _ in bacnet.many_read(message)[1]}
    return found


def told_of(lines):
    """The lines of each object, by its name as KIND:INSTANCE."""
    by = {}
    for line in lines:
        if "object" in line:
            by.setdefault(line["object"], []).append(line)
    return by


def see(want, texts, reads, lines):
    """Sees that each difference is one that was told, and that each key, list and object is as the rules want it. `texts` and `reads` have the old, the new, and of the texts' own first readings."""
    documents, (before, after), first = texts, reads[:2], reads[2:]
    told = told_of(lines)
    for of, item in objects_of(documents[1]).items():
        name = names.object_text(of)
        rows = told.get(name, [])
        if of not in before:
            want(any(it.get("is") == "there" for it in rows), f"{name} is new, and isn't told")
            continue
        for number in sorted(set(before[of]) | set(after[of]), key=str):
            old, new = before[of].get(number), after[of].get(number)
            if number in KEYS.values() and of[0] not in (15, 25) and None not in (old, new, first[0][of].get(number), first[1][of].get(number)):
                see_key(want, f"{name} {names.named(names.PROPERTIES, number)}", [old, new, first[0][of][number], first[1][of][number]], rows)
            elif old != new:
                want(is_told(number, rows, item, lines), f"{name} {names.named(names.PROPERTIES, number) if isinstance(number, int) else number} was {old} and is {new}, and isn't told: {rows}")
    for of in set(before) - set(after):
        want(any(it.get("is") == "gone" for it in told.get(names.object_text(of), [])), f"{of} is gone, and isn't told")


def see_key(want, what, values, rows):
    """A key that was written over the network stays as it was written; else the new text's value is in force."""
    old, new, old_text, new_text = values
    word = what.split()[1]
    expected = new_text if old == old_text else old
    want(new == expected, f"{what} is {new}, and {expected} is wanted")
    kinds = {it["kind"] for it in rows if it.get("key") == word}
    if old != old_text and old_text != new_text and old != new_text:
        want("stays" in kinds, f"{what} stays as it was written, and isn't told")
    elif new != old:
        want("from-now-on" in kinds, f"{what} is another one, and isn't told: {rows}")


def is_told(number, rows, item, lines):
    """Whether a difference of a property is told: of the state by a move or what was left out, of another one by its key."""
    kinds = {it["kind"] for it in rows}
    keys = {it.get("key") for it in rows}
    if number in STATE:
        # An object that is out of service, or whose texts are others, shows it.
        of_key = {103: FAULT_KEYS, 111: FAULT_KEYS | {"out-of-service"}, 351: {"texts"}}.get(number, set())
        return bool(kinds & {"gone", "come", "left-out"} or of_key & keys)
    if number in ("records", 141, 145):
        # A log has what was told of the objects of its classes.
        return any(it["kind"] in ("gone", "come", "not-as-it-was", "left-out") for it in lines)
    if number == bacnet.RECIPIENT_LIST:
        return any("tells" in it for it in rows)
    if number == 85:
        return "stays" in kinds
    word = re.sub("-", "_", names.named(names.PROPERTIES, number))
    return bool({names.named(names.PROPERTIES, number), word, {77: "name", 86: "priority", 72: "notify", 126: "size", 352: "texts"}.get(number)} & keys)
