"""A site's text as a plan in words: what is an alarm, who is told of it, and when."""
import string

from . import names, site_text, week, words
from .site_text import alarm_objects, lists, name_of

WHAT = ("alarms", "faults", "returns to normal")


def of(item):
    return words.named(names.object_text(item["object"]), name_of(item))


def lines_of(site):
    """The plan, line by line."""
    device = site.device
    counts = f"{counted(len(site.objects), 'object')} and {counted(len(site.enrollments), 'enrollment')}"
    yield f"{of(device)}, {clock_text(site)}, {counts}, {len(alarm_objects(site))} with alarms"
    letters = letters_of(site)
    yield ""
    yield "Recipients"
    for (address, process, confirmed), letter in letters.items():
        yield f"  {letter}  {address} process {process}, {sent_text(site, confirmed)}"
    for it in site.classes:
        yield ""
        yield from class_lines(site, it, letters)
    rest = [it for it in site.objects if it["class"] is None]
    if rest:
        yield ""
        yield "Without a class: read and written, and never in alarm"
        for it in rest:
            yield f"  {of(it)}, {it['value']} at the start{fault_text(it)}"
    for it in site.logs:
        yield ""
        full = "then takes nothing more" if it["stop_when_full"] else "then drops its oldest"
        yield f"{of(it)} keeps the last {it['size']} notifications of {', '.join(f'class {one}' for one in it['classes'])}, and {full}"
    if site.bindings:
        yield ""
        yield "Devices that a request may name as recipients"
        yield from (f"  {names.object_text(it['object'])} at {it['address']}" for it in site.bindings)


def counted(count, what):
    return f"{count} {what}" + ("" if count == 1 else "s")


def clock_text(site):
    if site.device["zone_rule"] is not None:
        return f"whose clock follows {site.device['zone_rule']}"
    minutes = site.device["zone_minutes"]
    return "whose clock is UTC" if minutes == 0 else f"whose clock is {abs(minutes)} minutes {'ahead of' if minutes > 0 else 'behind'} UTC all year"


def sent_text(site, confirmed):
    if not confirmed:
        return "isn't asked to confirm: sent once"
    timeout, retries = site.device["apdu_timeout"] / 1000, site.device["retries"]
    behind = ", with all that waits behind it" if site.device["flush_silent"] else ""
    return f"confirms: sent up to {retries + 1} times, given up after {timeout * (retries + 1):g} s{behind}"


def letters_of(site):
    """A letter for each recipient, in the order of the text."""
    found = dict.fromkeys((it["address"], it["process"], it["confirmed"]) for it in site.destinations)
    marks = list(string.ascii_uppercase) + [f"{a}{b}" for a in string.ascii_uppercase for b in string.ascii_uppercase]
    return {key: marks[place] if place < len(marks) else f"R{place}" for place, key in enumerate(found)}


def class_lines(site, it, letters):
    """A class: what asks to be acknowledged, its week, and its objects."""
    asked = [what for what, flag in zip(WHAT, it["ack_required"]) if flag]
    urgency = ", ".join(f"{what} {number}" for what, number in zip(WHAT, it["priority"]))
    acknowledged = f"to be acknowledged: {' and '.join(asked)}" if asked else "nothing is to be acknowledged"
    yield f"Class {it['instance']} {words.printable(name_of(it))}: {acknowledged}; priority of {urgency}"
    yield from (f"  {line}" for line in week_lines(lists(site)[it["instance"]], letters))
    for one in alarm_objects(site):
        if one["class"] == it["instance"]:
            yield f"  {of(one)}: {rule_text(site, one)}"


def week_lines(destinations, letters):
    """The week of a class: a table for all of which the same are told at the same times."""
    def cell(told):
        found = dict.fromkeys(letters[it["address"], it["process"], it["confirmed"]] for it in told)
        return "".join(found) if all(len(mark) == 1 for mark in found) else " ".join(found)

    tables = [week.rows_of(destinations, place, cell) for place in range(3)]
    done = set()
    for place, rows in enumerate(tables):
        if place in done:
            continue
        same = [other for other in range(3) if tables[other] == rows]
        done.update(same)
        title = "everything" if len(same) == 3 else " and ".join(WHAT[other] for other in same)
        if not any(any(cells) for _, _, cells in rows):
            yield f"{title}: told to nobody"
            continue
        marks = max(3, *(len(it) for _, _, cells in rows for it in cells)) + 2
        yield f"{title + ':':<24}" + "".join(day[:3].ljust(marks) for day in names.DAYS).rstrip()
        for begin, end, cells in rows:
            yield f"  {week.time_text(begin)} to {week.time_text(end)} ".ljust(24) + "".join((it or "-").ljust(marks) for it in cells).rstrip()


# What is an alarm.


def rule_text(site, it):
    """When an object is in alarm, and when it ends."""
    text = RULES[it.get("kind") or it["algorithm"]](site, it)
    told = [] if it["enable"] == "111" else [f"told and logged: {', '.join(what for what, flag in zip(WHAT, it['enable']) if flag == '1') or 'nothing'}"]
    meant = ["an event, and no alarm"] if it["notify"] == "event" else []
    quiet = [f"never while {called(site, it['inhibit_ref'])} is active"] if it["inhibit_ref"] is not None else []
    return "; ".join([text + fault_text(it), *quiet, *meant, *told])


def after(it):
    return f" for {words.length_text(it['time_delay'])}" if it["time_delay"] else ""


def ended(it):
    seconds = it["time_delay"] if it["time_delay_normal"] is None else it["time_delay_normal"]
    return f" for {words.length_text(seconds)}" if seconds else ""


def fault_text(it):
    if it.get("fault_low") is not None:
        return f"; below {it['fault_low']} or above {it['fault_high']} it is a fault"
    if it.get("fault_values"):
        return f"; {' or '.join(map(str, it['fault_values']))} is a fault"
    return ""


def limits_text(_, it):
    low, high = it.get("limit_enable", "11") if "limit_enable" in it else "11"
    deadband = it.get("deadband", 0)
    parts = [f"above {it['high']}"] * (high == "1") + [f"below {it['low']}"] * (low == "1")
    ends = [f"above {it['low'] + deadband}"] * (low == "1") + [f"below {it['high'] - deadband}"] * (high == "1")
    if not parts:
        return "neither limit is looked at"
    return f"{' or '.join(parts)}{after(it)} is an alarm, which ends {' and '.join(ends)}{ended(it)}"


def binary_text(_, it):
    return f"{it['alarm_value']}{after(it)} is an alarm, which ends with the other{ended(it)}"


def values_text(_, it):
    how = {"multi-state-value": "state ", "bitstring-value": "bits ", "characterstring-value": "a text with "}[it["kind"]]
    shown = " or ".join(f'"{value}"' if it["kind"] == "characterstring-value" else str(value) for value in it["alarm_values"])
    mask = f" where {it['mask']} has ones" if it["kind"] == "bitstring-value" else ""
    return f"{how}{shown}{mask}{after(it)} is an alarm, which ends with any other{ended(it)}"


def called(site, text):
    return words.named(text, site_text.names_in(site).get(names.object_from(text)))


def failure_text(site, it):
    return f"{called(site, it['feedback'])} other than {called(site, it['monitored'])}{after(it)} is an alarm, which ends where both are equal{ended(it)}"


def range_text(site, it):
    return f"{called(site, it['monitored'])} above {it['high']} or below {it['low']}{after(it)} is an alarm, which ends within both{ended(it)}"


RULES = {
    "integer-value": limits_text, "positive-integer-value": limits_text, "binary-value": binary_text, "multi-state-value": values_text,
    "bitstring-value": values_text, "characterstring-value": values_text, "command-failure": failure_text, "unsigned-range": range_text,
}


def told_of(site):
    """The plan as it is told to programs."""
    letters = letters_of(site)
    recipients = {letter: {"address": address, "process": process, "confirmed": confirmed} for (address, process, confirmed), letter in letters.items()}
    return {
        "device": site.device["instance"], "name": name_of(site.device), "recipients": recipients,
        "classes": [class_of(site, it, letters) for it in site.classes],
    }


def class_of(site, it, letters):
    """A class with its week and its objects, as it is told to programs."""
    def cell(told):
        return list(dict.fromkeys(letters[one["address"], one["process"], one["confirmed"]] for one in told))

    weeks = {}
    for place, what in enumerate(WHAT):
        rows = week.rows_of(lists(site)[it["instance"]], place, cell)
        weeks[what] = [{"from": week.time_text(begin), "to": week.time_text(end), "days": cells} for begin, end, cells in rows]
    members = [one for one in alarm_objects(site) if one["class"] == it["instance"]]
    return {
        "class": it["instance"], "name": name_of(it), "ack_required": it["ack_required"], "priority": it["priority"], "week": weeks,
        "objects": [{"object": names.object_text(one["object"]), "name": name_of(one), "rule": rule_text(site, one)} for one in members],
    }
