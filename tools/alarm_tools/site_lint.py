"""What the program takes of a site, but nobody wants: each is a line, a kind and a text."""
import collections
import time

from . import names, outbox_room, site_text, week, words
from .site_text import alarm_objects, lists, name_of

Warning = collections.namedtuple("Warning", "line kind text")
# The largest outbox that a site may have.
MOST_NOTES = 16384


def warnings_of(site):
    """All warnings, in the order of the text."""
    found = [it for look in LOOKS for it in look(site)]
    return sorted(found, key=lambda it: (it.line or 0, it.kind))


def of(item):
    """An item for people."""
    return words.named(names.object_text(item["object"]), name_of(item))


def names_twice(site):
    seen = {}
    for it in site_text.identified(site):
        name = name_of(it)
        if not name.strip():
            yield Warning(it["line"], "empty-name", f"{of(it)} has an empty name: clients show nothing for it")
        elif name in seen:
            other = f"{names.object_text(seen[name]['object'])} (line {seen[name]['line']})"
            yield Warning(it["line"], "name-twice", f"{of(it)} has the name of {other}: within a device each name should stand once")
        seen.setdefault(name, it)


def limits(site):
    for it in alarm_objects(site):
        if "low" not in it:
            continue
        low, high, deadband = it["low"], it["high"], it.get("deadband", 0)
        both = it.get("limit_enable", "11") == "11"
        if low > high and both:
            yield Warning(it["line"], "low-above-high", f"{of(it)}: low {low} is above high {high}, so every value is an alarm")
        elif low == high and both:
            yield Warning(it["line"], "low-is-high", f"{of(it)}: low and high are both {low}, so no other value is normal")
        elif deadband and deadband >= high - low and both:
            band = f"the deadband {deadband} is as wide as the band from {low} to {high}"
            yield Warning(it["line"], "deadband-too-wide", f"{of(it)}: {band}: an alarm doesn't end within it")
        if it.get("limit_enable") == "00":
            yield Warning(it["line"], "no-limit", f"{of(it)}: neither limit is looked at")


def faults(site):
    for it in site.objects:
        low, high = it.get("fault_low"), it.get("fault_high")
        if low is None:
            continue
        if low > high:
            yield Warning(it["line"], "fault-low-above-high", f"{of(it)}: fault_low {low} is above fault_high {high}, so every value is a fault")
        elif it.get("low") is not None and (it["low"] < low or it["high"] > high):
            yield Warning(it["line"], "limit-behind-fault", f"{of(it)}: a limit lies outside of {low} to {high}, where a value is a fault before it is an alarm")


def lengths(site):
    for it in site.objects:
        for key in ("mask", "alarm_values", "fault_values"):
            values = it.get(key) or []
            for value in [values] if isinstance(values, str) else values:
                if it["kind"] == "bitstring-value" and len(value) != len(it["value"]):
                    had = f"{key} has {value!r} of {len(value)} bits, and the value has {len(it['value'])}"
                    yield Warning(it["line"], "another-length", f"{of(it)}: {had}: they never match")
                if it["kind"] == "multi-state-value" and not 1 <= value <= it["states"]:
                    yield Warning(it["line"], "no-state", f"{of(it)}: {key} has the state {value}, and there are 1 to {it['states']}")


def first_values(site):
    """Objects that are in alarm or in fault with the value that they begin with."""
    for it in site.objects:
        kind, value, alarm = it["kind"], it["value"], False
        if it.get("fault_low") is not None and it["fault_low"] <= it["fault_high"] and not it["fault_low"] <= value <= it["fault_high"]:
            yield Warning(it["line"], "fault-at-start", f"{of(it)} begins with {value}, which is a fault")
        if it["class"] is None:
            continue
        if kind == "binary-value":
            alarm = value == it["alarm_value"]
        elif "low" in it:
            low, high = it["limit_enable"] if it["low"] < it["high"] else "00"
            alarm = low == "1" and value < it["low"] or high == "1" and value > it["high"]
        elif kind == "multi-state-value":
            alarm = value in it["alarm_values"]
        if alarm:
            yield Warning(it["line"], "alarm-at-start", f"{of(it)} begins with {value}, which is an alarm")


def delays(site):
    for it in alarm_objects(site):
        for key in ("time_delay", "time_delay_normal"):
            if it[key] is not None and it[key] > 86400:
                yield Warning(it["line"], "long-delay", f"{of(it)}: {key} is {it[key]} seconds, {words.length_text(it[key])}: were milliseconds meant?")
        if not it["detection"]:
            yield Warning(it["line"], "no-detection", f"{of(it)}: detection is false, so it is never in alarm")
        elif it["inhibit"]:
            yield Warning(it["line"], "inhibited", f"{of(it)}: inhibit is true, so it is never in alarm until somebody writes it")
        if it["enable"][:2] == "00":
            yield Warning(it["line"], "told-of-nothing", f"{of(it)}: enable is {it['enable']!r}, so neither an alarm nor a fault is told or logged")


def windows(site):
    of_class = {it["instance"]: it for it in site.classes}
    for it in site.destinations:
        whom = f"{it['address']} of class {it['class']} {of_name(of_class.get(it['class']))}".rstrip()
        if "1" not in it["days"] or "1" not in it["transitions"]:
            yield Warning(it["line"], "never-told", f"{whom}: {'days' if '1' not in it['days'] else 'transitions'} has no 1, so it is told nothing")
        elif week.is_never(it):
            night = "a night is two destinations, one up to 23:59:59.99 and one from 00:00:00.00"
            yield Warning(it["line"], "never-open", f"{whom}: from {it['from']} to {it['to']} is never open: {night}")
        elif site.zone.daylight is not None and 720_000 <= week.window(it)[0] and week.window(it)[1] <= 1_080_001:
            hour = "a window between 02:00 and 03:00 may be open twice in one night of the year, and never in another"
            yield Warning(it["line"], "window-in-the-hour", f"{whom}: {hour}")
    for it in site.destinations:
        yield from addresses(it)
    seen = {}
    for it in site.destinations:
        key = tuple(it[name] for name in ("class", "address", "process", "days", "from", "to", "transitions"))
        if key in seen:
            again = f"{it['address']} of class {it['class']} is the recipient of line {seen[key]} again"
            yield Warning(it["line"], "recipient-twice", f"{again}: it is told everything twice")
        seen.setdefault(key, it["line"])


def addresses(it):
    """A recipient that can't be one: the server itself, or all of a network."""
    host, _, port = it["address"].partition(":")
    parts = list(map(int, host.split(".")))
    if parts[0] == 127 and port == "47808":
        yield Warning(it["line"], "own-address", f"{it['address']} of class {it['class']} is this machine at the server's own port: the server would tell itself")
    elif parts[3] == 255 or parts == [0, 0, 0, 0] or 224 <= parts[0]:
        yield Warning(it["line"], "no-station", f"{it['address']} of class {it['class']} is the address of no one station: a notification goes to one, and no broadcast goes out")


def of_name(item):
    return f'"{item["name"]}"' if item and item["name"] is not None else ""


def gaps_of_classes(site):
    """Classes whose alarms or faults are told to nobody at some time."""
    told, logged = lists(site), {one: it for it in site.logs for one in it["classes"] if it["enable"]}
    for it in site.classes:
        members = [one for one in alarm_objects(site) if one["class"] == it["instance"]]
        if not members:
            yield Warning(it["line"], "no-object", f"class {it['instance']} {of_name(it)} has no object".replace("  ", " "))
            continue
        log = logged.get(it["instance"])
        behind = f"; {names.object_text(log['object'])} records them" if log else "; and no log records them"
        for transitions, text in grouped_gaps(told[it["instance"]], members):
            what = f"class {it['instance']} {of_name(it)}".rstrip()
            yield Warning(it["line"], "told-to-nobody", f"{what}: {transitions} are told to nobody {text}{behind} ({members_text(members)})")


def members_text(members):
    shown = ", ".join(of(it) for it in members[:3])
    return shown + (f" and {len(members) - 3} more" if len(members) > 3 else "")


def grouped_gaps(destinations, members):
    """When nobody is told of alarms and of faults; both together where it is the same time."""
    found = []
    for place, what in ((0, "alarms"), (1, "faults")):
        if any(it["enable"][place] == "1" for it in members):
            found.append((what, "; ".join(week.gaps(destinations, place))))
    if len(found) == 2 and found[0][1] == found[1][1]:
        found = [("alarms and faults", found[0][1])]
    return [(what, "at any time" if text == "every day" else text) for what, text in found if text]


def device(site):
    it = site.device
    line = lambda key: site.places.line("device", 0, key) or it["line"]
    yield from small_outbox(site, line("outbox"))
    if it["vendor"] == 0:
        yield Warning(line("vendor"), "vendor", "vendor is 0, which is ASHRAE's own number: take yours, or 999 for trying")
    if it["start"] > time.time() * 1000:
        until_then = "until then every event has that moment, and no delay passes"
        yield Warning(line("start"), "start-ahead", f"start is {site.zone.text(it['start'])}, which is to come: {until_then}")
    if it["zone_rule"] is None and it["zone_minutes"] != 0 and any(week.window(one) != (0, week.DAY) for one in site.destinations):
        by_clock = f"windows go by a clock that is {it['zone_minutes']} minutes ahead of UTC all year"
        yield Warning(line("zone_minutes"), "no-summer", f"{by_clock}: where clocks are put forward in summer, give a zone_rule")


def small_outbox(site, line):
    """Without `flush_silent` ten times what all objects make at once; with it that, and what waits while one recipient is silent and objects change once a second."""
    it, least = site.device, site_text.notes_at_once(site)
    wanted = min(10 * least, MOST_NOTES)
    has = f"the outbox has room for {it['outbox']} notifications, and all objects at once make {least}"
    if it["flush_silent"]:
        wanted = outbox_room.total(outbox_room.room(site, outbox_room.Load(1)))
        if it["outbox"] < wanted:
            yield Warning(line, "small-outbox", f"{has}: with one recipient that is silent and a change a second it is {wanted} (alarm-site size --changes tells more)")
    elif it["outbox"] < wanted:
        much = "ten times as many" if wanted < MOST_NOTES else "the most that it may have"
        yield Warning(line, "small-outbox", f"{has}: one dead recipient can stop every write; {wanted} is {much}")


def silence(site):
    """Classes of which one silent recipient fills the outbox, where the text doesn't say whether that may be: by an object that changes without a delay."""
    if site.device["flush_silent"] or ("device", 0, "flush_silent") in site.places.keys:
        return
    told = lists(site)
    for it in site.classes:
        quick = [one for one in alarm_objects(site) if one["class"] == it["instance"] and is_quick(one)]
        confirm = [one for one in outbox_room.recipients(told[it["instance"]]) if one.confirms]
        of_change = max((changes_told(one, whom) for one in quick for whom in confirm), default=0)
        times = [outbox_room.full_after(site.device, rate * of_change) for rate in (1, 4)]
        if times[1] is None:
            continue
        once = f"once a second fills the outbox of {site.device['outbox']} after {words.length_text(times[0])}" if times[0] else f"once a second doesn't fill the outbox of {site.device['outbox']}"
        whose = f"class {it['instance']} {of_name(it)}".rstrip()
        why = f"where a recipient is silent that is to confirm, an object without time_delay that changes {once}, and four times a second after {words.length_text(times[1])}"
        then = "from then on what would be told is refused. flush_silent = true in [device] ends that, and so does a time_delay"
        yield Warning(it["line"], "silent-recipient", f"{whose}: {why}; {then} ({members_text(quick)})")


def is_quick(it):
    """Whether each change of an object is told at once, there and back."""
    return it["detection"] and not it["inhibit"] and not it["time_delay"] and not it["time_delay_normal"] and it["enable"] != "000"


def changes_told(it, recipient):
    """How many notifications a recipient has of a change of an object that goes into alarm and back in turn."""
    return sum(recipient.notes[place] for place in (0, 2) if it["enable"][place] == "1") / 2


def enrollments(site):
    for it in site.enrollments:
        if it.get("feedback") == it["monitored"]:
            yield Warning(it["line"], "own-feedback", f"{of(it)}: its feedback is the monitored object itself, so it is never in alarm")


LOOKS = (names_twice, limits, faults, lengths, first_values, delays, windows, gaps_of_classes, device, silence, enrollments)
