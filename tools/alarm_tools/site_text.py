"""A site's text, read by docs/SITE.md a second time, beside the program: what it says, or its first fault, with line and reason."""
import collections
import re
import tomllib

from . import names, site_hints
from .site_keys import ALARM, SECTIONS
from .zone import Zone

MOST_OCTETS = 1_048_576
Site = collections.namedtuple("Site", "device classes destinations objects enrollments logs bindings zone places")
# The key that says which other keys an item has, and those that it has in any case.
OF_A_KIND = {"object": "kind", "enrollment": "algorithm"}
OF_ALL_KINDS = {"instance", "name", "out_of_service", "reliability_inhibit", "class", "monitored", *(key.name for key in ALARM)}
SECTION_KINDS = {"device": "device", "class": "notification-class", "enrollment": "event-enrollment", "log": "event-log", "binding": "device"}


class SiteRefused(ValueError):
    """The first fault of a text, as the program words it behind 'site refused: ', with its line, of whom it is, and the reason."""

    def __init__(self, told, reason, line=None, whose=None):
        super().__init__(told)
        self.told, self.reason, self.line, self.whose = told, reason, line, whose


# Where things stand.

HEAD = re.compile(r"\s*(\[\[?)\s*([A-Za-z0-9_-]+|\"[^\"]*\")\s*\]\]?\s*(?:#.*)?")
ASSIGNED = re.compile(r"\s*([A-Za-z0-9_-]+|\"[^\"]*\")\s*(?:\.[^=]*)?=")


class Places:
    """The lines of a text's sections, items and keys, by a look at how each line begins. It is a help for people, and no reading."""

    def __init__(self, octets):
        self.items, self.keys, at = {}, {}, ("", 0)
        counts, quoted = collections.Counter(), None
        for number, line in enumerate(octets.decode("utf-8-sig", "replace").splitlines(), 1):
            was_quoted = quoted
            for mark in re.findall(r'"""|\'\'\'', line):
                quoted = mark if quoted is None else None if quoted == mark else quoted
            if was_quoted:
                continue
            if head := HEAD.fullmatch(line):
                section = head[2].strip('"')
                counts[section] += head[1] == "[["
                at = section, counts[section]
                self.items.setdefault(at, number)
            elif key := ASSIGNED.match(line):
                self.keys.setdefault((*at, key[1].strip('"')), number)

    def line(self, section, item, key=None):
        """The line of a key of an item, else that of the item, else None."""
        if key is not None and (section, item, key) in self.keys:
            return self.keys[section, item, key]
        if section == "device" and ("", 0, key) in self.keys:
            return self.keys["", 0, key]
        return self.items.get((section, item)) or self.items.get((section, 1 - min(item, 1)))


# Reading.


def read(octets):
    """The site of a text, with all defaults in their places; or SiteRefused with its first fault."""
    site, found = look_over(octets, True)
    if found:
        raise found[0]
    return site


def faults_of(octets):
    """All faults of a text, in the order in which they are answered; the first one is the program's. What rests on an item that has one isn't looked at."""
    return look_over(octets, False)[1]


def look_over(octets, first_alone):
    """The site of a text without its faulty items, or None where there is no device, and its faults, or the first one alone."""
    if len(octets) > MOST_OCTETS:
        return None, [SiteRefused("too-long", f"it has {len(octets)} octets, and at most {MOST_OCTETS} are read")]
    try:
        document, places = parsed(octets), Places(octets)
    except SiteRefused as fault:
        return None, [fault]
    sections, found = {}, []
    for name in SECTIONS:
        sections[name], faults = section_of(document, name, places)
        found += faults
        if found and first_alone:
            return None, found
    # What other items refer to is looked at also where the device has a fault.
    device = next(iter(sections["device"]), None)
    site = Site(
        device, sections["class"], sections["destination"], sections["object"], sections["enrollment"], sections["log"], sections["binding"], device and zone_of(device),
        places,
    )
    given = given_in(document)
    for look in (too_many, duplicates, danglings, *[notes] * (device is not None)):
        found += look(site, given)
        if found and first_alone:
            break
    return site if device else None, found


def given_in(document):
    """The identifiers that the text gives, also in items that have a fault: what refers to them isn't wrong."""
    found = {section: set() for section in SECTIONS}
    for section in SECTIONS:
        # Those of a section that is misspelled are meant for it.
        called = [section, *(it for it in document if it not in SECTIONS and section_meant(it) == section)]
        for item in (item for it in called if isinstance(document.get(it), list) for item in document[it]):
            number = names.OBJECT_NUMBERS.get(SECTION_KINDS.get(section) or item.get("kind")) if isinstance(item, dict) else None
            if number is not None and isinstance(item.get("instance"), int):
                found[section].add((number, item["instance"]))
    return found


def parsed(octets):
    try:
        document = tomllib.loads(octets.decode("utf-8-sig"))
    except UnicodeDecodeError as error:
        raise SiteRefused("not-toml", site_hints.of_octets(octets), octets[: error.start].count(b"\n") + 1) from None
    except tomllib.TOMLDecodeError as error:
        found = re.search(r"\(at line (\d+), column \d+\)", str(error))
        line = int(found[1]) if found else octets.rstrip().count(b"\n") + 1
        reason = re.sub(r" \(at .*\)", "", str(error))
        raise SiteRefused("not-toml", site_hints.of_line(octets, line, reason), line) from None
    except RecursionError:
        raise SiteRefused("not-toml", "brackets within brackets, too many") from None
    if any(isinstance(it, int) and not -(1 << 63) <= it < 1 << 63 for it in numbers_in(document)):
        raise SiteRefused("not-toml", "a number outside 64 bits")
    return document


def numbers_in(value):
    if isinstance(value, (dict, list)):
        for it in value.values() if isinstance(value, dict) else value:
            yield from numbers_in(it)
    else:
        yield value


def section_of(document, section, places):
    """The items of a section that have no fault, each with its defaults, its number and its line; and the faults."""
    found = document.get(section, {} if section == "device" else [])
    wanted = f"[{section}] is wanted, once" if section == "device" else f"[[{section}]] is wanted, in two brackets"
    good = isinstance(found, dict) if section == "device" else isinstance(found, list) and all(isinstance(it, dict) for it in found)
    if not good:
        return [], [SiteRefused(f"bad-value {section} 0 {section}", wanted, places.line(section, 0))]
    outside = [key for key in document if key not in SECTIONS] if section == "device" else []
    rows = [(0, found)] if section == "device" else enumerate(found, 1)
    items, faults = [], []
    for number, item in rows:
        of_item = list(item_faults(section, number, item, places, outside))
        faults += of_item
        if not of_item:
            items.append(filled(section, number, item, places))
    return items, faults


def item_faults(section, number, item, places, outside=()):
    """The faults of an item: keys that it doesn't have, and then key by key what is missing and what can't be."""
    keys = SECTIONS[section](item)
    known = {key.name for key in keys}
    whose = whose_of(section, item)

    def fault(word, key, reason, line=None):
        told = key if len(key.encode()) <= 256 else ""
        return SiteRefused(f"{word} {section} {number} {told}", reason, line or places.line(section, number, key), None if key in outside else whose)

    # What is meant by a key that it doesn't have isn't missing besides, and without a kind nobody knows what else is wanted.
    meant, looked_at = set(), known
    for key in sorted([it for it in item if it not in known] + list(outside), key=str.encode):
        meant |= meant_by(key, section, known, outside)
        yield fault("unknown", key, unknown_reason(section, key, item, outside), places.items.get((key, 1)) or places.items.get((key, 0)) if key in outside else None)
    for key in keys:
        reason = key.reason(item[key.name], item) if key.name in item else None
        if key.name not in item and key.needed(item) and key.name in looked_at - meant:
            yield fault("missing", key.name, site_hints.of_missing(section, key.name, item))
        elif reason and key.name in looked_at:
            yield fault("bad-value", key.name, reason)
        if key.name == OF_A_KIND.get(section) and (reason or key.name not in item):
            looked_at = OF_ALL_KINDS


def section_meant(key):
    """The section that a key outside all sections was most likely to be."""
    return site_hints.nearest(key, SECTIONS) or next((it for it in SECTIONS if it in key or key in it), None)


def meant_by(key, section, known, outside):
    """The keys for which one stands that isn't there."""
    if key not in outside:
        return {site_hints.nearest(key, known)}
    return known if section_meant(key) == "device" or key in known else set()


def filled(section, number, item, places):
    """An item, with the defaults of what it lacks."""
    of = {key.name: item.get(key.name, key.default) for key in SECTIONS[section](item)}
    return of | {"section": section, "number": number, "line": places.line(section, number), "object": identifier(section, item)}


def identifier(section, item):
    """The object that an item is, the device that it binds, or None of a destination."""
    kind = SECTION_KINDS.get(section) or item.get("kind")
    return (names.OBJECT_NUMBERS[kind], item["device" if section == "binding" else "instance"]) if section != "destination" else None


def whose_of(section, item):
    """Of whom a fault is, for people: its name, else its kind and instance."""
    if isinstance(item.get("name"), str):
        return f'"{item["name"]}"'
    kind, instance = SECTION_KINDS.get(section) or item.get("kind"), item.get("instance", item.get("class", item.get("device")))
    return f"{kind}:{instance}" if isinstance(kind, str) and isinstance(instance, int) else None


def unknown_reason(section, key, item, outside):
    if key in outside:
        if any(it.name == key for it in SECTIONS["device"](item)):
            return "it is a key of [device], and there is no line [device] before it" if not item else "it is a key of [device], and stands before it"
        near = section_meant(key)
        return f"there is no section {key}" + (f": {near} is one" if near else f": {', '.join(SECTIONS)} are")
    if isinstance(item[key], dict):
        return "a key is one word, without a dot, as time_delay"
    if section == "object" and "class" not in item and any(it.name == key for it in SECTIONS[section](item | {"class": 0})):
        return "it is a key of an object with a class, and this one has none"
    if section == "object" and any(it.name == key for it in SECTIONS[section]({"class": 0})):
        near = site_hints.nearest(key, [it.name for it in SECTIONS[section](item | {"class": 0})])
        return f"an object of the kind {item.get('kind')} doesn't have it" + (f": {near} is the nearest" if near else "")
    what = f"it is no key of [[{section}]]" if section != "device" else "it is no key of [device]"
    return what + site_hints.of_unknown(key, [it.name for it in SECTIONS[section](item | ({"class": 0} if section == "object" else {}))], section)


def zone_of(device):
    return Zone(rule=device["zone_rule"]) if device["zone_rule"] is not None else Zone(device["zone_minutes"])


# What relates the items.


def alarm_objects(site):
    """The objects and enrollments that have a class."""
    return [it for it in [*site.objects, *site.enrollments] if it["class"] is not None]


def lists(site):
    """The destinations of each class, by its instance."""
    found = {it["instance"]: [] for it in site.classes}
    for it in site.destinations:
        found.setdefault(it["class"], []).append(it)
    return found


def too_many(site, _=None):
    found = []
    for section, count, most in [
        ("class", len(site.classes), 256), ("destination", max(map(len, lists(site).values()), default=0), 32),
        ("object", len(site.objects), 2048), ("enrollment", len(site.objects) + len(site.enrollments), 2048), ("log", len(site.logs), 16),
        ("binding", len(site.bindings), 256),
    ]:
        if count > most:
            found.append(SiteRefused(f"too-many {section}", f"there are {count}, and at most {most} may be"))
    records = sum(it["size"] for it in site.logs)
    if records > 16384:
        found.append(SiteRefused("too-many records", f"the logs have room for {records} records together, and at most 16384 may be"))
    return found


def identified(site):
    return [it for part in ([site.device], site.classes, site.objects, site.enrollments, site.logs) for it in part]


def duplicates(site, _=None):
    # The device's own number may be bound to an address too.
    given = [*identified(site)[1:], *site.bindings]
    counts = collections.Counter(it["object"] for it in given)
    found = []
    for twice in sorted(it for it, count in counts.items() if count > 1):
        lines = [it["line"] for it in given if it["object"] == twice]
        text = " and ".join(f"line {line}" for line in lines[:2] if line)
        found.append(SiteRefused(f"duplicate {names.object_text(twice)}", f"it is given twice: {text}: each wants a number of its own", lines[-1]))
    return found


def danglings(site, given):
    """What refers to what isn't there, the least object first."""
    classes = {instance for _, instance in given["class"]}
    values = given["object"]
    found = []
    for it in [*alarm_objects(site), *site.destinations]:
        if it["class"] not in classes:
            found.append((it["object"] or (15, it["class"]), it, no_class(it["class"], classes)))
    for it in site.logs:
        found += [(it["object"], it, no_class(one, classes)) for one in it["classes"] if one not in classes]
    for it in alarm_objects(site):
        if it["inhibit_ref"] is not None and names.object_from(it["inhibit_ref"]) not in values:
            found.append((it["object"], it, f"there is no value object {it['inhibit_ref']}"))
    for it in site.enrollments:
        found += [(it["object"], it, reason) for reason in reference_faults(it, values)]
    found.sort(key=lambda row: row[0])
    return [SiteRefused(f"dangling {names.object_text(of)}", reason, it["line"], whose_of(it["section"], it)) for of, it, reason in found]


def no_class(instance, classes):
    """That there is no such class, and which there are."""
    there = ", ".join(map(str, sorted(classes)[:8]))
    return f"there is no class {instance}" + (f": one of {there} is wanted" if there else ": a [[class]] is wanted")


def reference_faults(it, values):
    """What is wrong with what an enrollment monitors."""
    monitored = names.object_from(it["monitored"])
    if monitored not in values:
        yield f"there is no value object {it['monitored']}"
    elif it["algorithm"] == "unsigned-range" and names.OBJECT_TYPES[monitored[0]] not in ("positive-integer-value", "multi-state-value"):
        yield f"unsigned-range monitors a positive-integer-value or a multi-state-value, and not {it['monitored']}"
    if "feedback" in it:
        feedback = names.object_from(it["feedback"])
        if feedback not in values:
            yield f"there is no value object {it['feedback']}"
        elif feedback[0] != monitored[0]:
            yield f"{it['feedback']} isn't of the kind of {it['monitored']}"


def notes_at_once(site):
    """How many notifications there are where each object with a class is told once to each destination of its class."""
    of_class = lists(site)
    return sum(len(of_class.get(it["class"], [])) for it in alarm_objects(site))


def notes(site, _=None):
    least = notes_at_once(site)
    if least > site.device["outbox"]:
        reason = f"the outbox has room for {site.device['outbox']} notifications, and one of each object to each of its destinations are {least}"
        return [SiteRefused("too-many notes", reason, site.places.line("device", 0, "outbox"))]
    return []


# Names and sizes.


def name_of(item):
    """The Object_Name of an item of any section but a destination."""
    return item["name"] if item["name"] is not None else names.object_text(item["object"])


def names_in(site):
    return {it["object"]: name_of(it) for it in identified(site)}


def parts_of_need(site, text_octets):
    """What a journal of a site takes, in octets: each part with how many there are and what each takes."""
    records = sum(it["size"] for it in site.logs)
    of_record = 1034 if site.device["zone_rule"] is None else 1042
    rows = [
        ("value objects", len(site.objects), 640), ("objects with an alarm", len(alarm_objects(site)), 256), ("classes", len(site.classes), 1986),
        ("logs", len(site.logs), 18), ("records of logs", records, 2 * of_record), ("notifications that may wait", site.device["outbox"], 2054),
    ]
    return [("header, text and what any site has", 1, 22 + text_octets + 2 * (60_010 + 19 + 229_376)), *rows]


def need(site, text_octets):
    """How many octets the smallest journal of a site has (docs/JOURNAL.md)."""
    return sum(count * each for _, count, each in parts_of_need(site, text_octets))
