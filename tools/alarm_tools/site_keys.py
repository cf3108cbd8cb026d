"""The keys of a site's text, section by section, with what each takes: a second reading of docs/SITE.md, beside the program's."""
import collections
import re

from . import names
from .zone import Zone

UNSIGNED, SIGNED = (1 << 32) - 1, 1 << 31
INTEGERS = ("integer-value", "positive-integer-value")
LISTS = ("multi-state-value", "bitstring-value", "characterstring-value")
LAST_INSTANCE = 4_194_302
ALGORITHMS = ("command-failure", "unsigned-range")
ADDRESS = re.compile(r"(?:(?:0|[1-9]\d{0,2})\.){3}(?:0|[1-9]\d{0,2}):[1-9]\d{0,4}")
TIME = re.compile(r"(\d\d):(\d\d):(\d\d)\.(\d\d)")

# A key: what it is called, why it doesn't take a value of an item (None where it does), whether an item wants it, its default.
Key = collections.namedtuple("Key", "name reason needed default")


def no(_):
    return False


def yes(_):
    return True


# What a value may be: each gives why it isn't, or None.


def whole(low, high, unit=None):
    """A whole number within bounds, of a unit where it has one."""

    def reason(value, _):
        if isinstance(value, float):
            return f"{value} is no whole number: " + (f"whole {unit} are wanted" if unit else "say it in tenths or hundredths, with its limits")
        if isinstance(value, bool) or not isinstance(value, int):
            return f"a whole number from {low} to {high} is wanted, without quotes"
        return None if low <= value <= high else f"{value} isn't from {low} to {high}"

    return reason


def text(value, _):
    if not isinstance(value, str):
        return "a text in quotes is wanted"
    return None if len(value.encode()) <= 256 else f"it has {len(value.encode())} octets, and at most 256 are wanted"


def truth(value, _):
    return None if isinstance(value, bool) else "true or false is wanted, without quotes"


def digits(count):
    def reason(value, _):
        good = isinstance(value, str) and re.fullmatch(f"[01]{{{count}}}", value)
        return None if good else f"a text of {count} digits 0 and 1 is wanted, as \"{'1' * count}\""

    return reason


def bits(value, _=None):
    return None if isinstance(value, str) and re.fullmatch("[01]{0,64}", value) else "a text of at most 64 digits 0 and 1 is wanted"


def one_of(*words):
    def reason(value, _):
        return None if isinstance(value, str) and value in words else f"one of {', '.join(words)} is wanted"

    return reason


def listed(least, most, of_item):
    """An array of values, each of which a test takes."""

    def reason(value, item):
        if not isinstance(value, list) or not least <= len(value) <= most:
            return f"an array of {least} to {most} values is wanted"
        return next((found for found in (of_item(it, item) for it in value) if found), None)

    return reason


def three(of_item):
    """An array of three, for the three transitions."""
    listing = listed(3, 3, of_item)

    def reason(value, item):
        if not isinstance(value, list) or len(value) != 3:
            return "an array of three is wanted: to-offnormal, to-fault, to-normal"
        return listing(value, item)

    return reason


def of_kind(value, item):
    """A value of the kind of an object."""
    kind = item.get("kind")
    if kind == "integer-value":
        return whole(-SIGNED, SIGNED - 1)(value, item)
    if kind in ("positive-integer-value", "multi-state-value"):
        return whole(0, UNSIGNED)(value, item)
    if kind == "binary-value":
        return one_of("inactive", "active")(value, item)
    return bits(value) if kind == "bitstring-value" else text(value, item)


def first_value(value, item):
    return whole(1, UNSIGNED)(value, item) if item.get("kind") == "multi-state-value" else of_kind(value, item)


def states(value, item):
    if isinstance(value, int) and not isinstance(value, bool) and isinstance(item.get("value"), int) and 1 <= value < item["value"]:
        return f"there are {value} states, fewer than the value {item['value']}"
    return whole(item["value"] if isinstance(item.get("value"), int) else 1, UNSIGNED)(value, item)


def address(value, _):
    if not isinstance(value, str) or not ADDRESS.fullmatch(value):
        return "A.B.C.D:PORT is wanted, as \"10.1.0.5:47808\": numbers alone, and with the port"
    host, port = value.split(":")
    good = max(map(int, host.split("."))) <= 255 and int(port) <= 65535
    return None if good else "a number of the address is above 255, or the port above 65535"


def time_of_day(value, _):
    found = TIME.fullmatch(value) if isinstance(value, str) else None
    good = found and int(found[1]) < 24 and int(found[2]) < 60 and int(found[3]) < 60
    return None if good else "HH:MM:SS.HH is wanted, from \"00:00:00.00\" to \"23:59:59.99\""


def moment(value, _):
    if isinstance(value, int) and not isinstance(value, bool) and 946_684_800 <= value <= 4_102_444_799:
        return f"{value} would be seconds: milliseconds since 1970 are wanted, three zeros more"
    if not isinstance(value, int) or isinstance(value, bool):
        return "milliseconds since 1970 are wanted, as `date -d \"2024-01-01 00:00\" +%s000` prints them"
    return whole(946_684_800_000, 4_102_444_799_999)(value, _)


def zone_rule(value, item):
    if not isinstance(value, str) or not 1 <= len(value.encode()) <= 64:
        return "a zone rule of POSIX is wanted, of 1 to 64 octets, as \"CET-1CEST,M3.5.0,M10.5.0/3\""
    if "zone_minutes" in item:
        return "zone_minutes is there too: one of both is"
    try:
        Zone(rule=value)
    except ValueError:
        hint = ": a name as Europe/Berlin isn't one" if "/" in value and "," not in value else ""
        return f"a zone rule of POSIX is wanted, as \"CET-1CEST,M3.5.0,M10.5.0/3\"{hint}"
    return None


def reference(value, _):
    good = re.fullmatch(r"([a-z-]+):(0|[1-9]\d{0,6})", value) if isinstance(value, str) else None
    good = good and good[1] in names.OBJECT_NUMBERS and int(good[2]) <= LAST_INSTANCE
    return None if good else "KIND:INSTANCE is wanted, as \"integer-value:3\""


def inhibiting(value, item):
    """The binary value that inhibits, where inhibit isn't given beside it."""
    if "inhibit" in item:
        return "inhibit is there too: one of both is"
    good = reference(value, item) is None and value.startswith("binary-value:")
    return None if good else "binary-value:INSTANCE is wanted, as \"binary-value:3\""


# The sections.

INSTANCE = Key("instance", whole(0, LAST_INSTANCE), yes, None)
NAME = Key("name", text, no, None)
CLASS = whole(0, LAST_INSTANCE)

DEVICE = [
    INSTANCE, NAME, Key("vendor", whole(0, 65535), no, 0), Key("start", moment, yes, None), Key("zone_minutes", whole(-840, 840), no, 0),
    Key("zone_rule", zone_rule, no, None), Key("apdu_timeout", whole(1, 3_600_000, "milliseconds"), no, 3000), Key("retries", whole(0, 15), no, 3),
    Key("outbox", whole(64, 16384), no, 256), Key("flush_silent", truth, no, False),
]
CLASSES = [
    INSTANCE, NAME, Key("priority", three(whole(0, 255)), yes, None), Key("ack_required", three(truth), no, [False, False, False]),
]
DESTINATIONS = [
    Key("class", CLASS, yes, None), Key("address", address, yes, None), Key("process", whole(0, UNSIGNED), no, 0),
    Key("days", digits(7), no, "1111111"), Key("from", time_of_day, no, "00:00:00.00"), Key("to", time_of_day, no, "23:59:59.99"),
    Key("confirmed", truth, no, False), Key("transitions", digits(3), no, "111"),
]
KINDS = Key("kind", one_of(*names.VALUE_KINDS), yes, None)
VALUE = [
    KINDS, INSTANCE, NAME, Key("value", first_value, yes, None), Key("out_of_service", truth, no, False),
    Key("reliability_inhibit", truth, no, False),
]
STATES = [Key("states", states, yes, None)]
FAULT_LIMITS = [
    Key("fault_low", of_kind, lambda item: "fault_high" in item, None), Key("fault_high", of_kind, lambda item: "fault_low" in item, None),
]
FAULT_VALUES = [Key("fault_values", listed(0, 32, of_kind), no, [])]
ALARM = [
    Key("notify", one_of("alarm", "event"), no, "alarm"), Key("enable", digits(3), no, "111"), Key("time_delay", whole(0, UNSIGNED, "seconds"), no, 0),
    Key("time_delay_normal", whole(0, UNSIGNED, "seconds"), no, None), Key("detection", truth, no, True), Key("inhibit", truth, no, False),
    Key("inhibit_ref", inhibiting, no, None), Key("texts", three(text), no, []),
]
LIMITS = [
    Key("low", of_kind, yes, None), Key("high", of_kind, yes, None), Key("deadband", whole(0, UNSIGNED), no, 0),
    Key("limit_enable", digits(2), no, "11"),
]
ALARM_VALUE = [Key("alarm_value", one_of("inactive", "active"), yes, None)]
ALARM_VALUES = [Key("alarm_values", listed(1, 32, of_kind), yes, None)]
MASK = [Key("mask", lambda value, _: bits(value), yes, None)]
ENROLLMENT = [INSTANCE, NAME, Key("class", CLASS, yes, None), Key("algorithm", one_of(*ALGORITHMS), yes, None), Key("monitored", reference, yes, None)]
FEEDBACK = [Key("feedback", reference, yes, None)]
RANGE = [Key("low", whole(0, UNSIGNED), yes, None), Key("high", whole(0, UNSIGNED), yes, None)]
LOG = [
    INSTANCE, NAME, Key("size", whole(1, 16384), yes, None), Key("stop_when_full", truth, no, False), Key("enable", truth, no, True),
    Key("classes", listed(1, 256, CLASS), yes, None),
]
BINDING = [Key("device", whole(0, LAST_INSTANCE), yes, None), Key("address", address, yes, None)]


def value_keys(item):
    """The keys of an object: those of every kind where it has none, and those of alarms where it has a class."""
    kind = item.get("kind")
    every = not isinstance(kind, str) or kind not in names.VALUE_KINDS
    parts = [
        (VALUE, True), (STATES, kind == "multi-state-value"), (FAULT_LIMITS, kind in INTEGERS),
        (FAULT_VALUES, kind in ("multi-state-value", "characterstring-value")), ([Key("class", CLASS, no, None)], True),
    ]
    if "class" in item:
        parts += [
            (ALARM, True), (LIMITS, kind in INTEGERS), (ALARM_VALUE, kind == "binary-value"), (ALARM_VALUES, kind in LISTS),
            (MASK, kind == "bitstring-value"),
        ]
    return [key for keys, has in parts if has or every for key in keys]


def enrollment_keys(item):
    algorithm = item.get("algorithm")
    every = not isinstance(algorithm, str) or algorithm not in ALGORITHMS
    parts = [(ENROLLMENT, True), (FEEDBACK, algorithm == ALGORITHMS[0]), (RANGE, algorithm == ALGORITHMS[1]), (ALARM, True)]
    return [key for keys, has in parts if has or every for key in keys]


SECTIONS = {
    "device": lambda _: DEVICE, "class": lambda _: CLASSES, "destination": lambda _: DESTINATIONS, "object": value_keys,
    "enrollment": enrollment_keys, "log": lambda _: LOG, "binding": lambda _: BINDING,
}
