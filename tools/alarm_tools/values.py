"""Values of properties and notifications in words, and words as values to write."""
import decimal
import re

from . import names, octets
from .language import say
from .measure import Measure
from .measure import text_of as text_of_measured
from .octets import BITS, BOOLEAN, DATE, ENUMERATED, NULL, OBJECT, OCTETS, REAL, SIGNED, TEXT, TIME, UNSIGNED, want

NEVER = b"\xff" * 8
ENUMERATIONS = {
    "event-state": names.STATES, "reliability": names.RELIABILITIES, "notify-type": names.NOTIFY_TYPES, "event-type": names.EVENT_TYPES,
    "object-type": names.OBJECT_TYPES, "segmentation-supported": {3: "no-segmentation"},
}
OF_TRANSITIONS = ("acked-transitions", "event-enable", "ack-required")
# The application type that a property is written as; of those in VALUES it is that of the object's kind.
WRITTEN = {
    "out-of-service": BOOLEAN, "reliability-evaluation-inhibit": BOOLEAN, "event-algorithm-inhibit": BOOLEAN, "enable": BOOLEAN,
    "time-delay": UNSIGNED, "time-delay-normal": UNSIGNED, "deadband": UNSIGNED, "record-count": UNSIGNED, "event-enable": BITS,
    "limit-enable": BITS,
}
VALUES = ("present-value", "high-limit", "low-limit", "alarm-value")
TYPE_OF_KIND = {
    "integer-value": SIGNED, "positive-integer-value": UNSIGNED, "binary-value": ENUMERATED, "multi-state-value": UNSIGNED,
    "bitstring-value": BITS, "characterstring-value": TEXT,
}
TYPES = {"boolean": BOOLEAN, "unsigned": UNSIGNED, "signed": SIGNED, "real": REAL, "text": TEXT, "bits": BITS, "enumerated": ENUMERATED}
# The properties that an object of a kind may have, for reading one by one.
COMMON = ["object-identifier", "object-name", "object-type"]
OF_VALUES = COMMON + ["present-value", "status-flags", "event-state", "reliability", "out-of-service", "reliability-evaluation-inhibit"]
OF_ALARMS = [
    "event-enable", "event-algorithm-inhibit", "acked-transitions", "notify-type", "event-detection-enable", "notification-class", "event-time-stamps",
    "event-algorithm-inhibit-ref", "event-message-texts", "event-message-texts-config",
]
OF_LIMITS = ["high-limit", "low-limit", "deadband", "limit-enable"]
OF_KIND = {
    "integer-value": OF_VALUES + OF_ALARMS + ["time-delay", "time-delay-normal"] + OF_LIMITS,
    "positive-integer-value": OF_VALUES + OF_ALARMS + ["time-delay", "time-delay-normal"] + OF_LIMITS,
    "binary-value": OF_VALUES + OF_ALARMS + ["time-delay", "time-delay-normal", "alarm-value"],
    "multi-state-value": OF_VALUES + OF_ALARMS + ["number-of-states", "time-delay", "time-delay-normal", "alarm-values", "fault-values"],
    "bitstring-value": OF_VALUES + OF_ALARMS + ["time-delay", "time-delay-normal", "alarm-values"],
    "characterstring-value": OF_VALUES + OF_ALARMS + ["time-delay", "time-delay-normal", "alarm-values", "fault-values"],
    "event-enrollment": COMMON + ["status-flags", "event-state", "reliability", "event-type"] + OF_ALARMS,
    "notification-class": COMMON + ["notification-class", "priority", "ack-required", "recipient-list"],
    "event-log": COMMON + ["enable", "record-count", "total-record-count", "buffer-size", "stop-when-full"],
    "device": COMMON + ["vendor-identifier", "object-list", "max-apdu-length-accepted", "segmentation-supported"],
}


# What was read, in words.


def stamp_text(stamp):
    """A date and time as the device's clock shows it, as 2024-01-13 02:30:10.00, or None where there was none."""
    if stamp == NEVER:
        return None
    year, month, day, _, hour, minute, second, hundredth = stamp
    return f"{year + 1900:04}-{month:02}-{day:02} {hour:02}:{minute:02}:{second:02}.{hundredth:02}"


def time_text(of):
    return f"{of[0]:02}:{of[1]:02}:{of[2]:02}.{of[3]:02}"


def address_text(address):
    """A recipient's address as A.B.C.D:PORT, or its network and station."""
    if address is None:
        return "a device"
    network, station = address
    if network == 0 and len(station) == 6:
        return ".".join(map(str, station[:4])) + f":{int.from_bytes(station[4:], 'big')}"
    return f"network {network}, station {station.hex()}"


def plain(element):
    """An element of an application as a number, a truth, a text or a string of bits."""
    if element.context:
        return element.content.hex() if isinstance(element.content, bytes) else [plain(it) for it in element.content]
    content = element.content
    if element.number == REAL:
        want(len(content) == 4, f"no Real: {element}")
        return octets.struct.unpack(">f", content)[0]
    readers = {
        NULL: lambda _: None, BOOLEAN: lambda it: bool(it.content[0]), UNSIGNED: octets.number_of, SIGNED: octets.number_of,
        ENUMERATED: octets.number_of, TEXT: octets.text_of, BITS: octets.bits_of, OBJECT: lambda it: names.object_text(octets.object_of(it)),
        OCTETS: lambda it: it.content.hex(), TIME: lambda it: time_text(it.content), DATE: lambda it: it.content.hex(),
    }
    return readers[element.number](element) if element.number in readers else content.hex()


def value_of(the_object, number, found, index=None):
    """What the elements of a property are, by names where the property has some. A list or an array is a list."""
    name = names.named(names.PROPERTIES, number)
    if name == "recipient-list":
        return [destination_words(it) for it in octets.destinations_of(found)]
    if name == "event-time-stamps":
        return octets.number_of(found[0]) if index == 0 else [stamp_text(octets.stamp_in(it)) for it in found]
    if name == "event-algorithm-inhibit-ref":
        return names.object_text(octets.object_of(found[0]))
    values = [named_value(the_object, name, plain(it), it.number) for it in found]
    is_list = name in ("object-list", "alarm-values", "fault-values", "priority", "event-message-texts", "event-message-texts-config") and index is None
    return values if is_list or len(values) != 1 else values[0]


def named_value(the_object, name, value, number):
    """A value by the names that its property has for it."""
    if number == ENUMERATED and name in ENUMERATIONS:
        return names.named(ENUMERATIONS[name], value)
    if number == ENUMERATED and names.named(names.OBJECT_TYPES, the_object[0]) == "binary-value" and value in (0, 1):
        return ("inactive", "active")[value]
    if number == BITS and name in OF_TRANSITIONS:
        return names.transitions_in([it == "1" for it in value])
    if number == BITS and name == "status-flags":
        return [flag for flag, it in zip(names.FLAGS, value) if it == "1"]
    return value


def destination_words(of):
    """A recipient by names."""
    return {
        "address": f"device:{of.address}" if isinstance(of.address, int) else address_text(of.address), "process": of.process, "days": of.days, "from": time_text(of.begin), "to": time_text(of.end),
        "confirmed": of.confirmed, "transitions": names.transitions_in([it == "1" for it in of.transitions]),
    }


def error_text(error):
    """An Error by its two numbers and its name."""
    return f"Error {error[0]},{error[1]}, {names.ERRORS.get(tuple(error), 'unknown')}"


def text_of(value):
    """A value of `value_of` as a text for people. An empty text is shown as two quotes."""
    if isinstance(value, list):
        return ", ".join(map(text_of, value)) or "none"
    if value == "":
        return '""'
    if isinstance(value, dict):
        days = " ".join(day[:3] for day, it in zip(names.DAYS, value["days"]) if it == "1") if value["days"] != "1111111" else "every day"
        how = "confirms" if value["confirmed"] else "doesn't confirm"
        return f"{value['address']} process {value['process']} ({days}, {value['from']} to {value['to']}, {', '.join(value['transitions'])}, {how})"
    return "never" if value is None else {True: "true", False: "false"}.get(value, str(value)) if isinstance(value, bool) else str(value)


# Notifications.

# The event values of an event type: what each parameter between its tags is called.
EVENT_VALUES = {
    0: {0: "bits", 1: "flags"}, 1: {0: "state", 1: "flags"}, 3: {0: "command", 1: "flags", 2: "feedback"}, 11: {0: "value", 1: "flags", 2: "limit"},
    15: {0: "value", 1: "flags", 2: "deadband", 3: "limit"}, 16: {0: "value", 1: "flags", 2: "deadband", 3: "limit"},
    17: {0: "text", 1: "flags", 2: "alarm-text"}, 19: {0: "reliability", 1: "flags", 2: "properties"},
}


def event_values(note):
    """The event values of a notification, by name."""
    if not note.values:
        return {}
    of_type = note.values[0]
    called = EVENT_VALUES.get(of_type.number, {})
    return {called.get(it.number, str(it.number)): event_value(note, of_type.number, it) for it in of_type.content}


def event_value(note, event_type, element):
    name = EVENT_VALUES.get(event_type, {}).get(element.number)
    if name == "flags":
        return [flag for flag, it in zip(names.FLAGS, octets.bits_of(element)) if it == "1"]
    if name == "bits":
        return octets.bits_of(element)
    if name in ("text", "alarm-text"):
        return octets.text_of(element)
    if name == "reliability":
        return names.named(names.RELIABILITIES, octets.number_of(element))
    if name == "state":
        inner = element.content[0]
        return ("inactive", "active")[octets.number_of(inner) % 2] if inner.number == 1 else octets.number_of(inner)
    if name in ("command", "feedback"):
        return plain_of_state(element.content[0]) if len(element.content) == 1 else None
    if name == "properties":
        return properties_of(note.object, element.content)
    return int.from_bytes(element.content, "big", signed=event_type == 15 and name != "deadband")


def plain_of_state(element):
    """A command or a feedback: of a binary value, which is an Enumerated, by its name."""
    value = plain(element)
    return ("inactive", "active")[value] if element.number == ENUMERATED and not element.context and value in (0, 1) else value


def properties_of(the_object, found):
    """The property values of a CHANGE_OF_RELIABILITY: each a property, and its value between the tags of 2."""
    rows, number = {}, None
    for it in found:
        if it.number == 0:
            number = octets.number_of(it)
        elif it.number == 2 and number is not None:
            rows[names.named(names.PROPERTIES, number)] = value_of(the_object, number, it.content)
    return rows


def notification_words(note, name=None, measure=None):
    """A notification by names, as a line of JSON has it. A measure tells the units of its value."""
    told = {
        "time": stamp_text(note.stamp), "object": names.object_text(note.object), "name": name, "notify": names.named(names.NOTIFY_TYPES, note.notify_type),
        "from": None if note.from_state is None else names.named(names.STATES, note.from_state), "to": names.named(names.STATES, note.to_state),
        "event_type": names.named(names.EVENT_TYPES, note.event_type), "values": event_values(note), "class": note.of_class, "priority": note.priority,
        "ack_required": None if note.ack_required is None else bool(note.ack_required), "device": note.device[1], "process": note.process, "text": note.text,
        "units": (measure.unit or None) if measure else None, "scale": float(measure.scale) if measure and measure.scale != 1 else None,
    }
    return {key: it for key, it in told.items() if it is not None}


def event_value_text(value):
    return ", ".join(f"{name} {text_of(it)}" for name, it in value.items()) if isinstance(value, dict) else text_of(value)


def measured_text(key, value, told):
    """A value of a notification: a number with its unit, where that is known."""
    if key in ("value", "limit", "deadband") and isinstance(value, int) and not isinstance(value, bool):
        return text_of_measured(value, Measure(decimal.Decimal(str(told.get("scale", 1))), told.get("units", "")))
    return event_value_text(value)


def notification_text(told):
    """The same in words: what, of which object, from which state to which, with which values, of which class."""
    of = told["object"] + (f' "{told["name"]}"' if told.get("name") and told["name"] != told["object"] else "")
    if told["notify"] == "ack-notification":
        return say("acknowledged: {} {} at {}, class {}", of, say(told["to"]), told["time"], told["class"])
    shown = ", ".join(f"{say(key)} {measured_text(key, it, told)}" for key, it in told["values"].items() if key != "flags")
    moved = say(told.get("from", "?")), say(told["to"])
    line = say("{}: {} {} -> {} at {}, {}, class {}, priority {}", say(told["notify"]), of, *moved, told["time"], shown, told["class"], told["priority"])
    asks = f", {say('to be acknowledged')}" if told.get("ack_required") else ""
    return line + asks + (f', "{told["text"]}"' if "text" in told else "")


# What is to be written, from words.


def element_from(the_object, number, word, type_name=None):
    """The element of an application that a word is, by the type of the property, or by a type that is named."""
    name, kind = names.named(names.PROPERTIES, number), names.named(names.OBJECT_TYPES, the_object[0])
    of_type = TYPES.get(type_name) or (TYPE_OF_KIND.get(kind) if name in VALUES else WRITTEN.get(name))
    if of_type is None:
        raise ValueError(f"{name} of {kind} isn't known to be written: say its type by --type")
    return octets.application(of_type, word_value(of_type, word, kind))


def word_value(of_type, word, kind=None):
    """The value of a type that a word is."""
    if of_type == TEXT:
        return word
    if of_type == BITS:
        if not re.fullmatch("[01]*", word):
            raise ValueError(f"{word!r} is no string of bits: digits 0 and 1 are wanted, as 0010")
        return word
    if of_type == BOOLEAN:
        if word not in ("true", "false"):
            raise ValueError(f"{word!r} is neither true nor false")
        return word == "true"
    if of_type == ENUMERATED and word in ("inactive", "active"):
        return int(word == "active")
    if of_type == REAL:
        return float(word)
    return whole_number(of_type, word, kind)


def whole_number(of_type, word, kind):
    if not re.fullmatch(r"-?\d{1,10}", word):
        wanted = "inactive or active" if kind == "binary-value" else "a whole number"
        hint = ": say it in tenths or hundredths, as the site does" if re.fullmatch(r"-?\d+\.\d+", word) else ""
        raise ValueError(f"{word!r} is none: {wanted} is wanted{hint}")
    low, high = (-(1 << 31), (1 << 31) - 1) if of_type == SIGNED else (0, (1 << 32) - 1)
    if not low <= int(word) <= high:
        raise ValueError(f"{word} isn't from {low} to {high}")
    return int(word)
