"""The numbers of ANSI/ASHRAE 135-2020 (clause 21) that the server uses, and their names, as docs/PROFILE.md and SCRIPT.md write them."""
import re

OBJECT_TYPES = {
    5: "binary-value", 8: "device", 9: "event-enrollment", 15: "notification-class", 19: "multi-state-value", 25: "event-log",
    39: "bitstring-value", 40: "characterstring-value", 45: "integer-value", 48: "positive-integer-value",
}
OBJECT_NUMBERS = {name: number for number, name in OBJECT_TYPES.items()}
# The kinds of objects that have a value.
VALUE_KINDS = ("integer-value", "positive-integer-value", "binary-value", "multi-state-value", "bitstring-value", "characterstring-value")
LAST_INSTANCE = (1 << 22) - 1

PROPERTIES = {
    0: "acked-transitions", 1: "ack-required", 4: "active-text", 6: "alarm-value", 7: "alarm-values", 8: "all", 17: "notification-class", 25: "deadband",
    28: "description", 35: "event-enable", 36: "event-state", 37: "event-type", 39: "fault-values", 45: "high-limit", 46: "inactive-text", 52: "limit-enable", 59: "low-limit",
    62: "max-apdu-length-accepted", 72: "notify-type", 74: "number-of-states", 75: "object-identifier", 76: "object-list",
    77: "object-name", 79: "object-type", 81: "out-of-service", 85: "present-value", 86: "priority", 102: "recipient-list",
    103: "reliability", 107: "segmentation-supported", 110: "state-text", 111: "status-flags", 113: "time-delay", 117: "units", 120: "vendor-identifier",
    126: "buffer-size", 130: "event-time-stamps", 131: "log-buffer", 133: "enable", 141: "record-count", 144: "stop-when-full",
    145: "total-record-count", 351: "event-message-texts", 352: "event-message-texts-config", 353: "event-detection-enable",
    354: "event-algorithm-inhibit", 355: "event-algorithm-inhibit-ref", 356: "time-delay-normal", 357: "reliability-evaluation-inhibit",
}
PROPERTY_NUMBERS = {name: number for number, name in PROPERTIES.items()}

STATES = {0: "normal", 1: "fault", 2: "offnormal", 3: "high-limit", 4: "low-limit"}
TRANSITIONS = ("to-offnormal", "to-fault", "to-normal")
NOTIFY_TYPES = {0: "alarm", 1: "event", 2: "ack-notification"}
EVENT_TYPES = {
    0: "change-of-bitstring", 1: "change-of-state", 3: "command-failure", 11: "unsigned-range", 15: "signed-out-of-range",
    16: "unsigned-out-of-range", 17: "change-of-characterstring", 19: "change-of-reliability",
}
RELIABILITIES = {
    0: "no-fault-detected", 2: "over-range", 3: "under-range", 7: "unreliable-other", 9: "multi-state-fault", 12: "communication-failure",
    14: "monitored-object-fault",
}
SERVICES = {
    0: "AcknowledgeAlarm", 2: "ConfirmedEventNotification", 3: "GetAlarmSummary", 4: "GetEnrollmentSummary", 8: "AddListElement",
    9: "RemoveListElement", 12: "ReadProperty", 14: "ReadPropertyMultiple", 15: "WriteProperty", 26: "ReadRange", 29: "GetEventInformation",
}
ERRORS = {
    (1, 31): "unknown-object", (1, 74): "no-alarm-configured", (2, 9): "invalid-data-type", (2, 32): "unknown-property",
    (2, 37): "value-out-of-range", (2, 40): "write-access-denied", (2, 41): "character-set-not-supported",
    (2, 42): "invalid-array-index", (2, 50): "property-is-not-an-array", (3, 19): "no-space-to-add-list-element",
    (3, 20): "no-space-to-write-property", (5, 14): "invalid-time-stamp", (5, 22): "property-is-not-a-list",
    (5, 73): "invalid-event-state", (5, 81): "list-element-not-found",
}
REJECTS = {0: "other", 4: "invalid-tag", 5: "missing-required-parameter", 7: "too-many-arguments", 9: "unrecognized-service"}
ABORTS = {0: "other", 4: "segmentation-not-supported"}
FLAGS = ("in-alarm", "fault", "overridden", "out-of-service")
DAYS = ("Monday", "Tuesday", "Wednesday", "Thursday", "Friday", "Saturday", "Sunday")


def named(table, number):
    """The name of a number, or the number itself where the table has none."""
    return table.get(number, str(number))


def object_text(the_object):
    """KIND:INSTANCE of an object, which is the number of its type and its instance."""
    return f"{named(OBJECT_TYPES, the_object[0])}:{the_object[1]}"


def object_from(text):
    """The object that KIND:INSTANCE names, KIND by its name or its number."""
    kind, _, instance = text.partition(":")
    number = OBJECT_NUMBERS.get(kind, int(kind) if re.fullmatch(r"0|[1-9]\d{0,3}", kind) else -1)
    if not 0 <= number < 1024 or not re.fullmatch(r"0|[1-9]\d{0,6}", instance) or int(instance) > LAST_INSTANCE:
        raise ValueError(f"{text!r} is no object: KIND:INSTANCE is wanted, as integer-value:3; KIND is one of {', '.join(OBJECT_NUMBERS)}")
    return number, int(instance)


def property_from(text):
    """The number of a property that is given by its name or its number."""
    name = text.lower().replace("_", "-")
    if name in PROPERTY_NUMBERS:
        return PROPERTY_NUMBERS[name]
    if re.fullmatch(r"0|[1-9]\d{0,6}", text):
        return int(text)
    raise ValueError(f"{text!r} is no property: its name is wanted, as present-value, or its number")


def transitions_in(flags):
    """The names of the transitions whose flags are set, to-offnormal first."""
    return [name for name, flag in zip(TRANSITIONS, flags) if flag]


def transition_to(state):
    """The place of the transition that leads to a state, by the states' numbers: 0 to-offnormal, 1 to-fault, 2 to-normal."""
    return {0: 2, 1: 1}.get(state, 0)
