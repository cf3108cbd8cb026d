"""What a number of an object measures: its units, as the device tells them or its name does, and the texts of its states."""
import collections
import decimal
import re

from . import names, octets

# How much of a unit one is, and the unit. What has no unit has an empty one.
Measure = collections.namedtuple("Measure", "scale unit")
NONE = Measure(decimal.Decimal(1), "")
# A name that ends in [°C] or [0.1 °C].
IN_NAME = re.compile(r"\[\s*(?:(\d+(?:\.\d+)?)\s+)?([^\[\]\s][^\[\]]*?)\s*\]\s*$")
# The engineering units of clause 21 that are usual, by their numbers.
UNITS = {
    2: "mA", 3: "A", 4: "\u03a9", 5: "V", 6: "kV", 18: "Wh", 19: "kWh", 27: "Hz", 29: "%RH", 37: "lx", 47: "W", 48: "kW", 49: "MW", 53: "Pa", 54: "kPa", 55: "bar",
    56: "psi", 62: "\u00b0C", 63: "K", 64: "\u00b0F", 71: "h", 72: "min", 73: "s", 74: "m/s", 80: "m\u00b3", 82: "l", 85: "m\u00b3/s", 87: "l/s", 88: "l/min",
    95: "", 96: "ppm", 98: "%", 104: "rpm", 124: "mV", 133: "hPa", 134: "mbar", 135: "m\u00b3/h", 136: "l/h", 159: "ms",
}


def of_name(name):
    """The measure that a name tells at its end, or None."""
    found = IN_NAME.search(name or "")
    return Measure(decimal.Decimal(found[1] or 1), found[2]) if found else None


def bare(name):
    """A name without the measure at its end, where its value is shown with it."""
    return IN_NAME.sub("", name or "").strip()


def measure_of(name, units):
    """The measure of an object by its name, else by its Units, a number or None."""
    return of_name(name) or (Measure(decimal.Decimal(1), UNITS[units]) if UNITS.get(units) else NONE)


def text_of(value, measure, state_texts=()):
    """A value as people read it: with its unit, or by the text of its state."""
    if isinstance(value, bool) or value is None:
        return "" if value is None else str(value).lower()
    if isinstance(value, int):
        if state_texts and 1 <= value <= len(state_texts) and state_texts[value - 1]:
            return f"{value} ({state_texts[value - 1]})"
        return f"{value * measure.scale:f}{' ' if measure.unit else ''}{measure.unit}"
    if isinstance(value, str) and value in ("inactive", "active") and len(state_texts) == 2 and state_texts[value == "active"]:
        return f"{value} ({state_texts[value == 'active']})"
    return str(value)


# The properties that tell it, of each kind that has such.
ASKED = {
    names.OBJECT_NUMBERS["integer-value"]: (octets.UNITS,), names.OBJECT_NUMBERS["positive-integer-value"]: (octets.UNITS,),
    names.OBJECT_NUMBERS["multi-state-value"]: (octets.STATE_TEXT,), names.OBJECT_NUMBERS["binary-value"]: (octets.INACTIVE_TEXT, octets.ACTIVE_TEXT),
}


def state_texts_of(found, the_object):
    """The texts of an object's states, of what was read of it: those of a multi-state value, or the two of a binary one."""
    wanted = [it for it in ASKED.get(the_object[0], ()) if it != octets.UNITS]
    rows = [found.get((the_object, number, None)) for number in wanted]
    if not rows or not all(isinstance(row, list) for row in rows):
        return ()
    return tuple(octets.text_of(it) for row in rows for it in row)


def units_of(found, the_object):
    row = found.get((the_object, octets.UNITS, None))
    return octets.number_of(row[0]) if isinstance(row, list) and row else None
