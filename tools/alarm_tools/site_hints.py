"""What is wanted where a site's text isn't what it should be: the nearest key, and what people write in place of TOML."""
import difflib
import re
import unicodedata

# What others call a key, and the key; None where there is none, with why.
ALSO = {
    "hi_limit": "high", "high_limit": "high", "max": "high", "upper": "high", "upper_limit": "high", "lo_limit": "low", "low_limit": "low", "min": "low", "lower": "low",
    "lower_limit": "low", "begin": "from", "start": "from", "end": "to", "records": "size", "buffer_size": "size", "alarm_value": "alarm_values", "alarm_values": "alarm_value", "delay": "time_delay", "hysteresis": "deadband",
    "id": "instance", "number": "instance", "object_name": "name", "label": "name", "type": "kind", "ip": "address", "recipient": "address",
    "notification_class": "class", "present_value": "value", "initial": "value", "priorities": "priority", "timezone": "zone_rule", "tz": "zone_rule",
    "message": "texts", "text": "texts", "event_enable": "enable", "number_of_states": "states", "weekdays": "days", "until": "to", "alarm_states": "alarm_values",
    "flush": "flush_silent", "flush_dead": "flush_silent", "drop_silent": "flush_silent", "give_up_silent": "flush_silent",
}
NONE = {
    "units": "no object has a unit: say it in the name or in a comment", "unit": "no object has a unit: say it in the name or in a comment",
    "description": "no object has a description: say it in the name, in texts or in a comment",
    "device": "a recipient is named by its address, A.B.C.D:PORT; [[binding]] says where a device is",
    "state_text": "states have no texts here: say them in texts or in a comment", "port": "the port stands in address, behind a colon",
    "priority": "an object is as urgent as its class: priority is a key of [[class]]", "severity": "an object is as urgent as its class: priority is a key of [[class]]",
    "ack_required": "whether somebody has to acknowledge is said of the class: ack_required is a key of [[class]]",
    "location": "nothing has a location: say it in the name or in a comment", "password": "nobody is asked for a password: a firewall or a proxy keeps others out",
}
# The same of [device], whose address and port aren't the site's.
OF_DEVICE = dict.fromkeys(("address", "ip", "port"), "where the server listens isn't in the site: ALARM_SERVER_ADDRESS and ALARM_SERVER_PORT say it, in /etc/default/alarm-server")
CURLY = "\u201c\u201d\u201e\u2018\u2019\u201a\u00ab\u00bb"


def nearest(key, known):
    """The key that was most likely meant, or None."""
    spelled = re.sub(r"[^a-z0-9]+", "_", re.sub(r"(?<=[a-z])(?=[A-Z])", "_", key).lower()).strip("_")
    if ALSO.get(spelled) in known:
        return ALSO[spelled]
    return next(iter(difflib.get_close_matches(spelled, known, 1, 0.7)), None)


def of_unknown(key, known, section):
    """What is wanted in place of a key that an item doesn't have: the nearest one, or where it is said, or all that there are."""
    if section == "device" and key.lower() in OF_DEVICE:
        return f": {OF_DEVICE[key.lower()]}"
    near = nearest(key, known)
    if near:
        return f": {near} is the nearest"
    return f": {NONE[key.lower()]}" if key.lower() in NONE else f": its keys are {', '.join(known)}"


def of_missing(section, key, item):
    """Why a key has to be there."""
    if section == "device" and not item:
        return "[device] is wanted, with instance and start"
    if key in ("fault_low", "fault_high"):
        other = "fault_high" if key == "fault_low" else "fault_low"
        return f"fault_low and fault_high go together, and {other} is there alone"
    what = {
        "kind": "one of the kinds of value objects", "instance": "a number of its own", "start": "when the site starts, in milliseconds since 1970",
        "priority": "three numbers, for to-offnormal, to-fault and to-normal", "address": "A.B.C.D:PORT of the recipient", "class": "the instance of a [[class]]",
        "states": "how many states it has", "value": "the value with which it begins", "mask": "the bits that are compared", "low": "the low limit", "high": "the high limit",
        "alarm_value": "the value that is an alarm", "alarm_values": "the values that are alarms", "size": "how many records it holds",
        "classes": "the classes that it records", "algorithm": "command-failure or unsigned-range", "monitored": "KIND:INSTANCE of what it watches",
        "feedback": "KIND:INSTANCE of what has to follow", "device": "the instance of a device",
    }.get(key)
    return "it has to be there" + (f": {what}" if what else "")


def of_octets(octets):
    """What a text is that isn't UTF-8."""
    if octets[:2] in (b"\xff\xfe", b"\xfe\xff"):
        return "it is UTF-16, as some editors write it: save it as UTF-8"
    return "an octet that isn't UTF-8: save it as UTF-8"


def of_line(octets, number, reason):
    """Why a line is none of TOML, in the words of a site where they are known, and else the reader's reason."""
    lines = octets.decode("utf-8-sig", "replace").splitlines()
    line = lines[number - 1] if 0 < number <= len(lines) else ""
    if octets.count(b"\0") > len(octets) // 4:
        return "it is UTF-16, as some editors write it: save it as UTF-8"
    if reason.startswith("Cannot "):
        return of_twice(lines, line, reason)
    text = of_open(lines[:number], reason) or of_head(line) or next((text for holds, text in spellings(line) if holds), None) or of_reason(reason)
    return f"{text} ({reason})" if text else reason


def of_twice(lines, line, reason):
    """What is wrong where something is declared that is there already."""
    heads = [(at, found[1]) for at, it in enumerate(lines, 1) if (found := re.match(r"\s*\[(class|destination|object|enrollment|log|binding)\]", it))]
    if heads:
        return f"[[{heads[0][1]}]] is wanted in line {heads[0][0]}, in two brackets, since there may be more than one ({reason})"
    if re.match(r"\s*\[\s*device\s*\]", line):
        return f"[device] stands twice, and may stand once ({reason})"
    return f"a key stands twice in its table ({reason})" if "=" in line else reason


def of_open(lines, reason):
    """Where what isn't closed begins: an array, or a text of several lines. The reader tells the line in which it gave up. Or a character that nobody sees."""
    if reason.startswith("Unclosed array"):
        at = next((at for at in range(len(lines), 0, -1) if bare(lines[at - 1]).count("[") > bare(lines[at - 1]).count("]")), len(lines))
        return f"the array of line {at} wants a comma between its values and ] behind the last one, as [10, 20, 120]"
    if reason.startswith("Unterminated string"):
        at = next((at for at in range(len(lines), 0, -1) if lines[at - 1].count('"""') % 2 or lines[at - 1].count("'''") % 2), None)
        return at and f"the text that begins in line {at} isn't closed: one quote before and one behind it are wanted"
    # The end of a line is one too, where a quote isn't closed.
    return "a control character: take it out" if reason.startswith(("Illegal character", "Found invalid character")) and "\\n" not in reason else None


def of_head(line):
    """What is wrong with a line that is to be the head of a section."""
    if section := re.match(r"\s*\[([a-z_]+)\]\s*(?:#.*)?$", line):
        return f"[[{section[1]}]] is wanted, in two brackets, since there may be more than one" if section[1] != "device" else "[device] stands twice, and may stand once"
    return "a section begins with [device], or with [[object]] and the like, in two brackets and alone in its line" if line.lstrip().startswith(("[", "]")) else None


def bare(line):
    """A line without its texts in quotes and its comment: what is left is to be ASCII."""
    return re.sub(r"\"(?:[^\"\\]|\\.)*\"|'[^']*'", '""', line).split("#")[0]


def spellings(line):
    """What people write in place of TOML: whether a line has it, and what is wanted."""
    plain = bare(line)
    key, _, word = (it.strip() for it in plain.partition("="))
    first = re.match(r"[^\s,\]]*", word)[0]
    strange = next((it for it in plain if ord(it) > 126), None)
    return [
        (any(it in plain for it in CURLY), "straight quotes are wanted, as in \"Freezer\", and these are curly ones"),
        (plain.count('"') % 2 or plain.count("'") % 2, "a quote isn't closed in its line"),
        (line.startswith(("<<<<<<<", "=======", ">>>>>>>")), "it is the mark of a merge: take one of both texts, and the marks out"),
        (re.search(r"(?:^|\s)(?://|--|/\*|;)", plain) or plain.rstrip().endswith(";"), "a comment begins with #, and a line ends without ;"),
        ("=" not in plain and ":" in plain, "KEY = VALUE is wanted, with = in place of :"),
        ("=" not in plain, "KEY = VALUE is wanted, or a section as [[object]], or # before a comment"),
        (word.startswith("=") or key.endswith(":"), "KEY = VALUE is wanted, with one ="),
        (re.search(r"\s", key), "a key is one word, as time_delay"),
        (re.search(r"(?<![\w\"'])(?:True|False|TRUE|FALSE|(?i:yes|no|on|off))(?![\w\"'])", word), "true or false is wanted, in small letters and without quotes"),
        (re.search(r"\s[a-z_]+\s*=", word), "one KEY = VALUE in a line is wanted"),
        (re.fullmatch(r"[+-]?\d+,\d+", word), "a whole number is wanted, without a comma: say it in tenths or hundredths"),
        (word.startswith("("), "square brackets are wanted around several values, as [10, 20, 120]"),
        ("," in word and not word.startswith(("[", "{")), "one value is wanted, without a comma behind it; several stand in brackets, as [10, 20, 120]"),
        (re.match(r"\d+\.\d+\.\d+\.\d+(?::|$)|\d+:\d", word), "a text stands in quotes, as \"10.1.0.5:47808\""),
        (re.match(r"[+-]?\d+ *[^\d\s,._\]}#xob:TZ+-]", word), "a number is wanted, without a unit behind it"),
        (strange, strange and f"{unicodedata.name(strange, 'a character')} (U+{ord(strange):04X}) can't stand outside quotes: the plain digits, - and blank of ASCII are wanted"),
        (re.match(r"[+-]?0\d", first), "a number is wanted without a 0 before it"),
        (re.fullmatch(r"[+-]*\d[\d ._]*", word), "a whole number is wanted: digits alone, with - before it where it is below 0"),
        (re.fullmatch(r"(?i:null|none|nil|undefined)", first), "there is no such value: leave the key out where it has none"),
        (key == "start" and word, "milliseconds since 1970 are wanted, as `date +%s000` prints them"),
        (not word and "=" in plain, "a value is wanted behind ="),
        (re.match(r"[A-Za-z]", first) and first not in ("inf", "nan"), "a text stands in quotes"),
    ]


def of_reason(reason):
    """What is wanted by the reader's reason alone."""
    for begins, text in [
        (("Unescaped '\\'", "Invalid hex value"), "a backslash in a text is written twice, \\\\, or the text stands in single quotes"),
        (("Expected newline",), "nothing is wanted behind a value but a comment, which begins with #"),
    ]:
        if reason.startswith(begins):
            return text
    return None
