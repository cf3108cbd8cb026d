"""Mistakes that people make in a site's file, each as one change of examples/school.toml, and what alarm-server and alarm-site say of it.

By docs/SITE.md: the program's refusal, or None where the program takes the text, and what stands in the line behind it. checks/commands
has the program read each, and checks/tools alarm-site, which has to tell the line of each and what is wanted, and of those that are taken
the warning that is named.
"""
import collections
import concurrent.futures
import pathlib
import re

TOP = pathlib.Path(__file__).resolve().parent.parent
# What is changed stands once in the text; where `old` is empty, `new` comes behind it.
Mistake = collections.namedtuple("Mistake", "name old new told says")

VALUES = "value = -200"
KIND = 'kind = "integer-value"\ninstance = 1'
CARETAKER = 'address = "10.1.0.5:47808"\nprocess = 1'
GUARD = 'from = "18:00:00.00"\nto = "23:59:59.99"'
START = "start = 1704063600000           # 2024-01-01T00:00 in Berlin"
MODE = '\n[[object]]\nkind = "multi-state-value"\ninstance = 1\nvalue = 1\nstates = 5\nclass = 1\nalarm_values = [3]\n'
BITS = '\n[[object]]\nkind = "bitstring-value"\ninstance = 1\nvalue = "0000"\nclass = 1\nalarm_values = ["1000"]\nmask = "1100"\n'
PUMP = '\n[[enrollment]]\ninstance = 1\nclass = 1\nalgorithm = "command-failure"\nmonitored = "binary-value:1"\nfeedback = "binary-value:9"\n'

POSITIVE = '\n[[object]]\nkind = "positive-integer-value"\ninstance = 1\nvalue = -1\n'
DEVICE = 'name = "School"'
OPEN = 'alarm_value = "active"          # open for two minutes'
HIGH = "high = -150                     # ten"

# Values.
OF_VALUES = [
    Mistake("a temperature with a point", VALUES, "value = -20.0", "bad-value object 1 value", ['"Freezer room"', "whole number", "tenths"]),
    Mistake("a number in quotes", VALUES, 'value = "-200"', "bad-value object 1 value", ["whole number"]),
    Mistake("on for active", 'value = "inactive"', 'value = "off"', "bad-value object 2 value", ["inactive, active"]),
    Mistake("a limit with a point", "low = -300", "low = -30.0", "bad-value object 1 low", ["whole number"]),
    Mistake("an unknown kind", KIND, 'kind = "analog-value"\ninstance = 1', "bad-value object 1 kind", ["integer-value", "characterstring-value"]),
    Mistake("an underscore in a kind", KIND, 'kind = "integer_value"\ninstance = 1', "bad-value object 1 kind", ["integer-value"]),
    Mistake("one of two fault limits", "fault_high = 600\n", "", "missing object 1 fault_high", ["Freezer room"]),
    Mistake("a mode without its states", "", MODE.replace("states = 5\n", ""), "missing object 5 states", ["how many states"]),
    Mistake("an outbox that is too small", 'name = "School"', 'name = "School"\noutbox = 32', "bad-value device 0 outbox", ["64", "16384"]),
    Mistake("a log that is too large", "size = 1000", "size = 20000", "bad-value log 1 size", ["1", "16384"]),
    Mistake("a log of nothing", "size = 1000", "size = 0", "bad-value log 1 size", ["1", "16384"]),
    Mistake("fewer states than the value", "", MODE.replace("value = 1\n", "value = 5\n").replace("states = 5", "states = 4"), "bad-value object 5 states", ["4 states", "the value 5"]),
    Mistake("a state 0", "", MODE.replace("value = 1\n", "value = 0\n"), "bad-value object 5 value", ["from 1 to"]),
    Mistake("a value that is too large", VALUES, "value = 3000000000", "bad-value object 1 value", ["-2147483648 to 2147483647"]),
    Mistake("a value below nothing", "", POSITIVE, "bad-value object 5 value", ["from 0 to"]),
    Mistake("bits with a letter", "", BITS.replace('"0000"', '"00x0"'), "bad-value object 5 value", ["digits 0 and 1"]),
    Mistake("a truth for active", 'value = "inactive"', "value = false", "bad-value object 2 value", ["inactive, active"]),
    Mistake("a capital letter in active", OPEN, OPEN.replace("active\"", "Active\""), "bad-value object 2 alarm_value", ["inactive, active"]),
    Mistake("no alarm state", "", MODE.replace("[3]", "[]"), "bad-value object 5 alarm_values", ["array of 1 to 32"]),
    Mistake("one alarm state without brackets", "", MODE.replace("[3]", "3"), "bad-value object 5 alarm_values", ["array of 1 to 32"]),
    Mistake("a deadband below nothing", "deadband = 10", "deadband = -10", "bad-value object 1 deadband", ["from 0 to"]),
    Mistake("a delay below nothing", "time_delay = 600", "time_delay = -1", "bad-value object 1 time_delay", ["from 0 to"]),
    Mistake("a delay with its unit", "time_delay = 600", 'time_delay = "600s"', "bad-value object 1 time_delay", ["whole number", "without quotes"]),
    Mistake("a truth for two limits", 'limit_enable = "10"', "limit_enable = true", "bad-value object 3 limit_enable", ["2 digits"]),
    Mistake("a vendor that can't be", "vendor = 999", "vendor = 70000", "bad-value device 0 vendor", ["65535"]),
    Mistake("too many retries", DEVICE, f"{DEVICE}\nretries = 20", "bad-value device 0 retries", ["from 0 to 15"]),
    Mistake("no time for an answer", DEVICE, f"{DEVICE}\napdu_timeout = 0", "bad-value device 0 apdu_timeout", ["from 1 to 3600000"]),
    Mistake("a truth in quotes", DEVICE, f'{DEVICE}\nflush_silent = "true"', "bad-value device 0 flush_silent", ["true or false", "without quotes"]),
    Mistake("a number for a truth", DEVICE, f"{DEVICE}\nflush_silent = 1", "bad-value device 0 flush_silent", ["true or false"]),
    Mistake("a hyphen in a key of the device", DEVICE, f"{DEVICE}\nflush-silent = true", "unknown device 0 flush-silent", ["flush_silent"]),
    Mistake("a device's number that can't be", "instance = 2001", "instance = 4194303", "bad-value device 0 instance", ["4194302"]),
]
# Keys.
OF_KEYS = [
    Mistake("a unit", VALUES, VALUES + '\nunits = "degrees"', "unknown object 1 units", ["Freezer room"]),
    Mistake("a description", VALUES, VALUES + '\ndescription = "cold"', "unknown object 1 description", ["Freezer room"]),
    Mistake("a misspelled key", "time_delay = 600", "time_dely = 600", "unknown object 1 time_dely", ["Freezer room"]),
    Mistake("a device in place of an address", CARETAKER, "device = 1234\n" + CARETAKER, "unknown destination 1 device", ["destination"]),
    Mistake("a key of another kind", VALUES, VALUES + '\nalarm_value = "active"', "unknown object 1 alarm_value", ["integer-value"]),
    Mistake("alarm keys without a class", "class = 1\nlow = -300", "low = -300", "unknown object 1 deadband", ["class"]),
    Mistake("a device without its instance", "instance = 2001\n", "", "missing device 0 instance", ["School"]),
    Mistake("a class without priorities", "priority = [120, 120, 220]\n", "", "missing class 2 priority", ["Building"]),
    Mistake("two priorities", "priority = [120, 120, 220]", "priority = [120, 220]", "bad-value class 2 priority", ["three", "to-offnormal"]),
    Mistake("a limit by another name", HIGH, HIGH.replace("high", "hi_limit", 1), "unknown object 1 hi_limit", ["high is the nearest"]),
    Mistake("a hyphen in a key", "time_delay = 600", "time-delay = 600", "unknown object 1 time-delay", ["time_delay is the nearest"]),
    Mistake("a capital letter in a key", 'name = "Freezer room"', 'Name = "Freezer room"', "unknown object 1 Name", ["name is the nearest"]),
    Mistake("a delay by its short name", "time_delay = 600", "delay = 600", "unknown object 1 delay", ["time_delay is the nearest"]),
    Mistake("a class by its long name", "class = 2\nalarm_value", "notification_class = 2\nalarm_value", "unknown object 2 alarm_value", ["class"]),
    Mistake("a port by itself", CARETAKER, CARETAKER + "\nport = 47808", "unknown destination 1 port", ["behind a colon"]),
    Mistake("a weekday by another key", 'days = "0000011"', 'weekdays = "0000011"', "unknown destination 4 weekdays", ["days is the nearest"]),
    Mistake("an object without its instance", KIND, 'kind = "integer-value"', "missing object 1 instance", ["a number of its own"]),
    Mistake("an object without its kind", KIND, "instance = 1", "missing object 1 kind", ["kinds of value objects"]),
    Mistake("an object without its value", f"{VALUES}\n", "", "missing object 1 value", ["with which it begins"]),
    Mistake("a class without a limit", "low = -300\n", "", "missing object 1 low", ["the low limit"]),
    Mistake("a class without an alarm value", f"{OPEN}\n", "", "missing object 2 alarm_value", ["the value that is an alarm"]),
    Mistake("a recipient without a class", f"class = 1\n{CARETAKER}", CARETAKER, "missing destination 1 class", ["[[class]]"]),
    Mistake("a recipient without an address", CARETAKER, "process = 1", "missing destination 1 address", ["A.B.C.D:PORT"]),
    Mistake("a log without its classes", "classes = [1, 2]\n", "", "missing log 1 classes", ["the classes that it records"]),
    Mistake("the other of two fault limits", "fault_low = -600                # the sensor is broken\n", "", "missing object 1 fault_low", ["fault_high is there alone"]),
    Mistake("a device without its start", f"{START}\n", "", "missing device 0 start", ["milliseconds"]),
    Mistake("yes for true", "ack_required = [true, true, false]", 'ack_required = "yes"', "bad-value class 1 ack_required", ["three"]),
]
# Whom to tell, and when.
OF_TELLING = [
    Mistake("an address without a port", CARETAKER, 'address = "10.1.0.5"', "bad-value destination 1 address", ["A.B.C.D:PORT"]),
    Mistake("an address by name", CARETAKER, 'address = "caretaker:47808"', "bad-value destination 1 address", ["A.B.C.D:PORT"]),
    Mistake("true in quotes", 'days = "0000011"\nconfirmed = true', 'days = "0000011"\nconfirmed = "true"', "bad-value destination 4 confirmed", ["true or false"]),
    Mistake("a time without seconds", GUARD, GUARD.replace("18:00:00.00", "18:00"), "bad-value destination 2 from", ["HH:MM:SS.HH"]),
    Mistake("days by name", 'days = "0000011"', 'days = "Sat-Sun"', "bad-value destination 4 days", ["7 digits"]),
    Mistake("a class by name", "class = 1\nlow = -300", 'class = "Food"\nlow = -300', "bad-value object 1 class", ["whole number"]),
    Mistake("a class that isn't there", "class = 1\nlow = -300", "class = 9\nlow = -300", "dangling integer-value:1", ["Freezer room", "class 9"]),
    Mistake("a recipient of no class", "class = 2\naddress", "class = 9\naddress", "dangling notification-class:9", ["class 9"]),
    Mistake("a log of no class", "classes = [1, 2]", "classes = [1, 2, 7]", "dangling event-log:1", ["History", "class 7"]),
    Mistake("an enrollment on nothing", "", PUMP, "dangling event-enrollment:1", ["binary-value:9"]),
    Mistake("an address above 255", CARETAKER, CARETAKER.replace(".5:", ".256:"), "bad-value destination 1 address", ["above 255"]),
    Mistake("a port above 65535", CARETAKER, CARETAKER.replace("47808", "70000"), "bad-value destination 1 address", ["65535"]),
    Mistake("an address with zeros", CARETAKER, CARETAKER.replace("10.1", "010.001"), "bad-value destination 1 address", ["A.B.C.D:PORT"]),
    Mistake("six days", 'days = "0000011"', 'days = "000011"', "bad-value destination 4 days", ["7 digits"]),
    Mistake("the hour 24", GUARD, GUARD.replace("23:59:59.99", "24:00:00.00"), "bad-value destination 2 to", ["23:59:59.99"]),
    Mistake("a process below nothing", CARETAKER, CARETAKER.replace("process = 1", "process = -1"), "bad-value destination 1 process", ["from 0 to"]),
    Mistake("transitions as truths", 'transitions = "110"', "transitions = [true, true, false]", "bad-value destination 2 transitions", ["3 digits"]),
    Mistake("a switch of another kind", "time_delay = 600", 'time_delay = 600\ninhibit_ref = "integer-value:2"', "bad-value object 1 inhibit_ref", ["binary-value:INSTANCE"]),
    Mistake("a switch beside inhibit", "time_delay = 600", 'time_delay = 600\ninhibit = false\ninhibit_ref = "binary-value:1"', "bad-value object 1 inhibit_ref", ["one of both"]),
    Mistake("a switch that isn't there", "time_delay = 600", 'time_delay = 600\ninhibit_ref = "binary-value:99"', "dangling integer-value:1", ["binary-value:99"]),
    Mistake("a class twice", 'instance = 2\nname = "Building"', 'instance = 1\nname = "Building"', "duplicate notification-class:1", ["line", "and"]),
    Mistake("an object twice", 'instance = 2\nname = "Flow', 'instance = 1\nname = "Flow', "duplicate integer-value:1", ["line", "and"]),
]
# Time, and the text as a whole.
OF_THE_TEXT = [
    Mistake("a start as a date", START, "start = 2024-01-01", "bad-value device 0 start", ["milliseconds"]),
    Mistake("a start in seconds", START, "start = 1704063600", "bad-value device 0 start", ["milliseconds"]),
    Mistake("a zone by name", "CET-1CEST,M3.5.0,M10.5.0/3", "Europe/Berlin", "bad-value device 0 zone_rule", ["POSIX", "CET-1CEST,M3.5.0,M10.5.0/3"]),
    Mistake("both zones", "zone_rule", "zone_minutes = 60\nzone_rule", "bad-value device 0 zone_rule", ["zone_minutes"]),
    Mistake("a section of many", '[[object]]\nkind = "binary-value"', '[[objects]]\nkind = "binary-value"', "unknown device 0 objects", ["object"]),
    Mistake("a section in single brackets", "[[object]]\n" + KIND, "[object]\n" + KIND, "not-toml", ["[[object]] is wanted in line 68"]),
    Mistake("a quote that isn't closed", 'name = "School"', 'name = "School', "not-toml", ["line"]),
    Mistake("a truth with a capital letter", "[true, true, false]", "[True, true, false]", "not-toml", ["small letters"]),
    Mistake("yes without quotes", "confirmed = true", "confirmed = yes", "not-toml", ["true or false"]),
    Mistake("curly quotes", '"School"', "\u201cSchool\u201d", "not-toml", ["straight quotes"]),
    Mistake("two strokes before a comment", DEVICE, f"// the school\n{DEVICE}", "not-toml", ["begins with #"]),
    Mistake("a semicolon before a comment", DEVICE, f"; the school\n{DEVICE}", "not-toml", ["begins with #"]),
    Mistake("a comma in a number", VALUES, "value = -20,0", "not-toml", ["without a comma"]),
    Mistake("a unit behind a number", "time_delay = 600", "time_delay = 600 s", "not-toml", ["without a unit"]),
    Mistake("a 0 before a number", "instance = 2001", "instance = 02001", "not-toml", ["without a 0"]),
    Mistake("a colon in place of =", DEVICE, 'name: "School"', "not-toml", ["in place of :"]),
    Mistake("a text without quotes", DEVICE, "name = School", "not-toml", ["in quotes"]),
    Mistake("a key without a value", DEVICE, "name =", "not-toml", ["a value is wanted"]),
    Mistake("a key twice", VALUES, f"{VALUES}\n{VALUES}", "not-toml", ["stands twice"]),
]
# The program takes these: they aren't faults of a text, and alarm-site lists them.
TAKEN = [
    Mistake("a window over midnight", GUARD, 'from = "18:00:00.00"\nto = "05:59:59.99"', None, []),
    Mistake("low above high", "low = -300\nhigh = -150", "low = -150\nhigh = -300", None, []),
    Mistake("a deadband wider than the band", "deadband = 10", "deadband = 500", None, []),
    Mistake("an alarm state that isn't one", "", MODE.replace("[3]", "[9]"), None, []),
    Mistake("a mask of another length", "", BITS.replace('"1100"', '"110000"'), None, []),
    Mistake("a name twice", "Flow of the heating", "Freezer room", None, []),
    Mistake("an empty name", '"Flow of the heating"', '""', None, []),
    Mistake("a class that tells nobody", "[[log]]", '[[class]]\ninstance = 3\npriority = [1, 1, 1]\n\n[[log]]', None, []),
    Mistake("the server as its own recipient", "10.1.0.9:47808\"\nprocess = 1\ndays = \"0000011\"", "127.0.0.1:47808\"\nprocess = 1\ndays = \"0000011\"", None, []),
    Mistake("a broadcast as a recipient", "10.1.0.9:47808\"\nprocess = 1\ndays = \"0000011\"", "10.1.0.255:47808\"\nprocess = 1\ndays = \"0000011\"", None, []),
    Mistake("a small outbox", DEVICE, f"{DEVICE}\noutbox = 64", None, []),
    Mistake("a start to come", START, "start = 4000000000000", None, []),
    Mistake("a byte order mark", "# A school", "\ufeff# A school", None, []),
]
# What alarm-site warns of where the program takes it; of a byte order mark it warns of nothing, and reads it.
WARNED = [
    "never-open", "low-above-high", "deadband-too-wide", "no-state", "another-length", "name-twice", "empty-name", "no-object", "own-address", "no-station", "small-outbox",
    "start-ahead", None,
]
MISTAKES = [*OF_VALUES, *OF_KEYS, *OF_TELLING, *OF_THE_TEXT, *TAKEN]


def changed(text, mistake):
    """The text with one mistake."""
    if not mistake.old:
        return text + mistake.new
    if mistake.old not in text:
        raise ValueError(f"the text lacks what {mistake.name!r} changes")
    return text.replace(mistake.old, mistake.new, 1)


def texts():
    """Each mistake with its text."""
    text = (TOP / "examples" / "school.toml").read_text(encoding="utf-8")
    return [(mistake, changed(text, mistake)) for mistake in MISTAKES]


def line_of(text, mistake, was):
    """The line that is to be told: of a key that is wrong its own, of one that is missing that of its item, and else that of the change."""
    lines, before = text.splitlines(), was.splitlines()
    number = next((it for it, (one, other) in enumerate(zip(lines, before)) if one != other), len(before))
    word, key = mistake.told.split(" ")[0], mistake.told.split(" ")[-1]
    if word == "missing":
        heads = range(min(number, len(lines) - 1), -1, -1) if mistake.old else range(number, len(lines))
        return next(it + 1 for it in heads if lines[it].startswith("["))
    if word in ("unknown", "bad-value"):
        return next(it + 1 for it in range(number, len(lines)) if re.match(rf"{re.escape(key)} *=|\[\[{re.escape(key)}\]\]", lines[it]))
    # A section in single brackets is seen where the next one comes, and its own line is told behind that.
    return number + 1 if word == "not-toml" and "[[" not in mistake.old else None


def try_one(run, folder, text, number):
    """What is wrong with what is said of one mistake, or nothing."""
    mistake = MISTAKES[number]
    site, journal = folder / f"mistake-{number}.toml", folder / f"mistake-{number}.journal"
    site.write_text(changed(text, mistake), encoding="utf-8")
    journal.write_bytes(bytes(4_000_000))
    ended = run("session", site, journal)
    journal.unlink()
    if mistake.told is None:
        good = (ended.returncode, ended.stdout, ended.stderr) == (0, "open 0\nend 0 0\n", "")
    else:
        first, _, rest = ended.stderr.partition("\n")
        good = ended.returncode == 3 and first == f"site refused: {mistake.told}" and rest and all(it in rest for it in mistake.says)
    return "" if good else f"{ended.returncode}, {ended.stdout!r}, {ended.stderr!r}"


def try_all(run, folder):
    """Each mistake by its name, with what is wrong with what is said of it."""
    text = (TOP / "examples" / "school.toml").read_text(encoding="utf-8")
    with concurrent.futures.ThreadPoolExecutor(4) as pool:
        found = pool.map(lambda number: try_one(run, folder, text, number), range(len(MISTAKES)))
        return [(mistake.name, fault) for mistake, fault in zip(MISTAKES, found)]
