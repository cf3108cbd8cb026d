"""More mistakes that people make in a site's file, each as one change of checks/ward.toml, a ward of twenty points, with what alarm-site has to say is wanted.

checks/tools has alarm-site look at each: it has to refuse it as the program does, in the line that was changed, and with those words.
"""
import pathlib

TOP = pathlib.Path(__file__).resolve().parent.parent
# Of each group what is wanted, and of each mistake its name, what is changed, which stands in the text, and what stands there then.
GROUPS = {
    "without a unit": [
        ("a degree sign in a value", "value = 220", "value = 22\u00b0"),
        ("percent", "value = 80\nclass = 2\nlow = 30", "value = 80%\nclass = 2\nlow = 30"),
        ("log size in MB", "size = 2000", "size = 2 MB"),
    ],
    "is no whole number": [
        ("exponent", "value = 220", "value = 2.2e2"),
        ("infinity", "high = 260", "high = inf"),
        ("not a number", "low = 180", "low = nan"),
    ],
    "digits alone": [
        ("underscores at the end", "value = 220", "value = 220_"),
        ("plus plus", "value = 230", "value = ++230"),
        ("blank in a number", "start = 1796000000000", "start = 1796 000 000 000"),
        ("dots in a number", "start = 1796000000000", "start = 1.796.000.000.000"),
    ],
    "a whole number from": [
        ("a number in single quotes", "value = 350", "value = '350'"),
        ("an empty value", "value = 230", "value = \"\""),
        ("a table for a value", "value = 230", "value = {now = 230}"),
        ("an array for a value", "value = 230", "value = [230]"),
        ("a date for a value", "value = 230", "value = 2026-12-01"),
        ("zone_minutes as text", "zone_rule = \"CET-1CEST,M3.5.0,M10.5.0/3\"", "zone_minutes = \"+01:00\""),
        ("outbox as text", "outbox = 1024", "outbox = \"1024\""),
        ("vendor as text", "vendor = 999", "vendor = \"Siemens\""),
        ("apdu timeout as text", "outbox = 1024", "outbox = 1024\napdu_timeout = \"3s\""),
        ("priority as texts", "priority = [10, 20, 120]", "priority = [\"high\", \"high\", \"low\"]"),
        ("process as text", "process = 1\n", "process = \"1\"\n"),
        ("binding device as text", "device = 5001", "device = \"5001\""),
        ("instance as text", "kind = \"binary-value\"\ninstance = 3\n", "kind = \"binary-value\"\ninstance = \"3\"\n"),
        ("delay in minutes", "time_delay = 120", "time_delay = \"2 min\""),
        ("delay as duration", "time_delay = 120", "time_delay = 00:02:00"),
        ("states by names", "states = 5", "states = [\"off\", \"run\", \"fault\", \"stop\", \"gone\"]"),
        ("states as text", "states = 5", "states = \"5\""),
        ("alarm_values by name", "alarm_values = [4, 5]", "alarm_values = [\"stopped\"]"),
        ("log classes by name", "classes = [1, 2]", "classes = [\"Patient\"]"),
        ("log size as text", "size = 2000", "size = \"2000\""),
    ],
    "there is no such value": [
        ("a null", "value = 230", "value = null"),
        ("none", "value = 230", "value = none"),
    ],
    "several stand in brackets": [
        ("two values", "value = 230", "value = 230, 231"),
        ("priority without brackets", "priority = [10, 20, 120]", "priority = 10, 20, 120"),
        ("a comma at the end", "time_delay = 900", "time_delay = 900,"),
    ],
    "a text in quotes": [
        ("a number for a name", "name = \"Dialysis two\"", "name = 2"),
        ("texts with a number", "texts = [\"Refrigerator out of 2 to 8 degrees\", \"\", \"\"]", "texts = [1, \"\", \"\"]"),
    ],
    "octets, and at most 256 are wanted": [
        ("a name over 256 octets", "name = \"Dialysis two\"", "name = \"" + "x" * 257 + "\""),
        ("texts too long", "texts = [\"Refrigerator out of 2 to 8 degrees\", \"\", \"\"]", "texts = [\"" + "y" * 300 + "\", \"\", \"\"]"),
        ("text for a message too long", "name = \"Message of the ring main\"\nvalue = \"\"", "name = \"Message of the ring main\"\nvalue = \"" + "z" * 257 + "\""),
    ],
    "a quote isn't closed": [
        ("a name with a raw tab newline", "name = \"Power supply\"", "name = \"Power\nsupply\""),
        ("single quote not closed", "name = \"Power supply\"", "name = 'Power supply"),
        ("a stray quote", "[[log]]", "\"\n[[log]]"),
    ],
    "written twice": [
        ("a bad escape", "name = \"Power supply\"", "name = \"Power\\supply\""),
        ("a windows path escape", "name = \"Power supply\"", "name = \"C:\\users\""),
    ],
    "straight quotes are wanted": [
        ("typographic apostrophe", "name = \"Power supply\"", "name = \u2018Power supply\u2019"),
        ("guillemets", "name = \"Power supply\"", "name = \u00abPower supply\u00bb"),
    ],
    "can't stand outside quotes": [
        ("non-breaking space", "value = 8\n", "value =\u00a08\n"),
        ("fullwidth digits", "value = 8\n", "value = \uff18\n"),
        ("minus as a dash", "fault_low = -500", "fault_low = \u2013500"),
        ("minus sign U+2212", "fault_low = -500", "fault_low = \u2212500"),
    ],
    "milliseconds since 1970": [
        ("start in quotes", "start = 1796000000000", "start = \"1796000000000\""),
        ("start with zone", "start = 1796000000000", "start = 2026-12-01T00:00:00+01:00"),
        ("start missing value of now", "start = 1796000000000", "start = now"),
        ("start float", "start = 1796000000000", "start = 1796000000.0"),
    ],
    "isn't from": [
        ("start negative", "start = 1796000000000", "start = -1"),
        ("zone_minutes too large", "zone_rule = \"CET-1CEST,M3.5.0,M10.5.0/3\"", "zone_minutes = 3600"),
        ("outbox too large", "outbox = 1024", "outbox = 100000"),
        ("vendor negative", "vendor = 999", "vendor = -1"),
        ("retries negative", "outbox = 1024", "outbox = 1024\nretries = -1"),
        ("priority above 255", "priority = [10, 20, 120]", "priority = [10, 20, 300]"),
        ("process too large", "process = 1\n", "process = 5000000000\n"),
        ("instance -1", "kind = \"binary-value\"\ninstance = 3\n", "kind = \"binary-value\"\ninstance = -1\n"),
        ("instance 4194304", "kind = \"binary-value\"\ninstance = 3\n", "kind = \"binary-value\"\ninstance = 4194304\n"),
        ("delay too large", "time_delay = 120", "time_delay = 5000000000"),
        ("states 0", "states = 5", "states = 0"),
    ],
    "it is a key of [device]": [
        ("device header missing", "[device]\n", ""),
    ],
    "[device] stands twice": [
        ("device twice", "[[class]]\ninstance = 1\n", "[device]\ninstance = 1\n[[class]]\ninstance = 1\n"),
    ],
    "[device] is wanted, once": [
        ("device in double brackets", "[device]", "[[device]]"),
    ],
    "is one": [
        ("Device", "[device]", "[Device]"),
        ("class in capitals", "[[class]]\ninstance = 2", "[[Class]]\ninstance = 2"),
        ("classes", "[[class]]\ninstance = 2", "[[classes]]\ninstance = 2"),
        ("destinations", "[[destination]]\nclass = 1\naddress = \"10.20.0.11", "[[destinations]]\nclass = 1\naddress = \"10.20.0.11"),
        ("logs", "[[log]]", "[[logs]]"),
        ("enrolment", "[[enrollment]]", "[[enrolment]]"),
        ("bindings", "[[binding]]", "[[bindings]]"),
    ],
    "a section begins with": [
        ("device header not closed", "[device]", "[device"),
        ("class not closed", "[[class]]\ninstance = 2", "[[class]\ninstance = 2"),
        ("header with blank inside", "[[log]]", "[[event log]]"),
        ("a stray bracket", "[[log]]", "]\n[[log]]"),
    ],
    "section recipient: device, class, destination": [
        ("recipient section", "[[destination]]\nclass = 1\naddress = \"10.20.0.11", "[[recipient]]\nclass = 1\naddress = \"10.20.0.11"),
    ],
    "is the nearest": [
        ("zone_rule misspelled", "zone_rule = ", "zonerule = "),
        ("ack_require misspelled", "ack_required = [true, true, false]", "ack_require = [true, true, false]"),
        ("confirm misspelled", "confirmed = true", "confirm = true"),
        ("Confirmed capital", "confirmed = true", "Confirmed = true"),
        ("until for to", "to = \"17:59:59.99\"", "until = \"17:59:59.99\""),
        ("start for from", "from = \"07:00:00.00\"", "begin = \"07:00:00.00\""),
        ("kind type", "kind = \"binary-value\"\ninstance = 1\n", "type = \"binary-value\"\ninstance = 1\n"),
        ("id for instance", "kind = \"binary-value\"\ninstance = 3\n", "kind = \"binary-value\"\nid = 3\n"),
        ("label for name", "name = \"Fire door\"", "label = \"Fire door\""),
        ("object-name for name", "name = \"Fire door\"", "object_name = \"Fire door\""),
        ("present_value", "value = 230", "present_value = 230"),
        ("present-value", "value = 230", "present-value = 230"),
        ("high_limit", "high = 500", "high_limit = 500"),
        ("max for high", "high = 500", "max = 500"),
        ("upper for high", "high = 500", "upper = 500"),
        ("hysteresis", "deadband = 10", "hysteresis = 10"),
        ("dead_band", "deadband = 10", "dead_band = 10"),
        ("message texts", "texts = [\"Refrigerator out of 2 to 8 degrees\", \"\", \"\"]", "message = \"Refrigerator out of 2 to 8 degrees\""),
        ("text for texts", "texts = [\"Refrigerator out of 2 to 8 degrees\", \"\", \"\"]", "text = [\"Refrigerator out of 2 to 8 degrees\", \"\", \"\"]"),
        ("alarm_values for a binary", "name = \"Fire door\"\nvalue = \"inactive\"\nclass = 2\nalarm_value = \"active\"", "name = \"Fire door\"\nvalue = \"inactive\"\nclass = 2\nalarm_values = [\"active\"]"),
        ("alarm_value for multistate", "alarm_values = [4, 5]", "alarm_value = 4"),
        ("fault_value", "fault_values = [3]", "fault_value = [3]"),
        ("log class for classes", "classes = [1, 2]", "class = 1"),
        ("log records for size", "size = 2000", "records = 2000"),
    ],
    "POSIX": [
        ("zone rule sign", "\"CET-1CEST,M3.5.0,M10.5.0/3\"", "\"CET+1:00CEST\""),
        ("zone rule of windows", "\"CET-1CEST,M3.5.0,M10.5.0/3\"", "\"W. Europe Standard Time\""),
        ("zone rule empty", "\"CET-1CEST,M3.5.0,M10.5.0/3\"", "\"\""),
        ("zone rule bad month", "\"CET-1CEST,M3.5.0,M10.5.0/3\"", "\"CET-1CEST,M13.5.0,M10.5.0/3\""),
        ("zone rule as number", "zone_rule = \"CET-1CEST,M3.5.0,M10.5.0/3\"", "zone_rule = 1"),
    ],
    "whole milliseconds": [
        ("apdu timeout in seconds float", "outbox = 1024", "outbox = 1024\napdu_timeout = 3.5"),
    ],
    "nobody is asked for a password": [
        ("password", "outbox = 1024", "outbox = 1024\npassword = \"x\""),
    ],
    "ALARM_SERVER_PORT": [
        ("port in device", "outbox = 1024", "outbox = 1024\nport = 47808"),
        ("address in device", "outbox = 1024", "outbox = 1024\naddress = \"10.20.0.1:47808\""),
    ],
    "nothing has a location": [
        ("location", "outbox = 1024", "outbox = 1024\nlocation = \"2nd floor\""),
    ],
    "square brackets are wanted": [
        ("priority round brackets", "priority = [10, 20, 120]", "priority = (10, 20, 120)"),
    ],
    "the array of line 13 wants": [
        ("priority not closed", "priority = [10, 20, 120]", "priority = [10, 20, 120"),
        ("priority without commas", "priority = [10, 20, 120]", "priority = [10 20 120]"),
    ],
    "to-offnormal, to-fault, to-normal": [
        ("priority four", "priority = [10, 20, 120]", "priority = [10, 20, 30, 120]"),
        ("ack as digits", "ack_required = [true, true, false]", "ack_required = \"110\""),
        ("ack as one truth", "ack_required = [true, true, false]", "ack_required = true"),
        ("ack two", "ack_required = [true, true, false]", "ack_required = [true, true]"),
        ("texts of one", "texts = [\"Refrigerator out of 2 to 8 degrees\", \"\", \"\"]", "texts = [\"Refrigerator out of 2 to 8 degrees\"]"),
        ("texts as one", "texts = [\"Refrigerator out of 2 to 8 degrees\", \"\", \"\"]", "texts = \"Refrigerator out of 2 to 8 degrees\""),
    ],
    "true or false is wanted": [
        ("ack as numbers", "ack_required = [true, true, false]", "ack_required = [1, 1, 0]"),
        ("ack yes no", "ack_required = [true, true, false]", "ack_required = [yes, yes, no]"),
        ("confirmed as yes text", "confirmed = true", "confirmed = \"yes\""),
        ("confirmed 1", "confirmed = true", "confirmed = 1"),
        ("detection as text", "name = \"Fire door\"", "name = \"Fire door\"\ndetection = \"on\""),
    ],
    "A.B.C.D:PORT": [
        ("address with a colon but no port", "\"10.20.0.11:47808\"", "\"10.20.0.11:\""),
        ("address with hex port", "\"10.20.0.11:47808\"", "\"10.20.0.11:0xBAC0\""),
        ("address of three parts", "\"10.20.0.11:47808\"", "\"10.20.11:47808\""),
        ("address of IPv6", "\"10.20.0.11:47808\"", "\"[fe80::1]:47808\""),
        ("address with a mask", "\"10.20.0.11:47808\"", "\"10.20.0.11/24:47808\""),
        ("address with a blank", "\"10.20.0.11:47808\"", "\"10.20.0.11 :47808\""),
        ("address with udp://", "\"10.20.0.11:47808\"", "\"udp://10.20.0.11:47808\""),
        ("address with port 0", "\"10.20.0.11:47808\"", "\"10.20.0.11:0\""),
        ("address as a device", "address = \"10.20.0.11:47808\"", "address = \"device:5001\""),
        ("mac address", "\"10.20.0.11:47808\"", "\"00:1B:44:11:3A:B7\""),
        ("mail address", "\"10.20.0.11:47808\"", "\"nurse@hospital.example\""),
        ("binding without address", "device = 5001\naddress = \"10.20.0.14:47808\"", "device = 5001"),
    ],
    "stands in quotes": [
        ("address without quotes", "address = \"10.20.0.11:47808\"", "address = 10.20.0.11:47808"),
    ],
    "7 digits": [
        ("days eight", "days = \"1111100\"", "days = \"11111000\""),
        ("days as array", "days = \"1111100\"", "days = [1, 1, 1, 1, 1, 0, 0]"),
        ("days as number", "days = \"1111100\"", "days = 1111100"),
        ("days with x", "days = \"1111100\"", "days = \"XXXXX--\""),
        ("days by names", "days = \"1111100\"", "days = [\"Mo\", \"Di\"]"),
    ],
    "HH:MM:SS.HH": [
        ("from without quotes", "from = \"07:00:00.00\"", "from = 07:00:00.00"),
        ("from without hundredths", "from = \"07:00:00.00\"", "from = \"07:00:00\""),
        ("from with one digit", "from = \"07:00:00.00\"", "from = \"7:00:00.00\""),
        ("from am", "from = \"07:00:00.00\"", "from = \"07:00 AM\""),
        ("from as number", "from = \"07:00:00.00\"", "from = 7"),
        ("from with milliseconds", "from = \"07:00:00.00\"", "from = \"07:00:00.000\""),
        ("minute 60", "from = \"07:00:00.00\"", "from = \"07:60:00.00\""),
    ],
    "3 digits": [
        ("transitions four", "process = 1\n", "process = 1\ntransitions = \"1111\"\n"),
        ("transitions as words", "process = 1\n", "process = 1\ntransitions = [\"to-offnormal\"]\n"),
        ("enable as truth", "name = \"Fire door\"", "name = \"Fire door\"\nenable = true"),
        ("enable as truths", "name = \"Fire door\"", "name = \"Fire door\"\nenable = [true, true, true]"),
    ],
    "it has to be there": [
        ("binding without device", "device = 5001\n", ""),
        ("limits at a multistate", "alarm_values = [4, 5]", "low = 1\nhigh = 3"),
        ("bits without mask", "mask = \"1100\"\n", ""),
        ("range without high", "algorithm = \"command-failure\"\nmonitored = \"binary-value:6\"\nfeedback = \"binary-value:7\"", "algorithm = \"unsigned-range\"\nmonitored = \"positive-integer-value:1\"\nlow = 1"),
        ("log without size", "size = 2000\n", ""),
        ("log instance missing", "[[log]]\ninstance = 1\n", "[[log]]\n"),
    ],
    "each wants a number of its own": [
        ("binding device twice", "[[object]]\nkind = \"integer-value\"\ninstance = 1\n", "[[binding]]\ndevice = 5001\naddress = \"10.20.0.15:47808\"\n[[object]]\nkind = \"integer-value\"\ninstance = 1\n"),
    ],
    "its keys are": [
        ("binding instance for device", "device = 5001", "instance = 5001"),
        ("log interval", "size = 2000", "size = 2000\ninterval = 60"),
    ],
    "integer-value, positive-integer-value": [
        ("kind real", "kind = \"integer-value\"\ninstance = 1", "kind = \"real\"\ninstance = 1"),
        ("kind analog-input", "kind = \"integer-value\"\ninstance = 1", "kind = \"analog-input\"\ninstance = 1"),
        ("kind AV", "kind = \"integer-value\"\ninstance = 1", "kind = \"AV\"\ninstance = 1"),
        ("kind by number", "kind = \"integer-value\"\ninstance = 1", "kind = 45\ninstance = 1"),
        ("kind binary-input", "kind = \"binary-value\"\ninstance = 1\n", "kind = \"binary-input\"\ninstance = 1\n"),
        ("kind multistate", "kind = \"multi-state-value\"\ninstance = 1", "kind = \"multistate-value\"\ninstance = 1"),
        ("kind with blank", "kind = \"multi-state-value\"\ninstance = 1", "kind = \"multi state value\"\ninstance = 1"),
        ("kind capital", "kind = \"binary-value\"\ninstance = 1\n", "kind = \"Binary-Value\"\ninstance = 1\n"),
        ("kind notification-class", "kind = \"binary-value\"\ninstance = 1\n", "kind = \"notification-class\"\ninstance = 1\n"),
        ("characterstring hyphen", "kind = \"characterstring-value\"", "kind = \"character-string-value\""),
    ],
    "alarm, event": [
        ("notify none", "name = \"Fire door\"", "name = \"Fire door\"\nnotify = \"none\""),
        ("notify capital", "name = \"Fire door\"", "name = \"Fire door\"\nnotify = \"Alarm\""),
    ],
    "priority is a key of [[class]]": [
        ("severity", "name = \"Fire door\"", "name = \"Fire door\"\nseverity = 1"),
        ("priority at an object", "name = \"Fire door\"", "name = \"Fire door\"\npriority = 10"),
    ],
    "ack_required is a key of [[class]]": [
        ("ack_required at an object", "name = \"Fire door\"", "name = \"Fire door\"\nack_required = true"),
    ],
    "whole seconds": [
        ("delay float", "time_delay = 120", "time_delay = 0.5"),
    ],
    "inactive, active": [
        ("alarm value 1", "name = \"Fire door\"\nvalue = \"inactive\"\nclass = 2\nalarm_value = \"active\"", "name = \"Fire door\"\nvalue = \"inactive\"\nclass = 2\nalarm_value = 1"),
        ("alarm value open", "name = \"Fire door\"\nvalue = \"inactive\"\nclass = 2\nalarm_value = \"active\"", "name = \"Fire door\"\nvalue = \"inactive\"\nclass = 2\nalarm_value = \"open\""),
        ("value closed", "name = \"Fire door\"\nvalue = \"inactive\"", "name = \"Fire door\"\nvalue = \"closed\""),
        ("value 0", "name = \"Fire door\"\nvalue = \"inactive\"", "name = \"Fire door\"\nvalue = 0"),
    ],
    "the array of line 148 wants": [
        ("alarm_values as ranges", "alarm_values = [4, 5]", "alarm_values = [4-5]"),
    ],
    "array of 1 to 32": [
        ("alarm values 33", "alarm_values = [4, 5]", f"alarm_values = {list(range(1, 34))}"),
    ],
    "array of 0 to 32": [
        ("fault_values as one", "fault_values = [3]", "fault_values = 3"),
    ],
    "64 digits": [
        ("bits as number", "value = \"0000\"", "value = 0b0000"),
        ("bits too long", "value = \"0000\"", "value = \"" + "0" * 65 + "\""),
        ("mask as number", "mask = \"1100\"", "mask = 1100"),
        ("alarm bits as numbers", "alarm_values = [\"1000\", \"0100\"]", "alarm_values = [1000, 100]"),
    ],
    "binary-value:INSTANCE": [
        ("reference with a name", "inhibit_ref = \"binary-value:9\"", "inhibit_ref = \"Maintenance\""),
        ("reference with comma", "inhibit_ref = \"binary-value:9\"", "inhibit_ref = \"binary-value,9\""),
        ("reference BV9", "inhibit_ref = \"binary-value:9\"", "inhibit_ref = \"BV9\""),
        ("reference number", "inhibit_ref = \"binary-value:9\"", "inhibit_ref = 9"),
    ],
    "there is no value object": [
        ("reference to nothing", "inhibit_ref = \"binary-value:9\"", "inhibit_ref = \"binary-value:10\""),
    ],
    "command-failure, unsigned-range": [
        ("algorithm misspelled", "algorithm = \"command-failure\"", "algorithm = \"command_failure\""),
        ("algorithm unknown", "algorithm = \"command-failure\"", "algorithm = \"floating-limit\""),
    ],
    "command-failure or unsigned-range": [
        ("algorithm missing", "algorithm = \"command-failure\"\n", ""),
    ],
    "KIND:INSTANCE": [
        ("monitored missing", "monitored = \"binary-value:6\"\n", ""),
        ("feedback missing", "feedback = \"binary-value:7\"\n", ""),
        ("monitored with property", "monitored = \"binary-value:6\"", "monitored = \"binary-value:6.present-value\""),
    ],
    "isn't of the kind of": [
        ("feedback of another kind", "feedback = \"binary-value:7\"", "feedback = \"integer-value:3\""),
    ],
    "monitors a positive-integer-value": [
        ("range of integer", "algorithm = \"command-failure\"\nmonitored = \"binary-value:6\"\nfeedback = \"binary-value:7\"", "algorithm = \"unsigned-range\"\nmonitored = \"integer-value:1\"\nlow = 1\nhigh = 5"),
    ],
    "one of 1, 2 is wanted": [
        ("enrollment of a class that isn't", "[[enrollment]]\ninstance = 1\nname = \"Pump of the loop doesn't follow\"\nclass = 1", "[[enrollment]]\ninstance = 1\nname = \"Pump of the loop doesn't follow\"\nclass = 5"),
    ],
    "array of 1 to 256": [
        ("log classes as one", "classes = [1, 2]", "classes = 1"),
        ("log classes all", "classes = [1, 2]", "classes = \"all\""),
        ("log classes empty", "classes = [1, 2]", "classes = []"),
    ],
    "KEY = VALUE is wanted": [
        ("a line of text", "[[log]]", "History of the ward\n[[log]]"),
        ("XML", "[[log]]", "<log>\n[[log]]"),
        ("include", "[[log]]", "!include other.toml\n[[log]]"),
    ],
    "in place of :": [
        ("JSON", "[[log]]", "{\"log\": 1}\n[[log]]"),
    ],
    "nothing is wanted behind a value": [
        ("an ini continuation", "name = \"Fire door\"", "name = \"Fire door\" \\"),
    ],
    "a comment begins with #": [
        ("a comment behind a value by //", "time_delay = 900", "time_delay = 900 // a quarter"),
        ("a comment behind by --", "time_delay = 900", "time_delay = 900 -- a quarter"),
        ("a semicolon at the end", "time_delay = 900", "time_delay = 900;"),
    ],
    "one KEY = VALUE": [
        ("two keys on a line", "low = 190\nhigh = 280", "low = 190 high = 280"),
    ],
    "with one =": [
        ("== ", "low = 190", "low == 190"),
        (":=", "low = 190", "low := 190"),
    ],
    "a key is one word": [
        ("key with a blank", "time_delay = 900", "time delay = 900"),
        ("key with a dot", "time_delay = 900", "time.delay = 900"),
    ],
    "a key stands twice": [
        ("key in quotes twice", "time_delay = 900", "\"time_delay\" = 900\ntime_delay = 900"),
    ],
    "isn't closed": [
        ("triple quotes not closed", "name = \"Fire door\"", "name = \"\"\"Fire door"),
    ],
    "mark of a merge": [
        ("merge conflict", "[[log]]", "<<<<<<< HEAD\n[[log]]"),
    ],
    "a control character": [
        ("a NUL", "name = \"Fire door\"", "name = \"Fire\u0000door\""),
        ("control character in a comment", "# The nurses' station, day and night.", "# The nurses\u0007 station"),
    ],
}
# Of these one change makes several faults, each of which has its line.
SEVERAL = {"device header missing", "limits at a multistate", "binding instance for device"}
# Of these the line isn't the first one that was changed, but one behind it, or where the reader gave up, with the line where it began in words.
BEHIND = {"priority not closed": 1, "key in quotes twice": 1, "limits at a multistate": 1, "triple quotes not closed": None}


def texts():
    """The ward's text, and each mistake: its name, the text with it, the line that was changed, and what is wanted."""
    was = (TOP / "checks" / "ward.toml").read_text(encoding="utf-8")
    rows = []
    for wanted, mistakes in GROUPS.items():
        for name, old, new in mistakes:
            if old not in was:
                raise ValueError(f"the ward's text lacks what {name!r} changes")
            text = was.replace(old, new, 1)
            # A line of TOML ends at a line feed alone.
            number = next(at for at, (one, other) in enumerate(zip(text.split("\n"), was.split("\n")), 1) if one != other)
            rows.append((name, text, number, wanted))
    return was, rows


def line_of(name, text, number, refused):
    """The line that is to be told: of a key that is missing, or of what an item refers to, the head of its item; of two items the later one; else the line that was changed."""
    if name in BEHIND:
        return BEHIND[name] and number + BEHIND[name]
    if refused.startswith(("missing ", "dangling ")):
        lines = text.split("\n")
        return next((at for at in range(min(number, len(lines)), 0, -1) if lines[at - 1].startswith("[")), None)
    return number
