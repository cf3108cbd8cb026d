"""alarm-client: asks a server by BACnet/IP: who is there, values, active alarms, acknowledgements, recipients, logs, metrics."""
import re
import socket
import sys
import time

from . import alarms, audit, client, filters, finding, listening, metrics, names, octets, shelf_command, values, words
from .client import NoAnswer, Refusal
from .language import say
from .words import DONE, USAGE, Ends

WHAT = """\
Asks an alarm server, or another BACnet/IP device, and tells its answers by names and numbers.

A request that isn't answered is sent again with its invoke ID; where no answer comes at all the tool ends with 3, and a write
may have been taken all the same.
Objects are written KIND:INSTANCE, as integer-value:3, or by their names, as "Flow temperature", in capitals or not; properties by name
or number, as present-value or event-time-stamps[1]. Options may stand before the command or behind it. Times are those of the
device's clock. Text has colours at a terminal alone, and none where NO_COLOR is set."""
STATUSES = [
    (0, "answered"),
    (1, "a port or a file can't be opened"),
    (2, "the words are none that it knows"),
    (3, "nobody answers"),
    (4, "the answer is an Error, a Reject or an Abort, which is told"),
    (5, "an answer can't be read"),
]
EXAMPLES = [
    ("alarm-client list", "the active alarms, and those that nobody has acknowledged"),
    ("alarm-client list --class 7 --state high-limit --text freezer", "those of a class, in a state, with a text"),
    ("alarm-client ack \"Freezer room\" --by \"Ann, kitchen\"", "acknowledges what there is to acknowledge of an object"),
    ("alarm-client shelve \"Freezer room\" 2h --by Ann", "has its alarms not come for two hours"),
    ("alarm-client write integer-value:1 -185", "writes its value; it ends with 0 once that was taken"),
    ("alarm-client read integer-value:1 --each", "each of its properties"),
    ("alarm-client listen --port 47809", "notifications in words, as a recipient whom the site names"),
    ("alarm-client follow event-log:1 --keep position", "the log's records as lines of JSON, on and on"),
]


def parser():
    made = words.parser_of("alarm-client", WHAT, STATUSES, EXAMPLES)
    made.behind = ("--to", "--wait", "--retries", "--language", "--json")
    commands = made.add_subparsers(metavar="COMMAND", required=True)
    add_asking(commands)
    listening.add_commands(commands)
    add_recipients(commands)
    shelf_command.add_commands(commands)
    metrics.add_command(commands)
    return made


def add_asking(commands):
    whois = words.command_of(commands, "whois", "asks which devices are there", who_is)
    whois.add_argument("range", nargs="*", type=int, metavar="LOW HIGH", help="of these instances alone")
    whois.add_argument("--broadcast", metavar="ADDRESS[:PORT]", help="ask all at a broadcast address, as 192.0.2.255, in place of one server")
    read = words.command_of(commands, "read", "reads properties of an object", read_properties)
    read.add_argument("object", metavar="OBJECT", help="KIND:INSTANCE, a name, or device for that of the server")
    read.add_argument("properties", nargs="*", metavar="PROPERTY[INDEX]", help="its name or number (present-value; of the device object-name)")
    read.add_argument("--all", action="store_true", help="all properties, by one ReadPropertyMultiple")
    read.add_argument("--each", action="store_true", help="each property that its kind may have, one by one")
    write = words.command_of(commands, "write", "writes a property of an object", write_property)
    write.add_argument("object", metavar="OBJECT")
    write.add_argument("value", metavar="VALUE", help="a whole number, active or inactive, digits 0 and 1, or a text, by the object's kind")
    write.add_argument("--property", default="present-value", metavar="PROPERTY[INDEX]", help="(%(default)s)")
    write.add_argument("--type", choices=values.TYPES, help="the type of the value, where the property doesn't say it")
    listed = words.command_of(commands, "list", "lists active alarms, and what nobody has acknowledged", list_alarms)
    filters.add_words(listed)
    listed.add_argument("--looked", metavar="FILE", help="of what has come since FILE was written alone; and writes it")
    listed.add_argument("--shelf", metavar="FILE", default=shelf_command.default_path(), help=shelf_command.HELP)
    acknowledge = words.command_of(commands, "ack", "acknowledges alarms", acknowledge_alarms)
    acknowledge.add_argument("objects", nargs="*", metavar="OBJECT")
    acknowledge.add_argument("--all", action="store_true", help="of all objects")
    acknowledge.add_argument("--process", type=int, default=0, metavar="N", help="the process identifier of who does (%(default)s)")
    audit.add_words(acknowledge, "acknowledges")
    audit.add_words(write, "writes")
    for command in (whois, read, write, listed, acknowledge):
        add_common(command)


def add_common(command):
    client.add_words(command)
    command.add_argument("--json", action="store_true", help="lines of JSON")


def add_recipients(commands):
    recipients = words.command_of(commands, "recipients", "shows and edits whom a class tells", show_recipients)
    deeds = recipients.add_subparsers(metavar="show|add|remove", required=True)
    of_class = "its instance or its name"
    for name, what, call in [
        ("show", "shows the recipients of a class, or of all", show_recipients), ("add", "adds a recipient", add_recipient),
        ("remove", "removes those with an address", remove_recipients),
    ]:
        deed = words.command_of(deeds, name, what, call)
        deed.add_argument("of_class", metavar="CLASS", help=of_class, **({"nargs": "?"} if name == "show" else {}))
        if name != "show":
            audit.add_words(deed, f"{name}s it")
            deed.add_argument("address", metavar="A.B.C.D:PORT", help="its address" + (", or device:INSTANCE of one that the site's text binds to an address" if name == "add" else ""))
            deed.add_argument("--process", type=int, default=0 if name == "add" else None, metavar="N", help="the process identifier")
        if name == "add":
            deed.add_argument("--days", default="1111111", help="seven digits 0 and 1, Monday first (%(default)s)")
            deed.add_argument("--from", dest="begin", default="00:00:00.00", metavar="HH:MM:SS.HH", help="(%(default)s)")
            deed.add_argument("--until", dest="end", default="23:59:59.99", metavar="HH:MM:SS.HH", help="(%(default)s)")
            deed.add_argument("--confirmed", action="store_true", help="it is to confirm what it is told")
            deed.add_argument("--transitions", default="111", help="three digits: to-offnormal, to-fault, to-normal (%(default)s)")
        add_common(deed)


def wanted(call, *of):
    """What a call makes of a word, or the end of the tool by what it says is wrong."""
    try:
        return call(*of)
    except ValueError as error:
        raise Ends(USAGE, str(error)) from None


# whois


def who_is(given):
    if len(given.range) not in (0, 2):
        raise Ends(USAGE, "LOW and HIGH are wanted, or neither")
    found = answers_to_who_is(given)
    if not found:
        raise Ends(words.NOBODY, f"nobody answers a Who-Is at {given.broadcast or given.to}")
    for (host, port), (device, longest, _, vendor) in sorted(found.items()):
        with client.Client((host, port), given.wait, given.retries) as asked:
            name = name_or_none(asked, device)
        told = {"device": device[1], "name": name, "address": f"{host}:{port}", "vendor": vendor, "max_apdu": longest}
        of = words.named(names.object_text(device), name)
        words.put(words.json_line(told) if given.json else f"{of} at {host}:{port}, vendor {vendor}, answers of up to {longest} octets")
    return DONE


def name_or_none(asked, of):
    try:
        return asked.name(of)
    except (NoAnswer, ValueError):
        return None


def answers_to_who_is(given):
    """What each device says that answers a Who-Is in time, by its address."""
    address, found = wanted(client.address_from, given.broadcast or given.to), {}
    with socket.socket(socket.AF_INET, socket.SOCK_DGRAM) as asking:
        asking.setsockopt(socket.SOL_SOCKET, socket.SO_BROADCAST, 1)
        for _ in range(given.retries + 1):
            try:
                asking.sendto(octets.who_is(*given.range), address)
            except OSError as error:
                raise Ends(words.CANNOT_OPEN, f"{address[0]}:{address[1]}: {error.strerror}") from None
            until = time.monotonic() + given.wait
            while (left := until - time.monotonic()) > 0 and not (found and not given.broadcast):
                asking.settimeout(left)
                try:
                    said, sender = asking.recvfrom(2048)
                    message, _ = octets.received(said)
                    if (message.kind, message.number) == ("unconfirmed", octets.I_AM):
                        found[sender] = octets.device_of(message)
                except (TimeoutError, ValueError, ConnectionRefusedError):
                    continue
            if found:
                break
    return found


# read and write


def object_of(asked, text):
    """The object of a word; `device` is the server's own."""
    return asked.device()[0] if text == "device" else finding.wanted_object(asked, text)


def property_of(text):
    """The number and the index of PROPERTY or PROPERTY[INDEX]."""
    found = re.fullmatch(r"([^\[\]]+)(?:\[(\d{1,9})\])?", text)
    if not found:
        raise ValueError(f"{text!r} is no property: PROPERTY or PROPERTY[INDEX] is wanted, as priority[1]")
    return names.property_from(found[1]), None if found[2] is None else int(found[2])


def read_properties(given):
    asked_for, refused = [wanted(property_of, it) for it in given.properties], []
    with client.client_of(given) as asked:
        of = object_of(asked, given.object)
        asked_for = asked_for or [(octets.OBJECT_NAME if of[0] == octets.DEVICE else octets.PRESENT_VALUE, None)]
        if given.all:
            rows = all_properties(asked, of)
        elif given.each:
            rows = each_property(asked, of)
        else:
            rows, refused = named_properties(asked, of, asked_for)
        name = asked.name(of)
    if rows:
        show_properties(given, of, name, rows)
    if refused:
        raise Ends(words.REFUSED, f"{words.named(names.object_text(of), name)}: {'; '.join(refused)}")
    return DONE


def named_properties(asked, of, asked_for):
    """Properties one by one, and what was said of those that were refused."""
    rows, refused = [], []
    for number, index in asked_for:
        try:
            rows.append((number, index, values.value_of(of, number, asked.read(of, number, index), index)))
        except Refusal as refusal:
            refused.append(f"{property_text(number, index)}: {refusal}")
    return rows, refused


def all_properties(asked, of):
    try:
        _, rows = asked.answered(lambda invoke: octets.read_all(invoke, of), octets.many_read)
    except Refusal as refusal:
        if (refusal.kind, refusal.code) == ("reject", 9):
            raise Ends(words.REFUSED, f"the server doesn't have ReadPropertyMultiple ({refusal}); --each asks for each property by itself") from None
        raise
    for number, _, _, error in rows:
        if error and number == octets.ALL:
            raise Refusal("error", error, values.error_text(error))
    return [(number, index, values.error_text(error) if error else values.value_of(of, number, found, index)) for number, index, found, error in rows]


def each_property(asked, of):
    """The properties that the object's kind may have, without those that this object lacks."""
    rows = []
    for name in values.OF_KIND.get(names.named(names.OBJECT_TYPES, of[0]), values.COMMON):
        number = names.PROPERTY_NUMBERS[name]
        try:
            found = asked.read(of, number) if number != octets.OBJECT_LIST else octets_of_list(asked)
            rows.append((number, None, values.value_of(of, number, found)))
        except Refusal as refusal:
            if (refusal.kind, refusal.code) != ("error", (2, 32)):
                raise
    return rows


def octets_of_list(asked):
    """The Object_List as elements, also where it is read one by one."""
    return [octets.Element(octets.OBJECT, False, octets.object_octets(it)) for it in asked.objects()]


def show_properties(given, of, name, rows):
    if given.json:
        told = {property_text(number, index): value for number, index, value in rows}
        words.put(words.json_line({"object": names.object_text(of), "name": name, **told}))
        return
    print(words.coloured(words.named(names.object_text(of), name), "bold"))
    width = max(len(property_text(number, index)) for number, index, _ in rows)
    for number, index, value in rows:
        print(f"  {property_text(number, index).ljust(width)}  {words.printable(values.text_of(value))}")


def property_text(number, index):
    return names.named(names.PROPERTIES, number) + ("" if index is None else f"[{index}]")


def write_property(given):
    number, index = wanted(property_of, given.property)
    try:
        of = names.object_from(given.object)
        element = wanted(values.element_from, of, number, given.value, given.type)
    except ValueError:
        of = element = None
    with client.client_of(given) as asked:
        record = audit.Audit(given.audit, "alarm-client write", asked.where())
        of = of or finding.wanted_object(asked, given.object)
        element = element or wanted(values.element_from, of, number, given.value, given.type)
        name = name_or_none(asked, of)
        told = {"object": names.object_text(of), "name": name, "property": property_text(number, index)}
        with record.deed("write", given.by or audit.user(), **told, value=given.value):
            asked.write(of, number, element, index)
        warn_of_limits(asked, of, number)
    called = words.named(names.object_text(of), name)
    words.put(words.json_line(told | {"written": given.value}) if given.json else say("{} {} = {}: taken", called, told["property"], given.value))
    return DONE


def warn_of_limits(asked, of, number):
    """Says where the limits of an object are hardly meant, once one of them was written."""
    parts = [octets.HIGH_LIMIT_OF, octets.LOW_LIMIT_OF, octets.DEADBAND]
    if number not in parts:
        return
    found = asked.read_many([(of, it, None) for it in parts])
    if not all(isinstance(it, list) for it in found.values()):
        return
    high, low, deadband = (octets.number_of(found[of, it, None][0]) for it in parts)
    called = words.named(names.object_text(of), asked.names.get(of))
    if low >= high:
        print(f"alarm-client: {called}: its low-limit {low} isn't below its high-limit {high}: each value is in alarm, or hardly one isn't", file=sys.stderr)
    elif deadband >= high - low:
        print(f"alarm-client: {called}: its deadband {deadband} is as wide as its limits {low} to {high}: an alarm hardly ends", file=sys.stderr)


# list and ack


def list_alarms(given):
    chosen = filters.filter_of(given)
    looked = filters.Looked(given.looked) if given.looked else None
    with client.client_of(given) as asked:
        classes = frozenset(finding.wanted_object(asked, it, "notification-class")[1] for it in given.classes)
        found = alarms.alarms_of(asked)
        shelved = shelf_command.shelved(given.shelf, asked.where())
    shown = filters.passed(chosen._replace(classes=classes), looked.new(found) if looked else found)
    if given.json:
        for alarm in shown:
            words.put(words.json_line(alarm))
    else:
        show_alarms(found, shown, shelved)
    if looked:
        looked.keep(found)
    return DONE


def show_alarms(found, shown, shelved):
    """The table of alarms that are shown, and below it how many there are."""
    for line in alarms.table(shown) if shown else []:
        print(line)
    if len(shown) < len(found):
        print(say("{} of {} shown", len(shown), len(found)))
    print(alarms.count_text(found))
    if shelved:
        late = sum(it["until"] <= time.time() for it in shelved)
        print(say("{} on the shelf: alarm-client shelf tells which", len(shelved)) + (f" ({late} {say('overdue')})" if late else ""))


def acknowledged_state(row, place):
    """The state that an acknowledgement of a transition names: the present one where that transition led to it."""
    if names.transition_to(row.state) == place:
        return row.state
    return (octets.OFFNORMAL, octets.FAULT, octets.NORMAL)[place]


def acknowledge_row(asked, row, whose, record):
    """Acknowledges what there is to acknowledge of an active object, and gives the names of these transitions with their stamps.

    `whose` is who does, a process identifier, and the address of who does where it isn't here.
    """
    by, process, address = whose
    done = []
    now = time.time()
    of_clock = octets.stamp_of(now + time.localtime(now).tm_gmtoff)
    for place, acknowledged in enumerate(row.acknowledged):
        if not acknowledged:
            state, stamp = acknowledged_state(row, place), values.stamp_text(row.stamps[place])
            told = {"object": names.object_text(row.object), "name": name_or_none(asked, row.object), "transition": names.TRANSITIONS[place], "stamp": stamp}
            with record.deed("acknowledge", by, address, **told):
                asked.ask(lambda invoke: octets.acknowledge_alarm_by(invoke, (process, by, of_clock), row.object, state, row.stamps[place]))
            done.append((names.TRANSITIONS[place], stamp))
    return done


def acknowledge_alarms(given):
    if bool(given.objects) == given.all:
        raise Ends(USAGE, "an object is wanted, or --all")
    with client.client_of(given) as asked:
        whose, record = (given.by or audit.user(), given.process, None), audit.Audit(given.audit, "alarm-client ack", asked.where())
        objects = [finding.wanted_object(asked, it) for it in given.objects]
        rows = {row.object: row for row in asked.summaries()}
        asked.learn_names(objects or rows)
        for of in objects or rows:
            if of not in rows:
                asked.read(of, octets.EVENT_STATE)
            done = acknowledge_row(asked, rows[of], whose, record) if of in rows else []
            show_acknowledged(given, of, asked.name(of), done)
    return DONE


def show_acknowledged(given, of, name, done):
    called = words.named(names.object_text(of), name)
    if given.json:
        words.put(words.json_line({"object": names.object_text(of), "name": name, "acknowledged": dict(done)}))
    elif done:
        for transition, stamp in done:
            print(say("{}: {} of {} acknowledged", called, say(transition), stamp))
    elif not given.all:
        print(say("{}: nothing to acknowledge", called))


# recipients


def class_of(asked, text):
    return finding.wanted_object(asked, text, "notification-class")


def recipients_of(asked, of):
    return octets.destinations_of(asked.read(of, octets.RECIPIENT_LIST))


def show_recipients(given):
    with client.client_of(given) as asked:
        if given.of_class:
            classes = [class_of(asked, given.of_class)]
        else:
            classes = [of for of in asked.objects() if of[0] == names.OBJECT_NUMBERS["notification-class"]]
        for of in classes:
            show_list(given, of, asked.name(of), [values.destination_words(it) for it in recipients_of(asked, of)])
    return DONE


def show_list(given, of, name, found):
    if given.json:
        words.put(words.json_line({"class": of[1], "name": name, "recipients": found}))
        return
    called = words.named(names.object_text(of), name)
    print(words.coloured(called if found else say("{}: nobody is told", called), "bold"))
    for it in found:
        print(f"  {values.text_of(it)}")


def station_of(text):
    """The network and the octets of A.B.C.D:PORT."""
    found = re.fullmatch(r"(\d{1,3})\.(\d{1,3})\.(\d{1,3})\.(\d{1,3}):(\d{1,5})", text)
    numbers = [int(it) for it in found.groups()] if found else []
    if not found or max(numbers[:4]) > 255 or not 1 <= numbers[4] <= 65535:
        raise ValueError(f"{text!r} is no address: A.B.C.D:PORT is wanted")
    return 0, bytes(numbers[:4]) + numbers[4].to_bytes(2, "big")


def recipient_of(text):
    """Where a recipient is: its address, or the instance of a device that the site binds to one."""
    found = re.fullmatch(r"device:(0|[1-9]\d{0,6})", text)
    if found and int(found[1]) < names.LAST_INSTANCE:
        return int(found[1])
    try:
        return station_of(text)
    except ValueError:
        raise ValueError(f"{text!r} is no recipient: A.B.C.D:PORT is wanted, or device:INSTANCE") from None


def time_of(text):
    found = re.fullmatch(r"(\d\d):(\d\d)(?::(\d\d)(?:\.(\d\d))?)?", text)
    parts = [int(it or 0) for it in found.groups()] if found else [99]
    if not found or parts[0] > 23 or parts[1] > 59 or parts[2] > 59:
        raise ValueError(f"{text!r} is no time of day: HH:MM:SS.HH is wanted")
    return bytes(parts)


def digits_of(text, count):
    if not re.fullmatch(f"[01]{{{count}}}", text):
        raise ValueError(f"{text!r} isn't {count} digits 0 and 1")
    return text


def edited(given, asked, service, of, wanted_ones):
    """Has the server edit a list, and shows what it then is."""
    name, act = asked.name(of), {octets.ADD_LIST_ELEMENT: "add recipient", octets.REMOVE_LIST_ELEMENT: "remove recipient"}[service]
    told = {"object": names.object_text(of), "name": name, "recipients": [values.destination_words(it) for it in wanted_ones]}
    try:
        with audit.Audit(given.audit, "alarm-client recipients", asked.where()).deed(act, given.by or audit.user(), **told):
            asked.ask(lambda invoke: octets.edit_list(invoke, service, of, octets.RECIPIENT_LIST, b"".join(map(octets.destination, wanted_ones))))
    except Refusal as refusal:
        if (refusal.kind, refusal.code) == ("reject", 9):
            raise Ends(words.REFUSED, f"the server doesn't have {names.SERVICES[service]} ({refusal}): its lists are edited in the site's text alone") from None
        raise
    show_list(given, of, name, [values.destination_words(it) for it in recipients_of(asked, of)])


def add_recipient(given):
    made = octets.Destination(
        wanted(digits_of, given.days, 7), wanted(time_of, given.begin), wanted(time_of, given.end), wanted(recipient_of, given.address), given.process,
        given.confirmed, wanted(digits_of, given.transitions, 3),
    )
    with client.client_of(given) as asked:
        edited(given, asked, octets.ADD_LIST_ELEMENT, class_of(asked, given.of_class), [made])
    return DONE


def remove_recipients(given):
    address = wanted(station_of, given.address)
    with client.client_of(given) as asked:
        of = class_of(asked, given.of_class)
        found = [it for it in recipients_of(asked, of) if it.address == address and given.process in (None, it.process)]
        if not found:
            raise Ends(words.REFUSED, f"{names.object_text(of)} has no recipient {given.address}")
        edited(given, asked, octets.REMOVE_LIST_ELEMENT, of, found)
    return DONE


def main():
    return words.run(parser())
