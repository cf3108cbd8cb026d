"""Octets of BACnet/IP, as the tools, the checks and the benches send and read them. docs/WIRE.md has the tables, docs/PROFILE.md the rest.

It is written from these pages and the standard's tables, and knows nothing of the program. `checks/serve --self` holds it
against octets that stand in docs/WIRE.md and in cases/, and checks/tools what the tools alone use. What is read has to be
whole, and to its last octet: else a ValueError is raised.
"""
import calendar
import collections
import struct
import time

# The numbers of the standard, clause 21.
ACKNOWLEDGE_ALARM, CONFIRMED_EVENT_NOTIFICATION, READ_PROPERTY, WRITE_PROPERTY, GET_EVENT_INFORMATION = 0, 2, 12, 15, 29
ADD_LIST_ELEMENT, REMOVE_LIST_ELEMENT, READ_PROPERTY_MULTIPLE, READ_RANGE = 8, 9, 14, 26
I_AM, UNCONFIRMED_EVENT_NOTIFICATION, WHO_IS = 0, 3, 8
DEVICE, INTEGER_VALUE = 8, 45
EVENT_ALGORITHM_INHIBIT, EVENT_STATE, PRESENT_VALUE = 354, 36, 85
ACK_REQUIRED, EVENT_ALGORITHM_INHIBIT_REF, EVENT_MESSAGE_TEXTS, NOTIFICATION_CLASS, OUT_OF_SERVICE = 1, 355, 351, 17, 81
DEADBAND = 25
ACTIVE_TEXT, HIGH_LIMIT_OF, INACTIVE_TEXT, LOW_LIMIT_OF, STATE_TEXT, UNITS = 4, 45, 46, 59, 110, 117
ALL, OBJECT_LIST, OBJECT_NAME, RECIPIENT_LIST, LOG_BUFFER, RECORD_COUNT, TOTAL_RECORD_COUNT = 8, 76, 77, 102, 131, 141, 145
NORMAL, FAULT, OFFNORMAL, HIGH_LIMIT, LOW_LIMIT = range(5)
SIGNED_OUT_OF_RANGE = 15
ALARM, EVENT, ACKNOWLEDGED = range(3)
NULL, BOOLEAN, UNSIGNED, SIGNED, REAL, OCTETS, TEXT, BITS, ENUMERATED, DATE, TIME, OBJECT = 0, 1, 2, 3, 4, 6, 7, 8, 9, 10, 11, 12

# An APDU: its kind, its invoke ID, its service, or the reason of a Reject or an Abort, and the octets behind its header.
Message = collections.namedtuple("Message", "kind invoke number parameters")
KINDS = {0: "request", 1: "unconfirmed", 2: "simple-ack", 3: "complex-ack", 5: "error", 6: "reject", 7: "abort"}

# An element: its number, whether this is a number in a context, and its octets, or the elements between its tags.
Element = collections.namedtuple("Element", "number context content")

# A notification (13.8, 13.9). `from_state` and `ack_required` may be None; `values` are the elements of the event values.
Notification = collections.namedtuple(
    "Notification", "process device object stamp of_class priority event_type notify_type ack_required from_state to_state values text", defaults=[None]
)

# The answer to a ReadRange: its records are their numbers, None where they aren't told, their stamps and their notifications.
Range = collections.namedtuple("Range", "object first last more records")

# A recipient of a class (12.21): its days as digits, Monday first, the times of the day from and to as four octets each, its address
# as network and octets, or a device, and its transitions as digits.
Destination = collections.namedtuple("Destination", "days begin end address process confirmed transitions")

# A summary of GetEventInformation (13.12). `acknowledged` is three flags, and `stamps` three dates and times.
Summary = collections.namedtuple("Summary", "object state acknowledged stamps notify_type enabled priorities")


# What is written.


def shortest(number):
    """An Unsigned in the fewest octets."""
    return number.to_bytes(max(1, (number.bit_length() + 7) // 8), "big")


def tagged(number, content, context=True):
    """An element of up to 65,535 octets."""
    length = len(content)
    extended = b"" if length <= 4 else bytes([length]) if length <= 253 else b"\xfe" + length.to_bytes(2, "big")
    return bytes([number << 4 | 8 * context | (5 if extended else length)]) + extended + content


def between(number, content):
    """Elements between the opening and the closing tag of a number."""
    return bytes([number << 4 | 14]) + content + bytes([number << 4 | 15])


def boolean(flag):
    return bytes([0x10 | flag])


def signed(number):
    length = next(it for it in (1, 2, 3, 4) if -(1 << 8 * it - 1) <= number < 1 << 8 * it - 1)
    return tagged(SIGNED, number.to_bytes(length, "big", signed=True), context=False)


def text(characters):
    """A text in UTF-8."""
    return tagged(TEXT, b"\x00" + characters.encode(), context=False)


def bits_content(digits):
    """The content of a string of bits, which are digits 0 and 1."""
    return bytes([-len(digits) % 8]) + int(digits.ljust(-(-len(digits) // 8) * 8, "0") or "0", 2).to_bytes(-(-len(digits) // 8), "big")


def bits(digits):
    return tagged(BITS, bits_content(digits), context=False)


def application(number, value):
    """The element of an application of a type: a number, a truth, a text, or digits of a string of bits."""
    if number in (UNSIGNED, ENUMERATED):
        return tagged(number, shortest(value), context=False)
    of_real = lambda it: tagged(REAL, struct.pack(">f", it), context=False)
    return {BOOLEAN: boolean, SIGNED: signed, TEXT: text, BITS: bits, REAL: of_real}[number](value)


def object_octets(the_object):
    """The octets of an object, which is the number of its type and its instance."""
    kind, instance = the_object
    return (kind << 22 | instance).to_bytes(4, "big")


def stamp_of(seconds):
    """The eight octets of Date and Time of a moment, by UTC."""
    at = time.gmtime(seconds)
    return bytes([at.tm_year - 1900, at.tm_mon, at.tm_mday, at.tm_wday + 1, at.tm_hour, at.tm_min, at.tm_sec, int(seconds * 100) % 100])


def seconds_of(stamp):
    """The moment of such octets, in seconds since 1970."""
    year, month, day, _, hour, minute, second, hundredth = stamp
    return calendar.timegm((year + 1900, month, day, hour, minute, second)) + hundredth / 100


def time_stamp(stamp):
    """A time stamp of a date and a time, as a parameter has it between its tags."""
    return between(2, tagged(DATE, stamp[:4], context=False) + tagged(TIME, stamp[4:], context=False))


def datagram(apdu, expects_reply=False):
    """An Original-Unicast-NPDU of the local network."""
    return b"\x81\x0a" + (len(apdu) + 6).to_bytes(2, "big") + bytes([1, 4 * expects_reply]) + apdu


def request(invoke, service, parameters):
    """A confirmed request, whose answer may have 1,476 octets, none in segments."""
    return datagram(bytes([0, 5, invoke, service]) + parameters, expects_reply=True)


def who_is(low=None, high=None):
    limits = b"" if low is None else tagged(0, shortest(low)) + tagged(1, shortest(high))
    return datagram(bytes([0x10, WHO_IS]) + limits)


def property_of(the_object, number, index=None):
    """The parameters that name a property of an object, or an element of it."""
    of_index = b"" if index is None else tagged(2, shortest(index))
    return tagged(0, object_octets(the_object)) + tagged(1, shortest(number)) + of_index


def read_property(invoke, the_object, number, index=None):
    return request(invoke, READ_PROPERTY, property_of(the_object, number, index))


def read_all(invoke, the_object):
    """A ReadPropertyMultiple of all properties of an object (15.7)."""
    return request(invoke, READ_PROPERTY_MULTIPLE, tagged(0, object_octets(the_object)) + between(1, tagged(0, shortest(ALL))))


def read_many(invoke, wanted):
    """A ReadPropertyMultiple of properties of objects (15.7), each an object, a number and an index or None; those of one object stand together."""
    parts, last = [], None
    for the_object, number, index in wanted:
        if the_object != last:
            parts += [b"\x1f"] * bool(parts) + [tagged(0, object_octets(the_object)), b"\x1e"]
        parts += [tagged(0, shortest(number))] + ([] if index is None else [tagged(1, shortest(index))])
        last = the_object
    return request(invoke, READ_PROPERTY_MULTIPLE, b"".join(parts) + b"\x1f")


def read_range(invoke, the_object, first, count):
    """A ReadRange of records of a log from a number on, or so many up to it (15.8)."""
    return request(invoke, READ_RANGE, property_of(the_object, LOG_BUFFER) + between(6, tagged(UNSIGNED, shortest(first), context=False) + signed(count)))


def write_property(invoke, the_object, number, value, index=None):
    """The value is an element of an application."""
    return request(invoke, WRITE_PROPERTY, property_of(the_object, number, index) + between(3, value))


def edit_list(invoke, service, the_object, number, elements_of):
    """An AddListElement or a RemoveListElement (15.1, 15.2)."""
    return request(invoke, service, property_of(the_object, number) + between(3, elements_of))


def recipient(address):
    """A BACnetRecipient (clause 21): a network and a station, or the instance of a device, which the server knows the address of."""
    if isinstance(address, int):
        return tagged(0, (8 << 22 | address).to_bytes(4, "big"))
    network, station = address
    return between(1, application(UNSIGNED, network) + tagged(OCTETS, station, context=False))


def destination(of):
    """The octets of a recipient."""
    address = recipient(of.address)
    times = tagged(TIME, of.begin, context=False) + tagged(TIME, of.end, context=False)
    return bits(of.days) + times + address + application(UNSIGNED, of.process) + boolean(of.confirmed) + bits(of.transitions)


def acknowledge_alarm(invoke, process, the_object, state, stamp, now):
    """The acknowledgement of the transition that led to a state at a stamp, by "op", now. Both stamps are eight octets."""
    return acknowledge_alarm_by(invoke, (process, "op", now), the_object, state, stamp)


def acknowledge_alarm_by(invoke, whose, the_object, state, stamp):
    """The same by somebody: a process identifier, a name, and when it is."""
    process, name, now = whose
    of = [tagged(0, shortest(process)), tagged(1, object_octets(the_object)), tagged(2, shortest(state))]
    said = [between(3, time_stamp(stamp)), tagged(4, b"\x00" + name.encode()), between(5, time_stamp(now))]
    return request(invoke, ACKNOWLEDGE_ALARM, b"".join(of + said))


def get_event_information(invoke, behind=None):
    """Behind an object, or from the first one on."""
    return request(invoke, GET_EVENT_INFORMATION, b"" if behind is None else tagged(0, object_octets(behind)))


def simple_ack(invoke, service):
    return datagram(bytes([0x20, invoke, service]))


# What is read.


def want(holds, text):
    if not holds:
        raise ValueError(text)


def read(octets):
    """The APDU of an Original-Unicast-NPDU of the local network."""
    least = 8 if octets[6:7] == b"\x10" else 9
    want(len(octets) >= least and octets[:2] == b"\x81\x0a", f"no datagram: {octets.hex()}")
    want(int.from_bytes(octets[2:4], "big") == len(octets), f"a datagram of another length: {octets.hex()}")
    kind = KINDS.get(octets[6] >> 4)
    want(kind and octets[4:6] == (b"\x01\x04" if kind == "request" else b"\x01\x00"), f"another head: {octets.hex()}")
    return message_of(octets[6:])


def message_of(apdu):
    """What an APDU says."""
    want(len(apdu) >= 2, f"an APDU that is cut: {apdu.hex()}")
    kind, octets = KINDS.get(apdu[0] >> 4), apdu
    want(kind and apdu[0] & 15 == (apdu[0] == 0x71), f"another APDU: {octets.hex()}")
    if kind == "unconfirmed":
        return Message(kind, None, apdu[1], apdu[2:])
    if kind == "request":
        want(len(apdu) >= 4, f"a request that is cut: {octets.hex()}")
        return Message(kind, apdu[2], apdu[3], apdu[4:])
    want(len(apdu) >= 3, f"an answer that is cut: {octets.hex()}")
    want(kind in ("complex-ack", "error") or len(apdu) == 3, f"octets behind an answer: {octets.hex()}")
    return Message(kind, apdu[1], apdu[2], apdu[3:])


def received(octets):
    """The APDU of a datagram that any device may send, and the network and station behind its sender, None where there is none."""
    want(len(octets) >= 6 and octets[0] == 0x81 and octets[1] in (4, 10, 11) and int.from_bytes(octets[2:4], "big") == len(octets), f"no datagram: {octets.hex()}")
    at = 10 if octets[1] == 4 else 4
    try:
        version, control, at, station = octets[at], octets[at + 1], at + 2, None
        want(version == 1 and not control & 0x80, f"no APDU: {octets.hex()}")
        if control & 0x20:
            at += 3 + octets[at + 2]
        if control & 8:
            length = octets[at + 2]
            station, at = (int.from_bytes(octets[at : at + 2], "big"), octets[at + 3 : at + 3 + length]), at + 3 + length
    except IndexError:
        raise ValueError(f"a datagram that is cut: {octets.hex()}") from None
    return message_of(octets[at + bool(control & 0x20) :]), station


def elements(octets):
    """The elements that octets are."""
    open_lists, at = [(None, [])], 0
    try:
        while at < len(octets):
            number, context, length, at = octets[at] >> 4, bool(octets[at] & 8), octets[at] & 7, at + 1
            if number == 15:
                number, at = octets[at], at + 1
            if context and length == 6:
                open_lists.append((number, []))
            elif context and length == 7:
                opened, inside = open_lists.pop()
                open_lists[-1][1].append(Element(number, True, inside))
                want(opened == number, f"a tag that closes another: {octets.hex()}")
            else:
                content, at = content_at(octets, at, length, number == BOOLEAN and not context)
                open_lists[-1][1].append(Element(number, context, content))
    except IndexError:
        raise ValueError(f"elements that are cut: {octets.hex()}") from None
    want(len(open_lists) == 1, f"a tag that isn't closed: {octets.hex()}")
    return open_lists[0][1]


def content_at(octets, at, length, is_in_tag):
    """The content of an element behind the first octets of its tag, and the place behind it."""
    if is_in_tag:
        return bytes([length]), at
    if length == 5:
        length, at = octets[at], at + 1
        if length >= 254:
            size = 2 if length == 254 else 4
            length, at = int.from_bytes(octets[at : at + size], "big"), at + size
    want(at + length <= len(octets), f"a content that is cut: {octets.hex()}")
    return octets[at : at + length], at + length


def number_of(element):
    """The number that an Unsigned, a Signed or an Enumerated is, and 0 or 1 of a Boolean."""
    want(1 <= len(element.content) <= 4 and isinstance(element.content, bytes), f"no number: {element}")
    return int.from_bytes(element.content, "big", signed=element.number == SIGNED and not element.context)


def object_of(element):
    want(len(element.content) == 4 and isinstance(element.content, bytes), f"no object: {element}")
    number = int.from_bytes(element.content, "big")
    return number >> 22, number & (1 << 22) - 1


def stamp_in(element):
    """The eight octets of a time stamp of a date and a time."""
    heads = [(it.number, it.context, len(it.content)) for it in element.content]
    want((element.number, element.context) == (2, True) and heads == [(DATE, False, 4), (TIME, False, 4)], f"no time stamp: {element}")
    return b"".join(it.content for it in element.content)


def flags_of(element):
    """The three flags of a string of three bits."""
    want(len(element.content) == 2 and element.content[0] == 5, f"no three bits: {element}")
    return tuple(bool(element.content[1] & 0x80 >> bit) for bit in range(3))


def parameters_of(message, least, most):
    """The parameters of a service by their numbers, which ascend: all of `least`, and none but those of `most`."""
    return parameters_in(elements(message.parameters), least, most)


def parameters_in(found, least, most):
    """The same of elements that were read."""
    numbers = [it.number for it in found]
    want(all(it.context for it in found) and numbers == sorted(set(numbers)), f"parameters out of order: {found}")
    want(set(least) <= set(numbers) <= set(most), f"other parameters: {found}")
    return {it.number: it for it in found}


def notification_of(message):
    """The notification that a request or an unconfirmed one tells."""
    return notification_in(elements(message.parameters))


def notification_in(found):
    """The notification that elements are: the parameters of a request, or those between the tags of a record of a log."""
    of = parameters_in(found, [0, 1, 2, 3, 4, 5, 6, 8, 11], range(13))
    want(len(of[3].content) == 1, f"no single time stamp: {found}")
    optional = [number_of(of[it]) if it in of else None for it in (9, 10)]
    return Notification(
        number_of(of[0]), object_of(of[1]), object_of(of[2]), stamp_in(of[3].content[0]), number_of(of[4]), number_of(of[5]),
        number_of(of[6]), number_of(of[8]), optional[0], optional[1], number_of(of[11]), of[12].content if 12 in of else None,
        text_of(of[7]) if 7 in of else None,
    )


def value_read(message):
    """The object, the property and the one value of the answer to a ReadProperty."""
    of = parameters_of(message, [0, 1, 3], [0, 1, 2, 3])
    want(len(of[3].content) == 1, f"not one value: {message}")
    return object_of(of[0]), number_of(of[1]), number_of(of[3].content[0])


def values_read(message):
    """The object, the property, the index or None, and the elements of the answer to a ReadProperty."""
    of = parameters_of(message, [0, 1, 3], [0, 1, 2, 3])
    return object_of(of[0]), number_of(of[1]), number_of(of[2]) if 2 in of else None, of[3].content


def many_read(message):
    """What the answer to a ReadPropertyMultiple of one object has: of each property its number, its index or None, and its elements or an error."""
    found = objects_read(message)
    want(len(found) == 1, f"no properties of one object: {message}")
    return found[0]


def objects_read(message):
    """The same of several objects, each with its properties."""
    found = elements(message.parameters)
    want(found and [it.number for it in found] == [0, 1] * (len(found) // 2), f"no properties: {message}")
    return [(object_of(of), properties_read(results.content)) for of, results in zip(found[::2], found[1::2])]


def properties_read(found):
    """The results of one object in such an answer."""
    want(isinstance(found, list) and (not found or found[0].number == 2), f"no results: {found}")
    rows = []
    for it in found:
        if it.number == 2:
            rows.append([number_of(it), None, None, None])
        elif it.number == 3:
            rows[-1][1] = number_of(it)
        elif it.number == 4:
            rows[-1][2] = it.content
        else:
            want(it.number == 5, f"no property: {it}")
            rows[-1][3] = tuple(map(number_of, it.content))
    return rows


def range_read(message):
    """The records of the answer to a ReadRange by number."""
    of = parameters_of(message, [0, 1, 3, 4, 5], range(7))
    first, last, more = flags_of(of[3])
    parts, number = of[5].content, number_of(of[6]) if 6 in of else None
    want(number_of(of[4]) * 2 == len(parts), f"another count of records: {message}")
    records = []
    for at in range(0, len(parts), 2):
        stamp, body = parts[at : at + 2]
        want((stamp.number, body.number, len(body.content)) == (0, 1, 1), f"no record: {message}")
        shown = b"".join(it.content for it in stamp.content)
        records.append((None if number is None else number + at // 2, shown, notification_in(body.content[0].content)))
    return Range(object_of(of[0]), first, last, more, records)


def bits_of(element):
    """The digits of a string of bits."""
    want(isinstance(element.content, bytes) and element.content and element.content[0] < 8, f"no bits: {element}")
    digits = "".join(f"{it:08b}" for it in element.content[1:])
    return digits[: len(digits) - element.content[0]]


def text_of(element):
    """A text in UTF-8; one in another character set as its octets."""
    want(isinstance(element.content, bytes) and element.content, f"no text: {element}")
    return element.content[1:].decode("utf-8", "replace") if element.content[0] == 0 else element.content.hex()


def destinations_of(found):
    """The recipients that elements of a Recipient_List are."""
    want(len(found) % 7 == 0, f"no recipients: {found}")
    rows = []
    for at in range(0, len(found), 7):
        days, begin, end, address, process, confirmed, transitions = found[at : at + 7]
        of = address.content
        where = (number_of(of[0]), of[1].content) if address.number == 1 and len(of) == 2 else None
        want(where is not None or address.number == 0, f"no recipient: {address}")
        rows.append(Destination(bits_of(days), begin.content, end.content, where, number_of(process), bool(number_of(confirmed)), bits_of(transitions)))
    return rows


def summaries_of(message):
    """The summaries of the answer to a GetEventInformation, and whether there are more."""
    of = parameters_of(message, [0, 1], [0, 1])
    parts = of[0].content
    want(len(parts) % 7 == 0 and [it.number for it in parts] == list(range(7)) * (len(parts) // 7), f"no summaries: {message}")
    rows = [parts[at : at + 7] for at in range(0, len(parts), 7)]
    return [
        Summary(object_of(row[0]), number_of(row[1]), flags_of(row[2]), [stamp_in(it) for it in row[3].content],
                number_of(row[4]), flags_of(row[5]), [number_of(it) for it in row[6].content])
        for row in rows
    ], bool(number_of(of[1]))


def error_of(message):
    """The class and the code of an Error."""
    found = elements(message.parameters)
    want([(it.number, it.context) for it in found] == [(ENUMERATED, False)] * 2, f"no error: {message}")
    return tuple(map(number_of, found))


def list_error_of(message):
    """The class and the code of a ChangeList-Error, and the number of the first element that failed, from 1, or 0."""
    of = parameters_of(message, [0, 1], [0, 1])
    return (*map(number_of, of[0].content), number_of(of[1]))


def device_of(message):
    """The device, the longest APDU, the segmentation and the vendor of an I-Am."""
    found = elements(message.parameters)
    kinds = [(it.number, it.context) for it in found]
    want(kinds == [(OBJECT, False), (UNSIGNED, False), (ENUMERATED, False), (UNSIGNED, False)], f"no I-Am: {message}")
    return object_of(found[0]), *map(number_of, found[1:])
