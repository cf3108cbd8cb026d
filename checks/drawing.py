"""Draws what checks/fuzz sends from a seed: datagrams, lines of scripts, and damage to them and to the texts of sites."""
import random
import re
import time

START = 1700000000000
FIRST, LAST = 946684800000, 4102444799999
KINDS_OF_OBJECTS = {
    "binary-value": 5, "device": 8, "event-enrollment": 9, "notification-class": 15, "multi-state-value": 19, "event-log": 25,
    "bitstring-value": 39, "characterstring-value": 40, "integer-value": 45, "positive-integer-value": 48,
}
PROPERTIES = [
    0, 1, 6, 7, 8, 11, 12, 17, 21, 22, 25, 28, 31, 35, 36, 37, 38, 44, 45, 52, 59, 62, 70, 72, 73, 75, 76, 77, 79, 80, 81, 83,
    85, 86, 90, 98, 102, 103, 105, 111, 112, 113, 117, 120, 121, 126, 130, 131, 132, 133, 139, 141, 144, 145, 155, 168, 351, 352,
    353, 354, 355, 356, 357, 371, 4194303,
]
PEERS = ["10.0.0.9:47808", "10.0.0.5:47808", "10.0.0.6:47808", "10.0.0.7:47808", "10.0.0.9:1", "255.255.255.255:65535"]


class Draws:
    """What is drawn from a seed."""

    def __init__(self, seed, pool, sites):
        self.random = random.Random(seed)
        self.pool = pool
        self.site = self.one_of(sites)
        self.objects = objects_of(self.site)

    def below(self, count):
        return int(self.random.random() * count)

    def one_of(self, items):
        return items[int(self.random.random() * len(items))]

    def often(self, share):
        return self.random.random() < share

    def number(self):
        """A number of up to four octets, often at an edge."""
        if self.often(0.5):
            return self.below(8)
        return max(0, min(2**32 - 1, (1 << self.below(33)) + self.one_of([-1, 0, 1])))

    def octets(self, most):
        return self.random.randbytes(self.below(most + 1))

    def damaged(self, octets):
        """The octets with one to three places of damage."""
        octets = bytearray(octets)
        for _ in range(1 + self.below(3)):
            at, kind = self.below(len(octets) + 1), self.below(8)
            if kind < 3 and octets:
                octets[at % len(octets)] ^= 1 << self.below(8)
            elif kind == 3 and octets:
                octets[at % len(octets)] = self.below(256)
            elif kind == 4:
                octets[at:at] = self.octets(4)
            elif kind == 5:
                del octets[at : at + 1 + self.below(4)]
            elif kind == 6:
                del octets[at:]
            else:
                other = self.one_of(self.pool)
                octets[at:] = other[self.below(len(other)) :]
        return bytes(octets)


def objects_of(site):
    """The objects that the text of a site has, by the names of their types."""
    found, kinds = [("device", 1001)], {b"class": "notification-class", b"log": "event-log", b"enrollment": "event-enrollment"}
    for item in site.split(b"[[")[1:]:
        kind = re.search(rb'^kind = "([a-z-]+)"', item, re.MULTILINE)
        instance = re.search(rb"^instance = ([0-9]{1,6})$", item, re.MULTILINE)
        name = kind[1].decode() if kind else kinds.get(item.split(b"]]")[0])
        if instance and name in KINDS_OF_OBJECTS:
            found.append((name, int(instance[1])))
    return found


def tagged(number, content):
    """A parameter with a number in a context, of at most 253 octets."""
    length = bytes([len(content)]) if len(content) > 4 else b""
    return bytes([number << 4 | 8 | (5 if length else len(content))]) + length + content


def shortest(number):
    return number.to_bytes(max(1, (number.bit_length() + 7) // 8), "big")


def stamp_of(moment):
    """The octets of Date and Time of a moment at UTC."""
    at = time.gmtime(moment // 1000)
    date = bytes([0xA4, at.tm_year - 1900, at.tm_mon, at.tm_mday, at.tm_wday + 1])
    return date + bytes([0xB4, at.tm_hour, at.tm_min, at.tm_sec, moment % 1000 // 10])


def application_value(draws):
    """An application value of some type, most of them right."""
    kind = draws.below(9)
    if kind == 0:
        return b"\x00"
    if kind == 1:
        return bytes([0x10 | draws.below(2)])
    if kind in (2, 3, 4):
        content = shortest(draws.number())
        return bytes([(2 if kind == 2 else 3 if kind == 3 else 9) << 4 | len(content)]) + content
    if kind == 5:
        content = b"\x00" + draws.one_of([b"", b"ok", b"fire", b"sensor", draws.octets(20), b"\xc3\xa4" * 130])
        return b"\x75" + (bytes([len(content)]) if len(content) < 254 else b"\xfe" + len(content).to_bytes(2, "big")) + content
    if kind == 6:
        content = bytes([draws.below(9)]) + draws.octets(9)
        return bytes([0x80 | len(content)]) + content if len(content) < 5 else b"\x85" + bytes([len(content)]) + content
    if kind == 7:
        return bytes([0xC4]) + object_octets(draws)
    return draws.octets(30)


def object_octets(draws):
    kind, instance = object_of(draws)
    number = KINDS_OF_OBJECTS[kind] if draws.often(0.98) else draws.below(1024)
    return (number << 22 | instance).to_bytes(4, "big")


def object_of(draws):
    """An object, mostly one of the site."""
    if draws.often(0.9):
        return draws.one_of(draws.objects)
    return draws.one_of(list(KINDS_OF_OBJECTS)), draws.one_of([1, 2, 9, 4194303, draws.below(4194304)])


def reference(draws):
    """An object, a property, and at times an index."""
    index = tagged(2, shortest(draws.below(6))) if draws.often(0.2) else b""
    return tagged(0, object_octets(draws)) + tagged(1, shortest(draws.one_of(PROPERTIES))) + index


def filters(draws):
    """What a GetEnrollmentSummary asks for."""
    parts = [tagged(0, bytes([draws.one_of([0, 0, 0, 1, 2, 2, 3])]))]
    if draws.often(0.2):
        address = bytes([10, 0, 0, draws.one_of([5, 6, 7])]) + (47808).to_bytes(2, "big")
        who = tagged(0, object_octets(draws)) if draws.often(0.2) else b"\x1e\x21" + bytes([draws.below(8) // 7]) + b"\x65\x06" + address + b"\x1f"
        parts.append(b"\x1e\x0e" + who + b"\x0f" + tagged(1, shortest(draws.below(3))) + b"\x1f")
    if draws.often(0.3):
        parts.append(tagged(2, bytes([draws.below(6)])))
    if draws.often(0.2):
        parts.append(tagged(3, shortest(draws.one_of([0, 1, 3, 11, 15, 16, 17, 19, draws.number()]))))
    if draws.often(0.2):
        parts.append(b"\x4e" + tagged(0, shortest(draws.below(200))) + tagged(1, shortest(draws.below(300))) + b"\x4f")
    if draws.often(0.2):
        parts.append(tagged(5, shortest(draws.one_of([7, 7, 8, draws.number()]))))
    return b"".join(parts)


def objects_asked(draws):
    """What a ReadPropertyMultiple asks for: up to four objects, and up to six properties of each."""
    return b"".join(
        tagged(0, object_octets(draws)) + b"\x1e" + b"".join(property_asked(draws) for _ in range(1 + draws.below(6))) + b"\x1f"
        for _ in range(1 + draws.below(4))
    )


def property_asked(draws):
    index = tagged(1, shortest(draws.below(6))) if draws.often(0.2) else b""
    return tagged(0, shortest(8 if draws.often(0.1) else draws.one_of(PROPERTIES))) + index


def edit_of_a_list(draws):
    """An edit of a list, mostly of a class's recipients: up to three elements, of which one in eight is none that a class can have."""
    elements = []
    for _ in range(draws.below(4)):
        days, begin = draws.one_of([b"\x82\x01\xfe", b"\x82\x01\xf8"]), bytes([0xB4, draws.one_of([0, 0, 8]), 0, 0, 0])
        address = b"\x65\x06" + bytes([10, 0, 0, draws.one_of([5, 6, 7, 8, 9])]) + (47808).to_bytes(2, "big")
        who = tagged(0, object_octets(draws)) if draws.often(0.1) else b"\x1e\x21" + bytes([draws.below(16) // 15]) + address + b"\x1f"
        rest = bytes([0x21, draws.below(3), 0x10 + draws.below(2)]) + draws.one_of([b"\x82\x05\xe0", b"\x82\x05\xe0", b"\x82\x06\xc0"])
        elements.append(days + begin + b"\xb4\x17\x3b\x3b\x63" + who + rest if draws.often(0.95) else application_value(draws))
    of_a_class = b"\x0c" + (15 << 22 | draws.one_of([7, 7, 8, 1])).to_bytes(4, "big") + b"\x19\x66"
    return (of_a_class if draws.often(0.8) else reference(draws)) + b"\x3e" + b"".join(elements) + b"\x3f"


def request_parameters(draws, moment):
    """A service and its parameters, mostly in its grammar."""
    kind = draws.below(10)
    if kind == 0:
        stamp = stamp_of(moment - draws.one_of([0, 0, 0, 1, 1000, 10000]))
        state = shortest(draws.below(6))
        rest = b"\x3e\x2e" + stamp + b"\x2f\x3f" + tagged(4, b"\x00op") + b"\x5e\x2e" + stamp + b"\x2f\x5f"
        return 0, tagged(0, b"\x01") + tagged(1, object_octets(draws)) + tagged(2, state) + rest
    if kind == 1:
        return 12, reference(draws)
    if kind == 2:
        return 15, reference(draws) + b"\x3e" + application_value(draws) + b"\x3f" + (b"\x49\x08" if draws.often(0.1) else b"")
    if kind == 3:
        count = b"\x31" + draws.random.randbytes(1) if draws.often(0.8) else b"\x32" + draws.random.randbytes(2)
        first = shortest(draws.number())
        first = bytes([0x20 | len(first)]) + first
        spelled = draws.one_of([
            b"", b"\x3e" + first + count + b"\x3f", b"\x6e" + first + count + b"\x6f",
            b"\x7e" + stamp_of(moment - draws.below(100000)) + count + b"\x7f",
        ])
        log = b"\x0c" + (25 << 22 | 1).to_bytes(4, "big") + b"\x19\x83"
        return 26, (log if draws.often(0.8) else reference(draws)) + spelled
    if kind == 4:
        return 29, tagged(0, object_octets(draws)) if draws.often(0.5) else b""
    if kind == 5:
        return 3, b"" if draws.often(0.9) else draws.octets(4)
    if kind == 6:
        return 4, filters(draws)
    if kind == 7:
        return 14, objects_asked(draws)
    if kind == 8:
        return 8 + draws.below(2), edit_of_a_list(draws)
    return draws.below(256), draws.octets(20)


def apdu(draws, moment):
    """An APDU of some kind, mostly of a request."""
    kind = draws.below(20)
    if kind < 12:
        service, parameters = request_parameters(draws, moment)
        sizes = draws.one_of([5, 5, 5, 5, 4, 3, 2, 1, 0, 15, 0x75])
        flags = 2 if draws.often(0.9) else draws.below(16)
        segment = b"\x00\x04" if flags & 8 else b""
        return bytes([flags, sizes, draws.below(256)]) + segment + bytes([service]) + parameters
    if kind < 14:
        limits = b"" if draws.often(0.5) else tagged(0, shortest(draws.number())) + tagged(1, shortest(draws.number()))
        return bytes([0x10, draws.one_of([8, 8, 8, 0, 3, 7])]) + limits
    if kind < 19:
        invoke = draws.below(6) if draws.often(0.9) else draws.below(256)
        return bytes([draws.one_of([0x20, 0x20, 0x50, 0x60, 0x70, 0x30, 0x40]), invoke, draws.one_of([2, 2, 2, 0, 1])]) + draws.octets(2)
    return draws.octets(40)


def framed(draws, content):
    """A datagram with a network header, which says its length rightly."""
    kind = draws.below(12)
    forwarded = bytes([10, 0, 0, draws.one_of([5, 6, 9])]) + draws.one_of([47808, 47808, 0]).to_bytes(2, "big") if kind == 0 else b""
    function = 4 if kind == 0 else 11 if kind == 1 else 10
    network = b"\x01\x04"
    if kind == 2:
        mac = draws.octets(8)
        network = b"\x01\x08" + draws.below(70).to_bytes(2, "big") + bytes([len(mac)]) + mac
    elif kind == 3:
        network = b"\x01\x20\xff\xff\x00\xff"
    length = 4 + len(forwarded) + len(network) + len(content)
    return bytes([0x81, function]) + length.to_bytes(2, "big") + forwarded + network + content


def with_length(octets):
    """The octets with the length that a datagram says, where it is long enough to say one."""
    return octets[:2] + len(octets).to_bytes(2, "big") + octets[4:] if len(octets) >= 4 else octets


def datagram(draws, moment):
    """A datagram of 1 to 1,497 octets: whole, damaged, or drawn."""
    kind = draws.below(20)
    if kind < 8:
        found = framed(draws, apdu(draws, moment))
    elif kind < 17:
        found = draws.damaged(draws.one_of(draws.pool) if kind < 13 else framed(draws, apdu(draws, moment)))
        found = with_length(found) if draws.often(0.8) else found
    elif kind == 17:
        found = framed(draws, draws.octets(1480))
    elif kind == 18:
        begun = draws.one_of([b"\x00\x05\x01\x0f\x0c\x0b\x40\x00\x01\x19\x55", b"\x00\x05\x01\x0f"])
        found = framed(draws, begun + bytes([draws.below(256)]) * draws.below(1470))
    else:
        found = draws.octets(60)
    return found[:1497] or b"\x00"


VALUES = {
    "integer-value": [f"signed:{it}" for it in [50, 60, 90, 10, 81, 80, 75, 74, 20, 19, 151, -51, -2147483648, 2147483647]],
    "positive-integer-value": [f"unsigned:{it}" for it in [0, 50, 90, 150, 199, 200, 800, 970, 1001, 4294967295]],
    "multi-state-value": [f"unsigned:{it}" for it in [1, 1, 2, 3, 4, 5, 6, 0]],
    "binary-value": ["active", "inactive"],
    "bitstring-value": ["bits:1000", "bits:0000", "bits:0100", "bits:1100", "bits:", "bits:" + "01" * 32],
    "characterstring-value": ["text:6f6b", "text:66697265", "text:666c6f6f64", "text:73656e736f72", "text:", "text:" + "c3a4" * 128],
}


def session_line(draws, moment):
    """A line that is no datagram."""
    (name, instance), kind = object_of(draws), draws.below(10)
    if kind < 4:
        of = name if name in VALUES and draws.often(0.95) else draws.one_of(list(VALUES))
        return f"set {moment} {name}:{instance} {draws.one_of(VALUES[of])}"
    if kind < 6:
        return f"tick {moment}"
    if kind < 9:
        return f"pump {moment}"
    return f"fault {moment} {name}:{instance} {draws.one_of([0, 0, 0, 7, 10, 1, 2, 12, 13, 99])}"


def session_script(draws, datagrams):
    """A script with so many datagrams, and a line of another kind to each two or so."""
    lines, moment = [], START
    while datagrams:
        moment = min(LAST, moment + draws.one_of([0, 0, 0, 0, 1, 10, 500, 3000, 10000, -7]))
        if draws.often(0.3):
            lines.append(session_line(draws, moment))
        else:
            lines.append(f"from {moment} {draws.one_of(PEERS)} {datagram(draws, moment).hex()}")
            datagrams -= 1
    return ("\n".join(lines) + "\n").encode()


def trial_script(draws, count):
    """A script of a trial in the grammar."""
    lines, moment = [], FIRST + draws.below(1000)
    for _ in range(count):
        moment += draws.one_of([0, 1, 999, 1000, 1001, 5000, -3])
        moment = max(moment, FIRST)
        lines.append(f"tick {moment}" if draws.often(0.3) else f"set {moment} {draws.one_of([10, 20, 21, 25, 26, 50, 75, 79, 80, 81])}")
    return ("\n".join(lines) + "\n").encode()


PIECES = [
    b"\n", b" ", b"  ", b"#", b"\r\n", b"-0", b"00", b"+1", b"signed:", b"bits:01", b"text:c3", b"text:C3A4", b"device:0", b":", b"\x00", b"\xff",
    b"946684799999", b"946684800000", b"4102444799999", b"4102444800000", b"4194303", b"4194304", b"2147483648", b"-2147483648", b"4294967296",
    b"18446744073709551616", b"10.0.0.256:1", b"10.0.0.1:0", b"01", b"0" * 4096, b"tick", b"pump", b"trial", b"unsigned:4294967295", b"active ",
]


def damaged_text(draws, text, pieces):
    """A text with a few places of damage."""
    text = bytearray(text)
    for _ in range(draws.one_of([0, 1, 1, 1, 2, 3])):
        at, kind = draws.below(len(text) + 1), draws.below(7)
        if kind == 0 and text:
            text[at % len(text)] ^= 1 << draws.below(8)
        elif kind == 1:
            del text[at : at + 1 + draws.below(5)]
        elif kind == 2:
            text[at:at] = draws.one_of(pieces)
        elif kind == 3:
            words = [it.span() for it in re.finditer(rb"\S+", text)]
            if words:
                start, end = draws.one_of(words)
                text[start:end] = draws.one_of(pieces)
        elif kind == 4:
            lines = text.split(b"\n")
            lines.insert(draws.below(len(lines)), draws.one_of(lines))
            text = bytearray(b"\n".join(lines))
        elif kind == 5:
            lines = text.split(b"\n")
            del lines[draws.below(len(lines))]
            text = bytearray(b"\n".join(lines))
        elif draws.often(0.1):
            del text[at:]
    return bytes(text)


SITE_PIECES = [
    b"[", b"]", b"[[object]]", b"[[class]]", b"[[destination]]", b"[[log]]", b"[[enrollment]]", b"[device]", b"[[device]]", b"=", b'"', b"'", b'"""',
    b"#", b"\n", b"\r", b"\x00", b"\xff", b"\xe2\x82\xac", b"true", b"0", b"1", b"-1", b"1.5", b"4194302", b"4194303", b"4294967295", b"4294967296",
    b"9223372036854775807", b"9223372036854775808", b'"integer-value"', b'"binary-value:1"', b'"10.0.0.5:47808"', b'"111"', b'"\\u00e4"', b'"\\ud800"',
    b"[1, 2, 3]", b"[[1]]", b"{ a = 1 }", b"1979-05-27", b"inf", b"0x10", b"1_000", b"a.b = 1", b"class = 7", b"\nclass = 7\n", b"\nlow = 20\n",
    b"[[binding]]", b'\ninhibit_ref = "binary-value:1"\n', b'\ntexts = ["a", "", "b"]\n', b"\ndevice = 1001\n",
]
