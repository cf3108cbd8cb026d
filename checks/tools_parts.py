"""The parts of checks/tools that want a server: the client, its listener and follower, the feeder and the metrics."""
import json
import re
import shutil
import socket
import subprocess
import threading
import time

import bacnet
import serving
import tooling
from serving import MANY, Server
from tooling import Relay, Running, lines_of_json, run, until

from alarm_tools import client, names, values

FREEZER, SECOND, COUNTER, DOOR = (bacnet.INTEGER_VALUE, 1), (bacnet.INTEGER_VALUE, 2), (bacnet.INTEGER_VALUE, 3), (5, 1)
# How long a tool waits for an answer, and how often it asks again, in these parts.
QUICK = ("--wait", "0.5", "--retries", "7")
# The same where no server is gone for good, and a machine may have much else to do.
PATIENT = ("--wait", "2", "--retries", "15")


def plant(port, **keys):
    """The sections of a site whose two freezers and door tell a recipient at a port, with a log of eight records."""
    door = "[[object]]", {"kind": "binary-value", "instance": 1, "name": "Door", "value": "inactive", "class": 7, "alarm_value": "active"}
    log = "[[log]]", {"instance": 1, "name": "History", "size": 8, "classes": [7]}
    return [
        serving.device(name="Kitchen", apdu_timeout=300, retries=15, **keys), serving.of_class(7), serving.told_at(port, 7, True),
        serving.tank(1, 7, name="Freezer 1"), serving.tank(2, 7, name="Freezer 2"), serving.integer(3, name="Counter"), door, log,
        ("[[binding]]", {"device": 5001, "address": "127.0.0.1:9"}),
    ]


class Plant:
    """The site of `plant` with its journal, its server and a relay before it."""

    def __init__(self, program, folder, recipient=None, **keys):
        self.program, self.folder = program, folder
        self.recipient, self.port = recipient or serving.free_port(), serving.free_port()
        self.site, self.journal = serving.blank(program, folder, *plant(self.recipient, **keys))
        self.server, self.relay = None, Relay(self.port)

    def start(self):
        self.server = Server(self.program, self.site, self.journal, self.port, MANY)

    def kill(self):
        self.server.kill()

    def client(self, *words, **keys):
        return run("alarm-client", *words, "--to", self.relay.to(), *QUICK, **keys)

    def clients(self, lines):
        """How alarm-client ended with each of several lines of words."""
        return tooling.run_many("client_command", [[*map(str, line), "--to", self.relay.to(), *QUICK] for line in lines])

    def write(self, of, word):
        """Writes a present value, without a process for it."""
        the_object = names.object_from(of)
        with client.Client((serving.HOST, self.port), 1.0, 5) as asked:
            asked.write(the_object, bacnet.PRESENT_VALUE, values.element_from(the_object, bacnet.PRESENT_VALUE, word))

    def number(self, of="integer-value:3"):
        with client.Client((serving.HOST, self.port), 1.0, 5) as asked:
            return asked.number(names.object_from(of), bacnet.PRESENT_VALUE)

    def rows(self):
        return lines_of_json(self.client("list", "--json")[1])

    def __enter__(self):
        self.relay.__enter__()
        self.start()
        return self

    def __exit__(self, *_):
        self.kill()
        self.relay.__exit__()


# The client.


def try_client(told, program, folder):
    """Reads, writes, lists, acknowledges, is refused, and goes on over a lost datagram and a killed server."""
    with Plant(program, folder) as it:
        see_reads(told, it)
        see_recipients(told, it)
        see_refusals(told, it)
        see_alarms(told, it)
        see_losses(told, it)
        it.kill()
        it.start()
        rows = {row["object"]: row for row in it.rows()}
        told.same("what is acknowledged behind a kill", {of: row["unacknowledged"] for of, row in rows.items()}, {"integer-value:1": [], "binary-value:1": ["to-offnormal"]})
        told.same("all acknowledged", it.client("ack", "--all")[0], 0)
        told.same("what is left to acknowledge", [row["unacknowledged"] for row in it.rows()], [[], []])
        it.kill()
        begun = time.monotonic()
        status, _, said = it.client("list")
        told.want(status == 3 and "nobody answers" in said and time.monotonic() - begun < tooling.WAIT, f"without a server it ended with {status}, {said!r}")
        return it.relay.datagrams


def see_reads(told, it):
    status, output, _ = it.client("whois", "--json")
    told.same("whois", (status, json.loads(output) | {"address": None}), (0, {"device": 1001, "name": "Kitchen", "address": None, "vendor": 999, "max_apdu": 1476}))
    told.same("whois elsewhere", it.client("whois", 1, 2)[0], 3)
    status, output, _ = it.client("read", "integer-value:1", "present-value", "high-limit", "event-time-stamps", "event-time-stamps[0]", "--json")
    told.same("read", (status, json.loads(output)), (0, {
        "object": "integer-value:1", "name": "Freezer 1", "present-value": 50, "high-limit": 80, "event-time-stamps": [None, None, None], "event-time-stamps[0]": 3,
    }))
    counts = [("integer-value:1", 21), ("device", 7), ("notification-class:7", 7), ("event-log:1", 8), ("binary-value:1", 18)]
    each, together = (it.clients([["read", of, how, "--json"] for of, _ in counts]) for how in ("--each", "--all"))
    for (of, least), (status, output, said), of_all in zip(counts, each, together):
        told.want(status == 0 and len(json.loads(output)) == least + 2, f"read {of} --each: {status}, {len(json.loads(output or '{}'))} keys, {said}")
        told.same(f"read {of} --all, beside one by one", (of_all[0], json.loads(of_all[1] or "{}")), (0, json.loads(output or "{}")))
    told.same("a write of a limit", it.client("write", "integer-value:3", "7")[0], 0)
    told.same("a list of recipients", json.loads(it.client("recipients", "show", "7", "--json")[1])["recipients"][0]["address"], f"127.0.0.1:{it.recipient}")


def see_refusals(told, it):
    """What is refused is told by its name and number, with a status of its own."""
    rows = [
        (["read", "integer-value:9"], 4, "Error 1,31, unknown-object"), (["read", "integer-value:1", "log-buffer"], 4, "Error 2,32, unknown-property"),
        (["write", "multi-state-value:1", "1"], 4, "Error 1,31"), (["write", "integer-value:1", "1", "--type", "real"], 4, "Error 2,9, invalid-data-type"),
        (["write", "integer-value:1", "x", "--property", "object-name", "--type", "text"], 4, "Error 2,40, write-access-denied"),
        (["read", "integer-value:9", "--all"], 4, "Error 1,31, unknown-object"),
        (["recipients", "add", "9", "10.0.0.8:47808"], 4, "Error 1,31, unknown-object"), (["recipients", "remove", "7", "10.0.0.8:47808"], 4, "has no recipient"),
        (["write", "integer-value:1", "21.5"], 2, "tenths"), (["write", "binary-value:1", "on"], 2, "inactive or active"),
        (["read", "temperature:1"], 2, "KIND:INSTANCE is wanted"), (["ack"], 2, "--all"), (["ack", "integer-value:99"], 4, "unknown-object"),
        (["recipients", "add", "7", "plant.example"], 2, "A.B.C.D:PORT is wanted"), (["read", "integer-value:1", "colour"], 2, "is no property"),
    ]
    for (words, wanted, text), (status, output, said) in zip(rows, it.clients([words for words, _, _ in rows])):
        told.want(status == wanted and text in said and not output, f"{words}: status {status}, {output!r}, {said!r}")


def see_recipients(told, it):
    """A recipient is added, shown, kept where it is added again, and removed; the others stay. A device is added by its number where the site binds it."""
    address = "127.0.0.1:9"
    had = it.client("recipients", "show", "7", "--json")[1]
    added, again = (it.client("recipients", "add", "7", address, "--process", "2", "--transitions", "001", "--json") for _ in range(2))
    shown, removed = it.client("recipients", "show", "7", "--json"), it.client("recipients", "remove", "7", address, "--json")
    listed = [(it["address"], it["process"], it["transitions"]) for it in json.loads(added[1] or "{}").get("recipients", [])]
    told.same("a recipient that is added", (added[0], listed[-1:], len(listed)), (0, [(address, 2, ["to-normal"])], len(json.loads(had)["recipients"]) + 1))
    told.same("one that is added again", (again[0], again[1]), (0, added[1]))
    told.same("a list that is shown behind it", (shown[0], shown[1]), (0, added[1]))
    told.same("one that is removed", (removed[0], removed[1]), (0, had))
    bound, other, wrong, gone = it.clients([
        ["recipients", "add", "7", "device:5001", "--process", "3", "--json"], ["recipients", "add", "7", "device:77"], ["recipients", "add", "7", "device:x"],
        ["recipients", "remove", "7", address, "--json"],
    ])
    listed = [(it["address"], it["process"]) for it in json.loads(bound[1] or "{}").get("recipients", [])]
    told.same("a device that is added", (bound[0], listed[-1:], len(listed)), (0, [(address, 3)], len(json.loads(had)["recipients"]) + 1))
    told.want(other[0] == 4 and "value-out-of-range" in other[2], f"a device that isn't bound: {other}")
    told.want(wrong[0] == 2 and "device:INSTANCE" in wrong[2], f"what is no recipient: {wrong}")
    told.same("a device that is removed by its address", (gone[0], gone[1]), (0, had))


def see_alarms(told, it):
    told.same("nothing in alarm", it.client("list")[1], "nothing is in alarm, and nothing is to be acknowledged\n")
    it.write("integer-value:1", "90")
    it.write("binary-value:1", "active")
    rows = {row["object"]: (row["name"], row["state"], row["unacknowledged"], row["priority"]) for row in it.rows()}
    told.same("the list", rows, {"integer-value:1": ("Freezer 1", "high-limit", ["to-offnormal"], 100), "binary-value:1": ("Door", "offnormal", ["to-offnormal"], 100)})
    table = it.client("list")[1].splitlines()
    told.want(table[0].split()[:2] == ["STATE", "SINCE"] and table[-1] == "2 in alarm, 2 to be acknowledged" and "\x1b" not in "".join(table), f"the table is {table}")
    status, output, _ = it.client("ack", "integer-value:1", "--by", "Ann, kitchen")
    told.want(status == 0 and re.fullmatch(r'integer-value:1 "Freezer 1": to-offnormal of \S+ \S+ acknowledged\n', output), f"ack told {output!r}")
    told.want(any(b"Ann, kitchen" in octets for octets in it.relay.sent()), "who acknowledges wasn't sent")
    told.same("again", it.client("ack", "integer-value:1")[1], 'integer-value:1 "Freezer 1": nothing to acknowledge\n')


def see_losses(told, it):
    """A request whose answer is lost twice is sent again with its octets, and is answered then."""
    lost, before = [], len(it.relay.sent())
    it.relay.loses = lambda was_sent, octets: not was_sent and octets[6] == 0x20 and len(lost) < 2 and not lost.append(octets)
    told.same("a write with lost answers", it.client("write", "integer-value:3", "8")[0], 0)
    it.relay.loses = lambda was_sent, octets: False
    writes = [octets for octets in it.relay.sent()[before:] if octets[9] == bacnet.WRITE_PROPERTY and octets[6] == 0]
    told.want(len(writes) == 3 and len(set(writes)) == 1, f"the write was sent as {[octets.hex() for octets in writes]}")


class LaterServer(threading.Thread):
    """A device that has what this server hasn't yet: edits of lists. It answers ReadPropertyMultiple too, by an error for one property. Its answers were written by hand."""

    LISTED = bytes.fromhex("8201fe b400000000 b4173b3b63 1e 2100 65060a000008bac0 1f 2102 10 8205e0".replace(" ", ""))

    def __init__(self):
        super().__init__(daemon=True)
        self.socket, self.listed, self.asked = socket.socket(socket.AF_INET, socket.SOCK_DGRAM), b"", []
        self.socket.bind((serving.HOST, 0))
        self.port = self.socket.getsockname()[1]

    def run(self):
        while True:
            try:
                octets, sender = self.socket.recvfrom(2048)
            except OSError:
                return
            message = bacnet.read(octets)
            self.asked.append(message)
            self.socket.sendto(bacnet.datagram(self.answer(message)), sender)

    def answer(self, message):
        head, of = bytes([message.invoke, message.number]), message.parameters
        if message.number == bacnet.READ_PROPERTY_MULTIPLE:
            return b"\x30" + head + of[:5] + bytes.fromhex("1e 2924 4e 9103 4f 2955 4e 315a 4f 2966 5e 9102 9120 5f 1f".replace(" ", ""))
        if message.number == bacnet.READ_PROPERTY:
            value = self.listed if of[5:7] == b"\x19\x66" else bacnet.text("Later")
            return b"\x30" + head + of + bacnet.between(3, value)
        had, self.listed = self.listed, self.LISTED if message.number == bacnet.ADD_LIST_ELEMENT else b""
        if message.number == bacnet.REMOVE_LIST_ELEMENT and not had:
            return b"\x50" + head + bytes.fromhex("0e 9105 9151 0f 1901".replace(" ", ""))
        return b"\x20" + head


def try_later(told, *_):
    """What the tools ask that this server hasn't yet or answers otherwise, at a device that does."""
    device = LaterServer()
    device.start()
    lines = [
        ["read", "integer-value:1", "--all", "--json"], ["recipients", "add", "7", "10.0.0.8:47808", "--process", "2", "--json"],
        ["recipients", "remove", "7", "10.0.0.8:47808", "--json"], ["recipients", "remove", "7", "10.0.0.8:47808"],
    ]
    read, added, removed, again = tooling.run_many("client_command", [[*line, "--to", f"127.0.0.1:{device.port}", *QUICK] for line in lines])
    wanted = {"object": "integer-value:1", "name": "Later", "event-state": "high-limit", "present-value": 90, "recipient-list": "Error 2,32, unknown-property"}
    told.same("all properties", (read[0], json.loads(read[1])), (0, wanted))
    listed = [(it["address"], it["process"], it["transitions"]) for it in json.loads(added[1])["recipients"]]
    told.same("a list with a recipient", listed, [("10.0.0.8:47808", 2, ["to-offnormal", "to-fault", "to-normal"])])
    told.same("a list without", (removed[0], json.loads(removed[1])["recipients"]), (0, []))
    told.want(again[0] == 4 and "has no recipient" in again[2], f"a recipient that isn't there: {again}")
    see_broadcast(told, device)
    device.socket.close()
    edits = [it.parameters for it in device.asked if it.number in (8, 9)]
    told.same("what was asked", edits, [bytes.fromhex("0c03c00007 1966 3e".replace(" ", "")) + device.LISTED + b"\x3f"] * 2)


def see_broadcast(told, device):
    """A Who-Is to all is heard at a broadcast address, and whoever answers is told with its name."""
    with socket.socket(socket.AF_INET, socket.SOCK_DGRAM) as heard:
        heard.bind(("127.255.255.255", device.port))
        heard.settimeout(20)

        def answer():
            octets, sender = heard.recvfrom(2048)
            if octets == bacnet.who_is(1000, 2000):
                device.socket.sendto(bytes.fromhex("810b001d0128ffff000005 01 22ff1000c4020003e92205c4910322 03e7".replace(" ", "")), sender)

        answering = threading.Thread(target=answer, daemon=True)
        answering.start()
        status, output, said = run("alarm-client", "whois", 1000, 2000, "--broadcast", f"127.255.255.255:{device.port}", "--wait", "1", "--json")
        answering.join()
    wanted = {"device": 1001, "name": "Later", "address": f"127.0.0.1:{device.port}", "vendor": 999, "max_apdu": 1476}
    told.want(status == 0 and json.loads(output) == wanted, f"to all it told {status}, {output!r}, {said!r}")


# Notifications and logs.


def try_listener(told, program, folder):
    """Tells each notification once, also over a kill of the server, and confirms it."""
    with Plant(program, folder) as it, Running(folder, "alarm-client", "listen", "--at", "127.0.0.1", "--port", it.recipient, "--json", "--count", 4, given="") as heard:
        until(lambda: "listening on" in heard.errors())
        it.write("integer-value:1", "90")
        until(lambda: len(heard.output().splitlines()) == 1)
        it.client("ack", "integer-value:1")
        until(lambda: len(heard.output().splitlines()) == 2)
        it.kill()
        it.start()
        it.write("binary-value:1", "active")
        it.write("integer-value:1", "50")
        told.same("the listener's end", heard.ended(), 0)
        rows = lines_of_json(heard.output())
        told.same("what was told", [(row["object"], row["name"], row["notify"], row.get("from"), row["to"]) for row in rows], [
            ("integer-value:1", "Freezer 1", "alarm", "normal", "high-limit"), ("integer-value:1", "Freezer 1", "ack-notification", None, "high-limit"),
            ("binary-value:1", "Door", "alarm", "normal", "offnormal"), ("integer-value:1", "Freezer 1", "alarm", "high-limit", "normal"),
        ])
        told.same("its values", rows[0]["values"], {"value": 90, "flags": ["in-alarm"], "deadband": 5, "limit": 80})
        told.want(all(row["confirmed"] and row["device"] == 1001 for row in rows), f"notifications are told as {rows}")
        return it.relay.datagrams + see_confirmations(told, folder)


# The notification of docs/WIRE.md that is to be confirmed, one that isn't, and what a recipient says to each of these and to a ReadProperty.
CONFIRMED = bytes.fromhex(
    "810a0041 0104 00050002 0901 1c020003e9 2c0b400001 3e2ea47b0b0e02b4160d1e002f3f 4907 5964 690f 8900 9901 a900 b903 "
    "ce fe0f 095a 1a0480 2905 3950 ff0f cf"
)
UNCONFIRMED = CONFIRMED[:2] + b"\x00\x3f\x01\x00\x10\x03" + CONFIRMED[10:].replace(b"\x0b\x40\x00\x01", b"\x0b\x40\x00\x02")
SAID = [(CONFIRMED, "810a00090100200002"), (CONFIRMED, "810a00090100200002"), (bacnet.read_property(5, FREEZER, 85), "810a00090100600509"), (UNCONFIRMED, None), (UNCONFIRMED, None)]


def see_confirmations(told, folder):
    """What comes again is confirmed again, and told once; what isn't to be confirmed gets no answer, and another service is refused."""
    port, datagrams = serving.free_port(), []
    with Running(folder, "alarm-client", "listen", "--at", "127.0.0.1", "--port", port, "--count", 3, given="") as heard, socket.socket(socket.AF_INET, socket.SOCK_DGRAM) as sender:
        until(lambda: "listening on" in heard.errors())
        sender.connect((serving.HOST, port))
        sender.settimeout(5)
        for octets, wanted in SAID:
            sender.send(octets)
            datagrams.append((False, octets))
            if wanted:
                answer = sender.recv(2048)
                datagrams.append((True, answer))
                told.same(f"the answer to {octets.hex()[:24]}", answer.hex(), wanted)
        told.same("the end of a listener", heard.ended(), 0)
        text = "alarm: integer-value:{} normal -> high-limit at 2023-11-14 22:13:30.00, value 90, deadband 5, limit 80, class 7, priority 100, to be acknowledged\n"
        told.same("what it told", heard.output(), text.format(1) + text.format(2) * 2)
    return datagrams


def swing(it, count):
    """So many records of the log: the second freezer comes and goes."""
    for number in range(count):
        it.write("integer-value:2", "90" if number % 2 == 0 else "50")


def numbers_of(running):
    return [row["number"] for row in lines_of_json(running.output())]


def try_follower(told, program, folder):
    """Goes on by number, over a kill of the server and one of itself, and says what the log no longer has."""
    with Plant(program, folder, serving.free_port()) as it:
        words = ["follow", "event-log:1", "--keep", folder / "position", "--every", "0.1", "--to", it.relay.to(), *QUICK]
        with Running(folder, "alarm-client", *words, given="") as first:
            swing(it, 4)
            told.want(until(lambda: numbers_of(first) == [1, 2, 3, 4]), f"followed {numbers_of(first)}, {first.errors()}")
            it.kill()
            told.want(until(lambda: "nobody answers" in first.errors()), f"a gone server isn't told: {first.errors()}")
            it.start()
            swing(it, 2)
            told.want(until(lambda: numbers_of(first) == [1, 2, 3, 4, 5, 6]), f"behind a kill of the server it followed {numbers_of(first)}")
            first.kill()
        swing(it, 2)
        with Running(folder, "alarm-client", *words, given="") as second:
            told.want(until(lambda: numbers_of(second) == [7, 8]), f"behind its own kill it followed {numbers_of(second)}, {second.errors()}")
            rows = [(row["name"], row["values"]["value"], row["to"]) for row in lines_of_json(second.output())]
            told.same("a name and a value", rows, [("Freezer 2", 90, "high-limit"), ("Freezer 2", 50, "normal")])
            until(lambda: (folder / "position").read_text() == "9\n")
            second.kill()
        swing(it, 12)
        status, output, said = run("alarm-client", *words, "--once")
        numbers = [row["number"] for row in lines_of_json(output)]
        told.want(status == 0 and "records 9 to 12 of event-log:1 are gone" in said and numbers == list(range(13, 21)), f"over a gap it followed {numbers}, {said!r}")
        told.same("what is kept", (folder / "position").read_text(), "21\n")
        (folder / "position").write_text("40\n")
        status, output, said = run("alarm-client", *words, "--once", "--text")
        good = status == 0 and "begins anew" in said and len(output.splitlines()) == 8 and output.startswith("13 alarm: integer-value:2")
        told.want(good, f"where the log begins anew it followed {output!r}, {said!r}")
        return it.relay.datagrams


# The feeder.


def taken_by(feeder):
    """The values that the server took, in turn."""
    return [row["value"] for row in lines_of_json(feeder.output()) if row["answer"] == "taken"]


def try_feeder(told, program, folder):
    """Writes until it is answered, over a kill of the server and of itself, and all kept values at the start."""
    with Plant(program, folder) as it:
        words = ["--keep", folder / "kept", "--to", it.relay.to(), "--wait", "0.3", "--retries", "1", "--json", "--textfile", folder / "feed.prom"]
        with Running(folder, "alarm-feed", *words) as first:
            first.say("".join(f"integer-value:3 {number}\n" for number in range(1, 41)) + "integer-value:99 1\ninteger-value:3 1.5\n")
            first.child.stdin.write(b"characterstring-value:1 caf\xe9\n")
            first.say("nonsense\n")
            told.want(until(lambda: "nonsense" in first.errors()), f"the feeder told {first.errors()}")
            told.want(until(lambda: taken_by(first) == [str(it) for it in range(1, 41)]), f"not each value was taken in turn: {taken_by(first)}")
            refused = ("integer-value:99 1: Error 1,31", "line 42: '1.5' is none", "line 43: it isn't UTF-8")
            told.want(until(lambda: all(text in first.errors() for text in refused)), f"the feeder told {first.errors()}")
            it.kill()
            first.say("integer-value:3 50\ninteger-value:3 51\ninteger-value:1 60\n")
            told.want(until(lambda: "nobody answers" in first.errors()), f"a gone server isn't told: {first.errors()}")
            first.say("integer-value:3 52\n")
            it.start()
            told.want(until(lambda: it.number() == 52 and it.number("integer-value:1") == 60), f"behind a kill the counter is {it.number()}")
            told.want(until(lambda: "are written again" in first.errors()), f"the feeder told {first.errors()}")
            first.say("integer-value:3 53\n")
            until(lambda: it.number() == 53)
            first.kill()
        it.write("integer-value:3", "1")
        it.write("integer-value:1", "1")
        with Running(folder, "alarm-feed", *words) as second:
            told.same("its end", second.ended(), 0)
        told.same("what was kept is written", (it.number(), it.number("integer-value:1")), (53, 60))
        told.want("alarm_feed_written_total 2\n" in (folder / "feed.prom").read_text(), f"the textfile has {(folder / 'feed.prom').read_text()}")
        see_alive(told, it, folder)
        return it.relay.datagrams


def see_alive(told, it, folder):
    """The binary value that says that the feeder lives goes to inactive and to active."""
    with Running(folder, "alarm-feed", "--alive", "binary-value:1", "--alive-every", "0.2", "--to", it.relay.to()) as feeder:
        told.want(until(lambda: sum(octets[9:10] == b"\x0f" and octets.endswith(b"\x3e\x91\x01\x3f") for octets in it.relay.sent()) >= 3), f"it isn't set again and again: {feeder.errors()}")


def try_restored(told, program, folder):
    """Reads back what it wrote, and writes what is gone: behind a server on another journal that came between two writes, and with each pair of --alive."""
    with Plant(program, folder) as it:
        other = folder / "other"
        serving.make_journal(program, it.site, other)
        words = ["--to", it.relay.to(), "--wait", "1", "--retries", "15", "--look-every", "0.4", "--keep", folder / "kept", "--textfile", folder / "feed.prom"]
        with Running(folder, "alarm-feed", *words) as feeder:
            feeder.say('integer-value:1 60\n"freezer 2" 70\n"Counter"  5\n"Freezer" 1\nbinary-value:1 active\n')
            told.want(until(lambda: restored(it) == (60, 70, 5)), f"by names it wrote {restored(it)}, {feeder.errors()}")
            told.want(until(lambda: 'line 4: \'Freezer\' is no object' in feeder.errors() and '"Freezer 1"' in feeder.errors()), f"of a name that isn't there: {feeder.errors()}")
            it.kill()
            it.journal = other
            it.start()
            told.want(until(lambda: restored(it) == (60, 70, 5)), f"on another journal there are {restored(it)}, {feeder.errors()}")
            said = ('integer-value:1 "Freezer 1" has 50 in place of 60: it is written again', 'binary-value:1 "Door" has inactive in place of active: it is written again')
            told.want(until(lambda: all(text in feeder.errors() for text in said)), f"what was gone isn't told: {feeder.errors()}")
            told.want("nobody answers" not in feeder.errors(), f"somebody was missed: {feeder.errors()}")
            it.clients([["write", "integer-value:1", "true", "--property", "out-of-service"], ["write", "integer-value:1", "33"]])
            told.want(until(lambda: "has 33 in place of 60, and is out of service: it is left so" in feeder.errors()), f"out of service: {feeder.errors()}")
            told.same("what is out of service stays", it.number("integer-value:1"), 33)
            it.client("write", "integer-value:1", "false", "--property", "out-of-service")
            told.want(until(lambda: it.number("integer-value:1") == 60), f"behind its service: {feeder.errors()}")
        told.want(until(lambda: metrics_of((folder / "feed.prom").read_text())["alarm_feed_restored_total"] >= 5), "what was written again isn't counted")
        with Running(folder, "alarm-feed", "--to", it.relay.to(), "--alive", "door", "--alive-every", "0.5", "--keep", folder / "kept") as feeder:
            until(lambda: restored(it) == (60, 70, 5))
            it.write("integer-value:2", "1")
            told.want(until(lambda: it.number("integer-value:2") == 70), f"with --alive: {feeder.errors()}")
        return it.relay.datagrams


def restored(it):
    return tuple(it.number(f"integer-value:{number}") for number in (1, 2, 3))


def changes_of(feeder, of):
    """The values of an object that the server took, in turn."""
    return [row["value"] for row in lines_of_json(feeder.output()) if row["answer"] == "taken" and row["object"] == of]


def try_settled(told, program, folder):
    """Writes an object at most once in so long, the last of what came meanwhile, also where the input ends or the feeder is killed; and others at once."""
    with Plant(program, folder) as it:
        words = ["--to", it.relay.to(), "--json", "--settle", "1.5", "--keep", folder / "kept", "--alive", "binary-value:1", "--alive-every", "0.3", "--textfile", folder / "feed.prom"]
        with Running(folder, "alarm-feed", *words) as feeder:
            begun = time.monotonic()
            for number in range(1, 41):
                feeder.say(f"integer-value:3 {number}\ninteger-value:1 {50 + number % 2}\n" + ("integer-value:2 61\n" if number == 3 else ""))
                time.sleep(0.1)
            feeder.child.stdin.close()
            feeder.child.stdin = None
            told.same("the end of a feeder that settles", feeder.ended(), 0)
            took = time.monotonic() - begun
            found = changes_of(feeder, "integer-value:3")
            # Between two writes lie 1.5 s at least, and the first is at once.
            told.want(found[:1] == ["1"] and found[-1:] == ["40"] and 3 <= len(found) <= 1 + took / 1.5, f"in {took:.1f} s it wrote {found}")
            told.same("what is there behind it", (it.number(), it.number("integer-value:1"), it.number("integer-value:2")), (40, 50, 61))
            told.same("an object that changed once", changes_of(feeder, "integer-value:2"), ["61"])
            passed = [row["value"] for row in lines_of_json(feeder.output()) if row["answer"] == "passed over" and row["object"] == "integer-value:3"]
            told.same("each value was taken or passed over", sorted(map(int, passed + found)), list(range(1, 41)))
            counts = metrics_of((folder / "feed.prom").read_text())
            told.same("how many were passed over", counts["alarm_feed_passed_total"], sum(row["answer"] == "passed over" for row in lines_of_json(feeder.output())))
            pairs = sum(octets[9:10] == b"\x0f" and octets.endswith(b"\x3e\x91\x01\x3f") for octets in it.relay.sent())
            told.want(pairs >= 4, f"meanwhile --alive wrote {pairs} pairs")
        with Running(folder, "alarm-feed", "--to", it.relay.to(), "--json", "--settle", "600", "--keep", folder / "kept") as feeder:
            feeder.say("integer-value:3 70\n")
            told.want(until(lambda: it.number() == 70), f"a first value: {feeder.errors()}")
            feeder.say("integer-value:3 71\ninteger-value:3 72\ninteger-value:2 62\n")
            told.want(until(lambda: it.number("integer-value:2") == 62), f"another object: {feeder.errors()}")
            told.same("what is held back", it.number(), 70)
            feeder.kill()
        with Running(folder, "alarm-feed", "--to", it.relay.to(), "--keep", folder / "kept") as feeder:
            told.same("the end of the next one", feeder.ended(), 0)
        told.same("what was held when it was killed", it.number(), 72)
        told.same("--settle where nothing is written", run("alarm-feed", "--curves", tooling.TOOLS / "school.curves", "--print", "--settle", 1)[0], 2)
        return it.relay.datagrams


def try_full_outbox(told, program, folder):
    """A value that an Abort 0 refuses is written again until there is room."""
    sections = [serving.device(outbox=64, apdu_timeout=200, retries=1), serving.of_class(7), *[serving.told_at(serving.free_port(), 7, True)] * 32, serving.tank(1, 7), serving.tank(2, 7)]
    site, journal = serving.blank(program, folder, *sections)
    port = serving.free_port()
    with Server(program, site, journal, port, MANY), Relay(port) as relay, Running(folder, "alarm-feed", "--to", relay.to(), "--json") as feeder:
        feeder.say("integer-value:1 90\ninteger-value:2 90\ninteger-value:1 50\n")
        told.want(until(lambda: "Abort 0" in feeder.errors()), f"no full outbox: {feeder.errors()!r}, {feeder.output()!r}")
        told.want(until(lambda: len(feeder.output().splitlines()) >= 3), f"it isn't written until there is room: {feeder.output()!r}")
        told.same("the feeder's end", feeder.ended(), 0)


# Metrics.


def metrics_of(text):
    """The metrics of a textfile by their names, each of which has its help and its type."""
    rows = dict(line.rsplit(" ", 1) for line in text.splitlines() if not line.startswith("#"))
    for name in rows:
        base = name.partition("{")[0]
        if not (f"# HELP {base} " in text and f"# TYPE {base} " in text):
            raise ValueError(f"{base} has no help or no type")
    return {name: float(value) for name, value in rows.items()}


def try_metrics(told, program, folder):
    with Plant(program, folder) as it:
        it.write("integer-value:1", "90")
        (folder / "journal-20260101T000000Z").write_bytes(b"")
        words = ["metrics", "--textfile", folder / "server.prom", "--journal", it.journal, "--site", it.site, "--copies", folder, "--given-up", "--program", program]
        told.same("metrics", it.client(*words)[0], 0)
        found = metrics_of((folder / "server.prom").read_text())
        wanted = {
            "alarm_server_up": 1, 'alarm_server_active_objects{state="high-limit"}': 1, 'alarm_server_active_objects{state="fault"}': 0,
            "alarm_server_unacknowledged_objects": 1, 'alarm_server_log_records{log="event-log:1"}': 1,
        }
        told.same("the metrics", {name: found.get(name) for name in wanted}, wanted)
        told.want(all(0 <= found[name] < 60 for name in ("alarm_server_last_event_seconds", "alarm_server_oldest_unacknowledged_seconds")), f"ages of {found}")
        told.want(found["alarm_server_journal_room_left_octets"] > 0, f"room of {found}")
        lost = run("alarm-client", "metrics", "--to", f"127.0.0.1:{it.port}", *QUICK)[1]
        told.same("datagrams lost at the server's own port", metrics_of(lost).get("alarm_server_datagrams_lost_total"), 0)
        it.kill()
        told.same("metrics without a server", (it.client(*words)[0], metrics_of((folder / "server.prom").read_text())["alarm_server_up"]), (0, 0))
        see_rules(told, set(name.partition("{")[0] for name in metrics_of(lost) | found))
        return it.relay.datagrams


def see_rules(told, known):
    """The rules for Prometheus name metrics that are written, and no others."""
    text = (tooling.TOOLS / "alarm-server.rules.yml").read_text(encoding="utf-8")
    named = set(re.findall(r"\balarm_(?:server|feed)_\w+", "\n".join(re.findall(r"expr: (.*)", text))))
    of_feed = {f"alarm_feed_{it}_total" for it in ("written", "refused", "full", "unanswered", "restored", "passed")}
    told.want(len(named) >= 6 and named <= known | of_feed, f"the rules name {sorted(named - known - of_feed)}")
    if not shutil.which("promtool"):
        told.skip("promtool isn't installed: the rules aren't read")
        return
    read = subprocess.run(["promtool", "check", "rules", tooling.TOOLS / "alarm-server.rules.yml"], capture_output=True, text=True, timeout=60, check=False)
    told.want(read.returncode == 0, f"promtool says {read.stdout}{read.stderr}")
