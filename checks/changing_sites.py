"""Random sites, random changes of them, and histories that are played to them in step, for checks/replay."""
import copy
import json
import re
import subprocess

import bacnet
import serving
from alarm_tools import names

START = serving.START
SECONDS = 120
TOOL, CLASSES = "10.0.0.20:47808", (7, 8)
KINDS = {"integer-value": "signed", "positive-integer-value": "unsigned", "multi-state-value": "unsigned"}


# Sites. A document is the sections of a text, each a list of items.


def draw_site(draw):
    """A site with one to five points, each of a class or of none, an enrollment or none, and a log."""
    document = {
        "device": [{"instance": 1001, "name": "Plant", "vendor": 999, "start": START, "outbox": 512, "retries": 1}],
        "class": [{"instance": it, "name": f"Class {it}", "priority": [10 + it, 20, 200], "ack_required": [True, draw.random() < 0.5, draw.random() < 0.3]} for it in CLASSES],
        "destination": [draw_destination(draw, it, 5 + it) for it in CLASSES], "object": [], "enrollment": [],
        "log": [{"instance": 1, "size": draw.choice([4, 40]), "classes": [7]}],
    }
    for instance in range(1, 2 + draw.randrange(5)):
        document["object"].append(draw_object(draw, instance))
    flow = {"kind": "positive-integer-value", "instance": 90, "value": 50}
    if draw.random() < 0.5:
        document["object"].append(flow)
        document["enrollment"].append({"instance": 1, "class": 8, "algorithm": "unsigned-range", "monitored": "positive-integer-value:90", "low": 20, "high": 80, "time_delay": draw.choice([0, 5])})
    return document


def draw_destination(draw, of_class, host):
    return {"class": of_class, "address": f"10.0.0.{host}:47808", "process": host, "confirmed": draw.random() < 0.7, "transitions": draw.choice(["111", "111", "101"])}


def draw_object(draw, instance):
    """A point of a kind, which begins as a rule without an alarm."""
    kind = draw.choice(["integer-value", "integer-value", "positive-integer-value", "binary-value", "multi-state-value"])
    value = {"binary-value": "inactive", "multi-state-value": 1}.get(kind, draw.choice([50, 50, 50, 90]))
    item = {"kind": kind, "instance": instance, "name": f"Point {instance}", "value": value}
    if kind == "multi-state-value":
        item["states"] = 5
    if draw.random() < 0.15:
        return item
    item |= {"class": draw.choice(CLASSES), "time_delay": draw.choice([0, 0, 5, 10])}
    if draw.random() < 0.3:
        item["time_delay_normal"] = draw.choice([0, 7])
    if draw.random() < 0.2:
        item["texts"] = ["High", "", "Well"]
    return item | {"binary-value": {"alarm_value": "active"}, "multi-state-value": {"alarm_values": [2, 3]}}.get(kind, {"low": 20, "high": 80, "deadband": draw.choice([0, 5])})


def text_of(document):
    lines = []
    for section, items in document.items():
        for item in items:
            lines += [f"[{section}]" if section == "device" else f"[[{section}]]", *(f"{key} = {json.dumps(value)}" for key, value in item.items()), ""]
    return "\n".join(lines).encode()


# Changes.


def change_nothing(draw, document):
    """Another text of the same site: comments, blank lines, another order of keys, and spaces."""
    lines = []
    for section, items in document.items():
        for item in items:
            keys = list(item.items())
            draw.shuffle(keys)
            lines += [f"# {draw.random()}", f"[{section}]" if section == "device" else f"[[{section}]]  # {section}", *(f"{key}{' ' * draw.randrange(3)}={json.dumps(value)}" for key, value in keys), ""]
    return "\n".join(lines).encode()


def change_limit(draw, document):
    found = [it for it in document["object"] if "high" in it]
    if found:
        draw.choice(found)[draw.choice(["high", "low", "deadband"])] = draw.choice([10, 30, 60, 75])


def change_delay(draw, document):
    found = [it for it in document["object"] if "class" in it]
    if found:
        draw.choice(found)["time_delay"] = draw.choice([0, 3, 20])


def change_flags(draw, document):
    found = [it for it in document["object"] if "class" in it]
    if found:
        key, value = draw.choice([("enable", "101"), ("inhibit", True), ("out_of_service", True), ("notify", "event"), ("time_delay_normal", 4), ("value", None)])
        item = draw.choice(found)
        item[key] = value if value is not None else {"binary-value": "active", "multi-state-value": 4}.get(item["kind"], 60)


def add_point(draw, document):
    document["object"].append(draw_object(draw, 50))


def remove_point(draw, document):
    found = [it for it in document["object"] if it["instance"] < 50]
    if len(found) > 1:
        document["object"].remove(draw.choice(found))


def change_recipients(draw, document):
    if draw.random() < 0.5:
        document["destination"].append(draw_destination(draw, draw.choice(CLASSES), 40))
    else:
        document["destination"].pop(draw.randrange(len(document["destination"])))


def change_class(draw, document):
    draw.choice(document["class"])[draw.choice(["priority", "priority"])] = [1, 2, 3]


def change_names(draw, document):
    draw.choice(document["object"])["name"] = "Another"


def change_log(draw, document):
    if draw.random() < 0.5:
        document["log"].append({"instance": 2, "size": 10, "classes": [8]})
    else:
        document["log"][0]["size"] = 7


def change_fault_limits(draw, document):
    found = [it for it in document["object"] if it["kind"] == "integer-value"]
    if found:
        draw.choice(found).update(fault_low=-10, fault_high=draw.choice([85, 120]))


CHANGES = [change_limit, change_delay, change_flags, add_point, remove_point, change_recipients, change_class, change_names, change_log, change_fault_limits]


def change(draw, document):
    """The text of a changed site, and which changes it has."""
    changed, done = copy.deepcopy(document), []
    for call in draw.sample(CHANGES, draw.choice([1, 1, 2, 3])):
        call(draw, changed)
        done.append(call.__name__)
    return text_of(changed), done


# Sessions.


def play(program, site, kept, lines):
    """What a session tells of lines: of each its head, its changes, and its datagrams. It has to end well."""
    script = "".join(f"{line}\n" for line in lines).encode()
    ended = subprocess.run([program, "session", str(site), str(kept)], input=script, capture_output=True, timeout=SECONDS, check=False)
    bacnet.want(ended.returncode == 0 and not ended.stderr, f"a session ended with {ended.returncode}, {ended.stderr[-300:]!r}")
    blocks = {}
    for line in ended.stdout.decode().splitlines():
        found = re.match(r"([0-9]+) (.*)", line)
        if not found:
            continue
        block = blocks.setdefault(int(found[1]), ([], [], []))
        words = found[2].split()
        if words[0] == "change":
            block[1].append(tuple(words[1:]))
        elif words[0] == "send":
            block[2].append((words[1], bytes.fromhex(words[2])))
        else:
            block[0].extend(words)
    return [blocks[it] for it in sorted(blocks)]


class History:
    """A history of a site, played in rounds: each answers, acknowledges and edits by what the one before it sent."""

    def __init__(self, program, folder, document, draw):
        self.program, self.draw, self.document = program, draw, document
        self.site, self.kept = folder / "old.toml", folder / "old"
        self.site.write_bytes(text_of(document))
        serving.make_journal(program, self.site, self.kept)
        self.moment, self.entered, self.moves, self.waiting = START + 1000, [], [], []

    def rounds(self, count, each):
        for _ in range(count):
            lines = [it for _ in range(each) for it in self.some()]
            if self.draw.random() < 0.4:
                lines.append(self.edit())
            self.give([line for it in lines for line in (it, f"tick {self.moment_of(it)}")])
        return self

    @staticmethod
    def moment_of(line):
        return line.split()[1]

    def give(self, lines):
        for line, (head, changes, sends) in zip(lines, play(self.program, self.site, self.kept, lines)):
            self.entered += [line] if head[0] == "entered" else []
            self.moves += [(int(head[2]), *it) for it in changes]
            for peer, datagram in sends:
                if datagram[6] >> 4 == 0:
                    message = bacnet.read(datagram)
                    if message.number == bacnet.CONFIRMED_EVENT_NOTIFICATION:
                        self.waiting.append((peer, message.invoke, bacnet.notification_of(message)))

    def next(self):
        self.moment += self.draw.choice([0, 200, 1000, 1000, 4000, 9000])
        return self.moment

    def some(self):
        """The lines of one happening."""
        pick, moment = self.draw.random(), self.next()
        if pick < 0.2 and self.waiting:
            peer, invoke, told = self.waiting.pop(0)
            yield f"from {moment} {peer} {bacnet.simple_ack(invoke, bacnet.CONFIRMED_EVENT_NOTIFICATION).hex()}"
            if told.notify_type != bacnet.ACKNOWLEDGED and self.draw.random() < 0.6:
                yield f"from {self.next()} {TOOL} {bacnet.acknowledge_alarm(1, 1, told.object, told.to_state, told.stamp, told.stamp).hex()}"
        elif pick < 0.4:
            yield f"pump {moment}"
        elif pick < 0.5:
            yield f"tick {moment}"
        else:
            yield self.write(moment, self.draw.choice(self.document["object"]))

    def write(self, moment, item):
        of = f"{item['kind']}:{item['instance']}"
        pick = self.draw.random()
        if pick < 0.08:
            return f"fault {moment} {of} {self.draw.choice([0, 0, 7])}"
        if pick < 0.14 and "high" in item:
            number = names.OBJECT_NUMBERS[item["kind"]]
            value = bacnet.application(bacnet.SIGNED if number == 45 else bacnet.UNSIGNED, self.draw.choice([70, 80]))
            return f"from {moment} {TOOL} {bacnet.write_property(2, (number, item['instance']), 45, value).hex()}"
        if item["kind"] == "binary-value":
            return f"set {moment} {of} {self.draw.choice(['active', 'inactive'])}"
        value = self.draw.choice([1, 2, 3, 4, 5] if item["kind"] == "multi-state-value" else [5, 50, 72, 78, 82, 90, 130])
        return f"set {moment} {of} {KINDS[item['kind']]}:{value}"

    def edit(self):
        """A workstation that enters itself, or goes."""
        of = bacnet.Destination("1111111", bytes(4), bytes([23, 59, 59, 99]), (0, bytes([10, 0, 0, 30, 0xBA, 0xC0])), 9, False, "111")
        service = self.draw.choice([bacnet.ADD_LIST_ELEMENT, bacnet.REMOVE_LIST_ELEMENT])
        return f"from {self.next()} {TOOL} {bacnet.edit_list(3, service, (15, 7), bacnet.RECIPIENT_LIST, bacnet.destination(of)).hex()}"
