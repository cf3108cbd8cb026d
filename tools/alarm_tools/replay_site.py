"""Two texts of a site: what of the new one is held back while the past is played, and what it is that can't be.

Held is what can be written over the network: the keys of objects, whether a log takes records, and the lists of recipients.
Each changed key begins with its old value, each new object with a class is inhibited, each new log is off, and each list is the
old one; at the moment of the change they are let go. A key that can't be written holds for the past too.
"""
import collections

from . import names, octets, replay_lines, site_text

# The keys that can be written: the property, and the type of its value, None where that is the kind's.
KEYS = {
    "out_of_service": (81, octets.BOOLEAN), "reliability_inhibit": (357, octets.BOOLEAN), "time_delay": (113, octets.UNSIGNED),
    "time_delay_normal": (356, octets.UNSIGNED), "high": (45, None), "low": (59, None), "deadband": (25, octets.UNSIGNED), "limit_enable": (52, octets.BITS),
    "alarm_value": (6, octets.ENUMERATED), "enable": (35, octets.BITS), "inhibit": (354, octets.BOOLEAN), "value": (85, None),
}
OF_ENROLLMENTS = ("enable", "inhibit")
LOG_ENABLE = 133
INHIBIT = KEYS["inhibit"][0]
TYPES = {45: octets.SIGNED, 48: octets.UNSIGNED, 5: octets.ENUMERATED, 19: octets.UNSIGNED, 39: octets.BITS, 40: octets.TEXT}
# What an item has that isn't a key of it.
BESIDE = ("section", "number", "line", "object")
# What nothing of the past tells of, so that another one is no other past.
NAMES = ("name", "vendor")
# A key that two texts have differently: the object, the key, its property, the value of each, and the element of each.
Change = collections.namedtuple("Change", "object key property before after old new")


def key_word(key, item):
    """A key as it is told: the property where it is one, as high-limit."""
    if item["section"] == "log" and key == "enable":
        return "enable"
    return names.PROPERTIES[KEYS[key][0]] if key in keys_of(item) and key != "value" else key.replace("_", "-")


def keys_of(item):
    """The keys of an item that can be written."""
    return {"enrollment": OF_ENROLLMENTS, "log": ("enable",), "object": tuple(KEYS)}.get(item["section"], ())


def element(item, key, value):
    """A value of a key as the element that is written."""
    if item["section"] == "log":
        return octets.boolean(value)
    tag = KEYS[key][1] if KEYS[key][1] is not None else TYPES[item["object"][0]]
    return octets.application(tag, {"inactive": 0, "active": 1}[value] if tag == octets.ENUMERATED else value)


def value_of(item, key):
    """The value of a key: a delay to normal that isn't given is the other one."""
    found = item.get(key)
    return item.get("time_delay") if key == "time_delay_normal" and found is None else found


class Texts:
    """The old and the new text of a site, read."""

    def __init__(self, old_text, new_text):
        self.old, self.new = site_text.read(old_text), site_text.read(new_text)
        self.rows = [{it["object"]: it for it in site_text.identified(of)} for of in (self.old, self.new)]
        self.names = [site_text.names_in(it) for it in (self.old, self.new)]
        self.lists = [lists_of(it) for it in (self.old, self.new)]

    def name(self, of):
        return self.names[1].get(of, self.names[0].get(of))

    def named(self, of):
        """An object with its name, as the tools tell it."""
        text, name = names.object_text(of), self.name(of)
        return {"object": text, "name": None if name == text else name}

    def both(self):
        """Each item that both texts have, old and new."""
        for of in sorted(set(self.rows[0]) & set(self.rows[1])):
            yield self.rows[0][of], self.rows[1][of]

    def alone(self, which):
        """The identifiers that one of the texts has alone: 0 is what is gone, 1 what is new."""
        return sorted(set(self.rows[which]) - set(self.rows[1 - which]))

    def changed(self):
        """Each key that can be written, and that the texts have differently."""
        for before, after in self.both():
            for key in keys_of(after):
                if not self.is_written(before, after, key):
                    continue
                if value_of(before, key) != value_of(after, key):
                    yield self.change_of((after["object"], key))

    def change_of(self, asked):
        """The key of an object whose text's value is asked for: `asked` names both, the key by its word or its property."""
        of, word = asked
        item, old = self.rows[1].get(of), self.rows[0].get(of)
        for key in keys_of(item) if item and old else ():
            if word in (key, key.replace("_", "-"), names.PROPERTIES[LOG_ENABLE if item["section"] == "log" else KEYS[key][0]]) and self.is_written(old, item, key):
                prop = LOG_ENABLE if item["section"] == "log" else KEYS[key][0]
                before, after = value_of(old, key), value_of(item, key)
                return Change(of, key, prop, before, after, element(old, key, before), element(item, key, after))
        raise ValueError(f"{names.object_text(of)}.{word} is no key that can be written, of both texts")

    def rewrites(self):
        """Whether the new text has what holds for the past too, so that its notifications may be others."""
        return any(past for *_, past in self.others()) or bool(self.alone(1))

    @staticmethod
    def is_written(before, after, key):
        """Whether a key of an item of both texts is a property that can be written, by both of them."""
        if value_of(before, key) is None or after.get(key) is None:
            return False
        return key != "inhibit" or not (before.get("inhibit_ref") or after.get("inhibit_ref"))

    def follows(self):
        """The objects whose delay to normal is one of its own only now: until then it is the other delay, whatever is written to that."""
        return {after["object"] for before, after in self.both() if "time_delay_normal" in after and after["time_delay_normal"] is not None
                and before.get("time_delay_normal") is None and before.get("time_delay") is not None}

    def new_alarms(self):
        """What is in alarm only from now on: new objects and enrollments with a class, and those that had none."""
        for of, item in sorted(self.rows[1].items()):
            had = self.rows[0].get(of)
            is_new = item.get("class") is not None and item["section"] != "destination" and (had is None or had.get("class") is None)
            if is_new and not item.get("inhibit_ref") and not item.get("inhibit"):
                yield of

    def new_logs(self):
        return [of for of in self.alone(1) if self.rows[1][of]["section"] == "log" and self.rows[1][of]["enable"]]

    def list_changes(self, which):
        """The elements of the lists of classes of both texts that one of them has alone: 0 is who is gone, 1 who comes."""
        for of, elements in sorted(self.lists[which].items()):
            alone = [it for it in elements if it not in self.lists[1 - which].get(of, [])]
            if alone and all((15, of) in rows for rows in self.rows):
                yield of, alone

    def others(self):
        """Each key that the texts have differently and that isn't held: its item, the key, the value of each text, and whether it holds for the past too."""
        for before, after in self.both():
            if (before.get("class") is None) != (after.get("class") is None):
                yield after, "class", before.get("class"), after.get("class"), after.get("class") is None
                continue
            for key in sorted(set(before) | set(after)):
                if key in BESIDE or before.get(key) == after.get(key):
                    continue
                same = value_of(before, key) == value_of(after, key)
                if key not in keys_of(after) or not self.is_written(before, after, key) or same:
                    yield after, key, before.get(key), after.get(key), not same and key not in NAMES


def lists_of(site):
    """The recipients of each class of a text, as elements."""
    found = {it["instance"]: [] for it in site.classes}
    for it in site.destinations:
        found[it["class"]].append(replay_lines.destination(it | {"peer": it["address"]}))
    return found


def recipient(of):
    """An element of a list in words: its address and its process."""
    found = octets.destinations_of(octets.elements(of))[0]
    station = found.address[1]
    return f"{'.'.join(map(str, station[:4]))}:{int.from_bytes(station[4:], 'big')} process {found.process}"
