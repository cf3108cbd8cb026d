"""Objects as people name them: KIND:INSTANCE, or an object's own name, which the server or a site's text tells."""
import difflib
import json
import time

from . import glance, names, words
from .client import NoAnswer, Refusal

# How long is waited before a server that doesn't answer is asked for names again, in seconds.
AGAIN = 1.0


def nearest(text, known):
    """What stands behind a name that nobody has: the nearest ones that are there."""
    found = difflib.get_close_matches(text.casefold(), {it.casefold(): it for it in known}, 3, 0.5)
    told = [it for it in dict.fromkeys(known) if it.casefold() in found][:3]
    return f"; the nearest names are {', '.join(json.dumps(it, ensure_ascii=False) for it in told)}" if told else ""


def named_in(text, table, kind=None):
    """The object of a name in a table of names by objects. It may differ in capitals, where one object alone is called so."""
    same = [of for of, name in table.items() if name == text] or [of for of, name in table.items() if name and name.casefold() == text.casefold()]
    if len(same) == 1:
        return same[0]
    if same:
        raise ValueError(f"{text!r} is the name of {' and '.join(map(names.object_text, sorted(same)))}: one of these is wanted")
    wanted = f"its instance is wanted, as {kind}:7, or its name" if kind else "KIND:INSTANCE is wanted, as integer-value:3, or an object's name"
    raise ValueError(f"{text!r} is no {kind or 'object'}: {wanted}{nearest(text, [it for it in table.values() if it])}")


def table_of(asked, kind=None):
    """The names of all objects of a server, or of those of one kind."""
    objects = [of for of in asked.objects() if kind is None or of[0] == names.OBJECT_NUMBERS[kind]]
    asked.learn_names(objects)
    return {of: asked.names[of] for of in objects}


def object_of(asked, text, kind=None):
    """The object that a word names, at a server. Of a kind, where one is given, its instance alone will do."""
    if kind and text.isdigit():
        return names.object_from(f"{kind}:{int(text)}")
    try:
        found = names.object_from(text)
    except ValueError:
        found = named_in(text, table_of(asked, kind), kind)
    if kind and found[0] != names.OBJECT_NUMBERS[kind]:
        raise ValueError(f"{text!r} is no {kind}")
    return found


def wanted_object(asked, text, kind=None):
    """The same, where a word that names none ends the tool."""
    try:
        return object_of(asked, text, kind)
    except ValueError as error:
        raise words.Ends(words.USAGE, str(error)) from None


def split(line):
    """The first word of a line and the rest of it. A word may be a name in quotes, with a backslash before a quote of its own."""
    line = line.strip()
    if not line.startswith('"'):
        first, _, rest = line.partition(" ")
        return first, rest
    try:
        name, end = json.JSONDecoder().raw_decode(line)
    except ValueError:
        raise ValueError(f"{line!r} begins with a quote that isn't closed") from None
    return name, line[end:].removeprefix(" ")


class Finder:
    """Finds objects by words: by the names of a site's text, or by those of a server, which is asked once one is wanted and waited for."""

    def __init__(self, path, make_client, say):
        self.make_client, self.say, self.table = make_client, say, None
        if path:
            with words.opened(path, "rb") as file:
                self.table = glance.glance(file.read()).names
        self.is_of_site = self.table is not None

    def find(self, text):
        """The object that a word names. A name that isn't known may be that of a server that has changed, which is asked anew."""
        try:
            return names.object_from(text)
        except ValueError:
            if self.table is None or not self.is_of_site and text not in self.table.values():
                self.table = self.asked_for_names()
            return named_in(text, self.table)

    def asked_for_names(self):
        """The names of all objects of the server, once it answers."""
        told = False
        with self.make_client() as asked:
            while True:
                try:
                    return table_of(asked)
                except (NoAnswer, Refusal) as fault:
                    if not told:
                        self.say(f"{fault}; names are asked for until somebody answers")
                    told = True
                    time.sleep(AGAIN)
