"""The console's page in the terminal: the active alarms, refreshed, chosen by keys, and acknowledged by one."""
import curses
import threading
import time

from . import alarms, filters, frequent, words
from .language import say

HELP = "up, down: choose   a: acknowledge   /: text   c s p w: class, state, priority, waiting   n: new, l: looked   b: bell   t: ten   q: end"
MARKS = {"high-limit": "^", "low-limit": "v", "offnormal": "#", "fault": "F", "normal": "."}
# The priorities that the key p goes through: up to each.
PRIORITIES = (None, 31, 63, 95, 127, 191)


def show(watch, every, by, bell=False):
    """Shows the page until it is ended by its key."""
    curses.wrapper(lambda screen: Page(screen, watch, by, bell).run(every))


class Page:
    """The page, on a screen of curses."""

    def __init__(self, screen, watch, by, bell):
        self.screen, self.watch, self.by, self.bell = screen, watch, by, bell
        self.chosen, self.said, self.top = None, "", 0
        self.filter, self.new, self.looked, self.rung, self.typing, self.ten = filters.Filter(), False, 0, 0, None, False
        self.colours = {}
        curses.curs_set(0)
        if curses.has_colors():
            curses.use_default_colors()
            for number, (name, colour) in enumerate([("red", curses.COLOR_RED), ("yellow", curses.COLOR_YELLOW)], 1):
                curses.init_pair(number, colour, -1)
                self.colours[name] = curses.color_pair(number)

    def run(self, every):
        self.screen.timeout(250)
        stop = threading.Event()
        threading.Thread(target=self.watch.go_on, args=(every, stop), daemon=True).start()
        while True:
            state = self.watch.state()
            shown = self.passed(state["alarms"])
            self.ring(state["alarms"])
            self.draw(state, shown)
            key = self.screen.getch()
            if self.typing is not None:
                self.type(key)
            elif key == ord("q"):
                stop.set()
                return
            else:
                self.take(key, shown, state)

    def passed(self, found):
        """The alarms that are chosen."""
        return [it for it in filters.passed(self.filter, found) if not self.new or it.get("number", 0) > self.looked]

    def ring(self, found):
        """Rings for each alarm that is new and waits, where the bell is on."""
        newest = max((it.get("number", 0) for it in found if it["active"] and it["unacknowledged"]), default=0)
        if self.bell and newest > self.rung:
            curses.beep()
        self.rung = max(self.rung, newest)

    def type(self, key):
        """Takes a letter of the text that is looked for: Enter ends it, Escape forgets it."""
        if key in (curses.KEY_ENTER, 10, 13, 27):
            self.typing = None
            self.filter = self.filter if key != 27 else self.filter._replace(text="")
        elif key in (curses.KEY_BACKSPACE, 127, 8):
            self.typing = self.typing[:-1]
        elif 32 <= key < 256:
            self.typing += bytes([key])
        if self.typing is not None:
            self.filter = self.filter._replace(text=self.typing.decode("utf-8", "ignore"))

    def take(self, key, shown, state):
        """Does what a key says."""
        place = self.place(shown)
        step = {curses.KEY_UP: -1, ord("k"): -1, curses.KEY_DOWN: 1, ord("j"): 1, curses.KEY_PPAGE: -10, curses.KEY_NPAGE: 10}.get(key)
        if step and shown:
            self.chosen = shown[max(0, min(len(shown) - 1, place + step))]["object"]
        elif key in (ord("a"), curses.KEY_ENTER, 10) and shown:
            self.said, _ = self.watch.acknowledge(shown[place]["object"], self.by)
        elif key == ord("/"):
            self.typing = b""
        elif key == ord("l"):
            self.looked = state["last"]
        elif key in (ord("n"), ord("t"), ord("b")):
            name = {ord("n"): "new", ord("t"): "ten", ord("b"): "bell"}[key]
            setattr(self, name, not getattr(self, name))
            self.said = say("bell on" if self.bell else "bell off") if key == ord("b") else self.said
        else:
            self.choose(key, state["alarms"])

    def choose(self, key, found):
        """The next class, state or priority, or what waits alone."""
        classes = [None, *sorted({it["class"] for it in found if it["class"] is not None})]
        if key == ord("c"):
            self.filter = self.filter._replace(classes=one_of(behind(classes, first_of(self.filter.classes))))
        elif key == ord("s"):
            self.filter = self.filter._replace(states=one_of(behind([None, *filters.STATES], first_of(self.filter.states))))
        elif key == ord("p"):
            most = behind(PRIORITIES, self.filter.priorities and self.filter.priorities[1])
            self.filter = self.filter._replace(priorities=None if most is None else (0, most))
        elif key == ord("w"):
            self.filter = self.filter._replace(waiting=not self.filter.waiting)

    def chosen_text(self, shown, found):
        """Which alarms are shown, where not all are."""
        parts = [say("class {}", it) for it in self.filter.classes] + [say(it) for it in self.filter.states]
        parts += [say("priority up to {}", self.filter.priorities[1])] if self.filter.priorities else []
        parts += [say("to be acknowledged alone")] * self.filter.waiting + [say("since I looked")] * self.new
        parts += [say("text: {}", self.filter.text)] if self.filter.text or self.typing is not None else []
        return say("{} of {} pass", len(shown), len(found)) + f": {', '.join(parts)}" if parts else ""

    def place(self, found):
        """Where the chosen object stands; the first one where it is gone."""
        return next((place for place, it in enumerate(found) if it["object"] == self.chosen), 0)

    def put(self, line, text, how=0):
        height, width = self.screen.getmaxyx()
        if 0 <= line < height:
            self.screen.addnstr(line, 0, words.printable(text).ljust(width - 1), width - 1, how)

    def draw(self, state, shown):
        self.screen.erase()
        height, _ = self.screen.getmaxyx()
        age = None if state["as_of"] is None else max(0, round(time.time() - state["as_of"]))
        count = f"   {alarms.count_text(state['alarms'])}   {say('asked {} s ago', age)}" if age is not None else ""
        self.put(0, f"{state['device'] or say('the server')} at {state['where']}{count}", curses.A_BOLD)
        if state["error"]:
            told = say("NO ANSWER yet. {}", state["error"]) if age is None else say("NO ANSWER: what is shown was told {} s ago. {}", age, state["error"])
            self.put(1, told, curses.A_REVERSE)
        else:
            self.put(1, self.chosen_text(shown, state["alarms"]))
        if self.ten:
            self.draw_ten(2)
        elif state["as_of"]:
            self.draw_rows(shown, 2, height - 4)
        self.put(height - 2, self.said)
        self.put(height - 1, say(HELP), curses.A_DIM)
        self.screen.refresh()

    def draw_ten(self, first):
        """The objects that came to an alarm most often in a week."""
        self.put(first, say("the most frequent in {} days (t: back)", frequent.DAYS), curses.A_UNDERLINE)
        rows, since = self.watch.most or ([], None)
        lines = words.lined_up([[it["times"], it["last"][:19], it["object"], it["name"] or ""] for it in rows]) if rows else [say("no alarm came in {} days", frequent.DAYS)]
        lines += [say("the logs tell of all since {}", since[:19])] if since else []
        for number, line in enumerate(lines, first + 1):
            self.put(number, line)

    def draw_rows(self, found, first, room):
        """As many alarms as there is room for, the chosen one among them."""
        place = self.place(found) if found else 0
        self.top = max(0, min(self.top, place), place - room + 2)
        head, cells = alarms.rows_of(found)
        rows = [["*" if it.get("number", 0) > self.looked > 0 else "", MARKS[it["state"]], *row] for it, row in zip(found, cells)]
        lines = words.lined_up([["", "", *head], *rows]) if rows else ["", alarms.count_text([])]
        self.put(first, lines[0], curses.A_UNDERLINE if rows else 0)
        for number, line in enumerate(lines[1 + self.top : room + self.top], self.top):
            how = self.how(found[number]) if rows else 0
            self.put(first + 1 + number - self.top, line, how | (curses.A_REVERSE if rows and number == place else 0))

    def how(self, alarm):
        colour = alarms.colour_of(alarm)
        return self.colours.get(colour, 0) | (curses.A_BOLD if alarm["unacknowledged"] else 0)


def behind(rows, one):
    """What stands behind one of several, the first behind the last."""
    return rows[(rows.index(one) + 1) % len(rows)] if one in rows else rows[0]


def first_of(found):
    return next(iter(found), None)


def one_of(found):
    """A set of one, or an empty one of None."""
    return frozenset() if found is None else frozenset([found])
