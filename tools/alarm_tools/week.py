"""Who is told when: the windows of destinations, as a week of times of the day."""
from . import names
from .site_keys import TIME

DAY = 8_640_000


def hundredths(text):
    hour, minute, second, hundredth = map(int, TIME.fullmatch(text).groups())
    return ((hour * 60 + minute) * 60 + second) * 100 + hundredth


def window(destination):
    """From when to before when in the day a destination is told, in hundredths of a second. It is empty where `from` is behind `to`."""
    return hundredths(destination["from"]), hundredths(destination["to"]) + 1


def is_never(destination):
    begin, end = window(destination)
    return begin >= end or "1" not in destination["days"] or "1" not in destination["transitions"]


def rows_of(destinations, transition, of):
    """The week by rows: each from when, to before when, and for each day what `of` says of those destinations that are told of a transition."""
    told = [it for it in destinations if it["transitions"][transition] == "1" and not is_never(it)]
    bounds = sorted({0, DAY} | {bound for it in told for bound in window(it)})
    rows = []
    for begin, end in zip(bounds, bounds[1:]):
        cells = []
        for day in range(7):
            cells.append(of([it for it in told if it["days"][day] == "1" and window(it)[0] <= begin < window(it)[1]]))
        if rows and rows[-1][2] == cells:
            rows[-1] = (rows[-1][0], end, cells)
        else:
            rows.append((begin, end, cells))
    return rows


def time_text(number):
    """A time of the day, as 06:00, or with its seconds where it has some; the end of the day is 24:00. The hundredth behind an end isn't told."""
    seconds, rest = divmod(number - (number % 100 == 1), 100)
    text = f"{seconds // 3600:02}:{seconds // 60 % 60:02}"
    return text + (f":{seconds % 60:02}" if seconds % 60 or rest else "") + (f".{rest:02}" if rest else "")


def days_text(flags):
    """Days as a text, those in a row together: Mon to Fri, Sun."""
    runs, day = [], 0
    while day < 7:
        if flags[day]:
            end = day
            while end < 6 and flags[end + 1]:
                end += 1
            first, last = names.DAYS[day][:3], names.DAYS[end][:3]
            runs.append(first if day == end else f"{first} and {last}" if end == day + 1 else f"{first} to {last}")
            day = end
        day += 1
    return "every day" if all(flags) else ", ".join(runs)


def gaps(destinations, transition):
    """When nobody is told of a transition, as texts."""
    found = []
    for begin, end, cells in rows_of(destinations, transition, bool):
        flags = [not it for it in cells]
        if any(flags):
            found.append((flags, begin, end))
    merged = []
    for flags in dict.fromkeys(tuple(it[0]) for it in found):
        spans = [(begin, end) for it, begin, end in found if tuple(it) == flags]
        joined = [list(spans[0])]
        for begin, end in spans[1:]:
            if begin == joined[-1][1]:
                joined[-1][1] = end
            else:
                joined.append([begin, end])
        times = " and ".join(f"{time_text(begin)} to {time_text(end)}" for begin, end in joined)
        merged.append(days_text(flags) + ("" if joined == [[0, DAY]] else f" {times}"))
    return merged
