"""Local time of a site: a clock that stands some minutes ahead of UTC, or follows a zone rule (docs/SITE.md). Moments are milliseconds since 1970."""
import calendar
import datetime
import re

NAME = r"(?:<[A-Za-z0-9+-]{3,15}>|[A-Za-z]{3,15})"
OFFSET = r"(?P<{0}>[+-]?\d{{1,2}}(?::\d\d(?::\d\d)?)?)"
DAY = r"(?P<{0}>M\d{{1,2}}\.[1-5]\.[0-6]|J\d{{1,3}}|\d{{1,3}})(?:/(?P<{0}_time>[+-]?\d{{1,3}}(?::\d\d(?::\d\d)?)?))?"
RULE = re.compile(
    NAME + OFFSET.format("standard") + r"(?:" + NAME + r"(?:" + OFFSET.format("daylight") + r")?," + DAY.format("start") + ","
    + DAY.format("end") + r")?"
)


def seconds_of(text):
    """Seconds of H, H:MM or H:MM:SS, with or without a sign."""
    sign = -1 if text.startswith("-") else 1
    hours, minutes, seconds = (list(map(int, text.lstrip("+-").split(":"))) + [0, 0])[:3]
    if minutes > 59 or seconds > 59:
        raise ValueError(f"{text} is no time")
    return sign * (3600 * hours + 60 * minutes + seconds)


def day_in(year, day):
    """The day of a year that a rule names, as midnight in seconds since 1970."""
    if day[0] == "M":
        month, week, weekday = map(int, day[1:].split("."))
        first, days = calendar.monthrange(year, month)
        of_month = 1 + (weekday - 1 - first) % 7 + 7 * (week - 1)
        return calendar.timegm((year, month, of_month if of_month <= days else of_month - 7, 0, 0, 0))
    number = int(day.lstrip("J"))
    if day[0] == "J":
        number += calendar.isleap(year) and number >= 60
        number -= 1
    return calendar.timegm((year, 1, 1, 0, 0, 0)) + 86400 * number


class Zone:
    """A clock by its zone rule, or by how many minutes it stands ahead of UTC all year."""

    def __init__(self, minutes=0, rule=None):
        self.rule, self.daylight = rule, None
        self.standard = 60 * minutes
        if rule is None:
            return
        found = RULE.fullmatch(rule)
        if not found or len(rule) > 64:
            raise ValueError(f"{rule!r} is no zone rule")
        self.standard = -seconds_of(found["standard"])
        if found["start"]:
            self.daylight = -seconds_of(found["daylight"]) if found["daylight"] else self.standard + 3600
            self.times = [(found[name], seconds_of(found[f"{name}_time"] or "2")) for name in ("start", "end")]
            self.window(2024)
        if max(abs(self.standard), abs(self.daylight or 0)) > 26 * 3600 - 1:
            raise ValueError(f"{rule!r} has an offset of more than a day")

    def window(self, year):
        """From when to when daylight saving time is in force in a year, in seconds at UTC."""
        (start, start_time), (end, end_time) = self.times
        for day in (start, end):
            month = int(day[1:].split(".")[0]) if day[0] == "M" else 1
            number = 1 if day[0] == "M" else int(day.lstrip("J"))
            if not 1 <= month <= 12 or number > 365 or day == "J0":
                raise ValueError(f"{self.rule!r} names a day that isn't there")
        return day_in(year, start) + start_time - self.standard, day_in(year, end) + end_time - self.daylight

    def ahead(self, moment):
        """How many seconds the clock stands ahead of UTC at a moment."""
        if self.daylight is None:
            return self.standard
        seconds = moment // 1000
        start, end = self.window((datetime.datetime(1970, 1, 1) + datetime.timedelta(seconds=seconds)).year)
        within = start <= seconds < end if start <= end else not end <= seconds < start
        return self.daylight if within else self.standard

    def text(self, moment):
        """The date and time that the clock shows, with how far it is ahead of UTC, as 2024-01-13T02:30:00.000+01:00."""
        ahead = self.ahead(moment)
        shown = datetime.datetime(1970, 1, 1) + datetime.timedelta(milliseconds=moment + 1000 * ahead)
        sign, (hours, minutes) = "-" if ahead < 0 else "+", divmod(abs(ahead) // 60, 60)
        return f"{shown.isoformat(timespec='milliseconds')}{sign}{hours:02}:{minutes:02}"

    def shown(self, moment):
        """The date and time that the clock shows, as people read it: 2024-01-13 02:30:00."""
        return (datetime.datetime(1970, 1, 1) + datetime.timedelta(milliseconds=moment + 1000 * self.ahead(moment))).strftime("%Y-%m-%d %H:%M:%S")

    def moment(self, shown):
        """The moment at which the clock showed a date and time, a datetime without a zone: of two the earlier one."""
        wall = 1000 * calendar.timegm(shown.timetuple()) + shown.microsecond // 1000
        offsets = sorted({self.standard, self.standard if self.daylight is None else self.daylight}, reverse=True)
        for ahead in offsets:
            if self.ahead(wall - 1000 * ahead) == ahead:
                return wall - 1000 * ahead
        return wall - 1000 * self.standard


class MachineZone(Zone):
    """The clock of this machine, by its own zone."""

    def ahead(self, moment):
        return int(datetime.datetime.fromtimestamp(moment / 1000).astimezone().utcoffset().total_seconds())

    def moment(self, shown):
        return round(shown.timestamp() * 1000)


def datetime_of(stamp):
    """The date and time of the eight octets of a stamp."""
    year, month, day, _, hour, minute, second, hundredth = stamp
    return datetime.datetime(year + 1900, month, day, hour, minute, second, 10_000 * hundredth)


def moment_from(text, zone):
    """The moment that a word names: milliseconds since 1970, a date and time of the zone's clock, or a length of time ago as 90m, 12h, 3d."""
    if re.fullmatch(r"\d{10,}", text):
        return int(text)
    if found := re.fullmatch(r"(\d+)([smhd])", text):
        now = datetime.datetime.now(datetime.timezone.utc).timestamp()
        return int((now - int(found[1]) * {"s": 1, "m": 60, "h": 3600, "d": 86400}[found[2]]) * 1000)
    try:
        read = datetime.datetime.fromisoformat(text)
    except ValueError:
        raise ValueError(f"{text!r} is no moment: 2024-01-13T02:30, 1705109400000 or 12h are") from None
    if read.tzinfo:
        return int(read.timestamp() * 1000)
    return zone.moment(read)
