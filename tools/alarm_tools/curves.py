"""A plant that is made up: curves of values over time, from a text, for trying and for training."""
import collections
import random
import re

from . import finding, names, values

# A curve: its object, after how many seconds it begins anew (None: it stays at its last point), how far it wavers, and its points.
Curve = collections.namedtuple("Curve", "object repeat noise points")
LINE = re.compile(r"(\"(?:[^\"\\]|\\.)*\"|\S+)((?: +(?:repeat|noise) +\d+(?:\.\d+)?)*) *: *(.+)")
NUMBERS = ("integer-value", "positive-integer-value")
SPELLED = {
    "integer-value": "signed:{}", "positive-integer-value": "unsigned:{}", "multi-state-value": "unsigned:{}", "bitstring-value": "bits:{}",
    "binary-value": "{}",
}


def read(lines, find=names.object_from):
    """The curves of a text. `find` gives the object of a word. A line that is none is a ValueError with its number."""
    found = []
    for number, line in enumerate(lines, 1):
        line = line.strip()
        if not line or line.startswith("#"):
            continue
        try:
            found.append(curve_of(line, find))
        except ValueError as error:
            raise ValueError(f"line {number}: {error}") from None
    return found


def curve_of(line, find):
    """OBJECT [repeat SECONDS] [noise N]: SECONDS VALUE, SECONDS VALUE .."""
    parts = LINE.fullmatch(line)
    if not parts:
        raise ValueError("KIND:INSTANCE [repeat SECONDS] [noise N]: SECONDS VALUE, .. is wanted")
    of, keys = find(finding.split(parts[1])[0]), dict(re.findall(r"(repeat|noise) +(\S+)", parts[2]))
    points = []
    for text in parts[3].split(","):
        at, _, word = text.strip().partition(" ")
        if not re.fullmatch(r"\d+(?:\.\d+)?", at) or not word.strip():
            raise ValueError(f"{text.strip()!r} is no point: SECONDS VALUE is wanted")
        values.element_from(of, 85, word.strip())
        points.append((float(at), word.strip()))
    if [at for at, _ in points] != sorted(at for at, _ in points):
        raise ValueError("the points have to ascend")
    repeat = float(keys["repeat"]) if "repeat" in keys else None
    if repeat is not None and repeat <= 0:
        raise ValueError("repeat wants more than 0 seconds")
    return Curve(of, repeat, int(float(keys.get("noise", 0))), points)


def value_at(curve, seconds):
    """The value of a curve at a time, as a word: between two points of numbers on the line between them."""
    at = seconds % curve.repeat if curve.repeat else seconds
    before = max((it for it in curve.points if it[0] <= at), default=curve.points[0], key=lambda it: it[0])
    behind = min((it for it in curve.points if it[0] > at), default=before, key=lambda it: it[0])
    if names.named(names.OBJECT_TYPES, curve.object[0]) not in NUMBERS:
        return before[1]
    low, high = int(before[1]), int(behind[1])
    share = 0 if behind[0] <= before[0] else max(0, at - before[0]) / (behind[0] - before[0])
    wavers = random.Random(f"{curve.object} {int(seconds)}").randint(-curve.noise, curve.noise) if curve.noise else 0
    number = round(low + (high - low) * share) + wavers
    return str(max(0, number) if names.OBJECT_TYPES[curve.object[0]] == "positive-integer-value" else number)


def changes(curves, every, length=None):
    """What changes at each step: how many seconds have passed, and the objects with their new values."""
    last, step = {}, 0
    while length is None or step * every <= length:
        seconds = step * every
        now = {curve.object: value_at(curve, seconds) for curve in curves}
        yield seconds, {of: word for of, word in now.items() if last.get(of) != word}
        last, step = now, step + 1


def script_line(moment, of, word):
    """A value as a line of a session's script."""
    kind = names.OBJECT_TYPES[of[0]]
    spelled = f"text:{word.encode().hex()}" if kind == "characterstring-value" else SPELLED[kind].format(word)
    return f"set {moment} {names.object_text(of)} {spelled}"
