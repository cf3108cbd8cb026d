"""How two texts of a site differ."""


def first_difference(old, new):
    """The number of the first line in which two texts differ, and that line of each, or None where one has no more lines."""
    lines = [text.decode("utf-8", "replace").split("\n") for text in (old, new)]
    number = next((it for it, (one, other) in enumerate(zip(*lines)) if one != other), min(map(len, lines)))
    return number + 1, *(text[number] if number < len(text) else None for text in lines)
