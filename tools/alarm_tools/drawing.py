"""The states of objects over time, as an SVG: a row for each object, a bar for each while. Colour is not the only sign."""
import html

from . import report, words

# Of each state its colour, that of its text, and what stands in its bar; a bar that isn't normal is hatched or as high as it is bad.
STYLES = {
    "normal": ("#dfe7ea", "#40525c", "normal", 8), "fault": ("#7a5195", "#ffffff", "fault", 22), "offnormal": ("#c8372d", "#ffffff", "offnormal", 22),
    "high-limit": ("#c8372d", "#ffffff", "high", 22), "low-limit": ("#1f6fa8", "#ffffff", "low", 22),
}
ROW, LEFT, RIGHT, TOP, BAR = 34, 300, 24, 64, 22
STEPS = [1, 2, 5, 10, 15, 30, 60, 120, 300, 600, 900, 1800, 3600, 7200, 10800, 21600, 43200, 86400, 172800, 604800, 2592000, 31536000]


def escaped(text):
    return html.escape(words.printable(text))


def ticks_of(begin, end, zone, most=9):
    """Moments for the axis, on whole steps of the clock, and their texts."""
    seconds = max((end - begin) / 1000, 1)
    step = next((it for it in STEPS if seconds / it <= most), STEPS[-1])
    ahead = zone.ahead(begin)
    first = -(-(begin // 1000 + ahead) // step) * step - ahead
    form = slice(0, 10) if step >= 86400 else slice(11, 16) if step >= 60 else slice(11, 19)
    return [(1000 * it, zone.shown(1000 * it)[form]) for it in range(first, end // 1000 + 1, step)]


def picture(changes, bounds, zone, called, width=1100):
    """The SVG of the changes of objects between two moments."""
    begin, end = bounds[0], max(bounds[1], bounds[0] + 1)
    across = lambda moment: LEFT + (moment - begin) * (width - LEFT - RIGHT) / (end - begin)
    height = TOP + ROW * len(changes) + 56
    parts = [
        f'<svg xmlns="http://www.w3.org/2000/svg" width="{width}" height="{height}" viewBox="0 0 {width} {height}"'
        ' font-family="system-ui, sans-serif" font-size="13">',
        f"<title>States of {len(changes)} objects, {zone.shown(begin)} to {zone.shown(end)}</title>", f'<rect width="{width}" height="{height}" fill="#ffffff"/>',
        f'<text x="16" y="26" font-size="16" font-weight="600" fill="#1d2b33">{zone.shown(begin)} to {zone.shown(end)}</text>',
    ]
    for moment, text in ticks_of(begin, end, zone):
        parts.append(f'<line x1="{across(moment):.1f}" y1="{TOP - 8}" x2="{across(moment):.1f}" y2="{height - 44}" stroke="#c9d3d8"/>')
        parts.append(f'<text x="{across(moment):.1f}" y="{TOP - 14}" text-anchor="middle" fill="#40525c">{text}</text>')
    for row, (of, its) in enumerate(changes.items()):
        parts += row_of(called(of), report.spans_of(its, begin, end), TOP + ROW * row, across, zone)
    parts += legend(height - 24)
    return "\n".join([*parts, "</svg>", ""])


def row_of(called, spans, y, across, zone):
    """An object: its name, and a bar for each while, which tells itself where it is wide enough, and in its title."""
    shown = called if len(called) <= 40 else called[:39] + "\u2026"
    yield f'<text x="{LEFT - 12}" y="{y + 16}" text-anchor="end" fill="#1d2b33">{escaped(shown)}</text>'
    for since, until, state in spans:
        colour, ink, text, high = STYLES[state]
        x, wide = across(since), max(across(until) - across(since), 1.5)
        title = f"{called}: {state} from {zone.shown(since)} to {zone.shown(until)}"
        yield f'<g><title>{escaped(title)}</title><rect x="{x:.1f}" y="{y + (BAR - high) / 2:.1f}" width="{wide:.1f}" height="{high}" fill="{colour}"/>'
        if wide > 8 * len(text) + 8 and state != "normal":
            yield f'<text x="{x + wide / 2:.1f}" y="{y + 15.5}" text-anchor="middle" fill="{ink}">{text}</text>'
        yield "</g>"


def legend(y):
    x = 16
    for state, (colour, _, _, high) in STYLES.items():
        yield f'<rect x="{x}" y="{y - 4 - high / 2:.1f}" width="26" height="{high}" fill="{colour}"/><text x="{x + 34}" y="{y}" fill="#40525c">{state}</text>'
        x += 60 + 8 * len(state)
