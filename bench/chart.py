"""Draws what `peers.py` measured: two panels of bars on a logarithmic axis, with the ratio at each."""

import math
from html import escape

WIDTH = 900
LEFT = 50
PANEL = 400
BETWEEN = 50
BAR = 9
GROUP_GAP = 8
TOP = 74
COLOURS = ["#1a73e8", "#f9ab00", "#34a853", "#9aa0a6"]


def text(x, y, words, size=11, anchor="start", weight="normal"):
    """A line of text."""
    return (
        f'<text x="{x:.1f}" y="{y:.1f}" font-size="{size}" text-anchor="{anchor}" font-weight="{weight}">'
        f"{escape(words)}</text>"
    )


def seconds(value):
    """A time as a reader takes it in."""
    if value < 1:
        return f"{1000 * value:.0f} ms"
    return f"{value:.0f} s" if value >= 9.95 or value == 1 else f"{value:.1f} s"


def times(ratio):
    """How many times another's a figure is."""
    return f"×{ratio:.0f}" if ratio >= 9.95 else f"×{ratio:.1f}"


def panel(left, title, names, groups, value):
    """One panel: for each group a bar of each engine, the first with its time, the others with their ratio to it."""
    values = {(name, group): value(name, group) for name in names for group in groups}
    # The shortest bar is long enough to be seen, and behind the longest there is room for its ratio.
    least = math.floor(math.log10(min(values.values()) / 2))
    most = math.log10(max(values.values()))
    scale = (PANEL - 40) / (most - least)
    height = len(groups) * (len(names) * BAR + GROUP_GAP)
    parts = [text(left, TOP - 26, title, 13, weight="bold")]
    for power in range(least, math.floor(most) + 1):
        x = left + (power - least) * scale
        parts.append(f'<path d="M{x:.1f} {TOP - 4}V{TOP + height}" stroke="#ddd"/>')
        parts.append(text(x, TOP - 9, seconds(10.0 ** power), 10, "middle"))
    y = TOP
    for group in groups:
        parts.append(text(left - 6, y + len(names) * BAR / 2 + 4, group, 11, "end"))
        for number, name in enumerate(names):
            took = values[name, group]
            long = (math.log10(took) - least) * scale
            parts.append(
                f'<rect x="{left}" y="{y}" width="{long:.1f}" height="{BAR - 1}" fill="{COLOURS[number]}"/>'
            )
            label = seconds(took) if number == 0 else times(took / values[names[0], group])
            parts.append(text(left + long + 3, y + BAR - 2, label, 9))
            y += BAR
        y += GROUP_GAP
    return parts


def drawn(figures, queries):
    """The picture of each engine's load and queries; the first engine is the one that others are set against."""
    names = list(figures)
    height = TOP + len(queries) * (len(names) * BAR + GROUP_GAP) + 10
    parts = [
        f'<svg xmlns="http://www.w3.org/2000/svg" viewBox="0 0 {WIDTH} {height}" font-family="sans-serif">',
        f'<rect width="{WIDTH}" height="{height}" fill="white"/>',
    ]
    x = LEFT
    for name, colour in zip(names, COLOURS):
        parts.append(f'<rect x="{x}" y="10" width="12" height="12" fill="{colour}"/>')
        parts.append(text(x + 17, 20, name, 12))
        x += 40 + 8 * len(name)
    parts.append(text(x + 10, 20, f"logarithmic axes; behind a bar: how many times as long as {names[0]}", 11))
    parts += panel(
        LEFT, "From files to answer", names, queries, lambda name, query: figures[name]["load"] + figures[name][query]
    )
    parts += panel(
        LEFT + PANEL + BETWEEN, "By itself, over loaded tables", names, queries,
        lambda name, query: figures[name][query],
    )
    return "\n".join([*parts, "</svg>"]) + "\n"
