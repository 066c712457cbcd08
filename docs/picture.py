#!/usr/bin/env python3
"""Draws docs/architecture.svg: the stages of a run with the crates that do them, and the way of a ticket.

Usage: picture.py [FILE]
"""

import sys
from html import escape
from pathlib import Path

WIDTH, HEIGHT = 900, 760
HEAD = f"""<svg xmlns="http://www.w3.org/2000/svg" viewBox="0 0 {WIDTH} {HEIGHT}" font-family="sans-serif" font-size="13">
<defs><marker id="tip" viewBox="0 0 8 8" refX="8" refY="4" markerWidth="7" markerHeight="7" orient="auto"><path d="M0 0L8 4L0 8z" fill="#444"/></marker></defs>
<rect width="{WIDTH}" height="{HEIGHT}" fill="white"/>"""

# What goes in and out, what is between two stages, and the stages.
FILE, VALUE, STAGE = "#fff3d6", "#e8f0fe", "#e6f4ea"

# Each box: its place, its size, its colour, its lines; the first is its name.
BOXES = [
    (20, 50, 150, 44, FILE, ["query text"]),
    (20, 130, 150, 44, FILE, ["catalog"]),
    (20, 210, 150, 44, FILE, ["table files"]),
    (220, 40, 170, 64, STAGE, ["read the query", "ssb_tokens, ssb_sql", "gives a Select"]),
    (220, 120, 170, 64, STAGE, ["read the catalog", "ssb_catalog", "gives a Catalog"]),
    (220, 200, 170, 64, STAGE, ["load the tables", "ssb_lanes, ssb_load", "gives Tables"]),
    (440, 60, 170, 84, STAGE, ["bind names", "ssb_bind", "refusals, or the meaning", "gives a Query"]),
    (440, 180, 170, 84, STAGE, ["plan", "ssb_plan, ssb_job", "indexes, filters of columns", "gives a Job"]),
    (660, 180, 210, 84, STAGE, ["group", "ssb_pipeline, ssb_groups", "workers take morsels of fact rows", "gives Groups"]),
    (660, 60, 210, 84, STAGE, ["order and write", "ssb_rows", "HAVING, ORDER BY, text", "to the output"]),
    (40, 400, 200, 84, VALUE, ["Parts", "a queue for each section", "each holds its Part:", "what is out, what is back, groups"]),
    (340, 370, 200, 44, STAGE, ["take, hand_out, put", "the least morsel not yet out"]),
    (640, 400, 220, 84, STAGE, ["Partial::of, with no part held", "join_range: rows by columns,", "then their kept combinations", "add_block: to the morsel's groups"]),
    (340, 470, 200, 44, STAGE, ["take, give_back, put", "merges groups, marks the morsel"]),
    (640, 580, 220, 44, STAGE, ["give_up", "memory was refused"]),
    (340, 580, 200, 64, STAGE, ["finish", "sweeps what is left,", "merges the sections"]),
    (40, 590, 200, 44, VALUE, ["Groups", "of all that WHERE keeps"]),
]

# Each arrow: the points that it goes through, and its words with their place.
ARROWS = [
    ([(170, 72), (220, 72)], None),
    ([(170, 152), (220, 152)], None),
    ([(170, 232), (220, 232)], None),
    ([(390, 72), (440, 90)], None),
    ([(390, 152), (440, 120)], None),
    ([(305, 184), (305, 200)], None),
    ([(525, 144), (525, 180)], None),
    ([(390, 232), (440, 232)], None),
    ([(610, 222), (660, 222)], None),
    ([(765, 180), (765, 144)], None),
    ([(240, 420), (340, 392)], None),
    ([(540, 392), (640, 420)], ("Ticket", 570, 390)),
    ([(640, 465), (540, 492)], ("Partial", 570, 500)),
    ([(340, 492), (240, 465)], None),
    ([(750, 484), (750, 580)], ("Ticket", 760, 540)),
    ([(640, 602), (590, 602), (590, 540), (140, 540), (140, 484)], ("the part hands out no more", 330, 533)),
    ([(90, 484), (90, 560), (440, 560), (440, 580)], ("when each worker has seen each section done", 120, 576)),
    ([(340, 612), (240, 612)], None),
]

TITLES = [("A run: from files to rows", 20, 24), ("Grouping: the way of a ticket", 20, 330)]
NOTES = [
    "A worker goes round the sections, its own first, and holds a part only while it asks or brings back.",
    "run_from (ssb_answer) does all of this over threads; run_alone_from in the caller's thread.",
    "The first fault ends a run, and nothing is written before the answer is complete.",
]


def box(x, y, width, height, colour, lines):
    """A box with its lines, the first of them bold."""
    parts = [f'<rect x="{x}" y="{y}" width="{width}" height="{height}" rx="6" fill="{colour}" stroke="#444"/>']
    top = y + height / 2 - 8 * (len(lines) - 1) + 4
    for number, line in enumerate(lines):
        weight = ' font-weight="bold"' if number == 0 else ' font-size="11"'
        parts.append(
            f'<text x="{x + width / 2:g}" y="{top + 16 * number:g}" text-anchor="middle"{weight}>{escape(line)}</text>'
        )
    return parts


def arrow(points, words):
    """A line through some points with a tip at its end, and its words."""
    way = " ".join(f"{x},{y}" for x, y in points)
    parts = [f'<polyline points="{way}" fill="none" stroke="#444" stroke-width="1.4" marker-end="url(#tip)"/>']
    if words:
        text, x, y = words
        parts.append(f'<text x="{x}" y="{y}" font-size="11" font-style="italic">{escape(text)}</text>')
    return parts


def picture():
    """The whole picture as text."""
    parts = [HEAD]
    parts += [f'<text x="{x}" y="{y}" font-size="17" font-weight="bold">{text}</text>' for text, x, y in TITLES]
    for arguments in ARROWS:
        parts += arrow(*arguments)
    for arguments in BOXES:
        parts += box(*arguments)
    parts += [f'<text x="40" y="{690 + 20 * number}">{escape(note)}</text>' for number, note in enumerate(NOTES)]
    return "\n".join([*parts, "</svg>", ""])


def main(words):
    """Writes the picture."""
    path = Path(words[0]) if words else Path(__file__).with_name("architecture.svg")
    path.write_text(picture(), encoding="utf-8")


if __name__ == "__main__":
    main(sys.argv[1:])
