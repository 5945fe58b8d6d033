#!/usr/bin/env python3
"""Draws the map of the crates from crates.txt: docs/crates.svg, which scripts/documents.py keeps true.

    scripts/crate_map.py          prints the picture

Each crate stands above all that it stands on, close below what stands on it; a line joins it to those below that it doesn't
reach over another one. Crates that the program waits for are filled.
"""
import functools
import sys

sys.dont_write_bytecode = True
import programs

WIDE, HIGH, ACROSS, DOWN, EDGE = 140, 26, 12, 34, 14
STYLE = """<style>
rect { fill: #f4f4f4; stroke: #888 } rect.program { fill: #d9e8fb; stroke: #2f6fb5 }
text { fill: #111; font: 12px sans-serif; text-anchor: middle } path { fill: none; stroke: #9a9a9a }
@media (prefers-color-scheme: dark) {
  rect { fill: #2a2a2a; stroke: #888 } rect.program { fill: #1d3a5c; stroke: #7ab0ee }
  text { fill: #eee } path { stroke: #777 }
}
</style>"""


def reached(below, name):
    """All that a crate stands on, through others too."""
    return set(below[name]).union(*(reached(below, it) for it in below[name]))


def rows_of(below):
    """The crates in rows, the lowest first: each right below the lowest that stands on it, or as high as the longest chain below it."""
    height = functools.cache(lambda name: 1 + max(map(height, below[name]), default=-1))
    rows = {name: height(name) for name in below}
    for name in sorted(below, key=rows.get, reverse=True):
        rows[name] = min((rows[it] - 1 for it in below if name in below[it]), default=rows[name])
    return [sorted(name for name in below if rows[name] == row) for row in range(max(rows.values()) + 1)]


def places_of(below, rows):
    """Where the middle of each crate's box is: each row is ordered by what its crates stand on, and centred."""
    widest = max(map(len, rows))
    places = {}
    for at, row in enumerate(rows):
        over = lambda name: sum(places[it][0] for it in below[name]) / len(below[name]) if below[name] else 0
        ordered = sorted(row, key=lambda name: (over(name), name))
        left = EDGE + (widest - len(row)) * (WIDE + ACROSS) / 2
        for place, name in enumerate(ordered):
            places[name] = left + place * (WIDE + ACROSS) + WIDE / 2, EDGE + (len(rows) - 1 - at) * (HIGH + DOWN) + HIGH / 2
    return places


def picture(crates):
    """The picture of crates, of each of which it is known what it stands on, as SVG."""
    below = {name: [it for it in names if it in crates] for name, names in crates.items()}
    rows = rows_of(below)
    places = places_of(below, rows)
    program = reached(below, "datacube") | {"datacube"}
    wide = 2 * EDGE + max(map(len, rows)) * (WIDE + ACROSS) - ACROSS
    high = 2 * EDGE + len(rows) * (HIGH + DOWN) - DOWN
    out = [f'<svg xmlns="http://www.w3.org/2000/svg" viewBox="0 0 {wide} {high}">', "<title>The crates, each above what it stands on</title>", STYLE]
    for name in sorted(below):
        over = set().union(*(reached(below, it) for it in below[name])) if below[name] else set()
        for it in sorted(set(below[name]) - over):
            (x, y), (to, bottom) = places[name], places[it]
            y, bottom = y + HIGH / 2, bottom - HIGH / 2
            bend = (y + bottom) / 2
            out.append(f'<path d="M{x:g} {y:g}C{x:g} {bend:g} {to:g} {bend:g} {to:g} {bottom:g}"/>')
    for name, (x, y) in sorted(places.items()):
        kind = ' class="program"' if name in program else ""
        out.append(f'<rect{kind} x="{x - WIDE / 2:g}" y="{y - HIGH / 2:g}" width="{WIDE}" height="{HIGH}" rx="4"/>')
        out.append(f'<text x="{x:g}" y="{y + 4:g}">{name}</text>')
    return "\n".join([*out, "</svg>", ""])


if __name__ == "__main__":
    sys.stdout.write(picture(programs.crates()))
