#!/usr/bin/env python3
"""Plots how the time of works grows with their size: the linker and the Rust, both axes logarithmic.

Run from the root of the repository, after host/build:
    host/target/release/bench --growth > docs/growth.tsv
    python3 tools/growth.py
It reads docs/growth.tsv, a line for each size of a work: what is counted, so many, and the nanoseconds of linker and Rust.
It writes docs/growth.svg, the same bytes for the same lines.
"""
import math
from pathlib import Path

DOCS = Path(__file__).resolve().parent.parent / 'docs'
WIDTH, HEIGHT, LEFT, TOP, RIGHT, BOTTOM = 420, 300, 70, 36, 20, 48
# each side, its colour, and where its time stands in a row
SIDES = (('linker', '#1f5fa8', 1), ('Rust', '#b5482a', 2))


def works():
    """The works in the order of the file: what is counted, and its rows of size, linker and Rust."""
    found = {}
    for line in (DOCS / 'growth.tsv').read_text().splitlines():
        counted, *numbers = line.split('\t')
        found.setdefault(counted, []).append(tuple(int(number) for number in numbers))
    return found


def decades(low, high):
    return [10 ** power for power in range(math.floor(math.log10(low)), math.ceil(math.log10(high)) + 1)]


def time(nanoseconds):
    for unit, name in ((10 ** 9, 's'), (10 ** 6, 'ms'), (10 ** 3, 'µs')):
        if nanoseconds >= unit:
            return f'{nanoseconds // unit} {name}'
    return f'{nanoseconds} ns'


def text(x, y, words, anchor='middle', color='#333', size=11):
    return f'<text x="{x:.1f}" y="{y:.1f}" text-anchor="{anchor}" fill="{color}" font-size="{size}">{words}</text>'


def line(x1, y1, x2, y2, color):
    return f'<line x1="{x1:.1f}" y1="{y1:.1f}" x2="{x2:.1f}" y2="{y2:.1f}" stroke="{color}"/>'


def panel(counted, rows):
    """One work: its sizes from left to right, its times upwards."""
    times = [row[column] for row in rows for _, _, column in SIDES]
    ticks = decades(min(times), max(times))
    sizes = [row[0] for row in rows]

    def across(size):
        part = math.log(size / sizes[0]) / math.log(sizes[-1] / sizes[0])
        return LEFT + 14 + part * (WIDTH - LEFT - RIGHT - 28)

    def up(nanoseconds):
        part = math.log(nanoseconds / ticks[0]) / math.log(ticks[-1] / ticks[0])
        return HEIGHT - BOTTOM - part * (HEIGHT - TOP - BOTTOM)

    parts = [text(WIDTH / 2, 18, counted, size=13)]
    for tick in ticks:
        parts += [line(LEFT, up(tick), WIDTH - RIGHT, up(tick), '#ddd'), text(LEFT - 8, up(tick) + 4, time(tick), 'end')]
    parts += [text(across(size), HEIGHT - BOTTOM + 18, f'{size:,}') for size in sizes]
    for name, color, column in SIDES:
        points = [(across(row[0]), up(row[column])) for row in rows]
        way = ' '.join(f'{x:.1f},{y:.1f}' for x, y in points)
        parts.append(f'<polyline points="{way}" fill="none" stroke="{color}" stroke-width="2"/>')
        parts += [f'<circle cx="{x:.1f}" cy="{y:.1f}" r="3" fill="{color}"/>' for x, y in points]
    times_as_long = [f'{rows[-1][column] / rows[0][column]:.1f}' for _, _, column in SIDES]
    grown = f'{sizes[-1] / sizes[0]:.0f} times as many: linker {times_as_long[0]}, Rust {times_as_long[1]} times as long'
    parts.append(text(WIDTH / 2, HEIGHT - 8, grown, color='#666'))
    return parts


def main():
    panels = list(works().items())
    rows = (len(panels) + 1) // 2
    parts = [f'<svg xmlns="http://www.w3.org/2000/svg" width="{2 * WIDTH}" height="{rows * HEIGHT + 30}" font-family="sans-serif">',
             '<rect width="100%" height="100%" fill="white"/>']
    for index, (name, color, _) in enumerate(SIDES):
        x = 2 * WIDTH / 2 - 70 + 90 * index
        parts += [line(x, 16, x + 24, 16, color), text(x + 30, 20, name, 'start')]
    for index, (counted, lines) in enumerate(panels):
        x, y = WIDTH * (index % 2), 30 + HEIGHT * (index // 2)
        parts += [f'<g transform="translate({x},{y})">', *panel(counted, lines), '</g>']
    (DOCS / 'growth.svg').write_text('\n'.join(parts + ['</svg>', '']))


if __name__ == '__main__':
    main()
