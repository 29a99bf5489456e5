#!/usr/bin/env python3
"""Throughput and latency as SVG: bench/plot.py FIGURES.csv PICTURE.svg. Reads what bench/peers.sh writes where PEERS_CSV names a file, or what bench/ycsb.sh
writes; the first line tells which. Draws a panel for each work, and in it a line for each map: operations a second against threads, on an axis that begins at
no operations; and for YCSB a second panel below it, the latency at the percentiles 50, 99 and 99.9 with the greatest number of threads, on an axis of powers
of ten. A line that isn't of the form of the first one ends it with status 1, and nothing is written."""
import csv
import html
import math
import sys

COLOURS = ["#0a5ec2", "#6cb6ff", "#bc4c00", "#1a7f37", "#8250df", "#cf222e", "#57606a", "#9a6700"]
WIDTH, HEIGHT, LEFT, TOP, GAP, BESIDE = 250, 180, 70, 60, 100, 6
DARK = "@media (prefers-color-scheme:dark){svg{filter:invert(0.9) hue-rotate(180deg)}}"
PEERS = ["work", "threads", "map", "operations"]
YCSB = ["keys", "count", "workload", "distribution", "threads", "map", "operations", "seconds", "per_second", "p50_ns", "p99_ns", "p999_ns", "refused"]
PERCENTILES = ["50", "99", "99.9"]


def whole(word):
    if not word.isdecimal():
        raise ValueError
    return int(word)


def cell(names, line):
    """The work of a line, its map and threads, the operations a second, and the latencies in nanoseconds, of which bench/peers.sh has none."""
    found = dict(zip(names, line, strict=True))
    threads = whole(found["threads"])
    if threads == 0:
        raise ValueError
    if names == PEERS:
        return found["work"], found["map"], threads, whole(found["operations"]), []
    work = " ".join(word for word in (found["keys"], found["workload"], found["distribution"]) if word != "none")
    return work, found["map"], threads, whole(found["per_second"]), [whole(found[name]) for name in YCSB[9:12]]


def read(path):
    """The cells by work and map, each a list of (threads, operations a second, latencies), in the order of the file."""
    works = {}
    with open(path, newline="") as file:
        lines = csv.reader(file)
        names = next(lines, None)
        if names not in (PEERS, YCSB):
            raise ValueError(f"{path}: the first line is neither {','.join(PEERS)} nor {','.join(YCSB)}")
        for number, line in enumerate(lines, 2):
            try:
                work, name, *figures = cell(names, line)
            except ValueError:
                raise ValueError(f"{path}: line {number} is not {','.join(names).upper()}") from None
            works.setdefault(work, {}).setdefault(name, []).append(tuple(figures))
    if not works:
        raise ValueError(f"{path}: no figures")
    return works


def top_of(greatest):
    """The end of an axis: the least of 1, 2 and 5 times a power of ten that isn't below the greatest figure."""
    power = 1
    while True:
        for step in (1, 2, 5):
            if greatest <= step * power:
                return step * power
        power *= 10


def text(x, y, words, more=""):
    return f'<text x="{x}" y="{y}" {more}>{html.escape(words)}</text>'


def panel(left, above, title, marks, down, lines, colours):
    """A panel with its corner: marks are the words on its axes, (place, word) across and (figure, word) down, and lines are (map, points)."""
    across, figures = marks
    parts = [text(left, above - 14, title, 'font-weight="bold"')]
    for figure, word in figures:
        y = round(above + HEIGHT * (1 - down(figure)), 1)
        parts.append(f'<line x1="{left}" y1="{y}" x2="{left + WIDTH}" y2="{y}" stroke="#d0d7de"></line>')
        parts.append(text(left - 6, y + 4, word, 'text-anchor="end" font-size="10"'))
    for place, word in across:
        parts.append(text(round(left + WIDTH * place, 1), above + HEIGHT + 16, word, 'text-anchor="middle"'))
    for name, points in lines:
        at = [(round(left + WIDTH * place, 1), round(above + HEIGHT * (1 - down(figure)), 1), told) for place, figure, told in points]
        way = " ".join(f"{x},{y}" for x, y, _ in at)
        parts.append(f'<polyline points="{way}" fill="none" stroke="{colours[name]}" stroke-width="2"></polyline>')
        for x, y, told in at:
            parts.append(f'<circle cx="{x}" cy="{y}" r="3" fill="{colours[name]}"><title>{html.escape(f"{name}: {told}")}</title></circle>')
    return parts


def throughput(left, above, work, maps, colours):
    most = max(threads for cells in maps.values() for threads, _, _ in cells)
    top = top_of(max(rate for cells in maps.values() for _, rate, _ in cells))
    across = [(threads / most, str(threads)) for threads in sorted({threads for cells in maps.values() for threads, _, _ in cells})]
    figures = [(top * quarter / 4, f"{top * quarter // 4:,}") for quarter in range(5)]
    lines = [(name, [(threads / most, rate, f"{rate:,} a second by {threads}") for threads, rate, _ in sorted(cells)]) for name, cells in maps.items()]
    return panel(left, above, work, (across, figures), lambda rate: rate / top, lines, colours)


def latency(left, above, work, maps, colours):
    most = max(threads for cells in maps.values() for threads, _, _ in cells)
    found = {name: told for name, cells in maps.items() for threads, _, told in cells if threads == most}
    low = math.floor(math.log10(max(min(min(told) for told in found.values()), 1)))
    powers = len(str(max(max(told) for told in found.values()))) - low
    places = [(number + 0.5) / len(PERCENTILES) for number in range(len(PERCENTILES))]
    figures = [(10**power, f"{10**power:,}") for power in range(low, low + powers + 1)]

    lines = [(name, [(at, max(ns, 1), f"{ns:,} ns at {part} %") for at, ns, part in zip(places, told, PERCENTILES)]) for name, told in found.items()]
    title = f"{work}, {most} thread{'s' if most > 1 else ''}"
    return panel(left, above, title, (list(zip(places, PERCENTILES)), figures), lambda ns: (math.log10(ns) - low) / powers, lines, colours)


def picture(works):
    names = list(dict.fromkeys(name for maps in works.values() for name in maps))
    colours = {name: COLOURS[i % len(COLOURS)] for i, name in enumerate(names)}
    has_latency = any(told for maps in works.values() for cells in maps.values() for _, _, told in cells)
    # a row of panels, and where there are latencies, each with its own below it
    down = (2 if has_latency else 1) * (HEIGHT + TOP)
    rows = (len(works) + BESIDE - 1) // BESIDE
    width = LEFT + min(len(works), BESIDE) * (WIDTH + GAP)
    bottom = TOP + rows * down
    height = bottom + 20 * ((len(names) + 3) // 4)
    about = "Operations a second, by threads" + ("; latency in nanoseconds, by percentiles" if has_latency else "")
    parts = [
        f'<svg xmlns="http://www.w3.org/2000/svg" role="img" width="{width}" height="{height}" font-family="DejaVu Sans, Verdana, sans-serif" font-size="12">',
        f"<title>{about}</title>",
        f"<desc>A panel for each work, and in it a line for each map: {', '.join(map(html.escape, names))}.</desc>",
        f"<style>{DARK}</style>",
        '<rect width="100%" height="100%" fill="#ffffff"></rect>',
        text(LEFT, 24, about, 'font-size="15" font-weight="bold"'),
    ]
    for place, (work, maps) in enumerate(works.items()):
        left, above = LEFT + place % BESIDE * (WIDTH + GAP), TOP + place // BESIDE * down
        parts += throughput(left, above, work, maps, colours)
        if has_latency:
            parts += latency(left, above + HEIGHT + TOP, work, maps, colours)
    for place, name in enumerate(names):
        x, y = LEFT + place % 4 * 240, bottom + place // 4 * 20
        parts.append(f'<line x1="{x}" y1="{y - 4}" x2="{x + 22}" y2="{y - 4}" stroke="{colours[name]}" stroke-width="3"></line>')
        parts.append(text(x + 28, y, name))
    return "\n".join([*parts, "</svg>", ""])


def main():
    if len(sys.argv) != 3:
        sys.exit("plot.py FIGURES.csv PICTURE.svg")
    try:
        drawn = picture(read(sys.argv[1]))
        with open(sys.argv[2], "w") as file:
            file.write(drawn)
    except (OSError, ValueError) as error:
        sys.exit(f"plot.py: {error}")


main()
