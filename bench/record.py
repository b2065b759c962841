"""record.py TABLES DOCUMENT PLOT: puts the tables of a run between the document's two run marks, and draws the first table."""
import math
import re
import sys
from xml.sax.saxutils import escape

UNITS = {"s": 1.0, "ms": 1e-3, "µs": 1e-6, "ns": 1e-9}
SHAPES = [
    '<circle cx="{x}" cy="{y}" r="5.5" fill="#1f5fa8"/>',
    '<rect x="{x0}" y="{y0}" width="10" height="10" fill="#d9762b"/>',
    '<path d="M{x} {y0} l6 11 h-12 z" fill="#3c8d5a"/>',
]
LEFT, TOP, ROW, DECADE, MARGIN = 250, 64, 26, 84, 120


def mark(series, x, y):
    """A series' sign at a point."""
    return SHAPES[series].format(x=round(x, 1), y=round(y, 1), x0=round(x - 5, 1), y0=round(y - 5, 1))


def text(x, y, words, anchor="start", colour="#222"):
    return f'<text x="{x:.1f}" y="{y:.1f}" text-anchor="{anchor}" fill="{colour}">{escape(words)}</text>'


def seconds(cell):
    """The time in a cell, or nothing where it has words."""
    found = re.fullmatch(r"([0-9.]+) (s|ms|µs|ns)", cell)
    return float(found[1]) * UNITS[found[2]] if found else None


def rows_of(tables):
    """The first table's solvers and, for each problem, its name and the solvers' cells."""
    lines = [[cell.strip() for cell in line.strip("|").split("|")] for line in tables.split("\n\n")[1].splitlines()]
    columns = [i for i in range(3, len(lines[0])) if lines[0][i] != "ratio"]
    return [lines[0][i] for i in columns], [(line[0], [line[i] for i in columns]) for line in lines[2:]]


def drawing(tables):
    """A row of signs a problem, on a logarithmic scale of time."""
    solvers, rows = rows_of(tables)
    times = [t for _, cells in rows for t in map(seconds, cells) if t]
    low, high = math.floor(math.log10(min(times))), math.ceil(math.log10(max(times)))
    width, bottom = LEFT + (high - low) * DECADE + MARGIN, TOP + len(rows) * ROW
    parts = [
        f'<svg xmlns="http://www.w3.org/2000/svg" width="{width}" height="{bottom + 52}" font-family="sans-serif" font-size="13">',
        "<title>CPU time of one call, by problem and solver</title>",
        '<rect width="100%" height="100%" fill="#fff"/>',
    ]
    for i, solver in enumerate(solvers):
        parts += [mark(i, LEFT + 150 * i, 24), text(LEFT + 150 * i + 12, 28.5, solver)]
    for power in range(low, high + 1):
        x = LEFT + (power - low) * DECADE
        unit, scale = next((u, s) for u, s in UNITS.items() if s <= 1.0001 * 10.0**power)
        parts.append(f'<path d="M{x} {TOP - 12} V{bottom}" stroke="#ddd"/>')
        parts.append(text(x, bottom + 18, f"{10.0**power / scale:.0f} {unit}", "middle"))
    parts.append(text(LEFT, bottom + 40, "CPU time of one call, logarithmic"))
    for i, (name, cells) in enumerate(rows):
        y = TOP + ROW * i + 6
        parts.append(text(LEFT - 18, y + 4.5, name, "end"))
        for j, cell in reversed(list(enumerate(cells))):
            if seconds(cell):
                parts.append(mark(j, LEFT + (math.log10(seconds(cell)) - low) * DECADE, y))
            elif cell.startswith("no "):
                x = LEFT + (high - low) * DECADE + 18
                parts += [mark(j, x, y), text(x + 12, y + 4.5, cell, colour="#777")]
    return "\n".join(parts + ["</svg>", ""])


def main():
    source, document, plot = sys.argv[1:]
    with open(source, encoding="utf-8") as file:
        tables = file.read()
    with open(document, encoding="utf-8") as file:
        before, _, rest = file.read().partition("<!-- run -->\n")
    after = rest.partition("<!-- end of run -->\n")[2]
    with open(document, "w", encoding="utf-8") as file:
        file.write(f"{before}<!-- run -->\n{tables}<!-- end of run -->\n{after}")
    with open(plot, "w", encoding="utf-8") as file:
        file.write(drawing(tables))


main()
