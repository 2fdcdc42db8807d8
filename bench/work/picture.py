"""Draws the table: bytes on the way to the server by piece of work, on a log scale.

    picture.py WORK.tsv WORK.svg
"""
import csv
import html
import math
import sys

LEFT, TOP, WIDE, ROW, FOOT = 232, 92, 640, 17, 42
INK, SOFT, GRID, PAPER = "#1f2328", "#59636e", "#d8dee4", "#ffffff"
OURS, PACKED, PLAIN = "#0b6e4f", "#c2571a", "#9aa4ae"
DONE = ("done", "repaired", "renamed")
DECADES = range(2, 8)


def across(value):
    """Where a number of bytes stands."""
    low, high = DECADES[0], DECADES[-1]
    return LEFT + WIDE * (math.log10(max(value, 10 ** low)) - low) / (high - low)


def text(x, y, content, size=11, colour=INK, anchor="start", more=""):
    return f'<text x="{x:.1f}" y="{y:.1f}" font-size="{size}" fill="{colour}" text-anchor="{anchor}" {more}>{html.escape(content)}</text>'


def line(x1, y1, x2, y2, colour, width=1.0):
    return f'<line x1="{x1:.1f}" y1="{y1:.1f}" x2="{x2:.1f}" y2="{y2:.1f}" stroke="{colour}" stroke-width="{width}"/>'


def tick(x, y):
    return f'<path d="M{x:.1f} {y - 4:.1f}V{y + 4:.1f}" stroke="{PLAIN}" stroke-width="2"/>'


def diamond(x, y, is_full=True):
    fill = PACKED if is_full else PAPER
    return f'<path d="M{x:.1f} {y - 4.2:.1f}l4.2 4.2l-4.2 4.2l-4.2 -4.2z" fill="{fill}" stroke="{PACKED}" stroke-width="1.2"/>'


def dot(x, y, is_full):
    fill = OURS if is_full else PAPER
    return f'<circle cx="{x:.1f}" cy="{y:.1f}" r="4.2" fill="{fill}" stroke="{OURS}" stroke-width="1.6"/>'


def read(file):
    """The rows that have an outcome, the largest gain over rsync -z first, and those that stay declined last."""
    with open(file) as it:
        rows = [Row(it) for it in csv.DictReader(it, delimiter="\t", quoting=csv.QUOTE_NONE)]
    return sorted((it for it in rows if it.bytes), key=lambda it: (it.way == "declined", -(it.packed or it.bytes) / it.ours))


class Row:
    """A piece of work: its bytes by each way. Where only docs/COMMANDS.md's command was done, they are those of that one."""

    def __init__(self, cells):
        plain, is_careful = cells["other"] or cells["same"], cells["careful"] in DONE
        self.name, self.way = cells["name"], "plain" if plain in DONE else "careful" if is_careful else "declined"
        front = "careful_" if self.way == "careful" else ""
        number = lambda name: int(cells[front + name]) if cells[front + name].isdigit() else 0
        self.bytes, self.packed, self.xz = number("bytes"), number("rsync_z"), number("xz")
        self.ours = max(number("operation") + (self.bytes if self.way == "declined" else 0), 1)


def draw(rows):
    """The picture of the rows."""
    bottom, wide = TOP + ROW * len(rows), LEFT + WIDE + 92
    high = bottom + FOOT
    out = [f'<svg xmlns="http://www.w3.org/2000/svg" viewBox="0 0 {wide} {high}" width="{wide}" height="{high}"'
           ' font-family="Helvetica, Arial, sans-serif" role="img">',
           '<title>Bytes on the way to the server, by piece of work</title>',
           f'<rect width="{wide}" height="{high}" fill="{PAPER}"/>',
           text(16, 26, "Bytes on the way to the server", 16, more='font-weight="bold"'),
           text(16, 44, "Each piece of work made files at the client. Further left is less to send; each line is ten times the one before.",
                11, SOFT)]
    out += legend(16, 66) + grid(bottom)
    for place, row in enumerate(rows):
        out += draw_row(row, TOP + ROW * place + ROW / 2)
    return "\n".join([*out, "</svg>", ""])


def legend(x, y):
    out, marks = [], ((dot(0, 0, True), "as its command", 116), (dot(0, 0, False), "declined: command and files", 190),
                      (diamond(0, 0), "rsync -z", 78), (diamond(0, 0, False), "tar, xz", 72), (tick(0, 0), "the files themselves", 140))
    for mark, name, step in marks:
        out += [f'<g transform="translate({x + 5} {y - 4})">{mark}</g>', text(x + 15, y, name, 11, SOFT)]
        x += step
    return out + [text(x, y, "*  written as docs/COMMANDS.md says", 11, SOFT)]


def grid(bottom):
    names = {2: "100", 3: "1,000", 4: "10,000", 5: "100,000", 6: "1,000,000", 7: "10,000,000"}
    out = []
    for decade in DECADES:
        x = across(10 ** decade)
        out += [line(x, TOP - 4, x, bottom + 4, GRID), text(x, bottom + 20, names[decade], 11, SOFT, "middle")]
    return out + [text(LEFT + WIDE + 84, TOP - 8, "rsync -z takes", 11, SOFT, "end")]


def draw_row(row, y):
    is_done = row.way != "declined"
    name = row.name + (" *" if row.way == "careful" else "")
    gain = (row.packed or row.bytes) / row.ours
    out = [text(LEFT - 12, y + 4, name, 11.5, INK if is_done else SOFT, "end"), line(across(row.ours), y, across(row.bytes), y, GRID, 1.5),
           tick(across(row.bytes), y)]
    if row.xz:
        out.append(diamond(across(row.xz), y, False))
    if row.packed:
        out.append(diamond(across(row.packed), y))
    return [*out, dot(across(row.ours), y, is_done),
            text(LEFT + WIDE + 84, y + 4, f"{gain:,.0f} times" if gain >= 9.95 else f"{gain:.1f} times", 11, INK if is_done else SOFT, "end")]


def main():
    rows = read(sys.argv[1])
    with open(sys.argv[2], "w") as picture:
        picture.write(draw(rows))


if __name__ == "__main__":
    main()
