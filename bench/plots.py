#!/usr/bin/env python3
"""Draws the plots of docs/figures from its two tables: plots.py writes them, plots.py check says which are not as the tables are."""
import csv
import math
import pathlib
import sys

FOLDER = pathlib.Path(__file__).parent.parent / "docs/figures"
WIDTH, HEIGHT = 720, 420
LEFT, RIGHT, TOP, BOTTOM = 78, 150, 46, 56
COLOURS = ["#1b6ca8", "#c2571a", "#3c8d40", "#7a4fa3", "#8c6d1f"]


def table(name):
    with open(FOLDER / name, newline="", encoding="utf-8") as file:
        return list(csv.DictReader(file))


def spelled(number):
    return f"{number:,.0f}" if number >= 1 else f"{number:g}"


def spends_of(count):
    return "1 spend" if count == 1 else f"{count:,} spends"


class Plot:
    """A plot with logarithmic scales on both sides, of lines that are named at their right ends."""

    def __init__(self, title, x_title, y_title, x_range, y_range):
        self.x_range, self.y_range = x_range, y_range
        self.parts = [
            f'<svg xmlns="http://www.w3.org/2000/svg" viewBox="0 0 {WIDTH} {HEIGHT}" font-family="sans-serif" font-size="13">',
            f'<rect width="{WIDTH}" height="{HEIGHT}" fill="#ffffff"/>',
            f'<text x="{LEFT}" y="24" font-size="15" font-weight="bold">{title}</text>',
            f'<text x="{(LEFT + WIDTH - RIGHT) / 2:.1f}" y="{HEIGHT - 14}" text-anchor="middle">{x_title}</text>',
            f'<text transform="translate(18 {(TOP + HEIGHT - BOTTOM) / 2:.1f}) rotate(-90)" text-anchor="middle">{y_title}</text>',
        ]
        self.grid()

    def x(self, value):
        low, high = map(math.log10, self.x_range)
        return LEFT + (math.log10(value) - low) / (high - low) * (WIDTH - LEFT - RIGHT)

    def y(self, value):
        low, high = map(math.log10, self.y_range)
        return HEIGHT - BOTTOM - (math.log10(value) - low) / (high - low) * (HEIGHT - TOP - BOTTOM)

    def grid(self):
        for value in powers(self.x_range):
            at = self.x(value)
            self.parts.append(f'<line x1="{at:.1f}" y1="{TOP}" x2="{at:.1f}" y2="{HEIGHT - BOTTOM}" stroke="#dddddd"/>')
            self.parts.append(f'<text x="{at:.1f}" y="{HEIGHT - BOTTOM + 18}" text-anchor="middle">{spelled(value)}</text>')
        for value in powers(self.y_range):
            at = self.y(value)
            self.parts.append(f'<line x1="{LEFT}" y1="{at:.1f}" x2="{WIDTH - RIGHT}" y2="{at:.1f}" stroke="#dddddd"/>')
            self.parts.append(f'<text x="{LEFT - 8}" y="{at + 4:.1f}" text-anchor="end">{spelled(value)}</text>')

    def line(self, points, colour, name="", dashed=False):
        path = " ".join(f"{self.x(x):.1f},{self.y(y):.1f}" for x, y in points)
        dash = ' stroke-dasharray="5 4"' if dashed else ""
        self.parts.append(f'<polyline points="{path}" fill="none" stroke="{colour}" stroke-width="2"{dash}/>')
        if not dashed:
            self.parts += [f'<circle cx="{self.x(x):.1f}" cy="{self.y(y):.1f}" r="3.5" fill="{colour}"/>' for x, y in points]
        x, y = points[-1]
        if name:
            self.parts.append(f'<text x="{self.x(x) + 8:.1f}" y="{self.y(y) + 4:.1f}" fill="{colour}">{name}</text>')

    def note(self, text):
        self.parts.append(f'<text x="{WIDTH - RIGHT - 12}" y="{HEIGHT - BOTTOM - 10}" text-anchor="end" fill="#555555">{text}</text>')

    def text(self):
        return "\n".join([*self.parts, "</svg>", ""])


def powers(limits):
    """Powers of ten; within a single one twice and five times it, too."""
    low, high = (round(math.log10(value)) for value in limits)
    if high == low + 1:
        return [10.0**low * times for times in (1, 2, 5, 10)]
    return [10.0**power for power in range(low, high + 1)]


def by_entries(needs):
    """Digests of a block against the entries that were ever added, and the most that the contract of a step allows."""
    plot = Plot("Digests of a block, by the size of the set", "outputs ever added", "digests", (1e3, 1e7), (1e1, 1e6))
    for colour, spends in zip(COLOURS, (1, 20, 100, 500, 2500)):
        rows = [row for row in needs if int(row["spends"]) == spends]
        plot.line([(int(row["entries"]), float(row["bound"])) for row in rows], colour, dashed=True)
        plot.line([(int(row["entries"]), float(row["digests"])) for row in rows], colour, spends_of(spends))
    plot.note("dashed: the most that is proved")
    return plot.text()


def by_spends(needs):
    """The same against the spends of a block."""
    plot = Plot("Digests of a block, by its spends", "outputs that the block spends", "digests", (1, 1e4), (1e1, 1e6))
    for colour, entries in zip(COLOURS, (10_000, 100_000, 1_000_000, 10_000_000)):
        rows = [row for row in needs if int(row["entries"]) == entries]
        if entries == 10_000_000:
            plot.line([(int(row["spends"]), float(row["bound"])) for row in rows], colour, "at most, proved", dashed=True)
        plot.line([(int(row["spends"]), float(row["digests"])) for row in rows], colour)
    for colour, entries, place in zip(COLOURS, (10_000, 100_000, 1_000_000, 10_000_000), range(4)):
        at = HEIGHT - BOTTOM - 86 + 20 * place
        plot.parts.append(f'<text x="{WIDTH - RIGHT - 12}" y="{at}" text-anchor="end" fill="{colour}">{entries:,} outputs ever added</text>')
    return plot.text()


def proof_bytes(needs):
    """Bytes of a proof for each output that is spent, against the entries."""
    plot = Plot("Bytes of proof for each output spent", "outputs ever added", "bytes", (1e3, 1e7), (1e2, 1e3))
    for colour, spends in zip(COLOURS, (1, 20, 100, 500, 2500)):
        rows = [row for row in needs if int(row["spends"]) == spends]
        plot.line([(int(row["entries"]), float(row["message_bytes"]) / spends) for row in rows], colour, spends_of(spends))
    return plot.text()


def measured_ratios(measured):
    """What following a block of spends took beside what it needs to digest, as bars."""
    rows = [row for row in measured if row["group"] == "spends" and row["case"] in ("by the clock", "by a profile")]
    cases = [(entries, spends) for entries in ("10000", "1000000") for spends in ("1", "20", "500")]
    parts = [
        f'<svg xmlns="http://www.w3.org/2000/svg" viewBox="0 0 {WIDTH} 300" font-family="sans-serif" font-size="13">',
        f'<rect width="{WIDTH}" height="300" fill="#ffffff"/>',
        '<text x="20" y="24" font-size="15" font-weight="bold">Time of a block with spends, beside that of its bare digests</text>',
    ]
    left, scale = 250, 300
    for value in (0, 0.5, 1, 1.5):
        at = left + value * scale
        parts.append(f'<line x1="{at:.1f}" y1="40" x2="{at:.1f}" y2="262" stroke="{"#555555" if value == 1 else "#dddddd"}"/>')
        parts.append(f'<text x="{at:.1f}" y="280" text-anchor="middle">{value:g}</text>')
    for place, (entries, spends) in enumerate(cases):
        top = 50 + 36 * place
        parts.append(f'<text x="{left - 10}" y="{top + 18}" text-anchor="end">{spends_of(int(spends))}, {int(entries):,} outputs</text>')
        for offset, colour, case in ((0, COLOURS[0], "by the clock"), (13, COLOURS[1], "by a profile")):
            value = next(float(r["value"]) for r in rows if (r["entries"], r["spends"], r["case"]) == (entries, spends, case))
            parts.append(f'<rect x="{left}" y="{top + offset}" width="{value * scale:.1f}" height="11" fill="{colour}"/>')
            parts.append(f'<text x="{left + value * scale + 6:.1f}" y="{top + offset + 10}" font-size="11" fill="{colour}">{value:.2f}</text>')
    parts.append(f'<text x="{WIDTH - 12}" y="24" text-anchor="end" fill="{COLOURS[0]}">by the clock</text>')
    parts.append(f'<text x="{WIDTH - 112}" y="24" text-anchor="end" fill="{COLOURS[1]}">by a profile</text>')
    return "\n".join([*parts, "</svg>", ""])


def main():
    needs, measured = table("needs.csv"), table("measured.csv")
    plots = {
        "digests-by-entries.svg": by_entries(needs),
        "digests-by-spends.svg": by_spends(needs),
        "proof-bytes.svg": proof_bytes(needs),
        "time-by-digests.svg": measured_ratios(measured),
    }
    wrong = 0
    for name, text in plots.items():
        if sys.argv[1:] != ["check"]:
            (FOLDER / name).write_text(text, encoding="utf-8")
        elif not (FOLDER / name).exists() or (FOLDER / name).read_text(encoding="utf-8") != text:
            print(f"docs/figures/{name} is not as its table is")
            wrong = 1
    sys.exit(wrong)


main()
