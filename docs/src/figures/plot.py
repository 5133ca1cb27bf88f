#!/usr/bin/env python3
# The speed figure: plot.py SPEED RECEIPTS > FIGURE
# SPEED is what docs/src/speed/run prints, RECEIPTS what docs/src/receipts/run prints. The figure, as SVG, has a bar for
# each set of words and each input: our time over the plain Rust program's, on a logarithmic scale.
import math
import re
import sys

LEFT, TOP, ROW, WIDTH = 210, 84, 22, 430
LOW, HIGH = 0.01, 10.0


def speed_rows(path):
    row = re.compile(r"^(.+?)\s+\d+\s+(\d+)\s+([\d.]+)\s+([\d.]+)\s+([\d.]+)\s+same bytes$")
    found = [row.match(line.rstrip("\n")) for line in open(path)]
    return [(m.group(1).strip(), float(m.group(5))) for m in found if m]


def receipt_rows(path):
    lines = [line.strip().split(", ") for line in open(path)]
    head = next(line for line in lines if line[0] == "file")
    column = head.index("receipt / plain")
    return [(line[0], float(line[column])) for line in lines if len(line) == len(head) and line is not head]


def x(value):
    return LEFT + WIDTH * (math.log(value / LOW) / math.log(HIGH / LOW))


def text(at, y, words, anchor="start", size=12, colour="#222", weight="normal"):
    words = words.replace("&", "&amp;").replace("<", "&lt;")
    return (f'<text x="{at:.1f}" y="{y:.1f}" text-anchor="{anchor}" font-size="{size}" fill="{colour}" '
            f'font-weight="{weight}">{words}</text>')


def bars(rows, y):
    parts = []
    for name, ratio in rows:
        ours, one = x(min(max(ratio, LOW), HIGH)), x(1)
        colour = "#2b6cb0" if ratio <= 1 else "#b7791f"
        parts.append(text(LEFT - 10, y + 15, name, "end"))
        parts.append(f'<rect x="{min(ours, one):.1f}" y="{y + 4}" width="{abs(ours - one):.1f}" height="{ROW - 8}" '
                     f'fill="{colour}"/>')
        beside = (ours - 5, "end") if ratio <= 1 else (ours + 5, "start")
        parts.append(text(beside[0], y + 15, f"{ratio:.2f}" if ratio >= 0.1 else f"{ratio:.3f}", beside[1], 11, "#444"))
        y += ROW
    return parts, y


def main():
    groups = [("word to record", speed_rows(sys.argv[1])), ("receipt program", receipt_rows(sys.argv[2]))]
    body, y = [], TOP
    for title, rows in groups:
        body.append(text(LEFT - 10, y + 14, title, "end", 12, "#222", "bold"))
        parts, y = bars(rows, y + ROW)
        body += parts
        y += 8
    grid = []
    for tick in (0.01, 0.1, 1, 10):
        grid.append(f'<line x1="{x(tick):.1f}" y1="{TOP}" x2="{x(tick):.1f}" y2="{y}" '
                    f'stroke="{"#222" if tick == 1 else "#ddd"}"/>')
        grid.append(text(x(tick), TOP - 8, f"{tick:g}", "middle", 11, "#444"))
    width, height = LEFT + WIDTH + 60, y + 34
    print(f'<svg xmlns="http://www.w3.org/2000/svg" width="{width}" height="{height}" '
          f'viewBox="0 0 {width} {height}" font-family="sans-serif">')
    print(f'<rect width="{width}" height="{height}" fill="white"/>')
    print(text(20, 26, "Time as a multiple of a plain Rust program's", size=16, weight="bold"))
    print(text(20, 46, "median of eleven runs, both in one run; left of 1 is faster", size=12, colour="#444"))
    print("\n".join(grid + body))
    print(text(20, height - 12, "sets of words: docs/src/speed; inputs: docs/src/receipts", size=11, colour="#666"))
    print("</svg>")


main()
