#!/usr/bin/env python3
"""Draws how the times of the calls grow, from what `bench --growth` prints: bench/plot.py GROWTH.json FOLDER

Writes growth-lines.svg, growth-tips.svg, growth-parts.svg and the tables, growth.md, to the folder. Beside the times stands
the number of steps that the code promises, scaled so that it meets the proved library at the largest size.
"""

import json
import math
import pathlib
import sys
from xml.sax.saxutils import escape

# The steps of each call: n lines, m tips, r of them named, d lines without equal ones before them.
LINES = ("n", lambda at: at["lines"])
TABLE = ("n + r³/6", lambda at: at["lines"] + at["named"] ** 3 / 6)
BOUNDS = {
    "read": LINES,
    "common": LINES,
    "keep": LINES,
    "merge": LINES,
    "mend": LINES,
    "quick": ("n · rounds", lambda at: at["line_rounds"]),
    "alone": ("n · rounds, of each board", lambda at: at["half_rounds"]),
    "best": TABLE,
    "check": TABLE,
    "along": LINES,
    "exact": ("r · 2^r", lambda at: at["named"] * 2 ** at["named"]),
    "goal": ("(1 + d) · m³/2", lambda at: (1 + at["distinct"]) * at["tips"] ** 3 / 2),
    "junior": ("n · m²/2", lambda at: at["lines"] * at["tips"] ** 2 / 2),
    "report": ("n · rounds + r³/6", lambda at: at["line_rounds"] + at["named"] ** 3 / 6),
    "order": ("parts²", lambda at: at["parts"] ** 2),
    "order_by_tips": ("parts²", lambda at: at["parts"] ** 2),
    "windows": ("parts³ · log parts", lambda at: at["parts"] ** 3 * math.log2(at["parts"])),
}
TITLES = {
    "lines": "Time a call against lines, 64 tips (the Junior: 8 tips)",
    "tips": "Time a call against tips, 512 lines (the Junior: 64 lines; exact sharing: the tips in use)",
    "parts": "Time of the calls on parts and rules against parts, each anywhere, eight rules a part",
    "rack": "The same 20 lines on 8 named tips, in a rack of 8 and of 64",
}
LIBRARIES = {"tipshare": "proved", "baseline": "C++, same steps", "tuned": "C++, tuned"}
STYLE = """
svg { --page: #ffffff; --ink: #1f2933; --faint: #66727f; --grid: #dde3e9; --proved: #0b63c5; --tuned: #c2410c; }
@media (prefers-color-scheme: dark) {
svg { --page: #0d1117; --ink: #e6edf3; --faint: #9aa7b4; --grid: #2b333c; --proved: #6cb2ff; --tuned: #ff9d5c; } }
text { font: 11px sans-serif; fill: #1f2933; fill: var(--ink); } .head { font-size: 15px; font-weight: bold; }
.call { font-size: 13px; font-weight: bold; } .faint { fill: #66727f; fill: var(--faint); }
.page { fill: #ffffff; fill: var(--page); } path { fill: none; }
.grid { stroke: #dde3e9; stroke: var(--grid); } .frame { stroke: #66727f; stroke: var(--faint); }
.proved { stroke: #0b63c5; stroke: var(--proved); stroke-width: 2; }
.tuned { stroke: #c2410c; stroke: var(--tuned); stroke-width: 1.5; }
.bound { stroke: #66727f; stroke: var(--faint); stroke-width: 1.5; stroke-dasharray: 2 4; }
.dot { fill: #0b63c5; fill: var(--proved); } .diamond { fill: #ffffff; fill: var(--page); }
""".strip()


def shown(nanoseconds):
    """Three digits and a unit."""
    for unit, size in (("ms", 1e6), ("µs", 1e3), ("ns", 1)):
        if nanoseconds >= 0.9995 * size or unit == "ns":
            value = nanoseconds / size
            return f"{value:.{max(0, 2 - int(math.log10(max(value, 1) * 1.0005)))}f} {unit}"


def tick(nanoseconds):
    for unit, size in (("ms", 1e6), ("µs", 1e3), ("ns", 1)):
        if nanoseconds >= size:
            return f"{nanoseconds / size:g} {unit}"
    return f"{nanoseconds:g} ns"


class Call:
    """What was measured of one call along one axis, by size."""

    def __init__(self, name, axis, rows):
        self.name, self.axis = name, axis
        key = "tips" if axis == "rack" else axis
        mine = {(row["library"], row[key]): row for row in rows if row["call"] == name and row["axis"] == axis}
        self.sizes = sorted({size for _, size in mine})
        self.at = [mine["tipshare", size] for size in self.sizes]
        self.times = {library: [mine[library, size]["median_ns"] for size in self.sizes] for library in LIBRARIES}
        self.steps, count = BOUNDS[name]
        counts = [count(at) for at in self.at]
        scale = self.times["tipshare"][-1] / counts[-1]
        self.bound = [scale * number for number in counts]


def ticks(low, high):
    """Powers of ten; where there are less than two, 2 and 5 times them too."""
    powers = range(math.floor(math.log10(low)), math.ceil(math.log10(high)) + 1)
    tens = [10.0**power for power in powers if low <= 10.0**power <= high]
    if len(tens) >= 2:
        return tens
    return [base * 10.0**power for power in powers for base in (1, 2, 5) if low <= base * 10.0**power <= high]


def panel(call, left, top, width, height):
    """One call: log-log, times of the proved library and the tuned C++ with the bound."""
    every = call.times["tipshare"] + call.times["tuned"] + call.bound
    low, high = 0.8 * min(every), 1.25 * max(every)
    if high / low < 6:
        low, high = low / (6 * low / high) ** 0.5, high * (6 * low / high) ** 0.5

    def x(size):
        return left + 10 + (width - 20) * math.log(size / call.sizes[0]) / math.log(call.sizes[-1] / call.sizes[0])

    def y(time):
        return top + height - height * math.log(time / low) / math.log(high / low)

    def line(kind, times):
        points = "L".join(f"{x(size):.1f} {y(time):.1f}" for size, time in zip(call.sizes, times))
        return f'<path class="{kind}" d="M{points}"/>'

    out = [f'<text class="call" x="{left}" y="{top - 20}">{call.name}</text>']
    out.append(f'<text class="faint" x="{left}" y="{top - 6}">bound {escape(call.steps)}</text>')
    for time in ticks(low, high):
        out.append(f'<path class="grid" d="M{left} {y(time):.1f}h{width}"/>')
        out.append(f'<text class="faint" x="{left - 5}" y="{y(time) + 4:.1f}" text-anchor="end">{tick(time)}</text>')
    for size in call.sizes:
        out.append(f'<path class="grid" d="M{x(size):.1f} {top}v{height}"/>')
        out.append(f'<text class="faint" x="{x(size):.1f}" y="{top + height + 14}" text-anchor="middle">{size}</text>')
    out.append(f'<text class="faint" x="{left + width / 2}" y="{top + height + 28}" text-anchor="middle">{call.axis}</text>')
    out.append(f'<path class="frame" d="M{left} {top}v{height}h{width}"/>')
    out.append(line("bound", call.bound))
    out.append(line("tuned", call.times["tuned"]))
    for size, time in zip(call.sizes, call.times["tuned"]):
        out.append(f'<path class="tuned diamond" d="M{x(size) - 3.5:.1f} {y(time):.1f}l3.5-3.5l3.5 3.5l-3.5 3.5z"/>')
    out.append(line("proved", call.times["tipshare"]))
    for size, time in zip(call.sizes, call.times["tipshare"]):
        out.append(f'<circle class="dot" cx="{x(size):.1f}" cy="{y(time):.1f}" r="3"/>')
    return out


def legend(left, top):
    return [
        f'<path class="proved" d="M{left} {top}h28"/><circle class="dot" cx="{left + 14}" cy="{top}" r="3"/>',
        f'<text x="{left + 34}" y="{top + 4}">proved library</text>',
        f'<path class="tuned" d="M{left + 130} {top}h28"/>'
        f'<path class="tuned diamond" d="M{left + 140.5} {top}l3.5-3.5l3.5 3.5l-3.5 3.5z"/>',
        f'<text x="{left + 164}" y="{top + 4}">C++, tuned</text>',
        f'<path class="bound" d="M{left + 240} {top}h28"/>',
        f'<text x="{left + 274}" y="{top + 4}">bound on the steps, scaled to the proved library at the largest size</text>',
    ]


def drawing(axis, calls, columns, width, height):
    """Panels of this size, so many beside each other."""
    across, down = width + 66, height + 74
    rows = -(-len(calls) // columns)
    size = f"{columns * across + 20} {76 + rows * down}"
    out = [f'<svg xmlns="http://www.w3.org/2000/svg" viewBox="0 0 {size}">', f"<title>{escape(TITLES[axis])}</title>"]
    out += [f"<style>{STYLE}</style>", '<rect class="page" width="100%" height="100%"/>']
    out.append(f'<text class="head" x="20" y="26">{escape(TITLES[axis])}</text>')
    out += legend(20, 46)
    for place, call in enumerate(calls):
        out += panel(call, 66 + place % columns * across, 108 + place // columns * down, width, height)
    return "\n".join(out + ["</svg>", ""])


def table(title, calls):
    """A table for each list of sizes; the last two columns are the last of them by the one before it, and that of the bound."""
    out = [f"## {title}", ""] if calls else []
    for sizes in dict.fromkeys(tuple(call.sizes) for call in calls):
        heads = "".join(f" {size} |" for size in sizes)
        out += [f"| Call | Library |{heads} Last step | Bound |", "|---|---|" + "---:|" * (len(sizes) + 2)]
        for call in (call for call in calls if tuple(call.sizes) == sizes):
            for library in LIBRARIES:
                times = call.times[library]
                cells = "".join(f" {shown(time)} |" for time in times)
                bound = f"x {call.bound[-1] / call.bound[-2]:.2f}, {call.steps}" if library == "tipshare" else ""
                out.append(f"| {call.name} | {LIBRARIES[library]} |{cells} x {times[-1] / times[-2]:.2f} | {bound} |")
        out.append("")
    return out


def main(source, folder):
    rows = json.loads(pathlib.Path(source).read_text(encoding="utf-8"))
    folder = pathlib.Path(folder)

    def calls(axis):
        return [Call(name, axis, rows) for name in BOUNDS if any(row["call"] == name and row["axis"] == axis for row in rows)]

    page = ["# How the times grow", "", "Made by `bench/growth`; the boards and the bounds are in [README.md](README.md).", ""]
    for axis, columns, width, height in (("lines", 4, 168, 120), ("tips", 4, 168, 120), ("parts", 1, 640, 260), ("rack", 0, 0, 0)):
        drawn = calls(axis)
        if drawn and columns:
            name = f"growth-{axis}.svg"
            (folder / name).write_text(drawing(axis, drawn, columns, width, height), encoding="utf-8")
            page += [f"![{TITLES[axis]}]({name})", ""]
        page += table(TITLES[axis], drawn)
    (folder / "growth.md").write_text("\n".join(page), encoding="utf-8")


if __name__ == "__main__":
    if len(sys.argv) != 3:
        sys.exit(__doc__)
    main(*sys.argv[1:])
