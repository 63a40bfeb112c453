"""The tables of liftd-traffic as a picture: of each pattern a panel with the mean wait (broken line) and the mean time to the
destination (whole line) over the share of the population that comes; of a burst the waits over the minutes."""
import math
from xml.sax.saxutils import escape

WIDE, HIGH, LEFT, TOP = 300, 220, 56, 40  # a panel, and the room beside and above it
HUES = ("#3565a8", "#b0532f", "#2e7d4f", "#8a4fa3", "#8a7420", "#5d6975", "#b03a68", "#1f7f8c")
STYLE = """  <style>
    .ground { fill: #ffffff } text { fill: #22303c } .soft { fill: #5d6975 } .grid { stroke: #d9dcd8 }
    @media (prefers-color-scheme: dark) { .ground { fill: #161b22 } text { fill: #e6e9ec } .soft { fill: #a3adb7 } .grid { stroke: #39424c } .line { filter: brightness(1.7) } }
  </style>"""


def step_of(most):
    """A round number, of which four to ten make the highest value."""
    size = 10 ** math.floor(math.log10(most / 4))
    return next(size * it for it in (1, 2, 5, 10) if most / (size * it) <= 6)


def panel(at, title, lines, most, ticks):
    """One panel: `lines` are pairs of a look and points, ticks what stands below it."""
    left, low, high = at * (WIDE + LEFT) + LEFT, min(ticks), max(ticks)
    x = lambda value: left + 10 + (value - low) / max(high - low, 1e-9) * (WIDE - 20)
    y = lambda value: TOP + HIGH - min(value, most) / most * HIGH
    told = [f'  <text x="{left}" y="{TOP - 14}" font-weight="bold">{escape(title)}</text>']
    step = step_of(most)
    for mark in range(int(most / step) + 1):
        told.append(f'  <path class="grid" d="M{left} {y(mark * step):.1f} H{left + WIDE}"/>')
        told.append(f'  <text class="soft" x="{left - 6}" y="{y(mark * step) + 4:.1f}" text-anchor="end">{mark * step:g}</text>')
    for tick in ticks:
        told.append(f'  <text class="soft" x="{x(tick):.1f}" y="{TOP + HIGH + 18}" text-anchor="middle">{tick:g}</text>')
    for hue, dash, points in lines:
        path = " ".join(f"{'L' if place else 'M'}{x(value):.1f} {y(seconds):.1f}" for place, (value, seconds) in enumerate(points))
        told.append(f'  <path class="line" d="{path}" fill="none" stroke="{hue}" stroke-width="2.2"{dash}/>')
        told += [f'  <circle class="line" cx="{x(value):.1f}" cy="{y(seconds):.1f}" r="3" fill="{hue}"/>' for value, seconds in points if seconds <= most]
    return told


def drawn(panels, names, below):
    """Panels side by side, each with its title, lines and ticks, and below them what their colours mean."""
    seconds = sorted(value for _, lines, _ in panels for _, _, points in lines for _, value in points)
    most = min(seconds[-1], max(120.0, 1.3 * seconds[len(seconds) * 3 // 4]))
    wide, high = len(panels) * (WIDE + LEFT) + 20, TOP + HIGH + 60
    columns = max(1, wide // 190)
    rows = (len(names) + columns - 1) // columns
    told = [f'<svg xmlns="http://www.w3.org/2000/svg" viewBox="0 0 {wide} {high + 20 * rows}" font-family="sans-serif" font-size="12">', STYLE]
    told.append(f'  <rect class="ground" width="{wide}" height="{high + 20 * rows}"/>')
    for at, (title, lines, ticks) in enumerate(panels):
        told += panel(at, title, lines, most, ticks)
    told.append(f'  <text class="soft" x="{LEFT}" y="{TOP + HIGH + 38}">{escape(below)}</text>')
    for at, name in enumerate(names):
        left, top = LEFT + at % columns * 190, high + at // columns * 20
        told.append(f'  <path class="line" d="M{left} {top - 4} h22" stroke="{HUES[at % len(HUES)]}" stroke-width="3"/><text x="{left + 28}" y="{top}">{escape(name)}</text>')
    return "\n".join([*told, "</svg>", ""])


def mean(runs, name):
    return sum(getattr(run, name) for run in runs) / len(runs)


def series_of(told):
    """The names of those that are compared, in their order: a policy, with its places where these are told."""
    return list(dict.fromkeys(name_of(key) for key, _ in told))


def name_of(key):
    return key[2] if key[3] is None else f"{key[2]}, {key[3]} places"


def picture(told):
    """Of the rows of a table: keys of pattern, percentage, policy and places, with the runs of their seeds."""
    names, panels = series_of(told), []
    for pattern in dict.fromkeys(key[0] for key, _ in told):
        lines = []
        for at, name in enumerate(names):
            rows = [(float(key[1][:-1]), runs) for key, runs in told if key[0] == pattern and name_of(key) == name]
            for figure, dash in (("way", ""), ("wait", ' stroke-dasharray="5 4"')):
                lines.append((HUES[at % len(HUES)], dash, [(percent, mean(runs, figure)) for percent, runs in rows]))
        panels.append((pattern, lines, sorted({float(key[1][:-1]) for key, _ in told if key[0] == pattern})))
    return drawn(panels, names, "% of the population that come in five minutes; s: whole lines to the destination, broken lines the wait; what reaches the top goes beyond it")


def picture_of_burst(told, waits, minutes):
    """Of the same rows the waits in s of those who come in each five minutes."""
    names, panels = series_of(told), []
    for key in dict.fromkeys(key[:2] for key, _ in told):
        lines = []
        for at, name in enumerate(names):
            runs = next(runs for it, runs in told if it[:2] == key and name_of(it) == name)
            means = [(place + 2.5, [wait for minute in waits(runs)[place:place + 5] for wait in minute]) for place in range(0, minutes, 5)]
            lines.append((HUES[at % len(HUES)], "", [(place, sum(told) / len(told)) for place, told in means if told]))
        panels.append((" ".join(key), lines, list(range(0, minutes + 1, 20))))
    return drawn(panels, names, "minutes; s that those waited who came then; what reaches the top goes beyond it")
