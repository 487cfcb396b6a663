"""Draws panels of curves over logarithmic axes, as SVG."""

import math

COLOURS = ["#d62728", "#1f77b4", "#2ca02c", "#ff7f0e", "#9467bd", "#8c564b", "#e377c2", "#7f7f7f", "#bcbd22",
           "#17becf", "#000000"]
COLUMNS, WIDTH, HEIGHT, LEFT, RIGHT, TOP = 4, 240, 200, 44, 22, 28


def of_ten(power):
    """A power of ten, in short."""
    for unit, letter in ((6, "M"), (3, "k")):
        if power >= unit:
            return f"{10 ** (power - unit)}{letter}"
    return f"{10.0 ** power:g}"


def panel(title, curves, sizes, low, high, colours):
    """One panel: its frame, a line for each power of ten, and the curves; `low` and `high` are powers of ten."""
    def x_of(size):
        return LEFT + (WIDTH - LEFT - RIGHT) * math.log(size / sizes[0]) / math.log(sizes[-1] / sizes[0])

    def y_of(value):
        return HEIGHT - 24 - (HEIGHT - 24 - TOP) * (math.log10(value) - low) / (high - low)
    res = [f'<text x="{LEFT}" y="18" font-weight="bold">{title}</text>']
    for power in range(low, high + 1):
        y = y_of(10 ** power)
        res.append(f'<line x1="{LEFT}" y1="{y:.1f}" x2="{WIDTH - RIGHT}" y2="{y:.1f}" stroke="#ddd"/>')
        res.append(f'<text x="{LEFT - 4}" y="{y + 4:.1f}" text-anchor="end">{of_ten(power)}</text>')
    for size in sizes:
        res.append(f'<text x="{x_of(size):.1f}" y="{HEIGHT - 8}" text-anchor="middle">{(size + 1) // 1024} KB</text>')
    for key, values in curves.items():
        points = [(x_of(size), y_of(value)) for size, value in zip(sizes, values) if value]
        line = " ".join(f"{x:.1f},{y:.1f}" for x, y in points)
        width = 3 if key == "this" else 1.5
        res.append(f'<polyline points="{line}" fill="none" stroke="{colours[key]}" stroke-width="{width}"/>')
        res.extend(f'<circle cx="{x:.1f}" cy="{y:.1f}" r="2" fill="{colours[key]}"/>' for x, y in points)
    return res


def plot(panels, sizes, caption):
    """Panels by title, each with curves by key, each with a value (or None) for each size."""
    keys = list(dict.fromkeys(key for curves in panels.values() for key in curves))
    colours = {key: COLOURS[i % len(COLOURS)] for i, key in enumerate(keys)}
    values = [value for curves in panels.values() for curve in curves.values() for value in curve if value]
    low, high = math.floor(math.log10(min(values))), math.ceil(math.log10(max(values)))
    rows = -(-len(panels) // COLUMNS)
    width, height = COLUMNS * WIDTH, rows * HEIGHT + 44
    res = [f'<svg xmlns="http://www.w3.org/2000/svg" width="{width}" height="{height}" viewBox="0 0 {width} {height}" '
           'font-family="sans-serif" font-size="10">', f'<rect width="{width}" height="{height}" fill="white"/>']
    for i, (title, curves) in enumerate(panels.items()):
        res.append(f'<g transform="translate({i % COLUMNS * WIDTH},{i // COLUMNS * HEIGHT})">')
        res.extend(panel(title, curves, sizes, low, high, colours))
        res.append("</g>")
    for i, key in enumerate(keys):
        x = 10 + i * 84
        line = f'x1="{x}" y1="{height - 30}" x2="{x + 18}" y2="{height - 30}"'
        res.append(f'<line {line} stroke="{colours[key]}" stroke-width="3"/>')
        res.append(f'<text x="{x + 22}" y="{height - 26}">{key}</text>')
    res.append(f'<text x="10" y="{height - 8}">{caption}; both axes logarithmic</text>')
    return "\n".join([*res, "</svg>", ""])
