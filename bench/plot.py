"""Draws lines over logarithmic axes, side by side, as SVG."""
import math

PANEL_WIDTH, PANEL_HEIGHT = 420, 380
LEFT, TOP, BELOW, BETWEEN = 120, 60, 70, 110
COLOURS = ("#b3261e", "#1f4e9c", "#2a7d3f", "#7a4fa3", "#8a5a00")
DARK = "#222222"


def text_at(x, y, text, anchor="middle", size=14, colour=DARK, more=""):
    return (
        f'<text x="{x:.1f}" y="{y:.1f}" text-anchor="{anchor}" font-size="{size}" fill="{colour}" {more}>{text}</text>'
    )


def line_between(x1, y1, x2, y2, colour, width=1.0):
    return f'<line x1="{x1:.1f}" y1="{y1:.1f}" x2="{x2:.1f}" y2="{y2:.1f}" stroke="{colour}" stroke-width="{width}"/>'


def powers(axis):
    """The exponents of the powers of ten on an axis, which is given by its ends."""
    least, most = axis
    return range(math.ceil(math.log10(least)), math.floor(math.log10(most)) + 1)


def rounded_out(least, most):
    """The axis from the power of ten below to the one above."""
    return 10.0 ** math.floor(math.log10(least)), 10.0 ** math.ceil(math.log10(most))


def scale(axis, begin, end):
    """Where a value stands on a logarithmic axis."""
    least, most = axis
    return lambda value: begin + (end - begin) * math.log(value / least) / math.log(most / least)


def power_name(exponent):
    return f"{10**exponent:,}" if exponent >= 0 else f"{10.0**exponent:g}"


def panel(left, heading, series, colours, across, upward):
    """One case: axes, and a line with marks for each program."""
    right, bottom = left + PANEL_WIDTH, TOP + PANEL_HEIGHT
    x, y = scale(across, left, right), scale(upward, bottom, TOP)
    parts = [text_at((left + right) / 2, TOP - 20, heading, size=16)]
    for exponent in powers(across):
        parts.append(line_between(x(10**exponent), TOP, x(10**exponent), bottom, "#dddddd"))
        parts.append(text_at(x(10**exponent), bottom + 22, power_name(exponent)))
    for exponent in powers(upward):
        parts.append(line_between(left, y(10.0**exponent), right, y(10.0**exponent), "#dddddd"))
        parts.append(text_at(left - 8, y(10.0**exponent) + 5, power_name(exponent), "end"))
    parts.append(line_between(left, bottom, right, bottom, DARK, 1.5))
    parts.append(line_between(left, TOP, left, bottom, DARK, 1.5))
    parts.append(text_at((left + right) / 2, bottom + 50, "rows"))
    for name, points in series.items():
        places = [(x(rows), y(value)) for rows, value in points]
        path = " ".join(f"{a:.1f},{b:.1f}" for a, b in places)
        parts.append(f'<polyline points="{path}" fill="none" stroke="{colours[name]}" stroke-width="2"/>')
        parts += [f'<circle cx="{a:.1f}" cy="{b:.1f}" r="4" fill="{colours[name]}"/>' for a, b in places]
    return parts


def legend(names, colours, left, y):
    parts = []
    for name in names:
        parts.append(line_between(left, y - 5, left + 30, y - 5, colours[name], 3))
        parts.append(text_at(left + 38, y, name, "start"))
        left += 70 + 8 * len(name)
    return parts


def plot(panels):
    """The plot of the panels, each a heading and the points of its lines: rows and microseconds."""
    names = list(dict.fromkeys(name for _, series in panels for name in series))
    colours = {name: COLOURS[i % len(COLOURS)] for i, name in enumerate(names)}
    values = [value for _, series in panels for points in series.values() for _, value in points]
    rows = [rows for _, series in panels for points in series.values() for rows, _ in points]
    across = min(rows), 1.5 * max(rows)
    upward = rounded_out(min(values), max(values))
    width = LEFT + len(panels) * (PANEL_WIDTH + BETWEEN) - BETWEEN + 40
    height = TOP + PANEL_HEIGHT + BELOW + 40
    parts = [f'<rect width="{width}" height="{height}" fill="#ffffff"/>']
    for i, (heading, series) in enumerate(panels):
        parts += panel(LEFT + i * (PANEL_WIDTH + BETWEEN), heading, series, colours, across, upward)
    middle = TOP + PANEL_HEIGHT / 2
    turned = f'transform="rotate(-90 24 {middle:.1f})"'
    parts.append(text_at(24, middle, "time of one query, microseconds", more=turned))
    parts += legend(names, colours, LEFT, height - 20)
    body = "\n".join(parts)
    return (
        f'<svg xmlns="http://www.w3.org/2000/svg" viewBox="0 0 {width} {height}" width="{width}" height="{height}" '
        f'font-family="sans-serif">\n{body}\n</svg>\n'
    )
