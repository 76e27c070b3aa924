"""Plots as SVG: series of points on two axes by powers of ten. They are drawn with no library."""
import html
import math

WIDTH, HEIGHT, LEFT, RIGHT, TOP, BOTTOM = 560, 360, 76, 32, 66, 52
COLOURS = ["#1f5fa8", "#c05621", "#2f855a", "#6b46c1"]
STYLE = ("text { font-family: sans-serif; font-size: 12px; fill: #222 } .title { font-weight: bold; font-size: 14px } "
         ".grid { stroke: #dde3ea } .frame { fill: none; stroke: #7a8ba0 } .line { fill: none; stroke-width: 2 }")


class Axis:
    """An axis by powers of ten, from the first that is at most the least value to the first that is at least the greatest."""

    def __init__(self, values, start, end):
        self.low = math.floor(math.log10(min(values)) + 1e-9)
        self.high = max(self.low + 1, math.ceil(math.log10(max(values)) - 1e-9))
        self.start, self.end = start, end

    def place(self, value):
        return self.start + (math.log10(value) - self.low) / (self.high - self.low) * (self.end - self.start)

    def ticks(self):
        return [10 ** power for power in range(self.low, self.high + 1)]


def tick_text(value):
    return f"{value:,.0f}" if value >= 1 else f"{value:g}"


def text(x, y, words, anchor="start", kind="", turn=""):
    return f'<text class="{kind}" x="{x:.0f}" y="{y:.0f}" text-anchor="{anchor}"{turn}>{html.escape(words)}</text>'


def grid(across, up, of_x, of_y):
    """The lines of both axes, their numbers, and what they are of."""
    for value in across.ticks():
        x = across.place(value)
        yield f'<path class="grid" d="M{x:.1f} {TOP} V{HEIGHT - BOTTOM}"/>'
        yield text(x, HEIGHT - BOTTOM + 18, tick_text(value), "middle")
    for value in up.ticks():
        y = up.place(value)
        yield f'<path class="grid" d="M{LEFT} {y:.1f} H{WIDTH - RIGHT}"/>'
        yield text(LEFT - 8, y + 4, tick_text(value), "end")
    yield f'<rect class="frame" x="{LEFT}" y="{TOP}" width="{WIDTH - LEFT - RIGHT}" height="{HEIGHT - TOP - BOTTOM}"/>'
    yield text((LEFT + WIDTH - RIGHT) / 2, HEIGHT - 12, of_x, "middle")
    middle = (TOP + HEIGHT - BOTTOM) / 2
    yield text(16, middle, of_y, "middle", turn=f' transform="rotate(-90 16 {middle:.0f})"')


def line(points, across, up, colour):
    places = [(across.place(x), up.place(y)) for x, y in points]
    yield f'<path class="line" stroke="{colour}" d="M{" L".join(f"{x:.1f} {y:.1f}" for x, y in places)}"/>'
    for (x, y), (size, value) in zip(places, points):
        yield f'<circle cx="{x:.1f}" cy="{y:.1f}" r="3.5" fill="{colour}"><title>{value:g} at {size:,}</title></circle>'


def legend(names):
    x = LEFT
    for name, colour in zip(names, COLOURS):
        yield f'<rect x="{x:.0f}" y="38" width="12" height="12" fill="{colour}"/>'
        yield text(x + 18, 48, name)
        x += 34 + 6.6 * len(name)


def plot(title, of_x, of_y, series):
    """The text of a plot: the series by their names, each a list of points (x, y), all greater than zero."""
    points = [point for found in series.values() for point in found]
    across = Axis([x for x, _ in points], LEFT, WIDTH - RIGHT)
    up = Axis([y for _, y in points], HEIGHT - BOTTOM, TOP)
    lines = [f'<svg xmlns="http://www.w3.org/2000/svg" viewBox="0 0 {WIDTH} {HEIGHT}" width="{WIDTH}" height="{HEIGHT}"><style>{STYLE}</style>',
             '<rect width="100%" height="100%" fill="#fff"/>', text(LEFT, 24, title, kind="title")]
    lines += [*legend(series), *grid(across, up, of_x, of_y)]
    for found, colour in zip(series.values(), COLOURS):
        lines += line(found, across, up, colour)
    return "\n".join([*lines, "</svg>", ""])
