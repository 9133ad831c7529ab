"""Line charts as SVG, written with nothing but Python. Both axes are logarithmic."""
import html
import math

COLOURS = ("#0b6e4f", "#c0392b", "#2c5aa0", "#b8860b", "#6c3483", "#5d6d7e", "#d35400", "#148f77", "#7b241c", "#1a5276")
# The colours of our lines, in the same order on each chart.
OURS = ("#111111", "#8e8e8e")
WIDTH, HEIGHT = 790, 420
LEFT, RIGHT, TOP, BOTTOM = 70, 300, 40, 50


def ticks(low, high):
    """Round values that cover a range: 1, 2 and 5 times powers of ten, or only the powers if the range is
    wide."""
    steps = (1,) if high / low > 300 else (1, 2, 5)
    powers = range(math.floor(math.log10(low)) - 1, math.ceil(math.log10(high)) + 1)
    return [step * 10.0 ** power for power in powers for step in steps if low * 0.999 <= step * 10.0 ** power <= high * 1.001]


def text_of(value):
    return f"{value:,.0f}" if value >= 10 else f"{value:.5f}".rstrip("0").rstrip(".")


class Axis:
    def __init__(self, values, start, length, marks=None):
        self.low, self.high = min(values), max(values)
        if marks is None:
            self.low, self.high = self.low / 1.25, self.high * 1.25
        if self.low == self.high:
            self.low, self.high = self.low / 2, self.high * 2
        self.start, self.length, self.marks = start, length, marks or ticks(self.low, self.high)

    def at(self, value):
        share = math.log(value / self.low) / math.log(self.high / self.low)
        return self.start + self.length * share


def chart(title, across, up, lines):
    """A chart's text. `lines` are names with points (x, y), all above 0; x marks are the points' own."""
    points = [point for _, found in lines for point in found]
    if not points:
        return None
    x = Axis([it[0] for it in points], LEFT, WIDTH - LEFT - RIGHT, sorted({it[0] for it in points}))
    y = Axis([it[1] for it in points], HEIGHT - BOTTOM, TOP + BOTTOM - HEIGHT)
    out = [f'<svg xmlns="http://www.w3.org/2000/svg" viewBox="0 0 {WIDTH} {HEIGHT}" font-family="sans-serif" font-size="12">',
           f'<rect width="{WIDTH}" height="{HEIGHT}" fill="white"/>',
           f'<text x="{LEFT}" y="24" font-size="15">{html.escape(title)}</text>']
    bottom, right = HEIGHT - BOTTOM, WIDTH - RIGHT
    for mark in x.marks:
        out.append(f'<line x1="{x.at(mark):.1f}" y1="{TOP}" x2="{x.at(mark):.1f}" y2="{bottom}" stroke="#ddd"/>')
        out.append(f'<text x="{x.at(mark):.1f}" y="{bottom + 16}" text-anchor="middle">{text_of(mark)}</text>')
    for mark in y.marks:
        out.append(f'<line x1="{LEFT}" y1="{y.at(mark):.1f}" x2="{right}" y2="{y.at(mark):.1f}" stroke="#ddd"/>')
        out.append(f'<text x="{LEFT - 6}" y="{y.at(mark) + 4:.1f}" text-anchor="end">{text_of(mark)}</text>')
    out.append(f'<text x="{(LEFT + right) / 2}" y="{HEIGHT - 12}" text-anchor="middle">{html.escape(across)}</text>')
    middle = (TOP + bottom) / 2
    out.append(f'<text x="16" y="{middle}" text-anchor="middle" transform="rotate(-90 16 {middle})">{html.escape(up)}</text>')
    drawn = strokes([name for name, _ in lines])
    for number, (name, found) in enumerate(lines):
        out += line(name, sorted(found), drawn[number], x, y, TOP + 6 + 19 * number)
    return "\n".join([*out, "</svg>"]) + "\n"


def strokes(names):
    """How the lines are drawn: ours are thick, in colours of no other line. If the others' colours repeat,
    they are dashed."""
    drawn, ours, others = [], 0, 0
    for name in names:
        if name.startswith("earliest"):
            drawn.append(f'stroke="{OURS[ours % len(OURS)]}" stroke-width="4"')
            ours += 1
        else:
            dashes = ' stroke-dasharray="6 3"' if others >= len(COLOURS) else ""
            drawn.append(f'stroke="{COLOURS[others % len(COLOURS)]}" stroke-width="2"{dashes}')
            others += 1
    return drawn


def line(name, points, drawn, x, y, height):
    """A line with its points, and its name next to the chart."""
    places = [(x.at(a), y.at(b)) for a, b in points]
    path = " ".join(f"{a:.1f},{b:.1f}" for a, b in places)
    out = [f'<polyline points="{path}" fill="none" {drawn}/>']
    out += [f'<circle cx="{a:.1f}" cy="{b:.1f}" r="3" fill="white" {drawn}/>' for a, b in places]
    begin = WIDTH - RIGHT + 12
    out.append(f'<line x1="{begin}" y1="{height}" x2="{begin + 18}" y2="{height}" {drawn}/>')
    out.append(f'<text x="{begin + 24}" y="{height + 4}">{html.escape(name)}</text>')
    return out
