"""Charts as SVG text: pairs of dots, bars, stacked bars and panels of lines.

A chart is a function of its data alone, so the same data gives the same text. Colours follow the reader's light or dark
theme, and the background is left open.
"""
import math
import xml.sax.saxutils

WIDTH = 760
STYLE = """
text { font: 12px system-ui, -apple-system, "Segoe UI", "Liberation Sans", sans-serif; fill: #1f2328 }
.title { font-size: 15px; font-weight: 600 }
.soft { fill: #59636e }
.end { text-anchor: end }
.middle { text-anchor: middle }
.grid { stroke: #d1d9e0; stroke-width: 1 }
.mark { stroke: #59636e; stroke-width: 1; stroke-dasharray: 4 3 }
.line { fill: none; stroke-width: 2 }
.f0 { fill: #0550ae } .f1 { fill: #bc4c00 } .f2 { fill: #1a7f37 } .f3 { fill: #8250df } .f4 { fill: #6e7781 }
.s0 { stroke: #0550ae } .s1 { stroke: #bc4c00; stroke-dasharray: 7 3 } .s2 { stroke: #1a7f37; stroke-dasharray: 2 3 }
.s3 { stroke: #8250df; stroke-dasharray: 9 3 2 3 } .s4 { stroke: #6e7781; stroke-dasharray: 4 4 }
@media (prefers-color-scheme: dark) {
text { fill: #f0f6fc }
.soft { fill: #9198a1 }
.grid { stroke: #3d444d }
.mark { stroke: #9198a1 }
.f0 { fill: #58a6ff } .f1 { fill: #f0883e } .f2 { fill: #3fb950 } .f3 { fill: #bc8cff } .f4 { fill: #9ea7b3 }
.s0 { stroke: #58a6ff } .s1 { stroke: #f0883e } .s2 { stroke: #3fb950 } .s3 { stroke: #bc8cff } .s4 { stroke: #9ea7b3 }
}
"""


def wide(text, size=12):
    """about how wide a text is, and rather too much"""
    return len(text) * size * (0.64 if size > 12 else 0.58)


def shown(value):
    """a number in three digits, or as a whole one with commas"""
    return f"{value:,.0f}" if value >= 100 else f"{value:.3g}"


def short(value):
    """a number beside an axis"""
    for least, letter in ((1e6, "M"), (1e3, "k")):
        if value >= least:
            return f"{value / least:g}{letter}"
    return f"{value:g}"


class Canvas:
    """A picture that grows downwards: its elements, and how far it reaches."""

    def __init__(self, title):
        self.title, self.parts, self.bottom = title, [], 8
        words, line = title.split(), ""
        for word in words + [""]:
            if line and (not word or wide(f"{line} {word}", 15) > WIDTH - 16):
                self.bottom += 20
                self.text(8, self.bottom - 4, line, "title")
                line = ""
            line = f"{line} {word}".strip()
        self.bottom += 6

    def text(self, x, y, text, kind=""):
        self.parts.append(f'<text x="{x:.1f}" y="{y:.1f}" class="{kind}">{xml.sax.saxutils.escape(text)}</text>')

    def line(self, x1, y1, x2, y2, kind):
        self.parts.append(f'<line x1="{x1:.1f}" y1="{y1:.1f}" x2="{x2:.1f}" y2="{y2:.1f}" class="{kind}"/>')

    def box(self, x, y, width, height, kind):
        self.parts.append(f'<rect x="{x:.1f}" y="{y:.1f}" width="{width:.1f}" height="{height:.1f}" class="{kind}"/>')

    def dot(self, x, y, kind):
        self.parts.append(f'<circle cx="{x:.1f}" cy="{y:.1f}" r="4" class="{kind}"/>')

    def legend(self, names, unit):
        """a line with each series' name, and the unit at the right"""
        x = 8
        self.bottom += 16
        for i, name in enumerate(names):
            self.box(x, self.bottom - 10, 11, 11, f"f{i}")
            self.text(x + 16, self.bottom, name)
            x += 34 + wide(name)
        if x + wide(unit) > WIDTH - 8:
            self.bottom += 18
        self.text(WIDTH - 8, self.bottom, unit, "soft end")
        self.bottom += 10

    def svg(self):
        label = xml.sax.saxutils.quoteattr(self.title)
        height = self.bottom + 8
        return "\n".join([f'<svg xmlns="http://www.w3.org/2000/svg" viewBox="0 0 {WIDTH} {height:.0f}" width="{WIDTH}" '
                          f'height="{height:.0f}" role="img" aria-label={label}>',
                          f"<style>{STYLE}</style>", *self.parts, "</svg>", ""])


def decades(values):
    """the powers of ten around the values"""
    return range(math.floor(math.log10(min(values))), math.ceil(math.log10(max(values))) + 1)


def steps(most):
    """round numbers from 0 to the most or a little less, at most six"""
    step = 10 ** math.floor(math.log10(most))
    step = next(step * f for f in (0.2, 0.25, 0.5, 1, 2) if most / (step * f) <= 5.5)
    return [step * i for i in range(int(most / step + 1e-9) + 1)]


def pairs(title, names, unit, rows, last="times"):
    """Two dots in each row, on a scale of powers of ten. A row is a label and two values; their ratio stands at the end."""
    canvas = Canvas(title)
    canvas.legend(names, f"{unit}, logarithmic")
    left = 16 + max(wide(label) for label, _, _ in rows) + 60
    right = WIDTH - 140
    powers = decades([value for row in rows for value in row[1:]])
    place = lambda value: left + (math.log10(value) - powers[0]) / (powers[-1] - powers[0]) * (right - left)
    top, bottom = canvas.bottom + 8, canvas.bottom + 8 + 24 * len(rows)
    for power in powers:
        canvas.line(place(10**power), top, place(10**power), bottom, "grid")
        canvas.text(place(10**power), bottom + 16, short(10**power), "soft middle")
    canvas.text(WIDTH - 8, bottom + 16, last, "soft end")
    for i, (label, ours, theirs) in enumerate(rows):
        y = top + 24 * i + 12
        canvas.text(8, y + 4, label)
        canvas.line(place(ours), y, place(theirs), y, "mark")
        for value, kind in ((theirs, "f1"), (ours, "f0")):
            canvas.dot(place(value), y, kind)
        low, high = sorted((ours, theirs))
        canvas.text(place(low) - 8, y + 4, shown(low), "end")
        canvas.text(place(high) + 8, y + 4, shown(high))
        canvas.text(WIDTH - 8, y + 4, shown(high / low), "end")
    canvas.bottom = bottom + 22
    return canvas.svg()


def bars(title, names, unit, groups, mark=None):
    """Bars from 0, in groups. A group is a label, and for each bar its series, its value and a note beside it."""
    canvas = Canvas(title)
    canvas.legend(names, unit)
    left = 20 + max(wide(label) for label, _ in groups)
    most = max(value for _, items in groups for _, value, _ in items)
    room = 16 + max(wide(note) for _, items in groups for _, _, note in items)
    place = lambda value: left + value / most * (WIDTH - left - room)
    top = y = canvas.bottom + 6
    body, canvas.parts = canvas.parts, []
    for label, items in groups:
        canvas.text(8, y + 7 * len(items) + 4, label)
        for series, value, note in items:
            canvas.box(left, y + 1, place(value) - left, 12, f"f{series}")
            canvas.text(place(value) + 6, y + 11, note)
            y += 14
        y += 9
    content, canvas.parts = canvas.parts, body
    for value in steps(most):
        canvas.line(place(value), top, place(value), y, "grid")
        canvas.text(place(value), y + 14, short(value), "soft middle")
    canvas.parts += content
    if mark is not None:
        canvas.line(place(mark), top - 4, place(mark), y, "mark")
    canvas.bottom = y + 20
    return canvas.svg()


def stacks(title, names, unit, rows):
    """One bar in each row, made of parts. A row is a label and the parts' values; their sum stands at the end."""
    canvas = Canvas(title)
    canvas.legend(names, unit)
    left = 20 + max(wide(label) for label, _ in rows)
    most = max(sum(values) for _, values in rows)
    place = lambda value: left + value / most * (WIDTH - left - 60)
    top, bottom = canvas.bottom + 6, canvas.bottom + 6 + 21 * len(rows)
    for value in steps(most):
        canvas.line(place(value), top, place(value), bottom, "grid")
        canvas.text(place(value), bottom + 14, short(value), "soft middle")
    for i, (label, values) in enumerate(rows):
        y, x = top + 21 * i, 0
        canvas.text(8, y + 14, label)
        for series, value in enumerate(values):
            canvas.box(place(x), y + 3, place(x + value) - place(x), 14, f"f{series}")
            x += value
        canvas.text(place(x) + 6, y + 14, shown(x))
    canvas.bottom = bottom + 20
    return canvas.svg()


def panels(title, names, unit, across, parts, columns=3, powers=True, mark=None):
    """Lines in several panels of one scale. A part is a name, the words below its points, and a list of values for each
    series, None where there is none. `across` says what the words are. The scale has powers of ten, or begins at 0."""
    canvas = Canvas(title)
    canvas.legend(names, f"{unit}, logarithmic" if powers else unit)
    values = [v for _, _, series in parts for line in series for v in line if v is not None]
    if powers:
        ticks = [10.0**power for power in decades(values)]
        place = lambda value: (math.log10(value) - math.log10(ticks[0])) / (math.log10(ticks[-1]) - math.log10(ticks[0]))
    else:
        ticks = steps(max(values) * 1.05)
        place = lambda value: value / (max(values) * 1.05)
    wide_panel, height = (WIDTH - 8) / columns, 128 if columns > 1 else 220
    for i, (name, words, series) in enumerate(parts):
        left = 8 + wide_panel * (i % columns) + 40
        right = 8 + wide_panel * (i % columns + 1) - 22
        top = canvas.bottom + 24 + (height + 66) * (i // columns)
        y = lambda value: top + height * (1 - place(value))
        x = lambda at: left + 8 + (right - left - 16) * at / max(1, len(words) - 1)
        canvas.text(left, top - 8, name)
        for tick in ticks:
            canvas.line(left, y(tick), right, y(tick), "grid")
            canvas.text(left - 6, y(tick) + 4, short(tick), "soft end")
        if mark is not None:
            canvas.line(left, y(mark), right, y(mark), "mark")
        for at, word in enumerate(words):
            canvas.text(x(at), top + height + 16, word, "soft middle")
        for number, line in reversed(list(enumerate(series))):
            points = [(x(at), y(value)) for at, value in enumerate(line) if value is not None]
            path = " ".join(f"{px:.1f},{py:.1f}" for px, py in points)
            canvas.parts.append(f'<polyline points="{path}" class="line s{number}"/>')
            for px, py in points:
                canvas.dot(px, py, f"f{number}")
    rows = -(-len(parts) // columns)
    canvas.bottom += (height + 66) * rows
    canvas.text(WIDTH / 2, canvas.bottom - 2, across, "soft middle")
    canvas.bottom += 4
    return canvas.svg()
