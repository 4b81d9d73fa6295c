"""A plot of what `peers.py` measured, as SVG: rates of loads on a scale of equal steps, times of questions on one of equal factors; for `kept.py`."""
import math
from xml.sax.saxutils import escape

COLORS = ["#1b6ca8", "#c44e52", "#55853c", "#8172b2", "#b8860b", "#5f6b76"]
WIDTH, LEFT, RIGHT, BAR, GAP, HEAD, FOOT = 980, 220, 90, 10, 10, 46, 26
SMALL, NOTE = 'font-size="10" fill="#111"', 'font-size="9" fill="#333"'
BOLD, WARNING = 'font-size="13" font-weight="bold" fill="#111"', 'font-size="11" font-weight="bold" fill="#b00020"'
ROOM = WIDTH - LEFT - RIGHT  # of a scale


class Plot:
    """Panels of horizontal bars, one below the other."""

    def __init__(self, kept):
        self.kept, self.parts, self.top = kept, [], 10
        if kept.warning():
            self.words(10, self.top + 8, kept.warning(), WARNING)
            self.top += 18
        x = LEFT
        for number, system in enumerate(kept.systems):
            name = system["name"] + ("" if system["durable"] else " (not durable)")
            self.bar(x, self.top, 14, number)
            self.words(x + 19, self.top + 8, name, SMALL)
            x += 30 + 5.4 * len(name)
        self.top += 16

    def put(self, text):
        self.parts.append(text)

    def words(self, x, y, text, look):
        self.put(f'<text x="{x:.1f}" y="{y:.1f}" {look}>{escape(text)}</text>')

    def bar(self, x, y, width, number):
        """A bar of a system: full where it is durable, else its outline."""
        color = COLORS[number % len(COLORS)]
        fill = color if self.kept.systems[number]["durable"] else "white"
        self.put(f'<rect x="{x:.1f}" y="{y:.1f}" width="{max(width, 1):.1f}" height="{BAR - 2}" fill="{fill}" stroke="{color}"/>')

    def panel(self, title, kind, factor, scale, marks):
        """A panel of a kind of rows: for each system a bar, as long as the scale makes its first number, with a line at its second one."""
        rows, high = self.kept.rows(kind), BAR * len(self.kept.systems)
        self.words(LEFT, self.top + 28, title, BOLD)
        top, bottom = self.top + HEAD, self.top + HEAD + len(rows) * (high + GAP)
        for mark in marks:
            x = LEFT + scale(mark)
            self.put(f'<line x1="{x:.1f}" x2="{x:.1f}" y1="{top - 6}" y2="{bottom}" stroke="#ddd"/>')
            self.words(x, bottom + 12, f"{mark:g}", NOTE + ' text-anchor="middle"')
        for row, words in enumerate(rows):
            y = top + row * (high + GAP)
            self.words(LEFT - 8, y + high / 2 + 3, words, SMALL + ' text-anchor="end"')
            for number in range(len(self.kept.systems)):
                self.row(kind, words, number, y + number * BAR, factor, scale)
        self.top = bottom + FOOT

    def row(self, kind, words, number, y, factor, scale):
        """A bar with its numbers, or what stands in their place."""
        system = self.kept.systems[number]
        medians, told, end = self.kept.medians(words, system["name"]), self.kept.cell(kind, words, system), LEFT
        if medians:
            first, second = (scale(each * factor) for each in medians)
            self.bar(LEFT, y, first, number)
            if first < second:
                middle = y + BAR / 2 - 1
                self.put(f'<line x1="{LEFT + max(first, 1):.1f}" x2="{LEFT + second:.1f}" y1="{middle:.1f}" y2="{middle:.1f}" stroke="#bbb"/>')
            self.put(f'<line x1="{LEFT + second:.1f}" x2="{LEFT + second:.1f}" y1="{y - 0.5:.1f}" y2="{y + BAR - 1.5:.1f}" stroke="#111" stroke-width="2"/>')
            end = LEFT + max(first, second)
        self.words(end + 5, y + 8, told, NOTE)

    def numbers(self, kind, factor):
        """All numbers of a kind of rows."""
        found = (self.kept.medians(words, system["name"]) for words in self.kept.rows(kind) for system in self.kept.systems)
        return [each * factor for pair in found for each in pair or ()]

    def text(self):
        return (f'<svg xmlns="http://www.w3.org/2000/svg" viewBox="0 0 {WIDTH} {self.top}" font-family="sans-serif">\n'
                f'<rect width="{WIDTH}" height="{self.top}" fill="white"/>\n' + "\n".join(self.parts) + "\n</svg>\n")


def steps(most):
    """The marks of a scale of equal steps: round numbers from 0 to no less than the greatest value."""
    wide = 10 ** math.floor(math.log10(most))
    wide = next(each for each in (wide / 5, wide / 2, wide, 2 * wide) if most / each <= 8)
    return [wide * i for i in range(math.ceil(most / wide) + 1)]


def plot(kept):
    """The text of a plot of what was kept."""
    whole = Plot(kept)
    if rates := whole.numbers("rate", 1e-6):
        marks = steps(max(rates))
        whole.panel("Millions of rows a second, acknowledged (line: seen by queries)", "rate", 1e-6, lambda rate: rate / marks[-1] * ROOM, marks)
    if times := whole.numbers("time", 1e3):
        low, high = math.floor(math.log10(min(times))), math.ceil(math.log10(max(times)))
        whole.panel("Milliseconds, warm (line: cold), on a scale of equal factors", "time", 1e3, lambda time: (math.log10(time) - low) / max(high - low, 1) * ROOM,
                    [10.0 ** power for power in range(low, high + 1)])
    whole.words(LEFT, whole.top + 6, f"medians of {kept.about['rounds']}; {kept.about['t']:,} rows of six values; {kept.about['date']}", NOTE)
    whole.top += 20
    return whole.text()
