"""Draws curves over the number of cores as SVG, a panel for each, with each point in the colour of the term that bounds it."""
from math import ceil, floor, log2

ACROSS, PANEL_WIDTH, PANEL_HEIGHT = 3, 296, 232
LEFT, RIGHT, TOP, BOTTOM = 62, 14, 30, 34
TITLE, LEGEND_ROW = 40, 22
COLOURS = ["#2a6fbb", "#c8553d", "#3f8f4f", "#8a5bb0", "#b8860b", "#4f5b66", "#c2418c", "#1f9e9e"]
STYLE = ("text { font: 12px sans-serif; fill: #24292f } .title { font-weight: bold } .grid { stroke: #e1e5e9 } "
         ".line { fill: none; stroke: #9aa4ae; stroke-width: 1.5 } .measured { fill: none; stroke: #24292f }")


class Panel:
    """The coordinates of a curve's points. The cores' axis has powers of two, the rates' axis begins with 0."""

    def __init__(self, number, most_cores, most_rate):
        row, column = divmod(number, ACROSS)
        self.left, self.top = column * PANEL_WIDTH + LEFT, TITLE + row * PANEL_HEIGHT + TOP
        self.width, self.height = PANEL_WIDTH - LEFT - RIGHT, PANEL_HEIGHT - TOP - BOTTOM
        self.powers, self.step = log2(most_cores), round_step(most_rate / 4)
        self.most_rate = self.step * ceil(most_rate / self.step)

    def x(self, cores):
        return self.left + log2(cores) / self.powers * self.width

    def y(self, rate):
        return self.top + (1 - rate / self.most_rate) * self.height

    def frame(self, name, ticks):
        lines = [text(self.left + self.width / 2, self.top - 10, name, extra=' class="title"')]
        for number in range(round(self.most_rate / self.step) + 1):
            rate = number * self.step
            x, y = self.left, self.y(rate)
            lines.append(f'<line class="grid" x1="{x}" y1="{y:.1f}" x2="{x + self.width}" y2="{y:.1f}"/>')
            lines.append(text(x - 6, y + 4, told(rate), "end"))
        bottom = self.top + self.height + 16
        return lines + [text(self.x(cores), bottom, cores) for cores in ticks]

    def points(self, points, colour_of):
        way = " ".join(f"{self.x(at.cores):.1f},{self.y(at.rate):.1f}" for at in points)
        lines = [f'<polyline class="line" points="{way}"/>']
        for at in points:
            words = f"{at.cores} cores, {at.planners}/{at.executors}: {at.rate:,.0f} a second, bound by {at.bound}"
            lines.append(f'<circle cx="{self.x(at.cores):.1f}" cy="{self.y(at.rate):.1f}" r="3.5" '
                         f'fill="{colour_of[at.bound]}"><title>{words}</title></circle>')
        return lines

    def measured(self, pairs):
        return [measured_at(self.x(cores), self.y(rate)) for cores, rate in pairs]


def round_step(least):
    """The smallest of 1, 2, 2.5 and 5 times a power of ten that is at least this."""
    power = 10.0 ** floor(len(f"{least:.0f}") - 1)
    return next(digit * power for digit in (1, 2, 2.5, 5, 10) if digit * power >= least)


def text(x, y, words, anchor="middle", extra=""):
    return f'<text x="{x:.1f}" y="{y:.1f}" text-anchor="{anchor}"{extra}>{words}</text>'


def told(rate):
    return f"{rate / 1e6:g} M" if rate >= 1e6 else f"{rate / 1e3:g} k" if rate else "0"


def measured_at(x, y):
    return f'<circle class="measured" cx="{x:.1f}" cy="{y:.1f}" r="5.5"/>'


def legend(colour_of, top):
    lines = [measured_at(LEFT, top - 4), text(LEFT + 12, top, "measured", "start")]
    for number, (bound, colour) in enumerate(colour_of.items(), 1):
        row, column = divmod(number, ACROSS)
        x, y = LEFT + column * PANEL_WIDTH, top + row * LEGEND_ROW
        lines += [f'<circle cx="{x}" cy="{y - 4}" r="4" fill="{colour}"/>', text(x + 12, y, bound, "start")]
    return lines


def draw(title, curves, measured):
    """An SVG of the curves, lists of points by name, and of the measurements, pairs of cores and rate by name."""
    bounds = sorted({at.bound for points in curves.values() for at in points})
    colour_of = dict(zip(bounds, COLOURS))
    most_cores = max(at.cores for points in curves.values() for at in points)
    ticks = [2 ** power for power in range(0, round(log2(most_cores)) + 1, 2)]
    lines = []
    for number, (name, points) in enumerate(curves.items()):
        rates = [at.rate for at in points] + [rate for _, rate in measured[name]]
        panel = Panel(number, most_cores, max(rates))
        lines += panel.frame(name, ticks) + panel.points(points, colour_of) + panel.measured(measured[name])
    bottom = TITLE + ceil(len(curves) / ACROSS) * PANEL_HEIGHT
    width, height = ACROSS * PANEL_WIDTH, bottom + 20 + ceil((len(bounds) + 1) / ACROSS) * LEGEND_ROW
    head = f'<svg xmlns="http://www.w3.org/2000/svg" viewBox="0 0 {width} {height}" role="img">'
    return "\n".join([head, f"<title>{title}</title><style>{STYLE}</style>",
                      f'<rect width="{width}" height="{height}" fill="#ffffff"/>', text(width / 2, 22, title),
                      *lines, *legend(colour_of, bottom + 18), "</svg>"]) + "\n"
