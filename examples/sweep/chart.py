"""Charts as SVG, one or more panels under each other over the same places: lines with a mark at each place, or bars.

Series are told apart by their marks and strokes, so a chart can be read without its colours.
"""

from collections.abc import Callable
from dataclasses import dataclass
from html import escape

WIDTH, PANEL_HEIGHT = 720, 220
LEFT, RIGHT, TOP, GAP, BOTTOM = 90, 20, 44, 28, 56
LEGEND_ROW = 20

# For each series a colour (of a palette that colour-blind readers can tell apart), a stroke's dashes and a mark.
STYLES = (
    ("#0072b2", "", "circle"),
    ("#d55e00", "8 4", "square"),
    ("#009e73", "2 3", "triangle"),
    ("#cc79a7", "10 3 2 3", "diamond"),
    ("#56b4e9", "14 4", "cross"),
    ("#000000", "4 4", "plus"),
    ("#e69f00", "10 2", "bar"),
    ("#666666", "1 2", "wedge"),
)


@dataclass(frozen=True)
class Point:
    """A value at a place, and the least and the greatest of what it stands for."""

    low: float
    middle: float
    high: float


@dataclass(frozen=True)
class Series:
    """A value for each place, or none there."""

    name: str
    points: list[Point | None]


@dataclass(frozen=True)
class Panel:
    """Series over the same places, and what they are, with the unit."""

    label: str
    series: list[Series]


@dataclass(frozen=True)
class Frame:
    """Where a panel lies, in pixels, and what its axes span: so many places, and values from 0 to `greatest`."""

    top: float
    places: int
    greatest: float

    @property
    def step(self) -> float:
        """The distance of two places."""
        return (WIDTH - LEFT - RIGHT) / self.places

    def x(self, place: float) -> float:
        """Where a place is: the middle of its share of the width."""
        return LEFT + (place + 0.5) * self.step

    def y(self, value: float) -> float:
        """Where a value is."""
        return self.top + PANEL_HEIGHT * (1 - value / self.greatest)


def tick_step(greatest: float) -> float:
    """The distance of ticks, 1, 2 or 5 times a power of ten, so that at most six of them reach the greatest value."""
    power = 1.0
    while power * 50 < greatest:
        power *= 10
    return next(power * factor for factor in (1, 2, 5, 10) if power * factor * 6 >= greatest)


def text(x: float, y: float, words: str, anchor: str = "middle", more: str = "") -> str:
    """A piece of text, its base line at y."""
    return f'<text x="{x:.1f}" y="{y:.1f}" text-anchor="{anchor}"{more}>{escape(words)}</text>'


def mark(kind: str, x: float, y: float, colour: str) -> str:
    """A mark of a series, about 8 pixels wide."""
    shapes = {
        "circle": "m-4,0a4,4 0 1,0 8,0a4,4 0 1,0 -8,0z",
        "square": "m-4,-4h8v8h-8z",
        "triangle": "m0,-5l5,9h-10z",
        "diamond": "m0,-5l5,5l-5,5l-5,-5z",
        "cross": "m-4,-4l8,8m0,-8l-8,8",
        "plus": "m-5,0h10m-5,-5v10",
        "bar": "m-5,-2h10v4h-10z",
        "wedge": "m0,5l5,-9h-10z",
    }
    fill = colour if kind in ("circle", "triangle", "bar") else "white"
    return f'<path d="M{x:.1f},{y:.1f}{shapes[kind]}" fill="{fill}" stroke="{colour}" stroke-width="1.5"/>'


def axes(frame: Frame, label: str) -> list[str]:
    """A panel's ticks and lines, and its label."""
    drawn = []
    step = tick_step(frame.greatest)
    for index in range(int(frame.greatest / step) + 1):
        y = frame.y(index * step)
        drawn.append(f'<path d="M{LEFT},{y:.1f}H{WIDTH - RIGHT}" stroke="#ddd"/>')
        drawn.append(text(LEFT - 8, y + 4, f"{index * step:,.0f}", "end"))
    corner = f"M{LEFT},{frame.top}V{frame.top + PANEL_HEIGHT}H{WIDTH - RIGHT}"
    drawn.append(f'<path d="{corner}" fill="none" stroke="#333"/>')
    middle = frame.top + PANEL_HEIGHT / 2
    drawn.append(text(18, middle, label, more=f' transform="rotate(-90 18 {middle:.1f})"'))
    return drawn


def draw_lines(frame: Frame, series: list[Series]) -> list[str]:
    """A line for each series, with a mark at each place and a bar from its least to its greatest value."""
    drawn = []
    for index, one in enumerate(series):
        colour, dashes, kind = STYLES[index % len(STYLES)]
        placed = [(frame.x(place), point) for place, point in enumerate(one.points) if point]
        path = "L".join(f"{x:.1f},{frame.y(point.middle):.1f}" for x, point in placed)
        drawn.append(f'<path d="M{path}" fill="none" stroke="{colour}" stroke-width="2" stroke-dasharray="{dashes}"/>')
        for x, point in placed:
            if point.low < point.high:
                span = f"M{x:.1f},{frame.y(point.low):.1f}V{frame.y(point.high):.1f}"
                drawn.append(f'<path d="{span}" stroke="{colour}"/>')
            drawn.append(mark(kind, x, frame.y(point.middle), colour))
    return drawn


def draw_bars(frame: Frame, series: list[Series]) -> list[str]:
    """A bar for each place; only one series."""
    width = min(frame.step * 0.7, 40)
    drawn = []
    for place, point in enumerate(series[0].points):
        if point:
            x, y = frame.x(place) - width / 2, frame.y(point.middle)
            height = frame.y(0) - y
            drawn.append(f'<path d="M{x:.1f},{y:.1f}h{width:.1f}v{height:.1f}h{-width:.1f}z" fill="{STYLES[0][0]}"/>')
    return drawn


def legend(names: list[str]) -> list[str]:
    """A row for each series: a piece of its line, its mark and its name."""
    drawn = []
    for index, name in enumerate(names):
        colour, dashes, kind = STYLES[index % len(STYLES)]
        y = TOP + index * LEGEND_ROW
        drawn.append(f'<path d="M{LEFT},{y}h48" stroke="{colour}" stroke-width="2" stroke-dasharray="{dashes}"/>')
        drawn.append(mark(kind, LEFT + 24, y, colour))
        drawn.append(text(LEFT + 58, y + 4, name, "start"))
    return drawn


def chart(
    title: str,
    x_label: str,
    places: list[str],
    panels: list[Panel],
    draw: Callable[[Frame, list[Series]], list[str]],
) -> str:
    """The whole picture. With more than one series it has a legend, that of the first panel."""
    names = [series.name for series in panels[0].series]
    rows = legend(names) if len(names) > 1 else []
    top = TOP + (len(names) * LEGEND_ROW if rows else 0)
    height = top + len(panels) * (PANEL_HEIGHT + GAP) + BOTTOM - GAP
    drawn = [text(WIDTH / 2, 24, title, more=' font-size="15" font-weight="bold"'), *rows]
    for index, panel in enumerate(panels):
        values = [point.high for series in panel.series for point in series.points if point]
        greatest = max([1.0, *values])
        step = tick_step(greatest)
        frame = Frame(top + index * (PANEL_HEIGHT + GAP), len(places), -(-greatest // step) * step)
        drawn += axes(frame, panel.label) + draw(frame, panel.series)
    every = -(-len(places) // 32)
    foot = height - BOTTOM
    drawn += [text(frame.x(place), foot + 18, places[place]) for place in range(0, len(places), every)]
    drawn.append(text((LEFT + WIDTH - RIGHT) / 2, foot + 42, x_label))
    head = (
        f'<svg xmlns="http://www.w3.org/2000/svg" viewBox="0 0 {WIDTH} {height}" width="{WIDTH}" height="{height}" '
        f'font-family="sans-serif" font-size="12" role="img">\n<title>{escape(title)}</title>\n'
        f'<rect width="{WIDTH}" height="{height}" fill="white"/>\n'
    )
    return head + "\n".join(drawn) + "\n</svg>\n"
