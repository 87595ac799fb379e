"""The picture of the wall sheet: the three kinds of shift as paths from the request to done, on A3 paper, in black and white.

All measures are millimetres. Below each other stand the orders as a gear to gear shift has them, and each path has a column.
"""

from html import escape
from typing import Dict, NamedTuple

from table import DONE, ERROR, Unread

WIDTH, HEIGHT, MARGIN = 297, 420, 8
LETTERS, NUMERALS, FIGURE = 9, 13, 6.4  # sizes of type, and how high capitals and figures of the smaller are
BOX_WIDTH, BOX_HEIGHT, TOP, DOWN = 37, 32, 66, 45
REQUEST_HEIGHT, GAP, BAR = 22, DOWN - BOX_HEIGHT, 14
LINE, CELL = 0.8, 9.3  # the width of a line, the height of a cell in a box

# The orders from top to bottom. A phase stands at the first of its order below the phase before it.
ORDERS = "zero torque", "open", "release", "sync", "open", "set", "close"
COLUMNS = 7
ACROSS = (WIDTH - 2 * MARGIN) / COLUMNS


class Place(NamedTuple):
    """Where a phase stands: its line of orders, its column, and the last of the columns that its box covers."""

    line: int
    column: int
    last: int


def number(value):
    """A measure as it is written."""
    return f"{value:.2f}".rstrip("0").rstrip(".")


def element(name, content=None, **attributes):
    """An element; an underscore in an attribute's name is a hyphen."""
    said = "".join(f' {key.replace("_", "-")}="{number(value) if isinstance(value, (int, float)) else escape(str(value))}"'
                   for key, value in attributes.items())
    return f"<{name}{said}/>" if content is None else f"<{name}{said}>{content}</{name}>"


def shape(name, **attributes):
    """An element that is drawn by its outline, unless the attributes say otherwise."""
    return element(name, **{"fill": "none", "stroke": "black", "stroke_width": LINE, **attributes})


def text(x, y, said, **attributes):
    """A line of text, its middle or its beginning at x and its letters standing on y."""
    return element("text", escape(said), x=x, y=y, **attributes)


def middle(column, last=None):
    """The middle of a column, or of several."""
    return MARGIN + ACROSS * (column + (column if last is None else last) + 1) / 2


def box(column, last, top, height, **attributes):
    """A box over columns."""
    width = ACROSS * (last - column) + BOX_WIDTH
    return shape("rect", x=middle(column, last) - width / 2, y=top, width=width, height=height, **attributes)


def edges(column, last):
    """Where a box over columns begins and ends."""
    return middle(column) - BOX_WIDTH / 2, middle(last) + BOX_WIDTH / 2


def stroke(x, top, to, bottom, **attributes):
    """A line."""
    return shape("line", x1=x, y1=top, x2=to, y2=bottom, **attributes)


def arrow(x, top, bottom):
    """An arrow downwards."""
    tip = f"{number(x - 3)},{number(bottom - 6)} {number(x + 3)},{number(bottom - 6)} {number(x)},{number(bottom)}"
    return [stroke(x, top, x, bottom - 5, stroke_width=1.4), element("polygon", points=tip)]


def error_mark(x, y):
    """The black disc with a cross that stands for the error."""
    return [element("circle", cx=x, cy=y, r=4.3),
            stroke(x - 2, y - 2, x + 2, y + 2, stroke="white", stroke_width=1.4),
            stroke(x - 2, y + 2, x + 2, y - 2, stroke="white", stroke_width=1.4)]


def cells(column, last, bottom, left, right):
    """The two cells at the foot of a box or above others, and what stands in them."""
    (begin, end), standing = edges(column, last), bottom - (CELL - FIGURE) / 2
    centre = (begin + end) / 2
    return [stroke(begin, bottom - CELL, end, bottom - CELL), stroke(centre, bottom - CELL, centre, bottom),
            text((begin + centre) / 2, standing, left), text((centre + end) / 2, standing, right)]


class Picture:
    """The picture of a phase table."""

    def __init__(self, table):
        self.table = table
        self.rows = {row.phase: row for row in table.rows}
        self.places: Dict[int, Place] = {}
        self.kinds = []
        column = 0
        for kind in table.kinds:
            last = self.lay(kind.first, -1, column)
            self.kinds.append((kind, column, last))
            column = last + 1
        if set(self.places) != {row.phase for row in table.rows if row.order} or column != COLUMNS:
            raise Unread("the paths from the requests are not those that the picture has room for")

    def lay(self, phase, line, column):
        """Lay a phase and what follows it into columns from this one on; answer the last of them."""
        row = self.rows[phase]
        line = next((i for i, order in enumerate(ORDERS) if i > line and order == row.order), None)
        if line is None:
            raise Unread(f"there is no line for phase {phase} below the one before it")
        last = column if row.next == DONE else self.lay(row.next, line, column)
        beside = last
        if row.clutch:
            beside = last + 1
            last = self.lay(row.clutch, line, beside)
        self.places[phase] = Place(line, column, beside if row.clutch else column)
        return last

    def top(self, phase):
        """The upper edge of a phase's box, or of the bar of phases done."""
        return TOP + DOWN * (len(ORDERS) if phase == DONE else self.places[phase].line)

    def limit(self, column, row):
        """A limit of a phase's order in the new default."""
        return self.table.limits[column][row.order].new_default

    def phase(self, row):
        """The box of a phase, its limits, and the ways out of it."""
        place, top = self.places[row.phase], self.top(row.phase)
        column, last, bottom, centre = place.column, place.last, top + BOX_HEIGHT, middle(place.column, place.last)
        limits = str(self.limit("device", row)), str(self.limit("phase", row))
        if row.clutch:
            yield box(column, last, top, BOX_HEIGHT, stroke_width=2 * LINE)
            figure = element("tspan", row.phase, font_size=NUMERALS, font_weight="bold")
            yield element("text", f"{figure} {escape(row.order)}", x=centre, y=top + 10.9)
            yield from cells(column, last, bottom - CELL, *limits)
            yield from cells(column, last, bottom, f"≤ {self.limit('ex', row)}", f"≥ {self.limit('de', row)}")
            yield from arrow(middle(last), bottom, self.top(row.clutch))
            yield text(middle(column) + 4, bottom + 8, "take", text_anchor="start")
            yield text(middle(last) + 4, bottom + 8, "ask", text_anchor="start")
        else:
            yield from self.box(column, top, row, limits)
            yield stroke(centre + 12, bottom, centre + 12, bottom + 4, stroke_dasharray="1.4 1", stroke_width=1.4)
            yield from error_mark(centre + 12, bottom + 8.3)
        yield from arrow(middle(column), bottom, self.top(row.next))

    @staticmethod
    def box(column, top, row, limits):
        """The box of a phase of a clutch or gear order, with these for its limits."""
        yield box(column, column, top, BOX_HEIGHT)
        yield text(middle(column), top + 10.9, str(row.phase), font_size=NUMERALS, font_weight="bold")
        yield text(middle(column), top + 19.6, row.order)
        yield from cells(column, column, top + BOX_HEIGHT, *limits)

    def kind(self, kind, column, last):
        """The request of a kind above its first phase, and the bar in which it is done."""
        centre, top, done = middle(column, last), self.top(kind.first) - GAP - REQUEST_HEIGHT, self.top(DONE)
        yield box(column, last, top, REQUEST_HEIGHT, rx=8)
        yield text(centre, top + 9.3, f"request {kind.request}", font_weight="bold")
        yield text(centre, top + 18.8, kind.name)
        yield from arrow(centre, top + REQUEST_HEIGHT, self.top(kind.first))
        yield box(column, last, done, BAR, fill="black")
        yield text(centre, done + 10.3, f"{DONE} done ≤ {kind.sum}", fill="white", font_weight="bold")

    def legend(self):
        """How to read a box, in the corner where no path is, and what an error leads to."""
        left, top, beside = edges(0, 0)[0], TOP - GAP - REQUEST_HEIGHT, edges(0, 0)[1] + 4
        example = next(row for row in self.table.rows if row.order and not row.clutch)
        channel = self.table.channel
        yield from self.box(0, top, example, ("a", "b"))
        for x, y, said in [(beside, 10.9, "phase"), (beside, 19.6, "order"), (beside, 30.4, "limits, ms"),
                           (left, 45, "a"), (left + 11, 45, "of the device"), (left, 55.7, "b"), (left + 11, 55.7, "of the phase"),
                           (left, 66.4, "≤"), (left + 11, 66.4, "latest take"), (left, 77.1, "≥"), (left + 11, 77.1, "earliest ask"),
                           (left + 11, 87.8, f"failed: {ERROR} error"), (left, 98.5, "ask: for the clutch"),
                           (left, 109.2, "limits: new default"), (left, 119.9, f"message: {channel.new_default} ms"),
                           (left, 130.6, f"no table: {channel.old_default} ms")]:
            yield text(x, top + y, said, text_anchor="start")
        yield from error_mark(left + 4.3, top + 84.6)
        bar = self.top(DONE) + BAR + 3
        yield box(0, COLUMNS - 1, bar, BAR, stroke_dasharray="3 1.5", stroke_width=1.4)
        yield from error_mark(left + 10, bar + BAR / 2)
        yield text(WIDTH / 2, bar + 10.3, f"{ERROR} error, until a reset", font_weight="bold")

    def drawn(self):
        """The picture as SVG."""
        parts = [element("title", "The phases of a gear shift"),
                 element("desc", "Three kinds of shift as paths from the request to done, with the new default's limits in milliseconds"),
                 element("style", f"@page {{ size: {WIDTH}mm {HEIGHT}mm; margin: 0 }}"),
                 element("rect", width=WIDTH, height=HEIGHT, fill="white"),
                 text(WIDTH / 2, 23, "The phases of a gear shift", font_size=17, font_weight="bold"), *self.legend()]
        for kind, column, last in self.kinds:
            parts += self.kind(kind, column, last)
        for row in self.table.rows:
            if row.order:
                parts += self.phase(row)
        lines = "".join(f"  {part}\n" for part in parts)
        return element("svg", f"\n{lines}", xmlns="http://www.w3.org/2000/svg", width=f"{WIDTH}mm", height=f"{HEIGHT}mm",
                       viewBox=f"0 0 {WIDTH} {HEIGHT}", font_family="Arial, Helvetica, 'Liberation Sans', sans-serif",
                       font_size=LETTERS, text_anchor="middle") + "\n"
