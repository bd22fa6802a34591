"""A figure of a record as marks on paper: millimetres from the paper's upper left corner, computed from the record's numbers and nothing else.

What document 000 leaves to each CAD has the plainest form here: a point is a dot; the sign where a pipe ends is a dot; the wires in a pipe are
strokes across it, the earth's with a bar. The angles of an arc of an ellipse are taken as directions from its centre.
"""
import collections, math

import records
from spools import CODES, letter
from svg import element, escaped, number

# Document 000's table 1. A type's first digit is the pattern, here as dashes and gaps within the lengths of the table; its second the width; the
# last two are a colour on the screen, which is not used: colours are the layers'. What the table doesn't have is a thin plain line.
PATTERNS = {
    2: (0.4, 0.6),
    3: (1.8, 1.2),
    4: (4.5, 1.5),
    5: (8.0, 1.5, 1.0, 1.5),
    6: (15.0, 1.5, 1.5, 1.5),
    7: (7.0, 1.2, 0.8, 1.2, 0.8, 1.2),
    8: (14.0, 1.5, 1.0, 1.5, 1.0, 1.5),
}
WIDTHS = {1: 0.2, 2: 0.3, 3: 0.4, 4: 0.5, 5: 0.7}
THIN = 0.2
HIDDEN = 0  # the type 0000 of a wire's line or arc: a part that is not to be seen
DOT = 0.75  # a point's radius
BELOW_BASE = 0.12  # how much of a letter's height is below the line on which letters stand
NO_LETTER = "\ufffd"  # stands where a code has none

# marks: SVG, one behind the other; reach: points on paper that it lies between.
Drawn = collections.namedtuple("Drawn", "marks reach")
Lettering = collections.namedtuple("Lettering", "x y width height gap angle upright characters")


class Spot:
    """From a figure's own millimetres to the paper's: turned and scaled about an origin on the paper. Letters have the paper's millimetres in layers,
    and are scaled in symbols."""

    def __init__(self, origin, factor, angle=0.0, letters=1.0):
        self.origin, self.factor, self.angle, self.letters = origin, factor, angle, letters

    def at(self, x, y):
        turn = math.radians(self.angle)
        return (
            self.origin[0] + self.factor * (x * math.cos(turn) - y * math.sin(turn)),
            self.origin[1] - self.factor * (x * math.sin(turn) + y * math.cos(turn)),
        )

    def placed(self, x, y, angle, factor):
        """Where a symbol is placed, which is defined in paper's millimetres."""
        return Spot(self.at(x, y), factor, angle, factor)

    def sign(self, x, y, angle):
        """Where a sign of a wire stands, in paper's millimetres, along the wire."""
        return Spot(self.at(x, y), 1.0, angle + self.angle)


def joined(drawn):
    drawn = list(drawn)
    return Drawn("".join(d.marks for d in drawn), [place for d in drawn for place in d.reach])


# ── lines and curves ──


def stroke(type):
    pattern, width = divmod(type // 100, 10)
    return {"stroke_width": WIDTHS.get(width, THIN), "stroke_dasharray": PATTERNS.get(pattern)}


def path(places, **attributes):
    """Straight lines from place to place."""
    return Drawn(element("polyline", points=[f for place in places for f in place], **attributes), places)


def line(figure, spot):
    (x1, y1), (x2, y2) = ends = spot.at(figure.x, figure.y), spot.at(figure.x2, figure.y2)
    return Drawn(element("line", x1=x1, y1=y1, x2=x2, y2=y2, **stroke(figure.type)), list(ends))


def dot(place, radius=DOT):
    return Drawn(element("circle", cx=place[0], cy=place[1], r=radius, fill="currentColor", stroke="none"), [place])


def point(figure, spot):
    return dot(spot.at(figure.x, figure.y))


def sweep(start, end, turn):
    """Degrees from start to end, counterclockwise where turn is 0; all round where both are one direction, so of a circle without a turn (-1)
    too, which goes from 0 to 360."""
    return (-1 if turn else 1) * (((start - end) if turn else (end - start)) % 360 or 360)


STEPS = 32  # of an arc, to tell how far it reaches


def around(place, first, whole):
    """An arc's beginning, middle and end, and places all along it, of place(degrees). The middle tells an arc from a circle."""
    reach = [place(first + whole * k / STEPS) for k in range(STEPS + 1)]
    return (reach[0], reach[STEPS // 2], reach[STEPS]), reach


def arc(places, radii, tilt, clockwise, **attributes):
    """Two halves of an arc. On the paper y grows downward, so that counterclockwise is SVG's negative sweep."""
    (x, y), *halves = places
    words = ["M", x, y] + [w for half in halves for w in ("A", *radii, -tilt, 0, int(clockwise), *half)]
    return element("path", d=words, **attributes)


def circle(figure, spot):
    return curve(figure, spot, figure.radius, figure.radius, 0.0, figure.start, figure.end)


def ellipse(figure, spot):
    start, end = (along(angle, figure.long, figure.short) for angle in (figure.start, figure.end))
    return curve(figure, spot, figure.long, figure.short, figure.tilt, start, end)


def along(angle, long, short):
    """The direction of a place on an ellipse, as degrees of the circle that it is a shortened picture of."""
    turn = math.radians(angle)
    found = math.degrees(math.atan2(long * math.sin(turn), short * math.cos(turn)))
    return 360.0 if angle == 360 else found % 360


def curve(figure, spot, long, short, tilt, start, end):
    """A circle, an ellipse or an arc of one; start and end in degrees of the circle."""
    whole, lean = sweep(start, end, figure.turn), math.radians(tilt)

    def place(degrees):
        x, y = long * math.cos(math.radians(degrees)), short * math.sin(math.radians(degrees))
        return spot.at(figure.x + x * math.cos(lean) - y * math.sin(lean), figure.y + x * math.sin(lean) + y * math.cos(lean))

    places, reach = around(place, start, whole)
    if abs(whole) == 360 and long == short:
        cx, cy = spot.at(figure.x, figure.y)
        return Drawn(element("circle", cx=cx, cy=cy, r=long * spot.factor, **stroke(figure.type)), reach)
    radii = long * spot.factor, short * spot.factor
    return Drawn(arc(places, radii, tilt + spot.angle, figure.turn, **stroke(figure.type)), reach)


def successive(points, spot):
    """The first point's type is that of the whole."""
    return path([spot.at(p.x, p.y) for p in points], **stroke(points[0].type))


# ── letters ──


def boxes(lettering):
    """(letter, left, bottom, width) of each letter's box, from the text's place on: a row stands on its place, a gap for each byte; a column hangs
    below it, a gap for each letter. A letter of two bytes is twice as wide."""
    before = 0
    for count, code in enumerate(CODES.findall(lettering.characters)):
        left, bottom = (0.0, -count * lettering.gap - lettering.height) if lettering.upright else (before * lettering.gap, 0.0)
        yield letter(code) or NO_LETTER, left, bottom, len(code) * lettering.width
        before += len(code)


def text(lettering, spot):
    """Each letter stands where the record says, as wide as it says in a font whose letters of one byte are half a square."""
    own = spot.placed(lettering.x, lettering.y, spot.angle + lettering.angle, spot.letters)
    height, wide = lettering.height, 2 * lettering.width / lettering.height
    spans, reach = [], []
    for letter, left, bottom, width in boxes(lettering):
        spans.append(element("tspan", escaped(letter), x=left / wide, y=-bottom - BELOW_BASE * height))
        reach += [own.at(x, y) for x in (left, left + width) for y in (bottom, bottom + height)]
    moved = "translate({} {}) rotate({}) scale({} {})".format(*map(number, (*own.origin, -own.angle, own.factor * wide, own.factor)))
    return Drawn(element("text", *spans, class_="letters", transform=moved, font_size=height), reach)


# ── signs of wires ──

# What stands at a wire's end that goes on elsewhere, by direc's sign: the wire comes from the left. None, an arrow, a wave, a hook, a line.
ENDINGS = {
    0: [],
    1: [(-2.4, 0.9), (0.0, 0.0), (-2.4, -0.9)],
    2: [(0.0, -1.5), (0.6, -0.75), (0.0, 0.0), (-0.6, 0.75), (0.0, 1.5)],
    3: [(0.0, 0.0), (0.0, 1.5), (1.5, 1.5)],
    4: [(0.0, -1.5), (0.0, 1.5)],
}
SIGN_TYPE = 1200  # signs are drawn plain and thin
# Strokes across a wire: from one to the next, how far they lean and reach, half the earth's bar; more of them could be as many as a count holds.
APART, SLANT, HALF, BAR, MOST_STROKES = 0.9, 0.5, 1.2, 0.5, 8


def ending(sign, spot):
    places = [spot.at(*place) for place in ENDINGS.get(sign, [])]
    return path(places, **stroke(SIGN_TYPE)) if places else Drawn("", [])


def strokes_across(earth, wires, spot):
    """A stroke for each wire in a pipe, the earth's first, with a bar on top; where they are many, one stroke and how many there are."""
    if earth + wires > MOST_STROKES:
        count = f"{earth}+{wires}"
        written = element("text", count, class_="letters", x=spot.at(SLANT, HALF)[0], y=spot.at(SLANT, HALF)[1], font_size=HALF)
        return joined([slanted(0.0, spot), Drawn(written, [])])
    first = -APART * (earth + wires - 1) / 2
    places = [first + APART * k for k in range(earth + wires)]
    bars = [path([spot.at(place + SLANT + side, HALF) for side in (-BAR, BAR)], **stroke(SIGN_TYPE)) for place in places[:earth]]
    return joined([slanted(place, spot) for place in places] + bars)


def slanted(place, spot):
    return path([spot.at(place - SLANT, -HALF), spot.at(place + SLANT, HALF)], **stroke(SIGN_TYPE))


def direction(begin, end):
    """Degrees from one place on paper to another, clockwise from the right, as SVG turns."""
    return math.degrees(math.atan2(end[1] - begin[1], end[0] - begin[0]))
