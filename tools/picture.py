"""The picture of an accepted sheet, made from its records alone: nothing is smoothed or moved.

The paper has its size, and what stands on it its place at the drawing's scale. What the picture itself has to say stands beside the paper, where
it covers nothing: layers with their colours and counts, volumes, what the sheet is about. On the paper it adds three things: the frame along the
edges, small letters with a wire's circuit, and the boxes of volumes.

Every figure is a group with its kind, volume, line and layer as data, and a title that a viewer shows under the pointer. Groups of figures are
those of a volume, and in it of a layer. Where a set has more than one volume, a thin dashed box with its number and name shows how far the
figures of each reach: that can be seen without a pointer, on paper too, and takes away nothing of the figures' colours, which are the layers'.
In a browser the other volumes fade while the pointer is on a figure. A script would be needed for more, and a picture should have none.
"""
import collections, itertools, types, unicodedata

import figures
import records
import spools
from figures import Drawn, Lettering, Spot, joined
from records import BY_NAME, FIRST_IN_SYMBOL, KINDS, ONE, STATES
from sheets import MARGIN, paper
from svg import element, escaped, number, titled

HEADER, VOLUME, DRAWING, SYMBOL, LAYER = (BY_NAME[name] for name in ("header", "volume", "drawing", "symbol", "layer"))
LINE, CIRCLE, ELLIPSE, POINT, SUCCESSIVE = (BY_NAME[name] for name in ("line", "circle", "ellipse", "point", "successive"))
TEXT, PLACED, WIRE, WIRE_LINE, WIRE_ARC = (BY_NAME[name] for name in ("text", "placed", "wire", "wire_line", "wire_arc"))
ABSENT, GIVEN, UNREAD = (STATES.index(word) for word in ("absent", "given", "unread"))

IN_LAYERS = *range(LINE, PLACED + 1), WIRE  # kinds that count as figures of a layer
IN_SYMBOLS = range(LINE + FIRST_IN_SYMBOL, TEXT + FIRST_IN_SYMBOL + 1)
ONE_LINE = {
    LINE: figures.line,
    CIRCLE: figures.circle,
    ELLIPSE: figures.ellipse,
    POINT: figures.point,
    WIRE_LINE: figures.line,
    WIRE_ARC: figures.circle,
}

# Colours that stand out on white and from each other, to most of the colour blind too; then the same ones paler, so that 64 layers have one each.
PALETTE = "#333333 #0072b2 #d55e00 #117733 #aa4499 #8c6d00 #332288 #2a9d8f #882255 #cc6677".split()
GREY = 128
ROUNDS = 10
FONTS = "IPAGothic,'MS Gothic','Noto Sans Mono CJK JP',Osaka-Mono,monospace"
STYLE = (
    f".letters{{font-family:{FONTS};fill:currentColor;stroke:none;white-space:pre}}"
    f".said{{font-family:{FONTS};fill:#222222;stroke:none;white-space:pre}}"
    ".figures{fill:none;stroke:currentColor;stroke-linecap:round;stroke-linejoin:round}"
    "svg:has(.volume:hover) .volume:not(:hover){opacity:0.2}"
)
POSITIONS = {1: "wall", 2: "floor", 3: "ceiling", 4: "inside the ceiling", 5: "slab above"}


# ── records by name ──


def meant(field, record, spool):
    """A field as it is drawn with: a decimal in units, a text as its bytes, anything else as its number."""
    first = record[field.place]
    if field.sort == records.DECIMAL:
        return first / ONE
    if field.sort == records.TEXT:
        return spool[first : first + record[field.place + 1]]
    return first


def named(record, spool):
    """The fields of a record, by name."""
    kind = KINDS[record[0]]
    common = dict(zip(records.COMMON, record))
    return types.SimpleNamespace(**common, **{f.name: meant(f, record, spool) for f in kind.fields}, kind_name=kind.name)


def lettering(figure, prefix=""):
    return Lettering(*(getattr(figure, prefix + name) for name in Lettering._fields))


def gathered(all_records):
    """Each figure with the records that belong to it: a successive with its points, a wire with its second record, its lines and its arcs."""
    following = iter(all_records)
    for figure in following:
        more = 0
        if figure.kind in (SUCCESSIVE, SUCCESSIVE + FIRST_IN_SYMBOL):
            more = figure.points
        if figure.kind == WIRE:
            more = 1 + figure.elements
        taken = list(itertools.islice(following, more))
        if len(taken) != more:
            raise ValueError(f"{figure.kind_name} at volume {figure.volume}, line {figure.line} says that {more} records follow")
        yield figure, taken


# ── what a pointer is told ──


def said_state(name, state, text):
    """`hight 300`, `hight empty`, `hight unread`, or nothing."""
    return [] if state == ABSENT else [f"{name} {text if state == GIVEN else STATES[state]}"]


def symbol_says(figure, name):
    letters = records.letters
    return [
        name,
        *said_state("circuit", figure.circuit_state, letters(figure.circuit)),
        *said_state("hight", figure.hight_state, number(figure.hight)),
        *said_state("pos", figure.pos_state, f"{figure.pos} ({POSITIONS.get(figure.pos)})"),
        *said_state("serial", figure.serial_state, f"{figure.serial}, {figure.partners} partners"),
        *said_state("text", figure.text_state, letters(figure.text_characters)),
    ]


def wire_says(figure, more):
    if figure.mark == UNREAD:
        return ["wire, unread"]
    ends = [str(n) if state == GIVEN else "nothing" for state, n in ((more.start_state, more.start_partner), (more.end_state, more.end_partner))]
    power = f"{more.power_phase} phase {more.power_wires} wires {more.power_volts} V"
    return [
        "wire",
        *said_state("circuit", more.circuit_state, records.letters(more.circuit)),
        *said_state("length", figure.length_state, number(figure.length)),
        *said_state("power", more.power_state, power),
        *said_state("serial", more.serial_state, f"{more.serial}, from {ends[0]} to {ends[1]}"),
        *said_state("direc", figure.direc_state, str(figure.direcs)),
        *said_state("piend", figure.piend_state, f"{figure.piends}, the first drawn"),
        *said_state("num", figure.num_state, f"{figure.nums}, the first drawn: {figure.num_earth} earth, {figure.num_wires} power"),
        *said_state("text", more.text_state, f"{more.texts}, the first drawn: {records.letters(more.text_characters)}"),
    ]


# ── wires ──

LABEL = 2.0  # height of a circuit's letters beside its wire
LABEL_PLACES = 0.5, 0.35, 0.65, 0.2, 0.8  # of the line's length, one of which is furthest from the wire's own signs


def signs(figure, more, spot):
    """What stands along a wire, of what its records hold."""
    out = []
    for name in ("direc", "direc2")[: figure.direcs]:
        x, y, angle, sign = (getattr(figure, f"{name}_{part}") for part in ("x", "y", "angle", "sign"))
        out.append(figures.ending(sign, spot.sign(x, y, angle)))
    if figure.piends:
        out.append(figures.dot(spot.at(figure.piend_x, figure.piend_y)))
    if figure.nums:
        out.append(figures.strokes_across(figure.num_earth, figure.num_wires, spot.sign(figure.num_x, figure.num_y, figure.num_angle)))
    if more.texts:
        out.append(figures.text(lettering(more, "text_"), spot))
    return out


def distance(a, b):
    return (a[0] - b[0]) ** 2 + (a[1] - b[1]) ** 2


def circuit_label(more, elements, spot, taken):
    """The circuit, small, below the wire's longest line that is to be seen, where it is furthest from the wire's signs."""
    lines = [(spot.at(e.x, e.y), spot.at(e.x2, e.y2)) for e in elements if e.kind != WIRE_ARC and e.type != figures.HIDDEN]
    if not more.circuit or not lines:
        return Drawn("", [])
    begin, end = max(lines, key=lambda line: distance(*line))
    if (end[0], -end[1]) < (begin[0], -begin[1]):
        begin, end = end, begin
    ways = [tuple(a + (b - a) * way for a, b in zip(begin, end)) for way in LABEL_PLACES]
    place = max(ways, key=lambda way: min((distance(way, other) for other in taken), default=0))
    turn = figures.direction(begin, end)
    mark = f"translate({number(place[0])} {number(place[1])}) rotate({number(turn)})"
    words = escaped(records.letters(more.circuit))
    return Drawn(element("text", words, class_="letters", transform=mark, font_size=LABEL, y=1.2 * LABEL, text_anchor="middle"), [place])


def wire(figure, following, spot, data):
    """Its lines and arcs, each with data of its own; its signs; its circuit."""
    more, *elements = following
    drawn = []
    for part in elements:
        shape = ONE_LINE[part.kind](part, spot)
        hidden = "hidden" if part.type == figures.HIDDEN else None
        drawn.append(Drawn(element("g", shape.marks, **data(part), visibility=hidden), shape.reach))
    own = signs(figure, more, spot)
    label = circuit_label(more, elements, spot, [place for sign in own for place in sign.reach])
    return joined([*drawn, *own, label])


# ── the set, sorted out ──


def layer_id(layer):
    return f"{chr(layer.letter)}_{layer.number:03}"


class Set:
    """What the records hold: header, drawing, layers and symbols by number, volumes, and the figures of layers with what belongs to them."""

    def __init__(self, all_records, spool, note=""):
        self.note = note
        found = [named(record, spool) for record in all_records]
        by_kind = collections.defaultdict(list)
        for record in found:
            by_kind[record.kind].append(record)
        (self.header,), (self.drawing,) = by_kind[HEADER], by_kind[DRAWING]
        self.layers, self.volumes = by_kind[LAYER], by_kind[VOLUME]
        self.volume_names = [records.letters(name) for name, _ in spools.volumes(spool)]
        self.symbol_names = [records.letters(symbol.name) for symbol in by_kind[SYMBOL]]
        self.symbols = collections.defaultdict(list)
        self.figures = []
        for figure, following in gathered(found):
            if figure.kind in IN_SYMBOLS:
                self.symbols[figure.owner].append((figure, following))
            if figure.kind in IN_LAYERS:
                self.figures.append((figure, following))

    def paper(self):
        return paper(self.drawing.sheets, self.drawing.a_number)

    def size(self):
        width, height = self.paper()
        sheets = str(self.drawing.sheets) if self.drawing.sheets > 1 else ""
        return f"{sheets}A{self.drawing.a_number} ({width} × {height} mm)"

    def scale(self):
        return f"{self.drawing.scale_p}/{self.drawing.scale_q}"

    def spot(self):
        """From the drawing's millimetres to the paper's, whose origin is the lower left corner."""
        return Spot((0.0, float(self.paper()[1])), self.drawing.scale_p / self.drawing.scale_q)

    def layer_of(self, figure):
        return layer_id(self.layers[figure.owner])

    def data(self, figure):
        return {"data_kind": figure.kind_name, "data_volume": figure.volume, "data_line": figure.line, "data_layer": self.layer_of(figure)}

    def says(self, figure, following):
        own = [f"{figure.kind_name} {figure.type:04}"]
        if figure.kind == PLACED:
            own = symbol_says(figure, self.symbol_names[figure.symbol])
        if figure.kind == WIRE:
            own = wire_says(figure, following[0])
        return "; ".join([*own, f"layer {self.layer_of(figure)}", f"volume {figure.volume}, line {figure.line}"])

    def shape(self, figure, following, spot):
        """A figure's marks; one inside a symbol is drawn as the same figure in a layer is."""
        kind = figure.kind - FIRST_IN_SYMBOL if figure.kind in IN_SYMBOLS else figure.kind
        if kind == SUCCESSIVE:
            return figures.successive(following, spot)
        if kind == TEXT:
            return figures.text(lettering(figure), spot)
        if kind == PLACED:
            return self.placed(figure, spot)
        if kind == WIRE:
            return wire(figure, following, spot, self.data)
        return ONE_LINE[kind](figure, spot)

    def placed(self, figure, spot):
        own = spot.placed(figure.x, figure.y, figure.angle, figure.factor)
        drawn = [self.shape(part, following, own) for part, following in self.symbols[figure.symbol]]
        if figure.text_state == GIVEN:
            drawn.append(figures.text(lettering(figure, "text_"), spot))
        return joined(drawn)


# ── the paper ──


def colour(number):
    """A layer's own: the palette's, in each later round nearer to grey."""
    rounds, at = divmod(number, len(PALETTE))
    parts = (int(PALETTE[at][k : k + 2], 16) for k in (1, 3, 5))
    return "#" + "".join(f"{part + (GREY - part) * rounds // ROUNDS:02x}" for part in parts)


def drawn_figures(sheet):
    """(figure, its group as it is drawn) of every figure of a layer, in the records' order."""
    spot = sheet.spot()
    for figure, following in sheet.figures:
        shape = sheet.shape(figure, following, spot)
        group = element("g", titled(sheet.says(figure, following)), shape.marks, **sheet.data(figure))
        yield figure, Drawn(group + "\n", shape.reach)


def by_volume(sheet, drawn):
    """The groups of volumes, in each of them those of layers."""
    groups = collections.defaultdict(lambda: collections.defaultdict(list))
    for figure, shape in drawn:
        groups[figure.volume][figure.owner].append(shape.marks)
    for volume, layers in groups.items():
        inner = [element("g", "\n", *marks, class_="layer", color=colour(owner)) for owner, marks in layers.items()]
        yield element("g", *inner, class_=f"volume v{volume}") + "\n"


def extent(places):
    """The least box around places: left, top, right, bottom."""
    across, down = zip(*places)
    return min(across), min(down), max(across), max(down)


BOX_LINE = {"fill": "none", "stroke": "#777777", "stroke_width": 0.3, "stroke_dasharray": (1.5, 1.5)}
ROOM_AROUND = 1.5
BOX_LABEL = 0.01  # height of its letters, of the paper's


def free(left, base, width, size, taken):
    """How high a label stands that would stand at base: above those that it would cover. Of these are known left, base and right."""
    while any(abs(base - other) < size and left < right and beside < left + width for beside, other, right in taken):
        base -= 1.25 * size
    taken.append((left, base, left + width))
    return base


def volume_boxes(sheet, drawn):
    """How far each volume's figures reach, in a set of more than one."""
    if len(sheet.volumes) < 2:
        return
    size, reach, taken = BOX_LABEL * sheet.paper()[1], collections.defaultdict(list), []
    for figure, shape in drawn:
        reach[figure.volume] += shape.reach
    for volume, places in reach.items():
        if not places:
            continue
        left, top, right, bottom = extent(places)
        left, top = left - ROOM_AROUND, top - ROOM_AROUND
        box = element("rect", x=left, y=top, width=right + ROOM_AROUND - left, height=bottom + ROOM_AROUND - top, **BOX_LINE)
        words = f"{volume} {sheet.volume_names[volume - 1]}"
        base = free(left, top - size / 3, halves(words) * size / 2, size, taken)
        label = element("text", escaped(words), class_="said", x=left, y=base, font_size=size)
        yield element("g", box, label, class_="reach", data_volume=volume) + "\n"


def edges(width, height):
    """The paper, and the frame that document 000 says figures keep within."""
    frame = {"x": MARGIN, "y": MARGIN, "width": width - 2 * MARGIN, "height": height - 2 * MARGIN}
    return element("rect", width=width, height=height, fill="#ffffff", stroke="#222222", stroke_width=0.5) + element(
        "rect", **frame, fill="none", stroke="#bbbbbb", stroke_width=0.3
    )


def beyond(width, height, reach):
    """Whether a figure lies partly outside the paper."""
    if not reach:
        return False
    left, top, right, bottom = extent(reach)
    return left < 0 or top < 0 or right > width or bottom > height


# ── beside the paper ──

PANEL = 0.42  # the width of what stands beside the paper, of the paper's height
ROWS = 40  # as many rows have their full height
# colour: of the bar before it, if there is one; count: at the row's end; heading: in bold.
Row = collections.namedtuple("Row", "words count colour heading", defaults=(None, None, False))


def halves(text):
    """A text's length in letters of half a square."""
    return sum(2 if unicodedata.east_asian_width(letter) in "WFA" else 1 for letter in text)


def counted(sheet):
    """Figures by layer and by volume."""
    return (collections.Counter(getattr(figure, name) for figure, _ in sheet.figures) for name in ("owner", "volume"))


def several(count, thing):
    return f"{count} {thing}" + ("" if count == 1 else "s")


def lies_between(places, height):
    """Where on the paper the figures are, from its lower left corner: a sheet that looks empty has them somewhere."""
    left, top, right, bottom = extent(places)
    return f"figures from {left:.1f}, {height - bottom:.1f} to {right:.1f}, {height - top:.1f} mm"


def panel_rows(sheet, drawn):
    width, height = sheet.paper()
    outside = sum(beyond(width, height, shape.reach) for _, shape in drawn)
    places = [place for _, shape in drawn for place in shape.reach]
    by_layer, volumes = counted(sheet)
    yield Row(f"{several(len(sheet.layers), 'layer')}, {several(len(sheet.figures), 'figure')}", heading=True)
    for layer in sheet.layers:
        yield Row(f"{layer_id(layer)} {records.letters(layer.name)}", by_layer[layer.owner], colour(layer.owner))
    yield Row("")
    yield Row(several(len(sheet.volumes), "volume"), heading=True)
    for volume, name in enumerate(sheet.volume_names, 1):
        yield Row(f"{volume} {name}", volumes[volume])
    yield Row("")
    if places:
        yield Row(lies_between(places, height))
    unread = sum(figure.kind == WIRE and figure.mark == UNREAD for figure, _ in sheet.figures)
    if unread:
        yield Row("wires unread, not drawn", unread)
    if outside:
        yield Row("figures beyond the paper's edge", outside)
    if sheet.note:
        yield Row(sheet.note, heading=True)


def date(digits):
    text = f"{digits:08}"
    return f"{text[:4]}-{text[4:6]}-{text[6:]}"


def title_rows(sheet):
    drawing, letters = sheet.drawing, records.letters
    yield Row(letters(drawing.project), heading=True)
    yield Row(letters(drawing.drawname), heading=True)
    yield Row(f"scale {sheet.scale()}, size {sheet.size()}")
    yield Row(f"drawn {date(drawing.date)} {letters(drawing.drawer)}")
    yield Row(letters(sheet.header.corp))


def written_row(row, left, top, width, pitch):
    """A row: its bar of colour, its words, made smaller where they are too long, and its count."""
    size, indent = 0.7 * pitch, 2 * pitch if row.colour else 0.0
    room = width - indent - (4 * pitch if row.count is not None else 0)
    fitting = min(size, 2 * room / max(halves(row.words), 1))
    base = top + 0.75 * pitch
    bold = "bold" if row.heading else None
    marks = [element("text", escaped(row.words), class_="said", x=left + indent, y=base, font_size=fitting, font_weight=bold)]
    if row.colour:
        marks.append(element("rect", x=left, y=top + 0.2 * pitch, width=1.5 * pitch, height=0.6 * pitch, fill=row.colour))
    if row.count is not None:
        marks.append(element("text", str(row.count), class_="said", x=left + width, y=base, font_size=size, text_anchor="end"))
    return element("g", *marks, class_="row") + "\n"


def panel(sheet, drawn):
    """What is beside the paper: layers, volumes, and in the lower right corner what the sheet is about."""
    width, height = sheet.paper()
    above, below = list(panel_rows(sheet, drawn)), list(title_rows(sheet))
    pitch = height / max(ROWS, len(above) + len(below) + 4)
    left, room = width + pitch, PANEL * height - 2 * pitch
    for at, row in enumerate(above):
        yield written_row(row, left, (at + 1) * pitch, room, pitch)
    top = height - (len(below) + 1) * pitch
    block = {"x": left - pitch / 2, "y": top - pitch / 2, "width": room + pitch, "height": (len(below) + 1) * pitch}
    yield element("rect", **block, fill="none", stroke="#222222", stroke_width=0.05 * pitch)
    for at, row in enumerate(below):
        yield written_row(row, left, top + at * pitch, room, pitch)


# ── the picture ──

AROUND = 0.02  # what is left free on all sides, of the paper's height


def picture(all_records, spool, note=""):
    """The SVG of an accepted spool's records; note: what must be said of how they were read."""
    sheet = Set(all_records, spool, note)
    width, height = sheet.paper()
    around = AROUND * height
    whole = width + PANEL * height + 2 * around, height + 2 * around
    drawn = list(drawn_figures(sheet))
    parts = [
        element("style", STYLE) + "\n",
        edges(width, height) + "\n",
        element("g", "\n", *by_volume(sheet, drawn), class_="figures") + "\n",
        *volume_boxes(sheet, drawn),
        element("g", "\n", *panel(sheet, drawn), class_="panel") + "\n",
    ]
    measures = dict(zip(("width", "height"), (f"{number(side)}mm" for side in whole)))
    head = {**measures, "viewBox": (-around, -around, *whole), "xmlns": "http://www.w3.org/2000/svg"}
    return '<?xml version="1.0" encoding="UTF-8"?>\n' + element("svg", "\n", *parts, **head) + "\n"
