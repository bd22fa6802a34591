"""A drawing written line by line, beside the records that documents 01 and 02 say it is read as.

The records are made here from what is written, not by the reader, so that the two can be compared. A drawing is volumes of layers of
figures; a figure is a function that writes itself into a Drawing and takes its records there.
"""
import re
from decimal import Decimal

from spools import BLANKS

RECORD = 32
HEADER, VOLUME, DRAWING, SYMBOL, LAYER = 1, 2, 3, 4, 5
LINE, CIRCLE, ELLIPSE, POINT, SUCCESSIVE, TEXT, PLACED, SUCCESSIVE_POINT = 10, 11, 12, 13, 14, 15, 16, 17
WIRE, WIRE_MORE, WIRE_LINE, WIRE_ARC = 18, 19, 20, 21
SYMBOL_TEXT, HIDE_POINT = 35, 43
ABSENT, EMPTY, GIVEN, UNREAD = 0, 1, 2, 3
NO_TURN = -1  # the turn of a circle that was written without one

# A placed symbol's attributes: which digit of a range asks for it and from which value on, its places in the record, its state's place.
ATTRIBUTES = [
    ("text", "last", 2, range(16, 26), 26),
    ("hight", "last", 3, range(10, 11), 27),
    ("pos", "last", 4, range(11, 12), 28),
    ("circuit", "last", 5, range(12, 14), 29),
    ("serial", "middle", 1, range(14, 16), 30),
]


def reaches(number, digit, least):
    """Digits count one by one: 013 has the last digit 3 and the middle digit 1."""
    return (number % 10 if digit == "last" else number // 10 % 10) >= least


def allowed(e_sym):
    return [name for name, digit, least, _, _ in ATTRIBUTES if reaches(e_sym, digit, least)]


# The same of a wire's, which stand in its two records.
WIRE_ATTRIBUTES = {
    WIRE: [
        ("direc", "last", 2, range(6, 15), 26),
        ("piend", "last", 3, range(15, 19), 27),
        ("num", "last", 4, range(19, 25), 28),
        ("length", "last", 6, range(25, 26), 29),
    ],
    WIRE_MORE: [
        ("text", "last", 5, range(5, 16), 26),
        ("circuit", "last", 7, range(16, 18), 27),
        ("power", "last", 8, range(18, 21), 28),
        ("serial", "middle", 1, range(21, 26), 29),
    ],
}
# A wire's line and arc: the place of its join. Its two records: the places of the elements' number, of E_wire's first digit, of the mark.
JOIN, ELEMENTS, FIRST_DIGIT, MARK = 11, 5, 30, 31
NOT_JOINED, TESTED, UNTESTED = 0, 1, 2
ENDS_JOINED = 4  # the first digit of E_wire at which every end is joined to the next start


def mark_unread(record, attributes, file, part):
    """Marks what the file's range allows of the attributes and the part of a class doesn't know."""
    for _, digit, least, places, state in attributes:
        if reaches(file, digit, least) and not reaches(part, digit, least):
            for i in places:
                record[i] = 0
            record[state] = UNREAD


def at_class(records, cls, wire, e_wire):
    """What a class with a wire part reads where a higher one reads these records of a file with this E_wire, which no record has: an attribute
    that E_sym or E_wire allows and the class doesn't know is marked unread; with wire part 0 each wire is, and its elements are left out."""
    e_sym, out = records[0][8], []
    for record in map(list, records):
        kind = record[0]
        if wire == 0 and kind in (WIRE_LINE, WIRE_ARC):
            continue
        if kind == PLACED:
            mark_unread(record, ATTRIBUTES, e_sym, cls)
        if kind in WIRE_ATTRIBUTES:
            mark_unread(record, WIRE_ATTRIBUTES[kind], e_wire, wire)
            if wire == 0:
                record[ELEMENTS], record[FIRST_DIGIT], record[MARK] = 0, 0, UNREAD
        out.append(record)
    return out


# Where a record of a kind has the byte places of its texts.
TEXT_PLACES = {HEADER: range(16, 32, 2), DRAWING: (12, 14, 16), SYMBOL: (5,), LAYER: (7,), TEXT: (12,), SYMBOL_TEXT: (12,), PLACED: (12, 24)}
TEXT_PLACES[WIRE_MORE] = 14, 16
LINE_PLACE = 3


def places_apart(record):
    """A record with its line and the byte places of its texts made 0."""
    places = (LINE_PLACE, *TEXT_PLACES.get(record[0], ()))
    return [0 if i in places else n for i, n in enumerate(record)]


def shown(records):
    """Records as a file has them and as the programs print them."""
    return "".join(" ".join(map(str, r)) + "\n" for r in records).encode()


def tenthousandths(number):
    return int(Decimal(number) * 10000)


def encoded(text):
    return text if isinstance(text, bytes) else text.encode("shift_jis")


class Drawing:
    """A spool as it grows: its bytes, its records, its E_wire, and where it stands."""

    def __init__(self, e_wire="000"):
        self.bytes, self.records, self.e_wire = bytearray(), [], int(e_wire)
        self.volume, self.line = 0, 0
        self.symbols, self.in_symbol = [], False

    def begin(self, name):
        self.volume, self.line, self.head = self.volume + 1, 0, len(self.bytes)
        self.bytes += b"VP" + encoded(name).ljust(8) + b"\0\0"

    def end(self):
        self.bytes += b"\x1a"
        length = len(self.bytes) - self.head - 12
        self.bytes[self.head + 10 : self.head + 12] = length.to_bytes(2, "big")

    def put(self, line):
        self.bytes += encoded(line) + b"\r\n"
        self.line += 1

    def put_all(self, *lines):
        for line in lines:
            self.put(line)

    def text(self, key, content):
        """Writes a text and gives its place and length."""
        content = encoded(content)
        place = len(self.bytes) + len(key) + 1
        self.put(encoded(key) + b"=" + content)
        return [place, len(content)] if content else [0, 0]

    def take(self, kind, owner, type=0):
        """A record, taken at the line written last; its values are added by the caller."""
        record = [kind, owner, self.volume, self.line, int(type)]
        self.records.append(record)
        return record

    def take_figure(self, kind, owner, type=0):
        return self.take(kind + 20 if self.in_symbol else kind, owner, type)

    def whole_records(self):
        return [r + [0] * (RECORD - len(r)) for r in self.records]

    def records_at(self, cls, wire):
        return at_class(self.whole_records(), cls, wire, self.e_wire)


# ── figures ──


def plain(key, kind, type, *values, plain_last=0):
    """A figure of one line. The last values are plain digits where plain_last counts them, all others decimals."""

    def write(d, owner):
        d.put(f"{key}={type}," + ",".join(values))
        cut = len(values) - plain_last
        d.take_figure(kind, owner, type).extend([tenthousandths(v) for v in values[:cut]] + [int(v) for v in values[cut:]])

    return write


def line(type, *values):
    return plain("line", LINE, type, *values)


def point(type, *values):
    return plain("point", POINT, type, *values)


def circle(type, *values):
    return plain("circle", CIRCLE, type, *values, plain_last=1)


def whole_circle(type, x, y, radius, start="0", end="360"):
    """A circle of six values, which has no turn: in a symbol's `element` alone."""
    without = plain("circle", CIRCLE, type, x, y, radius, start, end)

    def write(d, owner):
        assert d.in_symbol and (tenthousandths(start), tenthousandths(end)) == (0, 3600000), (start, end)
        without(d, owner)
        d.records[-1].append(NO_TURN)

    return write


def ellipse(type, *values):
    return plain("ellipse", ELLIPSE, type, *values, plain_last=1)


def points(d, owner, kind, type, places):
    for x, y in places:
        d.put(f"point={type},{x},{y}")
        d.take(kind, owner, type).extend([tenthousandths(x), tenthousandths(y)])


def successive(type, *places):
    def write(d, owner):
        d.put("successive:{")
        d.take_figure(SUCCESSIVE, owner, type).append(len(places))
        points(d, owner, SUCCESSIVE_POINT + (20 if d.in_symbol else 0), type, places)
        d.put("}")

    return write


def text_lines(d, type, values, characters):
    """The lines between a text's braces; gives its type, its seven values, and its characters' place and length."""
    d.put(f"type={type}," + ",".join(values))
    return [int(type)] + [tenthousandths(v) for v in values[:6]] + [int(values[6])] + d.text("character", characters)


def text(type, values, characters):
    def write(d, owner):
        d.put("text:{")
        record = d.take_figure(TEXT, owner)
        record[4:] = text_lines(d, type, values.split(","), characters)
        d.put("}")

    return write


def placed(name, place, text=None, hight=None, pos=None, circuit=None, serial=None, more=()):
    """A placed symbol as a block: place is x,y,angle,factor; an attribute that is None isn't written; more are lines that are skipped."""

    def write(d, owner):
        d.put("E_symbol:{")
        record = d.take(PLACED, owner)
        record += [0] * (RECORD - len(record))
        d.put(f"symbol={name},{place}")
        record[5:10] = [d.symbols.index(name)] + [tenthousandths(v) for v in place.split(",")]
        if text is not None:
            d.put("text:{")
            record[16:26] = text_lines(d, text[0], text[1].split(","), text[2])
            record[26] = GIVEN
            d.put("}")
        if hight is not None:
            d.put(f"hight={hight}")
            record[10], record[27] = (tenthousandths(hight), GIVEN) if hight else (0, EMPTY)
        if pos is not None:
            d.put(f"pos={pos}")
            record[11], record[28] = (int(pos), GIVEN) if pos else (0, EMPTY)
        if circuit is not None:
            record[12:14], record[29] = d.text("circuit", circuit), GIVEN if circuit else EMPTY
        if serial is not None:
            d.put(f"serial={serial}")
            record[14:16], record[30] = [int(serial.split(",")[0]), serial.count(",")], GIVEN
        d.put_all(*more)
        d.put("}")

    return write


def placed_plain(name, place):
    """A placed symbol at range 001: one line."""

    def write(d, owner):
        d.put(f"E_symbol={name},{place}")
        record = d.take(PLACED, owner)
        record += [d.symbols.index(name)] + [tenthousandths(v) for v in place.split(",")]

    return write


def joined(d, former, record):
    """How an element of a wire is joined to the one before it; two lines of a sound drawing that are, meet."""
    if former is None or d.e_wire // 100 != ENDS_JOINED:
        return NOT_JOINED
    if former[0] != WIRE_LINE or record[0] != WIRE_LINE:
        return UNTESTED
    assert former[7:9] == record[5:7], (former, record)
    return TESTED


def wire(*elements, direc=(), piend=(), num=(), texts=(), length=None, circuit=None, power=None, serial=None, more=()):
    """A wire of these lines and circles (arcs), then its attributes: direc, piend and num are any number of contents, texts of figures' texts
    (type, values, characters); one that is None isn't written. more are lines behind them that only a lower wire part skips."""

    def write(d, owner):
        d.put("E_wire:{")
        own, other = d.take(WIRE, owner), d.take(WIRE_MORE, owner)
        for record in own, other:
            record += [0] * (RECORD - len(record))
        own[ELEMENTS], own[FIRST_DIGIT] = len(elements), d.e_wire // 100
        write_elements(d, owner, elements)
        write_repeated(d, own, direc, piend, num)
        write_texts(d, other, texts)
        if length is not None:
            d.put(f"length={length}")
            own[25], own[29] = (tenthousandths(length), GIVEN) if length else (0, EMPTY)
        if circuit is not None:
            other[16:18], other[27] = d.text("circuit", circuit), GIVEN if circuit else EMPTY
        if power is not None:
            d.put(f"power={power}")
            other[18:21], other[28] = ([int(n) for n in power.split(",")], GIVEN) if power else ([0, 0, 0], EMPTY)
        if serial is not None:
            d.put(f"serial={serial}")
            number, *partners = serial.split(",")
            other[21:26], other[29] = [int(number)] + [n for partner in partners for n in partner_numbers(partner)], GIVEN
        d.put_all(*more)
        d.put("}")

    return write


def write_elements(d, owner, elements):
    former = None
    for element in elements:
        element(d, owner)
        record = d.records[-1]
        record[0] = {LINE: WIRE_LINE, CIRCLE: WIRE_ARC}[record[0]]
        record += [0] * (JOIN - len(record))
        record.append(joined(d, former, record))
        former = record


def write_repeated(d, own, *contents):
    """Each content of direc, piend and num: their number, the first of them (of direc two), their state."""
    for key, (place, shown, plain_first, state), lines in zip(("direc", "piend", "num"), WIRE_SHELVES, contents):
        for content in lines:
            d.put(f"{key}={content}")
        own[place], own[state] = len(lines), GIVEN if lines else ABSENT
        at = place + 1
        for content in lines[:shown]:
            values = content.split(",")
            numbers = [int(v) for v in values[:plain_first]] + [tenthousandths(v) for v in values[plain_first:]]
            own[at : at + len(numbers)] = numbers
            at += len(numbers)


# direc, piend and num in a wire's first record: the place of their number, how many are shown behind it, how many of a line's first values are
# no decimals, the place of their state.
WIRE_SHELVES = (6, 2, 1, 26), (15, 1, 0, 27), (19, 1, 2, 28)


def write_texts(d, other, texts):
    for number, (type, values, characters) in enumerate(texts):
        d.put("text:{")
        numbers = text_lines(d, type, values.split(","), characters)
        if number == 0:
            other[6:16] = numbers
        d.put("}")
    other[5], other[26] = len(texts), GIVEN if texts else ABSENT


def partner_numbers(partner):
    """Of a wire's start or end: its state and its number."""
    return (GIVEN, int(partner)) if partner else (EMPTY, 0)


# ── blocks ──


class Sheet:
    """What a drawing says of itself, as it stands before any figure. Anything can be set by name."""

    def __init__(self, **given):
        self.arc, self.e_sym, self.e_wire, self.s_elec = "000", "015", "000", "001"
        self.all_line, self.this_line, self.all_ele = "1", "1", None
        self.date, self.time, self.drawn = "19970401", "120000", "19970401"
        self.about = ["ACC-W", "Windows 95", "PC-9821", "2.1", "", "", "", ""]
        self.size, self.scale, self.project, self.drawname, self.drawer = "A1", "1/100", "Annex", "First floor", ""
        self.floor_height = ""
        self.remarks = []
        self.layers = [("E_151", "")]
        self.symbols = [("LAMP", [point("1307", "0", "0")], [], None)]
        for name, value in given.items():
            assert hasattr(self, name), name
            setattr(self, name, value)


def file_format(d, sheet, this_ele, all_ele, next_file):
    first = d.volume == 1
    d.put("FILE_FORMAT:{")
    if first:
        header = d.take(HEADER, 0)
    d.take(VOLUME, 0).extend([int(sheet.this_line), this_ele])
    if first:
        d.put_all("range:{", "base=001:{", "B_sym=000", "}", f"arc={sheet.arc}")
        d.put_all("elec=001:{", f"E_sym={sheet.e_sym}", f"E_wire={sheet.e_wire}", "E_cirno=000", "}")
        d.put_all("sym=001:{", "S_base=000", f"S_elec={sheet.s_elec}", "}", "}", f"all_line={sheet.all_line}")
    d.put(f"this_line={sheet.this_line}")
    if first:
        d.put(f"all_ele={all_ele}")
    d.put_all(f"this_ele={this_ele}", f"next_file={next_file}", f"date={sheet.date}", f"time={sheet.time}")
    if first:
        header += [0, int(sheet.arc), 1, int(sheet.e_sym), 1, 0, int(sheet.s_elec), int(sheet.all_line), all_ele]
        header += [int(sheet.date), int(sheet.time)]
        for key, content in zip(["cad", "os", "hard", "ver", "corp", "make", "tel", "name"], sheet.about):
            header += d.text(key, content)
    d.put("}")


def drawing_format(d, sheet):
    d.put("DRAWING_FORMAT:{")
    record = d.take(DRAWING, 0)
    d.put_all(f"size={sheet.size}", f"scale={sheet.scale}")
    sheet_number = [int(sheet.size[:-2] or 1), int(sheet.size[-1])]
    scale = [int(n) for n in (sheet.scale.split("/") + ["1"])[:2]]
    texts = d.text("project", sheet.project) + d.text("drawname", sheet.drawname)
    d.put(f"date={sheet.drawn}")
    texts += d.text("drawer", sheet.drawer)
    floor = [ABSENT, 0]
    if sheet.arc == "001":
        d.put(f"floor_height={sheet.floor_height}")
        floor = [GIVEN, tenthousandths(sheet.floor_height)] if sheet.floor_height else [EMPTY, 0]
    record += sheet_number + scale + [int(sheet.drawn)] + floor + texts
    d.put("layer_name:{")
    for number, (id, name) in enumerate(sheet.layers):
        place = d.text(id, name)
        d.take(LAYER, number).extend([ord(id[0]), int(id[2:])] + place)
    d.put_all("}", "}")


def symbol_define(d, sheet):
    d.put("SYMBOL_DEFINE:{")
    if not sheet.symbols:
        d.put("NON=")
    d.in_symbol = True
    for number, (name, figures, hide, wall) in enumerate(sheet.symbols):
        d.put("E_symbol:{")
        record = d.take(SYMBOL, number)
        record += d.text("name", name)
        d.symbols.append(name)
        d.put("element:{")
        for figure in figures:
            figure(d, number)
        d.put_all("}", "hide:{")
        points(d, number, HIDE_POINT, "1307", hide)
        d.put("}")
        if sheet.s_elec == "002":
            d.put(f"wall={wall}")
            record += [GIVEN] + [tenthousandths(v) for v in wall.split(",")] if wall else [EMPTY]
        d.put("}")
    d.in_symbol = False
    d.put("}")


def element(d, sheet, layers):
    owners = [id for id, _ in sheet.layers]
    d.put("ELEMENT:{")
    for id, figures in layers:
        d.put(f"LAYER={id}:{{")
        for figure in figures:
            figure(d, owners.index(id))
        d.put("}")
    d.put("}")


def drawing(sheet, volumes):
    """The set of these volumes, each a name and its layers, each an id and its figures."""
    d = Drawing(sheet.e_wire)
    counts = [sum(len(figures) for _, figures in layers) for _, layers in volumes]
    for at, (name, layers) in enumerate(volumes):
        last = at + 1 == len(volumes)
        d.begin(name)
        d.put_all(*sheet.remarks)
        file_format(d, sheet, counts[at], sum(counts), "" if last else volumes[at + 1][0])
        if at == 0:
            drawing_format(d, sheet)
            symbol_define(d, sheet)
        element(d, sheet, layers)
        if last:
            d.put("EOF")
        d.end()
    return d


# ── spools taken apart, damaged, and put together again ──


def volumes_of(spool):
    """The names and lines of a sound spool's volumes."""
    out, at = [], 0
    while at < len(spool):
        length = int.from_bytes(spool[at + 10 : at + 12], "big")
        body = bytes(spool[at + 12 : at + 12 + length])
        out.append((bytes(spool[at + 2 : at + 10]), body[:-1].split(b"\r\n")[:-1]))
        at += 12 + length
    return out


E_WIRE = b"E_wire="


def e_wire_line(spool):
    """The first volume's first line that gives a range of wires: its number, and its three digits as one, None where it has no three. None where
    there is no such line; E_wire is then 000."""
    length = int.from_bytes(spool[10:12], "big")
    for number, raw in enumerate(bytes(spool[12 : 12 + length]).split(b"\r\n"), 1):
        text = raw[BLANKS.match(raw).end() :]
        if text.startswith(E_WIRE):
            digits = text.removeprefix(E_WIRE)
            return number, int(digits) if re.fullmatch(rb"[0-9]{3}", digits) else None
    return None


def spool_of(volumes):
    out = b""
    for name, lines in volumes:
        body = b"".join(l + b"\r\n" for l in lines) + b"\x1a"
        out += b"VP" + name + len(body).to_bytes(2, "big") + body
    return out
