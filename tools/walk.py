"""The blocks of a spool up to a refused line. Every line before it was accepted by the proved reader, so `:{` and `}` alone tell what is
open; which line opens, and what a front end skips, goes by the keys' table."""
import collections

import spools
from reader import FULL_CLASS, FULL_WIRE
from rulebook import FIRST_FILE, LATER_FILE, TOP_LEVEL, asks, range_of, rulebook
from spools import CLOSE, EOF, FORMLESS, OPENING, OPENS

FULLEST = FULL_CLASS, FULL_WIRE
# The blocks whose keys go by a part of the front end too: their range, and that part's number.
BY_FRONT = {"E_symbol (placed)": ("E_sym", 0), "E_wire": ("E_wire", 1)}
WIRE = "E_wire"
RANGE_BLOCKS = "range", "base", "elec", "sym"
CHARACTER = b"character"  # opens nothing on a skipped line either

# A line with a key: its content, its row in the keys' table (None where it has none or is skipped), and where it stands.
Entry = collections.namedtuple("Entry", "key content row volume line")


class Node:
    """An open or closed block. Its heading is that of the keys' table, None where it is skipped."""

    def __init__(self, heading, key, content, volume, line):
        self.heading, self.key, self.content, self.volume, self.line = heading, key, content, volume, line
        self.entries = []

    def all(self, key):
        return [entry for entry in self.entries if entry.key == key]

    def first(self, key):
        return next(iter(self.all(key)), None)


def digits(part):
    """A class or wire part as a range is written."""
    return f"{part % 1000:03}"


def knows(front, heading, row):
    """Whether a front end knows a key of a block."""
    if heading not in BY_FRONT:
        return True
    own = digits(front[BY_FRONT[heading][1]])
    return all(int(own[place]) >= least for _, place, least in asks(row))


class Walk:
    """What stands before a line: the blocks that are open there, every block by its heading, and the ranges of the file."""

    def __init__(self, spool, volume, line, front=None):
        self.front, self.book = front or FULLEST, rulebook()
        self.ranges, self.nodes, self.volume = {}, collections.defaultdict(list), 0
        for number, (_, body) in enumerate(spools.volumes(spool)[:volume], 1):
            self.volume, self.open = number, [Node(TOP_LEVEL, b"", b"", number, 0)]
            found = spools.lines(body)
            for at, raw in enumerate(found[: max(0, line - 1)] if number == volume else found, 1):
                self.step(spools.unindented(raw), at)

    def row(self, key):
        """The row of a key in the block that is open, None where it has none or the front end skips it."""
        heading = self.open[-1].heading
        row = self.book.row_of(heading, key.decode("latin-1"), self.ranges) if key else None
        return row if row and knows(self.front, heading, row) else None

    def form(self, text):
        """The form of a line here, and its row."""
        form = spools.form_of(text)
        row = self.row(form.key)
        free = row.text and row.text.free if row else self.skips() and form.key == CHARACTER
        return (spools.form_of(text, free=True) if free else form), row

    def skips(self):
        """Whether a line with a key that is not known is skipped here: in a skipped block, and where a digit of the file's range exceeds the
        front end's."""
        heading = self.open[-1].heading
        if heading not in BY_FRONT:
            return heading is None
        name, part = BY_FRONT[heading]
        return any(file > own for file, own in zip(self.range(name)[1:], digits(self.front[part])[1:]))

    def step(self, text, line):
        if not text:
            return
        form, row = self.form(text)
        if form.shape == CLOSE:
            del self.open[max(1, len(self.open) - 1) :]
        elif form.shape not in (EOF, FORMLESS):
            self.enter(form, row, line)

    def enter(self, form, row, line):
        block = self.open[-1]
        block.entries.append(Entry(form.key, form.content, row, self.volume, line))
        if block.heading in RANGE_BLOCKS and form.content.isdigit() and len(form.content) == 3:
            self.ranges[form.key.decode("latin-1")] = form.content.decode()
        if form.shape in (OPENS, OPENING):
            node = Node(self.opened(row), form.key, form.content, self.volume, line)
            self.nodes[node.heading].append(node)
            self.open.append(node)

    def opened(self, row):
        """The heading of what a row opens, None where it is skipped."""
        if row is None or (row.opens == WIRE and self.front[BY_FRONT[WIRE][1]] == 0):
            return None
        return LATER_FILE if row.opens == FIRST_FILE and self.volume > 1 else row.opens

    def range(self, name):
        return range_of(self.ranges, name)


class Case:
    """A refused line in its place: what stands before it, its form and its row there."""

    def __init__(self, spool, volume, line, front):
        self.volume, self.line = volume, line
        self.volumes = spools.volumes(spool)
        self.lines = spools.lines(self.volumes[volume - 1][1])
        self.raw = self.lines[line - 1] if 0 < line <= len(self.lines) else b""
        self.text = spools.unindented(self.raw)
        self.walk = Walk(spool, volume, line, front)
        self.block = self.walk.open[-1]
        self.form, self.row = self.walk.form(self.text)
        self.key = self.form.key.decode("latin-1")

    def name(self, volume):
        """A volume's number and name."""
        return spools.called(volume, self.volumes[volume - 1][0])

    def at(self, thing):
        """Where an entry or a block stands, seen from the refused line."""
        return f"line {thing.line}" + ("" if thing.volume == self.volume else f" of {self.name(thing.volume)}")

    def called(self, node):
        """A block as it is written, with where it opened."""
        if len(self.walk.open) == 1 and node is self.block:
            return "the top level"
        return f"{self.title(node)}, which opened in {self.at(node)}"

    def title(self, node):
        key = spools.shown(node.key)
        return f"{key}={spools.shown(node.content)}" if node.content else key
