"""The tables of docs/KEYS.md and docs/REFUSALS.md, as tools/explain needs them. Where a page can't be read there are no rules and no words."""
import collections, functools, pathlib, re
from decimal import Decimal

DOCS = pathlib.Path(__file__).resolve().parent.parent / "docs"
TOP_LEVEL, FIRST_FILE, LATER_FILE, LAYER_NAMES = "top level", "FILE_FORMAT", "FILE_FORMAT (later volumes)", "layer_name"
SORTS, SETS, NOT_READ = "Sorts of values", "Sets of bytes", "Not read"

Sort = collections.namedtuple("Sort", "written pattern limits within number")
# A value of a key: its name, its sort, and how often it may stand where it is the last and repeats.
Value = collections.namedtuple("Value", "name sort most")
# What the page says of a last value that may be left out: behind its name, and before what others must be then.
OR_NONE, WITHOUT = "(or none)", "without"
# A text or a word: whether it runs to the line's end, its bytes at most, their set in words and as a pattern.
Text = collections.namedtuple("Text", "free most letters pattern")
# without: of a row whose last value may be left out, what others must be then: {name: number}; empty elsewhere.
Row = collections.namedtuple("Row", "key forms times where values text opens across without")
Block = collections.namedtuple("Block", "heading least rows")


# ── pages ──


def page(name):
    try:
        return (DOCS / name).read_text(encoding="utf-8", errors="replace")
    except OSError:
        return ""


def cells(line):
    """The cells of a table's line, with their escapes and without the quotes of code."""
    return [cell.strip().replace("\\|", "|").replace("`", "'") for cell in re.split(r"(?<!\\)\|", line)[1:-1]]


def tables(text):
    """(heading, the words before its table, the rows of its table) of each section."""
    for section in re.split(r"^## ", text, flags=re.MULTILINE)[1:]:
        heading, _, rest = section.partition("\n")
        lines = [cells(line) for line in rest.splitlines() if line.startswith("|")]
        yield heading.strip(), rest.partition("\n|")[0], lines[2:]


# ── conditions and limits, as KEYS.md words them ──

DIGITS = re.compile(r"(\w+): (middle|last) digit (\d) or more")
EQUALS = re.compile(r"(\w+) is (not )?(\d{3})")
PLACES = {"middle": 1, "last": 2}


def asks(row):
    """(range, which of its digits, from which on) of each digit that a key asks for."""
    return [(name, PLACES[place], int(least)) for name, place, least in DIGITS.findall(row.where)]


def unmet(row, ranges):
    """(range, what it should be) of the first condition that the ranges don't meet, None where they meet all."""
    for name, place, least in DIGITS.findall(row.where):
        if int(range_of(ranges, name)[PLACES[place]]) < int(least):
            return name, f"has the {place} digit {least} or more"
    for name, other, value in EQUALS.findall(row.where):
        if (range_of(ranges, name) == value) == bool(other):
            return name, f"is {other}{value}"
    return None


def range_of(ranges, name):
    """A range part that is not written counts as 000."""
    return ranges.get(name, "000")


def within(limits, number):
    """Whether a number is in limits that name numbers, None where they don't."""
    if between := re.fullmatch(r"(\d+) to (\d+)", limits):
        return Decimal(between[1]) <= number <= Decimal(between[2])
    if least := re.fullmatch(r"(above )?(\d+)(?: or more)?", limits):
        return number > Decimal(least[2]) if least[1] else number >= Decimal(least[2])
    return None


# ── docs/KEYS.md ──


class Rulebook:
    def __init__(self):
        found = {heading: (words, rows) for heading, words, rows in tables(page("KEYS.md"))}
        self.sorts = {name: self.sort(*cells) for name, *cells in self.taken(found, SORTS)}
        self.sets = {name: pattern.strip("'") for name, pattern in self.taken(found, SETS)}
        self.not_read = dict(self.taken(found, NOT_READ))
        self.blocks = {heading: self.block(heading, *section) for heading, section in found.items()}

    def taken(self, found, heading):
        """The rows of a section that is no block."""
        return found.pop(heading, ("", []))[1]

    def sort(self, written, pattern, limits, within, number):
        return Sort(written, pattern.strip("'"), limits, within.strip("'"), number)

    def block(self, heading, words, rows):
        least = re.search(r"At least (\d+) must stand here", words)
        return Block(heading, int(least[1]) if least else 0, [self.row(*row) for row in rows])

    def row(self, key, forms, times, where, holds, across):
        parts = [part.partition(": ")[::2] for part in holds.split("; ")]
        opens = next((sort for name, sort in parts if name == "block"), None)
        values = [self.value(name, sort) for name, sort in parts if sort in self.sorts]
        across, _, without = across.partition(f"; {WITHOUT} ")
        others = {name: Decimal(number) for name, number in re.findall(r"(\w+) must be (\d+)", without)}
        return Row(key, forms, times, where, values, self.text(holds), opens, across, others)

    def value(self, name, sort):
        repeated = re.fullmatch(r"(.+) \(0 to (\d+)\)", name)
        if repeated:
            return Value(repeated[1], self.sorts[sort], int(repeated[2]))
        return Value(name.removesuffix(f" {OR_NONE}"), self.sorts[sort], None)

    def text(self, holds):
        given = re.fullmatch(r".+: (text|word), \d+ to (\d+) bytes of (.+)", holds)
        return Text(given[1] == "text", int(given[2]), given[3], self.sets.get(given[3], ".")) if given else None

    def rows(self, heading, key):
        """The rows of a key in a block; in `layer_name` every key has its one row."""
        block = self.blocks.get(heading)
        if block is None:
            return []
        return block.rows if heading == LAYER_NAMES else [row for row in block.rows if row.key == key]

    def row_of(self, heading, key, ranges):
        """The row of a key that the ranges allow, or else its last."""
        rows = self.rows(heading, key)
        return next((row for row in rows if unmet(row, ranges) is None), rows[-1] if rows else None)

    def keys(self, heading, ranges):
        """The keys that a block may have in a file of these ranges, each once."""
        rows = self.blocks[heading].rows if heading in self.blocks else []
        return list(dict.fromkeys(row.key for row in rows if unmet(row, ranges) is None))


@functools.cache
def rulebook():
    return Rulebook()


# ── docs/REFUSALS.md ──


@functools.cache
def refusals():
    """(what is wrong, what to do) by refusal number."""
    rows = (cells(line) for line in page("REFUSALS.md").splitlines() if re.match(r"\| *[0-9]+ *\|", line))
    return {int(row[0]): (row[1], row[3]) for row in rows if len(row) > 3}
