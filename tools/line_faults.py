"""What is wrong with a line by the rule of its key: its form (5), the key in its block (6), how a value is written (10), a value's limits (11),
the ranges served (12). Each tells a fault only where it sees it, and is None elsewhere."""
import difflib, re
from decimal import Decimal

from rulebook import FIRST_FILE, LATER_FILE, LAYER_NAMES, TOP_LEVEL, unmet, within
from spools import CODES, CONTENT, EMPTY, END_BLANKS, FORMLESS, OPENER, OPENING, OPENS, quoted, shown

LAYER_ID = "layer's id"  # a sort of values
DECIMAL = re.compile(rb"-?[0-9]{1,10}(\.[0-9]{1,4})?")
WIRE, ELEMENTS = "E_wire", ("line", "circle")
ENDS_JOINED = "4"  # E_wire's first digit at which ends are joined


def ordinal(n):
    return f"{n}{'th' if n // 10 % 10 == 1 else {1: 'st', 2: 'nd', 3: 'rd'}.get(n % 10, 'th')}"


def either(items, last="or"):
    *front, end = items
    return f"{', '.join(front)} {last} {end}" if front else end


# ── 5: the form ──


def form_fault(case):
    if not case.text:
        return None
    return no_form(case) or other_form(case)


def no_form(case):
    """A line that has no form in any block."""
    if case.form.shape != FORMLESS:
        return None
    text, key, rest = case.text, case.form.key, case.form.content
    bare = END_BLANKS.sub(b"", text)
    if bare in (b"}", b"EOF"):
        return f"a blank stands behind {quoted(bare)}: {quoted(text)}"
    if b"=" not in text and OPENER not in text:
        return "it has no '=' and no ':{', and is neither '}' nor 'EOF'"
    if not key:
        return f"no key stands in front of its '{'=' if text.startswith(b'=') else ':{'}'"
    if END_BLANKS.fullmatch(rest):
        return f"a blank stands behind its ':{{': {quoted(text)}"
    if rest:
        return f"behind its ':{{' stands {quoted(rest)}, where the line must end"
    return "nothing stands between its '=' and its ':{'"


def other_form(case):
    """A line in another form than its key takes."""
    row, form = case.row, case.form
    if row is None or unmet(row, case.walk.ranges) or fits(row, form):
        return None
    name, takes = shown(form.key), [re.sub(f"^'{row.key}", f"'{shown(form.key)}", words) for words in row.forms.split(", ")]
    if form.shape == EMPTY:
        return f"{name} may not be empty: it is written {either(takes)}"
    if form.shape == CONTENT and END_BLANKS.sub(b"", form.content).endswith(OPENER):
        return f"a blank stands behind its ':{{': {quoted(case.text)}"
    return f"{name} is written {either(takes)}{single_or_block(case)}"


def fits(row, form):
    """Whether a line has a form that its key takes. Of `key=000` and `key=001:{` the value is no matter of form, but for the other's."""
    takes = row.forms.replace(row.key, "key")
    if "'key=000'" in takes:
        return (form.shape == CONTENT and form.content != b"001") or (form.shape == OPENING and form.content != b"000")
    return f"'{form.shape}'" in takes


def single_or_block(case):
    """Why a key that has two rows is written as in this one."""
    two = len({row.forms for row in case.walk.book.rows(case.block.heading, case.key)}) > 1
    return f" where E_sym is {case.walk.range('E_sym')}" if two else ""


# ── 6: the key ──


def key_fault(case):
    if case.form.shape not in (OPENS, EMPTY, CONTENT, OPENING) or case.block.heading is None:
        return None
    if case.block.heading == LAYER_NAMES:
        return misspelt_id(case)
    row = case.walk.book.row_of(case.block.heading, case.key, case.walk.ranges)
    if row is None:
        return unknown_key(case)
    return by_range(case, row) or beside_non(case) or element_behind(case)


def misspelt_id(case):
    sort = case.walk.book.sorts[LAYER_ID]
    return None if matches(sort.within, case.form.key) else f"{quoted(case.form.key)} is no layer's id: {sort.limits}"


def unknown_key(case):
    what = case.walk.book.not_read.get(case.key)
    if what:
        return f"{case.key} ({what}) is not read"
    book, ranges = case.walk.book, case.walk.ranges
    keys = book.keys(case.block.heading, ranges)
    if case.block.heading == TOP_LEVEL:
        return f"no block is open here, and {quoted(case.form.key)}{meant(case, keys)} is none of {either(keys, 'and')}"
    if case.key in book.keys(TOP_LEVEL, ranges):
        return f"{case.key} stands outside all blocks, and {case.called(case.block)}, is not closed"
    return f"{case.called(case.block)}, has no key {quoted(case.form.key)}{meant(case, keys)}: its keys are {either(keys, 'and')}"


def meant(case, keys):
    """What was probably meant: a key of another block, or one of this block that is spelt like it."""
    others = [heading for heading in case.walk.book.blocks if case.walk.book.rows(heading, case.key) and heading != LAYER_NAMES]
    if case.block.heading == LATER_FILE and FIRST_FILE in others:
        return " (only the first volume's has it)"
    if others:
        return f" (a key of {either(dict.fromkeys(heading.partition(' (')[0] for heading in others), 'and')})"
    alike = difflib.get_close_matches(case.key, keys, 1)
    return f" (the nearest is {alike[0]})" if alike else ""


def by_range(case, row):
    """A key that the file's range doesn't allow."""
    condition = unmet(row, case.walk.ranges)
    if condition is None:
        return None
    name, asked = condition
    return f"{case.key} may stand only where the file's {name} {asked}, and it is {case.walk.range(name)}"


def beside_non(case):
    """`NON=` and a symbol in one SYMBOL_DEFINE."""
    other = next((entry for entry in case.block.entries if entry.key != case.form.key), None)
    if case.block.heading != "SYMBOL_DEFINE" or other is None:
        return None
    return f"'NON=' stands alone in SYMBOL_DEFINE, and {shown(other.key)} stands in {case.at(other)}"


def element_behind(case):
    """A line or arc of a wire behind something else in it."""
    other = next((entry for entry in case.block.entries if entry.key.decode("latin-1") not in ELEMENTS), None)
    if case.block.heading != WIRE or case.key not in ELEMENTS or other is None:
        return None
    return f"in a wire {either(ELEMENTS, 'and')} stand before everything else, and {shown(other.key)} stands in {case.at(other)}"


# ── 10: how a value is written ──


def matches(pattern, raw):
    return re.fullmatch(pattern.encode(), raw, re.DOTALL) is not None


def named_values(case):
    """(what it is called, its sort, its bytes) of each value, None where their count is wrong. One value alone is not cut at its commas; the last
    may be left out where the row says so."""
    values, content = case.row.values, case.form.content
    if len(values) == 1:
        return [(shown(case.form.key), values[0].sort, content)]
    parts = content.split(b",")
    if values[-1].most:
        values = values[:-1] + [values[-1]] * (len(parts) - len(values) + 1)
    if left_out(case.row, len(parts)):
        values = values[:-1]
    if len(parts) != len(values):
        return None
    return [(f"value {n} ({value.name})", value.sort, part) for n, (value, part) in enumerate(zip(values, parts), 1)]


def has_values(case):
    return case.row is not None and bool(case.row.values) and case.form.shape in (CONTENT, OPENING)


def writing_fault(case):
    if not has_values(case):
        return None
    found = named_values(case)
    if found is None:
        return wrong_count(case)
    for name, sort, raw in found:
        if not matches(sort.pattern, raw):
            return f"{name} is {quoted(raw)} and must be {sort.written}" + or_left_out(case.row, found, name)
    return without_turn(case.row, found)


def wrong_count(case):
    """Where the last value may be left out, in this row or in that of another block, this is told too."""
    row, given = case.row, case.form.content.count(b",") + 1
    names = [value.name for value in row.values]
    told = f"it has {given} value{'s' if given > 1 else ''}, and {shown(case.form.key)} takes {len(names)}"
    if row.without:
        return f"{told}: {', '.join(names)}; a whole circle, from {whole(row)}, may leave out the {names[-1]}"
    for heading in case.walk.book.blocks:
        other = next((row for row in case.walk.book.rows(heading, case.key) if left_out(row, given)), None)
        if other:
            return f"{told} here: {', '.join(names)}; only in a symbol's {heading} may a whole circle, from {whole(other)}, leave out the {names[-1]}"
    return f"{told}: {', '.join(names)}"


# Of a row whose last value may be left out: a circle in a symbol.


def left_out(row, count):
    """Whether so many values are the row's without the last."""
    return bool(row.without) and count == len(row.values) - 1


def whole(row):
    """`0 to 360`: what is given where the last value is left out."""
    return " to ".join(map(str, row.without.values()))


def angles(row, found):
    """The same values of a line, by their bytes."""
    own = {value.name: raw for value, (_, _, raw) in zip(row.values, found)}
    return [own[name] for name in row.without]


def is_whole(row, found):
    return [number_of(raw) for raw in angles(row, found)] == [*row.without.values()]


def or_left_out(row, found, name):
    """Behind what is told of a last value that need not be there."""
    needless = row.without and len(found) == len(row.values) and name == found[-1][0] and is_whole(row, found)
    return ", or be left out with the comma before it" if needless else ""


def without_turn(row, found):
    """An arc that leaves out its turn."""
    if not left_out(row, len(found)) or is_whole(row, found):
        return None
    own, last = " to ".join(map(shown, angles(row, found))), f"its {row.values[-1].name} as value {len(row.values)}"
    return f"a circle of {len(found)} values must go from {whole(row)}, and this one goes from {own}: an arc needs {last} (0 counterclockwise, 1 clockwise)"


# ── 11 and 12: limits ──


def number_of(raw):
    return Decimal(raw.decode()) if DECIMAL.fullmatch(raw) else None


def limits_fault(case):
    """A value out of its limits, a text too long or of other letters, values that don't fit each other, one item too many, and in a wire what
    doesn't fit the lines before."""
    looks = value_limits, text_fault, across_fault, too_many, join_fault, num_fault, only_value
    return next((told for look in looks if (told := look(case))), None)


def value_limits(case):
    if not has_values(case):
        return None
    for name, sort, raw in named_values(case) or []:
        number = number_of(raw)
        if number is not None and sort.number == "11" and within(sort.limits, number) is False:
            return f"{name} is {quoted(raw)} and must be {sort.limits}"
    last = case.row.values[-1]
    if last.most and case.form.content.count(b",") > last.most:
        return f"it has {case.form.content.count(b','):,} {last.name}s, and {last.most} is the most"
    return None


def only_value(case):
    """The limits of a value that stands alone and is no number."""
    if not has_values(case) or len(case.row.values) > 1:
        return None
    sort = case.row.values[0].sort
    if sort.number != "11" or matches(sort.within, case.form.content) or within(sort.limits, Decimal(0)) is not None:
        return None
    return f"{shown(case.form.key)} is {quoted(case.form.content)} and must be {sort.limits}"


def text_fault(case):
    text = case.row.text if case.row else None
    if text is None or case.form.shape != CONTENT:
        return None
    content, letter = case.form.content, re.compile(text.pattern.encode(), re.DOTALL)
    whose = "the layer's name" if case.block.heading == LAYER_NAMES else shown(case.form.key)
    if len(content) > text.most:
        return f"{whose} has {len(content)} bytes, and {text.most} is the most"
    at = next((at for at in range(len(content)) if not letter.match(content, at)), None)
    return None if at is None else f"{whose} has {quoted(CODES.match(content, at)[0])} at its byte {at + 1}, and takes {text.letters} alone"


def across_fault(case):
    if not has_values(case) or not case.row.across:
        return None
    found = named_values(case)
    if found is None:
        return None
    numbers = {value.name: number_of(raw) for value, (_, _, raw) in zip(case.row.values, found)}
    if None in numbers.values():
        return None
    return next((told for rule in re.split(r"; (?=\D)", case.row.across) if (told := broken(rule, numbers))), None)


def broken(rule, numbers):
    """How the numbers of a line, by their names, break a rule between them; None where they keep it."""
    left, relation, right = re.fullmatch(r"(.+) (must differ from|must be above|must be one of) (.+)", rule).groups()
    given = [numbers[name] for name in left.split(", ")]
    if relation == "must be one of":
        allowed = [[Decimal(n) for n in row.split(",")] for row in right.split("; ")]
        return None if given in allowed else f"{left.replace(', ', ',')} is {','.join(map(str, given))} and must be one of {right}"
    other = [numbers[name] for name in right.split(", ")]
    if given > other if relation == "must be above" else given != other:
        return None
    one, two = (f"{one_word(names)} is {','.join(str(numbers[name]) for name in names.split(', '))}" for names in (left, right))
    return f"{one} and {two}: {one_word(left)} {relation} {one_word(right)}"


def one_word(names):
    """`start x, start y` is the start."""
    words = {name.split()[0] for name in names.split(", ")}
    return words.pop() if len(words) == 1 else names


def too_many(case):
    most = re.fullmatch(r"up to (\d+)", case.row.times) if case.row else None
    stand = len(case.block.entries if case.block.heading == LAYER_NAMES else case.block.all(case.form.key)) if most else 0
    if not most or stand < int(most[1]):
        return None
    what = "layer" if case.block.heading == LAYER_NAMES else shown(case.form.key)
    return f"this is the {ordinal(stand + 1)} {what} of {case.called(case.block)}, and {most[1]} is the most"


def join_fault(case):
    """A line of a wire that doesn't start where the line before it ends."""
    former = case.block.entries[-1] if case.block.entries else None
    if case.block.heading != WIRE or case.walk.range(WIRE)[0] != ENDS_JOINED:
        return None
    if former is None or not former.key == case.form.key == b"line":
        return None
    end, start = former.content.split(b",")[3:5], case.form.content.split(b",")[1:3]
    if [number_of(n) for n in end] == [number_of(n) for n in start]:
        return None
    gap = f"it starts at {shown(b','.join(start))}, and the line before it, {case.at(former)}, ends at {shown(b','.join(end))}"
    return f"{gap}: at E_wire {case.walk.range(WIRE)} they must join (another first digit than {ENDS_JOINED} allows gaps)"


def num_fault(case):
    """A `num` of a wire that is unlike its first."""
    first = case.block.first(b"num")
    if case.block.heading != WIRE or case.key != "num" or first is None:
        return None
    own, other = (content.split(b",")[:2] for content in (case.form.content, first.content))
    if [number_of(n) for n in own] == [number_of(n) for n in other]:
        return None
    firsts = f"those of the wire's first num, {case.at(first)}, {shown(b','.join(other))}"
    return f"its earth and wires are {shown(b','.join(own))}, and {firsts}: all must be alike"


def served_fault(case):
    if not has_values(case):
        return None
    sort = case.row.values[0].sort
    if sort.number != "12" or matches(sort.within, case.form.content):
        return None
    return f"{shown(case.form.key)} is served at {sort.limits}"
