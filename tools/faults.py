"""The fault of a refused spool in words, by its number. Nothing is judged again for its own sake: the answer is the proved reader's, and here
are only looked for the words. Where the fault is not seen, as with an answer that is another spool's, there are none."""
import re

import line_faults, spool_faults, spools
from line_faults import either
from rulebook import FIRST_FILE, LATER_FILE, TOP_LEVEL, unmet
from spools import CLOSE, CONTENT, EOF, OPENING, OPENS, quoted, shown
from walk import BY_FRONT, Case, FULLEST, knows

MOST_LISTED = 12  # names in a sentence
LATER_BLOCKS = FIRST_FILE, "ELEMENT"
CLASSES, WIRE_PARTS = {*range(1, 6), *range(11, 16)}, {*range(0, 9), *range(11, 19)}
NUMBER = re.compile(rb"[0-9]{1,10}")
MOST_DEPTH = 4


def listing(names):
    names = [shown(name) for name in names]
    more = len(names) - MOST_LISTED
    return either(names, "and") if more <= 0 else f"{', '.join(names[:MOST_LISTED])} and {more} more"


# ── 1, 2, 19, 20: of the front end, the whole spool, and what was lent ──


def front_fault(front):
    number, wires = front
    if number not in CLASSES:
        return f"class {number} is none of 1 to 5 and 11 to 15"
    return None if wires in WIRE_PARTS else f"wire part {wires} is none of 0, 1 to 8 and 11 to 18"


def output_fault(spool):
    return f"the output is shorter than the fixed form, which has {len(spool):,} bytes at most, as many as the spool"


def room_fault(room):
    return f"the table has room for {room:,} record{'' if room == 1 else 's'}, and with this line's there are more"


# ── 7, 8: a block ──


def twice_fault(case):
    first = case.block.first(case.form.key)
    if first is None or case.row is None or case.row.times not in ("once", "at most once"):
        return None
    return f"{shown(case.form.key)} stands in {case.at(first)} of the block already"


def required(case, row):
    """Whether the block that closes must have a key."""
    heading = case.block.heading
    return row.times == "once" and unmet(row, case.walk.ranges) is None and knows(case.walk.front, heading, row)


def missing_fault(case):
    if case.form.shape != CLOSE or case.block.heading in (None, TOP_LEVEL):
        return None
    block = case.walk.book.blocks[case.block.heading]
    missing = [row.key for row in block.rows if required(case, row) and not case.block.all(row.key.encode())]
    if missing:
        return f"{either(missing, 'and')} {'is' if len(missing) == 1 else 'are'} missing in {case.called(case.block)}"
    stand = len(case.block.entries)
    if stand >= block.least:
        return None
    keys = case.walk.book.keys(case.block.heading, case.walk.ranges)
    none = f"no {keys[0]}" if len(keys) == 1 else f"none of {either(keys)}"
    has = f"only {stand} {either(keys)}{'' if stand == 1 else 's'}" if stand else none
    return f"{case.called(case.block)}, has {has}, and {block.least} is the least"


# ── 9: order and ends ──


def order_fault(case):
    return closes_nothing(case) or misplaced_eof(case) or out_of_order(case) or early_end(case)


def blocks_of(case, volume):
    """The blocks of a volume in their order."""
    return case.walk.book.keys(TOP_LEVEL, {}) if volume == 1 else LATER_BLOCKS


def closed(case):
    """The blocks of the volume that stand before the line, at the top level."""
    return [entry.key.decode("latin-1") for entry in case.walk.open[0].entries]


def next_block(case):
    """The block that must come next, None behind ELEMENT."""
    return next((name for name in blocks_of(case, case.volume) if name not in closed(case)), None)


def closes_nothing(case):
    if case.form.shape != CLOSE or len(case.walk.open) > 1:
        return None
    last = case.walk.open[0].entries[-1:]
    return "the '}' closes nothing: " + (f"{shown(last[0].key)}, the last block, is closed" if last else "no block has opened")


def misplaced_eof(case):
    if case.form.shape != EOF:
        return None
    if len(case.walk.open) > 1:
        return f"EOF is misplaced: {case.called(case.block)}, is not closed"
    if next_block(case):
        return f"EOF is misplaced: {next_block(case)} has not come yet"
    if case.volume < len(case.volumes):
        return f"EOF is misplaced: {case.name(case.volume + 1)} follows, and EOF ends the last volume alone"
    behind = len(case.lines) - case.line
    stand = "1 line stands" if behind == 1 else f"{behind} lines stand"
    return f"EOF is misplaced: {stand} behind it, and it must be the last" if behind > 0 else None


def out_of_order(case):
    if len(case.walk.open) > 1 or case.form.shape != OPENS or case.key not in blocks_of(case, 1):
        return None
    first, expected = case.walk.open[0].first(case.form.key), next_block(case)
    if first:
        return f"{case.key} stands twice: it opened in {case.at(first)} already"
    if case.key not in blocks_of(case, case.volume):
        return f"{case.key} stands in the first volume alone"
    return None if case.key == expected else f"{case.key} is out of order: {expected} must come first"


def early_end(case):
    """The last line of a volume that isn't complete with it."""
    if case.line < len(case.lines):
        return None
    if not case.lines:
        return f"the volume ends early, and {next_block(case)} has not come"
    case.walk.step(case.text, case.line)
    block = case.walk.open[-1]
    if len(case.walk.open) > 1:
        return f"the volume ends here, and {case.title(block)}, which opened in {case.at(block)}, is not closed"
    missing = next_block(case) or ("EOF" if case.volume == len(case.volumes) and case.form.shape != EOF else None)
    return f"the volume ends here, and {missing} has not come" if missing else None


# ── 13 to 15: names and numbers ──


def symbols(case):
    """The entries of the symbols' names that are defined."""
    found = (node.first(b"name") for node in case.walk.nodes["E_symbol (definition)"])
    return [entry for entry in found if entry]


def symbol_fault(case):
    if case.key not in ("symbol", "E_symbol") or case.form.shape != CONTENT:
        return None
    name, defined = case.form.content.partition(b",")[0], [entry.content for entry in symbols(case)]
    if name in defined:
        return None
    named = quoted(name) if name else "a symbol without a name"
    return f"{named} is not defined: SYMBOL_DEFINE has {listing(defined) if defined else 'no symbol'}"


def layer_fault(case):
    if case.form.shape == EOF:
        return unused_layers(case)
    declared = {entry.key: entry for node in case.walk.nodes["layer_name"] for entry in node.entries}
    if case.block.heading == "layer_name":
        first = declared.get(case.form.key)
        return f"the layer {shown(case.form.key)} is declared in {case.at(first)} already" if first else None
    if case.key != "LAYER" or case.form.shape != OPENING:
        return None
    name = case.form.content
    if name not in declared:
        return f"the layer {shown(name)} is not declared: layer_name has {listing(declared) if declared else 'none'}"
    used = [node for node in case.walk.nodes["LAYER"] if node.content == name and node.volume == case.volume]
    return f"the layer {shown(name)} stands in {case.at(used[0])} of this volume already" if used else None


def unused_layers(case):
    used = {node.content for node in case.walk.nodes["LAYER"]}
    unused = [entry for node in case.walk.nodes["layer_name"] for entry in node.entries if entry.key not in used]
    if not unused:
        return None
    names = listing([entry.key for entry in unused])
    if len(unused) == 1:
        return f"the layer {names}, declared in {case.at(unused[0])}, is used in no volume"
    return f"the layers {names}, declared from {case.at(unused[0])} on, are used in no volume"


def serials(case):
    """Every serial that the front end reads, in the order of the set."""
    found = [node.first(b"serial") for heading in BY_FRONT for node in case.walk.nodes[heading]]
    return sorted((entry for entry in found if entry and entry.row), key=lambda entry: (entry.volume, entry.line))


def own_number(entry):
    """The own number of a serial, None where it has none."""
    own = entry.content.partition(b",")[0]
    return int(own) if NUMBER.fullmatch(own) else None


def again_fault(case):
    if case.form.shape != CONTENT:
        return None
    if case.key == "name":
        first = next((entry for entry in symbols(case) if entry.content == case.form.content), None)
        return f"the symbol {shown(case.form.content)} is defined in {case.at(first)} already" if first else None
    if case.key != "serial":
        return None
    number = own_number(case.form)
    first = next((entry for entry in serials(case) if own_number(entry) == number), None)
    return f"number {number} stands in {case.at(first)} already, {quoted(b'serial=' + first.content)}" if first and number is not None else None


# ── 16, 17: volumes and totals ──


def files(case):
    """FILE_FORMAT of each volume so far."""
    return case.walk.nodes[FIRST_FILE] + case.walk.nodes[LATER_FILE]


def said(node, key):
    entry = node.first(key)
    return entry.content if entry else b""


def chain_fault(case):
    if case.form.shape != CLOSE or case.block.heading not in (FIRST_FILE, LATER_FILE):
        return None
    names, next_file = [name for name, _ in case.volumes], said(case.block, b"next_file")
    follows = names[case.volume] if case.volume < len(names) else b""
    if next_file.upper() != follows:
        says = f"next_file says {shown(next_file)}" if next_file else "next_file is empty"
        return f"{says}, and " + (f"{case.name(case.volume + 1)} follows" if follows else "no volume follows")
    first = files(case)[0]
    for key in b"date", b"time":
        if said(case.block, key) != said(first, key):
            return f"{key.decode()} is {shown(said(case.block, key))}, and that of {case.name(1)} is {shown(said(first, key))}"
    return None


def count_fault(case):
    layers, found = case.walk.nodes["LAYER"], files(case)
    if not found:
        return None
    if case.form.shape == CLOSE and case.block.heading == "ELEMENT":
        return differ(found[-1], b"this_ele", [node for node in layers if node.volume == case.volume], "this volume")
    if case.form.shape == EOF:
        return differ(found[0], b"all_ele", layers, "the set")
    return None


def differ(node, key, layers, where):
    """A count that is not the number of keys directly in the layers."""
    says, stand = said(node, key), sum(len(layer.entries) for layer in layers)
    if not NUMBER.fullmatch(says) or int(says) == stand:
        return None
    return f"{key.decode()} says {int(says)}, and {'1 figure stands' if stand == 1 else f'{stand} figures stand'} in the layers of {where}"


# ── 18, 21 ──


def nesting_fault(case):
    """Of a wire that is skipped whole its own block doesn't count."""
    around = zip(case.walk.open, case.walk.open[1:])
    skipped = [node for outer, node in around if node.heading is None and outer.heading != "LAYER"]
    if case.form.shape not in (OPENS, OPENING) or len(skipped) < MOST_DEPTH:
        return None
    depth = f"{shown(case.form.key)} would stand {len(skipped) + 1} deep"
    return f"{depth}: {case.called(skipped[0])}, is skipped, and in it blocks stand {MOST_DEPTH} deep at most"


def partner_fault(case):
    """The first partner that is no symbol's and no wire's own number."""
    if case.form.shape != EOF:
        return None
    found = serials(case)
    own = {own_number(entry) for entry in found}
    for entry in found:
        partners = map(int, filter(NUMBER.fullmatch, entry.content.split(b",")[1:]))
        missing = next((partner for partner in partners if partner not in own), None)
        if missing is not None:
            named = f"named in {case.at(entry)}, {quoted(b'serial=' + entry.content)}"
            return f"number {missing}, {named}, is no symbol's and no wire's own number in the set"
    return None


# ── by number ──

OF_LINES = {
    4: lambda case: spool_faults.byte_fault(case.raw),
    5: line_faults.form_fault,
    6: line_faults.key_fault,
    7: twice_fault,
    8: missing_fault,
    9: order_fault,
    10: line_faults.writing_fault,
    11: line_faults.limits_fault,
    12: line_faults.served_fault,
    13: symbol_fault,
    14: layer_fault,
    15: again_fault,
    16: chain_fault,
    17: count_fault,
    18: nesting_fault,
    21: partner_fault,
}
FRONT, SPOOL, VOLUME, TABLE, OUTPUT = 1, 2, 3, 19, 20


def fault(spool, answer, volume, line, front=None, room=256):
    """What is wrong in words, None where it is not seen."""
    if answer == FRONT:
        return front_fault(front or FULLEST)
    if answer == SPOOL:
        return spool_faults.spool_fault(spool)
    if answer == OUTPUT:
        return output_fault(spool)
    if answer == TABLE:
        return room_fault(room)
    volumes = spools.volumes(spool)
    if not 0 < volume <= len(volumes):
        return None
    if answer == VOLUME:
        return spool_faults.lines_fault(volumes[volume - 1][1])
    if answer not in OF_LINES or line > len(spools.lines(volumes[volume - 1][1])):
        return None
    return OF_LINES[answer](Case(spool, volume, line, front))
