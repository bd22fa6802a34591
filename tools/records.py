"""The numbers of a record, by name: the one table that the header, the listings and the preview go by.

A kind has a number, a name and its fields; a field has its place, its name and what sort of number stands there. docs/RECORDS.md says the same
for people; tools/make-header sees that the two agree, and that the places of keys are those of the definitions' rows.
"""
import collections

from spools import CODES, escaped, letter

RECORD = 32
ONE = 10000  # decimals are in ten-thousandths
FIRST_IN_SYMBOL = 20  # a figure inside a symbol has the kind of the same figure in a layer, and this more

# The sorts of numbers. A text stands in two: its place in the spool and its length in bytes.
DECIMAL, NUMBER, RANGE, DATE, TIME, TEXT, STATE, LETTER = "decimal", "number", "range", "date", "time", "text", "state", "letter"

Field = collections.namedtuple("Field", "place name sort")
Kind = collections.namedtuple("Kind", "number name fields")

# What every record has in front.
COMMON = ("kind", "owner", "volume", "line", "type")
FIRST_VALUE = len(COMMON)
STATES = ("absent", "empty", "given", "unread")
JOINS = ("none", "tested", "untested")
# A turn that was not written is that of a whole circle of six values, in a symbol.
TURNS = {-1: "none", 0: "counterclockwise", 1: "clockwise"}

# Refusal numbers, in order from 0.
REFUSALS = (
    "accepted class spool ends byte form key twice missing order number value range symbol layer again chain count nesting table output partner"
).split()


def fields(first, *groups):
    """Fields one behind the other from a place on: (sort, names) in turn; a number in between is the place to go on from."""
    made, place = [], first
    for group in groups:
        if isinstance(group, int):
            place = group
            continue
        sort, names = group
        for name in names.split():
            made.append(Field(place, name, sort))
            place += 2 if sort == TEXT else 1
    return tuple(made)


TEXT_VALUES = (DECIMAL, "x y width height gap angle"), (NUMBER, "upright"), (TEXT, "characters")


def named(prefix, groups):
    """The same fields, each name behind a prefix."""
    return tuple((sort, " ".join(f"{prefix}_{name}" for name in names.split())) for sort, names in groups)


# Figures that stand in layers and in symbols: the place of the first value is 5, their type is place 4.
FIGURES = {
    10: ("line", fields(5, (DECIMAL, "x y x2 y2"))),
    11: ("circle", fields(5, (DECIMAL, "x y radius start end"), (NUMBER, "turn"))),
    12: ("ellipse", fields(5, (DECIMAL, "x y long short start end tilt"), (NUMBER, "turn"))),
    13: ("point", fields(5, (DECIMAL, "x y"))),
    14: ("successive", fields(5, (NUMBER, "points"))),
    15: ("text", fields(5, *TEXT_VALUES)),
    17: ("successive_point", fields(5, (DECIMAL, "x y"))),
}

OWN = {
    1: (
        "header",
        fields(5, (RANGE, "b_sym arc elec e_sym sym s_base s_elec"), (NUMBER, "all_line all_ele"), (DATE, "date"), (TIME, "time"),
               (TEXT, "cad os hard ver corp make tel name")),
    ),
    2: ("volume", fields(5, (NUMBER, "this_line this_ele"))),
    3: (
        "drawing",
        fields(5, (NUMBER, "sheets a_number scale_p scale_q"), (DATE, "date"), (STATE, "floor_height_state"), (DECIMAL, "floor_height"),
               (TEXT, "project drawname drawer")),
    ),
    4: ("symbol", fields(5, (TEXT, "name"), (STATE, "wall_state"), (DECIMAL, "wall_x wall_y"))),
    5: ("layer", fields(5, (LETTER, "letter"), (NUMBER, "number"), (TEXT, "name"))),
    16: (
        "placed",
        fields(5, (NUMBER, "symbol"), (DECIMAL, "x y angle factor hight"), (NUMBER, "pos"), (TEXT, "circuit"), (NUMBER, "serial partners"),
               *named("text", ((NUMBER, "type"), *TEXT_VALUES)), (STATE, "text_state hight_state pos_state circuit_state serial_state")),
    ),
    18: (
        "wire",
        fields(5, (NUMBER, "elements direcs direc_sign"), (DECIMAL, "direc_x direc_y direc_angle"), (NUMBER, "direc2_sign"),
               (DECIMAL, "direc2_x direc2_y direc2_angle"), (NUMBER, "piends"), (DECIMAL, "piend_x piend_y piend_angle"),
               (NUMBER, "nums num_earth num_wires"), (DECIMAL, "num_x num_y num_angle length"),
               (STATE, "direc_state piend_state num_state length_state"), (NUMBER, "first_digit"), (STATE, "mark")),
    ),
    19: (
        "wire_more",
        fields(5, (NUMBER, "texts"), *named("text", ((NUMBER, "type"), *TEXT_VALUES)), (TEXT, "circuit"),
               (NUMBER, "power_phase power_wires power_volts serial"), (STATE, "start_state"), (NUMBER, "start_partner"), (STATE, "end_state"),
               (NUMBER, "end_partner"), (STATE, "text_state circuit_state power_state serial_state"), 31, (STATE, "mark")),
    ),
    20: ("wire_line", (*FIGURES[10][1], Field(11, "join", NUMBER))),
    21: ("wire_arc", (*FIGURES[11][1], Field(11, "join", NUMBER))),
    43: ("hide_point", FIGURES[13][1]),
}


def all_kinds():
    in_symbols = {number + FIRST_IN_SYMBOL: (f"symbol_{name}", places) for number, (name, places) in FIGURES.items()}
    found = {**OWN, **FIGURES, **in_symbols}
    return {number: Kind(number, *found[number]) for number in sorted(found)}


KINDS = all_kinds()
BY_NAME = {kind.name: kind.number for kind in KINDS.values()}


# ── records read by name ──


def decimal(number):
    """A decimal of the table, in ten-thousandths, as people write it: -155000 is -15.5."""
    whole, rest = divmod(abs(number), ONE)
    digits = f"{rest:04}".rstrip("0")
    return ("-" if number < 0 else "") + str(whole) + (f".{digits}" if digits else "")


def letters(raw):
    """A text's bytes as letters: the file's code page; a code that has no letter is escaped, and those behind it are read as they stand."""
    return "".join(letter(code) or escaped(code) for code in CODES.findall(raw))


def shown(field, record, spool):
    """What a field of a record says, as text."""
    number = record[field.place]
    if field.sort == DECIMAL:
        return decimal(number)
    if field.sort == RANGE:
        return f"{number:03}"
    if field.sort == DATE:
        return f"{number:08}"
    if field.sort == TIME:
        return f"{number:06}"
    if field.sort == TEXT:
        return letters(spool[number : number + record[field.place + 1]])
    if field.sort == STATE:
        return STATES[number]
    if field.sort == LETTER:
        return chr(number)
    return str(number)


def values(record, spool):
    """The fields of a record by name, as text."""
    return {field.name: shown(field, record, spool) for field in KINDS[record[0]].fields}
