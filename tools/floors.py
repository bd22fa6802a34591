"""A lab floor: rooms on both sides of a corridor, their walls and doors, outlets, lamps and switches, with their symbols, serials and texts; and
its wiring.

Places are in millimetres of the building, symbols and letters in millimetres of the paper (document 000, chapters 6 and 7). Some numbers are
written in needless ways (a zero in front, zeros behind), which is what a sample is for.
"""
from decimal import Decimal

from drawings import *
from sheets import MARGIN, paper

SCALE = 50  # a millimetre on the paper is so many in the building
LAMP_FACTOR, LAMP_RADIUS, OUTLET_RADIUS, SWITCH_RADIUS = "1.25", 125, 75, 50  # in the building, as they are placed
LAMP = (
    "LAMP",
    [
        circle("1307", "0", "0", "2", "0", "360", "0"),
        line("1307", "-1.4142", "-1.4142", "1.4142", "1.4142"),
        line("1307", "-1.4142", "1.4142", "1.4142", "-1.4142"),
    ],
    [],
    "",
)
OUTLET = (
    "OUTLET2",
    [circle("1307", "0", "0", "1.5", "0", "360", "1"), line("1307", "-0.5", "-1.5", "-0.5", "2.25"), line("1307", "0.50", "-1.5", "0.50", "2.25")],
    [("-1.5", "0"), ("1.5", "0"), ("0", "1.5"), ("0", "-1.5")],
    "0,-1.5",
)
SWITCH = ("SWITCH1", [point("1307", "0", "0"), successive("1307", ("0", "0"), ("2.25", "2.25"), ("3.25", "1.25"))], [], "0,-1")
ROOMS = ["実験室 1", "実験室 2", "低温室", "暗室", "Workshop {A}", "Store=2", "前室"]
# Half a letter's width, its height, and from one half to the next; of letters that stand one below the other, from one to the next.
NAME_LETTERS, MARK_LETTERS, MARK_LETTERS_DOWN = "1.5,3,1.5", "1.25,2.5,1.25", "1.25,2.5,2.75"

# The first room's corner, and what a room takes: from its left wall to the next one's, its width, its depth behind the corridor, the corridor, and
# from one corridor to the next.
LEFT, BOTTOM = 2900, 2300
PITCH, WIDTH, DEPTH, CORRIDOR, WING = 6000, 5900, Decimal("7200.5"), 2000, 18000
DOOR = Decimal("850.25")
# In a room: across to its middle; how far from the corridor the switch, the lamps and the wire between the outlets are; the corner of a wire.
MIDDLE = 2950
TO_SWITCH, TO_NEAR_LAMP, TO_FAR_LAMP, TO_OUTLETS = Decimal("1100.0001"), 1800, 5400, 3600
CORNER, HIDDEN = 400, 100


def columns_and_rows(size):
    """How many rooms a sheet has beside each other, and one above the other: none runs over its margin."""
    width, height = (SCALE * (side - MARGIN) for side in paper(int(size[:-2] or 1), int(size[-1])))
    return (width - LEFT) // PITCH, 2 * ((height - BOTTOM + WING - (2 * int(DEPTH) + CORRIDOR)) // WING)


def size_for(count):
    """The smaller of two sheets that so many rooms fit on."""
    columns, rows = columns_and_rows("A2")
    return "A2" if count <= columns * rows else "4A1"


class Place:
    """Where a room lies: row by row, every second row on the other side of its corridor, upside down."""

    def __init__(self, number, size):
        row, column = divmod(number, columns_and_rows(size)[0])
        wing, self.below = divmod(row, 2)
        self.left = LEFT + PITCH * column
        self.corridor = BOTTOM + WING * wing + int(DEPTH) + (0 if self.below else CORRIDOR)

    def x(self, right):
        """So far right of the left wall."""
        return self.left + right

    def y(self, depth, up=0):
        """So far behind the corridor's wall, and then so far up on the sheet."""
        return self.corridor + (-depth if self.below else depth) + up

    def at(self, right, depth, up=0):
        return f"{self.x(right)},{self.y(depth, up)}"

    def either(self, above, below):
        """What differs on the two sides of a corridor."""
        return below if self.below else above


def room(number, name, place):
    """The walls of a room, and what hangs in it, as figures for three layers."""
    corners = (DOOR, 0), (WIDTH, 0), (WIDTH, DEPTH), (0, DEPTH), (0, 0)
    walls = [
        successive("1407", *((place.x(right), place.y(depth)) for right, depth in corners)),
        line("1207", f"{place.x(DOOR)}", f"{place.y(0)}", f"{place.x(DOOR)}", f"{place.y(DOOR)}"),
        circle("1107", f"{place.x(DOOR)}", f"{place.y(0)}", f"{DOOR}", *place.either(("90", "180", "0"), ("270", "180", "1"))),
        text("1307", f"{place.at(600, 2500)},{NAME_LETTERS},0,0", name),
    ]
    own, to_far_wall = 10 * number, place.either(180, 0)
    on_walls = [
        (OUTLET_RADIUS, TO_OUTLETS, 270),
        (1475, DEPTH - OUTLET_RADIUS, to_far_wall),
        (4425, DEPTH - OUTLET_RADIUS, to_far_wall),
        (WIDTH - OUTLET_RADIUS, TO_OUTLETS, 90),
    ]
    outlets = [
        placed(
            "OUTLET2",
            f"{place.at(right, depth)},{angle},1",
            hight="300" if k else "-15.5",
            pos="1" if k else "2",
            circuit=f"L{number + 1}-{k % 3}",
            serial=f"{own + k:04}" + (f",{own},{own + 9}" if k else ""),
        )
        for k, (right, depth, angle) in enumerate(on_walls)
    ]
    lamps = [
        placed("LAMP", f"{place.at(MIDDLE, depth)},0,{LAMP_FACTOR}", text=("1307", note, mark), hight="", pos="", circuit="", serial=str(own + k))
        for depth, note, mark, k in (
            (TO_FAR_LAMP, f"{place.at(MIDDLE + 200, TO_FAR_LAMP, -60)},{MARK_LETTERS},0,0", "FL40 ×2", 4),
            (TO_NEAR_LAMP, f"{place.at(MIDDLE + 200, TO_NEAR_LAMP, 300)},{MARK_LETTERS_DOWN},0,1", "非常灯:{", 5),
        )
    ]
    switch = [placed("SWITCH1", f"{place.at(SWITCH_RADIUS, TO_SWITCH)},270,1", hight="1200", pos="1", circuit=f"L{number + 1}.s", serial=str(own + 9))]
    return walls, outlets, lamps + switch


def wiring(number, place):
    """The wires of a room, at E_wire 418: in the ceiling from the switch to a lamp, round a corner; from that lamp to the other, hidden where the
    next one passes; in the floor from an outlet to the one across, in every second room to the board instead, which is not on the sheet."""
    own, middle = 10 * number, f"{place.x(MIDDLE)}"
    switched, turned, before_corner = f"{place.y(TO_SWITCH)}", f"{place.y(TO_SWITCH + CORNER)}", f"{place.x(MIDDLE - CORNER)}"
    to_lamp = wire(
        line("1307", f"{place.x(2 * SWITCH_RADIUS)}", switched, before_corner, switched),
        circle("1307", before_corner, turned, f"{CORNER}", *place.either(("270", "0", "0"), ("90", "0", "1"))),
        line("1307", middle, turned, middle, f"{place.y(TO_NEAR_LAMP - LAMP_RADIUS)}"),
        num=[f"0,2,{place.at(1500, TO_SWITCH)},0", f"0,2,{place.at(MIDDLE, 1600)},90.0"],
        length="4350.5",
        circuit=f"L{number + 1}.s",
        power="1,2,100",
        serial=f"{own + 6},{own + 9},{own + 5}",
    )
    hides, shows_again = place.y(TO_OUTLETS - HIDDEN), place.y(TO_OUTLETS + HIDDEN)
    between_lamps = wire(
        line("1307", middle, f"{place.y(TO_NEAR_LAMP + LAMP_RADIUS)}.0", middle, f"{hides}"),
        line("0000", middle, f"{hides}.00", middle, f"{shows_again}"),
        line("1307", middle, f"0{shows_again}", middle, f"{place.y(TO_FAR_LAMP - LAMP_RADIUS)}"),
        texts=[
            ("1307", f"{place.at(MIDDLE - 60, 2600, -280)},{MARK_LETTERS},90,0", "VVF1.6-2C"),
            ("1307", f"{place.at(MIDDLE + 60, 4500, 340)},{MARK_LETTERS_DOWN},0,1", "天井内:{"),
        ],
        length="",
        circuit="",
        power="",
        serial=f"{own + 7:04},{own + 5},{own + 4}",
    )
    to_board = number % 2 == 1
    begins, ends = 2 * OUTLET_RADIUS, 5000 if to_board else WIDTH - 2 * OUTLET_RADIUS
    across = f"{place.y(TO_OUTLETS)}"
    along_outlets = wire(
        line("4307", f"{place.x(begins)}", across, f"{place.x(ends)}", across),
        direc=[f"1,{place.x(ends)},{across},0"] if to_board else [],
        piend=[f"{place.x(begins)},{across},180", f"{place.x(4400 if to_board else ends)},{across},0"],
        num=[f"1,3,{place.x(2000)},{across},180"],
        texts=[("1307", f"{place.at(500, TO_OUTLETS, 60)},{MARK_LETTERS},0,0", f"E5.5 ×{number + 1}")],
        length=f"{ends - begins}",
        circuit=f"L{number + 1}-0",
        power="3,3,200" if to_board else "1,3,200",
        serial=f"{own + 8},{own}," + ("" if to_board else f"{own + 3}"),
    )
    return [to_lamp, between_lamps, along_outlets]


LAYERS = [("A_001", "壁"), ("E_151", "コンセント"), ("E_152", "電灯")]
WIRING = "E_153", "配線"
UNUSED = "E_900", ""


def sheet_of(size, **given):
    return Sheet(
        arc="001",
        s_elec="002",
        size=size,
        scale=f"1/{SCALE}",
        project="理学部 2号館 改修",
        drawname="2F 電灯・コンセント",
        drawer="鈴木",
        floor_height="3600",
        all_line="640",
        this_line="640",
        about=["ACC-W", "Windows 95", "PC-9821", "2.1", "帝都電設", "施設部", "03-0000(0000)", "2号館"],
        symbols=[LAMP, OUTLET, SWITCH],
        remarks=["# 1997-04-01 first issue", "", "#}"],
        **given,
    )


def placed_in_rooms(count, size):
    """The figures of so many rooms, layer by layer."""
    rooms = [room(n, ROOMS[n % len(ROOMS)], Place(n, size)) for n in range(count)]
    return [(id, [figure for figures in rooms for figure in figures[k]]) for k, (id, _) in enumerate(LAYERS)]


def floor(count=len(ROOMS)):
    """A floor of so many rooms without its wiring, in one volume; 8 KB where nothing is said."""
    size = size_for(count)
    return drawing(sheet_of(size, layers=[*LAYERS, UNUSED]), [("FLOOR2", [*placed_in_rooms(count, size), (UNUSED[0], [])])])


def wired_floor(count=len(ROOMS)):
    """The same with its wiring."""
    size = size_for(count)
    wires = [figure for n in range(count) for figure in wiring(n, Place(n, size))]
    layers = [*placed_in_rooms(count, size), (WIRING[0], wires), (UNUSED[0], [])]
    return drawing(sheet_of(size, e_wire="418", layers=[*LAYERS, WIRING, UNUSED]), [("FLOOR2", layers)])
