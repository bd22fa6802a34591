"""Damaged spools, one for each thing that tools/explain must tell apart: a sound drawing of one volume, and one of three, in which lines or
bytes are changed. The first two digits of a name are the refusal number that is meant; the answer itself is the reference's."""
import collections

from drawings import Sheet, circle, drawing, encoded, line, placed, placed_plain, point, spool_of, successive, text, volumes_of, whole_circle, wire

# A spool, the class and wire part that read it, the records that there is room for, and whether the rewriter is asked.
Damaged = collections.namedtuple("Damaged", "spool front room rewrite", defaults=((15, 18), 256, False))


# ── sound drawings ──


LAMP = "LAMP", [line("1307", "-5", "0", "5", "0"), text("1307", "0,0,1,1,0,0,0", "L")], [("0", "0")], "0,1"
SWITCH = "SWITCH", [point("1307", "0", "0")], [], ""
LAYERS = [("E_151", "照明"), ("E_152", "")]
SYMBOL = placed("LAMP", "4,2,0,1", text=("1307", "1,1,2,2,0,0,0", "照明:{"), hight="2.5", pos="1", circuit="L1", serial="1,2")
ARC_OF_POINTS = successive("1307", ("0", "0"), ("1", "0"), ("1", "1"))
ELEMENTS = line("1307", "0", "0", "100", "50"), line("1307", "100", "50", "200", "50")
WIRE = wire(*ELEMENTS, direc=["1,0,0,90"], num=["0,2,1,1,90"], length="5", circuit="L1", power="1,2,100", serial="2,1,")


def sheet(**given):
    own = {"arc": "001", "s_elec": "002", "e_wire": "418", "floor_height": "3000", "symbols": [LAMP, SWITCH], "layers": LAYERS}
    return Sheet(**own | given)


SMALL = bytes(drawing(sheet(), [("SMALL", [("E_151", [line("1307", "0", "0", "10", "0"), SYMBOL]), ("E_152", [ARC_OF_POINTS, WIRE])])]).bytes)
THREE_VOLUMES = [("PART1", [("E_151", [SYMBOL])]), ("PART2", [("E_152", [WIRE])]), ("PART3", [("E_151", [line("1307", "0", "0", "1", "1")])])]
PARTS = bytes(drawing(sheet(), THREE_VOLUMES).bytes)
# E_sym 001, where a placed symbol is one line; and one without symbols, wires and layers.
SINGLE = bytes(drawing(sheet(e_sym="001", e_wire="000"), [("SINGLE", [("E_151", [placed_plain("LAMP", "4,2,0,1")]), ("E_152", [])])]).bytes)
BARE = bytes(drawing(Sheet(symbols=[], layers=[], s_elec="000", e_sym="000"), [("BARE", [])]).bytes)
# Circles without a turn and with one, and an arc.
WHOLE = whole_circle("1307", "0", "0", "2"), whole_circle("1307", "-1", "0", "0.5", "-0.0", "0360.00")
TURNED = circle("1307", "0", "0", "2", "0", "360", "0"), circle("1307", "0", "0", "2", "360", "0", "1")
ROUND = bytes(drawing(Sheet(symbols=[("LAMP", [*WHOLE, *TURNED], [], None)]), [("ROUND", [("E_151", [*TURNED])])]).bytes)


# ── damage ──


def changed(base, *changes, volume=1):
    """A spool in which lines of a volume are replaced: each change is a line, or its number, and what stands in its place."""
    volumes = volumes_of(base)
    lines = list(map(tuple, zip(volumes[volume - 1][1])))
    for old, *new in changes:
        at = old - 1 if isinstance(old, int) else lines.index((encoded(old),))
        lines[at] = tuple(map(encoded, new))
    volumes[volume - 1] = volumes[volume - 1][0], [raw for group in lines for raw in group]
    return spool_of(volumes)


def cut_behind(base, old, volume=1):
    """A spool whose volume ends behind a line, of several alike the first."""
    volumes = volumes_of(base)
    name, lines = volumes[volume - 1]
    volumes[volume - 1] = name, lines[: lines.index(encoded(old)) + 1]
    return spool_of(volumes)


def body_changed(change):
    """SMALL with other bytes in its volume."""
    body = change(SMALL[12:])
    return SMALL[:10] + len(body).to_bytes(2, "big") + body


def renamed(name):
    return SMALL[:2] + name.ljust(8) + SMALL[10:]


def many_volumes(count):
    return b"".join(b"VP" + f"V{n}".encode().ljust(8) + b"\0\1\x1a" for n in range(count))


def layer_lines(count):
    return [f"E_{n:03}=" for n in range(count)]


def point_lines(count):
    return [f"point=1307,{n},1" for n in range(count)]


# Lines of SMALL that close blocks, by their numbers, and the last one of PART1.
ELEC_CLOSES, FILE_CLOSES, DEFINES_CLOSES, LAST_LAYER_CLOSES = 11, 32, 70, 102
PART1_CLOSES = 85
FIGURE_IN_SYMBOL = "line=1307,-5,0,5,0"
PLACED_TEXT = "text:{", "type=1307,1,1,2,2,0,0,0", "character=x", "}"
SKIPPED = "a:{", "b=1:{", "c:{", "d:{", "e:{", "}", "}", "}", "}", "}"

SPOOLS = {
    "02-empty": b"",
    "02-bare-acc": SMALL[12:],
    "02-bare-acc-comment": b"# exported\r\n  FILE_FORMAT:{\r\n",
    "02-pdf": b"%PDF-1.4\n" + SMALL,
    "02-zip": b"PK\x03\x04\x14\0" + SMALL,
    "02-other-file": b"AC1009" + SMALL,
    "02-too-long": SMALL + bytes(61440),
    "02-length-over": SMALL[:-40],
    "02-line-ends": SMALL.replace(b"\r\n", b"\n"),
    "02-head-cut": SMALL + b"VPPART2",
    "02-bytes-behind": SMALL + b"\0" * 5,
    "02-small-letter": renamed(b"Small"),
    "02-blank-in-name": renamed(b"SM ALL"),
    "02-no-name": renamed(b""),
    "02-byte-in-name": renamed(b"SM_ALL"),
    "02-name-twice": SMALL + SMALL,
    "02-thirteenth": many_volumes(13),
    "03-lf-alone": body_changed(lambda body: body.replace(b"\r\n", b"\n")),
    "03-lf-alone-once": body_changed(lambda body: body.replace(b"arc=001\r\n", b"arc=001\n")),
    "03-cr-alone": body_changed(lambda body: body.replace(b"arc=001\r\n", b"arc=001\r")),
    "03-no-final-byte": body_changed(lambda body: body[:-1]),
    "03-final-byte-early": body_changed(lambda body: body.replace(b"arc=001", b"arc=\x1a001")),
    "03-final-byte-twice": body_changed(lambda body: body + b"\x1a"),
    "03-last-line-open": body_changed(lambda body: body[:-3] + b"\x1a"),
    "03-ends-in-line": body_changed(lambda body: body[:-20]),
    "03-line-too-long": changed(SMALL, ("arc=001", "#" + "x" * 600)),
    "03-length-0": SMALL[:10] + b"\0\0",
    "04-tab": changed(SMALL, ("project=Annex", "project=Annex\tB")),
    "04-half-at-end": changed(SMALL, ("project=Annex", b"project=Annex\x83")),
    "04-half-inside": changed(SMALL, ("project=Annex", b"project=Annex\x83 B")),
    "04-control": changed(SMALL, ("project=Annex", b"project=\x1bAnnex")),
    "05-no-form": changed(SMALL, ("project=Annex", "project Annex")),
    "05-blank-behind-brace": changed(SMALL, (ELEC_CLOSES, "} ")),
    "05-wide-blank-behind-brace": changed(SMALL, (ELEC_CLOSES, "}　")),
    "05-blank-behind-eof": changed(SMALL, ("EOF", "EOF ")),
    "05-blank-behind-opener": changed(SMALL, ("ELEMENT:{", "ELEMENT:{ ")),
    "05-blank-behind-headed": changed(SMALL, ("LAYER=E_151:{", "LAYER=E_151:{ ")),
    "05-behind-opener": changed(SMALL, ("ELEMENT:{", "ELEMENT:{LAYER=E_151:{")),
    "05-no-key": changed(SMALL, ("arc=001", "=001")),
    "05-no-key-opens": changed(SMALL, ("range:{", ":{")),
    "05-nothing-between": changed(SMALL, ("LAYER=E_151:{", "LAYER=:{")),
    "05-opens-nothing": changed(SMALL, ("size=A1", "size:{")),
    "05-empty": changed(SMALL, (22, "date=")),
    "05-base-alone": changed(SMALL, ("base=001:{", "base=001")),
    "05-elec-alone": changed(SMALL, ("elec=001:{", "elec=001")),
    "05-layer-alone": changed(SMALL, ("LAYER=E_151:{", "LAYER=E_151")),
    "05-symbol-line": changed(SMALL, (74, "E_symbol=LAMP,4,2,0,1")),
    "05-symbol-block": changed(SINGLE, ("E_symbol=LAMP,4,2,0,1", "E_symbol:{")),
    "05-layer-id-opens": changed(SMALL, ("E_152=", "E_152:{")),
    "05-non": changed(BARE, ("NON=", "NON=1")),
    "06-misspelt": changed(SMALL, ("drawname=First floor", "drawnane=First floor")),
    "06-blank-behind-key": changed(SMALL, ("all_line=1", "all_line =1")),
    "06-other-block": changed(SMALL, ("all_line=1", "all_line=1", "size=A1")),
    "06-no-brace": changed(SMALL, (FILE_CLOSES,)),
    "06-not-a-key": changed(SMALL, ("size=A1", "size=A1", "xyz=1")),
    "06-top-level": changed(SMALL, ("ELEMENT:{", "LAYER=E_151:{")),
    "06-later-volume": changed(PARTS, ("this_line=1", "all_line=1"), volume=2),
    "06-range-of-symbols": changed(SMALL, ("E_sym=015", "E_sym=013")),
    "06-range-middle": changed(SMALL, ("E_sym=015", "E_sym=005")),
    "06-range-of-wires": changed(SMALL, ("E_wire=418", "E_wire=411")),
    "06-no-wires": changed(SMALL, ("E_wire=418", "E_wire=000")),
    "06-no-symbols": changed(SMALL, ("E_sym=015", "E_sym=000")),
    "06-floor-height": changed(SMALL, ("arc=001", "arc=000")),
    "06-wall": changed(SMALL, ("S_elec=002", "S_elec=001")),
    "06-no-definitions": changed(SMALL, ("S_elec=002", "S_elec=000")),
    "06-symbol-beside-non": changed(SMALL, ("SYMBOL_DEFINE:{", "SYMBOL_DEFINE:{", "NON=")),
    "06-non-beside-symbol": changed(SMALL, (DEFINES_CLOSES, "NON=", "}")),
    "06-line-behind-direc": changed(SMALL, ("direc=1,0,0,90", "direc=1,0,0,90", "line=1307,200,50,0,0")),
    "06-hatching": changed(SMALL, ("successive:{", "hacchi:{")),
    "06-basic-symbol": changed(SMALL, ("line=1307,0,0,10,0", "B_symbol=House,5100,5700,270,0.5")),
    "06-circuit-number": changed(SMALL, ("line=1307,0,0,10,0", "E_cirno:{", "}")),
    "06-cirllce": changed(SMALL, (FIGURE_IN_SYMBOL, "cirllce=1307,0,0,2,0,360")),
    "06-circle-in-hide": changed(SMALL, ("point=1307,0,0", "circle=1307,0,0,2,0,360")),
    "06-layer-id": changed(SMALL, ("E_152=", "E_15=")),
    "06-point-in-wire": changed(SMALL, ("length=5", "point=1307,1,1")),
    "07-date": changed(SMALL, (22, "date=19970401", "date=19970401")),
    "07-text": changed(SMALL, ("hight=2.5", "hight=2.5", *PLACED_TEXT)),
    "07-non": changed(BARE, ("NON=", "NON=", "NON=")),
    "07-range": changed(SMALL, ("arc=001", "arc=001", "arc=001")),
    "08-one": changed(SMALL, ("ver=2.1",)),
    "08-several": changed(SMALL, ("ver=2.1",), ("time=120000",)),
    "08-range": changed(SMALL, ("base=001:{",), ("B_sym=000",), (5,)),
    "08-elec": changed(SMALL, ("E_wire=418",)),
    "08-no-symbol": changed(BARE, ("NON=",)),
    "08-no-figure": changed(SMALL, (64,)),
    "08-no-hide": changed(SMALL, (66,), (67,)),
    "08-two-points": changed(SMALL, ("point=1307,1,0",)),
    "08-no-points": changed(SMALL, (88,), (89,), (90,)),
    "08-no-characters": changed(SMALL, ("character=L",)),
    "08-placed": changed(SMALL, ("hight=2.5",), ("serial=1,2",)),
    "08-wire": changed(SMALL, ("length=5",), ("power=1,2,100",)),
    "08-later-volume": changed(PARTS, ("time=120000",), volume=2),
    "09-out-of-order": changed(SMALL, (46, "ELEMENT:{")),
    "09-twice": changed(SMALL, ("SYMBOL_DEFINE:{", "DRAWING_FORMAT:{")),
    "09-behind-element": changed(SMALL, ("EOF", "ELEMENT:{", "}", "EOF")),
    "09-first-volume-alone": changed(PARTS, ("ELEMENT:{", "DRAWING_FORMAT:{"), volume=2),
    "09-closes-nothing": changed(SMALL, ("EOF", "}", "EOF")),
    "09-closes-nothing-first": changed(SMALL, (1, "}", "FILE_FORMAT:{")),
    "09-eof-in-block": changed(SMALL, (LAST_LAYER_CLOSES,)),
    "09-eof-before-element": changed(SMALL, ("ELEMENT:{", "EOF", "ELEMENT:{")),
    "09-eof-in-first-volume": changed(PARTS, (PART1_CLOSES, "}", "EOF")),
    "09-behind-eof": changed(SMALL, ("EOF", "EOF", "# sent by mail")),
    "09-ends-in-block": cut_behind(SMALL, "character=照明:{"),
    "09-ends-in-symbol": cut_behind(changed(SMALL, (FIGURE_IN_SYMBOL, "circle=1307,0,0,2,0,360")), "circle=1307,0,0,2,0,360"),
    "09-ends-in-layer": cut_behind(SMALL, "serial=2,1,"),
    "09-block-never-came": changed(SMALL, *((number,) for number in range(46, 105))),
    "09-no-eof": changed(SMALL, ("EOF",)),
    "09-no-line": spool_of([(b"SMALL   ", [])]),
    "09-later-volume-ends": cut_behind(PARTS, "}", volume=3),
    "10-point-at-end": changed(SMALL, ("line=1307,0,0,10,0", "line=1307,0,0,10,5.")),
    "10-eight-digits": changed(SMALL, ("line=1307,0,0,10,0", "line=1307,0,0,12345678,0")),
    "10-blank": changed(SMALL, ("line=1307,0,0,10,0", "line=1307,0,0, 10,0")),
    "10-type": changed(SMALL, ("line=1307,0,0,10,0", "line=137,0,0,10,0")),
    "10-too-few": changed(SMALL, ("line=1307,0,0,10,0", "line=1307,0,0,10")),
    "10-too-many": changed(SMALL, ("line=1307,0,0,10,0", "line=1307,0,0,10,0,0")),
    "10-arc-of-six": changed(SMALL, (FIGURE_IN_SYMBOL, "circle=1307,0,0,2,0,90")),
    "10-circle-backwards": changed(SMALL, (FIGURE_IN_SYMBOL, "circle=1307,0,0,2,360.0,-0")),
    "10-arc-of-six-no-radius": changed(SMALL, (FIGURE_IN_SYMBOL, "circle=1307,0,0,0,0,90")),
    "10-circle-of-six-malformed": changed(SMALL, (FIGURE_IN_SYMBOL, "circle=1307,0,0,2,0,36O")),
    "10-circle-of-five": changed(SMALL, (FIGURE_IN_SYMBOL, "circle=1307,0,0,2,0")),
    "10-circle-of-eight": changed(SMALL, (FIGURE_IN_SYMBOL, "circle=1307,0,0,2,0,360,0,0")),
    "10-circle-turn": changed(SMALL, (FIGURE_IN_SYMBOL, "circle=1307,0,0,2,0,360,-1")),
    "10-circle-empty-turn": changed(SMALL, (FIGURE_IN_SYMBOL, "circle=1307,0,0,2,0,360,")),
    "10-arc-turn": changed(SMALL, (FIGURE_IN_SYMBOL, "circle=1307,0,0,2,0,90,-1")),
    "10-circle-of-six-in-layer": changed(SMALL, ("line=1307,0,0,10,0", "circle=1307,0,0,2,0,360")),
    "10-circle-of-six-in-wire": changed(SMALL, ("line=1307,100,50,200,50", "circle=1307,100,50,2,0,360")),
    "10-circle-of-five-in-layer": changed(SMALL, ("line=1307,0,0,10,0", "circle=1307,0,0,2,0")),
    "10-ellipse-without-turn": changed(SMALL, (FIGURE_IN_SYMBOL, "ellipse=1307,0,0,2,1,0,360,0")),
    "10-date": changed(SMALL, (22, "date=19971301")),
    "10-date-blank": changed(SMALL, (22, "date=19970401 ")),
    "10-time": changed(SMALL, ("time=120000", "time=240000")),
    "10-range": changed(SMALL, ("E_sym=015", "E_sym=15")),
    "10-count": changed(SMALL, ("this_ele=4", "this_ele=four")),
    "10-scale": changed(SMALL, ("scale=1/100", "scale=1:100")),
    "10-pos": changed(SMALL, ("pos=1", "pos=01")),
    "10-serial": changed(SMALL, ("serial=1,2", "serial=1,2,x")),
    "10-wire-serial": changed(SMALL, ("serial=2,1,", "serial=2,1")),
    "10-base": changed(SMALL, ("base=001:{", "base=1:{")),
    "11-one-point": changed(SMALL, ("line=1307,0,0,10,0", "line=1307,5,5,5.0,5")),
    "11-negative": changed(SMALL, ("line=1307,0,0,10,0", "line=1307,0,-1,10,0")),
    "11-arc": changed(SMALL, ("line=1307,0,0,10,0", "circle=1307,0,0,5,90,90.0,0")),
    "11-axes": changed(SMALL, ("line=1307,0,0,10,0", "ellipse=1307,5,5,900,900,0,360,0,0")),
    "11-ellipse-arc": changed(SMALL, ("line=1307,0,0,10,0", "ellipse=1307,5,5,900,90,10,10,0,0")),
    "11-radius": changed(SMALL, ("line=1307,0,0,10,0", "circle=1307,0,0,0,0,360,0")),
    "11-radius-of-six": changed(SMALL, (FIGURE_IN_SYMBOL, "circle=1307,0,0,0,0,360")),
    "11-turn-in-symbol": changed(SMALL, (FIGURE_IN_SYMBOL, "circle=1307,0,0,2,0,360,2")),
    "11-arc-in-symbol": changed(SMALL, (FIGURE_IN_SYMBOL, "circle=1307,0,0,2,360,360,0")),
    "11-turn": changed(SMALL, ("line=1307,0,0,10,0", "circle=1307,0,0,5,0,360,2")),
    "11-angle": changed(SMALL, ("symbol=LAMP,4,2,0,1", "symbol=LAMP,4,2,360.5,1")),
    "11-pos": changed(SMALL, ("pos=1", "pos=6")),
    "11-text-too-long": changed(SMALL, ("character=照明:{", "character=" + "照明" * 51)),
    "11-header-too-long": changed(SMALL, ("ver=2.1", "ver=2.1 of 1997")),
    "11-byte-of-tel": changed(SMALL, ("tel=", "tel=03-1234x")),
    "11-byte-of-cad": changed(SMALL, ("cad=ACC-W", "cad=図面")),
    "11-circuit": changed(SMALL, (82, "circuit=L1_2")),
    "11-symbol-name": changed(SMALL, ("name=LAMP", "name=LAMP_1")),
    "11-layer-name": changed(SMALL, ("E_152=", "E_152=" + "照明" * 6)),
    "11-layer-id": changed(SMALL, ("LAYER=E_152:{", "LAYER=E_1520:{")),
    "11-size": changed(SMALL, ("size=A1", "size=8A1")),
    "11-scale": changed(SMALL, ("scale=1/100", "scale=100/1")),
    "11-next-file": changed(PARTS, ("next_file=PART2", "next_file=PART2.ACC")),
    "11-points": changed(SMALL, ("point=1307,1,1", *point_lines(99))),
    "11-layers": changed(SMALL, (42, *layer_lines(65)), ("E_152=",)),
    "11-partners": changed(SMALL, ("serial=1,2", "serial=1" + ",2" * 101)),
    "11-third-direc": changed(SMALL, ("direc=1,0,0,90", *["direc=1,0,0,90"] * 3)),
    "11-join": changed(SMALL, ("line=1307,100,50,200,50", "line=1307,100,51,200,50")),
    "11-num": changed(SMALL, ("num=0,2,1,1,90", "num=0,2,1,1,90", "num=1,2,1,1,90")),
    "11-half-turn": changed(SMALL, ("num=0,2,1,1,90", "num=0,2,1,1,180.5")),
    "11-power": changed(SMALL, ("power=1,2,100", "power=1,2,105")),
    "12-base": changed(SMALL, ("base=001:{", "base=002:{")),
    "12-arc": changed(SMALL, ("arc=001", "arc=002")),
    "12-air": changed(SMALL, ("arc=001", "arc=001", "air=001")),
    "12-elec": changed(SMALL, ("elec=001:{", "elec=002:{")),
    "12-symbols": changed(SMALL, ("E_sym=015", "E_sym=006")),
    "12-wires": changed(SMALL, ("E_wire=418", "E_wire=501")),
    "12-circuit-numbers": changed(SMALL, ("E_cirno=000", "E_cirno=001")),
    "12-definitions": changed(SMALL, ("S_elec=002", "S_elec=003")),
    "13-letter-case": changed(SMALL, ("symbol=LAMP,4,2,0,1", "symbol=Lamp,4,2,0,1")),
    "13-single": changed(SINGLE, ("E_symbol=LAMP,4,2,0,1", "E_symbol=,4,2,0,1")),
    "13-none-defined": changed(
        BARE,
        ("E_sym=000", "E_sym=001"),
        ("layer_name:{", "layer_name:{", "E_151="),
        ("ELEMENT:{", "ELEMENT:{", "LAYER=E_151:{", "E_symbol=LAMP,4,2,0,1", "}"),
    ),
    "14-undeclared": changed(SMALL, ("LAYER=E_152:{", "LAYER=E_153:{")),
    "14-none-declared": changed(BARE, ("ELEMENT:{", "ELEMENT:{", "LAYER=E_151:{", "}")),
    "14-declared-twice": changed(SMALL, ("E_152=", "E_151=")),
    "14-used-twice": changed(SMALL, ("LAYER=E_152:{", "LAYER=E_151:{")),
    "14-unused": changed(SMALL, ("E_152=", "E_152=", "E_153=")),
    "14-two-unused": changed(SMALL, ("E_152=", "E_152=", "E_153=", "E_154=")),
    "15-symbol": changed(SMALL, ("name=SWITCH", "name=LAMP")),
    "15-wire": changed(SMALL, ("serial=2,1,", "serial=01,,")),
    "15-other-volume": changed(PARTS, ("serial=2,1,", "serial=1,1,"), volume=2),
    "16-other-volume": changed(PARTS, ("next_file=PART2", "next_file=PART3")),
    "16-empty": changed(PARTS, ("next_file=PART2", "next_file=")),
    "16-none-follows": changed(SMALL, ("next_file=", "next_file=PART2")),
    "16-date": changed(PARTS, ("date=19970401", "date=19970402"), volume=3),
    "16-time": changed(PARTS, ("time=120000", "time=120001"), volume=2),
    "17-volume": changed(SMALL, ("this_ele=4", "this_ele=5")),
    "17-set": changed(PARTS, ("all_ele=3", "all_ele=4")),
    "21-wire": changed(SMALL, ("serial=2,1,", "serial=2,1,3")),
    "21-symbol": changed(PARTS, ("serial=1,2", "serial=1,2,03")),
}

CASES = {name: Damaged(spool) for name, spool in SPOOLS.items()}
CASES |= {
    "01-class": Damaged(SMALL, (6, 18)),
    "01-wire-part": Damaged(SMALL, (15, 9)),
    "05-skipped": Damaged(changed(SMALL, ("circuit=L1", "circuit")), (3, 18)),
    "06-low-class": Damaged(changed(SMALL, ("E_sym=015", "E_sym=003")), (3, 18)),
    "08-low-class": Damaged(changed(SMALL, ("hight=2.5",)), (3, 18)),
    "08-low-wire-part": Damaged(changed(SMALL, ("length=5",)), (15, 6)),
    "09-ends-in-skipped": Damaged(cut_behind(changed(SMALL, (82, "a:{")), "a:{"), (4, 0)),
    "18-class": Damaged(changed(SMALL, (82, *SKIPPED)), (4, 18)),
    "18-wire-part": Damaged(changed(SMALL, ("power=1,2,100", *SKIPPED)), (15, 7)),
    "18-whole-wire": Damaged(changed(SMALL, ("power=1,2,100", *SKIPPED)), (15, 0)),
    "19-table": Damaged(SMALL, room=10),
    "19-wire": Damaged(SMALL, room=17),
    "19-none": Damaged(SMALL, room=0),
    "20-output": Damaged(SMALL, room=0, rewrite=True),
}
