//! Document 01's sample rulings, the three readings that it keeps out, and a ruling for each point where lines earn more than one number.

use reference::generate::{Draft, DraftVolume};
use reference::ranges::{asked, Asked, ServedWires, HIGHEST_ASKED};
use reference::records::NUMBERS;
use reference::Answer;

/// A sound set of one volume, E_sym 015: every block, every figure, two placed symbols.
const SOUND: &str = "FILE_FORMAT:{
range:{
base=001:{
B_sym=001
}
arc=001
elec=001:{
E_sym=015
E_wire=000
E_cirno=000
}
air=000
pipe=000
sym=001:{
S_base=001
S_elec=002
}
}
all_line=1000
this_line=1000
all_ele=8
this_ele=8
next_file=
date=19970901
time=173000
cad=KDK-cad
os=MS-DOS
hard=PC9821
ver=1.00a
corp=
make=
tel=03-1234-5678(901)
name=
}
DRAWING_FORMAT:{
size=4A1
scale=1/100
project=P
drawname=D
date=19970831
drawer=
floor_height=4800
layer_name:{
E_151=lamps
B_001=
}
}
SYMBOL_DEFINE:{
E_symbol:{
name=LAMP
element:{
line=1307,-1,-1,1,1
}
hide:{
point=0000,-1,1
}
wall=0,0.5
}
}
ELEMENT:{
LAYER=B_001:{
}
LAYER=E_151:{
line=1307,5,5,6,5
circle=1307,-5,5,2,0,360,0
ellipse=1307,5,-5,1000,900,0,90,45,1
point=1307,5,5
successive:{
point=1307,1,1
point=1307,2,1
point=1307,2,2
}
text:{
type=1307,5,5,2,3,0,90,0
character=a:{
}
E_symbol:{
symbol=LAMP,100,100,90,1
text:{
type=1307,5,5,2,3,0,90,0
character=b:{
}
hight=-1200.50
pos=5
circuit=L-1.a
serial=1,2,003
}
E_symbol:{
symbol=LAMP,200,100,0,1
hight=
pos=
circuit=
serial=2
}
}
}
EOF";

fn read(spool: &[u8], class: Asked, table_len: usize) -> Answer<i64> {
    reference::read(spool, class, ServedWires::ALL, table_len)
}

fn rewrite(spool: &[u8], out_len: usize) -> Answer<u8> {
    reference::rewrite(spool, ServedWires::ALL, out_len)
}

fn check(spool: &[u8], class: Asked) -> u64 {
    reference::check(spool, class, ServedWires::ALL)
}

fn volume(name: &str, text: &str) -> DraftVolume {
    DraftVolume { name: name.into(), lines: text.lines().map(|line| line.as_bytes().to_vec()).collect() }
}

fn spool(volumes: Vec<DraftVolume>) -> Vec<u8> {
    Draft { class: HIGHEST_ASKED, served: ServedWires::ALL, volumes }.spool()
}

fn one_volume(text: &str) -> Vec<u8> {
    spool(vec![volume("TEST", text)])
}

/// The sound set with one line, or some, changed for others.
fn with(old: &str, new: &str) -> Vec<u8> {
    assert!(SOUND.contains(old), "{old}");
    one_volume(&SOUND.replacen(old, new, 1))
}

fn answer(spool: &[u8], class: u8) -> u8 {
    read(spool, asked(class, 18), 256 * NUMBERS).answer
}

/// Answer and line, at class 15.
fn ruling(old: &str, new: &str) -> (u8, usize) {
    let read = read(&with(old, new), HIGHEST_ASKED, 256 * NUMBERS);
    (read.answer, read.line)
}

#[test]
fn sample_rulings() {
    assert_eq!(answer(&one_volume(SOUND), 15), 0);
    assert_eq!(answer(b"", 15), 2);
    assert_eq!(ruling("900,0,90", "1000,0,90").0, 11);
    assert_eq!(ruling("line=1307,5,5,6,5", "line=1307,5,5,5.0,5").0, 11);
    assert_eq!(ruling("4A1", "8A1").0, 11);
    assert_eq!(ruling("serial=2", "serial=01").0, 15);
    assert_eq!(ruling("time=173000", "time=235959").0, 0);
    assert_eq!(ruling("time=173000", "time=240000").0, 10);
    assert_eq!(ruling("point=1307,1,1", &["point=1307,1,1"; 98].join("\n")).0, 0);
    assert_eq!(ruling("point=1307,1,1", &["point=1307,1,1"; 99].join("\n")).0, 11);
    assert_eq!(ruling("EOF", "EOF\n#").0, 9);
    assert_eq!(ruling("5,5,6,5", "12345678,5,6,5").0, 10);
    assert_eq!(ruling("5,5,6,5", "5.,5,6,5").0, 10);
    // E_sym 011 with `hight`
    let attributes = SOUND.replace("E_sym=015", "E_sym=011").replace("pos=5\n", "").replace("pos=\n", "").replace("circuit=L-1.a\n", "");
    let attributes = attributes.replace("circuit=\n", "").replace("text:{\ntype=1307,5,5,2,3,0,90,0\ncharacter=b:{\n}\n", "");
    assert_eq!(answer(&one_volume(&attributes), 15), 6);
    let without_hight = attributes.replace("hight=-1200.50\n", "").replace("hight=\n", "");
    assert_eq!(answer(&one_volume(&without_hight), 15), 0);
}

#[test]
fn volumes_in_their_own_order() {
    let later = |next: &str, end: &str| {
        format!("FILE_FORMAT:{{\nthis_line=0\nthis_ele=0\nnext_file={next}\ndate=19970901\ntime=173000\n}}\nELEMENT:{{\n}}\n{end}")
    };
    let first = SOUND.replace("next_file=", "next_file=test2").replace("\nEOF", "");
    let volumes = vec![volume("TEST1", &first), volume("TEST2", &later("TEST10", "")), volume("TEST10", &later("", "EOF"))];
    assert_eq!(answer(&spool(volumes), 15), 0);
    let volumes = vec![volume("TEST1", &first), volume("TEST10", &later("TEST2", "")), volume("TEST2", &later("", "EOF"))];
    let read = read(&spool(volumes), HIGHEST_ASKED, 256 * NUMBERS);
    assert_eq!((read.answer, read.volume, read.line), (16, 1, 34));
}

#[test]
fn thirteen_is_no_number_above_five() {
    let at_013 = SOUND.replace("E_sym=015", "E_sym=013").replace("pos=5\n", "").replace("pos=\n", "");
    let at_013 = at_013.replace("circuit=L-1.a\n", "").replace("circuit=\n", "");
    assert_eq!(answer(&one_volume(&at_013), 15), 0);
}

#[test]
fn skipped_characters_open_nothing() {
    assert_eq!(answer(&one_volume(SOUND), 1), 0);
    assert_eq!(answer(&with("character=b:{", "character=:{"), 1), 0);
    assert_eq!(answer(&with("character=b:{", "charactex=b:{"), 1), 9);
}

/// A lower class reads the same records, marked unread where it doesn't know an attribute.
#[test]
fn unread() {
    let spool = one_volume(SOUND);
    let high = read(&spool, HIGHEST_ASKED, 256 * NUMBERS).lent;
    let low = read(&spool, asked(3, 18), 256 * NUMBERS).lent;
    let placed = |table: &[i64]| table.chunks(NUMBERS).find(|record| record[0] == 16).unwrap().to_vec();
    let (high, low) = (placed(&high), placed(&low));
    assert_eq!(high[5..16], [0, 1_000_000, 1_000_000, 900_000, 10_000, -12_005_000, 5, high[12], 5, 1, 2]);
    assert_eq!(high[26..], [2, 2, 2, 2, 2, 0]);
    assert_eq!(low[5..16], [0, 1_000_000, 1_000_000, 900_000, 10_000, -12_005_000, 0, 0, 0, 0, 0]);
    assert_eq!(low[26..], [2, 2, 3, 3, 3, 0]);
    let circuit = high[12] as usize;
    assert_eq!(&spool[circuit..circuit + 5], b"L-1.a");
}

#[test]
fn packed_and_short() {
    assert_eq!(check(&one_volume(SOUND), HIGHEST_ASKED), 0);
    assert_eq!(check(&with("4A1", "8A1"), HIGHEST_ASKED), 11 + 100 + 10_000 * 36);
    assert_eq!(check(&with("4A1", "8A1"), asked(6, 18)), 1);
    let fixed = rewrite(&one_volume(SOUND), 61_440);
    assert_eq!(fixed.answer, 0);
    assert_eq!(rewrite(&one_volume(SOUND), fixed.count - 1).answer, 20);
    assert_eq!(read(&one_volume(SOUND), HIGHEST_ASKED, NUMBERS).answer, 19);
}

/// Many lines, each in place of another, and the number that it is given.
#[test]
fn one_line_at_a_time() {
    const TABLE: &[(&str, &str, u8)] = &[
        // forms
        ("size=4A1", "size=4A1:{", 5),
        ("size=4A1", "size=", 5),
        ("size=4A1", "size", 5),
        ("size=4A1", "=4A1", 5),
        ("size=4A1", "size:{x", 5),
        ("size=4A1", "Size=4A1", 6),
        ("size=4A1", "size =4A1", 6),
        ("size=4A1", "size=4A1\n} ", 5),
        ("size=4A1", "size=4A1\nEOF=", 6),
        ("size=4A1", "size=4A1\n}=1", 6),
        ("size=4A1", "size=4A1\n #x", 5),
        ("size=4A1", " \tsize=4A1", 0),
        ("size=4A1", "size=4A1\n#\u{1}\n\n \t", 0),
        ("size=4A1", "size=\t4A1", 4),
        ("size=4A1", "size=4A1\nsize=4A1", 7),
        ("size=4A1", "size=4A1\nsize=", 5),
        ("size=4A1", "size=4A1 ", 11),
        ("project=P", "project=:{", 0),
        ("project=P", "project=", 5),
        ("project=P", "project:{", 5),
        ("tel=03", "tel=1:{\n#", 11),
        ("name=LAMP", "name=LAMP:{", 5),
        ("circuit=L-1.a", "circuit=A:{", 5),
        ("next_file=", "next_file=:{", 5),
        ("next_file=", "next_file=A_B", 11),
        ("next_file=", "next_file=TEST", 16),
        ("next_file=\n", "", 8),
        // ranges
        ("arc=001", "arc=002", 12),
        ("arc=001", "arc=01", 10),
        ("arc=001", "arc=002:{", 5),
        ("elec=001:{", "elec=001", 5),
        ("elec=001:{", "elec=000:{", 5),
        ("elec=001:{", "elec=002:{", 12),
        ("elec=001:{", "elec=1:{", 10),
        ("elec=001:{", "elec:{", 5),
        ("elec=001:{", "elec=000\nelec=001:{", 7),
        ("E_wire=000\n", "", 8),
        ("E_sym=015", "E_sym=010", 12),
        ("base=001:{", "base=000:{", 12),
        ("base=001:{\nB_sym=001\n}\n", "", 8),
        // the drawing
        ("scale=1/100", "scale=1/2/3", 10),
        ("scale=1/100", "scale=100/1", 11),
        ("scale=1/100", "scale=00001/000000100", 0),
        ("scale=1/100", "scale=100000", 11),
        ("floor_height=4800", "floor_height=", 0),
        ("floor_height=4800", "floor_height=-0", 0),
        ("floor_height=4800", "floor_height=-0.0001", 11),
        ("floor_height=4800\n", "", 8),
        ("date=19970831", "date=19970231", 0),
        ("date=19970831", "date=19970832", 10),
        ("E_151=lamps", "E_151=lamps\nE_15=", 6),
        ("E_151=lamps", "E_151=lamps\nE_15=:{", 6),
        ("E_151=lamps", "E_151=lamps\nE_15:{", 6),
        ("E_151=lamps", "E_151=lamps\nE_15", 5),
        ("E_151=lamps", "E_151:{", 5),
        ("E_151=lamps", "E_151=:{", 0),
        ("E_151=lamps", "E_151=lamps\nE_151=", 14),
        ("E_151=lamps", "E_151=lamps\nE_151=twenty-one bytes.....", 11),
        ("E_151=lamps", "E_151=lamps\nE_152=", 14),
        // symbols
        ("SYMBOL_DEFINE:{", "SYMBOL_DEFINE:{\nNON=", 6),
        ("SYMBOL_DEFINE:{", "SYMBOL_DEFINE:{\nNON=\nNON=", 7),
        ("SYMBOL_DEFINE:{", "SYMBOL_DEFINE:{\nNON=x", 5),
        ("wall=0,0.5\n}\n", "wall=0,0.5\n}\nNON=\n", 6),
        ("wall=0,0.5\n", "", 8),
        ("wall=0,0.5", "wall=", 0),
        ("wall=0,0.5", "wall=0", 10),
        ("line=1307,-1,-1,1,1\n", "", 8),
        ("line=1307,-1,-1,1,1", "E_symbol=LAMP,1,1,0,1", 6),
        ("point=0000,-1,1", "line=0000,-1,1", 6),
        // figures
        ("point=1307,5,5", "point=1307,5,-5", 11),
        ("point=1307,5,5", "point=130,5,-5", 10),
        ("point=1307,5,5", "point=1307,5", 10),
        ("point=1307,5,5", "point=1307,5,", 10),
        ("point=1307,2,2\n", "", 8),
        ("circle=1307,-5,5,2,0,360,0", "circle=1307,-5,5,2,90,90.0,0", 11),
        ("circle=1307,-5,5,2,0,360,0", "circle=1307,-5,5,2,0,360,00", 10),
        ("circle=1307,-5,5,2,0,360,0", "circle=1307,-5,5,2,0,360,2", 11),
        ("circle=1307,-5,5,2,0,360,0", "circle=1307,-5,5,0,0,360,0", 11),
        ("LAYER=B_001:{", "LAYER=B_01:{", 11),
        ("LAYER=B_001:{", "LAYER=B_002:{", 14),
        ("LAYER=B_001:{", "LAYER=E_151:{", 14),
        ("LAYER=B_001:{\n}\n", "", 14),
        // placed symbols
        ("symbol=LAMP,100", "symbol=lamp,100", 13),
        ("symbol=LAMP,100", "symbol=lamp,-100", 11),
        ("symbol=LAMP,100", "symbol=,1e2", 10),
        ("hight=-1200.50", "hight=-1200.50\nfoo=1", 6),
        ("hight=-1200.50", "hight=-1200.50\nfoo=:{", 5),
        ("hight=-1200.50\n", "", 8),
        ("pos=5", "pos=6", 11),
        ("pos=5", "pos=05", 10),
        ("circuit=L-1.a", "circuit=L_1", 11),
        ("serial=1,2,003", "serial=", 5),
        ("serial=1,2,003", "serial=1,,3", 10),
        ("serial=1,2,003", "serial=00000000001", 10),
        // ends
        ("all_ele=8", "all_ele=9", 17),
        ("this_ele=8", "this_ele=7", 17),
        ("\nEOF", "", 9),
        ("}\nEOF", "EOF", 9),
        ("EOF", "}\nEOF", 9),
        ("DRAWING_FORMAT:{", "ELEMENT:{", 9),
        ("DRAWING_FORMAT:{", "ELEMENT=1", 5),
        ("DRAWING_FORMAT:{", "FILE_FORMAT:{", 9),
        ("DRAWING_FORMAT:{", "foo:{", 6),
    ];
    for (old, new, number) in TABLE {
        assert_eq!(ruling(old, new).0, *number, "{new:?} in place of {old:?}");
    }
}

/// "A volume that ends early is refused at its last line": 9 beside the line's own number, the smaller of them.
#[test]
fn early_ends() {
    let cut = |until: &str, last: &str| one_volume(&format!("{}{last}", &SOUND[..SOUND.find(until).unwrap()]));
    let at_last_line = |spool: &[u8]| answer(spool, 15);
    assert_eq!(at_last_line(&cut("line=1307,5", "line=1")), 9);
    assert_eq!(at_last_line(&cut("line=1307,5", "line=")), 5);
    assert_eq!(at_last_line(&cut("line=1307,5", "foo=")), 6);
    assert_eq!(at_last_line(&cut("line=1307,5", "#")), 9);
    assert_eq!(at_last_line(&cut("name=\n}\nDRAW", "}")), 8);
    assert_eq!(at_last_line(&cut("DRAWING_FORMAT", "#")), 9);
    let nothing = read(&one_volume(""), HIGHEST_ASKED, NUMBERS);
    assert_eq!((nothing.answer, nothing.volume, nothing.line), (9, 1, 0));
}

/// A class and a wire part that are none: 1, before anything of the spool is read.
#[test]
fn classes() {
    let sound = one_volume(SOUND);
    for class in 0..=255 {
        for wire in 0..=255 {
            let is_class = [1, 2, 3, 4, 5, 11, 12, 13, 14, 15].contains(&class);
            let is_wire_part = wire <= 8 || (11..=18).contains(&wire);
            let got = read(if is_class && is_wire_part { &sound } else { b"" }, asked(class, wire), 64 * NUMBERS);
            let expected = if is_class && is_wire_part { 0 } else { 1 };
            assert_eq!((got.answer, got.volume, got.line), (expected, 0, 0), "class {class}, wire part {wire}");
        }
    }
}
