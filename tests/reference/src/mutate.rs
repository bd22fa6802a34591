//! Damage: sets changed in one or a few places, in every way that some rule speaks of.

mod circles;
mod wires;

use crate::generate::{blanks, ignored, sound_set, text_of, Draft, DraftVolume, Line};
use crate::random::Random;
use crate::ranges::Class;
use crate::reader::{read_set, Terms};
use crate::refusal::Refusal;
use crate::spool::{LONGEST_LINE, MOST_BYTES};

/// A spool made from a set by one change, or by a few.
pub fn damaged(random: &mut Random, draft: &mut Draft) -> Vec<u8> {
    let changes = *random.pick(&[1, 1, 1, 1, 2, 3]);
    if random.chance(1, 8) {
        let mut spool = draft.spool();
        for _ in 0..changes {
            change_bytes(random, &mut spool);
        }
        return spool;
    }
    for _ in 0..changes {
        change(random, draft);
    }
    if random.chance(1, 10) {
        cut_at_fault(random, draft);
    }
    draft.spool()
}

/// A volume cut short at the very line that is refused, or a line later: an early end beside another number.
fn cut_at_fault(random: &mut Random, draft: &mut Draft) {
    let spool = draft.spool();
    let Some(class) = Class::of(draft.class) else { return };
    if let Err(Refusal { volume, line, .. }) = read_set(&spool, Terms { class, served: draft.served, room: usize::MAX }) {
        if line > 0 {
            draft.volumes[volume - 1].lines.truncate(line + random.below(2));
        }
    }
}

/// A change of lines; nothing if the set has no line that it could change.
type Change = fn(&mut Random, &mut Draft) -> Option<()>;

/// Every change of lines, with how often it is taken.
const CHANGES: &[(usize, Change)] = &[
    (4, byte_in_line),
    (3, byte_not_allowed),
    (3, line_removed),
    (6, line_doubled),
    (2, lines_exchanged),
    (1, line_moved),
    (2, key_changed),
    (1, key_exchanged),
    (6, content_changed),
    (6, item_changed),
    (2, item_count_changed),
    (20, limit_touched),
    (5, values_equalled),
    (5, zeros_added),
    (3, contents_exchanged),
    (4, content_copied),
    (16, named_content_copied),
    (3, volumes_changed),
    (3, brace_changed),
    (3, end_moved),
    (4, count_changed),
    (3, grown),
    (2, thinned),
    (14, line_in_block),
    (3, text_lengthened),
    (2, cut_short),
    (4, form_changed),
    (3, odd_line),
    (2, line_from_another_set),
    (2, block_removed_or_doubled),
    (2, top_blocks_exchanged),
    (11, nested_deeper),
    (6, symbol_renamed),
    (3, layer_changed),
    (2, decorated),
    (1, too_long),
    (9, range_changed),
    (3, chain_changed),
    (3, wires::wire_inserted),
    (16, circles::circle_changed),
    (6, circles::circle_inserted),
];

fn change(random: &mut Random, draft: &mut Draft) {
    for _ in 0..12 {
        // A volume may have been dropped that was the only one.
        if draft.volumes.is_empty() || any_change(random, draft)(random, draft).is_some() {
            return;
        }
    }
}

/// A change of any sort; where there are wires, every second time one of theirs.
fn any_change(random: &mut Random, draft: &Draft) -> Change {
    let has_wires = !lines_where(draft, |line| trimmed(line) == b"E_wire:{").is_empty();
    let changes = if has_wires && random.chance(1, 2) { wires::CHANGES } else { CHANGES };
    let all: usize = changes.iter().map(|(weight, _)| weight).sum();
    let mut left = random.below(all);
    for (weight, change) in changes {
        if left < *weight {
            return *change;
        }
        left -= weight;
    }
    line_removed
}

/// A volume, and a line of it if it has any.
fn any_line(random: &mut Random, draft: &Draft) -> Option<(usize, usize)> {
    let volume = random.below(draft.volumes.len());
    let lines = draft.volumes[volume].lines.len();
    if lines == 0 {
        return None;
    }
    Some((volume, random.below(lines)))
}

/// A line by its key: each key of the set as likely as another, however often it stands.
fn any_line_by_key(random: &mut Random, draft: &Draft) -> Option<(usize, usize)> {
    let mut keys: Vec<&[u8]> = draft.volumes.iter().flat_map(|volume| &volume.lines).filter_map(|line| key_of(line)).collect();
    keys.sort_unstable();
    keys.dedup();
    if keys.is_empty() {
        return None;
    }
    let key = *random.pick(&keys);
    any_where(random, draft, |line| key_of(line) == Some(key))
}

/// A line: any, or by its key.
fn some_line(random: &mut Random, draft: &Draft) -> Option<(usize, usize)> {
    if random.chance(1, 2) {
        return any_line(random, draft);
    }
    any_line_by_key(random, draft)
}

/// Every line for which something holds.
fn lines_where(draft: &Draft, wanted: impl Fn(&[u8]) -> bool) -> Vec<(usize, usize)> {
    let mut found = Vec::new();
    for (volume, DraftVolume { lines, .. }) in draft.volumes.iter().enumerate() {
        found.extend(lines.iter().enumerate().filter(|(_, line)| wanted(line)).map(|(index, _)| (volume, index)));
    }
    found
}

fn any_where(random: &mut Random, draft: &Draft, wanted: impl Fn(&[u8]) -> bool) -> Option<(usize, usize)> {
    let found = lines_where(draft, wanted);
    if found.is_empty() {
        return None;
    }
    Some(*random.pick(&found))
}

fn line_at(draft: &mut Draft, at: (usize, usize)) -> &mut Line {
    &mut draft.volumes[at.0].lines[at.1]
}

/// A line's blanks, its key, and its content after `=`, if it has one.
fn parts(line: &[u8]) -> Option<(&[u8], &[u8], &[u8])> {
    if line.first() == Some(&b'#') {
        return None;
    }
    let mut start = 0;
    loop {
        match line[start..] {
            [b' ' | b'\t', ..] => start += 1,
            [0x81, 0x40, ..] => start += 2,
            _ => break,
        }
    }
    let equals = start + line[start..].iter().position(|&b| b == b'=')?;
    Some((&line[..start], &line[start..equals], &line[equals + 1..]))
}

fn key_of(line: &[u8]) -> Option<&[u8]> {
    parts(line).map(|(_, key, _)| key)
}

fn with_content(line: &[u8], content: &[u8]) -> Line {
    let (blanks, key, _) = parts(line).unwrap();
    [blanks, key, b"=", content].concat()
}

const BYTES: &[u8] = b"\x00\x08\x09\x0A\x0D\x1A\x1F #={}:,-.+/0159AZ_az~\x7F\x80\x81\x9F\xA0\xA1\xDF\xE0\xFC\xFD\xFF\x40";

fn some_byte(random: &mut Random) -> u8 {
    if random.chance(1, 3) {
        return random.next() as u8;
    }
    *random.pick(BYTES)
}

fn byte_in_line(random: &mut Random, draft: &mut Draft) -> Option<()> {
    let at = some_line(random, draft)?;
    let byte = some_byte(random);
    let line = line_at(draft, at);
    let place = random.below(line.len() + 1);
    if place == line.len() || random.chance(1, 3) {
        line.insert(place, byte);
    } else if random.chance(1, 2) {
        line.remove(place);
    } else {
        line[place] = byte;
    }
    Some(())
}

fn line_removed(random: &mut Random, draft: &mut Draft) -> Option<()> {
    let at = some_line(random, draft)?;
    draft.volumes[at.0].lines.remove(at.1);
    Some(())
}

/// A byte that no line may have but a comment, or a pair of bytes at the ends of what is allowed.
fn byte_not_allowed(random: &mut Random, draft: &mut Draft) -> Option<()> {
    let pair = random.chance(1, 2);
    let free = |line: &[u8]| matches!(key_of(line), Some(b"corp" | b"make" | b"project" | b"drawname" | b"character"));
    let at = if random.chance(1, 2) { any_where(random, draft, free)? } else { any_line(random, draft)? };
    let line = line_at(draft, at);
    let place = random.below(line.len() + 1);
    line.insert(place, *random.pick(b"\x00\x09\x1F\x7F\x80\x81\x9F\xA0\xA1\xDF\xE0\xFC\xFD\xFF"));
    if pair {
        line.insert(place + 1, *random.pick(b"\x20\x39\x3F\x40\x7E\x7F\x80\xFC\xFD\xFF"));
    }
    Some(())
}

fn line_doubled(random: &mut Random, draft: &mut Draft) -> Option<()> {
    let at = some_line(random, draft)?;
    let line = line_at(draft, at).clone();
    let lines = &mut draft.volumes[at.0].lines;
    let place = if random.chance(2, 3) { at.1 } else { random.below(lines.len() + 1) };
    lines.insert(place, line);
    Some(())
}

fn lines_exchanged(random: &mut Random, draft: &mut Draft) -> Option<()> {
    let (volume, first) = any_line(random, draft)?;
    let lines = &mut draft.volumes[volume].lines;
    let second = if random.chance(1, 2) { (first + 1) % lines.len() } else { random.below(lines.len()) };
    lines.swap(first, second);
    Some(())
}

fn line_moved(random: &mut Random, draft: &mut Draft) -> Option<()> {
    let at = any_line(random, draft)?;
    let line = draft.volumes[at.0].lines.remove(at.1);
    let to = if random.chance(3, 4) { at.0 } else { random.below(draft.volumes.len()) };
    let lines = &mut draft.volumes[to].lines;
    lines.insert(random.below(lines.len() + 1), line);
    Some(())
}

const KEYS: &[&str] = &[
    "FILE_FORMAT", "DRAWING_FORMAT", "SYMBOL_DEFINE", "ELEMENT", "range", "base", "B_sym", "arc", "elec", "E_sym", "E_wire", "E_cirno", "air",
    "pipe", "sym", "S_base", "S_elec", "all_line", "this_line", "all_ele", "this_ele", "next_file", "date", "time", "cad", "os", "hard", "ver",
    "corp", "make", "tel", "name", "size", "scale", "project", "drawname", "drawer", "floor_height", "layer_name", "E_151", "B_000", "NON",
    "E_symbol", "element", "hide", "wall", "LAYER", "line", "circle", "ellipse", "point", "successive", "text", "type", "character", "symbol",
    "hight", "pos", "circuit", "serial", "EOF", "}", "foo", "include", "B_symbol", "E_wire", "direc", "piend", "num", "length", "power",
];

/// The key of a line, changed for another, or in its case, or by a blank.
fn key_changed(random: &mut Random, draft: &mut Draft) -> Option<()> {
    let at = any_line(random, draft)?;
    let line = line_at(draft, at);
    let end = line.iter().position(|&b| b == b'=' || b == b':').unwrap_or(line.len());
    let mut key = line[..end].to_vec();
    match random.below(6) {
        0 => key = key.to_ascii_uppercase(),
        1 => key = key.to_ascii_lowercase(),
        2 => key.push(b' '),
        _ => key = random.pick(KEYS).as_bytes().to_vec(),
    }
    *line = [&key, &line[end..]].concat();
    Some(())
}

/// The keys of two lines exchanged.
fn key_exchanged(random: &mut Random, draft: &mut Draft) -> Option<()> {
    let (first, second) = (any_line(random, draft)?, any_line(random, draft)?);
    let (a, b) = (line_at(draft, first).clone(), line_at(draft, second).clone());
    let ((_, key_a, content_a), (_, key_b, content_b)) = (parts(&a)?, parts(&b)?);
    *line_at(draft, first) = [key_b, b"=", content_a].concat();
    *line_at(draft, second) = [key_a, b"=", content_b].concat();
    Some(())
}

const COUNTS: &[&str] = &["0", "000000000", "999999999", "1000000000", "0000000001", "-1", "1.0", "a", "1 ", " 1", "1,2", ""];
const DATES: &[&str] =
    &["19970230", "00000101", "99991231", "19971301", "19970001", "19970100", "19970132", "1997010", "199701011", "1997010a", "19970131"];
const TIMES: &[&str] = &["000000", "235959", "240000", "236000", "235960", "23595", "2359590", "00000a", "195959"];
const RANGES: &[&str] = &[
    "000", "001", "002", "003", "004", "005", "006", "009", "010", "011", "012", "013", "014", "015", "016", "020", "021", "100", "101", "111", "00",
    "0001", "abc", "0 1", "-01", "999", "001:{", "000:{", "002:{", "007", "008", "018", "019", "110", "112", "118", "201", "218", "308", "311",
    "400", "401", "408", "411", "418", "419", "501",
];
const RANGE_KEYS: &[&str] = &[
    "base", "B_sym", "arc", "elec", "elec", "E_sym", "E_sym", "E_sym", "E_wire", "E_wire", "E_wire", "E_cirno", "air", "pipe", "sym", "sym",
    "S_base", "S_elec", "S_elec",
];
const SIZES: &[&str] = &[
    "A0", "A4", "A5", "4A0", "4A1", "4A2", "8A1", "81A0", "81A1", "100A0", "1A0", "04A1", "a1", "A1 ", "A", "4", "A00", "64A1", "16A4", "2A0",
    "49A0", "36A1", "25A1", "9A0", "4A1:{", "\u{20}A1",
];
const SCALES: &[&str] = &[
    "1", "99999", "100000", "0", "1/2", "2/1", "1/1", "1/99999", "1/100000", "0/5", "1/", "/2", "1/2/3", "00001/0002", "999999999/1000000000", "1/0",
    "-1", "1.5", "99998/99999", "99999/99999", "000099999", "0000000001", "1/100:{", "5/05",
];
const NUMBERS: &[&str] = &[
    "0", "-0", "-0.0001", "0.0001", "0.00001", "00000001", "0000001", "9999999", "9999999.9999", "10000000", "9999999.99990", "-9999999.9999", "5.",
    ".5", "+1", "1e3", "", " 1", "1 ", "--1", "1.2.3", "360", "360.0001", "360.0000", "359.9999", "361", "-1", "1", "2", "6", "01", "00", "12a4",
    "0000", "9999", "123", "12345", "1234", "1;2", "-", "-.", "0.", "5.0", "5",
];
const NAMES: &[&str] =
    &["A", "", "A_B", "ABCDEFGHIJKLMNOPQRSTUVWXYZ012345", "ABCDEFGHIJKLMNOPQRSTUVWXYZ0123456", "a b", "A:{", "TEST2", "test10", "TOOLONGNAME"];
const POSITIONS: &[&str] = &["", "0", "1", "5", "6", "9", "01", "-1", "1.0", "a", " ", "1 "];
const CIRCUITS: &[&str] = &["", "A", "a-1.B", "ABCDEFGHIJ", "ABCDEFGHIJK", "A_B", "A:{", ":{", " ", "1,2"];
const SERIALS: &[&str] = &[
    "0", "1", "01", "0000000001", "00000000001", "9999999999", "10000000000", "1,", ",1", "1,,2", "1,2,3", "1,a", "-1", "", "1 ", "1:{", "1,1", "2",
    "0,0000000000", "3,12345678901", "1,,", "2,1,", "2,,1", "2,1,3,4", ",1,", ",,", "1,1,1", "0,,0",
];
const DIRECS: &[&str] =
    &["1,1,1,1", "0,0,0,0", "4,1,1,360", "5,1,1,1", "01,1,1,1", "1,150,150.0", "1,-1,1,1", "1,1,1,361", "", "1,1,1,1:{", "1,1,1,1,1"];
const PIENDS: &[&str] = &["1,1,1", "0,-0,360", "1,1,360.0001", "-1,1,1", "1,1", "1,1,1,1", "", "1,1,1:{"];
const NUMS: &[&str] = &[
    "0,2,1,1,1", "1,2,1,1,1", "0,3,1,1,1", "2,2,1,1,1", "0,2,1,1,180", "0,2,1,1,180.0001", "00,2,1,1,1", "0,2.0,1,1,1", "0,2,1,1", "", "0,2,1,1,1:{",
];
const LENGTHS: &[&str] = &["", "0", "-0", "-0.0001", "0.0001", "9999999.9999", "10000000", "1,2", "a", "1:{"];
const POWERS: &[&str] = &[
    "", "1,2,100", "1,2,105", "1,3,200", "1,3,100", "3,3,66000", "3,4,173", "3,4,182", "3,4,400", "0,0,0", "1,5,100", "1,2,", "1,2", "1,2,100.0",
    "01,2,100", "1,2,000000100", "1,2,0000000100", "1,2,100,1", "1,2,100:{", "3,3,000066000", "2,2,100", "a,2,100",
];
const WALLS: &[&str] = &["", "1,2", "-1,-2", "1", "1,2,3", "1,", ",", "-0,0.0", "1,2:{", "9999999.9999,-9999999.9999", "a,b"];
const TELEPHONES: &[&str] = &["", "03-1234-5678(901)", "01234567890123456789", "012345678901234567890", "+81", "1 2", "1:{", ":{", "1a"];

fn contents_of(key: &[u8]) -> &'static [&'static str] {
    match key {
        b"all_line" | b"this_line" | b"all_ele" | b"this_ele" => COUNTS,
        b"date" => DATES,
        b"time" => TIMES,
        b"base" | b"B_sym" | b"arc" | b"elec" | b"E_sym" | b"E_wire" | b"E_cirno" | b"air" | b"pipe" | b"sym" | b"S_base" | b"S_elec" => RANGES,
        b"size" => SIZES,
        b"scale" => SCALES,
        b"next_file" | b"name" => NAMES,
        b"pos" => POSITIONS,
        b"circuit" => CIRCUITS,
        b"serial" => SERIALS,
        b"direc" => DIRECS,
        b"piend" => PIENDS,
        b"num" => NUMS,
        b"length" => LENGTHS,
        b"power" => POWERS,
        b"wall" => WALLS,
        b"tel" => TELEPHONES,
        b"NON" => &["", "x", ":{", "x:{"],
        b"LAYER" => &["E_151:{", "E_15:{", "X_001:{", "E_0001:{", "e_151:{", "B_001", ":{", "E-151:{", "M_9a9:{", ""],
        _ => NUMBERS,
    }
}

/// The content of a line, changed for another that is near some limit of its key.
fn content_changed(random: &mut Random, draft: &mut Draft) -> Option<()> {
    let at = some_line(random, draft)?;
    let line = line_at(draft, at);
    let key = key_of(line)?;
    let content = random.pick(contents_of(key)).as_bytes();
    *line = with_content(line, content);
    Some(())
}

fn range_changed(random: &mut Random, draft: &mut Draft) -> Option<()> {
    let key = random.pick(RANGE_KEYS).as_bytes();
    let at = any_where(random, draft, |line| key_of(line) == Some(key))?;
    let line = line_at(draft, at);
    let opener = line.ends_with(b":{");
    let mut content = random.pick(RANGES).as_bytes().to_vec();
    if opener && !content.ends_with(b":{") && random.chance(2, 3) {
        content.extend(b":{");
    }
    *line = with_content(line, &content);
    Some(())
}

const COORDINATES: &[&str] = &["0", "-0", "-0.0001", "-1", "9999999.9999", "-9999999.9999", "10000000", "1.00000", "5.", ".5", ""];
const ABOVE_ZERO: &[&str] = &["0", "-0", "0.0001", "0.0000", "-0.0001", "9999999.9999", "10000000", "0.00001", "00000001"];
const NOT_NEGATIVE: &[&str] = &["0", "-0", "-0.0001", "0.0001", "9999999.9999", "-1", "1."];
const ANGLES: &[&str] = &["0", "-0", "-0.0001", "360", "360.0000", "360.0001", "361", "359.9999", "0.0001", "1000", "+1"];
const FLAGS: &[&str] = &["0", "1", "2", "9", "00", "01", "-0", "1.0", "", "a"];
const HALF_ANGLES: &[&str] = &["0", "-0", "-0.0001", "180", "180.0000", "180.0001", "181", "179.9999", "360", "+1"];
const SIGNS: &[&str] = &["0", "4", "5", "9", "00", "04", "-0", "1.0", "", "a"];
const DIGITS: &[&str] = &["0", "1", "2", "3", "4", "5", "01", "", "-1", "a"];
const VOLTS: &[&str] = &["100", "105", "173", "200", "231", "400", "3300", "0000000100", "000000100", "100.0", "", "-1", "66000"];
const TYPES: &[&str] = &["0000", "9999", "123", "12345", "12a4", "", "-123", "1.23", " 123"];

/// Which item of which key, and values just inside and just outside its limits.
const LIMITS: &[(&str, usize, &[&str])] = &[
    ("line", 0, TYPES),
    ("line", 1, COORDINATES),
    ("line", 2, COORDINATES),
    ("line", 3, COORDINATES),
    ("line", 4, COORDINATES),
    ("circle", 0, TYPES),
    ("circle", 1, COORDINATES),
    ("circle", 2, COORDINATES),
    ("circle", 3, ABOVE_ZERO),
    ("circle", 4, ANGLES),
    ("circle", 5, ANGLES),
    ("circle", 6, FLAGS),
    ("ellipse", 0, TYPES),
    ("ellipse", 1, COORDINATES),
    ("ellipse", 2, COORDINATES),
    ("ellipse", 3, ABOVE_ZERO),
    ("ellipse", 4, ABOVE_ZERO),
    ("ellipse", 5, ANGLES),
    ("ellipse", 6, ANGLES),
    ("ellipse", 7, ANGLES),
    ("ellipse", 8, FLAGS),
    ("point", 0, TYPES),
    ("point", 1, COORDINATES),
    ("point", 2, COORDINATES),
    ("type", 0, TYPES),
    ("type", 1, COORDINATES),
    ("type", 2, COORDINATES),
    ("type", 3, ABOVE_ZERO),
    ("type", 4, ABOVE_ZERO),
    ("type", 5, NOT_NEGATIVE),
    ("type", 6, ANGLES),
    ("type", 7, FLAGS),
    ("symbol", 1, COORDINATES),
    ("symbol", 2, COORDINATES),
    ("symbol", 3, ANGLES),
    ("symbol", 4, ABOVE_ZERO),
    ("E_symbol", 1, COORDINATES),
    ("E_symbol", 2, COORDINATES),
    ("E_symbol", 3, ANGLES),
    ("E_symbol", 4, ABOVE_ZERO),
    ("direc", 0, SIGNS),
    ("direc", 1, COORDINATES),
    ("direc", 2, COORDINATES),
    ("direc", 3, ANGLES),
    ("piend", 0, COORDINATES),
    ("piend", 1, COORDINATES),
    ("piend", 2, ANGLES),
    ("num", 0, FLAGS),
    ("num", 1, COUNTS),
    ("num", 2, COORDINATES),
    ("num", 3, COORDINATES),
    ("num", 4, HALF_ANGLES),
    ("length", 0, LENGTHS),
    ("power", 0, DIGITS),
    ("power", 1, DIGITS),
    ("power", 2, VOLTS),
    ("power", 2, VOLTS),
    ("floor_height", 0, NOT_NEGATIVE),
    ("hight", 0, COORDINATES),
    ("pos", 0, POSITIONS),
    ("circuit", 0, CIRCUITS),
    ("wall", 0, COORDINATES),
    ("wall", 1, COORDINATES),
    ("size", 0, SIZES),
    ("size", 0, SIZES),
    ("scale", 0, SCALES),
    ("scale", 0, SCALES),
    ("date", 0, DATES),
    ("time", 0, TIMES),
    ("tel", 0, TELEPHONES),
    ("next_file", 0, NAMES),
    ("name", 0, NAMES),
    ("serial", 0, SERIALS),
    ("serial", 1, SERIALS),
    ("serial", 0, SERIALS),
    ("serial", 2, SERIALS),
    ("pos", 0, POSITIONS),
    ("pos", 0, POSITIONS),
    ("circuit", 0, CIRCUITS),
    ("circuit", 0, CIRCUITS),
    ("symbol", 0, NAMES),
    ("symbol", 0, NAMES),
    ("all_line", 0, COUNTS),
    ("this_line", 0, COUNTS),
    ("all_ele", 0, COUNTS),
];

/// One value just inside or just outside its limits, each value of each key as likely as another.
fn limit_touched(random: &mut Random, draft: &mut Draft) -> Option<()> {
    let (key, item, values) = *random.pick(LIMITS);
    let at = any_where(random, draft, |line| key_of(line) == Some(key.as_bytes()))?;
    touched(random, line_at(draft, at), item, values)?;
    if random.chance(1, 4) {
        // another value of the same line: "on one line the smallest number"
        let others: Vec<_> = LIMITS.iter().filter(|(other, _, _)| *other == key).collect();
        let (_, item, values) = **random.pick(&others);
        touched(random, line_at(draft, at), item, values)?;
    }
    Some(())
}

/// One item of a line, changed for one of these values.
fn touched(random: &mut Random, line: &mut Line, item: usize, values: &[&str]) -> Option<()> {
    let mut items = items_of(line);
    *items.get_mut(item)? = random.pick(values).as_bytes().to_vec();
    *line = with_content(line, &items.join(&b','));
    Some(())
}

/// Values that must differ, or that must not be the wrong way round, made equal or exchanged; equal ones perhaps spelt otherwise.
fn values_equalled(random: &mut Random, draft: &mut Draft) -> Option<()> {
    const DIFFER: &[(&str, &[(usize, usize)])] =
        &[("line", &[(1, 3), (2, 4)]), ("circle", &[(4, 5)]), ("ellipse", &[(3, 4)]), ("ellipse", &[(5, 6)])];
    let (key, pairs) = *random.pick(DIFFER);
    let at = any_where(random, draft, |line| key_of(line) == Some(key.as_bytes()))?;
    let exchanged = random.chance(1, 4);
    let line = line_at(draft, at);
    let mut items = items_of(line);
    for &(from, to) in pairs {
        if to >= items.len() {
            return None;
        }
        if exchanged {
            items.swap(from, to);
            continue;
        }
        items[to] = items[from].clone();
        if random.chance(1, 2) && !items[to].contains(&b'.') {
            items[to].extend(b".00");
        }
    }
    *line = with_content(line, &items.join(&b','));
    Some(())
}

/// Zeros that are needless, up to the digits that a number may have or one more.
fn zeros_added(random: &mut Random, draft: &mut Draft) -> Option<()> {
    let at = any_line_by_key(random, draft)?;
    let line = line_at(draft, at);
    let mut items = items_of(line);
    let index = random.below(items.len());
    let item = &mut items[index];
    if item.is_empty() || !item.iter().all(|b| b.is_ascii_digit() || b"-./".contains(b)) {
        return None;
    }
    let start = item.iter().position(u8::is_ascii_digit)?;
    let digits = item[start..].iter().take_while(|b| b.is_ascii_digit()).count();
    if random.chance(1, 3) {
        if !item.contains(&b'.') {
            item.push(b'.');
        }
        let fraction = item.len() - 1 - item.iter().position(|&b| b == b'.')?;
        let wanted = *random.pick(&[1, 4, 5]);
        item.extend(vec![b'0'; usize::saturating_sub(wanted, fraction)]);
    } else {
        let wanted = *random.pick(&[3, 4, 5, 7, 8, 9, 10, 11]);
        item.splice(start..start, vec![b'0'; usize::saturating_sub(wanted, digits)]);
    }
    *line = with_content(line, &items.join(&b','));
    Some(())
}

fn items_of(line: &[u8]) -> Vec<Vec<u8>> {
    let (_, _, content) = parts(line).unwrap();
    content.split(|&b| b == b',').map(<[u8]>::to_vec).collect()
}

fn has_items(line: &[u8]) -> bool {
    parts(line).is_some_and(|(_, key, content)| content.contains(&b',') && key != b"character")
}

fn change_items(random: &mut Random, draft: &mut Draft, change: impl Fn(&mut Random, &mut Vec<Vec<u8>>)) -> Option<()> {
    let at = any_where(random, draft, has_items)?;
    let line = line_at(draft, at);
    let mut items = items_of(line);
    change(random, &mut items);
    *line = with_content(line, &items.join(&b','));
    Some(())
}

fn item_changed(random: &mut Random, draft: &mut Draft) -> Option<()> {
    change_items(random, draft, |random, items| {
        let index = random.below(items.len());
        items[index] = match random.below(8) {
            // the same value as another item: equal ends, equal angles, equal axes
            0..=2 => random.pick(items).clone(),
            3 => [b"-", &items[index][..]].concat(),
            _ => random.pick(NUMBERS).as_bytes().to_vec(),
        };
    })
}

fn item_count_changed(random: &mut Random, draft: &mut Draft) -> Option<()> {
    change_items(random, draft, |random, items| {
        let index = random.below(items.len());
        if random.chance(1, 2) {
            items.remove(index);
        } else {
            let item = random.pick(NUMBERS).as_bytes().to_vec();
            items.insert(index, item);
        }
    })
}

/// Two lines with the same key.
fn same_key(random: &mut Random, draft: &Draft) -> Option<((usize, usize), (usize, usize))> {
    let first = any_line(random, draft)?;
    let key = key_of(&draft.volumes[first.0].lines[first.1])?;
    let second = any_where(random, draft, |line| key_of(line) == Some(key))?;
    Some((first, second))
}

fn contents_exchanged(random: &mut Random, draft: &mut Draft) -> Option<()> {
    let (first, second) = same_key(random, draft)?;
    let (a, b) = (line_at(draft, first).clone(), line_at(draft, second).clone());
    *line_at(draft, first) = b;
    *line_at(draft, second) = a;
    Some(())
}

fn content_copied(random: &mut Random, draft: &mut Draft) -> Option<()> {
    let (first, second) = same_key(random, draft)?;
    *line_at(draft, second) = line_at(draft, first).clone();
    Some(())
}

/// The content of a key for which being there twice is refused, or being unlike: names, serials, layers, dates.
fn named_content_copied(random: &mut Random, draft: &mut Draft) -> Option<()> {
    let key = *random.pick(&["serial", "serial", "serial", "name", "name", "LAYER", "date", "time"]);
    let found = lines_where(draft, |line| key_of(line) == Some(key.as_bytes()));
    if found.len() < 2 {
        return None;
    }
    let first = random.below(found.len());
    let second = (first + random.between(1, found.len() - 1)) % found.len();
    let (from, to) = (found[first], found[second]);
    let mut line = line_at(draft, from).clone();
    if key == "serial" && random.chance(1, 2) {
        // the same number, spelt otherwise: "Own numbers differ as numbers"
        let (_, _, content) = parts(&line).unwrap();
        let own = content.split(|&b| b == b',').next().unwrap();
        let zeros = if own.len() < 10 { random.between(0, 10 - own.len()) } else { 0 };
        line = with_content(&line, &[&vec![b'0'; zeros][..], own].concat());
    }
    *line_at(draft, to) = line;
    Some(())
}

fn volumes_changed(random: &mut Random, draft: &mut Draft) -> Option<()> {
    let count = draft.volumes.len();
    let (first, second) = (random.below(count), random.below(count));
    match random.below(6) {
        0 => {
            draft.volumes.remove(first);
        }
        1 => draft.volumes.swap(first, second),
        2 => {
            let name = random.pick(&["A", "TEST1", "TEST2", "ZZZZZZZZ", "", "a", "A B", "LONGNAME"]).as_bytes().to_vec();
            draft.volumes[first].name = name;
        }
        3 => {
            let mut copy = draft.volumes[first].clone();
            if random.chance(1, 2) {
                copy.name = b"COPY".to_vec();
            }
            draft.volumes.insert(second, copy);
        }
        4 => {
            let name = draft.volumes[first].name.clone();
            draft.volumes[second].name = name;
        }
        _ => {
            let wanted = *random.pick(&[12, 13]);
            while draft.volumes.len() < wanted {
                let mut copy = draft.volumes.last().unwrap().clone();
                copy.name = format!("V{}", draft.volumes.len()).into_bytes();
                draft.volumes.push(copy);
            }
        }
    }
    Some(())
}

fn chain_changed(random: &mut Random, draft: &mut Draft) -> Option<()> {
    let key = *random.pick(&["next_file", "next_file", "date", "time"]);
    let at = any_where(random, draft, |line| key_of(line) == Some(key.as_bytes()))?;
    let name = draft.volumes[random.below(draft.volumes.len())].name.clone();
    let line = line_at(draft, at);
    let content = match key {
        "date" => random.pick(DATES).as_bytes().to_vec(),
        "time" => random.pick(TIMES).as_bytes().to_vec(),
        _ if random.chance(1, 3) => name,
        _ => random.pick(NAMES).as_bytes().to_vec(),
    };
    *line = with_content(line, &content);
    Some(())
}

fn trimmed(line: &[u8]) -> &[u8] {
    let mut rest = line;
    loop {
        rest = match rest {
            [b' ' | b'\t', after @ ..] | [0x81, 0x40, after @ ..] => after,
            _ => return rest,
        }
    }
}

fn brace_changed(random: &mut Random, draft: &mut Draft) -> Option<()> {
    let opener = random.chance(1, 3);
    let wanted = |line: &[u8]| if opener { line.ends_with(b":{") } else { trimmed(line) == b"}" };
    match random.below(3) {
        0 | 1 => {
            let at = any_where(random, draft, wanted)?;
            draft.volumes[at.0].lines.remove(at.1);
        }
        _ => {
            let at = any_line(random, draft)?;
            let line = if opener { format!("{}:{{", random.pick(KEYS)).into_bytes() } else { b"}".to_vec() };
            draft.volumes[at.0].lines.insert(at.1, line);
        }
    }
    Some(())
}

fn end_moved(random: &mut Random, draft: &mut Draft) -> Option<()> {
    let last = draft.volumes.len() - 1;
    let volume = if random.chance(1, 2) { last } else { random.below(last + 1) };
    let ends = lines_where(draft, |line| trimmed(line) == b"EOF");
    if random.chance(1, 2) {
        if let Some(&(volume, line)) = ends.last() {
            draft.volumes[volume].lines.remove(line);
        }
    }
    let lines = &mut draft.volumes[volume].lines;
    match random.below(4) {
        0 => {}
        1 => lines.push(ignored(random)),
        2 => lines.push(b"EOF".to_vec()),
        _ => lines.insert(random.below(lines.len() + 1), b"EOF".to_vec()),
    }
    Some(())
}

/// this_ele or all_ele off by one, or figures added or taken away without counting.
fn count_changed(random: &mut Random, draft: &mut Draft) -> Option<()> {
    let key = *random.pick(&["this_ele", "all_ele"]);
    let at = any_where(random, draft, |line| key_of(line) == Some(key.as_bytes()))?;
    let line = line_at(draft, at);
    let (_, _, content) = parts(line).unwrap();
    let number: usize = String::from_utf8_lossy(content).parse().unwrap_or(0);
    let number = if random.chance(1, 2) { number + 1 } else { number.saturating_sub(1) };
    *line = with_content(line, number.to_string().as_bytes());
    Some(())
}

/// Points, partners or layers up to their limit, or one more.
fn grown(random: &mut Random, draft: &mut Draft) -> Option<()> {
    let over = random.below(2);
    match random.below(3) {
        0 => {
            let (volume, at) = any_where(random, draft, |line| key_of(line) == Some(b"point"))?;
            let line = draft.volumes[volume].lines[at].clone();
            let neighbours = neighbours(&draft.volumes[volume].lines, at, b"point");
            let more = (100 + over).saturating_sub(neighbours);
            let at = if random.chance(1, 2) { at + 1 } else { at };
            draft.volumes[volume].lines.splice(at..at, vec![line; more]);
        }
        1 => {
            let at = any_where(random, draft, |line| key_of(line) == Some(b"serial"))?;
            let line = line_at(draft, at);
            let (_, _, content) = parts(line).unwrap();
            let own = content.split(|&b| b == b',').next().unwrap();
            let partners = ",7".repeat(100 + over);
            *line = with_content(line, &[own, partners.as_bytes()].concat());
        }
        _ => {
            let (volume, at) = any_where(random, draft, |line| line.ends_with(b"layer_name:{"))?;
            let have = draft.volumes[volume].lines[at..].iter().position(|line| trimmed(line) == b"}").unwrap_or(1) - 1;
            let more = (64 + over).saturating_sub(have);
            let added = (0..more).map(|number| format!("P_{number:03}=").into_bytes());
            draft.volumes[volume].lines.splice(at + 1..at + 1, added.collect::<Vec<_>>());
        }
    }
    Some(())
}

/// A successive's points down to three, two or none.
fn thinned(random: &mut Random, draft: &mut Draft) -> Option<()> {
    let (volume, start) = any_where(random, draft, |line| trimmed(line) == b"successive:{")?;
    let left = *random.pick(&[0, 1, 2, 2, 3]);
    let lines = &mut draft.volumes[volume].lines;
    let points = lines[start + 1..].iter().take_while(|line| trimmed(line) != b"}").count();
    if points < left {
        return None;
    }
    lines.drain(start + 1 + left..start + 1 + points);
    Some(())
}

/// Blocks, and lines that are not theirs, or theirs in a wrong form, or too many.
const IN_BLOCKS: &[(&str, &[&str])] = &[
    ("SYMBOL_DEFINE:{", &["NON=", "NON=", "NON=x", "NON:{", "E_symbol:{", "E_symbol=", "name=A", "E_symbol=1:{"]),
    ("layer_name:{", &["E_15=:{", "E_15=", "E_15:{", "E_15=a:{", "E_151:{", "character=:{", "X_001=", "project=:{", "P_777=", "E_15", "=:{"]),
    (
        "E_symbol:{",
        &[
            "foo=1", "foo:{", "foo=:{", "wall=", "hight=", "hight:{", "hight=1:{", "text:{", "text=", "serial=5", "serial=", "serial:{", "pos=",
            "pos:{", "circuit=", "circuit=A:{", "character=:{", "character=a", "character:{", "symbol=", "symbol:{", "line=0000,1,1,2,2", "EOF",
            "EOF=", "name=", "hide:{", "hide=", "element=",
        ],
    ),
    (
        "range:{",
        &[
            "elec=001", "elec=000", "elec=000:{", "elec=002", "elec=002:{", "elec:{", "elec=", "base=001", "base=001:{", "arc=002:{", "arc=001:{",
            "sym=001", "sym=000", "sym=003:{", "sym=00", "E_sym=001", "date=", "air=001", "pipe=000:{",
        ],
    ),
    ("base=001:{", &["B_sym=000", "B_sym=", "B_sym=001:{", "E_sym=001", "B_sym:{"]),
    ("elec=001:{", &["E_sym=002", "E_wire=000", "E_wire=001", "E_wire=", "E_wire=418:{", "E_wire:{", "E_cirno=", "S_base=000", "E_sym=010"]),
    ("sym=001:{", &["S_base=000", "S_elec=003", "S_elec=", "E_sym=000"]),
    (
        "FILE_FORMAT:{",
        &[
            "cad=:{", "cad=", "cad:{", "range=", "range:{", "all_line=1", "all_line=:{", "tel=:{", "name=", "size=A1", "time=1:{", "corp=:{",
            "next_file=:{",
        ],
    ),
    (
        "DRAWING_FORMAT:{",
        &[
            "floor_height:{", "floor_height=", "floor_height=1", "project=:{", "layer_name=", "layer_name:{", "time=000000", "drawer=:{", "cad=x",
            "size=",
        ],
    ),
    ("successive:{", &["line=0000,1,1,2,2", "point=", "point:{", "point=0000,-1,1", "type=", "point=0000,1,1", "text:{"]),
    ("hide:{", &["line=0000,1,1,2,2", "point=", "point:{", "point=0000,-1,1", "point=0000,1", "hide:{"]),
    (
        "element:{",
        &[
            "E_symbol=A,1,1,0,1", "E_symbol:{", "point=0000,-1,-1", "line=", "text=", "successive=", "LAYER=E_151:{", "circle:{", "circle=",
            "cirllce=1307,0,0,2,0,360",
        ],
    ),
    (
        "text:{",
        &[
            "type=", "type:{", "type=0000,1,1,1,1,0,0,0", "character=:{", "character=", "character:{", "foo=", "character=a", "point=0000,1,1",
            "text:{",
        ],
    ),
    ("ELEMENT:{", &["LAYER=", "LAYER:{", "LAYER=E_151", "LAYER=:{", "line=0000,1,1,2,2", "ELEMENT:{", "FILE_FORMAT:{", "NON="]),
];

/// A line put into a block where something is said of it, at its head or before its close.
fn line_in_block(random: &mut Random, draft: &mut Draft) -> Option<()> {
    let (opener, lines) = *random.pick(IN_BLOCKS);
    let (volume, start) = any_where(random, draft, |line| trimmed(line) == opener.as_bytes())?;
    let end = block_end(&draft.volumes[volume].lines, start)?;
    let at = *random.pick(&[start + 1, end - 1]);
    draft.volumes[volume].lines.insert(at, random.pick(lines).as_bytes().to_vec());
    Some(())
}

/// How many lines with a key stand around this one without another between.
fn neighbours(lines: &[Line], at: usize, key: &[u8]) -> usize {
    let same = |line: &&Line| key_of(line) == Some(key);
    lines[..at].iter().rev().take_while(same).count() + lines[at..].iter().take_while(same).count()
}

/// A text of exactly the most bytes that its key takes, or one more.
fn text_lengthened(random: &mut Random, draft: &mut Draft) -> Option<()> {
    const MOST: &[(&str, usize)] = &[
        ("cad", 20),
        ("os", 20),
        ("hard", 20),
        ("ver", 10),
        ("corp", 40),
        ("make", 40),
        ("name", 20),
        ("name", 32),
        ("project", 60),
        ("drawname", 60),
        ("drawer", 20),
        ("character", 200),
        ("character", 200),
        ("circuit", 10),
        ("tel", 20),
    ];
    let (key, most) = *random.pick(MOST);
    let length = most + random.below(2);
    let content = if random.chance(1, 2) { vec![b'1'; length] } else { text_of(random, length) };
    let is_layer = |line: &[u8]| key_of(line).is_some_and(crate::blocks::is_layer_id);
    if random.chance(1, 8) {
        let at = any_where(random, draft, is_layer)?;
        let length = random.between(20, 21);
        let line = line_at(draft, at);
        *line = with_content(line, &text_of(random, length));
        return Some(());
    }
    let at = any_where(random, draft, |line| key_of(line) == Some(key.as_bytes()))?;
    let line = line_at(draft, at);
    *line = with_content(line, &content);
    Some(())
}

/// A volume cut short after some line.
fn cut_short(random: &mut Random, draft: &mut Draft) -> Option<()> {
    let volume = random.below(draft.volumes.len());
    let lines = &mut draft.volumes[volume].lines;
    let left = match random.below(4) {
        0 => lines.len().saturating_sub(random.between(1, 3)),
        1 => random.below(3).min(lines.len()),
        _ => random.below(lines.len() + 1),
    };
    lines.truncate(left);
    Some(())
}

/// A line's form changed for another.
fn form_changed(random: &mut Random, draft: &mut Draft) -> Option<()> {
    let at = some_line(random, draft)?;
    let line = line_at(draft, at);
    let end = line.iter().position(|&b| b == b'=' || b == b':').unwrap_or(line.len());
    let (key, content) = (line[..end].to_vec(), line[(end + 1).min(line.len())..].to_vec());
    *line = match random.below(9) {
        0 => [&key[..], b"=", &content, b":{"].concat(),
        1 => [&key[..], b"="].concat(),
        2 => [&key[..], b":{"].concat(),
        3 => key,
        4 => [b"=", &content[..]].concat(),
        5 => [&key[..], b"=:{"].concat(),
        6 => [&key[..], b":{", &content].concat(),
        7 => [&key[..], b"=:{:{"].concat(),
        _ => [&line[..], b" "].concat(),
    };
    Some(())
}

const ODD: &[&str] = &[
    "EOF=", "}=1", "} ", "EOF ", "}}", " #x", " # a=b", "character=:{", "character=a:{", "character:{", "project=:{", "project=a:{", "tel=:{",
    "a:=1", "a:{b=c", "a:{ ", "k=a:{b", "k=x:{:{", "k=:{:{", "=", ":{", "=x", "foo=1", "foo=", "foo:{", "NON=", "NON=x", "E_symbol:{", "E_symbol=",
    "floor_height=", "floor_height:{", "floor_height=1", "wall=", "wall:{", "wall=1,2", "hight=", "hight:{", "pos=", "circuit=", "serial=5",
    "serial=", "text:{", "hide:{", "hide=", "layer_name:{", "layer_name=", "element:{", "element=", "range:{", "elec=000", "arc=000", "air=000",
    "pipe=001", "sym=000", "LAYER=E_151:{", "LAYER=", "LAYER:{", "E_15=:{", "E_15=", "E_15:{", "E_151=", "E_151:{", "E_151=:{", "eof",
    "FILE_FORMAT:{", "DRAWING_FORMAT:{", "SYMBOL_DEFINE:{", "ELEMENT:{", "FILE_FORMAT=", "ELEMENT=1", "DRAWING_FORMAT=a:{", "date=19970101",
    "point=0000,1,1", "line=0000,1,1,2,2", "line=1307,5,5,5.0,5", "successive:{", "type=0000,1,1,1,1,0,0,0", "symbol=A,1,1,0,1", "next_file=",
    "this_ele=0", "all_ele=0", "cad=x", "name=", "name=A", "#", "", " ", "}", "EOF",
];

fn odd_line(random: &mut Random, draft: &mut Draft) -> Option<()> {
    let at = any_line(random, draft)?;
    let line = random.pick(ODD).as_bytes().to_vec();
    let lines = &mut draft.volumes[at.0].lines;
    if random.chance(1, 4) {
        lines[at.1] = line;
    } else {
        lines.insert(at.1, line);
    }
    Some(())
}

fn line_from_another_set(random: &mut Random, draft: &mut Draft) -> Option<()> {
    let other = sound_set(random, false, draft.served);
    let (from, to) = (any_line(random, &other)?, any_line(random, draft)?);
    let line = other.volumes[from.0].lines[from.1].clone();
    let same = any_where(random, draft, |there| key_of(there).is_some() && key_of(there) == key_of(&line));
    match same {
        Some(at) if random.chance(1, 2) => *line_at(draft, at) = line,
        _ => draft.volumes[to.0].lines.insert(to.1, line),
    }
    Some(())
}

/// The lines of a block, from its opener to its close.
fn any_block(random: &mut Random, draft: &Draft) -> Option<(usize, usize, usize)> {
    let (volume, start) = any_where(random, draft, opens)?;
    Some((volume, start, block_end(&draft.volumes[volume].lines, start)?))
}

/// A line that ends as an opener does, and is no text.
fn opens(line: &[u8]) -> bool {
    line.ends_with(b":{") && line.first() != Some(&b'#') && key_of(line) != Some(b"character")
}

/// The line after the close of the block that opens at `start`.
fn block_end(lines: &[Line], start: usize) -> Option<usize> {
    let mut depth = 0;
    for (index, line) in lines.iter().enumerate().skip(start) {
        if opens(line) {
            depth += 1;
        } else if trimmed(line) == b"}" {
            depth -= 1;
        }
        if depth == 0 {
            return Some(index + 1);
        }
    }
    None
}

fn block_removed_or_doubled(random: &mut Random, draft: &mut Draft) -> Option<()> {
    let (volume, start, end) = any_block(random, draft)?;
    let lines = &mut draft.volumes[volume].lines;
    let block = lines[start..end].to_vec();
    match random.below(4) {
        0 | 1 => {
            lines.drain(start..end);
        }
        2 => {
            lines.splice(start..start, block);
        }
        _ => {
            // The block emptied: too few, or something missing.
            lines.drain(start + 1..end - 1);
        }
    }
    Some(())
}

/// Blocks of the top level exchanged, doubled or removed.
fn top_blocks_exchanged(random: &mut Random, draft: &mut Draft) -> Option<()> {
    let volume = random.below(draft.volumes.len());
    let mut blocks: Vec<Vec<Line>> = vec![Vec::new()];
    let mut depth = 0;
    for line in draft.volumes[volume].lines.drain(..) {
        if opens(&line) {
            depth += 1;
        } else if trimmed(&line) == b"}" {
            depth -= 1;
        }
        blocks.last_mut().unwrap().push(line);
        if depth == 0 {
            blocks.push(Vec::new());
        }
    }
    let (first, second) = (random.below(blocks.len()), random.below(blocks.len()));
    match random.below(3) {
        0 => blocks.swap(first, second),
        1 => {
            let copy = blocks[first].clone();
            blocks.insert(second, copy);
        }
        _ => {
            blocks.remove(first);
        }
    }
    draft.volumes[volume].lines = blocks.concat();
    Some(())
}

/// A line of a placed symbol, or some other line, put into blocks of its own: skipped nesting.
fn nested_deeper(random: &mut Random, draft: &mut Draft) -> Option<()> {
    let (volume, at) = match random.below(8) {
        0 => any_line(random, draft)?,
        _ => any_where(random, draft, |line| key_of(line) == Some(b"symbol"))?,
    };
    let deep = *random.pick(&[1, 3, 4, 5, 5, 5, 6]);
    let mut lines: Vec<Line> = Vec::new();
    for _ in 0..deep {
        lines.push(random.pick(&["foo:{", "foo=1:{", "text:{", "circuit:{", "project=a:{", "character:{"]).as_bytes().to_vec());
        if random.chance(1, 6) {
            lines.push(random.pick(&["character=a:{", "character=:{", "bar=", "bar=1", "#:{", "project=:{", "nothing"]).as_bytes().to_vec());
        }
    }
    let closed = if random.chance(1, 8) { deep - 1 } else { deep };
    lines.extend(vec![b"}".to_vec(); closed]);
    draft.volumes[volume].lines.splice(at..at, lines);
    // A class that is likely to skip it: below the file's E_sym.
    if random.chance(7, 8) {
        draft.class.class = *random.pick(&[1, 1, 2, 3]);
    }
    Some(())
}

/// A symbol's name changed where it is defined, or where it is placed.
fn symbol_renamed(random: &mut Random, draft: &mut Draft) -> Option<()> {
    let key = *random.pick(&["symbol", "E_symbol", "name"]);
    let at = any_where(random, draft, |line| key_of(line) == Some(key.as_bytes()))?;
    let line = line_at(draft, at);
    let (_, _, content) = parts(line).unwrap();
    let end = content.iter().position(|&b| b == b',').unwrap_or(content.len());
    let name = match random.below(4) {
        0 => content[..end].to_ascii_lowercase(),
        1 => [&content[..end], b"X"].concat(),
        2 => content[..end.saturating_sub(1)].to_vec(),
        _ => random.pick(NAMES).as_bytes().to_vec(),
    };
    *line = with_content(line, &[&name, &content[end..]].concat());
    Some(())
}

/// A layer declared or used otherwise.
fn layer_changed(random: &mut Random, draft: &mut Draft) -> Option<()> {
    let used = |line: &[u8]| key_of(line) == Some(b"LAYER");
    let declared = |line: &[u8]| key_of(line).is_some_and(crate::blocks::is_layer_id);
    if random.chance(1, 2) {
        let (from, to) = (any_where(random, draft, used)?, any_where(random, draft, used)?);
        let line = line_at(draft, from).clone();
        if random.chance(1, 2) {
            *line_at(draft, to) = line;
        } else {
            draft.volumes[to.0].lines.splice(to.1..to.1, [line, b"}".to_vec()]);
        }
        return Some(());
    }
    let (from, to) = (any_where(random, draft, declared)?, any_where(random, draft, declared)?);
    let line = line_at(draft, from).clone();
    match random.below(3) {
        0 => *line_at(draft, to) = line,
        1 => draft.volumes[to.0].lines.insert(to.1, random.pick(&["E_777=", "P_000=x", "A_12=", "C_001=", "E_0001="]).as_bytes().to_vec()),
        _ => {
            draft.volumes[to.0].lines.remove(to.1);
        }
    }
    Some(())
}

/// Blanks and ignored lines: no damage, but after EOF.
fn decorated(random: &mut Random, draft: &mut Draft) -> Option<()> {
    let (volume, at) = any_line(random, draft)?;
    let lines = &mut draft.volumes[volume].lines;
    if random.chance(1, 2) {
        lines.insert(random.below(lines.len() + 1), ignored(random));
    } else {
        lines[at] = [blanks(random), lines[at].clone()].concat();
    }
    Some(())
}

/// A line of 512 or 513 bytes, or a spool of 61,440 or 61,441.
fn too_long(random: &mut Random, draft: &mut Draft) -> Option<()> {
    let (volume, at) = any_line(random, draft)?;
    if random.chance(1, 10) {
        let bytes = MOST_BYTES + random.below(2);
        draft.pad(volume, bytes);
        return Some(());
    }
    let line = &mut draft.volumes[volume].lines[at];
    let length = LONGEST_LINE + random.below(2);
    match random.below(3) {
        0 => line.resize(length.max(line.len()), b'x'),
        1 => *line = vec![b'#'; length],
        _ => *line = [vec![b' '; length.saturating_sub(line.len())], line.clone()].concat(),
    }
    Some(())
}

/// Changes of the bytes of a spool, its heads among them.
fn change_bytes(random: &mut Random, spool: &mut Vec<u8>) {
    if spool.is_empty() {
        return;
    }
    let heads = heads(spool);
    let head = if heads.is_empty() { 0 } else { *random.pick(&heads) };
    let anywhere = random.below(spool.len());
    match random.below(14) {
        0 => spool.truncate(anywhere),
        1 => spool.push(some_byte(random)),
        2 => spool[anywhere] = some_byte(random),
        3 => {
            spool.remove(anywhere);
        }
        4 => spool.insert(anywhere, some_byte(random)),
        // the head of a volume: mark, name, length
        5 => {
            let place = (head + random.below(12)).min(spool.len() - 1);
            spool[place] = some_byte(random);
        }
        6 if head + 12 <= spool.len() => {
            let change = *random.pick(&[1_u16, 2, 256, 65_535, 65_534]);
            let length = u16::from_be_bytes([spool[head + 10], spool[head + 11]]).wrapping_add(change);
            spool[head + 10..head + 12].copy_from_slice(&length.to_be_bytes());
        }
        7 => {
            // a blank or a small letter in a name
            let place = (head + 2 + random.below(8)).min(spool.len() - 1);
            spool[place] = *random.pick(b" aA0_");
        }
        // a volume of no bytes, at the end or before
        8 => {
            let empty = [&b"VP"[..], random.pick(&["EMPTY   ", "Z       "]).as_bytes(), &[0, 0]].concat();
            let at = if random.chance(1, 2) { spool.len() } else { head };
            spool.splice(at..at, empty);
        }
        // a volume that is just its final byte
        9 => {
            let bare = [&b"VP"[..], b"BARE    ", &[0, 1, 0x1A]].concat();
            let at = if random.chance(1, 2) { spool.len() } else { head };
            spool.splice(at..at, bare);
        }
        10 if random.chance(1, 3) => spool.clear(),
        // line ends, the volume's length kept
        _ => {
            let ends: Vec<usize> = (0..spool.len()).filter(|&at| b"\r\n\x1A".contains(&spool[at])).collect();
            if let Some(&end) = ends.get(random.below(ends.len().max(1))) {
                spool[end] = *random.pick(b"\r\n\x1A x");
            }
        }
    }
}

/// Where the volumes of a spool start.
fn heads(spool: &[u8]) -> Vec<usize> {
    let mut heads = Vec::new();
    let mut at = 0;
    while at + 12 <= spool.len() {
        heads.push(at);
        at += 12 + u16::from_be_bytes([spool[at + 10], spool[at + 11]]) as usize;
    }
    heads
}
