//! Damage to wires: each of these breaks some rule of theirs, or nearly.

use super::{any_line, any_where, block_end, contents_of, items_of, key_of, line_at, lines_where, touched, trimmed, with_content, Change, LIMITS};
use crate::blocks::is_wire_element;
use crate::generate::{text_of, Draft, Line};
use crate::random::Random;

/// Every change of wires, with how often it is taken among them.
pub const CHANGES: &[(usize, Change)] = &[
    (14, line_in_wire),
    (3, line_in_text),
    (2, characters_lengthened),
    (16, attribute_touched),
    (6, element_changed),
    (3, element_moved),
    (6, attribute_repeated),
    (5, attribute_removed),
    (3, own_number_copied),
    (9, partner_changed),
    (6, nested_in_wire),
    (3, opener_changed),
    (5, wire_inserted),
    (3, cut_in_wire),
];

/// A wire part at which something is likely to be skipped.
fn lower_part(random: &mut Random, draft: &mut Draft) {
    draft.class.wire = *random.pick(&[0, 0, 1, 1, 2, 3, 5, 8, 11, 14]);
}

/// A wire: its volume, and the lines of its opener and of its close.
fn any_wire(random: &mut Random, draft: &Draft) -> Option<(usize, usize, usize)> {
    let (volume, start) = any_where(random, draft, |line| trimmed(line) == b"E_wire:{")?;
    let end = block_end(&draft.volumes[volume].lines, start)?;
    Some((volume, start, end - 1))
}

fn is_element(line: &[u8]) -> bool {
    key_of(line).is_some_and(is_wire_element)
}

/// The line after a wire's elements.
fn behind_elements(lines: &[Line], start: usize, close: usize) -> usize {
    (start + 1..close).find(|&at| !is_element(&lines[at])).unwrap_or(close)
}

/// Where in a wire something may be put: before its elements, behind them, before its close.
fn place_in_wire(random: &mut Random, draft: &Draft) -> Option<(usize, usize)> {
    let (volume, start, close) = any_wire(random, draft)?;
    let behind = behind_elements(&draft.volumes[volume].lines, start, close);
    Some((volume, *random.pick(&[start + 1, behind, behind, close, close])))
}

const IN_WIRE: &[&str] = &[
    "foo=1", "foo:{", "foo=:{", "foo=", "foo=1:{", "line=0000,1,1,2,2", "line=", "line:{", "line=:{", "line=0000,1,1", "line=0000,-1,1,2,2",
    "line=0000,1,1,1.0,1", "circle=0000,1,1,1,0,90,0", "circle=0000,1,1,1,0,360", "circle=", "circle:{", "circle=0000,1,1,0,0,90,0",
    "point=0000,1,1", "ellipse=0000,1,1,2,1,0,90,0,0", "successive:{", "E_symbol:{", "E_wire:{", "E_wire=", "E_wire=:{", "direc=1,1,1,1", "direc=",
    "direc:{", "direc=5,1,1,1", "direc=1,1,1", "direc=1,1,1,1:{", "direc=4,0,0,360.0001", "piend=1,1,1", "piend=", "piend:{", "piend=1,1,361",
    "piend=1,1", "num=0,2,1,1,1", "num=1,3,1,1,1", "num=", "num:{", "num=0,2,1,1,181", "num=0,2.0,1,1,1", "text=", "text:{", "text=a:{", "length=",
    "length=1", "length:{", "length=-1", "length=1:{", "length=1,2", "circuit=", "circuit=A", "circuit:{", "circuit=A:{", "circuit=_", "power=",
    "power=1,2,100", "power=1,2,105", "power:{", "power=1,2,100:{", "power=1,2", "serial=77,,", "serial=", "serial:{", "serial=77,,:{", "serial=78",
    "seriarl=1,2,", "serial1=2,1,3", "character=:{", "character=a", "character=a:{", "character:{", "EOF", "EOF=", "}", "hight=", "pos=1",
    "type=0000,1,1,1,1,0,0,0", "E_cirno:{", "=", "nothing", "#", "a=\u{1}", "a=\u{7f}", "a\u{7f}:{",
];

/// A line put into a wire where something is said of it.
fn line_in_wire(random: &mut Random, draft: &mut Draft) -> Option<()> {
    let (volume, at) = place_in_wire(random, draft)?;
    let line = random.pick(IN_WIRE).as_bytes().to_vec();
    let closed = line.ends_with(b":{") && random.chance(2, 3);
    draft.volumes[volume].lines.insert(at, line);
    if closed {
        draft.volumes[volume].lines.insert(at + 1, b"}".to_vec());
    }
    if random.chance(1, 3) {
        lower_part(random, draft);
    }
    Some(())
}

/// A line put into a text of a wire, at its head or before its close.
fn line_in_text(random: &mut Random, draft: &mut Draft) -> Option<()> {
    const IN_TEXT: &[&str] = &[
        "type=0000,1,1,1,1,0,0,0", "type=0000,1,1,1,1,0,0", "type=", "type:{", "character=a", "character=", "character=:{", "character:{", "foo=1",
        "foo:{", "line=0000,1,1,2,2", "length=", "text:{", "EOF", "nothing",
    ];
    let (volume, start, close) = any_wire(random, draft)?;
    let lines = &mut draft.volumes[volume].lines;
    let texts: Vec<usize> = (start + 1..close).filter(|&at| trimmed(&lines[at]) == b"text:{").collect();
    let text = *texts.get(random.below(texts.len().max(1)))?;
    let at = if random.chance(1, 2) { text + 1 } else { block_end(lines, text)? - 1 };
    lines.insert(at, random.pick(IN_TEXT).as_bytes().to_vec());
    Some(())
}

/// The characters of a wire's text: the most bytes that they may be, or one more.
fn characters_lengthened(random: &mut Random, draft: &mut Draft) -> Option<()> {
    let (volume, start, close) = any_wire(random, draft)?;
    let lines = &mut draft.volumes[volume].lines;
    let at = (start + 1..close).find(|&at| key_of(&lines[at]) == Some(b"character"))?;
    let length = 200 + random.below(2);
    lines[at] = with_content(&lines[at], &text_of(random, length));
    Some(())
}

/// A value of an attribute just inside or just outside its limits, or all of them.
fn attribute_touched(random: &mut Random, draft: &mut Draft) -> Option<()> {
    let at = any_attribute(random, draft)?;
    let key = key_of(line_at(draft, at))?.to_vec();
    if random.chance(1, 3) {
        let line = line_at(draft, at);
        *line = with_content(line, random.pick(contents_of(&key)).as_bytes());
        return Some(());
    }
    let limits: Vec<_> = LIMITS.iter().filter(|(of, _, _)| of.as_bytes() == key).collect();
    let (_, item, values) = **random.pick(&limits);
    touched(random, line_at(draft, at), item, values)
}

/// A coordinate of a wire's line changed, or two elements exchanged: at first digit 4 a join that fails.
fn element_changed(random: &mut Random, draft: &mut Draft) -> Option<()> {
    let (volume, start, close) = any_wire(random, draft)?;
    let behind = behind_elements(&draft.volumes[volume].lines, start, close);
    if behind == start + 1 {
        return None;
    }
    let at = random.between(start + 1, behind - 1);
    let lines = &mut draft.volumes[volume].lines;
    if random.chance(1, 3) {
        lines.swap(at, random.between(start + 1, behind - 1));
        return Some(());
    }
    let mut items = items_of(&lines[at]);
    let item = random.between(1, 4).min(items.len() - 1);
    items[item] = random.pick(&["0", "1", "100.5", "0.0001", "9999999.9999"]).as_bytes().to_vec();
    lines[at] = with_content(&lines[at], &items.join(&b','));
    Some(())
}

/// An element behind an attribute, or an attribute before the elements.
fn element_moved(random: &mut Random, draft: &mut Draft) -> Option<()> {
    let (volume, start, close) = any_wire(random, draft)?;
    let lines = &mut draft.volumes[volume].lines;
    let behind = behind_elements(lines, start, close);
    if random.chance(1, 2) {
        let element = lines.remove(start + 1);
        lines.insert(close - 1, element);
    } else {
        let other = lines.remove(behind);
        lines.insert(start + 1, other);
    }
    Some(())
}

/// An attribute of a wire that stands on one line, by its key: those oftener that have more rules or come up less.
fn any_attribute(random: &mut Random, draft: &Draft) -> Option<(usize, usize)> {
    let key = *random.pick(&["direc", "direc", "piend", "num", "num", "num", "length", "length", "circuit", "power", "power", "power", "serial"]);
    any_where(random, draft, |line| key_of(line) == Some(key.as_bytes()))
}

/// An attribute once or twice more: of those that may repeat, one too many or one unlike the others.
fn attribute_repeated(random: &mut Random, draft: &mut Draft) -> Option<()> {
    let at = any_attribute(random, draft)?;
    let line = line_at(draft, at).clone();
    let mut copies = vec![line.clone(); random.between(1, 2)];
    if random.chance(1, 2) {
        let mut items = items_of(&line);
        let item = random.below(items.len());
        items[item] = random.pick(&["0", "1", "2", "", "3"]).as_bytes().to_vec();
        *copies.last_mut()? = with_content(&line, &items.join(&b','));
    }
    draft.volumes[at.0].lines.splice(at.1 + 1..at.1 + 1, copies);
    Some(())
}

fn attribute_removed(random: &mut Random, draft: &mut Draft) -> Option<()> {
    let at = any_attribute(random, draft)?;
    draft.volumes[at.0].lines.remove(at.1);
    Some(())
}

/// The own number of another symbol or wire, perhaps spelt otherwise; the partners stay.
fn own_number_copied(random: &mut Random, draft: &mut Draft) -> Option<()> {
    let serials = lines_where(draft, |line| key_of(line) == Some(b"serial"));
    if serials.len() < 2 {
        return None;
    }
    let (from, to) = (*random.pick(&serials), *random.pick(&serials));
    let mut own = items_of(line_at(draft, from))[0].clone();
    if own.len() < 10 && random.chance(1, 2) {
        own.insert(0, b'0');
    }
    let line = line_at(draft, to);
    let mut items = items_of(line);
    items[0] = own;
    *line = with_content(line, &items.join(&b','));
    Some(())
}

/// A partner that may not exist, or isn't written as a number, or is one too many or too few.
fn partner_changed(random: &mut Random, draft: &mut Draft) -> Option<()> {
    let at = any_where(random, draft, |line| key_of(line) == Some(b"serial"))?;
    let line = line_at(draft, at);
    let mut items = items_of(line);
    let partner = random.pick(&["0", "1", "7", "123456789", "9999999999", "12345678901", "", "a", "-1"]).as_bytes().to_vec();
    match (items.len(), random.below(6)) {
        (_, 0) => items.push(partner),
        (2.., 1) => {
            items.pop();
        }
        (2.., _) => {
            let item = random.between(1, items.len() - 1);
            items[item] = partner;
        }
        _ => return None,
    }
    *line = with_content(line, &items.join(&b','));
    Some(())
}

/// Blocks that no wire part knows, one in another, as deep as may be or deeper.
fn nested_in_wire(random: &mut Random, draft: &mut Draft) -> Option<()> {
    let (volume, at) = place_in_wire(random, draft)?;
    let deep = *random.pick(&[1, 3, 4, 4, 5, 5, 6]);
    let mut lines: Vec<Line> = Vec::new();
    for _ in 0..deep {
        lines.push(random.pick(&["foo:{", "foo=1:{", "text:{", "E_wire:{", "project=a:{", "character:{", "power:{"]).as_bytes().to_vec());
        if random.chance(1, 6) {
            lines.push(random.pick(&["character=a:{", "character=:{", "bar=", "line=1", "#:{", "project=:{", "nothing", "EOF"]).as_bytes().to_vec());
        }
    }
    let closed = if random.chance(1, 8) { deep - 1 } else { deep };
    lines.extend(vec![b"}".to_vec(); closed]);
    draft.volumes[volume].lines.splice(at..at, lines);
    if random.chance(7, 8) {
        lower_part(random, draft);
    }
    Some(())
}

/// A wire's own line in another form, or with another key.
fn opener_changed(random: &mut Random, draft: &mut Draft) -> Option<()> {
    let (volume, start, _) = any_wire(random, draft)?;
    let opener =
        *random.pick(&["E_wire=", "E_wire=x", "E_wire=1:{", "E_wire=:{", "E_wire", "e_wire:{", "E_wire:{ ", "E_symbol:{", "text:{", "E_wire :{"]);
    draft.volumes[volume].lines[start] = opener.as_bytes().to_vec();
    Some(())
}

/// A whole wire where one may stand, or may not; perhaps counted.
pub fn wire_inserted(random: &mut Random, draft: &mut Draft) -> Option<()> {
    const WIRES: &[&[&str]] = &[
        &["E_wire:{", "}"],
        &["E_wire:{", "line=0000,1,1,2,2", "}"],
        &["E_wire:{", "line=0000,1,1,2,2", "line=0000,3,3,4,4", "}"],
        &["E_wire:{", "circle=0000,1,1,2,0,90,1", "direc=1,1,1,1", "piend=1,1,1", "num=0,1,1,1,1", "}"],
        &["E_wire:{", "line=0000,1,1,2,2", "length=", "circuit=", "power=", "serial=987654321,,", "}"],
    ];
    let is_layer = |line: &[u8]| key_of(line) == Some(b"LAYER") && line.ends_with(b":{");
    let other = *random.pick(&["element:{", "ELEMENT:{", "SYMBOL_DEFINE:{", "E_symbol:{", "E_wire:{", "text:{", "successive:{"]);
    let in_layer = random.chance(3, 4);
    let (volume, at) = match random.below(10) {
        0 => any_line(random, draft)?,
        _ if in_layer => any_where(random, draft, is_layer)?,
        _ => any_where(random, draft, |line| trimmed(line) == other.as_bytes())?,
    };
    let wire = random.pick(WIRES).iter().map(|line| line.as_bytes().to_vec()).collect::<Vec<Line>>();
    draft.volumes[volume].lines.splice(at + 1..at + 1, wire);
    if in_layer && random.chance(1, 2) {
        count_one_more(draft, volume);
    }
    Some(())
}

/// A volume cut short at a line of a wire, perhaps at its close.
fn cut_in_wire(random: &mut Random, draft: &mut Draft) -> Option<()> {
    let (volume, start, close) = any_wire(random, draft)?;
    let last = if random.chance(1, 4) { close } else { random.between(start, close) };
    draft.volumes[volume].lines.truncate(last + 1);
    if random.chance(1, 2) {
        lower_part(random, draft);
    }
    Some(())
}

/// this_ele of a volume and all_ele, one higher.
pub fn count_one_more(draft: &mut Draft, volume: usize) {
    for (key, volume) in [("this_ele", volume), ("all_ele", 0)] {
        for line in &mut draft.volumes[volume].lines {
            if key_of(line) != Some(key.as_bytes()) {
                continue;
            }
            let number: u64 = String::from_utf8_lossy(&items_of(line)[0]).parse().unwrap_or(0);
            *line = with_content(line, (number + 1).to_string().as_bytes());
        }
    }
}
