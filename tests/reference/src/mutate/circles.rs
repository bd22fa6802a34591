//! Damage to circles: six values where they may stand, and where they may not.

use super::wires::count_one_more;
use super::{any_where, block_end, items_of, key_of, line_at, lines_where, trimmed, with_content};
use crate::generate::{circle_without_turn, Draft, NOUGHTS, WHOLE_TURNS};
use crate::random::Random;

/// How many values a circle has, and how many it may have in a symbol's `element`.
const SEVEN: usize = 7;
const SIX: usize = 6;

/// Where a circle's type, centre, radius and angles are among its values.
const TYPE: usize = 0;
const CENTRE: usize = 1;
const RADIUS: usize = 3;
const START: usize = 4;
const END: usize = 5;

fn is_circle(line: &[u8]) -> bool {
    key_of(line) == Some(b"circle")
}

/// A circle; where symbols have any, oftener one of theirs.
fn any_circle(random: &mut Random, draft: &Draft) -> Option<(usize, usize)> {
    let mut in_symbols = Vec::new();
    for (volume, start) in lines_where(draft, |line| trimmed(line) == b"element:{") {
        let lines = &draft.volumes[volume].lines;
        let end = block_end(lines, start).unwrap_or(start);
        in_symbols.extend((start..end).filter(|&at| is_circle(&lines[at])).map(|at| (volume, at)));
    }
    if !in_symbols.is_empty() && random.chance(2, 3) {
        return Some(*random.pick(&in_symbols));
    }
    any_where(random, draft, is_circle)
}

/// An item of a line, if it has so many, changed for one of these values.
fn put(random: &mut Random, items: &mut [Vec<u8>], at: usize, values: &[&str]) {
    if let Some(item) = items.get_mut(at) {
        *item = random.pick(values).as_bytes().to_vec();
    }
}

/// A circle's values changed where something is said of six of them: an angle, the radius, the turn, their number, the key.
pub fn circle_changed(random: &mut Random, draft: &mut Draft) -> Option<()> {
    let at = any_circle(random, draft)?;
    let line = line_at(draft, at);
    let mut items = items_of(line);
    // Most circles first become such as go from 0 to 360, and most of these have no turn.
    if random.chance(3, 4) {
        put(random, &mut items, START, NOUGHTS);
        put(random, &mut items, END, WHOLE_TURNS);
        if random.chance(3, 4) {
            items.truncate(SIX);
        }
    }
    // Now and then that is all.
    for _ in 0..*random.pick(&[0, 1, 1, 1, 1, 2, 2]) {
        value_changed(random, &mut items);
    }
    let content = items.join(&b',');
    *line = if random.chance(1, 20) { [b"cirllce=", &content[..]].concat() } else { with_content(line, &content) };
    Some(())
}

fn value_changed(random: &mut Random, items: &mut Vec<Vec<u8>>) {
    const STARTS: &[&str] = &["0.0001", "-0.0001", "1", "360", "90", "", "0.", "0.00000", "00000000", "+0", "0 "];
    const ENDS: &[&str] = &["0", "90", "359.9999", "360.0001", "361", "720", "-360", "", "360.", "36O", "360.00000", "00000360", "1"];
    const RADII: &[&str] = &["0", "-0", "0.0000", "-2", "-0.0001", "0.0001", "", "2."];
    const TURNS: &[&str] = &["-1", "-1", "-1", "0", "1", "2", "", "-0", "00", "-"];
    const TYPES: &[&str] = &["0000", "123", "12345", "12a4", ""];
    const CENTRES: &[&str] = &["-9999999.9999", "10000000", "", "5."];
    match random.below(14) {
        0 | 1 => put(random, items, START, STARTS),
        2..=4 => put(random, items, END, ENDS),
        5 if items.len() > END => items.swap(START, END),
        6 | 7 => put(random, items, RADIUS, RADII),
        8 | 9 => {
            items.resize(SEVEN, Vec::new());
            put(random, items, SEVEN - 1, TURNS);
        }
        10 => items.resize(*random.pick(&[SIX - 1, SEVEN + 1]), b"0".to_vec()),
        11 => {
            items.remove(random.below(items.len()));
        }
        12 => put(random, items, TYPE, TYPES),
        _ => {
            let at = CENTRE + random.below(2);
            put(random, items, at, CENTRES);
        }
    }
}

/// A circle of six values where it may stand, or may not: in a symbol, a layer, a wire, and in blocks of other lines; in a layer perhaps counted.
pub fn circle_inserted(random: &mut Random, draft: &mut Draft) -> Option<()> {
    const OTHERS: &[&str] = &["circle=1307,0,0,2,0,360,-1", "circle=1307,0,0,2,0,90", "circle=1307,0,0,2,0,360,0", "cirllce=1307,0,0,2,0,360"];
    let circle = if random.chance(1, 5) { random.pick(OTHERS).as_bytes().to_vec() } else { circle_without_turn(random) };
    let in_layer = random.chance(1, 4);
    let opener = *random.pick(&["element:{", "element:{", "E_wire:{", "E_wire:{", "hide:{", "successive:{", "text:{", "E_symbol:{"]);
    let is_layer = |line: &[u8]| key_of(line) == Some(b"LAYER") && line.ends_with(b":{");
    let (volume, at) = any_where(random, draft, |line| if in_layer { is_layer(line) } else { trimmed(line) == opener.as_bytes() })?;
    draft.volumes[volume].lines.insert(at + 1, circle);
    if in_layer && random.chance(1, 2) {
        count_one_more(draft, volume);
    }
    Some(())
}
