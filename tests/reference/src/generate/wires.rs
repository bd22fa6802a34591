//! Wires of sound sets.

use super::{block, circuit, coordinate, decimal, entry, figure_type, own_number, partner, skipped_groups, spelt, text_figure};
use super::{circle, join, Line, Plan, Size, Wanted, WIRE_PARTS};
use crate::random::Random;
use crate::ranges::{Asked, Digits, ServedWires, WireAttribute};
use crate::values::{decimal as value_of, ONE};

/// A wire part: oftener one that reads most, and the one that reads none.
pub fn wire_part(random: &mut Random) -> u8 {
    match random.below(12) {
        0..=3 => 18,
        4 => 8,
        5 => 0,
        _ => *random.pick(&WIRE_PARTS),
    }
}

/// A class that knows the serials of symbols and of wires.
pub fn numbered_class(random: &mut Random) -> Asked {
    Asked { class: *random.pick(&[11, 12, 13, 14, 15]), wire: *random.pick(&[11, 12, 13, 14, 15, 16, 17, 18, 18, 18]) }
}

/// A value of E_wire that is served: 000 sometimes, and the highest first digit, which alone demands joins, oftener than the others.
pub fn e_wire(random: &mut Random, served: ServedWires, numbered: bool) -> i64 {
    if served.last == 0 || (!numbered && random.chance(1, 6)) {
        return 0;
    }
    let up_to = |random: &mut Random, highest: i64| random.below(highest as usize + 1) as i64;
    let first = if random.chance(1, 3) { served.first } else { up_to(random, served.first) };
    let middle = if numbered { served.middle } else { up_to(random, served.middle) };
    let last = if random.chance(1, 3) { served.last } else { 1 + up_to(random, served.last - 1) };
    100 * first + 10 * middle + last
}

/// A wire: "lines and arcs first", then attributes in any order among themselves.
pub fn wire(random: &mut Random, plan: &mut Plan) -> Vec<Line> {
    let mut lines = elements(random, plan);
    let mut attributes = attributes(random, plan);
    if plan.unread_wires {
        attributes.extend(unknown(random, plan));
    }
    if plan.unread_wires && !plan.class.reads_wires() {
        // A wire that is skipped whole: nothing in it need stand anywhere.
        attributes.extend(lines.drain(..).map(|line| vec![line]));
        random.shuffle(&mut attributes);
    }
    lines.extend(plan.any_order(random, attributes));
    block("E_wire", lines)
}

/// Keys that no wire part knows, and, where none is read, keys that others do.
fn unknown(random: &mut Random, plan: &Plan) -> Vec<Vec<Line>> {
    const UNKNOWN: [&str; 13] = ["foo", "type", "character", "project", "E_symbol", "E_wire", "EOF", "}", "range", "a:", "point", "seriarl", "hight"];
    const KNOWN: [&str; 4] = ["line", "circle", "direc", "text"];
    let mut groups = Vec::new();
    for _ in 0..random.below(3) {
        let known = !plan.class.reads_wires() && random.chance(1, 3);
        let key = *if known { random.pick(&KNOWN) } else { random.pick(&UNKNOWN) };
        groups.extend(skipped_groups(random, key.as_bytes()));
    }
    groups
}

fn elements(random: &mut Random, plan: &Plan) -> Vec<Line> {
    let count = match (plan.size, random.below(20)) {
        (_, 0 | 1) => 0,
        (Size::Small, _) => random.between(1, 4),
        (_, 2..=17) => random.between(1, 8),
        _ => random.between(9, 30),
    };
    // "At 4 every end is joined to the next start"; at others it may be so.
    let joined = plan.e_wire / 100 == 4 || random.chance(1, 3);
    let mut lines = Vec::new();
    let mut end: Option<[String; 2]> = None;
    for _ in 0..count {
        if random.chance(1, 4) {
            lines.push(circle(random));
            end = None;
            continue;
        }
        let [x, y] = end.filter(|_| joined).unwrap_or_else(|| [(); 2].map(|_| coordinate(random, false)));
        let start = [respelt(random, &x), respelt(random, &y)];
        let this_end = other_point(random, &start);
        lines.push(entry("line", [&[figure_type(random)][..], &start, &this_end].concat().join(",")));
        end = Some(this_end);
    }
    lines
}

/// A point that differs in value from another.
fn other_point(random: &mut Random, from: &[String; 2]) -> [String; 2] {
    let values = |point: &[String; 2]| point.clone().map(|item| value_of(item.as_bytes()));
    loop {
        let point = [(); 2].map(|_| coordinate(random, false));
        if values(&point) != values(from) {
            return point;
        }
    }
}

/// A decimal that isn't negative, spelt otherwise: "equal values".
fn respelt(random: &mut Random, item: &str) -> String {
    let value = value_of(item.as_bytes()).unwrap();
    match random.below(3) {
        0 => crate::fixed::decimal(value),
        1 => format!("{:07}.{:04}", value / ONE, value % ONE),
        _ => item.to_string(),
    }
}

fn attributes(random: &mut Random, plan: &mut Plan) -> Vec<Vec<Line>> {
    let mut groups = Vec::new();
    for attribute in WireAttribute::ALL {
        if plan.unread_wires && !plan.class.knows_in_wire(attribute) {
            groups.extend(skipped_groups(random, attribute.key()));
        } else if Digits::of(plan.e_wire).allow_in_wire(attribute) {
            groups.extend(attribute_lines(random, plan, attribute));
        }
    }
    groups
}

fn attribute_lines(random: &mut Random, plan: &mut Plan, attribute: WireAttribute) -> Vec<Vec<Line>> {
    let line = match attribute {
        WireAttribute::Direc => return repeated(random, 2, direc),
        WireAttribute::Piend => return repeated(random, 3, piend),
        WireAttribute::Num => return nums(random),
        WireAttribute::Text => return repeated_blocks(random, plan),
        WireAttribute::Length if random.chance(1, 3) => entry("length", ""),
        WireAttribute::Length => entry("length", decimal(random, Wanted::NotNegative)),
        WireAttribute::Circuit => circuit(random),
        WireAttribute::Power => power(random),
        WireAttribute::Serial => serial(random, plan),
    };
    vec![vec![line]]
}

/// A line so many times, or less often, or not at all.
fn repeated(random: &mut Random, most: usize, line: fn(&mut Random) -> Line) -> Vec<Vec<Line>> {
    let count = random.between(0, most);
    (0..count).map(|_| vec![line(random)]).collect()
}

fn repeated_blocks(random: &mut Random, plan: &Plan) -> Vec<Vec<Line>> {
    let count = *random.pick(&[0, 1, 1, 2, 3]);
    (0..count).map(|_| text_figure(random, plan, false)).collect()
}

/// sign,x,y,angle
fn direc(random: &mut Random) -> Line {
    let sign = random.below(5).to_string();
    entry("direc", join([sign, coordinate(random, false), coordinate(random, false), decimal(random, Wanted::Angle)]))
}

/// x,y,angle
fn piend(random: &mut Random) -> Line {
    entry("piend", join([coordinate(random, false), coordinate(random, false), decimal(random, Wanted::Angle)]))
}

/// earth,power,x,y,angle: "earth and power wires of all must be the same", as numbers.
fn nums(random: &mut Random) -> Vec<Vec<Line>> {
    let (earth, wires) = (random.below(2).to_string(), *random.pick(&[0, 1, 2, 3, 12, 999_999_999]));
    let count = *random.pick(&[0, 1, 1, 2, 3]);
    let num = |random: &mut Random| {
        let wires = spelt(random, wires, 9);
        entry("num", join([earth.clone(), wires, coordinate(random, false), coordinate(random, false), decimal(random, Wanted::HalfAngle)]))
    };
    (0..count).map(|_| vec![num(random)]).collect()
}

/// phase,wires,volts, as table 5 of document 000 has them; or empty
fn power(random: &mut Random) -> Line {
    const ROWS: [(&str, usize); 13] = [
        ("1,2", 100),
        ("1,2", 200),
        ("1,2", 231),
        ("1,3", 200),
        ("3,3", 200),
        ("3,3", 400),
        ("3,3", 3300),
        ("3,3", 6600),
        ("3,3", 22000),
        ("3,3", 33000),
        ("3,3", 66000),
        ("3,4", 173),
        ("3,4", 400),
    ];
    if random.chance(1, 4) {
        return entry("power", "");
    }
    let (phase_and_wires, volts) = *random.pick(&ROWS);
    entry("power", format!("{phase_and_wires},{}", spelt(random, volts, 9)))
}

/// own,start,end: either partner may be empty
fn serial(random: &mut Random, plan: &mut Plan) -> Line {
    let read = plan.class.knows_in_wire(WireAttribute::Serial);
    let own = own_number(random, plan, read);
    let [start, end] = [(); 2].map(|_| if random.chance(1, 3) { String::new() } else { partner(random, plan, 10) });
    entry("serial", join([own, start, end]))
}
