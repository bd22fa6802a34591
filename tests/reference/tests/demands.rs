//! What documents 01 and 02 demand of readings and fixed forms, over questions from a seed: sound sets and damaged ones, with wires.

use std::ops::Range;

use reference::fixed;
use reference::frames::question;
use reference::generate::{CLASSES, WIRE_PARTS};
use reference::ranges::{asked, Asked, Attribute, Class, Ranges, ServedWires, WireAttribute, HIGHEST_ASKED};
use reference::reader::{read_set, Terms};
use reference::records::{table, NUMBERS};
use reference::set::{Set, Shape, State};
use reference::{check, read, rewrite};

const SERVED: ServedWires = ServedWires::ALL;

fn set(spool: &[u8], class: Asked) -> Option<Set<'_>> {
    read_set(spool, Terms { class: Class::of(class).unwrap(), served: SERVED, room: usize::MAX }).ok()
}

fn records(spool: &[u8], class: Asked) -> Option<Vec<i64>> {
    set(spool, class).map(|set| table(&set, Class::of(class).unwrap()))
}

fn all_classes() -> impl Iterator<Item = Asked> {
    CLASSES.into_iter().flat_map(|class| WIRE_PARTS.map(|wire| asked(class, wire)))
}

/// Where a record holds the place and length of a text.
fn text_places(record: &[i64]) -> Vec<usize> {
    match record[0] {
        1 => (16..32).step_by(2).collect(),
        3 => vec![12, 14, 16],
        4 => vec![5],
        5 => vec![7],
        15 | 35 => vec![12],
        16 => vec![12, 24],
        19 => vec![14, 16],
        _ => vec![],
    }
}

/// The numbers of the records without line numbers and byte places, and the texts.
fn without_places(spool: &[u8], records: &[i64]) -> (Vec<i64>, Vec<Vec<u8>>) {
    let mut numbers = records.to_vec();
    let mut texts = Vec::new();
    for record in numbers.chunks_mut(NUMBERS) {
        record[3] = 0;
        for at in text_places(record) {
            let (place, length) = (record[at] as usize, record[at + 1] as usize);
            texts.push(spool[place..place + length].to_vec());
            record[at] = 0;
        }
    }
    (numbers, texts)
}

/// What the records only count: the partners of symbols, and all of each wire.
fn repeats(set: &Set<'_>) -> Vec<String> {
    let layers = set.volumes.iter().flat_map(|volume| &volume.layers);
    let shapes = layers.flat_map(|layer| &layer.figures).map(|figure| &figure.shape);
    shapes
        .filter_map(|shape| match shape {
            Shape::Placed(placed) => Some(format!("{:?}", placed.serial)),
            Shape::Wire(wire) => {
                let elements: Vec<_> = wire.elements.iter().map(|element| (element.kind, &element.typed, element.join)).collect();
                let texts: Vec<_> = wire.texts.iter().map(|text| (&text.typed, text.characters.bytes)).collect();
                let circuit = match wire.circuit {
                    State::Given(circuit) => Some(circuit.bytes),
                    _ => None,
                };
                let drawn = (elements, &wire.direcs, &wire.piends, &wire.nums, texts);
                Some(format!("{drawn:?} {:?} {circuit:?} {:?} {:?}", wire.length, wire.power, wire.serial))
            }
            _ => None,
        })
        .collect()
}

/// "Written in the fixed form and read back it gives the same records and texts."
fn fixed_form_holds(spool: &[u8], what: &str) {
    let rewritten = rewrite(spool, SERVED, spool.len());
    assert_eq!(rewritten.answer, 0, "{what}: the fixed form is never longer");
    let fixed = &rewritten.lent[..rewritten.count];
    let again = rewrite(fixed, SERVED, fixed.len());
    assert_eq!((again.answer, again.count, &again.lent[..]), (0, fixed.len(), fixed), "{what}: the fixed form is its own");
    // Lower classes follow by the other demand: one part at its highest is enough.
    for class in all_classes().filter(|class| class.class == HIGHEST_ASKED.class || class.wire == HIGHEST_ASKED.wire) {
        let first = records(spool, class).expect(what);
        let second = records(fixed, class).expect(what);
        assert!(without_places(spool, &first) == without_places(fixed, &second), "{what}: {class:?} reads the same in the fixed form");
    }
    let [first, second] = [spool, fixed].map(|spool| repeats(&set(spool, HIGHEST_ASKED).unwrap()));
    assert_eq!(first, second, "{what}: what may stand several times stands in the fixed form");
    let short = rewrite(spool, SERVED, rewritten.count - 1);
    assert_eq!((short.answer, short.volume, short.line, short.count), (20, 0, 0, 0), "{what}");
    assert!(short.lent.iter().all(|&b| b == 0), "{what}");
}

/// Where a placed symbol's record holds each attribute, then its state.
const IN_16: [(Attribute, Range<usize>, usize); 5] = [
    (Attribute::Text, 16..26, 26),
    (Attribute::Hight, 10..11, 27),
    (Attribute::Pos, 11..12, 28),
    (Attribute::Circuit, 12..14, 29),
    (Attribute::Serial, 14..16, 30),
];
/// Where a wire's two records hold each attribute, then its state.
const IN_18: [(WireAttribute, Range<usize>, usize); 4] =
    [(WireAttribute::Direc, 6..15, 26), (WireAttribute::Piend, 15..19, 27), (WireAttribute::Num, 19..25, 28), (WireAttribute::Length, 25..26, 29)];
const IN_19: [(WireAttribute, Range<usize>, usize); 4] =
    [(WireAttribute::Text, 5..16, 26), (WireAttribute::Circuit, 16..18, 27), (WireAttribute::Power, 18..21, 28), (WireAttribute::Serial, 21..26, 29)];
const UNREAD: i64 = 3;

/// The records that a lower class must read, made from those of a higher one: "with the same records but for the attributes it doesn't know,
/// which are marked unread"; "of a wire that the lower class skips whole, the records at its own line stand as said for 0 and those of later
/// lines are left out".
fn lowered(records: &[i64], ranges: &Ranges, class: Class) -> Vec<i64> {
    let mut lowered = Vec::new();
    for record in records.chunks(NUMBERS) {
        let mut record = record.to_vec();
        match record[0] {
            16 => lower_symbol(&mut record, ranges, class),
            18 => lower_wire(&mut record, &IN_18, ranges, class),
            19 => lower_wire(&mut record, &IN_19, ranges, class),
            20 | 21 if !class.reads_wires() => continue,
            _ => {}
        }
        lowered.extend(record);
    }
    lowered
}

fn lower_symbol(record: &mut [i64], ranges: &Ranges, class: Class) {
    for (attribute, held, state) in IN_16 {
        if ranges.e_sym_digits().allow(attribute) && !class.knows(attribute) {
            record[held].fill(0);
            record[state] = UNREAD;
        }
    }
}

fn lower_wire(record: &mut [i64], places: &[(WireAttribute, Range<usize>, usize)], ranges: &Ranges, class: Class) {
    if !class.reads_wires() {
        record[4..].fill(0);
        record[31] = UNREAD;
    }
    for (attribute, held, state) in places.iter().cloned() {
        if ranges.e_wire_digits().allow_in_wire(attribute) && !class.knows_in_wire(attribute) {
            record[held].fill(0);
            record[state] = UNREAD;
        }
    }
}

/// The four digits of a class and its wire part.
fn digits(class: Asked) -> [u8; 4] {
    [class.class % 10, class.class / 10, class.wire % 10, class.wire / 10]
}

fn is_below(lower: Asked, higher: Asked) -> bool {
    lower != higher && digits(lower).into_iter().zip(digits(higher)).all(|(lower, higher)| lower <= higher)
}

/// One digit lower by one. Every lower class is reached in such steps, and lowering twice is lowering once.
fn is_next_below(lower: Asked, higher: Asked) -> bool {
    let step: u8 = digits(higher).into_iter().zip(digits(lower)).map(|(higher, lower)| higher.abs_diff(lower)).sum();
    is_below(lower, higher) && step == 1
}

/// "The lower accepts what the higher accepts."
fn lower_accepts(spool: &[u8], what: &str, compared: fn(Asked, Asked) -> bool) -> usize {
    let all: Vec<(Asked, Option<Vec<i64>>)> = all_classes().map(|class| (class, records(spool, class))).collect();
    let Some((accepting, _)) = all.iter().find(|(_, records)| records.is_some()) else { return 0 };
    let ranges = set(spool, *accepting).unwrap().header.ranges;
    let mut pairs = 0;
    for (higher, of_higher) in &all {
        let Some(of_higher) = of_higher else { continue };
        for (lower, of_lower) in all.iter().filter(|(lower, _)| compared(*lower, *higher)) {
            let of_lower = of_lower.as_ref().unwrap_or_else(|| panic!("{what}: {lower:?} refuses what {higher:?} accepts"));
            let expected = lowered(of_higher, &ranges, Class::of(*lower).unwrap());
            assert!(*of_lower == expected, "{what}: {lower:?} reads otherwise than {higher:?}");
            pairs += 1;
        }
    }
    pairs
}

#[test]
fn demands_hold() {
    let (mut pairs, mut fixed_forms, mut with_wires) = (0, 0, 0);
    for number in 0..1000 {
        let question = question(7, number, SERVED);
        let what = format!("question {number}");
        pairs += lower_accepts(&question.spool, &what, is_next_below);
        if let Some(set) = set(&question.spool, HIGHEST_ASKED) {
            fixed_form_holds(&question.spool, &what);
            fixed_forms += 1;
            with_wires += usize::from(fixed::spool(&set).windows(8).any(|bytes| bytes == b"E_wire:{"));
        }
        let read = read(&question.spool, question.class, SERVED, 256 * NUMBERS);
        let packed = read.answer as u64 + 100 * read.volume as u64 + 10_000 * read.line as u64;
        assert_eq!(check(&question.spool, question.class, SERVED), packed, "{what}");
    }
    println!("{pairs} pairs of classes, {fixed_forms} fixed forms, {with_wires} of them with wires");
    assert!(pairs > 100_000 && with_wires > 200);
}

/// Every two classes, not only neighbours.
#[test]
fn every_two_classes() {
    let pairs: usize = (0..60).map(|number| lower_accepts(&question(9, number, SERVED).spool, &format!("question {number}"), is_below)).sum();
    assert!(pairs > 100_000);
}
