//! Wires of every sort come up in sound sets.

use std::collections::{BTreeMap, BTreeSet};

use reference::generate::{sound_set, Draft};
use reference::lines;
use reference::random::Random;
use reference::ranges::{Class, ServedWires};
use reference::reader::{read_set, Terms};
use reference::set::{Join, OneLine, Placed, Set, Shape, State, Wire};
use reference::spool::Text;

/// What a wire may be, on its own.
type Sort = (&'static str, fn(&Wire<'_>) -> bool);

const SORTS: [Sort; 15] = [
    ("no element", |wire| wire.elements.is_empty()),
    ("an arc", |wire| wire.elements.iter().any(|element| element.kind == OneLine::Circle)),
    ("a tested join", |wire| wire.elements.iter().any(|element| element.join == Join::Tested)),
    ("an untested join", |wire| wire.elements.iter().any(|element| element.join == Join::Untested)),
    ("two direcs", |wire| wire.direcs.len() == 2),
    ("several piends", |wire| wire.piends.len() > 1),
    ("several nums", |wire| wire.nums.len() > 1),
    ("several texts", |wire| wire.texts.len() > 1),
    ("a length", |wire| matches!(wire.length, State::Given(_))),
    ("an empty length", |wire| matches!(wire.length, State::Empty)),
    ("a circuit", |wire| matches!(wire.circuit, State::Given(_))),
    ("an empty circuit", |wire| matches!(wire.circuit, State::Empty)),
    ("a power", |wire| matches!(wire.power, State::Given(_))),
    ("an empty power", |wire| matches!(wire.power, State::Empty)),
    ("an empty partner", |wire| wire.serial.as_ref().is_some_and(|serial| serial.partners.contains(&None))),
];

/// The shapes in the layers of a set, each with its volume.
fn shapes<'a, 's>(set: &'a Set<'s>) -> impl Iterator<Item = (usize, &'a Shape<'s>)> {
    let layers = set.volumes.iter().enumerate().flat_map(|(index, volume)| volume.layers.iter().map(move |layer| (index, layer)));
    layers.flat_map(|(index, layer)| layer.figures.iter().map(move |figure| (index, &figure.shape)))
}

fn wires<'a, 's>(set: &'a Set<'s>) -> impl Iterator<Item = (usize, &'a Wire<'s>)> {
    shapes(set).filter_map(|(volume, shape)| match shape {
        Shape::Wire(wire) => Some((volume, wire)),
        _ => None,
    })
}

/// The own numbers of a set, each with its volume.
fn own_numbers(set: &Set<'_>) -> Vec<(usize, i64)> {
    let own = shapes(set).filter_map(|(volume, shape)| match shape {
        Shape::Placed(Placed { serial: Some(serial), .. }) => Some((volume, serial[0])),
        Shape::Wire(wire) => wire.serial.as_ref().map(|serial| (volume, serial.own)),
        _ => None,
    });
    own.collect()
}

/// Where the partners of a set's wires are.
fn partners(set: &Set<'_>) -> Vec<&'static str> {
    let own = own_numbers(set);
    let mut found = Vec::new();
    for (volume, wire) in wires(set) {
        for partner in wire.serial.iter().flat_map(|serial| serial.partners).flatten() {
            found.push(match own.iter().find(|(_, number)| *number == partner) {
                None => "a partner that isn't there, untested",
                Some((owner, _)) if *owner < volume => "a partner in a volume before",
                Some((owner, _)) if *owner > volume => "a partner in a volume after",
                Some(_) => "a partner in the same volume",
            });
        }
    }
    found
}

/// How deep blocks nest in the wires of a set, the wire itself not counted.
fn depth_in_wires(draft: &Draft) -> usize {
    let lines = draft.volumes.iter().flat_map(|volume| &volume.lines);
    lines.scan(None, depth_after).flatten().max().unwrap_or(0)
}

/// The depth in a wire after a line; nothing outside of wires.
fn depth_after(depth: &mut Option<usize>, line: &Vec<u8>) -> Option<Option<usize>> {
    let rest = lines::rest_of(Text { place: 0, bytes: line }).map_or(&b""[..], |rest| rest.bytes);
    let opens = rest.ends_with(b":{") && !rest.starts_with(b"character=");
    *depth = match *depth {
        None if rest == b"E_wire:{" => Some(0),
        Some(inside) if opens => Some(inside + 1),
        Some(inside) if rest == b"}" => inside.checked_sub(1),
        same => same,
    };
    Some(*depth)
}

/// Which sorts a set has.
fn sorts(draft: &Draft, set: &Set<'_>) -> BTreeSet<&'static str> {
    let mut sorts: BTreeSet<&str> = SORTS.into_iter().filter(|(_, is)| wires(set).any(|(_, wire)| is(wire))).map(|(sort, _)| sort).collect();
    sorts.extend(partners(set));
    if wires(set).map(|(volume, _)| volume).collect::<BTreeSet<_>>().len() > 1 {
        sorts.insert("wires in several volumes");
    }
    if depth_in_wires(draft) == 4 {
        let skipped = draft.class.wire == 0;
        sorts.insert(if skipped { "blocks to depth 4 in a wire that is skipped whole" } else { "blocks to depth 4 in a wire that is read" });
    }
    sorts
}

#[test]
fn sound_sets_have_wires_of_every_sort() {
    let mut times: BTreeMap<&str, usize> = BTreeMap::new();
    let mut values = BTreeSet::new();
    for seed in 0..4000 {
        let draft = sound_set(&mut Random::new(seed), seed % 2 == 0, ServedWires::ALL);
        let spool = draft.spool();
        let terms = Terms { class: Class::of(draft.class).unwrap(), served: ServedWires::ALL, room: usize::MAX };
        let set = read_set(&spool, terms).unwrap();
        values.insert(set.header.ranges.e_wire);
        sorts(&draft, &set).into_iter().for_each(|sort| *times.entry(sort).or_default() += 1);
    }
    println!("{times:#?}");
    assert_eq!(values.len(), 81, "every value of E_wire");
    assert_eq!(times.len(), SORTS.len() + 7, "{times:#?}");
}
