//! Circles with six values: a ruling for each point of document 02's third wish, the record and the line that such a circle is written back as,
//! and that the generator makes them.

mod sheet;

use reference::generate::sound_set;
use reference::random::Random;
use reference::ranges::{asked, Asked, Class, ServedWires, HIGHEST_ASKED};
use reference::reader::{read_set, Terms};
use reference::records::NUMBERS;
use reference::set::{OneLine, Part, Shape, Value};
use reference::{read, rewrite};
use sheet::{one_volume, HEAD, TAIL};

const PLACES: [&str; 3] = ["IN_SYMBOL", "IN_LAYER", "IN_WIRE"];
/// As chapter 6 of document 000 prints it.
const PRINTED: &str = "circle=1307,0,0,2,0,360";
const TURNED: &str = "circle=1307,0,0,2,0,360,0";

/// A set with a symbol, a layer and a wire, of whose figures each is a line of its own.
fn set() -> String {
    let head = HEAD.replace("SYM\n", "001\n").replace("WIRE", "001").replace("KEYS", "2");
    [&head, "IN_LAYER\nE_wire:{\nIN_WIRE\n}\n", TAIL].concat()
}

/// The set with a figure at one of its places, and a sound circle at the others.
fn text(place: &str, figure: &str) -> String {
    PLACES.iter().fold(set(), |text, other| text.replace(other, if *other == place { figure } else { TURNED }))
}

fn spool(place: &str, figure: &str) -> Vec<u8> {
    one_volume(&text(place, figure))
}

/// The answer, which must be at the figure's line.
fn answer_at(place: &str, figure: &str, class: Asked) -> u8 {
    let got = read(&spool(place, figure), class, ServedWires::ALL, 256 * NUMBERS);
    let line = set().lines().position(|line| line == place).unwrap() + 1;
    assert!(got.answer == 0 || (got.volume, got.line) == (1, line), "{figure}: {} at line {}, not {line}", got.answer, got.line);
    got.answer
}

fn answer(place: &str, figure: &str) -> u8 {
    answer_at(place, figure, HIGHEST_ASKED)
}

/// What a figure in the symbol is written back as.
fn written(figure: &str) -> String {
    let spool = spool("IN_SYMBOL", figure);
    let got = rewrite(&spool, ServedWires::ALL, spool.len());
    assert_eq!(got.answer, 0, "{figure}");
    let fixed = String::from_utf8_lossy(&got.lent[..got.count]).into_owned();
    let lines: Vec<&str> = fixed.split("\r\n").collect();
    let element = lines.iter().position(|line| *line == "element:{").unwrap();
    lines[element + 1].to_string()
}

/// The symbol's record of a circle: its numbers from the type on.
fn record(figure: &str) -> Vec<i64> {
    let got = read(&spool("IN_SYMBOL", figure), HIGHEST_ASKED, ServedWires::ALL, 256 * NUMBERS);
    let records: Vec<&[i64]> = got.lent.chunks(NUMBERS).filter(|record| record[0] == 31).collect();
    assert_eq!(records.len(), 1, "{figure}");
    records[0][4..].to_vec()
}

/// "Inside a symbol's `element`, a circle from 0 to 360 may have six values"; "six values for an arc are 10".
#[test]
fn six_values_in_a_symbol() {
    const TABLE: &[(&str, u8)] = &[
        (PRINTED, 0),
        (TURNED, 0),
        ("circle=1307,0,0,2,0,360,1", 0),
        // by value
        ("circle=1307,-1,-0.5,0.0001,0.0,360.00", 0),
        ("circle=1307,0,0,2,-0,0000360", 0),
        ("circle=0000,-9999999.9999,9999999.9999,9999999.9999,-0.0000,360.0000", 0),
        // arcs
        ("circle=1307,0,0,2,0,90", 10),
        ("circle=1307,0,0,2,360,0", 10),
        ("circle=1307,0,0,2,0.0001,360", 10),
        ("circle=1307,0,0,2,0,359.9999", 10),
        ("circle=1307,0,0,2,0,360.0001", 10),
        ("circle=1307,0,0,2,-0.0001,360", 10),
        ("circle=1307,0,0,2,0,0", 10),
        ("circle=1307,0,0,2,360,360", 10),
        ("circle=1307,0,0,2,0,720", 10),
        // radius: alone 11, with the angles of an arc 10, the smaller
        ("circle=1307,0,0,0,0,360", 11),
        ("circle=1307,0,0,-0,0,360", 11),
        ("circle=1307,0,0,-2,0,360", 11),
        ("circle=1307,0,0,0,0,90", 10),
        ("circle=1307,0,0,-2,360,0", 10),
        // what isn't written as said
        ("circle=137,0,0,2,0,360", 10),
        ("circle=13070,0,0,2,0,360", 10),
        ("circle=1307,,0,2,0,360", 10),
        ("circle=1307,0,5.,2,0,360", 10),
        ("circle=1307,0,0,,0,360", 10),
        ("circle=1307,0,0,2,,360", 10),
        ("circle=1307,0,0,2,0,", 10),
        ("circle=1307,0,0,2,0,36O", 10),
        ("circle=1307,0,0,2,0,00000360", 10),
        ("circle=1307,0,5.,0,0,360", 10),
        // other numbers of values
        ("circle=1307,0,0,2,0", 10),
        ("circle=1307", 10),
        ("circle=1307,0,0,2,0,360,0,0", 10),
        ("circle=0,0,2,0,360,0", 10),
        // the seventh is a digit
        ("circle=1307,0,0,2,0,360,-1", 10),
        ("circle=1307,0,0,2,0,360,", 10),
        ("circle=1307,0,0,2,0,360,00", 10),
        ("circle=1307,0,0,2,0,360,2", 11),
        ("circle=1307,0,0,2,360,0,0", 0),
        ("circle=1307,0,0,2,0,90,0", 0),
        // other keys, other forms
        ("cirllce=1307,0,0,2,0,360", 6),
        ("Circle=1307,0,0,2,0,360", 6),
        ("circle=1307,0,0,2,0,360:{", 5),
        ("ellipse=1307,0,0,2,1,0,360,0", 10),
        ("ellipse=1307,0,0,2,1,0,360,0,-1", 10),
    ];
    for &(figure, expected) in TABLE {
        assert_eq!(answer("IN_SYMBOL", figure), expected, "{figure}");
        // no class knows more or less of it
        assert_eq!(answer_at("IN_SYMBOL", figure, asked(3, 0)), expected, "{figure}");
        assert_eq!(answer_at("IN_SYMBOL", figure, asked(1, 1)), expected, "{figure}");
    }
}

/// Layers and wires keep seven.
#[test]
fn six_values_elsewhere() {
    for place in ["IN_LAYER", "IN_WIRE"] {
        for (figure, expected) in [(PRINTED, 10), ("circle=1307,0,0,0,0,360", 10), ("circle=1307,0,0,2,0,90", 10), (TURNED, 0)] {
            assert_eq!(answer(place, figure), expected, "{place}: {figure}");
        }
        assert_eq!(answer(place, "circle=1307,0,0,2,0,360,-1"), 10, "{place}");
    }
    // a wire that is skipped whole isn't read
    assert_eq!(answer_at("IN_WIRE", PRINTED, asked(15, 0)), 0);
    assert_eq!(answer_at("IN_LAYER", PRINTED, asked(15, 0)), 10);
    // `hide` and `successive` have points alone
    let hidden = text("IN_SYMBOL", TURNED).replace("hide:{", &format!("hide:{{\n{PRINTED}"));
    let chained = text("IN_SYMBOL", &format!("successive:{{\npoint=1307,0,0\n{PRINTED}"));
    for text in [hidden, chained] {
        assert_eq!(read(&one_volume(&text), HIGHEST_ASKED, ServedWires::ALL, 256 * NUMBERS).answer, 6);
    }
}

/// As a volume's last line: 9, against 10 and 11 too.
#[test]
fn a_volume_that_ends_there() {
    for (figure, expected) in [(PRINTED, 9), ("circle=1307,0,0,0,0,360", 9), ("circle=1307,0,0,2,0,90", 9), ("cirllce=1307,0,0,2,0,360", 6)] {
        let text = text("IN_SYMBOL", figure);
        let (before, _) = text.split_at(text.find(figure).unwrap() + figure.len());
        assert_eq!(read(&one_volume(before), HIGHEST_ASKED, ServedWires::ALL, 256 * NUMBERS).answer, expected, "{figure}");
    }
}

/// "Its turn is recorded as -1": the record tells six values from seven, and the seven from each other.
#[test]
fn records_of_circles() {
    let numbers = |turn| [&[1307, -10_000, 5000, 20_000, 0, 3_600_000, turn][..], &[0; 21]].concat();
    assert_eq!(record("circle=1307,-1,0.5,2,0,360"), numbers(-1));
    assert_eq!(record("circle=1307,-1.0,00.50,002,-0.0,0360.00"), numbers(-1));
    assert_eq!(record("circle=1307,-1,0.5,2,0,360,0"), numbers(0));
    assert_eq!(record("circle=1307,-1,0.5,2,0,360,1"), numbers(1));
}

/// "and it is written back with six"; seven stay seven
#[test]
fn written_back() {
    assert_eq!(written(PRINTED), PRINTED);
    assert_eq!(written("circle=0000,-0.0,01.50,002.0,-0,0360.0000"), "circle=0000,0,1.5,2,0,360");
    assert_eq!(written("circle=0000,-0.0,01.50,002.0,-0,0360.0000,0"), "circle=0000,0,1.5,2,0,360,0");
    assert_eq!(written("circle=0000,-0.0,01.50,002.0,-0,0360.0000,1"), "circle=0000,0,1.5,2,0,360,1");
}

/// The generator makes circles of symbols with and without a turn, in several spellings, and without one nowhere else.
#[test]
fn sound_sets_have_circles_of_both_sorts() {
    let (mut six, mut seven, mut whole, mut spellings) = (0, 0, 0, std::collections::BTreeSet::new());
    for seed in 0..3000 {
        let draft = sound_set(&mut Random::new(seed), seed % 2 == 0, ServedWires::ALL);
        let spool = draft.spool();
        let terms = Terms { class: Class::of(draft.class).unwrap(), served: ServedWires::ALL, room: usize::MAX };
        let set = read_set(&spool, terms).unwrap();
        for part in set.symbols.iter().flat_map(|symbol| &symbol.parts) {
            let Part::Element(figures) = part else { continue };
            for figure in figures {
                let Shape::OneLine(OneLine::Circle, typed) = &figure.shape else { continue };
                let from_0_to_360 = typed.values[3].number() == 0 && typed.values[4].number() == 3_600_000;
                if typed.values[5] == Value::NoTurn {
                    assert!(from_0_to_360);
                    six += 1;
                    let line = &draft.volumes[0].lines[figure.line - 1];
                    spellings.insert(line.split(|&b| b == b',').skip(4).map(<[u8]>::to_vec).collect::<Vec<_>>());
                } else {
                    seven += 1;
                    whole += usize::from(from_0_to_360);
                }
            }
        }
        for figure in set.volumes.iter().flat_map(|volume| &volume.layers).flat_map(|layer| &layer.figures) {
            match &figure.shape {
                Shape::OneLine(_, typed) => assert!(!typed.values.contains(&Value::NoTurn)),
                Shape::Wire(wire) => assert!(wire.elements.iter().all(|element| !element.typed.values.contains(&Value::NoTurn))),
                _ => {}
            }
        }
    }
    println!("{six} circles of six values in {} spellings, {seven} of seven, {whole} of these from 0 to 360", spellings.len());
    assert!(six > 200 && seven > 200 && whole > 50 && spellings.len() > 20);
}
