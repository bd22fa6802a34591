//! Wires: a ruling for each point of document 02's first wish, and the records and fixed form of a wire that has everything.

mod sheet;

use reference::ranges::{asked, Asked, ServedWires, HIGHEST_ASKED};
use reference::records::NUMBERS;
use reference::{read, rewrite};
use sheet::{one_volume, HEAD, TAIL};

/// What the file says of its ranges, and at which class it is read.
#[derive(Clone, Copy)]
struct At {
    e_sym: &'static str,
    e_wire: &'static str,
    class: Asked,
}

/// E_sym 000, at the highest class.
fn at(e_wire: &'static str) -> At {
    At { e_sym: "000", e_wire, class: HIGHEST_ASKED }
}

impl At {
    fn part(self, wire: u8) -> At {
        At { class: asked(self.class.class, wire), ..self }
    }

    fn class(self, class: u8) -> At {
        At { class: asked(class, self.class.wire), ..self }
    }

    fn e_sym(self, e_sym: &'static str) -> At {
        At { e_sym, ..self }
    }

    /// A set whose layer has these lines, and which says how many keys stand directly in it.
    fn text(self, layer: &str) -> String {
        let keys = keys_in(layer).to_string();
        let head = HEAD
            .replace("SYM\n", &format!("{}\n", self.e_sym))
            .replace("WIRE", self.e_wire)
            .replace("KEYS", &keys)
            .replace("IN_SYMBOL", "point=0000,0,0");
        [&head, layer, TAIL].concat()
    }

    fn spool(self, layer: &str) -> Vec<u8> {
        one_volume(&self.text(layer))
    }

    /// The answer where something of the whole set's text is changed.
    fn answer_with(self, layer: &str, old: &str, new: &str) -> u8 {
        let text = self.text(layer);
        assert!(text.contains(old), "{old}");
        read(&one_volume(&text.replacen(old, new, 1)), self.class, ServedWires::ALL, 256 * NUMBERS).answer
    }

    /// Answer, and which line of the layer, from 1.
    fn ruling(self, layer: &str) -> (u8, usize) {
        let got = read(&self.spool(layer), self.class, ServedWires::ALL, 256 * NUMBERS);
        (got.answer, got.line.saturating_sub(HEAD.lines().count()))
    }

    fn answer(self, layer: &str) -> u8 {
        self.ruling(layer).0
    }

    /// The records from the wire's on.
    fn records(self, layer: &str) -> Vec<Vec<i64>> {
        let got = read(&self.spool(layer), self.class, ServedWires::ALL, 256 * NUMBERS);
        assert_eq!(got.answer, 0, "{layer}");
        got.lent[..got.count * NUMBERS].chunks(NUMBERS).skip_while(|record| record[0] != 18).map(<[i64]>::to_vec).collect()
    }
}

/// How many keys stand directly in a layer with these lines.
fn keys_in(layer: &str) -> usize {
    let (mut keys, mut depth) = (0, 0);
    for line in layer.lines() {
        if line == "}" {
            depth -= 1;
            continue;
        }
        keys += usize::from(depth == 0);
        depth += i32::from(line.ends_with(":{") && !line.starts_with("character="));
    }
    keys
}

/// A wire with these lines in its block.
fn wire(lines: &[&str]) -> String {
    let inside: String = lines.iter().map(|line| format!("{line}\n")).collect();
    format!("E_wire:{{\n{inside}}}\n")
}

const LINE: &str = "line=5307,10,150,150,150";

#[test]
fn range_values() {
    for e_wire in 0..1000 {
        let served = e_wire == 0 || (e_wire / 100 <= 4 && e_wire / 10 % 10 <= 1 && (1..=8).contains(&(e_wire % 10)));
        assert_eq!(ServedWires::ALL.serve(e_wire), served, "{e_wire:03}");
        assert_eq!(ServedWires::NONE.serve(e_wire), e_wire == 0, "{e_wire:03}");
    }
    assert!(ServedWires { first: 0, middle: 0, last: 1 }.serve(1) && !ServedWires { first: 0, middle: 0, last: 1 }.serve(101));
    for (e_wire, number) in [("001", 0), ("418", 0), ("009", 12), ("010", 12), ("020", 12), ("100", 12), ("501", 12), ("419", 12), ("01", 10)] {
        assert_eq!(at(e_wire).answer(""), number, "{e_wire}");
    }
    let got = read(&at("001").spool(&wire(&[LINE])), HIGHEST_ASKED, ServedWires::NONE, 256 * NUMBERS);
    assert_eq!((got.answer, got.line), (12, 8), "not served yet");
}

#[test]
fn place_and_form() {
    assert_eq!(at("000").ruling(&wire(&[])), (6, 1));
    assert_eq!(at("000").ruling("E_wire=x\n"), (6, 1));
    assert_eq!(at("000").ruling("E_wire=:{\n"), (5, 1));
    for part in [0, 1, 18] {
        let at = at("001").part(part);
        assert_eq!(at.answer(&wire(&[LINE])), 0);
        assert_eq!(at.answer(&wire(&[])), 0, "000's table has none or more");
        assert_eq!(at.ruling("E_wire=x\n"), (5, 1));
        assert_eq!(at.ruling("E_wire=\n"), (5, 1));
        assert_eq!(at.ruling("E_wire=1:{\n}\n"), (5, 1));
    }
    // a wire counts as one key, at every part
    for part in [0, 1, 18] {
        let at = at("001").part(part);
        assert_eq!(at.answer_with(&wire(&[LINE]), "all_ele=1", "all_ele=0"), 17);
        assert_eq!(at.answer_with(&wire(&[LINE]), "this_ele=1", "this_ele=2"), 17);
    }
    // elsewhere than in a layer
    assert_eq!(at("001").ruling(&wire(&[LINE, "E_wire:{", "}"])), (6, 3));
    assert_eq!(at("001").answer_with("", "point=0000,0,0", "E_wire:{\n}"), 6);
    assert_eq!(at("001").answer_with("", "LAYER=E_151:{", "E_wire:{\n}"), 6);
    assert_eq!(at("001").answer_with("", "E_symbol:{", "E_wire:{\n}"), 6);
}

#[test]
fn elements() {
    let arc = "circle=5307,-10,145,5,90,180,0";
    let rulings: &[(&[&str], (u8, usize))] = &[
        (&[arc, LINE, arc, arc], (0, 0)),
        (&["circle=5307,10,145,5,0,360,0"], (0, 0)),
        (&["circle=5307,10,145,5,0,360"], (10, 2)),
        (&["line=5307,1,1,1.0,1"], (11, 2)),
        (&["line=5307,-1,1,1,1"], (11, 2)),
        (&["line=0000,1,1,2,1"], (0, 0)),
        (&["line="], (5, 2)),
        (&["line:{"], (5, 2)),
        (&["point=0000,1,1"], (6, 2)),
        (&["ellipse=1307,5,5,1000,900,0,90,45,1"], (6, 2)),
        (&["direc=1,2,3,4", LINE], (6, 3)),
        (&[LINE, "direc=1,2,3,4", arc], (6, 4)),
        (&["direc=1,2,3,4", "line="], (6, 3)),
        (&["direc=1,2,3,4", "line=1"], (6, 3)),
        (&["direc=1,2,3,4", "line:{"], (6, 3)),
        (&["direc=1,2,3,4", "line=:{"], (5, 3)),
        (&["direc=1,2,3,4", "line"], (5, 3)),
    ];
    for (lines, ruling) in rulings {
        assert_eq!(at("002").ruling(&wire(lines)), *ruling, "{lines:?}");
    }
    // a skipped key counts as something else too, at the part that skips it
    let skipped = wire(&["foo=1", LINE]);
    assert_eq!(at("002").part(1).ruling(&skipped), (6, 3));
    assert_eq!(at("002").part(0).ruling(&skipped), (0, 0));
    assert_eq!(at("002").part(2).ruling(&skipped), (6, 2));
}

#[test]
fn joins() {
    let joined = wire(&["line=0000,1,1,100,1", "line=1307,100.00,1.0,2,2"]);
    let broken = wire(&["line=0000,1,1,100,1", "line=1307,1,1,2,2"]);
    for e_wire in ["401", "411"] {
        assert_eq!(at(e_wire).part(8).answer(&joined), 0);
        assert_eq!(at(e_wire).ruling(&broken), (11, 3));
        assert_eq!(at(e_wire).part(1).ruling(&broken), (11, 3));
        assert_eq!(at(e_wire).part(0).ruling(&broken), (0, 0));
    }
    for e_wire in ["001", "101", "201", "301", "211", "311"] {
        assert_eq!(at(e_wire).part(8).answer(&broken), 0);
    }
    let arcs = wire(&["line=0000,1,1,9,1", "circle=0000,0,0,5,0,90,1", "circle=0000,0,0,5,0,90,1", "line=0000,7,7,8,8", "line=0000,8,8,9,9"]);
    let joins_at = |e_wire| at(e_wire).records(&arcs)[2..].iter().map(|record| record[11]).collect::<Vec<_>>();
    assert_eq!(joins_at("401"), [0, 2, 2, 2, 1]);
    assert_eq!(joins_at("201"), [0, 0, 0, 0, 0]);
    assert_eq!(at("401").answer(&(wire(&["line=0000,1,1,9,1"]) + &wire(&["line=0000,1,1,2,2"]))), 0, "each wire for itself");
}

/// A wire at E_wire 018 with one line of each attribute, one of them changed.
fn full(changed: &str, into: &str) -> String {
    let lines = [
        LINE, "direc=1,150,150,0", "piend=100,150,180", "num=0,2,70,150,0", "text:{", "type=1307,65,170,2.5,2.5,2.5,0,0", "character=2.0", "}",
        "length=180", "circuit=100014", "power=1,3,200", "serial=2,,",
    ];
    let all = wire(&lines);
    assert!(changed.is_empty() || all.contains(changed), "{changed}");
    all.replacen(changed, into, 1)
}

#[test]
fn attributes() {
    const TABLE: &[(&str, &str, u8)] = &[
        ("", "", 0),
        ("direc=1,150,150,0", "direc=4,0,-0,360", 0),
        ("direc=1,150,150,0", "direc=5,150,150,0", 11),
        ("direc=1,150,150,0", "direc=01,150,150,0", 10),
        ("direc=1,150,150,0", "direc=1,150,150.0", 10),
        ("direc=1,150,150,0", "direc=1,-1,150,0", 11),
        ("direc=1,150,150,0", "direc=1,1,150,360.0001", 11),
        ("direc=1,150,150,0", "direc=", 5),
        ("direc=1,150,150,0", "direc:{", 5),
        ("direc=1,150,150,0", "direc=1,150,150,0:{", 5),
        ("direc=1,150,150,0\n", "", 0),
        ("direc=1,150,150,0", "direc=1,150,150,0\ndirec=0,1,1,1", 0),
        ("direc=1,150,150,0", "direc=1,150,150,0\ndirec=0,1,1,1\ndirec=2,1,1,1", 11),
        ("direc=1,150,150,0", "direc=1,150,150,0\ndirec=0,1,1,1\ndirec=2,1,1", 10),
        ("piend=100,150,180", "piend=0,0,360\npiend=1,1,1\npiend=1,1,1", 0),
        ("piend=100,150,180", "piend=0,0,360.0001", 11),
        ("piend=100,150,180", "piend=0,0", 10),
        ("piend=100,150,180", "piend=", 5),
        ("piend=100,150,180\n", "", 0),
        ("num=0,2,70,150,0", "num=1,0,70,150,180", 0),
        ("num=0,2,70,150,0", "num=1,000000002,70,150,180.0\nnum=1,2,1,1,1", 0),
        ("num=0,2,70,150,0", "num=0,2,1,1,1\nnum=1,2,1,1,1", 11),
        ("num=0,2,70,150,0", "num=0,2,1,1,1\nnum=0,3,1,1,1", 11),
        ("num=0,2,70,150,0", "num=0,2,1,1,1\nnum=1,2,1,1", 10),
        ("num=0,2,70,150,0", "num=2,2,70,150,0", 11),
        ("num=0,2,70,150,0", "num=00,2,70,150,0", 10),
        ("num=0,2,70,150,0", "num=0,2.0,70,150,0", 10),
        ("num=0,2,70,150,0", "num=0,2,70,150,180.0001", 11),
        ("num=0,2,70,150,0", "num=", 5),
        ("text:{", "text=1", 5),
        ("character=2.0", "character=:{", 0),
        ("character=2.0\n", "", 8),
        ("character=2.0", "character=2.0\nfoo=1", 6),
        ("character=2.0", "character=2.0\ncharacter=2", 7),
        ("length=180", "text:{\ntype=1307,6,1,2,2,2,0,0\ncharacter=b\n}\nlength=180", 0),
        ("length=180", "length=", 0),
        ("length=180", "length=0", 0),
        ("length=180", "length=-0.0001", 11),
        ("length=180", "length=1,2", 10),
        ("length=180", "length=180\nlength=", 7),
        ("length=180\n", "", 8),
        ("circuit=100014", "circuit=", 0),
        ("circuit=100014", "circuit=A-1.bcdefg", 0),
        ("circuit=100014", "circuit=A-1.bcdefgh", 11),
        ("circuit=100014", "circuit=a_b", 11),
        ("circuit=100014", "circuit=A:{", 5),
        ("circuit=100014\n", "", 8),
        ("power=1,3,200", "power=", 0),
        ("power=1,3,200", "power=3,4,173", 0),
        ("power=1,3,200", "power=3,3,000066000", 0),
        ("power=1,3,200", "power=1,2,105", 11),
        ("power=1,3,200", "power=0,0,0", 11),
        ("power=1,3,200", "power=1,5,100", 11),
        ("power=1,3,200", "power=1,2,", 10),
        ("power=1,3,200", "power=1,2,100.0", 10),
        ("power=1,3,200", "power=01,2,100", 10),
        ("power=1,3,200", "power=1,2", 10),
        ("power=1,3,200", "power=1,3,200\npower=", 7),
        ("power=1,3,200\n", "", 8),
        ("serial=2,,", "serial=2,1", 10),
        ("serial=2,,", "serial=,1,", 10),
        ("serial=2,,", "serial=2,1,3,4", 10),
        ("serial=2,,", "serial=2,1,3", 0),
        ("serial=2,,", "serial=2,,12345678901", 10),
        ("serial=2,,", "serial=", 5),
        ("serial=2,,", "serial=2,,\nserial=3,,", 7),
        ("serial=2,,", "seriarl=2,,", 6),
        ("serial=2,,\n", "", 8),
        ("serial=2,,", "serial=2,,\nfoo=1", 6),
        ("serial=2,,", "serial=2,,\ncharacter=:{", 5),
        ("serial=2,,", "serial=2,,\ncharacter=a", 6),
        ("serial=2,,", "serial=2,,\nEOF", 9),
    ];
    for (old, new, number) in TABLE {
        assert_eq!(at("018").answer(&full(old, new)), *number, "{new:?} in place of {old:?}");
    }
}

/// The 13 rows of 000's table 5, and nothing near them.
#[test]
fn powers() {
    let rows = "1,2,100 1,2,200 1,2,231 1,3,200 3,3,200 3,3,400 3,3,3300 3,3,6600 3,3,22000 3,3,33000 3,3,66000 3,4,173 3,4,400";
    let rows: Vec<&str> = rows.split(' ').collect();
    for phase in 0..10 {
        for wires in 0..10 {
            for volts in [0, 100, 105, 173, 200, 231, 400, 3300, 6600, 22000, 33000, 66000] {
                let power = format!("{phase},{wires},{volts}");
                let number = if rows.contains(&&power[..]) { 0 } else { 11 };
                assert_eq!(at("018").answer(&full("power=1,3,200", &format!("power={power}"))), number, "{power}");
            }
        }
    }
}

#[test]
fn digits_are_compared_one_by_one() {
    // E_wire's last digit below what the part knows: a known key that isn't allowed
    for (e_wire, key) in [
        ("001", "direc=1,1,1,1"),
        ("002", "piend=1,1,1"),
        ("003", "num=0,1,1,1,1"),
        ("004", "text:{"),
        ("005", "length="),
        ("006", "circuit="),
        ("007", "power="),
        ("008", "serial=1,,"),
    ] {
        let required: Vec<&str> =
            ["length=", "circuit=", "power="].into_iter().take(e_wire[2..].parse::<usize>().unwrap().saturating_sub(5)).collect();
        let sound = [&[LINE][..], &required].concat();
        assert_eq!(at(e_wire).answer(&wire(&sound)), 0, "{e_wire}");
        assert_eq!(at(e_wire).answer(&wire(&[&sound[..], &[key]].concat())), 6, "{e_wire} {key}");
    }
    // 005 isn't below 11: part 11 doesn't know `direc`, and E_wire's last digit exceeds its own
    let wire_005 = wire(&[LINE, "direc=garbage", "foo:{", "}"]);
    assert_eq!(at("005").part(11).answer(&wire_005), 0);
    assert_eq!(at("005").part(18).answer(&wire_005), 10);
    // the first digit is never compared
    assert_eq!(at("401").part(1).answer(&wire(&[LINE, "foo=1"])), 6);
    assert_eq!(at("001").part(1).answer(&wire(&[LINE, "foo=1"])), 6);
    // the middle digit alone exceeds
    assert_eq!(at("011").part(8).answer(&wire(&[LINE, "foo=1", "serial=x"])), 0);
    assert_eq!(at("011").part(11).answer(&wire(&[LINE, "serial=1,,", "foo=1"])), 6);
    // a part below: what it doesn't know needn't be there, or be right
    assert_eq!(at("018").part(5).answer(&wire(&[LINE, "length=a", "length=:{:{", "}"])), 0);
    assert_eq!(at("018").part(6).answer(&wire(&[LINE, "circuit=_"])), 8);
}

#[test]
fn depths() {
    let nested = |deep: usize| [vec!["a:{"; deep], vec!["}"; deep]].concat();
    for part in [0, 1] {
        let at = at("002").part(part);
        assert_eq!(at.answer(&wire(&nested(4))), 0);
        assert_eq!(at.ruling(&wire(&nested(5))), (18, 6));
    }
    assert_eq!(at("002").part(0).answer(&wire(&["character=a:{", "character=:{", "line=x", "E_wire:{", "}", "}x=1"])), 0);
    assert_eq!(at("002").part(0).ruling(&wire(&["line=:{"])), (5, 2));
    assert_eq!(at("002").part(0).ruling(&wire(&["EOF"])), (9, 2));
    assert_eq!(at("002").part(0).ruling(&wire(&["\u{1}"])), (4, 2));
    assert_eq!(at("002").part(1).answer(&wire(&["x:{", "character=a:{", "}"])), 0);
}

/// A symbol with this serial, at E_sym 011.
fn symbol(serial: &str) -> String {
    format!("E_symbol:{{\nsymbol=S,1,1,0,1\nserial={serial}\n}}\n")
}

fn numbered(serial: &str) -> String {
    wire(&[LINE, &format!("serial={serial}")])
}

#[test]
fn own_numbers() {
    let at = at("011").e_sym("011");
    assert_eq!(at.answer(&(symbol("1") + &numbered("2,,"))), 0);
    assert_eq!(at.ruling(&(symbol("1") + &numbered("01,,"))), (15, 7));
    assert_eq!(at.ruling(&(numbered("01,,") + &symbol("1"))), (15, 7));
    assert_eq!(at.ruling(&(numbered("01,,") + &numbered("1,,"))), (15, 7));
    let both = symbol("1") + &numbered("01,,");
    assert_eq!(at.part(1).answer(&both), 0, "the wire's isn't read");
    assert_eq!(at.class(1).answer(&both), 0, "the symbol's isn't read");
    assert_eq!(at.part(0).answer(&both), 0);
}

#[test]
fn partners() {
    let at = at("011").e_sym("011");
    for found in [
        // backwards and forwards, its own number, a number spelt otherwise, 0
        symbol("1,2") + &numbered("2,1,"),
        numbered("2,1,3") + &symbol("1,2,3,1") + &symbol("3"),
        numbered("1,1,01") + &symbol("0,0,1"),
        numbered("2,,") + &symbol("3"),
    ] {
        assert_eq!(at.answer(&found), 0, "{found}");
    }
    for missing in [symbol("1,3"), numbered("2,1,"), numbered("2,,1"), numbered("2,0,"), symbol("1") + &numbered("2,1,3")] {
        assert_eq!(at.ruling(&missing), (21, missing.lines().count() + TAIL.lines().count()), "{missing}");
        assert_eq!(at.answer_with(&missing, "all_ele=", "all_ele=1"), 17, "before 21");
        for unread in [at.part(1), at.part(0), at.class(1)] {
            assert_eq!(unread.answer(&missing), 0, "{missing}");
        }
    }
    // where E_sym or E_wire knows no serials
    assert_eq!(At { e_sym: "000", ..at }.answer(&numbered("2,1,3")), 0);
    assert_eq!(At { e_wire: "000", ..at }.answer(&symbol("1,3")), 0);
    assert_eq!(At { e_wire: "001", ..at }.answer(&(symbol("1,3") + &wire(&[LINE]))), 0);
}

/// A wire with everything, several times what may stand so.
fn rich() -> String {
    wire(&[
        "line=5307,1,2,3,4", "circle=1307,-5,6,7,8,9,1", "serial=007,,09", "num=1,02,5.50,6,7", "text:{", "character=ab", "type=0001,1,2,3,4,5,6,1",
        "}", "power=3,4,0173", "direc=4,1,2,3", "text:{", "type=0002,1,2,3,4,5,6,0", "character=c:{", "}", "piend=1,2,3", "num=1,2,8,9,10",
        "circuit=L1", "piend=4,5,6", "direc=0,4,5,6", "length=12.50",
    ])
}

#[test]
fn records_of_a_wire() {
    let (high, spool) = (at("418").records(&rich()), at("418").spool(&rich()));
    let line = HEAD.lines().count() as i64 + 1;
    let place = |text: &[u8]| spool.windows(text.len()).position(|window| window == text).unwrap() as i64;
    let ten = |number: i64| number * 10_000;
    assert_eq!(high.len(), 4);
    let mut drawn = vec![18, 0, 1, line, 0, 2, 2, 4, ten(1), ten(2), ten(3), 0, ten(4), ten(5), ten(6), 2, ten(1), ten(2), ten(3), 2];
    drawn.extend([1, 2, 55_000, ten(6), ten(7), 125_000, 2, 2, 2, 2, 4, 0]);
    assert_eq!(high[0], drawn);
    let mut named = vec![19, 0, 1, line, 0, 2, 1, ten(1), ten(2), ten(3), ten(4), ten(5), ten(6), 1, place(b"ab\r\n"), 2];
    named.extend([place(b"L1\r\n"), 2, 3, 4, 173, 7, 1, 0, 2, 9, 2, 2, 2, 2, 0, 0]);
    assert_eq!(high[1], named);
    let element = |kind, at, values: &[i64]| {
        let mut record = vec![kind, 0, 1, line + at];
        record.extend(values);
        record.resize(NUMBERS, 0);
        record
    };
    assert_eq!(high[2], element(20, 1, &[5307, ten(1), ten(2), ten(3), ten(4)]));
    assert_eq!(high[3], element(21, 2, &[1307, ten(-5), ten(6), ten(7), ten(8), ten(9), 1, 2]));

    let low = at("418").part(3).records(&rich());
    assert_eq!(low[0][..19], high[0][..19]);
    assert_eq!(low[0][19..], [0, 0, 0, 0, 0, 0, 0, 2, 2, 3, 3, 4, 0]);
    assert_eq!(low[1][4..], [vec![0; 22], vec![3, 3, 3, 3, 0, 0]].concat());
    assert_eq!(low[2..], high[2..]);

    let none = at("415").part(0).records(&rich());
    assert_eq!(none.len(), 2);
    assert_eq!(none[0][4..], [vec![0; 22], vec![3, 3, 3, 0, 0, 3]].concat());
    assert_eq!(none[1][4..], [vec![0; 22], vec![3, 0, 0, 3, 0, 3]].concat());

    // 19 unless both fit, at the wire's line; then at the element's
    let needed = read(&spool, HIGHEST_ASKED, ServedWires::ALL, 256 * NUMBERS).count;
    for (short, at) in [(1, 2), (2, 1), (3, 0), (4, 0)] {
        let got = read(&spool, HIGHEST_ASKED, ServedWires::ALL, (needed - short) * NUMBERS);
        assert_eq!((got.answer, got.line as i64), (19, line + at), "{short} records short");
    }
}

#[test]
fn fixed_form_of_a_wire() {
    let spool = at("418").spool(&rich());
    let got = rewrite(&spool, ServedWires::ALL, spool.len());
    assert_eq!(got.answer, 0);
    let written = String::from_utf8(got.lent[..got.count].to_vec()).unwrap();
    let expected = wire(&[
        "line=5307,1,2,3,4", "circle=1307,-5,6,7,8,9,1", "direc=4,1,2,3", "direc=0,4,5,6", "piend=1,2,3", "piend=4,5,6", "num=1,2,5.5,6,7",
        "num=1,2,8,9,10", "text:{", "type=0001,1,2,3,4,5,6,1", "character=ab", "}", "text:{", "type=0002,1,2,3,4,5,6,0", "character=c:{", "}",
        "length=12.5", "circuit=L1", "power=3,4,173", "serial=7,,9",
    ]);
    assert!(written.contains(&expected.replace('\n', "\r\n")), "{written}");
    assert!(written.contains("E_wire=418\r\n"));
}

/// 000's tenth example, its `direc` given four values and its `seriarl` spelt as document 02 writes it; a number 1 exists.
#[test]
fn the_printed_example() {
    let lines = [
        "line=5307,5,10,5,100", "line=0000,5,100,5,105", "line=5307,5,105,5,145", "circle=5307,10,145,5,180,90,1", "line=5307,10,150,150,150",
        "direc=1,150,150,0", "piend=100,150,180", "num=0,2,70,150,0", "text:{", "type=1307,65,170,2.5,2.5,2.5,0,0", "character=2.0", "}",
        "length=180", "circuit=100014", "power=1,3,200", "serial=2,1,",
    ];
    let at = at("418").e_sym("011");
    assert_eq!(at.answer(&(symbol("1") + &wire(&lines))), 0);
    assert_eq!(at.answer(&(symbol("3") + &wire(&lines))), 21);
}
