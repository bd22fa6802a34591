//! Every refusal that documents 01 and 02 speak of in wires, and of circles in symbols, comes up among the questions.

use std::collections::BTreeMap;

use reference::figures;
use reference::frames::{question, Question};
use reference::ranges::{asked, Asked, Class, ServedWires};
use reference::read;
use reference::set::OneLine;
use reference::spool;

/// Enough that the rarest of them comes up several times.
const QUESTIONS: u64 = 40_000;

/// What a refused line is, where it stands, and its number.
fn reason(question: &Question) -> Option<String> {
    let got = read(&question.spool, question.class, ServedWires::ALL, question.table_len as usize);
    if got.answer == 1 {
        let right_class = Class::of(asked(question.class.class, 18)).is_some();
        return right_class.then(|| "1 wire part".to_string());
    }
    if got.line == 0 {
        return None;
    }
    let volumes = spool::volumes(&question.spool)?;
    let lines: Vec<&[u8]> = spool::lines(volumes[got.volume - 1].body)?.iter().map(|line| trimmed(line.bytes)).collect();
    let line = lines[got.line - 1];
    let open = open_blocks(&lines[..got.line - 1]);
    let place = place_of(&open, question.class)?;
    Some(format!("{} {} {place}{}", got.answer, key_of(line), detail(got.answer, line)))
}

/// The line without its leading blanks.
fn trimmed(line: &[u8]) -> &[u8] {
    match line {
        [b' ' | b'\t', after @ ..] | [0x81, 0x40, after @ ..] => trimmed(after),
        _ => line,
    }
}

/// The openers of the blocks that are open after some lines.
fn open_blocks<'l>(lines: &[&'l [u8]]) -> Vec<&'l [u8]> {
    let mut open = Vec::new();
    for line in lines {
        if *line == b"}" {
            open.pop();
        } else if line.ends_with(b":{") && !line.starts_with(b"#") && !line.starts_with(b"character=") {
            open.push(*line);
        }
    }
    open
}

/// Where a line stands, of the places that wires and circles have to do with.
fn place_of(open: &[&[u8]], class: Asked) -> Option<&'static str> {
    let wire = open.iter().position(|opener| *opener == b"E_wire:{");
    match (wire, open) {
        (None, []) => Some("at top level"),
        (None, [.., b"elec=001:{"]) => Some("in elec"),
        (None, [.., layer]) if layer.starts_with(b"LAYER=") => Some("in a layer"),
        (None, [.., b"element:{"]) => Some("in a symbol"),
        (None, _) => None,
        (Some(_), _) if class.wire == 0 => Some("in a skipped wire"),
        (Some(wire), _) if wire + 1 == open.len() => Some("in a wire"),
        (Some(_), [.., b"text:{"]) => Some("in a wire's text"),
        (Some(_), _) => Some("deeper in a wire"),
    }
}

/// The line's key if it is one of those that count; other keys are all alike.
fn key_of(line: &[u8]) -> &'static str {
    const KEYS: [&str; 16] = [
        "line", "circle", "cirllce", "direc", "piend", "num", "text", "length", "circuit", "power", "serial", "E_wire", "type", "character", "EOF",
        "}",
    ];
    let end = (0..line.len()).find(|&at| line[at] == b'=' || line[at..].starts_with(b":{")).unwrap_or(line.len());
    KEYS.into_iter().find(|key| key.as_bytes() == &line[..end]).unwrap_or("other")
}

/// Which of two rules with one number is broken, where a key has two.
fn detail(answer: u8, line: &[u8]) -> &'static str {
    let Some(equals) = line.iter().position(|&b| b == b'=').filter(|_| answer == 10 || answer == 11) else { return "" };
    let content = &line[equals + 1..];
    let values = content.split(|&b| b == b',').count();
    match key_of(line) {
        "circle" if values == 6 => ", six values",
        "circle" if answer == 10 && content.ends_with(b",-1") => ", turn -1",
        _ if answer == 10 => "",
        "line" if figures::one_line(OneLine::Line, content, false).is_ok() => ", join",
        "direc" if figures::direc(content).is_ok() => ", third",
        "num" if figures::num(content).is_ok() => ", unequal",
        _ => "",
    }
}

/// What must come up: numbers, a key, and where.
const WANTED: &[(&[u8], &str, &str)] = &[
    (&[5, 7, 10, 12], "E_wire", "in elec"),
    (&[5, 6, 9, 19], "E_wire", "in a layer"),
    (&[6], "E_wire", "in a symbol"),
    (&[5, 6], "E_wire", "in a wire"),
    (&[5, 6, 9, 10, 11, 19], "line", "in a wire"),
    (&[11], "line", "in a wire, join"),
    (&[5, 6, 9, 10, 11, 19], "circle", "in a wire"),
    (&[10], "circle", "in a wire, six values"),
    (&[5, 9, 10, 11, 19], "circle", "in a symbol"),
    (&[10, 11], "circle", "in a symbol, six values"),
    (&[10], "circle", "in a symbol, turn -1"),
    (&[6], "cirllce", "in a symbol"),
    (&[9, 10, 11, 19], "circle", "in a layer"),
    (&[10], "circle", "in a layer, six values"),
    (&[5, 6, 9, 10, 11], "direc", "in a wire"),
    (&[11], "direc", "in a wire, third"),
    (&[5, 6, 9, 10, 11], "piend", "in a wire"),
    (&[5, 6, 9, 10, 11], "num", "in a wire"),
    (&[11], "num", "in a wire, unequal"),
    (&[5, 6, 9], "text", "in a wire"),
    (&[5, 6, 7, 9, 10, 11], "length", "in a wire"),
    (&[5, 6, 7, 9, 11], "circuit", "in a wire"),
    (&[5, 6, 7, 9, 10, 11], "power", "in a wire"),
    (&[5, 6, 7, 9, 10, 15], "serial", "in a wire"),
    (&[4, 5, 6, 9], "other", "in a wire"),
    (&[5, 6], "character", "in a wire"),
    (&[8, 9], "}", "in a wire"),
    (&[9], "EOF", "in a wire"),
    (&[5, 7, 9, 10, 11], "type", "in a wire's text"),
    (&[5, 7, 11], "character", "in a wire's text"),
    (&[6], "other", "in a wire's text"),
    (&[8], "}", "in a wire's text"),
    (&[5, 18], "other", "deeper in a wire"),
    (&[4, 5, 9, 18], "other", "in a skipped wire"),
    (&[9], "EOF", "in a skipped wire"),
    (&[9], "}", "in a skipped wire"),
    (&[18], "text", "in a skipped wire"),
    (&[9, 14, 17, 21], "EOF", "at top level"),
];

#[test]
fn every_refusal_of_wires_and_circles_is_reached() {
    let mut times: BTreeMap<String, usize> = BTreeMap::new();
    for number in 0..QUESTIONS {
        if let Some(reason) = reason(&question(5, number, ServedWires::ALL)) {
            *times.entry(reason).or_default() += 1;
        }
    }
    let wanted = WANTED.iter().flat_map(|(numbers, key, place)| numbers.iter().map(move |number| format!("{number} {key} {place}")));
    let mut missing = Vec::new();
    for reason in wanted.chain(["1 wire part".to_string()]) {
        match times.get(&reason) {
            Some(times) => println!("{times:6} {reason}"),
            None => missing.push(reason),
        }
    }
    assert!(missing.is_empty(), "never: {missing:?}");
}
