//! Sound sets are accepted; tables just too small; questions as bytes.

use std::collections::BTreeSet;

use reference::frames::{answer_line, Question};
use reference::generate::{Draft, WIRE_PARTS};
use reference::random::Random;
use reference::ranges::{asked, Asked, Class, ServedWires, HIGHEST_ASKED};
use reference::reader::{read_set, Terms};
use reference::records::NUMBERS;
use reference::set::Set;
use reference::Answer;

fn read(spool: &[u8], class: Asked, table_len: usize) -> Answer<i64> {
    reference::read(spool, class, ServedWires::ALL, table_len)
}

fn question(seed: u64, number: u64) -> Question {
    reference::frames::question(seed, number, ServedWires::ALL)
}

fn sound_set(random: &mut Random, rich: bool) -> Draft {
    reference::generate::sound_set(random, rich, ServedWires::ALL)
}

/// A table that every record of a spool fits: `E_wire:{` and `}` with their ends are 13 bytes and take two, `E_151=` with its end is 8 and
/// takes one.
fn room(spool: &[u8]) -> usize {
    (spool.len() / 6 + 2) * NUMBERS
}

fn records(spool: &[u8], class: Asked) -> Option<Vec<i64>> {
    let read = read(spool, class, room(spool));
    let records = read.lent[..read.count * NUMBERS].to_vec();
    (read.answer == 0).then_some(records)
}

#[test]
fn sound_sets_are_accepted() {
    for seed in 0..3000 {
        let mut random = Random::new(seed);
        let draft = sound_set(&mut random, seed % 2 == 0);
        let spool = draft.spool();
        let read = read(&spool, draft.class, room(&spool));
        assert_eq!((read.answer, read.volume, read.line), (0, 0, 0), "seed {seed}, class {:?}", draft.class);
    }
}

/// What is served grows step by step; at each step the generator keeps to it, and so does the reader.
#[test]
fn steps_of_serving() {
    const STEPS: [ServedWires; 5] = [
        ServedWires::NONE,
        ServedWires { first: 0, middle: 0, last: 1 },
        ServedWires { first: 4, middle: 0, last: 1 },
        ServedWires { first: 4, middle: 0, last: 8 },
        ServedWires::ALL,
    ];
    for (step, served) in STEPS.into_iter().enumerate() {
        let mut seen = BTreeSet::new();
        for seed in 0..600 {
            let draft = reference::generate::sound_set(&mut Random::new(seed), seed % 2 == 0, served);
            let spool = draft.spool();
            let e_wire = set_of(&draft, &spool).header.ranges.e_wire;
            seen.insert(e_wire);
            for (read_at, read_served) in STEPS.into_iter().enumerate() {
                let got = reference::read(&spool, draft.class, read_served, room(&spool)).answer;
                let expected = if read_served.serve(e_wire) { 0 } else { 12 };
                assert_eq!(got, expected, "seed {seed}, E_wire {e_wire:03}, made at step {step}, read at step {read_at}");
            }
        }
        let served_count = (0..1000).filter(|&e_wire| served.serve(e_wire)).count();
        assert!(seen.iter().all(|&e_wire| served.serve(e_wire)));
        assert!(seen.len() * 10 >= served_count * 9, "step {step}: {} of {served_count} values", seen.len());
    }
}

/// The set, as the class at which it is sound reads it.
fn set_of<'s>(draft: &Draft, spool: &'s [u8]) -> Set<'s> {
    let class = Class::of(draft.class).unwrap();
    read_set(spool, Terms { class, served: ServedWires::ALL, room: usize::MAX }).unwrap()
}

/// Where E_wire is 000, every wire part reads the same.
#[test]
fn wire_parts_without_wires() {
    const NONE: ServedWires = ServedWires::NONE;
    for number in 0..500 {
        let question = reference::frames::question(8, number, NONE);
        let at = |wire| reference::read(&question.spool, asked(question.class.class, wire), NONE, question.table_len as usize);
        for wire in WIRE_PARTS {
            assert_eq!(at(wire), at(18), "question {number}, wire part {wire}");
        }
    }
}

/// A table with room for every record but the last is refused with 19 at the line where that one is taken.
#[test]
fn tables_just_too_small() {
    for seed in 0..300 {
        let draft = sound_set(&mut Random::new(seed), true);
        let spool = draft.spool();
        let all = records(&spool, draft.class).unwrap();
        let last = &all[all.len() - NUMBERS..];
        let read = read(&spool, draft.class, all.len() - 1);
        assert_eq!((read.answer, read.volume as i64, read.line as i64, read.count), (19, last[2], last[3], 0), "seed {seed}");
        assert!(read.lent.iter().all(|&number| number == 0));
    }
}

#[test]
fn frames_read_back() {
    let mut stream = Vec::new();
    let questions: Vec<Question> = (0..50).map(|number| question(3, number)).collect();
    for question in &questions {
        question.write(&mut stream).unwrap();
    }
    let mut from = &stream[..];
    for question in &questions {
        assert_eq!(Question::read(&mut from).unwrap().as_ref(), Some(question));
    }
    assert_eq!(Question::read(&mut from).unwrap(), None);
}

/// The bytes of a question: class, wire part, three lengths with the high byte first, the spool.
#[test]
fn a_frame() {
    let mut frame = Vec::new();
    Question { class: asked(13, 17), table_len: 0x0102, out_len: 0x0304_0506, spool: b"VP".to_vec() }.write(&mut frame).unwrap();
    assert_eq!(frame, [13, 17, 0, 0, 1, 2, 3, 4, 5, 6, 0, 0, 0, 2, b'V', b'P']);
}

/// The line that another program must print: an empty spool, class 15, a table of two numbers, an output of one byte.
#[test]
fn an_answer_line() {
    let question = Question { class: HIGHEST_ASKED, table_len: 2, out_len: 1, spool: Vec::new() };
    let zeros = |count| reference::frames::fnv1a(std::iter::repeat_n(0, count));
    assert_eq!(answer_line(&question, ServedWires::ALL), format!("2 0 0 0 {:016x} 2 2 0 0 0 {:016x}", zeros(16), zeros(1)));
    assert_eq!(format!("{:016x}", zeros(1)), "af63bd4c8601b7df");
}
