//! The vectors: spools with the answers, records and fixed forms that are expected of them.
//!
//! The folder is taken from VECTORS, and is ../vectors otherwise. Its folders wish01 and wish03 have those of sets with wires, and of circles
//! with six values.

use std::fs;
use std::path::{Path, PathBuf};

use reference::generate::WIRE_PARTS;
use reference::ranges::{asked, Asked, ServedWires};
use reference::records::NUMBERS;
use reference::Answer;

fn folder() -> PathBuf {
    match std::env::var_os("VECTORS") {
        Some(folder) => PathBuf::from(folder),
        None => PathBuf::from(env!("CARGO_MANIFEST_DIR")).join("../vectors"),
    }
}

/// The numbers of a file of records, in a table of so many numbers.
fn table_in(records: &str, length: usize) -> Vec<i64> {
    let mut table: Vec<i64> = records.split_whitespace().map(|number| number.parse().unwrap()).collect();
    table.resize(length, 0);
    table
}

/// What is asked about a spool, and what is expected of it.
struct Row<'i> {
    text: &'i str,
    folder: &'i Path,
    name: &'i str,
    /// Of a table in numbers, of an output in bytes.
    length: usize,
    /// Answer, volume, line, count.
    expected: String,
    served: ServedWires,
}

#[derive(Default)]
struct Tally {
    questions: usize,
    tables: usize,
    disagreements: Vec<String>,
}

impl Row<'_> {
    fn spool(&self) -> Vec<u8> {
        fs::read(self.folder.join(format!("{}.spool", self.name))).expect(self.text)
    }

    /// Whether answer, volume, line and count are as expected, and the lent memory is all zeros where they are a refusal.
    fn answered<T: Copy + Default + PartialEq>(&self, got: &Answer<T>, tally: &mut Tally) -> bool {
        tally.questions += 1;
        let said = format!("{} {} {} {}", got.answer, got.volume, got.line, got.count);
        if said != self.expected {
            tally.disagreements.push(format!("{}: we say {said}", self.text));
            return false;
        }
        assert!(got.answer == 0 || got.lent.iter().all(|number| *number == T::default()), "{}", self.text);
        true
    }

    /// The reader's answer, and its records where they are listed in a file with this ending.
    fn read(&self, class: Asked, records: &str, tally: &mut Tally) {
        let spool = self.spool();
        let got = reference::read(&spool, class, self.served, self.length);
        if !self.answered(&got, tally) {
            return;
        }
        if let (0, Ok(records)) = (got.answer, fs::read_to_string(self.folder.join(format!("{}.{records}", self.name)))) {
            tally.tables += 1;
            if got.lent != table_in(&records, self.length) {
                tally.disagreements.push(format!("{}: other records at {class:?}", self.text));
            }
        }
        if self.length == reference::CHECK_RECORDS * NUMBERS {
            let checked = got.answer as u64 + 100 * got.volume as u64 + 10_000 * got.line as u64;
            assert_eq!(reference::check(&spool, class, self.served), checked, "{}", self.text);
        }
    }

    fn rewrite(&self, tally: &mut Tally) {
        let got = reference::rewrite(&self.spool(), self.served, self.length);
        if !self.answered(&got, tally) || got.answer != 0 {
            return;
        }
        tally.tables += 1;
        let mut fixed = fs::read(self.folder.join(format!("{}.fixed", self.name))).expect(self.text);
        fixed.resize(self.length, 0);
        if got.lent != fixed {
            tally.disagreements.push(format!("{}: another fixed form", self.text));
        }
    }
}

impl Tally {
    fn must_agree(self) {
        println!("{} questions, {} tables and fixed forms compared", self.questions, self.tables);
        assert!(self.questions > 0 && self.tables > 0);
        assert!(self.disagreements.is_empty(), "{} disagree:\n{}", self.disagreements.len(), self.disagreements.join("\n"));
    }
}

fn index_of(folder: &Path) -> String {
    fs::read_to_string(folder.join("index.tsv")).unwrap_or_else(|error| panic!("{}: {error}", folder.join("index.tsv").display()))
}

/// Sets without wires, as document 01 alone answers them: every wire part reads the same, where the one listed is a wire part, whether wires are
/// served or not.
#[test]
fn every_vector_agrees_at_every_wire_part() {
    let folder = folder();
    let mut tally = Tally::default();
    for text in index_of(&folder).lines().skip(1) {
        let cells: Vec<&str> = text.split('\t').collect();
        let [name, what, class, wire, length, answer, volume, line, count] = cells[..] else { panic!("{text}") };
        let unit = if what == "read" { NUMBERS } else { 1 };
        let length = length.parse::<usize>().unwrap() * unit;
        for served in [ServedWires::NONE, ServedWires::ALL] {
            let row = Row { text, folder: &folder, name, length, expected: format!("{answer} {volume} {line} {count}"), served };
            if what != "read" {
                row.rewrite(&mut tally);
                continue;
            }
            let listed: u8 = wire.parse().unwrap();
            let parts = if WIRE_PARTS.contains(&listed) { WIRE_PARTS.to_vec() } else { vec![listed] };
            for wire in parts {
                row.read(asked(class.parse().unwrap(), wire), &format!("class{class}"), &mut tally);
            }
        }
    }
    tally.must_agree();
}

/// Sets with wires.
#[test]
fn every_vector_with_wires_agrees() {
    wish_agrees("wish01");
}

/// Circles with six values, in symbols and elsewhere.
#[test]
fn every_vector_of_circles_agrees() {
    wish_agrees("wish03");
}

fn wish_agrees(wish: &str) {
    let folder = folder().join(wish);
    let mut tally = Tally::default();
    for text in index_of(&folder).lines().skip(1) {
        let cells: Vec<&str> = text.split('\t').collect();
        let [name, what, class, wire, length, "-", answer, volume, line, count] = cells[..] else { panic!("{text}") };
        let expected = format!("{answer} {volume} {line} {count}");
        let row = Row { text, folder: &folder, name, length: length.parse().unwrap(), expected, served: ServedWires::ALL };
        if what == "read" {
            row.read(asked(class.parse().unwrap(), wire.parse().unwrap()), &format!("class{class}-{wire}"), &mut tally);
        } else {
            row.rewrite(&mut tally);
        }
    }
    tally.must_agree();
}
