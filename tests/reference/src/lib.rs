//! Document 01, and the wires and the circles with six values of document 02, read a second time, as a plain program, so that the product can be
//! compared with it.
//!
//! A module for each section of the document; nothing is shared with the product's own sources.
//!
//! - `spool`: volumes, line ends
//! - `lines`: comments, blanks, allowed bytes, forms
//! - `values`: decimals, counts, dates, types
//! - `blocks`: which key may stand where, in which form, and what is required
//! - `figures`: the values of figures, placed symbols and wires
//! - `ranges`: range parts, E_sym's and E_wire's digits, the range class, which wires are served
//! - `set`: the set as a tree, as it was read
//! - `reader`: line by line, the first broken rule
//! - `records`: the record table of a set
//! - `fixed`: the fixed form of a set
//!
//! `generate`, `mutate` and `frames` make questions for the comparison.

pub mod blocks;
pub mod figures;
pub mod fixed;
pub mod lines;
pub mod ranges;
pub mod reader;
pub mod records;
pub mod refusal;
pub mod set;
pub mod spool;
pub mod values;

pub mod frames;
pub mod generate;
pub mod mutate;
pub mod random;

use ranges::{Asked, Class, ServedWires};
use reader::{read_set, Terms};
use refusal::Refusal;

/// "A table of 256 records of its own."
pub const CHECK_RECORDS: usize = 256;

/// What a question got: the answer, where, how much was written, and all of the lent memory on return.
#[derive(Clone, Debug, PartialEq, Eq)]
pub struct Answer<T> {
    pub answer: u8,
    pub volume: usize,
    pub line: usize,
    pub count: usize,
    pub lent: Vec<T>,
}

impl<T: Copy + Default> Answer<T> {
    /// "Acceptance is 0, 0, 0. Accepted: zeros after the last record or byte."
    fn accepted(count: usize, mut written: Vec<T>, length: usize) -> Self {
        written.resize(length, T::default());
        Answer { answer: 0, volume: 0, line: 0, count, lent: written }
    }

    /// "Refused: no records, table or output wholly zero."
    fn refused(refusal: Refusal, length: usize) -> Self {
        let Refusal { number, volume, line } = refusal;
        Answer { answer: number, volume, line, count: 0, lent: vec![T::default(); length] }
    }
}

/// The reader: a spool, a range class with its wire part and a lent table of so many numbers.
pub fn read(spool: &[u8], class: Asked, served: ServedWires, table_len: usize) -> Answer<i64> {
    let room = table_len / records::NUMBERS;
    let refusal = match Class::of(class) {
        None => Refusal { number: 1, volume: 0, line: 0 },
        Some(class) => match read_set(spool, Terms { class, served, room }) {
            Err(refusal) => refusal,
            Ok(set) => {
                let table = records::table(&set, class);
                return Answer::accepted(table.len() / records::NUMBERS, table, table_len);
            }
        },
    };
    Answer::refused(refusal, table_len)
}

/// The rewriter: "reads at class 15 and has no table limit"; the class's wire part is 18.
pub fn rewrite(spool: &[u8], served: ServedWires, out_len: usize) -> Answer<u8> {
    let set = match read_set(spool, Terms { class: Class::HIGHEST, served, room: usize::MAX }) {
        Err(refusal) => return Answer::refused(refusal, out_len),
        Ok(set) => set,
    };
    let written = fixed::spool(&set);
    if written.len() > out_len {
        return Answer::refused(Refusal { number: 20, volume: 0, line: 0 }, out_len);
    }
    Answer::accepted(written.len(), written, out_len)
}

/// The check: "answer + 100 × volume + 10,000 × line".
pub fn check(spool: &[u8], class: Asked, served: ServedWires) -> u64 {
    let read = read(spool, class, served, CHECK_RECORDS * records::NUMBERS);
    read.answer as u64 + 100 * read.volume as u64 + 10_000 * read.line as u64
}
