//! Questions and answers as two programs exchange them; README.md describes both.

use std::io::{self, Read, Write};

use crate::generate::{sound_set, CLASSES, WIRE_PARTS};
use crate::mutate::damaged;
use crate::random::Random;
use crate::ranges::{Asked, Class, ServedWires};
use crate::reader::{read_set, Terms};
use crate::records::{self, NUMBERS};
use crate::{check, fixed, read, rewrite};

/// What is asked: the reader, the check and the rewriter about one spool.
#[derive(Clone, Debug, PartialEq, Eq)]
pub struct Question {
    pub class: Asked,
    /// The table's length in numbers.
    pub table_len: u32,
    /// The output's length in bytes.
    pub out_len: u32,
    pub spool: Vec<u8>,
}

impl Question {
    pub fn write(&self, to: &mut impl Write) -> io::Result<()> {
        to.write_all(&[self.class.class, self.class.wire])?;
        to.write_all(&self.table_len.to_be_bytes())?;
        to.write_all(&self.out_len.to_be_bytes())?;
        to.write_all(&(self.spool.len() as u32).to_be_bytes())?;
        to.write_all(&self.spool)
    }

    /// The next question, or nothing at the end of the stream.
    pub fn read(from: &mut impl Read) -> io::Result<Option<Question>> {
        let mut class = [0];
        if from.read(&mut class)? == 0 {
            return Ok(None);
        }
        let mut wire = [0];
        from.read_exact(&mut wire)?;
        let mut number = || -> io::Result<u32> {
            let mut bytes = [0; 4];
            from.read_exact(&mut bytes)?;
            Ok(u32::from_be_bytes(bytes))
        };
        let (table_len, out_len, length) = (number()?, number()?, number()?);
        let mut spool = vec![0; length as usize];
        from.read_exact(&mut spool)?;
        Ok(Some(Question { class: Asked { class: class[0], wire: wire[0] }, table_len, out_len, spool }))
    }
}

/// The question of a number, from a seed: the same whichever others are asked.
pub fn question(seed: u64, number: u64, served: ServedWires) -> Question {
    let mut random = Random::of_question(seed, number);
    let sound = random.chance(48, 100);
    let rich = !sound && random.chance(3, 5);
    let mut draft = sound_set(&mut random, rich, served);
    let spool = if sound { draft.spool() } else { damaged(&mut random, &mut draft) };
    let mut class = draft.class;
    if !sound && random.chance(1, 8) {
        class.class = *random.pick(&CLASSES);
    }
    if !sound && random.chance(1, 8) {
        class.wire = *random.pick(&WIRE_PARTS);
    }
    if random.chance(3, 100) {
        class.class = *random.pick(&[0, 6, 7, 9, 10, 16, 17, 20, 21, 25, 101, 115, 255]);
    }
    if random.chance(2, 100) {
        class.wire = *random.pick(&[9, 10, 19, 20, 21, 28, 101, 118, 255]);
    }
    let (numbers, bytes) = needed(&spool, class, served);
    Question { class, table_len: length(&mut random, numbers, 64 * NUMBERS), out_len: length(&mut random, bytes, 4096), spool }
}

/// How many numbers and bytes an accepted set needs.
fn needed(spool: &[u8], class: Asked, served: ServedWires) -> (Option<usize>, Option<usize>) {
    let at = |class| read_set(spool, Terms { class, served, room: usize::MAX }).ok();
    let numbers = Class::of(class).and_then(|class| at(class).map(|set| records::table(&set, class).len()));
    let bytes = at(Class::HIGHEST).map(|set| fixed::spool(&set).len());
    (numbers, bytes)
}

/// A length that is lent: none, too small, one less than needed, exactly enough, more.
fn length(random: &mut Random, needed: Option<usize>, usual: usize) -> u32 {
    let Some(needed) = needed else {
        // Refused whatever the length: mostly long enough to be refused for its own sake.
        return match random.below(40) {
            0 => 0,
            1 => random.below(usual) as u32,
            2 => 256 * NUMBERS as u32,
            _ => (usual * random.between(1, 4)) as u32,
        };
    };
    (match random.below(40) {
        0 => 0,
        1 => random.below(needed),
        2 | 3 => needed - 1,
        4..=14 => needed,
        15..=20 => needed + random.below(2 * NUMBERS),
        21 => 300 * NUMBERS,
        _ => needed.max(usual),
    }) as u32
}

/// The answers to a question, on one line.
pub fn answer_line(question: &Question, served: ServedWires) -> String {
    let read = read(&question.spool, question.class, served, question.table_len as usize);
    let check = check(&question.spool, question.class, served);
    let rewritten = rewrite(&question.spool, served, question.out_len as usize);
    let table_hash = fnv1a(read.lent.iter().flat_map(|number| number.to_le_bytes()));
    let output_hash = fnv1a(rewritten.lent.iter().copied());
    format!(
        "{} {} {} {} {table_hash:016x} {check} {} {} {} {} {output_hash:016x}",
        read.answer, read.volume, read.line, read.count, rewritten.answer, rewritten.volume, rewritten.line, rewritten.count
    )
}

/// FNV-1a, 64 bits.
pub fn fnv1a(bytes: impl Iterator<Item = u8>) -> u64 {
    bytes.fold(0xCBF2_9CE4_8422_2325, |hash, byte| (hash ^ byte as u64).wrapping_mul(0x0000_0100_0000_01B3))
}
