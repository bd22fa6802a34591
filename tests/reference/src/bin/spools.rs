//! `spools N SEED`: N questions on standard output.
//! `spools --only K SEED`: question K of them alone, from 0.
//! `spools --spool K SEED`: its spool alone, to be looked at.
//! `spools --survey N SEED`: how often each answer comes.

use std::io::{self, BufWriter, Write};
use std::process::ExitCode;

use reference::frames::question;
use reference::ranges::SERVED;
use reference::{read, rewrite};

/// How many numbers an answer may be: 0, and the refusals 1 to 21.
const NUMBERS: usize = 22;

const USAGE: &str = "spools N SEED\nspools --only K SEED\nspools --spool K SEED\nspools --survey N SEED";

fn main() -> ExitCode {
    let mut arguments: Vec<String> = std::env::args().skip(1).collect();
    let mode = if arguments.len() == 3 { arguments.remove(0) } else { String::new() };
    let numbers: Vec<u64> = arguments.iter().filter_map(|argument| argument.parse().ok()).collect();
    let [number, seed] = numbers[..] else {
        eprintln!("{USAGE}");
        return ExitCode::from(2);
    };
    let mut out = BufWriter::new(io::stdout().lock());
    let written = match &mode[..] {
        "" => (0..number).try_for_each(|index| question(seed, index, SERVED).write(&mut out)),
        "--only" => question(seed, number, SERVED).write(&mut out),
        "--spool" => out.write_all(&question(seed, number, SERVED).spool),
        "--survey" => survey(number, seed, &mut out),
        _ => {
            eprintln!("{USAGE}");
            return ExitCode::from(2);
        }
    };
    // Whoever reads may have seen enough and closed its end.
    match written.and_then(|()| out.flush()) {
        Ok(()) => ExitCode::SUCCESS,
        Err(_) => ExitCode::FAILURE,
    }
}

fn survey(count: u64, seed: u64, out: &mut impl Write) -> io::Result<()> {
    let mut read_answers = [0; NUMBERS];
    let mut rewrite_answers = [0; NUMBERS];
    let (mut bytes, mut records) = (0, 0);
    for index in 0..count {
        let question = question(seed, index, SERVED);
        let read = read(&question.spool, question.class, SERVED, question.table_len as usize);
        let rewritten = rewrite(&question.spool, SERVED, question.out_len as usize);
        read_answers[read.answer as usize] += 1;
        rewrite_answers[rewritten.answer as usize] += 1;
        bytes += question.spool.len();
        records += read.count;
    }
    writeln!(out, "{count} spools, {bytes} bytes, {records} records")?;
    writeln!(out, "answer      read   rewrite")?;
    for answer in 0..NUMBERS {
        writeln!(out, "{answer:6} {:9} {:9}", read_answers[answer], rewrite_answers[answer])?;
    }
    Ok(())
}
