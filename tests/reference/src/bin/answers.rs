//! `answers`: reads questions on standard input and prints one line of answers for each.

use std::io::{self, BufReader, BufWriter, Write};
use std::process::ExitCode;

use reference::frames::{answer_line, Question};
use reference::ranges::SERVED;

fn main() -> ExitCode {
    let mut input = BufReader::new(io::stdin().lock());
    let mut out = BufWriter::new(io::stdout().lock());
    loop {
        match Question::read(&mut input) {
            Ok(None) => break,
            Ok(Some(question)) => {
                if writeln!(out, "{}", answer_line(&question, SERVED)).is_err() {
                    return ExitCode::FAILURE;
                }
            }
            Err(error) => {
                eprintln!("answers: {error}");
                return ExitCode::FAILURE;
            }
        }
    }
    if out.flush().is_err() {
        return ExitCode::FAILURE;
    }
    ExitCode::SUCCESS
}
