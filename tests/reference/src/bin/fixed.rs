//! `fixed`: a spool on standard input, its fixed form on standard output; where it is refused, nothing there and status 1.

use std::io::{self, Read, Write};
use std::process::ExitCode;

use reference::ranges::SERVED;

const MOST_WRITTEN: usize = 61_440;

fn main() -> ExitCode {
    let mut spool = Vec::new();
    if let Err(error) = io::stdin().read_to_end(&mut spool) {
        eprintln!("fixed: {error}");
        return ExitCode::FAILURE;
    }
    let rewritten = reference::rewrite(&spool, SERVED, MOST_WRITTEN);
    if rewritten.answer != 0 {
        eprintln!("fixed: refused, {} at volume {}, line {}", rewritten.answer, rewritten.volume, rewritten.line);
        return ExitCode::FAILURE;
    }
    match io::stdout().write_all(&rewritten.lent[..rewritten.count]) {
        Ok(()) => ExitCode::SUCCESS,
        Err(_) => ExitCode::FAILURE,
    }
}
