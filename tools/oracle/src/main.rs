//! Reads one load a line on standard input and prints one answer a line.

use std::io::{self, BufRead, BufWriter, Write};
use std::process::ExitCode;

use oracle::Load;

fn main() -> ExitCode {
    let mut out = BufWriter::new(io::stdout().lock());
    for (number, line) in (1..).zip(io::stdin().lock().lines()) {
        let line = line.expect("standard input can be read");
        let Some(load) = Load::parse(&line) else {
            eprintln!("line {number} is no load: RAW PICTURE MODELHEX BLOCKHEX");
            return ExitCode::from(2);
        };
        if writeln!(out, "{}", load.answer()).is_err() {
            break;
        }
    }
    if out.flush().is_err() {
        return ExitCode::FAILURE;
    }
    ExitCode::SUCCESS
}
