//! `loads SEED COUNT` prints generated loads, one a line.

use std::env;
use std::io::{self, BufWriter, Write};
use std::process::ExitCode;

use oracle::generate::{self, Random};

fn main() -> ExitCode {
    let numbers: Option<Vec<u64>> = env::args().skip(1).map(|word| word.parse().ok()).collect();
    let Some(&[seed, count]) = numbers.as_deref() else {
        eprintln!("usage: loads SEED COUNT");
        return ExitCode::from(2);
    };
    let mut random = Random::new(seed);
    let mut out = BufWriter::new(io::stdout().lock());
    for _ in 0..count {
        if writeln!(out, "{}", generate::load(&mut random)).is_err() {
            return ExitCode::FAILURE;
        }
    }
    if out.flush().is_err() {
        return ExitCode::FAILURE;
    }
    ExitCode::SUCCESS
}
