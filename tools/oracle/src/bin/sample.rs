//! `sample SEED` prints some thousand loads with the library's answers, one
//! `LOAD => ANSWER` a line: first those at the edges of the rules, each of the
//! 39 points in each of the three frames among them; then generated loads, a
//! set number of each answer.

use std::env;
use std::io::{self, BufWriter, Write};
use std::process::ExitCode;

use oracle::generate::{self, Random};
use oracle::{Answer, FocusOrigin, Load};

/// How many generated loads of each kind of answer.
const UNREADABLE: usize = 40;
const NOTHING: usize = 500;
const RECORDED: usize = 500;
const TABLE: usize = 300;

/// Blocks longer than this are rare.
const SMALL: usize = 300;
const LARGE_BLOCKS: usize = 20;

fn main() -> ExitCode {
    let seed = env::args().nth(1).and_then(|word| word.parse().ok());
    let (Some(seed), 2) = (seed, env::args().count()) else {
        eprintln!("usage: sample SEED");
        return ExitCode::from(2);
    };
    match print(&mut Random::new(seed), BufWriter::new(io::stdout().lock())) {
        Ok(()) => ExitCode::SUCCESS,
        Err(_) => ExitCode::FAILURE,
    }
}

fn print(random: &mut Random, mut out: impl Write) -> io::Result<()> {
    let mut print = |load: &Load| writeln!(out, "{load} => {}", load.answer());
    for load in generate::edges(random) {
        print(&load)?;
    }
    let mut left = [UNREADABLE, NOTHING, RECORDED, TABLE];
    let mut large_left = LARGE_BLOCKS;
    while left.iter().any(|&left| left > 0) {
        let load = generate::load(random);
        let left = &mut left[match load.answer() {
            Answer::Unreadable => 0,
            Answer::Nothing => 1,
            Answer::Placed(points) if points.origin() == FocusOrigin::Recorded => 2,
            Answer::Placed(_) => 3,
        }];
        let large = load.block.len() > SMALL;
        if *left == 0 || (large && large_left == 0) {
            continue;
        }
        *left -= 1;
        large_left -= usize::from(large);
        print(&load)?;
    }
    out.flush()
}
