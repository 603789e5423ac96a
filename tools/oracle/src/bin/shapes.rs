//! Pairs of sizes, records of 16 bytes, and whether the two have one shape.
//!
//! `shapes SEED COUNT` writes pairs around the edges of the rule and COUNT by
//! chance, `shapes --stored SEED` those that are stored. `shapes` reads pairs
//! and prints what the library's `same_shape` answers, a line each.
//! `shapes --tally` reads pairs and counts those at the edges: where the
//! difference of the products is one below, at and one above the longest side.
//! It fails if one of them is missing, with each of the four sides as the
//! longest, and with each end of a side's range in each place.

use std::env;
use std::io::{self, BufWriter, Read, Write};
use std::process::ExitCode;

use oracle::Pair;
use oracle::generate::Random;
use oracle::generate::shapes::{self, ENDS};

const PLACES: [&str; 4] = ["frame width", "frame height", "picture width", "picture height"];

fn main() -> ExitCode {
    let words: Vec<String> = env::args().skip(1).collect();
    let (flags, words): (Vec<_>, Vec<_>) = words.iter().partition(|word| word.starts_with("--"));
    let flags: Vec<&str> = flags.into_iter().map(String::as_str).collect();
    let numbers: Option<Vec<u64>> = words.into_iter().map(|word| word.parse().ok()).collect();
    let mut out = BufWriter::new(io::stdout().lock());
    let done = match (&flags[..], numbers.as_deref()) {
        ([], Some([])) => answer(&mut out),
        ([], Some(&[seed, count])) => {
            let mut random = Random::new(seed);
            let by_chance = (0..count).map(|_| shapes::pair(&mut random));
            write(&mut out, shapes::edges().into_iter().chain(by_chance))
        }
        (["--stored"], Some(&[seed])) => write(&mut out, shapes::stored(&mut Random::new(seed))),
        (["--tally"], Some([])) => tally(&mut out),
        _ => {
            eprintln!("usage: shapes [SEED COUNT | --stored SEED | --tally]");
            return ExitCode::from(2);
        }
    };
    if let Err(error) = done.and(out.flush()) {
        eprintln!("{error}");
        return ExitCode::FAILURE;
    }
    ExitCode::SUCCESS
}

fn write(out: &mut impl Write, pairs: impl IntoIterator<Item = Pair>) -> io::Result<()> {
    pairs.into_iter().try_for_each(|pair| out.write_all(&pair.record()))
}

fn read() -> io::Result<Vec<Pair>> {
    let mut bytes = Vec::new();
    io::stdin().lock().read_to_end(&mut bytes)?;
    let (records, rest) = bytes.as_chunks();
    if !rest.is_empty() {
        return Err(io::Error::other("the last pair has less than 16 bytes"));
    }
    Ok(records.iter().map(Pair::parse).collect())
}

fn answer(out: &mut impl Write) -> io::Result<()> {
    read()?.into_iter().try_for_each(|pair| writeln!(out, "{}", pair.same_shape()))
}

/// How many pairs have a difference one below, at and one above the longest
/// side.
type Edges = [u64; 3];

fn tally(out: &mut impl Write) -> io::Result<()> {
    let pairs = read()?;
    let mut all: Edges = [0; 3];
    let mut by_longest = [[0; 3]; 4];
    let mut by_side = [[[0; 3]; 4]; ENDS.len()];
    for pair in &pairs {
        let Some(edge) = (-1..=1).position(|excess| excess == pair.excess()) else {
            continue;
        };
        all[edge] += 1;
        if let Some(place) = pair.longest() {
            by_longest[place][edge] += 1;
        }
        for (place, side) in pair.sides().into_iter().enumerate() {
            if let Some(which) = ENDS.iter().position(|&other| other == side) {
                by_side[which][place][edge] += 1;
            }
        }
    }
    let least = by_side.as_flattened().as_flattened().iter().min().copied().unwrap_or(0);
    let text = |[below, at, above]: Edges| format!("{below}, {at}, {above}");
    writeln!(
        out,
        "{} pairs; a difference one below, at and one above the longest side: {}",
        pairs.len(),
        text(all)
    )?;
    for (place, edges) in PLACES.iter().zip(by_longest) {
        writeln!(out, "  that is the {place} alone: {}", text(edges))?;
    }
    writeln!(out, "  a side of {ENDS:?}, in each place: at least {least} of each")?;
    if least == 0 || by_longest.as_flattened().contains(&0) {
        return Err(io::Error::other("an edge has no pair"));
    }
    Ok(())
}
