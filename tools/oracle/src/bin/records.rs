//! Turns load lines into the records of 512 bytes that the program
//! `placing_test` reads: flags, four sides, the model's and the block's
//! length, model, block, zeros. A load that is too long for one is an error.

use std::io::{self, BufRead, BufWriter, Write};
use std::process::ExitCode;

use oracle::{Load, Size};

fn record(load: &Load) -> Option<[u8; 512]> {
    let mut bytes = vec![u8::from(load.raw.is_some()) + 2 * u8::from(load.picture.is_some())];
    for size in [load.raw, load.picture] {
        let Size { width, height } = size.unwrap_or(Size { width: 0, height: 0 });
        bytes.extend(width.to_be_bytes());
        bytes.extend(height.to_be_bytes());
    }
    bytes.push(u8::try_from(load.model.len()).ok()?);
    bytes.extend(u16::try_from(load.block.len()).ok()?.to_be_bytes());
    bytes.extend(&load.model);
    bytes.extend(&load.block);
    if bytes.len() > 512 {
        return None;
    }
    bytes.resize(512, 0);
    bytes.try_into().ok()
}

fn main() -> ExitCode {
    let mut out = BufWriter::new(io::stdout().lock());
    for (number, line) in (1..).zip(io::stdin().lock().lines()) {
        let line = line.expect("standard input can be read");
        let Some(bytes) = Load::parse(&line).and_then(|load| record(&load)) else {
            eprintln!("line {number} is no load of at most 512 bytes");
            return ExitCode::from(2);
        };
        if out.write_all(&bytes).is_err() {
            return ExitCode::FAILURE;
        }
    }
    if out.flush().is_err() {
        return ExitCode::FAILURE;
    }
    ExitCode::SUCCESS
}
