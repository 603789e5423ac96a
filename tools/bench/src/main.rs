//! Times one load on both sides, a block's contents, a listing behind edits and calls on a sheet or a workspace beside plain Rust, and the
//! lines that focusdesk answers in a second. Prints tables in Markdown.
//! Usage: bench REPOSITORY, the folder that has crates/ and tools/program, with focusdesk and state_bench built. With a KIND of loads behind it,
//! which is named, recorded or refused, it times nothing: it answers those loads and prints how many calls that took, for tools/bench/count.

mod blocks;
mod contents;
mod edits;
mod states;

use std::env;
use std::fs::{self, File};
use std::hint::black_box;
use std::io::Write;
use std::path::{Path, PathBuf};
use std::process::{Command, Stdio};
use std::time::{Duration, Instant};

use blocks::{Load, call_line, grown, stored, with_all_points};
use edits::{Edit, ORIENTATIONS, Orientation};
use oracle::{Answer, FocusOrigin};
use states::NO_BOX;

const ROUNDS: usize = 7;
const PASSES: usize = 20;

/// Where the program of a crate is built.
fn built(root: &Path, name: &str) -> PathBuf {
    let said = Command::new(root.join("tools/program")).arg(name).output().unwrap();
    assert!(said.status.success(), "no program {name}");
    PathBuf::from(String::from_utf8(said.stdout).unwrap().trim_end())
}

/// The shortest time of some rounds.
fn shortest(mut work: impl FnMut()) -> Duration {
    let rounds = (0..ROUNDS).map(|_| {
        let start = Instant::now();
        work();
        start.elapsed()
    });
    rounds.min().unwrap()
}

/// Nanoseconds for each of some loads or blocks, of as many passes over them as take some tenths of a second.
fn nanoseconds_each<T>(all: &[T], mut one: impl FnMut(&T)) -> f64 {
    let mut pass = || all.iter().for_each(&mut one);
    let once = shortest(&mut pass).as_secs_f64();
    let passes = (0.2 / once).ceil() as usize;
    let time = shortest(|| (0..passes).for_each(|_| pass()));
    time.as_secs_f64() * 1e9 / (passes * all.len()) as f64
}

fn original(load: &Load) -> Answer {
    oracle::load(load.raw, load.picture, &load.model, &load.block)
}

fn ours(load: &Load, out: &mut [u32]) -> bool {
    let size = |s: oracle::Size| focuspoints::Size { width: s.width, height: s.height };
    focuspoints::photograph_into(&load.block, load.raw.map(size), load.picture.map(size), &load.model, out).is_ok()
}

/// Both sides must accept the same loads before their times mean anything.
fn loads_row(name: &str, loads: &[Load]) {
    let mut out = [0; focuspoints::LISTING];
    for load in loads {
        assert_eq!(matches!(original(load), Answer::Placed(_)), ours(load, &mut out), "{name}");
    }
    let theirs = nanoseconds_each(loads, |load| {
        black_box(original(black_box(load)));
    });
    let own = nanoseconds_each(loads, |load| {
        black_box(ours(black_box(load), &mut out));
    });
    println!("| {name} | {} | {theirs:.0} | {own:.0} | {:.1} |", loads.len(), theirs / own);
}

/// Both sides must give the same tags before their times mean anything.
fn contents_row(name: &str, blocks: &[Vec<u8>]) {
    let mut out = [0; focuspoints::CONTENTS];
    for block in blocks {
        let read = focuspoints::contents_into(block, &mut out).is_ok();
        assert_eq!(contents::plain(block), read.then_some(out), "{name}");
    }
    let plain = nanoseconds_each(blocks, |block| {
        black_box(contents::plain(black_box(block)));
    });
    let own = nanoseconds_each(blocks, |block| {
        black_box(focuspoints::contents_into(black_box(block), black_box(&mut out)).is_ok());
    });
    println!("| {name} | {} | {plain:.0} | {own:.0} | {:.1} |", blocks.len(), own / plain);
}

/// Answers the loads by this library alone, some times over, and prints the number of calls.
fn answer_only(loads: &[Load]) {
    let mut out = [0; focuspoints::LISTING];
    for load in (0..PASSES).flat_map(|_| loads) {
        black_box(ours(black_box(load), &mut out));
    }
    println!("{}", PASSES * loads.len());
}

/// How long the program takes for a script from a file.
fn program_time(program: &Path, script: &[u8]) -> Duration {
    let path = env::temp_dir().join(format!("bench-{}.txt", std::process::id()));
    File::create(&path).unwrap().write_all(script).unwrap();
    let time = shortest(|| {
        let input = File::open(&path).unwrap();
        let status = Command::new(program).stdin(input).stdout(Stdio::null()).status().unwrap();
        assert!(status.success());
    });
    fs::remove_file(&path).unwrap();
    time
}

/// What the program prints for this input.
fn program_text(program: &Path, input: &[u8]) -> String {
    let mut child = Command::new(program).stdin(Stdio::piped()).stdout(Stdio::piped()).spawn().unwrap();
    child.stdin.take().unwrap().write_all(input).unwrap();
    String::from_utf8(child.wait_with_output().unwrap().stdout).unwrap()
}

const LIST: &[u8] = b"06FA\n";

/// A load of all 39 points, and these edits.
fn script_of(edits: &[Edit]) -> Vec<u8> {
    let lines = edits.iter().flat_map(|edit| call_line(&edit.call()));
    with_all_points().into_iter().chain(lines).collect()
}

/// What the library lists behind these edits.
fn listed_behind(edits: &[Edit]) -> (edits::Head, Vec<u32>) {
    edits::of_text(&focuspoints::script(&[&script_of(edits), LIST].concat()))
}

/// Microseconds for a list line by focusdesk behind these edits.
fn line_time(program: &Path, edits: &[Edit]) -> f64 {
    const LISTS: usize = 20_000;
    let script = script_of(edits);
    let without = program_time(program, &script);
    let lists = [script, LIST.repeat(LISTS)].concat();
    (program_time(program, &lists) - without).as_secs_f64() * 1e6 / LISTS as f64
}

/// Microseconds for a list behind these edits by the plain loop, which must list what the library does before its time means anything.
fn plain_list_time(sheet: states::Sheet, edits: &[Edit]) -> f64 {
    let plain = |edits: &[Edit], out: &mut [u32]| edits::list(sheet.frame, &sheet.points, sheet.primary, edits.iter().copied(), out);
    let mut out = [0; 240];
    let head = plain(edits, &mut out).unwrap();
    assert_eq!((head, out[..6 * head.count].to_vec()), listed_behind(edits));
    nanoseconds_each(&[edits], |edits| {
        black_box(plain(black_box(edits), black_box(&mut out)).unwrap());
    }) / 1e3
}

/// Lists behind equal edits: by the plain loop, by state_bench on a sheet, and by a line of focusdesk.
fn lists_table(root: &Path, load: &[u8], sheet: states::Sheet) {
    let [focusdesk, state_bench] = ["focusdesk", "state_bench"].map(|name| built(root, name));
    let kinds = [
        ("orientation 6", sheet.turn_or_cut(false)),
        ("orientation 2", Edit::Orient(Orientation::FlipHorizontal)),
        ("a cut of the whole frame", sheet.turn_or_cut(true)),
    ];
    println!("| edits that stand | a plain loop in Rust, µs | a list on a sheet, µs | times as long | a list line by focusdesk, µs |");
    println!("|---|---|---|---|---|");
    let row = |name: &str, standing: u8, edit: Edit| {
        let edits = vec![edit; standing as usize];
        let plain = plain_list_time(sheet, &edits);
        let own = nanoseconds_of(|count| program_time(&state_bench, &states::job(load, 5, count, standing, edit, NO_BOX))) / 1e3;
        println!("| {name} | {plain:.2} | {own:.2} | {:.1} | {:.1} |", own / plain, line_time(&focusdesk, &edits));
        own
    };
    row("none", 0, kinds[0].1);
    let ratios: Vec<String> = kinds
        .iter()
        .map(|&(name, edit)| {
            let half = row(&format!("32 times {name}"), 32, edit);
            let full = row(&format!("64 times {name}"), 64, edit);
            format!("{:.2} ({name})", full / half)
        })
        .collect();
    println!();
    println!("Behind 64 equal edits a list on a sheet takes so many times as long as behind 32: {}.", ratios.join(", "));
    let eight = ORIENTATIONS.map(Edit::Orient).repeat(8);
    let [none, line] = [&[], &eight[..]].map(|edits| line_time(&focusdesk, edits));
    println!("Behind 64 of the eight orientations, one after the other, a list line by focusdesk takes {line:.1} µs, {:.1} more than behind none; the plain loop {:.1}.", line - none, plain_list_time(sheet, &eight));
}

/// Nanoseconds for each of so many calls that they take some tenths of a second, by the time that a number of them takes.
fn nanoseconds_of(time: impl Fn(u32) -> Duration) -> f64 {
    const FEW: u32 = 100_000;
    let without = time(0);
    let few = (time(FEW).saturating_sub(without)).as_secs_f64().max(1e-3);
    let count = (FEW as f64 * 0.3 / few) as u32;
    time(count).saturating_sub(without).as_secs_f64() * 1e9 / count as f64
}

/// Nanoseconds for one call of a kind by the plain states, which must end as the program does before their time means anything.
fn plain_time<C: states::Calling>(program: &Path, load: &[u8], sheet: states::Sheet, kind: u8, edit: Edit, to: [u32; 2]) -> f64 {
    let plain = |count| states::plain::<C>(sheet, kind, edit, to, count, &mut [0; focuspoints::LISTING]);
    for count in [1, 65] {
        assert_eq!(plain(count), program_text(program, &states::job(load, kind, count, 1, edit, to)));
    }
    nanoseconds_of(|count| {
        shortest(|| {
            black_box(plain(black_box(count)));
        })
    })
}

/// One kind of calls on a state. Both sides must list and fit the same behind the edit that stands before.
fn state_row(program: &Path, load: &[u8], sheet: states::Sheet, (kind, name, cut, to): (u8, &str, bool, [u32; 2])) {
    let edit = sheet.turn_or_cut(cut);
    let fit = call_line(&[&[7], to.map(u32::to_be_bytes).as_flattened()].concat());
    let text = String::from_utf8(focuspoints::script(&[&script_of(&[edit]), LIST, &fit].concat())).unwrap();
    assert_eq!(format!("ok\nok\n{}", states::text_behind(sheet, edit, to)), text, "{name}");
    let apart = plain_time::<states::Apart>(program, load, sheet, kind, edit, to);
    let free = plain_time::<states::Free>(program, load, sheet, kind, edit, to);
    let own = nanoseconds_of(|count| program_time(program, &states::job(load, kind, count, 1, edit, to)));
    println!("| {name} | {apart:.0} | {free:.0} | {own:.0} | {:.1} | {:.1} |", own / apart, own / free);
}

/// Calls on a sheet and on a workspace, each kind that state_bench has.
fn states_table(root: &Path, load: &[u8], sheet: states::Sheet) {
    let program = built(root, "state_bench");
    let [small, large] = states::sizes();
    println!("| call, the state handed on by value | plain Rust, calls apart, ns | plain Rust, calls as the compiler likes, ns | here, ns | times the first | times the second |");
    println!("|---|---|---|---|---|---|");
    states::KINDS.iter().for_each(|&kind| state_row(&program, load, sheet, kind));
    println!();
    println!("The plain sheet has {small} bytes, the plain workspace {large}.");
}

fn main() {
    let root = env::args().nth(1).expect("usage: bench REPOSITORY [KIND]");
    let root = Path::new(&root);
    let program = built(root, "focusdesk");
    let all = stored(&fs::read(root.join("crates/placing_test/stdin")).unwrap());
    let of = |wanted: Option<FocusOrigin>| -> Vec<Load> {
        let fits = |load: &&Load| match original(load) {
            Answer::Placed(points) => Some(points.origin()) == wanted,
            _ => wanted.is_none(),
        };
        all.iter().filter(fits).cloned().collect()
    };
    match env::args().nth(2).as_deref() {
        None => {}
        Some("named") => return answer_only(&of(Some(FocusOrigin::Table))),
        Some("recorded") => return answer_only(&of(Some(FocusOrigin::Recorded))),
        Some("refused") => return answer_only(&of(None)),
        Some(kind) => panic!("no kind {kind}: named, recorded or refused"),
    }
    let (named, recorded, refused) = (of(Some(FocusOrigin::Table)), of(Some(FocusOrigin::Recorded)), of(None));
    println!("| loads | how many | the Rust original, ns a load | here, ns a load | times as fast |");
    println!("|---|---|---|---|---|");
    loads_row("named points, small blocks", &named);
    loads_row("recorded positions, small blocks", &recorded);
    loads_row("refused, small blocks", &refused);
    let large = |loads: &[Load]| -> Vec<Load> { loads.iter().take(200).map(grown).collect() };
    loads_row("named points, blocks of 60 KB with 60 entries", &large(&named));
    loads_row("recorded positions, blocks of 60 KB with 60 entries", &large(&recorded));
    println!();
    println!("| contents of | blocks | a plain loop in Rust, ns a block | here, ns a block | times as long |");
    println!("|---|---|---|---|---|");
    let small: Vec<Vec<u8>> = all.iter().map(|load| load.block.clone()).collect();
    contents_row("small blocks", &small);
    let grown: Vec<Vec<u8>> = large(&named).into_iter().map(|load| load.block).collect();
    contents_row("blocks of 60 KB with 60 entries", &grown);
    let reversed: Vec<Vec<u8>> = grown.iter().map(|block| contents::reversed(block)).collect();
    contents_row("the same with the entries the other way round", &reversed);
    contents_row("65,535 entries with none of the four tags", &[contents::longest()]);
    println!();
    let load = &fs::read(root.join("crates/state_bench/stdin")).unwrap()[..512];
    let mut listing = [0; focuspoints::LISTING];
    assert!(ours(&stored(&load[1..])[0], &mut listing));
    let sheet = states::Sheet::of(&listing);
    lists_table(root, load, sheet);
    println!();
    states_table(root, load, sheet);
    println!();
    let lines = fs::read(root.join("tools/oracle/stored/lines.txt")).unwrap().repeat(20);
    let count = lines.iter().filter(|&&c| c == b'\n').count();
    let time = program_time(&program, &lines).as_secs_f64();
    println!("focusdesk: {count} lines (the stored loads, each with a list line after it) in {time:.3} s, {:.0} lines a second.", count as f64 / time);
}
