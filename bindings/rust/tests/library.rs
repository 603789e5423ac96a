//! The wrapper against the specification's cases and the stored answers of the repository: the loads of `placing_test`, whose answers are
//! the Rust original's, the blocks of `reading_test`, and the scripts of `focusdesk` and of demo/.

use focuspoints::*;
use std::fmt::Write;
use std::fs;
use std::path::PathBuf;

const MODEL: &[u8] = b"NIKON D600";
const MARK: u32 = 0xABCD_1234;

fn stored(path: &str) -> Vec<u8> {
    fs::read(PathBuf::from(env!("CARGO_MANIFEST_DIR")).join("../..").join(path)).unwrap()
}

/// A big-endian block: its entries (tag, type, count, value), the values behind the directory.
fn block_of(entries: &[(u16, u16, u32, &[u8])]) -> Vec<u8> {
    let mut block = b"MM\0*\0\0\0\x08".to_vec();
    block.extend((entries.len() as u16).to_be_bytes());
    let mut at = 10 + 12 * entries.len();
    let mut values: Vec<u8> = Vec::new();
    for &(tag, kind, count, value) in entries {
        block.extend(tag.to_be_bytes());
        block.extend(kind.to_be_bytes());
        block.extend(count.to_be_bytes());
        if value.len() <= 4 {
            block.extend(value);
            block.extend(vec![0; 4 - value.len()]);
        } else {
            block.extend((at as u32).to_be_bytes());
            values.extend(value);
            at += value.len();
        }
    }
    block.extend(values);
    block
}

/// A record of version 0100: layout 3, a primary, and the mask's first two bytes.
fn record(primary: u8, mask: [u8; 2], len: usize) -> Vec<u8> {
    let mut r = vec![0; len];
    r[..4].copy_from_slice(b"0100");
    r[6] = 3;
    r[7] = primary;
    r[8..10].copy_from_slice(&mask);
    r
}

fn named(primary: u8, mask: [u8; 2]) -> Vec<u8> {
    let r = record(primary, mask, 30);
    block_of(&[(0xB7, 7, 30, &r)])
}

/// Points 1 and 16, as in the specification's whole case.
fn whole_case() -> Vec<u8> {
    named(1, [0x01, 0x80])
}

/// A block that is refused, with the number.
fn refused() -> Vec<(Vec<u8>, Refusal)> {
    let r = record(1, [1, 0], 30);
    let short = record(1, [1, 0], 29);
    let mut outside = vec![0; 84];
    outside[..4].copy_from_slice(b"0101");
    for (i, n) in [6016u16, 4016, 100, 2000, 201, 200].iter().enumerate() {
        outside[70 + 2 * i..72 + 2 * i].copy_from_slice(&n.to_be_bytes());
    }
    vec![
        (whole_case()[..7].to_vec(), Refusal::Unreadable),
        (Vec::new(), Refusal::Unreadable),
        (block_of(&[(7, 2, 5, b"AF-S\0")]), Refusal::NoRecord),
        (block_of(&[(7, 2, 9, b" MANUAL \0"), (0xB7, 7, 30, &r)]), Refusal::ManualFocus),
        (block_of(&[(0xB7, 7, 29, &short)]), Refusal::BadRecord),
        (block_of(&[(0xB7, 7, 84, &outside)]), Refusal::PositionUnplaced),
        (named(0, [1, 0]), Refusal::NamesUnplaced),
    ]
}

#[test]
fn the_whole_cases_photograph() {
    let listing = photograph(&whole_case(), None, None, MODEL).unwrap();
    let point = |number, x, y| FocusPoint {
        number: Some(number),
        center: Point { x, y },
        area: Some(Size { width: 164, height: 164 }),
        in_focus: None,
    };
    assert_eq!(
        listing,
        Listing {
            frame: Size { width: 6016, height: 4016 },
            primary: 0,
            mode: Some(AreaMode::Single),
            origin: Origin::Table,
            points: vec![point(1, 3008, 2007), point(16, 3486, 2007)],
        }
    );
}

#[test]
fn refusals_keep_the_buffer() {
    for (block, why) in refused() {
        // The refusal comes before the buffer's length.
        for places in [0, 1, 240] {
            let mut out = vec![MARK; places];
            assert_eq!(photograph_into(&block, None, None, MODEL, &mut out), Err(why));
            assert!(out.iter().all(|&n| n == MARK), "{why}");
        }
        assert_eq!(photograph(&block, None, None, MODEL), Err(why));
    }
    let numbers: Vec<u32> = refused().iter().map(|(_, why)| why.number()).collect();
    assert_eq!(numbers, [1, 1, 2, 3, 4, 5, 6]);
    assert_eq!(Refusal::Short.number(), 13);
}

#[test]
fn a_short_buffer_is_kept_and_a_long_one_behind_the_listing() {
    let block = whole_case();
    for places in 0..18 {
        let mut out = vec![MARK; places];
        assert_eq!(photograph_into(&block, None, None, MODEL, &mut out), Err(Refusal::Short));
        assert!(out.iter().all(|&n| n == MARK), "{places} places");
    }
    let numbers = [6016, 4016, 2, 0, 1, 2, 1, 3008, 2007, 164, 164, 0, 16, 3486, 2007, 164, 164, 0];
    for places in [18, 19, 240, 1000] {
        let mut out = vec![MARK; places];
        assert_eq!(photograph_into(&block, None, None, MODEL, &mut out), Ok(18));
        assert_eq!(out[..18], numbers);
        assert!(out[18..].iter().all(|&n| n == MARK), "{places} places");
    }
}

/// A block with the whole mask.
fn all_points() -> Vec<u8> {
    let mut r = record(1, [0xFF, 0xFF], 30);
    r[10..13].copy_from_slice(&[0xFF, 0xFF, 0x7F]);
    block_of(&[(0xB7, 7, 30, &r)])
}

#[test]
fn all_39_points_need_240_places() {
    let block = all_points();
    assert_eq!(photograph(&block, None, None, MODEL).unwrap().points.len(), 39);
    let mut out = [MARK; LISTING];
    assert_eq!(photograph_into(&block, None, None, MODEL, &mut out[..239]), Err(Refusal::Short));
    assert_eq!(out, [MARK; LISTING]);
    assert_eq!(photograph_into(&block, None, None, MODEL, &mut out), Ok(240));
}

#[test]
fn sizes_are_missing_or_given() {
    // Point 1 in a picture of 4512 by 3008 (the specification's example), and in the whole frame.
    let block = named(1, [1, 0]);
    let picture = Size { width: 4512, height: 3008 };
    let center = |raw, picture| photograph(&block, raw, picture, MODEL).unwrap().points[0].center;
    assert_eq!(center(None, Some(picture)), Point { x: 3005, y: 2002 });
    assert_eq!(center(None, None), Point { x: 3008, y: 2007 });
    // The same size as that of the raw data says nothing of the picture.
    assert_eq!(center(Some(picture), None), Point { x: 3008, y: 2007 });
    // A size of no pixels is not a missing one: a recorded position scaled to a picture of width 0.
    let mut r = vec![0; 84];
    r[..4].copy_from_slice(b"0101");
    for (i, n) in [6016u16, 4016, 3000, 2000, 200, 200].iter().enumerate() {
        r[70 + 2 * i..72 + 2 * i].copy_from_slice(&n.to_be_bytes());
    }
    let crop: Vec<u8> =
        [2u16, 6016, 4016, 3008, 2008, 0, 0].iter().flat_map(|n| n.to_be_bytes()).collect();
    let block = block_of(&[(0x1B, 3, 7, &crop), (0xB7, 7, 84, &r)]);
    assert_eq!(
        photograph(&block, None, Some(Size { width: 0, height: 2008 }), MODEL),
        Err(Refusal::PositionUnplaced)
    );
    assert_eq!(
        photograph(&block, None, None, MODEL).unwrap().frame,
        Size { width: 6016, height: 4016 }
    );
    let half = photograph(&block, None, Some(Size { width: 3008, height: 2008 }), MODEL).unwrap();
    assert_eq!(half.points[0].center, Point { x: 1500, y: 1000 });
    assert_eq!((half.points[0].number, half.origin), (None, Origin::Recorded));
}

#[test]
fn slices_of_length_0() {
    assert_eq!(photograph_into(&[], None, None, &[], &mut []), Err(Refusal::Unreadable));
    assert_eq!(photograph_into(&whole_case(), None, None, &[], &mut []), Err(Refusal::NamesUnplaced));
    assert_eq!(photograph_into(&whole_case(), None, None, MODEL, &mut []), Err(Refusal::Short));
    assert_eq!(contents_into(&[], &mut []), Err(Refusal::Unreadable));
    assert_eq!(contents_into(&whole_case(), &mut []), Err(Refusal::Short));
    assert_eq!(script_into(&[], &mut []), Ok(0));
    assert_eq!(script_into(b"0906F1\n", &mut []), Err(Refusal::Short));
    assert_eq!(script(&[]), []);
}

#[test]
fn scripts_are_answered_byte_for_byte() {
    for (given, wanted) in [
        ("crates/focusdesk/stdin", "crates/focusdesk/stdout"),
        ("crates/script_test/stdin", "crates/script_test/stdout"),
        ("tools/oracle/stored/lines.txt", "tools/oracle/stored/lines.out"),
        ("demo/whole-case.txt", "demo/whole-case.out"),
        ("demo/dx-crop.txt", "demo/dx-crop.out"),
        ("demo/recorded.txt", "demo/recorded.out"),
        ("demo/orientations.txt", "demo/orientations.out"),
        ("demo/contents.txt", "demo/contents.out"),
        ("demo/refusals.txt", "demo/refusals.out"),
    ] {
        assert!(script(&stored(given)) == stored(wanted), "{given}");
    }
}

#[test]
fn a_script_without_room_keeps_the_buffer() {
    let (given, wanted) = (stored("demo/whole-case.txt"), stored("demo/whole-case.out"));
    for places in 0..wanted.len() {
        let mut out = vec![0xAB; places];
        assert_eq!(script_into(&given, &mut out), Err(Refusal::Short));
        assert!(out.iter().all(|&c| c == 0xAB), "{places} places");
    }
    for places in [wanted.len(), wanted.len() + 1, 1000] {
        let mut out = vec![0xAB; places];
        assert_eq!(script_into(&given, &mut out), Ok(wanted.len()));
        assert_eq!(out[..wanted.len()], wanted);
        assert!(out[wanted.len()..].iter().all(|&c| c == 0xAB), "{places} places");
    }
}

/// A call line without its line feed: the bytes and the check.
fn call_line(bytes: &[u8]) -> String {
    let check = bytes.iter().fold(0u8, |sum, &b| sum.wrapping_sub(b));
    bytes.iter().chain([&check]).map(|b| format!("{b:02X}")).collect()
}

/// The line that loads a block.
fn load_line(block: &[u8]) -> String {
    let mut load = vec![1];
    load.extend([0; 17]);
    load.push(MODEL.len() as u8);
    load.extend(MODEL);
    load.extend(block);
    call_line(&load)
}

/// The line that cuts.
fn cut_line(left: u32, top: u32, width: u32, height: u32) -> String {
    let numbers = [left, top, width, height].map(u32::to_be_bytes).concat();
    call_line(&[&[2][..], &numbers].concat())
}

/// The line that fits to a box.
fn fit_line(width: u32, height: u32) -> String {
    call_line(&[&[7][..], &width.to_be_bytes(), &height.to_be_bytes()].concat())
}

/// Lines, each with its answer, as one script.
fn assert_answered<const N: usize>(calls: [(String, &str); N]) {
    let (lines, answers): (Vec<String>, Vec<&str>) = calls.into_iter().unzip();
    let printed = String::from_utf8(script(lines.join("\n").as_bytes())).unwrap();
    assert_eq!(printed, answers.join("\n") + "\n");
}

#[test]
fn a_box_has_the_shape_of_the_frame() {
    // In 6016 by 4016, and in 4016 by 6016, a box may be off by 6016: 6016 * 252 - 4016 * 376.
    let calls = [
        (fit_line(376, 253), "no 7"),
        (load_line(&whole_case()), "ok"),
        (
            fit_line(376, 252),
            "frame 376 252 points 2 primary 0 mode 1 origin 2\n1 188 126 10 10 0\n16 218 126 10 10 0",
        ),
        (fit_line(376, 253), "no 19"),
        (call_line(&[9, 6]), "ok"),
        (fit_line(376, 252), "no 19"),
        (
            fit_line(252, 376),
            "frame 252 376 points 2 primary 0 mode 1 origin 2\n1 126 188 10 10 0\n16 126 218 10 10 0",
        ),
    ];
    assert_answered(calls);
}

#[test]
fn a_blank_side_of_a_box_follows_the_other() {
    let calls = [
        (fit_line(376, 0), "no 7"),
        (load_line(&whole_case()), "ok"),
        // In 6016 by 4016: 4016 * 376 / 6016 = 251; 6016 * 253 / 4016 = 378.996, nearest 379.
        (
            fit_line(376, 0),
            "frame 376 251 points 2 primary 0 mode 1 origin 2\n1 188 125 10 10 0\n16 218 125 10 10 0",
        ),
        (
            fit_line(0, 253),
            "frame 379 253 points 2 primary 0 mode 1 origin 2\n1 190 126 10 10 0\n16 220 126 10 10 0",
        ),
        // The worked width is too long for a number and becomes the largest; that box is a square.
        (fit_line(0, 4294967295), "no 19"),
        (fit_line(0, 0), "no 12"),
        // In 4016 by 6016: 6016 * 376 / 4016 = 563.25, nearest 563.
        (call_line(&[9, 6]), "ok"),
        (
            fit_line(376, 0),
            "frame 376 563 points 2 primary 0 mode 1 origin 2\n1 188 282 15 15 0\n16 188 326 15 15 0",
        ),
        (call_line(&[5]), "ok"),
        // In 6016 by 164, from (0, 1925): 164 * 18 / 6016 = 0.49, nearest 0; 164 * 19 / 6016 = 0.52, nearest 1.
        (cut_line(0, 1925, 6016, 164), "ok"),
        (fit_line(18, 0), "no 12"),
        (
            fit_line(19, 0),
            "frame 19 1 points 2 primary 0 mode 1 origin 2\n1 10 1 0 0 0\n16 11 1 0 0 0",
        ),
    ];
    assert_answered(calls);
}

#[test]
fn orientations_are_numbered_1_to_8() {
    let orient = |number: u8| call_line(&[9, number]);
    let mut calls = vec![(orient(0), "no 7"), (load_line(&whole_case()), "ok")];
    calls.extend([0, 9, 128, 255].map(|number| (orient(number), "no 15")));
    // The codes that turn and mirror had, no number, two numbers.
    calls.extend([&[3][..], &[4], &[9], &[9, 6, 6]].map(|bytes| (call_line(bytes), "no 14")));
    // With 64 edits, of which orientation 1 is one, 8 comes before 15.
    calls.extend((0..64).map(|i| (orient(i % 8 + 1), "ok")));
    calls.extend([0, 1, 6, 9].map(|number| (orient(number), "no 8")));
    let (lines, answers): (Vec<String>, Vec<&str>) = calls.into_iter().unzip();
    let printed = String::from_utf8(script(lines.join("\n").as_bytes())).unwrap();
    assert_eq!(printed.lines().collect::<Vec<_>>(), answers);
}

#[test]
fn the_longest_answers_have_room() {
    // A load of all 39 points; then they are listed as they are, and fitted to the widest box, where numbers have up to ten digits.
    let mut lines = vec![load_line(&all_points())];
    for _ in 0..40 {
        lines.extend([call_line(&[6]), fit_line(4294967295, 2867119125)]);
    }
    // Without the last line feed, so that there is one line more than feeds.
    let given = lines.join("\n").into_bytes();
    assert_eq!(script_room(&given), 81 * A_LINE);

    let mut out = vec![0; script_room(&given)];
    let len = script_into(&given, &mut out).unwrap();
    let text = String::from_utf8(out[..len].to_vec()).unwrap();
    let listed = line_of(photograph(&all_points(), None, None, MODEL)).replace(" | ", "\n");
    let rows: Vec<&str> = text.strip_prefix("ok\n").unwrap().lines().collect();
    assert_eq!(rows.len(), 80 * 40);
    for pair in rows.chunks(2 * 40) {
        let (list, fitted) = pair.split_at(40);
        assert_eq!(list.join("\n"), listed);
        assert_eq!(fitted[0], "frame 4294967295 2867119125 points 39 primary 0 mode 1 origin 2");
    }
    // More than the wrapper's first buffer: its last one has exactly this room.
    assert!(len > 64 * 1024 && script_room(&given) < 4 * 64 * 1024);
    assert_eq!(script(&given), text.into_bytes());
}

#[test]
fn contents_of_blocks() {
    let r = record(1, [1, 0], 30);
    let all = block_of(&[
        (7, 2, 5, b"AF-S\0"),
        (0x1B, 3, 7, &[0; 14]),
        (0x45, 3, 4, &[0; 8]),
        (0xB7, 7, 30, &r),
    ]);
    let tags = |block: &[u8]| contents(block).unwrap();
    assert_eq!(tags(&all), [0x07, 0x1B, 0x45, 0xB7]);
    assert_eq!(tags(&whole_case()), [0xB7]);
    assert_eq!(tags(&block_of(&[(8, 2, 2, b"x\0")])), []);
    // Each once, also where there are two entries; a type that is passed over is not kept.
    assert_eq!(
        tags(&block_of(&[(7, 2, 2, b"x\0"), (7, 2, 2, b"y\0"), (0x45, 14, 1, b"z")])),
        [0x07]
    );
    assert_eq!(contents(&whole_case()[..7]), Err(Refusal::Unreadable));

    for places in 0..5 {
        let mut out = vec![MARK; places];
        assert_eq!(contents_into(&all, &mut out), Err(Refusal::Short));
        assert_eq!(contents_into(&all[..7], &mut out), Err(Refusal::Unreadable));
        assert!(out.iter().all(|&n| n == MARK));
    }
    let mut out = [MARK; 7];
    assert_eq!(contents_into(&whole_case(), &mut out), Ok(()));
    assert_eq!(out, [1, 0xB7, 0, 0, 0, MARK, MARK]);
    assert_eq!(contents_into(&all[..7], &mut out), Err(Refusal::Unreadable));
    assert_eq!(out, [1, 0xB7, 0, 0, 0, MARK, MARK]);
}

/// A block of these entries, none with a value behind the directory: tag, type, count and field.
fn directory(entries: &[(u16, u16, u32, u32)], little: bool) -> Vec<u8> {
    let u16_of = |n: u16| if little { n.to_le_bytes() } else { n.to_be_bytes() };
    let u32_of = |n: u32| if little { n.to_le_bytes() } else { n.to_be_bytes() };
    let mut block = if little { b"II*\0" } else { b"MM\0*" }.to_vec();
    block.extend(u32_of(8));
    block.extend(u16_of(entries.len() as u16));
    for &(tag, kind, count, field) in entries {
        block.extend(u16_of(tag));
        block.extend(u16_of(kind));
        block.extend(u32_of(count));
        block.extend(u32_of(field));
    }
    block
}

/// The tags of a block, in both byte orders: as they are given, and at the front of a buffer, in four places of which the last are 0.
fn expect_contents(entries: &[(u16, u16, u32, u32)], tags: &[u16], wrong: &str) {
    for block in [directory(entries, false), directory(entries, true)] {
        assert_eq!(contents(&block).unwrap(), tags, "wrong: {wrong}");
        let mut numbers = vec![tags.len() as u32];
        numbers.extend(tags.iter().map(|&tag| tag as u32));
        numbers.resize(CONTENTS, 0);
        for places in [5, 6, 12] {
            let mut out = vec![MARK; places];
            assert_eq!(contents_into(&block, &mut out), Ok(()));
            assert_eq!(out[..5], numbers, "wrong: {wrong}");
            assert!(out[5..].iter().all(|&n| n == MARK), "wrong: {wrong}");
        }
    }
}

#[test]
fn contents_come_in_the_directorys_order() {
    let intact = |tag| (tag, 7, 4, 0x61626364);
    let of_type = |tag, kind| (tag, kind, 1, 0x61626364);
    // Five bytes, at the last offset that there is.
    let damaged = |tag| (tag, 7, 5, u32::MAX);

    // The four tags in each of their 24 orders.
    let four = [0x07, 0x1B, 0x45, 0xB7];
    for i in 0..256 {
        let tags = [four[i >> 6], four[i >> 4 & 3], four[i >> 2 & 3], four[i & 3]];
        if four.iter().all(|tag| tags.contains(tag)) {
            expect_contents(&tags.map(intact), &tags, "an order other than the directory's");
        }
    }

    // Repeated: the first entry places a tag.
    let repeated = [0x45, 0xB7, 0x45, 0x07, 0xB7, 0x1B, 0x07, 0x45].map(intact);
    expect_contents(&repeated, &[0x45, 0xB7, 0x07, 0x1B], "an end after four entries");
    expect_contents(
        &[0x07, 0x45, 0x07].map(intact),
        &[0x07, 0x45],
        "a tag placed by its last entry",
    );
    expect_contents(&[0x1B; 5].map(intact), &[0x1B], "a tag listed once for each entry");
    // Damaged: such an entry is kept, and places its tag.
    expect_contents(&[damaged(0xB7), intact(0x1B)], &[0xB7, 0x1B], "a damaged entry not kept");
    expect_contents(
        &[damaged(0x45), intact(0x07), intact(0x45)],
        &[0x45, 0x07],
        "a damaged entry without a place",
    );
    expect_contents(
        &[intact(0x07), intact(0x45), damaged(0x07)],
        &[0x07, 0x45],
        "a tag moved by a damaged entry",
    );
    // Passed over: such an entry neither counts nor places its tag.
    for kind in [0, 14, 0x0107, 0x0700, u16::MAX] {
        expect_contents(
            &[of_type(0xB7, kind), intact(0x07), of_type(0x45, kind)],
            &[0x07],
            "a passed-over type that counts",
        );
        expect_contents(
            &[of_type(0x45, kind), intact(0x1B), intact(0x45), of_type(0x1B, kind)],
            &[0x1B, 0x45],
            "a passed-over type that sets a place",
        );
    }
    for kind in 1..14 {
        expect_contents(
            &[(0x45, kind, 0, 0), intact(0x07), intact(0x45)],
            &[0x45, 0x07],
            "a type from 1 to 13 passed over",
        );
    }
    // Tag 0 is none of the four, although unused places are 0.
    expect_contents(&[0, 0xB7, 0, 0, 0, 0, 0x07].map(intact), &[0xB7, 0x07], "tag 0 listed");
    expect_contents(&[intact(0), damaged(0)], &[], "tag 0 listed alone");
}

#[test]
fn stored_blocks_have_their_contents() {
    let blocks = String::from_utf8(stored("crates/reading_test/stdin")).unwrap();
    let answers = String::from_utf8(stored("crates/reading_test/stdout")).unwrap();
    let mut lines = answers.lines();
    let bytes = |hex: &str| -> Vec<u8> {
        (0..hex.len()).step_by(2).map(|i| u8::from_str_radix(&hex[i..i + 2], 16).unwrap()).collect()
    };
    let mut count = 0;
    let mut expect = |block: &[u8], line: &str| {
        let mut out = [MARK; 6];
        // The last part of a line: the count and the four places, behind `tags` or `no 1`.
        let part = line.rsplit(" | ").next().unwrap();
        if let Some(numbers) = part.strip_prefix("tags ") {
            assert_eq!(contents_into(block, &mut out), Ok(()), "{line}");
            let printed: Vec<String> = out[..5].iter().map(|n| n.to_string()).collect();
            assert_eq!(printed.join(" "), numbers, "{line}");
            assert_eq!(out[5], MARK);
        } else {
            assert_eq!(part, "no 1 0 0 0 0 0", "{line}");
            assert_eq!(contents_into(block, &mut out), Err(Refusal::Unreadable), "{line}");
            assert_eq!(out, [MARK; 6]);
        }
        count += 1;
    };
    for line in blocks.lines() {
        if line.starts_with('#') {
            assert_eq!(lines.next(), Some(line));
        } else if let Some(front) = line.strip_prefix('+') {
            // The front of the longest block, and of one a byte longer.
            let mut block = bytes(front);
            for len in [1_048_576, 1_048_577] {
                block.resize(len, 0);
                expect(&block, lines.next().unwrap());
            }
        } else {
            expect(&bytes(line), lines.next().unwrap());
        }
    }
    assert_eq!(lines.next(), None);
    println!("{count} blocks");
}

/// The answer's line as `placing_test` prints it.
fn line_of(answer: Result<Listing, Refusal>) -> String {
    let listing = match answer {
        Ok(listing) => listing,
        Err(why) => return format!("no {}", why.number()),
    };
    let mut line = format!(
        "frame {} {} points {} primary {} mode {} origin {}",
        listing.frame.width,
        listing.frame.height,
        listing.points.len(),
        listing.primary,
        listing.mode.map_or(0, |m| m as u32),
        listing.origin as u32
    );
    for p in &listing.points {
        let area = p.area.unwrap_or(Size { width: 0, height: 0 });
        let in_focus = p.in_focus.map_or(0, |yes| 1 + yes as u32);
        let number = p.number.unwrap_or(0);
        write!(
            line,
            " | {number} {} {} {} {} {in_focus}",
            p.center.x, p.center.y, area.width, area.height
        )
        .unwrap();
    }
    line
}

#[test]
fn stored_loads_are_answered_as_by_the_original() {
    let loads = stored("crates/placing_test/stdin");
    let answers = String::from_utf8(stored("crates/placing_test/stdout")).unwrap();
    let mut lines = answers.lines();
    let mut count = 0;
    for load in loads.chunks_exact(512) {
        let number = |at: usize| u32::from_be_bytes(load[at..at + 4].try_into().unwrap());
        let size = |at: usize, flag: u8| {
            (load[0] & flag != 0).then(|| Size { width: number(at), height: number(at + 4) })
        };
        let model_len = load[17] as usize;
        let block_len = u16::from_be_bytes([load[18], load[19]]) as usize;
        let (model, rest) = load[20..].split_at(model_len);
        assert_eq!(
            line_of(photograph(&rest[..block_len], size(1, 1), size(9, 2), model)),
            lines.next().unwrap()
        );
        count += 1;
    }
    assert_eq!(lines.next(), None);
    println!("{count} loads");
}
