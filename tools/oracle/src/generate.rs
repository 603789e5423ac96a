//! Loads made from a seed: blocks that the library reads, of types 1 to 13,
//! counts of at least 1, rising tags and undamaged values, with a small share
//! of unreadable ones. More than two in five are answered with points.

mod block;
mod edges;
mod random;
pub mod shapes;

pub use edges::edges;
pub use random::Random;

use crate::{Load, Size};
use block::{Entry, Order};

const FOCUS_MODE: u16 = 0x0007;
const CROP_HI_SPEED: u16 = 0x001B;
const CROP_AREA: u16 = 0x0045;
const RECORD: u16 = 0x00B7;

const MODEL: &[u8] = b"NIKON D600";
const DX: Size = size(3936, 2624);
const MEDIUM: Size = size(4512, 3008);

/// A version of the record: its shortest length, where its pairs begin, and
/// its in-focus byte.
#[derive(Clone, Copy)]
struct Version {
    text: &'static [u8; 4],
    min: usize,
    pairs: usize,
    in_focus: Option<usize>,
}

const fn version(
    text: &'static [u8; 4],
    min: usize,
    pairs: usize,
    in_focus: Option<usize>,
) -> Version {
    Version { text, min, pairs, in_focus }
}

const VERSIONS: [Version; 7] = [
    version(b"0100", 30, 16, Some(28)),
    version(b"0101", 84, 70, Some(82)),
    version(b"0300", 60, 42, None),
    version(b"0301", 60, 42, None),
    version(b"0400", 80, 62, Some(74)),
    version(b"0401", 80, 62, Some(74)),
    version(b"0402", 80, 62, Some(74)),
];

/// One load of any kind.
pub fn load(random: &mut Random) -> Load {
    if random.chance(45) { named(random) } else { recorded(random) }
}

const fn size(width: u32, height: u32) -> Size {
    Size { width, height }
}

// ------------------------------------------------------- recorded positions

/// A frame, a centre and an area, as the record's pairs hold them.
#[derive(Clone, Copy, Default)]
struct Position {
    frame: [u16; 2],
    center: [u16; 2],
    area: [u16; 2],
}

impl Position {
    /// From the frame, and a centre and a side for each axis.
    fn new(frame: [u16; 2], axes: [(u16, u16); 2]) -> Self {
        Self { frame, center: axes.map(|(center, _)| center), area: axes.map(|(_, side)| side) }
    }

    /// Mostly one that fits its frame, often just; else one that just fails.
    fn recorded(random: &mut Random) -> Self {
        let frame = frame(random);
        let fails = random.chance(12).then(|| random.index(2));
        let axes = [0, 1].map(|axis| {
            if fails == Some(axis) {
                failing(random, frame[axis])
            } else {
                fitting(random, frame[axis])
            }
        });
        Self::new(frame, axes)
    }

    /// One of no position: a side of frame or area is zero.
    fn missing(random: &mut Random) -> Self {
        if random.chance(60) {
            return Self::default();
        }
        let zeros = random.number(1, 15);
        Self::recorded(random).with_zeros(zeros)
    }

    /// With a zero for each bit of `zeros`: frame's sides, then the area's.
    fn with_zeros(mut self, zeros: u32) -> Self {
        for (bit, side) in self.frame.iter_mut().chain(&mut self.area).enumerate() {
            if zeros >> bit & 1 == 1 {
                *side = 0;
            }
        }
        self
    }

    /// How far a centred window may shrink on each side of an axis before
    /// the area no longer fits it.
    fn room(&self, axis: usize) -> u32 {
        let [frame, center, side] =
            [self.frame[axis], self.center[axis], self.area[axis]].map(u32::from);
        let half = side.div_ceil(2);
        let before = center.saturating_sub(half);
        before.min(frame.saturating_sub(center + half))
    }

    fn frame_side(&self, axis: usize) -> u32 {
        u32::from(self.frame[axis])
    }
}

fn frame(random: &mut Random) -> [u16; 2] {
    let usual =
        [[6016, 4016], [8256, 5504], [6048, 4032], [4928, 3264], [6000, 4000], [5568, 3713]];
    match random.below(10) {
        0..3 => random.pick(&usual),
        3..6 => [random.short(2, 12), random.short(2, 12)],
        6..8 => [random.short(2, 700), random.short(2, 700)],
        8 => [random.short(1, 65_535), random.short(1, 65_535)],
        _ => [random.pick(&[1, 2, 3, 4512, 65_534, 65_535]), random.pick(&[2, 3, 4, 3008, 65_535])],
    }
}

/// A centre and a side that fit, where any do.
fn fitting(random: &mut Random, frame: u16) -> (u16, u16) {
    if frame < 2 {
        return (random.short(0, frame), random.short(1, 2));
    }
    let most = frame / 2;
    let half = match random.below(4) {
        0 => most,
        1 => random.short(1, most.min(3)),
        _ => random.short(1, most),
    };
    let side = 2 * half - u16::from(random.chance(50));
    let center = match random.below(5) {
        0 => half,
        1 => frame - half,
        2 => frame / 2,
        _ => random.short(half, frame - half),
    };
    (center, side)
}

/// A centre and a side that fail, most by one.
fn failing(random: &mut Random, frame: u16) -> (u16, u16) {
    let (center, side) = fitting(random, frame);
    let half = side.div_ceil(2);
    match random.below(5) {
        0 => (half - 1, side),
        1 => ((frame - half.min(frame)).saturating_add(1), side),
        2 => (center, (2 * center.min(frame - center.min(frame))).saturating_add(1)),
        3 => (frame.saturating_add(1), side),
        _ => (random.short(0, 65_535), random.short(1, 65_535)),
    }
}

fn recorded(random: &mut Random) -> Load {
    let order = Order::any(random);
    let position = Position::recorded(random);
    let mut entries = Vec::new();
    let cut = crop(random, order, &mut entries);
    let mut raw = other_size(random);
    let mut picture = None;
    match random.below(20) {
        0..10 => {
            if random.chance(75) {
                picture = picture_of(random, &position, cut);
            }
        }
        10..16 => raw = Some(window(random, order, &position, cut, &mut entries)),
        _ => raw = unusable(random, order, raw, &mut entries),
    }
    if picture.is_none() && random.chance(30) {
        picture = other_size(random);
    }
    let version = random.pick(&VERSIONS);
    let value = record(random, order, version, &position);
    let model = model(random, 40);
    finish(random, order, entries, value, raw, picture, model)
}

/// What a generated CropHiSpeed cuts.
#[derive(Clone, Copy, PartialEq, Eq)]
enum Cut {
    Nothing,
    Both,
    One(usize),
    Odd,
}

/// Adds a CropHiSpeed, or none, and says what it cuts.
fn crop(random: &mut Random, order: Order, entries: &mut Vec<Entry>) -> Cut {
    let cut = match random.below(20) {
        0..2 => return Cut::Nothing,
        2..6 => Cut::Nothing,
        6..11 => Cut::Both,
        11..15 => Cut::One(0),
        15..19 => Cut::One(1),
        _ => Cut::Odd,
    };
    let original = if random.chance(70) {
        [random.short(3, 9_000), random.short(3, 6_000)]
    } else {
        [random.short(1, 65_534), random.pick(&[1, 2, 65_534])]
    };
    let mut cropped = original;
    let less = |random: &mut Random, side: &mut u16| {
        *side = if random.chance(40) { *side - 1 } else { random.short(0, *side - 1) };
    };
    match cut {
        Cut::Nothing => {}
        Cut::Both => cropped.iter_mut().for_each(|side| less(random, side)),
        Cut::One(axis) => less(random, &mut cropped[axis]),
        Cut::Odd => {
            let larger = random.index(2);
            cropped[larger] += 1;
            match random.below(3) {
                0 => less(random, &mut cropped[1 - larger]),
                1 => cropped[1 - larger] += 1,
                _ => {}
            }
        }
    }
    let mode = random.pick(&[0, 1, 2, 6, 9, 11, 12, 17, 18, 500]);
    let at = [random.short(0, 3_000), random.short(0, 2_000)];
    let numbers = [mode, original[0], original[1], cropped[0], cropped[1], at[0], at[1]];
    if push_crop(random, order, &numbers, entries) { cut } else { Cut::Nothing }
}

/// Adds the seven numbers, sometimes with a wrong type or count; false then.
fn push_crop(
    random: &mut Random,
    order: Order,
    numbers: &[u16; 7],
    entries: &mut Vec<Entry>,
) -> bool {
    match random.below(20) {
        0 => {
            let kind = random.pick(&[1, 2, 4, 5, 6, 7, 8, 9, 10, 11, 12, 13]);
            let value = if kind == 4 || kind == 13 {
                order.longs(&numbers.map(u32::from))
            } else {
                let value = order.shorts(numbers);
                let whole = 7 * block::size_of(kind);
                value.into_iter().cycle().take(whole).collect()
            };
            entries.push(Entry::new(CROP_HI_SPEED, kind, value));
            false
        }
        1 => {
            let mut other = numbers.to_vec();
            if random.chance(50) {
                other.truncate(random.index(6) + 1);
            } else {
                other.extend((0..=random.index(2)).map(|i| numbers[i]));
            }
            entries.push(Entry::new(CROP_HI_SPEED, 3, order.shorts(&other)));
            false
        }
        _ => {
            entries.push(Entry::new(CROP_HI_SPEED, 3, order.shorts(numbers)));
            true
        }
    }
}

/// A side of a centred window that the area fits, or just fails to.
fn window_side(random: &mut Random, position: &Position, axis: usize) -> u32 {
    let side = position.frame_side(axis);
    let room = position.room(axis);
    let shift = match random.below(6) {
        0 => room + 1,
        1 => room,
        2 => 0,
        _ => random.number(0, room),
    };
    match random.below(30) {
        0 => side + 1,
        1 => random.number(1, 70_000),
        _ => side.saturating_sub(2 * shift + random.number(0, 1)).max(1),
    }
}

/// A side of a size that positions are scaled to.
fn target_side(random: &mut Random, side: u32) -> u32 {
    match random.below(10) {
        0..2 => random.number(1, 5),
        2 => side,
        3 => side / 2 + 1,
        4 => 2 * side + random.number(0, 1),
        5 => random.number(1, u32::MAX),
        6 => random.pick(&[u32::MAX, u32::MAX - 1, 65_535, 65_536, 1]),
        _ => random.number(1, 9_000),
    }
}

/// Adds a usable CropArea and gives the raw size that it lies in.
fn window(
    random: &mut Random,
    order: Order,
    position: &Position,
    cut: Cut,
    entries: &mut Vec<Entry>,
) -> Size {
    let mut sides = [0, 1].map(|axis| target_side(random, position.frame_side(axis)));
    if let Cut::One(axis) = cut {
        sides[axis] = window_side(random, position, axis);
        sides[1 - axis] = position.frame_side(1 - axis).max(1);
        if random.chance(8) {
            sides[1 - axis] += 1;
        }
    }
    let before = sides.map(|side| random.number(0, 40).min(u32::MAX - side));
    let after = [0, 1].map(|axis| {
        let most = u32::MAX - sides[axis] - before[axis];
        if random.chance(50) { 0 } else { random.number(0, 40).min(most) }
    });
    let numbers = [before[0], before[1], sides[0], sides[1]];
    entries.push(area_entry(random, order, &numbers));
    size(sides[0] + before[0] + after[0], sides[1] + before[1] + after[1])
}

/// Four numbers as type 3 where they allow it, or type 4.
fn area_entry(random: &mut Random, order: Order, numbers: &[u32]) -> Entry {
    let shorts: Result<Vec<u16>, _> = numbers.iter().map(|&n| u16::try_from(n)).collect();
    match shorts {
        Ok(shorts) if random.chance(50) => Entry::new(CROP_AREA, 3, order.shorts(&shorts)),
        _ => Entry::new(CROP_AREA, 4, order.longs(numbers)),
    }
}

/// Adds a CropArea that cannot be used, and gives the raw size to go with it.
fn unusable(
    random: &mut Random,
    order: Order,
    raw: Option<Size>,
    entries: &mut Vec<Entry>,
) -> Option<Size> {
    let [width, height] = [0; 2].map(|_| random.number(1, 9_000));
    let fitting = Some(size(width + 4, height + 4));
    let mut numbers = vec![random.number(0, 4), random.number(0, 4), width, height];
    let (entry, raw) = match random.below(7) {
        0 => (area_entry(random, order, &numbers), None),
        1 => {
            let kind = random.pick(&[1, 2, 5, 6, 7, 8, 9, 10, 11, 12, 13]);
            let bytes = order.longs(&numbers).into_iter().cycle();
            let value = bytes.take(4 * block::size_of(kind)).collect();
            (Entry::new(CROP_AREA, kind, value), fitting)
        }
        2 => {
            let count = random.pick(&[1, 2, 3, 5, 6]);
            numbers.resize(count, 1);
            (area_entry(random, order, &numbers), fitting)
        }
        3 => {
            numbers[2 + random.index(2)] = 0;
            (area_entry(random, order, &numbers), fitting)
        }
        4 => {
            // One pixel past the raw size.
            let past = random.index(2);
            let mut sides = [numbers[0] + width, numbers[1] + height];
            sides[past] -= 1;
            (area_entry(random, order, &numbers), Some(size(sides[0], sides[1])))
        }
        5 => {
            // A sum that would wrap in 32 bits.
            numbers[random.index(2)] = u32::MAX - random.number(0, 1);
            (area_entry(random, order, &numbers), fitting)
        }
        _ => (area_entry(random, order, &numbers), raw.filter(|raw| raw.width < width)),
    };
    entries.push(entry);
    raw
}

/// A picture size for a crop without a CropArea.
fn picture_of(random: &mut Random, position: &Position, cut: Cut) -> Option<Size> {
    if random.chance(6) {
        return other_size(random);
    }
    let mut sides = [0, 1].map(|axis| target_side(random, position.frame_side(axis)));
    if let Cut::One(axis) = cut
        && random.chance(90)
    {
        sides[axis] = window_side(random, position, axis);
        sides[1 - axis] = position.frame_side(1 - axis).max(1);
        // The window's shape in other pixels.
        let (by, of) = random.pick(&[(1, 1), (1, 1), (2, 1), (1, 2), (3, 4), (7, 1), (1_000, 1)]);
        sides = sides.map(|side| (side * by / of).max(1));
    }
    Some(size(sides[0], sides[1]))
}

fn other_size(random: &mut Random) -> Option<Size> {
    let zero = |random: &mut Random| random.pick(&[size(0, 0), size(0, 7), size(5, 0)]);
    match random.below(10) {
        0..4 => None,
        4 => Some(zero(random)),
        5 => Some(MEDIUM),
        6 => Some(DX),
        7 => Some(random.pick(&[
            size(6016, 4016),
            size(3008, 2008),
            size(4512, 3007),
            size(3935, 2624),
        ])),
        _ => Some(size(random.number(1, 9_000), random.number(1, 9_000))),
    }
}

// ------------------------------------------------------------- named points

fn named(random: &mut Random) -> Load {
    let order = Order::any(random);
    let position = Position::missing(random);
    let mut entries = Vec::new();
    let mut raw = other_size(random);
    let mut picture = random.pick(&[None, None, Some(MEDIUM)]);
    match random.below(20) {
        0..5 => {}
        5..10 => {
            let side = [random.short(1, 9_000), random.short(1, 9_000)];
            let mode = random.pick(&[0, 2, 11]);
            let numbers = [mode, side[0], side[1], side[0], side[1], 0, 0];
            push_crop(random, order, &numbers, &mut entries);
        }
        10..18 => {
            let mut numbers = [2, 6080, 4028, 3968, 2636, 1040, 696];
            if random.chance(20) {
                // The sizes only have to differ.
                numbers[random.index(4) + 1] = random.pick(&[0, 1, 6080, 65_535]);
            }
            if random.chance(20) {
                let wrong = random.pick(&[0, 5, 6]);
                numbers[wrong] = random.pick(&[0, 1, 3, 11, 696, 697, 1039, 1040, 1041]);
            }
            push_crop(random, order, &numbers, &mut entries);
            picture = random.pick(&[None, Some(DX), Some(DX), Some(MEDIUM)]);
        }
        _ => {
            crop(random, order, &mut entries);
        }
    }
    if random.chance(25) {
        picture = other_size(random);
    }
    if random.chance(20) {
        if random.chance(50) {
            raw = Some(window(random, order, &position, Cut::Both, &mut entries));
        } else {
            raw = unusable(random, order, raw, &mut entries);
        }
    }
    let version = if random.chance(88) { VERSIONS[0] } else { random.pick(&VERSIONS) };
    let mut value = record(random, order, version, &position);
    let layout = if random.chance(93) { 3 } else { random.pick(&[0, 1, 2, 4, 255]) };
    let primary = match random.below(20) {
        0 => random.pick(&[0, 40, 45, 255]),
        1 => random.number(0, 45),
        _ => random.number(1, 39),
    };
    let mask = match random.below(6) {
        0 => 0,
        1 => 1 << (primary.max(1) - 1).min(55),
        2 => random.bits() & random.bits() & random.bits(),
        3 => u64::MAX,
        4 => 1 << random.below(56),
        _ => random.bits(),
    };
    name_points(&mut value, layout, primary as u8, mask);
    let model = model(random, 90);
    finish(random, order, entries, value, raw, picture, model)
}

/// Writes what bytes 6 to 14 of version 0100 hold.
fn name_points(value: &mut [u8], layout: u8, primary: u8, mask: u64) {
    let [m0, m1, m2, m3, m4, m5, m6, _] = mask.to_le_bytes();
    let bytes = [layout, primary, m0, m1, m2, m3, m4, m5, m6];
    for (place, byte) in value.iter_mut().skip(6).zip(bytes) {
        *place = byte;
    }
}

fn model(random: &mut Random, right: u64) -> Vec<u8> {
    if random.chance(right) {
        return MODEL.to_vec();
    }
    random.pick(&OTHER_MODELS).to_vec()
}

/// Models that name no table.
const OTHER_MODELS: [&[u8]; 11] = [
    b"",
    b"NIKON D60",
    b"NIKON D6000",
    b"NIKON D600 ",
    b" NIKON D600",
    b"NIKON D600\0",
    b"NIKON D610",
    b"nikon d600",
    b"NIKON  D600",
    b"NIKON D60\xFF",
    b"NIKON Z 9",
];

// --------------------------------------------------- the record and the rest

/// A record of a version, its pairs at their places, the rest at random.
fn record(random: &mut Random, order: Order, version: Version, position: &Position) -> Vec<u8> {
    let mut value = vec![0; version.min];
    if random.chance(60) {
        random.fill(&mut value);
    }
    value[..4].copy_from_slice(version.text);
    let (detection, code) = random.pick(&[
        (0, 0),
        (0, 0),
        (0, 5),
        (0, 8),
        (0, 9),
        (1, 193),
        (2, 193),
        (2, 197),
        (0, 197),
        (1, 207),
        (2, 207),
        (0, 207),
        (3, 207),
        (1, 0),
        (2, 5),
        (1, 8),
        (1, 9),
        (0, 1),
        (255, 193),
        (9, 255),
    ]);
    value[4] = detection;
    value[5] = code;
    let numbers = [position.frame, position.center, position.area].concat();
    value[version.pairs..version.pairs + 12].copy_from_slice(&order.shorts(&numbers));
    if let Some(at) = version.in_focus {
        value[at] = random.pick(&[0, 0, 1, 1, 2, 255]);
    }
    value
}

/// A record of another length or version, once in a while.
fn vary_record(random: &mut Random, value: &mut Vec<u8>) {
    let min = value.len();
    let length = match random.below(40) {
        0 => min - 1,
        1 => random.index(min) + 1,
        2 => random.pick(&[1, 3, 4, 5]),
        3..20 => min + random.index(6) + 1,
        20 => min + random.index(40) + 1,
        _ => min,
    };
    value.resize(length, 0);
    if length > min {
        random.fill(&mut value[min..]);
    }
    if length < 4 {
        return;
    }
    match random.below(100) {
        // A neighbour of the version, all else as it was.
        0..3 => value[3] = random.pick(b"0123456789"),
        3..6 => {
            let others = [b"0102", b"0200", b"0302", b"0403", b"0000", b"1000", b"0100", b"0401"];
            let other = random.pick(&others);
            value[..4].copy_from_slice(other);
        }
        6 => value[random.index(4)] = random.bits() as u8,
        _ => {}
    }
}

/// Texts that are MANUAL by the rules, or almost.
const MANUAL_TEXTS: [&[u8]; 20] = [
    b"MANUAL",
    b"MANUAL\0",
    b"MANUAL ",
    b" MANUAL",
    b"  MANUAL  \0",
    b"MANUAL\0 AF",
    b"MANUAL  \0x",
    b"MANUA",
    b"MANUALS",
    b"Manual",
    b"MAN UAL",
    b"\0MANUAL",
    b"MANUAL\t",
    b"\tMANUAL",
    b"\nMANUAL",
    b"MANUAL.",
    b" \0MANUAL",
    b"MANUAL\xA0",
    b"\xFFMANUAL",
    b"       ",
];

/// MANUAL in a row of spaces of this length.
fn long_manual(length: usize, at: usize) -> Vec<u8> {
    let mut text = vec![b' '; length];
    text[at..at + 6].copy_from_slice(b"MANUAL");
    text
}

fn focus_mode(random: &mut Random) -> Option<Entry> {
    let usual: [&[u8]; 6] = [b"AF-S  ", b"AF-C  \0", b"AF-A", b"MF", b"AF", b"\0"];
    match random.below(40) {
        0..5 => Some(Entry::new(FOCUS_MODE, 2, random.pick(&MANUAL_TEXTS).to_vec())),
        5..7 => {
            // The right text with a wrong type.
            let kind = random.pick(&[1, 3, 4, 5, 6, 7, 8, 9, 10, 11, 12, 13]);
            let text = b"MANUAL\0\0".iter().copied();
            Some(Entry::new(FOCUS_MODE, kind, text.collect()))
        }
        7..22 => Some(Entry::new(FOCUS_MODE, 2, random.pick(&usual).to_vec())),
        22 if random.chance(20) => {
            // Texts around the longest that is read, 255 bytes.
            let length = random.pick(&[254, 255, 256, 257]);
            let at = random.pick(&[0, 100, length - 6]);
            let mut text = long_manual(length, at);
            if random.chance(40) {
                text.extend(b"\0 more");
            }
            Some(Entry::new(FOCUS_MODE, 2, text))
        }
        _ => None,
    }
}

/// The load of these entries, with the record, a FocusMode and other tags.
fn finish(
    random: &mut Random,
    order: Order,
    mut entries: Vec<Entry>,
    mut value: Vec<u8>,
    raw: Option<Size>,
    picture: Option<Size>,
    model: Vec<u8>,
) -> Load {
    vary_record(random, &mut value);
    match random.below(50) {
        0 => {}
        1 => {
            let kind = random.pick(&[1, 2, 3, 4, 5, 6, 8, 9, 10, 11, 12, 13]);
            value.resize(value.len().next_multiple_of(block::size_of(kind)), 0);
            entries.push(Entry::new(RECORD, kind, value));
        }
        _ => entries.push(Entry::new(RECORD, 7, value)),
    }
    entries.extend(focus_mode(random));
    block::add_others(random, &mut entries, &[FOCUS_MODE, CROP_HI_SPEED, CROP_AREA, RECORD]);
    let mut block = block::lay_out(random, order, entries, 3);
    if random.chance(2) {
        block::spoil(random, order, &mut block);
    }
    Load { raw, picture, model, block }
}
