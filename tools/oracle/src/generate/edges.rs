//! Loads at the edges of the rules: plain ones with one thing changed at a
//! time, and every small case of fitting, scaling and windows.

use super::block::{self, Entry, Order};
use super::random::Random;
use super::{
    CROP_AREA, CROP_HI_SPEED, DX, FOCUS_MODE, MANUAL_TEXTS, MEDIUM, MODEL, OTHER_MODELS, Position,
    RECORD, VERSIONS, Version, long_manual, name_points, record, size,
};
use crate::{Load, Size};

/// The D600's own DX crop, and one that changes nothing.
const DX_CROP: [u16; 7] = [2, 6080, 4028, 3968, 2636, 1040, 696];
const NO_CROP: [u16; 7] = [11, 6080, 4028, 6080, 4028, 0, 0];

/// All of them, laid out by chance.
pub fn edges(random: &mut Random) -> Vec<Load> {
    let mut loads = Vec::new();
    table_points(random, &mut loads);
    records(random, &mut loads);
    focus_modes(random, &mut loads);
    crops(random, &mut loads);
    small_frames(random, &mut loads);
    names(random, &mut loads);
    loads
}

/// A load before it is laid out.
#[derive(Clone)]
struct Draft {
    order: Order,
    record: Vec<u8>,
    entries: Vec<Entry>,
    raw: Option<Size>,
    picture: Option<Size>,
    model: Vec<u8>,
}

impl Draft {
    fn new(random: &mut Random, version: Version, position: &Position) -> Self {
        let order = Order::any(random);
        Self {
            order,
            record: record(random, order, version, position),
            entries: Vec::new(),
            raw: None,
            picture: None,
            model: MODEL.to_vec(),
        }
    }

    /// A position in the middle of its frame, that nothing stands against.
    fn recorded(random: &mut Random, version: Version) -> Self {
        let position = Position::new([6000, 4000], [(3000, 291), (2000, 323)]);
        Self::new(random, version, &position)
    }

    /// Points by name, that nothing stands against.
    fn named(random: &mut Random, primary: u8, mask: u64) -> Self {
        let mut draft = Self::new(random, VERSIONS[0], &Position::default());
        name_points(&mut draft.record, 3, primary, mask);
        draft
    }

    fn with(mut self, tag: u16, kind: u16, value: Vec<u8>) -> Self {
        self.entries.push(Entry::new(tag, kind, value));
        self
    }

    fn with_crop(self, numbers: &[u16]) -> Self {
        let value = self.order.shorts(numbers);
        self.with(CROP_HI_SPEED, 3, value)
    }

    fn with_area(self, kind: u16, numbers: &[u32], raw: Option<Size>) -> Self {
        let value = match kind {
            3 => self.order.shorts(&numbers.iter().map(|&n| n as u16).collect::<Vec<_>>()),
            _ => self.order.longs(numbers),
        };
        let mut draft = self.with(CROP_AREA, kind, value);
        draft.raw = raw;
        draft
    }

    fn with_picture(mut self, picture: Option<Size>) -> Self {
        self.picture = picture;
        self
    }

    /// The load whose record has type `kind`.
    fn load_as(mut self, random: &mut Random, kind: u16) -> Load {
        self.record.resize(self.record.len().next_multiple_of(block::size_of(kind)), 0);
        self.entries.push(Entry::new(RECORD, kind, self.record));
        Load {
            raw: self.raw,
            picture: self.picture,
            model: self.model,
            block: block::lay_out(random, self.order, self.entries, 0),
        }
    }

    fn load(self, random: &mut Random) -> Load {
        self.load_as(random, 7)
    }
}

/// Each of the 39 points alone, then all of them, in the whole frame, the DX
/// window and the medium one.
fn table_points(random: &mut Random, loads: &mut Vec<Load>) {
    for (crop, picture) in [(None, None), (Some(DX_CROP), Some(DX)), (None, Some(MEDIUM))] {
        for (primary, mask) in (1..=39).map(|number| (number, 0)).chain([(1, u64::MAX)]) {
            let draft = Draft::named(random, primary, mask).with_picture(picture);
            let draft = match crop {
                Some(crop) => draft.with_crop(&crop),
                None => draft,
            };
            loads.push(draft.load(random));
        }
    }
}

/// Versions, lengths, types, area modes, in-focus bytes, missing positions.
fn records(random: &mut Random, loads: &mut Vec<Load>) {
    for version in VERSIONS {
        for length in [version.min - 1, version.min, version.min + 1] {
            let mut draft = Draft::recorded(random, version);
            draft.record.resize(length, 0);
            loads.push(draft.load(random));
        }
        for digit in b'0'..=b'9' {
            let mut draft = Draft::recorded(random, version);
            draft.record[3] = digit;
            loads.push(draft.load(random));
        }
        for place in 0..3 {
            let mut draft = Draft::recorded(random, version);
            draft.record[place] += 1;
            loads.push(draft.load(random));
        }
        for byte in [0, 1, 2, 255] {
            let mut draft = Draft::recorded(random, version);
            draft.record[version.in_focus.unwrap_or(54)] = byte;
            loads.push(draft.load(random));
        }
    }
    for length in [1, 3, 4, 5, 6, 15] {
        let mut draft = Draft::named(random, 1, 1);
        draft.record.truncate(length);
        loads.push(draft.load(random));
    }
    for kind in 1..=13 {
        loads.push(Draft::recorded(random, VERSIONS[0]).load_as(random, kind));
        loads.push(Draft::named(random, 1, 1).load_as(random, kind));
    }
    for detection in [0, 1, 2, 3, 255] {
        for code in [0, 1, 5, 8, 9, 192, 193, 197, 207, 255] {
            let mut draft = if code % 2 == 0 {
                Draft::named(random, 39, 0)
            } else {
                let version = random.pick(&VERSIONS);
                Draft::recorded(random, version)
            };
            draft.record[4] = detection;
            draft.record[5] = code;
            loads.push(draft.load(random));
        }
    }
    for zeros in 0..16 {
        for version in &VERSIONS[..2] {
            let position = Position::new([600, 400], [(300, 20), (200, 20)]).with_zeros(zeros);
            let mut draft = Draft::new(random, *version, &position);
            name_points(&mut draft.record, 3, 7, 0xF0);
            loads.push(draft.load(random));
        }
    }
}

fn focus_modes(random: &mut Random, loads: &mut Vec<Load>) {
    let mut add = |kind: u16, text: Vec<u8>| {
        let version = random.pick(&VERSIONS);
        loads.push(Draft::recorded(random, version).with(FOCUS_MODE, kind, text).load(random));
    };
    for text in MANUAL_TEXTS {
        add(2, text.to_vec());
    }
    for kind in 1..=13 {
        add(kind, b"MANUAL\0\0".to_vec());
    }
    for length in [255, 256] {
        for at in [0, length - 6] {
            let text = long_manual(length, at);
            add(2, text.clone());
            add(2, [&text, b"\0 more".as_slice()].concat());
        }
    }
}

/// Every kind of CropHiSpeed with every kind of CropArea and picture.
fn crops(random: &mut Random, loads: &mut Vec<Load>) {
    let pictures = [
        None,
        Some(size(5392, 3592)),
        Some(size(4000, 4000)),
        Some(size(3000, 1688)),
        Some(size(0, 5)),
        Some(size(5, 0)),
    ];
    let cropped_sizes = [
        [6000, 4000],
        [5392, 3592],
        [4000, 4000],
        [6000, 3376],
        [6001, 4000],
        [6000, 4001],
        [6001, 4001],
        [5999, 4001],
        [6001, 3999],
    ];
    let mut drafts = Vec::new();
    for [width, height] in cropped_sizes {
        let numbers = [11, 6000, 4000, width, height, 0, 0];
        drafts.push(Draft::recorded(random, VERSIONS[0]).with_crop(&numbers));
    }
    // Seven numbers of another type, or another count of them.
    let numbers = [2, 6000, 4000, 5392, 3592, 0, 0];
    drafts.push(Draft::recorded(random, VERSIONS[0]));
    drafts.push(Draft::recorded(random, VERSIONS[0]).with_crop(&numbers[..6]));
    drafts.push(Draft::recorded(random, VERSIONS[0]).with_crop(&[&numbers[..], &[0]].concat()));
    for kind in [4, 8, 13] {
        let draft = Draft::recorded(random, VERSIONS[0]);
        let value = match kind {
            8 => draft.order.shorts(&numbers),
            _ => draft.order.longs(&numbers.map(u32::from)),
        };
        drafts.push(draft.with(CROP_HI_SPEED, kind, value));
    }
    for draft in drafts {
        for picture in pictures {
            loads.push(draft.clone().with_picture(picture).load(random));
        }
        for draft in with_areas(random, &draft) {
            let picture = random.pick(&pictures);
            loads.push(draft.clone().load(random));
            loads.push(draft.with_picture(picture).load(random));
        }
    }
}

/// The draft with each kind of CropArea, usable and not.
fn with_areas(random: &mut Random, draft: &Draft) -> Vec<Draft> {
    let raw = Some(size(6020, 4030));
    let good = [12, 8, 5392, 3592];
    let mut drafts = Vec::new();
    for sides in [[5392, 3592], [4000, 4000], [6000, 3376], [6000, 3374], [6008, 4000]] {
        let kind = random.pick(&[3, 4]);
        drafts.push(draft.clone().with_area(kind, &[12, 8, sides[0], sides[1]], raw));
    }
    for kind in [3, 4] {
        drafts.push(draft.clone().with_area(kind, &good, None));
        drafts.push(draft.clone().with_area(kind, &good[..3], raw));
        drafts.push(draft.clone().with_area(kind, &[12, 8, 5392, 3592, 0], raw));
    }
    for kind in [7, 9, 13] {
        drafts.push(draft.clone().with_area(kind, &good, raw));
    }
    let others = [
        [12, 8, 0, 3592],
        [12, 8, 5392, 0],
        [u32::MAX, 8, 5392, 3592],
        [12, u32::MAX, 5392, 3592],
        [0, 0, u32::MAX, 3592],
    ];
    for numbers in others {
        drafts.push(draft.clone().with_area(4, &numbers, raw));
    }
    for (width, height) in [(5404, 3600), (5403, 3600), (5404, 3599)] {
        drafts.push(draft.clone().with_area(3, &good, Some(size(width, height))));
    }
    drafts
}

/// On one axis, in small frames: every centre and side; every scaling of
/// those that fit; every window of those that fit. The axes take turns.
fn small_frames(random: &mut Random, loads: &mut Vec<Load>) {
    let mut axis = 0;
    for frame in 1..=5 {
        for center in 0..=frame + 1 {
            for side in 1..=frame + 1 {
                loads.push(on_axis(random, axis, frame, center, side).load(random));
                axis = 1 - axis;
                let half = side.div_ceil(2);
                if half > center || center + half > frame {
                    continue;
                }
                for new in 1..=4 {
                    let draft = on_axis(random, axis, frame, center, side);
                    let draft = draft.with_crop(&[2, 9, 9, 8, 8, 0, 0]);
                    loads.push(placed_on(random, draft, sides(axis, new, 10)).load(random));
                    axis = 1 - axis;
                }
                for window in 1..=u32::from(frame) + 1 {
                    let draft = on_axis(random, axis, frame, center, side);
                    let cropped = [[8, 9], [9, 8]][axis];
                    let draft = draft.with_crop(&[17, 9, 9, cropped[0], cropped[1], 0, 0]);
                    loads.push(placed_on(random, draft, sides(axis, window, 10)).load(random));
                    axis = 1 - axis;
                }
            }
        }
    }
}

/// A position on one axis; on the other, one that fits with room to spare.
fn on_axis(random: &mut Random, axis: usize, frame: u16, center: u16, side: u16) -> Draft {
    let version = random.pick(&VERSIONS);
    let mut frames = [10, 10];
    frames[axis] = frame;
    let mut axes = [(5, 2), (5, 2)];
    axes[axis] = (center, side);
    Draft::new(random, version, &Position::new(frames, axes))
}

fn sides(axis: usize, side: u32, other: u32) -> Size {
    if axis == 0 { size(side, other) } else { size(other, side) }
}

/// The draft with a size to place its position on: a CropArea or a picture.
fn placed_on(random: &mut Random, draft: Draft, onto: Size) -> Draft {
    match random.below(3) {
        0 => draft.with_area(3, &[0, 0, onto.width, onto.height], Some(onto)),
        1 => draft.with_area(4, &[1, 0, onto.width, onto.height], Some(size(15, 15))),
        _ => draft.with_picture(Some(onto)),
    }
}

fn names(random: &mut Random, loads: &mut Vec<Load>) {
    for primary in (0..=45).chain([255]) {
        loads.push(Draft::named(random, primary, 1).load(random));
    }
    for bit in 0..56 {
        loads.push(Draft::named(random, 20, 1 << bit).load(random));
    }
    for layout in [0, 1, 2, 4, 255] {
        let mut draft = Draft::named(random, 1, 1);
        draft.record[6] = layout;
        loads.push(draft.load(random));
    }
    for model in OTHER_MODELS {
        let mut draft = Draft::named(random, 1, 1);
        draft.model = model.to_vec();
        loads.push(draft.load(random));
    }
    let mut crops = vec![NO_CROP, DX_CROP];
    for place in [0, 5, 6] {
        for changed in [DX_CROP[place] - 1, DX_CROP[place] + 1] {
            let mut crop = DX_CROP;
            crop[place] = changed;
            crops.push(crop);
        }
    }
    // The sizes only have to differ, whichever way.
    crops.push([2, 6080, 4028, 6081, 4028, 1040, 696]);
    crops.push([2, 6080, 4028, 6080, 0, 1040, 696]);
    // No crop, whatever the mode and the origin.
    crops.push([2, 6080, 4028, 6080, 4028, 1040, 696]);
    let pictures = [
        None,
        Some(MEDIUM),
        Some(DX),
        Some(size(4512, 3007)),
        Some(size(4511, 3008)),
        Some(size(3936, 2623)),
        Some(size(3935, 2624)),
        Some(size(0, 0)),
        Some(size(6016, 4016)),
    ];
    for picture in pictures {
        for crop in &crops {
            let draft = Draft::named(random, 27, 0b10_0000_0011).with_crop(crop);
            loads.push(draft.with_picture(picture).load(random));
        }
        loads.push(Draft::named(random, 38, 0).with_picture(picture).load(random));
    }
}
