//! The focus points of Nikon photographs: one photograph, a whole script of call lines, and the contents of a maker note. The functions of
//! libfocuspoints.a are proved to meet their contracts (crates/focuspoints); this wrapper hands them slices and gives names to the numbers
//! that they write. What they need of a caller is what Rust's references have: slices that are there, aligned and apart.

use std::error;
use std::fmt;

extern "C" {
    fn focuspoints_photograph(
        block: *const u8,
        block_len: usize,
        raw_given: u32,
        raw_width: u32,
        raw_height: u32,
        picture_given: u32,
        picture_width: u32,
        picture_height: u32,
        model: *const u8,
        model_len: usize,
        out: *mut u32,
        out_len: usize,
    ) -> u32;
    fn focuspoints_script(
        script: *const u8,
        script_len: usize,
        out: *mut u8,
        out_len: usize,
    ) -> usize;
    fn focuspoints_contents(
        block: *const u8,
        block_len: usize,
        out: *mut u32,
        out_len: usize,
    ) -> u32;
}

/// How many places are always enough for a listing: a head of six numbers, and six numbers for each of 39 points.
pub const LISTING: usize = 240;
/// How many places contents needs.
pub const CONTENTS: usize = 5;
/// No line of a script is answered with more bytes.
pub const A_LINE: usize = 2700;

/// A width and a height in pixels.
#[derive(Clone, Copy, Debug, PartialEq, Eq, Hash)]
pub struct Size {
    pub width: u32,
    pub height: u32,
}

/// A distance from the left edge, and one from the top edge.
#[derive(Clone, Copy, Debug, PartialEq, Eq, Hash)]
pub struct Point {
    pub x: u32,
    pub y: u32,
}

/// How the camera chose the points.
#[derive(Clone, Copy, Debug, PartialEq, Eq, Hash)]
pub enum AreaMode {
    Single = 1,
    Dynamic = 2,
    Auto = 3,
    Tracking = 4,
}

/// Where the points come from: the record's own position, or the table of the body's points.
#[derive(Clone, Copy, Debug, PartialEq, Eq, Hash)]
pub enum Origin {
    Recorded = 1,
    Table = 2,
}

/// One point, in the pixels of its listing's frame.
#[derive(Clone, Copy, Debug, PartialEq, Eq, Hash)]
pub struct FocusPoint {
    /// The body's number of the point; none if its position was recorded.
    pub number: Option<u32>,
    pub center: Point,
    pub area: Option<Size>,
    /// Whether it was in focus; none if that is not recorded.
    pub in_focus: Option<bool>,
}

/// The points of one photograph.
#[derive(Clone, Debug, PartialEq, Eq, Hash)]
pub struct Listing {
    pub frame: Size,
    /// The index of the primary among the points.
    pub primary: usize,
    pub mode: Option<AreaMode>,
    pub origin: Origin,
    pub points: Vec<FocusPoint>,
}

/// Why nothing is written, with the specification's number. The lowest that applies is given.
#[derive(Clone, Copy, Debug, PartialEq, Eq, Hash)]
pub enum Refusal {
    /// The block is under 8 or over 1,048,576 bytes, has a bad header, or its directory passes its end.
    Unreadable = 1,
    /// No focus record: tag 00B7 is absent or not of type 7.
    NoRecord = 2,
    /// Focused by hand.
    ManualFocus = 3,
    /// The record is damaged, too short, or of unknown version.
    BadRecord = 4,
    /// The recorded position cannot be placed.
    PositionUnplaced = 5,
    /// No recorded position, and the named points cannot be placed.
    NamesUnplaced = 6,
    /// The buffer has too few places.
    Short = 13,
}

impl Refusal {
    /// The specification's number.
    pub fn number(self) -> u32 {
        self as u32
    }

    fn of(number: u32) -> Result<(), Refusal> {
        Err(match number {
            0 => return Ok(()),
            1 => Refusal::Unreadable,
            2 => Refusal::NoRecord,
            3 => Refusal::ManualFocus,
            4 => Refusal::BadRecord,
            5 => Refusal::PositionUnplaced,
            6 => Refusal::NamesUnplaced,
            13 => Refusal::Short,
            _ => unreachable!("the library's contract has no number {number}"),
        })
    }
}

impl fmt::Display for Refusal {
    fn fmt(&self, f: &mut fmt::Formatter<'_>) -> fmt::Result {
        f.write_str(match self {
            Refusal::Unreadable => "the block cannot be read",
            Refusal::NoRecord => "there is no focus record",
            Refusal::ManualFocus => "focused by hand",
            Refusal::BadRecord => "the focus record cannot be used",
            Refusal::PositionUnplaced => "the recorded position cannot be placed",
            Refusal::NamesUnplaced => "the named points cannot be placed",
            Refusal::Short => "the buffer is too short",
        })
    }
}

impl error::Error for Refusal {}

/// The points of one photograph: of a maker note, the sizes of raw data and picture where they are known, and the camera's name.
pub fn photograph(
    block: &[u8],
    raw: Option<Size>,
    picture: Option<Size>,
    model: &[u8],
) -> Result<Listing, Refusal> {
    let mut out = [0; LISTING];
    photograph_into(block, raw, picture, model, &mut out)?;
    Ok(listing_of(&out))
}

/// The same in the specification's numbers: six of the head, and six a point, at the buffer's front. The rest of it is kept, and all of it
/// where the answer is a refusal. `LISTING` places are always enough. Gives how many numbers are written.
pub fn photograph_into(
    block: &[u8],
    raw: Option<Size>,
    picture: Option<Size>,
    model: &[u8],
    out: &mut [u32],
) -> Result<usize, Refusal> {
    let sides = |size: Option<Size>| size.map_or((0, 0, 0), |s| (1, s.width, s.height));
    let (raw_given, raw_width, raw_height) = sides(raw);
    let (picture_given, picture_width, picture_height) = sides(picture);
    // SAFETY: the pointers and lengths are those of slices, of which `out` is lent to this call alone. The contract asks nothing more.
    let number = unsafe {
        focuspoints_photograph(
            block.as_ptr(),
            block.len(),
            raw_given,
            raw_width,
            raw_height,
            picture_given,
            picture_width,
            picture_height,
            model.as_ptr(),
            model.len(),
            out.as_mut_ptr(),
            out.len(),
        )
    };
    Refusal::of(number)?;
    Ok(6 + 6 * out[2] as usize)
}

/// The names of a listing's numbers.
fn listing_of(numbers: &[u32]) -> Listing {
    let size = |at: usize| Size { width: numbers[at], height: numbers[at + 1] };
    let point = |at: usize| FocusPoint {
        number: Some(numbers[at]).filter(|&n| n != 0),
        center: Point { x: numbers[at + 1], y: numbers[at + 2] },
        area: Some(size(at + 3)).filter(|s| s.width != 0 || s.height != 0),
        in_focus: [None, Some(false), Some(true)][numbers[at + 5] as usize],
    };
    Listing {
        frame: size(0),
        primary: numbers[3] as usize,
        mode: match numbers[4] {
            0 => None,
            1 => Some(AreaMode::Single),
            2 => Some(AreaMode::Dynamic),
            3 => Some(AreaMode::Auto),
            4 => Some(AreaMode::Tracking),
            n => unreachable!("the library's contract has no mode {n}"),
        },
        origin: match numbers[5] {
            1 => Origin::Recorded,
            2 => Origin::Table,
            n => unreachable!("the library's contract has no origin {n}"),
        },
        points: (0..numbers[2] as usize).map(|i| point(6 + 6 * i)).collect(),
    }
}

/// What a whole script of call lines is answered: the text that the program focusdesk prints for it.
pub fn script(script: &[u8]) -> Vec<u8> {
    let most = script_room(script);
    // Most answers are a few bytes long: a buffer of all that the lines might be answered is the last one that is tried.
    let mut room = most.min(64 * 1024);
    loop {
        let mut out = vec![0; room];
        if let Ok(len) = script_into(script, &mut out) {
            out.truncate(len);
            return out;
        }
        assert!(room < most, "the library's contract has no line of more than {A_LINE} bytes");
        room = most.min(room * 4);
    }
}

/// How many bytes are always enough for what a script is answered: `A_LINE` for each line. There are at most as many lines as line feeds,
/// and one more.
pub fn script_room(script: &[u8]) -> usize {
    let feeds = script.iter().filter(|&&c| c == b'\n').count();
    A_LINE * (feeds + 1)
}

/// The same as `script` at a buffer's front: gives the text's length. The rest of the buffer is kept, and all of it where it is too short.
/// `script_room` bytes are always enough.
pub fn script_into(script: &[u8], out: &mut [u8]) -> Result<usize, Refusal> {
    // SAFETY: as in `photograph_into`.
    let len =
        unsafe { focuspoints_script(script.as_ptr(), script.len(), out.as_mut_ptr(), out.len()) };
    if len == usize::MAX {
        return Err(Refusal::Short);
    }
    Ok(len)
}

/// Which of the tags 0x0007, 0x001B, 0x0045 and 0x00B7 have a kept entry in a maker note: each once, in the order of their first kept
/// entries in the directory. Kept are the entries of types 1 to 13, damaged ones too.
pub fn contents(block: &[u8]) -> Result<Vec<u16>, Refusal> {
    let mut out = [0; CONTENTS];
    contents_into(block, &mut out)?;
    Ok(out[1..=out[0] as usize].iter().map(|&tag| tag as u16).collect())
}

/// The same at a buffer's front: how many, and four places with the tags, of which the unused are 0 and stand last. The rest of the buffer
/// is kept, and all of it where the answer is a refusal. `CONTENTS` places are enough.
pub fn contents_into(block: &[u8], out: &mut [u32]) -> Result<(), Refusal> {
    // SAFETY: as in `photograph_into`.
    let number =
        unsafe { focuspoints_contents(block.as_ptr(), block.len(), out.as_mut_ptr(), out.len()) };
    Refusal::of(number)
}
