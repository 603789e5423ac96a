//! Loads and answers as lines of text.
//!
//! A load is `RAW PICTURE MODELHEX BLOCKHEX`: a size is `WxH` in decimal or
//! `-` if missing, bytes are lower-case hexadecimal or `-` if there are none.
//! An answer is `unreadable`, `none`, or a head and ` | ` with six numbers
//! for each point.

use std::fmt::{self, Write};

use crate::{Answer, FocusAreaMode, FocusOrigin, FocusPoint, Size, load};

/// What one load is given.
#[derive(Clone, Debug, PartialEq, Eq)]
pub struct Load {
    pub raw: Option<Size>,
    pub picture: Option<Size>,
    pub model: Vec<u8>,
    pub block: Vec<u8>,
}

impl Load {
    /// The load that a line describes.
    pub fn parse(line: &str) -> Option<Self> {
        let mut words = line.split(' ');
        let load = Self {
            raw: parse_size(words.next()?)?,
            picture: parse_size(words.next()?)?,
            model: parse_bytes(words.next()?)?,
            block: parse_bytes(words.next()?)?,
        };
        words.next().is_none().then_some(load)
    }

    /// What the library answers.
    pub fn answer(&self) -> Answer {
        load(self.raw, self.picture, &self.model, &self.block)
    }
}

fn parse_size(word: &str) -> Option<Option<Size>> {
    if word == "-" {
        return Some(None);
    }
    let (width, height) = word.split_once('x')?;
    Some(Some(Size { width: width.parse().ok()?, height: height.parse().ok()? }))
}

fn parse_bytes(word: &str) -> Option<Vec<u8>> {
    if word == "-" {
        return Some(Vec::new());
    }
    let digit = |byte: u8| char::from(byte).to_digit(16);
    let (pairs, rest) = word.as_bytes().as_chunks::<2>();
    let bytes = pairs.iter().map(|&[high, low]| u8::try_from(16 * digit(high)? + digit(low)?).ok());
    if rest.is_empty() { bytes.collect() } else { None }
}

impl fmt::Display for Load {
    fn fmt(&self, f: &mut fmt::Formatter<'_>) -> fmt::Result {
        write_size(f, self.raw)?;
        f.write_char(' ')?;
        write_size(f, self.picture)?;
        f.write_char(' ')?;
        write_bytes(f, &self.model)?;
        f.write_char(' ')?;
        write_bytes(f, &self.block)
    }
}

fn write_size(f: &mut fmt::Formatter<'_>, size: Option<Size>) -> fmt::Result {
    match size {
        Some(size) => write!(f, "{size}"),
        None => f.write_char('-'),
    }
}

fn write_bytes(f: &mut fmt::Formatter<'_>, bytes: &[u8]) -> fmt::Result {
    if bytes.is_empty() {
        return f.write_char('-');
    }
    let digits = bytes.iter().flat_map(|byte| [byte >> 4, byte & 15]);
    let text: String =
        digits.map(|digit| char::from(b"0123456789abcdef"[usize::from(digit)])).collect();
    f.write_str(&text)
}

impl fmt::Display for Answer {
    fn fmt(&self, f: &mut fmt::Formatter<'_>) -> fmt::Result {
        let points = match self {
            Answer::Unreadable => return f.write_str("unreadable"),
            Answer::Nothing => return f.write_str("none"),
            Answer::Placed(points) => points,
        };
        let mode = match points.area_mode() {
            None => 0,
            Some(FocusAreaMode::Single) => 1,
            Some(FocusAreaMode::Dynamic) => 2,
            Some(FocusAreaMode::Auto) => 3,
            Some(FocusAreaMode::Tracking) => 4,
        };
        let origin = match points.origin() {
            FocusOrigin::Recorded => 1,
            FocusOrigin::Table => 2,
        };
        write!(
            f,
            "frame {} {} points {} primary {} mode {mode} origin {origin}",
            points.frame().width,
            points.frame().height,
            points.points().len(),
            points.primary_index().expect("a primary is always marked"),
        )?;
        points.points().iter().try_for_each(|point| write_point(f, point))
    }
}

fn write_point(f: &mut fmt::Formatter<'_>, point: &FocusPoint) -> fmt::Result {
    let (width, height) = point.size().map_or((0, 0), |size| (size.width, size.height));
    let in_focus = match point.in_focus() {
        None => 0,
        Some(false) => 1,
        Some(true) => 2,
    };
    write!(
        f,
        " | {} {} {} {width} {height} {in_focus}",
        point.number().unwrap_or(0),
        point.center().x,
        point.center().y,
    )
}
