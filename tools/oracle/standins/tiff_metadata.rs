//! Stand-in: `text` and `crop` as the specification gives them, and what
//! else nikon.rs names of the module.

use std::io::{Read, Seek};

use crate::container::tiff::types::SHORT;
use crate::container::tiff::{Ifd, skip_damage};
use crate::error::Result;
use crate::geometry::Size;
use crate::io::Source;
use crate::metadata::Metadata;

const LONGEST_TEXT: usize = 255;

pub(crate) struct Standard {
    pub(crate) metadata: Metadata,
    pub(crate) from_default_crop: bool,
    pub(crate) exif_records_color_space: bool,
}

/// A value of type 2, cut at its first zero byte; none if it is then over
/// 255 bytes; spaces trimmed at both ends.
pub(crate) fn text<R: Read + Seek>(
    src: &mut Source<R>,
    ifd: &Ifd,
    tag: u16,
) -> Result<Option<String>> {
    // `ascii_bytes` reads type 2 alone and cuts at the first zero byte.
    let Some(bytes) = skip_damage(ifd.ascii_bytes(src, tag))?.flatten() else {
        return Ok(None);
    };
    if bytes.len() > LONGEST_TEXT {
        return Ok(None);
    }
    let text = String::from_utf8_lossy(&bytes);
    Ok(Some(text.trim_matches(' ').to_owned()))
}

/// The size of a rectangle whose sides are both positive and that lies
/// inside the raw data, by exact sums.
pub(crate) fn crop([left, top]: [u32; 2], [width, height]: [u32; 2], raw: Size) -> Option<Size> {
    let inside = |start: u32, side: u32, raw: u32| {
        side > 0 && u64::from(start) + u64::from(side) <= u64::from(raw)
    };
    (inside(left, width, raw.width) && inside(top, height, raw.height))
        .then_some(Size { width, height })
}

pub(crate) fn one_short<R: Read + Seek>(
    src: &mut Source<R>,
    ifd: &Ifd,
    tag: u16,
) -> Result<Option<u16>> {
    if ifd.entry_of_type(tag, &[SHORT]).is_none() {
        return Ok(None);
    }
    let values = skip_damage(ifd.u32s(src, tag))?.flatten();
    Ok(match values.as_deref() {
        Some(&[value]) => u16::try_from(value).ok(),
        _ => None,
    })
}
