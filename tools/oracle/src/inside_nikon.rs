//! A child module of nikon.rs, from where its private functions can be
//! called: `crop_hi_speed`, `crop_area`, `points::find`, then `focus`.

use std::io::Cursor;

use super::{MakerNote, crop_area, crop_hi_speed, focus, points};
use crate::container::tiff::{Block, ifd_in, parse_header, skip_damage};
use crate::error::Result;
use crate::focus::FocusPoints;
use crate::geometry::Size;
use crate::io::Source;
use crate::limits::Limits;

/// The focus points of the note in `block`, as `focus` answers them; the
/// outer `None` when the block's header or directory cannot be read.
pub(crate) fn focus_points(
    raw: Option<Size>,
    picture: Option<Size>,
    model: &[u8],
    block: &[u8],
) -> Result<Option<Option<FocusPoints>>> {
    let src = &mut Source::new(Cursor::new(block))?;
    let bounds = Block::file(src.len());
    let Some(header) = skip_damage(parse_header(src, &bounds))? else {
        return Ok(None);
    };
    let Some(ifd) = ifd_in(src, &bounds, header.ifd0, header.order, &Limits)? else {
        return Ok(None);
    };
    let note = MakerNote { ifd };
    let crop = crop_hi_speed(src, &note)?;
    let area = crop_area(src, &note, raw)?;
    // A model that is not text names no table.
    let table = str::from_utf8(model).ok().and_then(points::find);
    Ok(Some(focus(src, &note, crop, area, picture, table)?))
}
