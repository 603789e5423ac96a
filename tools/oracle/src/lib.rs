//! What the Rust library answers for one load, and of the shapes of two sizes.

include!(concat!(env!("OUT_DIR"), "/tree.rs"));

pub mod generate;
mod line;
mod pair;

pub use crate::focus::{FocusAreaMode, FocusOrigin, FocusPoint, FocusPoints};
pub use crate::geometry::{Point, Size};
pub use crate::line::Load;
pub use crate::pair::Pair;

use crate::formats::makernote::nikon::inside_nikon::focus_points;

/// What the library makes of one load.
#[derive(Clone, Debug, PartialEq, Eq)]
pub enum Answer {
    /// The block's header or directory cannot be read.
    Unreadable,
    /// `focus` answers `None`.
    Nothing,
    /// `focus` answers these points.
    Placed(FocusPoints),
}

/// One load, as the library answers it.
pub fn load(raw: Option<Size>, picture: Option<Size>, model: &[u8], block: &[u8]) -> Answer {
    match focus_points(raw, picture, model, block) {
        Ok(None) => Answer::Unreadable,
        Ok(Some(None)) => Answer::Nothing,
        Ok(Some(Some(points))) => Answer::Placed(points),
        Err(error) => unreachable!("reading from memory does not fail: {error:?}"),
    }
}
