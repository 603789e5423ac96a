//! Stand-in: previews, which the oracle never looks for.

use crate::container::tiff::Block;

pub(crate) struct Candidate;

pub(crate) fn candidate(_block: &Block, _offset: u32, _length: u32) -> Option<Candidate> {
    None
}
