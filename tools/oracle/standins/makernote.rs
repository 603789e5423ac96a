//! Stand-in: how a note is found in a file, which the oracle never does.

use std::io::{Read, Seek};
use std::marker::PhantomData;
use std::ops::Range;

use crate::container::tiff::{Ifd, Tree};
use crate::error::Result;
use crate::io::Source;
use crate::limits::Limits;

pub(crate) const MAX_COLOR_TEMPERATURE: u32 = 99_999;

pub(crate) fn checked_color_temperature(kelvin: u32) -> Option<u32> {
    (1..=MAX_COLOR_TEMPERATURE).contains(&kelvin).then_some(kelvin)
}

pub(crate) struct MakerNoteBlock<'a>(PhantomData<&'a Tree>);

impl<'a> MakerNoteBlock<'a> {
    pub(crate) fn find(_tree: &'a Tree) -> Option<Self> {
        None
    }

    pub(crate) fn first_bytes<R: Read + Seek>(
        &self,
        _src: &mut Source<R>,
        _len: u64,
    ) -> Result<Vec<u8>> {
        Ok(Vec::new())
    }

    pub(crate) fn ifd_at<R: Read + Seek>(
        &self,
        _src: &mut Source<R>,
        _at: u64,
        _limits: &Limits,
    ) -> Result<Option<Ifd>> {
        Ok(None)
    }

    pub(crate) fn range(&self) -> Range<u64> {
        0..0
    }
}
