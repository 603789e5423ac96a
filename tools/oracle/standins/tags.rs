//! Stand-in: the tags of other directories that the files name.

pub(crate) const SUB_IFDS: u16 = 0x014A;
pub(crate) const JPEG_INTERCHANGE_FORMAT: u16 = 0x0201;
pub(crate) const JPEG_INTERCHANGE_FORMAT_LENGTH: u16 = 0x0202;
pub(crate) const EXIF_IFD: u16 = 0x8769;
pub(crate) const INTEROP_IFD: u16 = 0xA005;
