//! Stand-in: the TIFF header, by TIFF 6.0. Bytes 0 to 3 name the byte order
//! and hold 42 in it; the next four are the directory's offset.

use std::io::{Read, Seek};

use super::Block;
use crate::error::{Error, Result};
use crate::io::{ByteOrder, Source};

pub(crate) const HEADER_LEN: u64 = 8;

pub(crate) struct Header {
    pub(crate) order: ByteOrder,
    pub(crate) ifd0: u32,
}

pub(crate) fn parse_header<R: Read + Seek>(src: &mut Source<R>, block: &Block) -> Result<Header> {
    let bytes = src.bytes(block.base(), HEADER_LEN)?;
    let order = match bytes.get(..4) {
        Some(b"II*\0") => ByteOrder::Little,
        Some(b"MM\0*") => ByteOrder::Big,
        _ => return Err(Error::malformed("no TIFF header", block.base())),
    };
    let ifd0 = src.u32_at(block.base() + 4, order)?;
    Ok(Header { order, ifd0 })
}
