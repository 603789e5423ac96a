//! Stand-in: an error is its kind; where and why are not kept.

use std::io;

#[derive(Clone, Copy, Debug, PartialEq, Eq)]
pub(crate) enum ErrorKind {
    Io,
    Malformed,
    LimitExceeded,
}

#[derive(Debug)]
pub(crate) struct Error(ErrorKind);

pub(crate) type Result<T> = std::result::Result<T, Error>;

impl Error {
    pub(crate) fn malformed(_why: &'static str, _at: u64) -> Self {
        Self(ErrorKind::Malformed)
    }

    pub(crate) fn limit(_why: &'static str, _at: u64) -> Self {
        Self(ErrorKind::LimitExceeded)
    }

    pub(crate) fn io_at(_source: io::Error, _at: u64) -> Self {
        Self(ErrorKind::Io)
    }

    pub(crate) fn kind(&self) -> ErrorKind {
        self.0
    }
}

impl From<io::Error> for Error {
    fn from(_source: io::Error) -> Self {
        Self(ErrorKind::Io)
    }
}
