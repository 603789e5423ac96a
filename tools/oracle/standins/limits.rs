//! Stand-in: no limits.

pub(crate) struct Limits;

impl Limits {
    pub(crate) fn max_ifd_entries(&self) -> u32 {
        u32::MAX
    }

    pub(crate) fn max_ifd_depth(&self) -> u32 {
        u32::MAX
    }

    pub(crate) fn max_ifds(&self) -> u32 {
        u32::MAX
    }
}
