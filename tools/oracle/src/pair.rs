//! Pairs of sizes, whose shapes the library compares, as records of 16 bytes.

use crate::Size;

/// A frame and a picture.
#[derive(Clone, Copy, Debug, PartialEq, Eq, PartialOrd, Ord)]
pub struct Pair {
    pub frame: Size,
    pub picture: Size,
}

impl Pair {
    /// From the frame's width and height, then the picture's.
    pub fn new([frame_width, frame_height, width, height]: [u32; 4]) -> Self {
        Self {
            frame: Size { width: frame_width, height: frame_height },
            picture: Size { width, height },
        }
    }

    /// The four sides, in that order.
    pub fn sides(self) -> [u32; 4] {
        [self.frame.width, self.frame.height, self.picture.width, self.picture.height]
    }

    /// What the library answers.
    pub fn same_shape(self) -> bool {
        self.frame.same_shape(self.picture)
    }

    /// The four sides as the program `shape_test` reads them, big-endian.
    pub fn record(self) -> [u8; 16] {
        let mut record = [0; 16];
        for (place, side) in record.as_chunks_mut().0.iter_mut().zip(self.sides()) {
            *place = side.to_be_bytes();
        }
        record
    }

    /// The pair that a record holds.
    pub fn parse(record: &[u8; 16]) -> Self {
        let at = |i| u32::from_be_bytes(record.as_chunks().0[i]);
        Self::new([at(0), at(1), at(2), at(3)])
    }

    /// By how much the difference of the products exceeds the longest side;
    /// not above 0 where the shape is the same.
    pub fn excess(self) -> i128 {
        let [fw, fh, pw, ph] = self.sides().map(i128::from);
        (fw * ph - fh * pw).abs() - fw.max(fh).max(pw).max(ph)
    }

    /// The place of the side that is longer than the other three, if there is
    /// one.
    pub fn longest(self) -> Option<usize> {
        let sides = self.sides();
        let others_shorter = |&i: &usize| (0..4).all(|j| j == i || sides[j] < sides[i]);
        (0..4).find(others_shorter)
    }
}
