//! Stand-in: fractions, which no focus point depends on.

#[derive(Clone, Copy, Debug, PartialEq, Eq, Hash)]
pub struct Rational(u32, u32);

impl Rational {
    pub(crate) fn known(numerator: u32, denominator: u32) -> Option<Self> {
        (numerator != 0 && denominator != 0).then_some(Self(numerator, denominator))
    }
}

#[derive(Clone, Copy, Debug, PartialEq, Eq, Hash)]
pub struct SignedRational(i32, i32);

impl SignedRational {
    pub(crate) fn new(numerator: i32, denominator: i32) -> Option<Self> {
        (denominator != 0).then_some(Self(numerator, denominator))
    }
}
