//! Stand-ins for the two types of the text-size crate that the Rust sources lean on.
//!
//! The crate itself is not at hand where this runs. Only what the sources name is here, with the same meaning, except
//! that the operators panic on overflow in every build and not only where overflow checks are on.

use std::ops::{Add, AddAssign, Range, Sub, SubAssign};

/// A text position or length: a u32 of its own type.
#[derive(Clone, Copy, Debug, Default, Eq, Hash, Ord, PartialEq, PartialOrd)]
pub struct TextSize(u32);

impl TextSize {
    pub const fn new(raw: u32) -> Self {
        Self(raw)
    }

    pub const fn checked_add(self, other: Self) -> Option<Self> {
        match self.0.checked_add(other.0) {
            Some(raw) => Some(Self(raw)),
            None => None,
        }
    }

    pub const fn checked_sub(self, other: Self) -> Option<Self> {
        match self.0.checked_sub(other.0) {
            Some(raw) => Some(Self(raw)),
            None => None,
        }
    }
}

impl From<u32> for TextSize {
    fn from(raw: u32) -> Self {
        Self(raw)
    }
}

impl From<TextSize> for u32 {
    fn from(size: TextSize) -> Self {
        size.0
    }
}

impl From<TextSize> for usize {
    fn from(size: TextSize) -> Self {
        size.0 as usize
    }
}

impl TryFrom<usize> for TextSize {
    type Error = std::num::TryFromIntError;

    fn try_from(raw: usize) -> Result<Self, Self::Error> {
        u32::try_from(raw).map(Self)
    }
}

impl Add for TextSize {
    type Output = Self;

    fn add(self, other: Self) -> Self {
        self.checked_add(other).expect("text size overflows")
    }
}

impl Sub for TextSize {
    type Output = Self;

    fn sub(self, other: Self) -> Self {
        self.checked_sub(other).expect("text size below zero")
    }
}

impl AddAssign for TextSize {
    fn add_assign(&mut self, other: Self) {
        *self = *self + other;
    }
}

impl SubAssign for TextSize {
    fn sub_assign(&mut self, other: Self) {
        *self = *self - other;
    }
}

/// A range of text: its start is at most its end.
#[derive(Clone, Copy, Debug, Default, Eq, Hash, PartialEq)]
pub struct TextRange {
    start: TextSize,
    end: TextSize,
}

impl TextRange {
    pub const fn new(start: TextSize, end: TextSize) -> Self {
        assert!(start.0 <= end.0, "text range is reversed");
        Self { start, end }
    }

    pub const fn start(self) -> TextSize {
        self.start
    }

    pub const fn end(self) -> TextSize {
        self.end
    }

    pub const fn len(self) -> TextSize {
        TextSize(self.end.0 - self.start.0)
    }

    pub const fn is_empty(self) -> bool {
        self.start.0 == self.end.0
    }
}

impl From<TextRange> for Range<usize> {
    fn from(range: TextRange) -> Self {
        range.start.into()..range.end.into()
    }
}
