//! A slice to lend, with more before and behind it, all of it filled so that a
//! place that is written by mistake shows.

use std::ops::Range;

/// Places before the slice at most, and behind it.
const MARGIN: usize = 16;

/// The filling of a place, which changes from place to place and is never 0.
pub trait Filling: Copy + PartialEq {
    fn filling(place: usize) -> Self;
}

impl Filling for u8 {
    /// Seven bytes of eight in a group's number are below all of these.
    fn filling(place: usize) -> Self {
        128 + (place * 37 % 127) as Self
    }
}

impl Filling for usize {
    fn filling(place: usize) -> Self {
        1 + place * 1_000_003
    }
}

impl Filling for u64 {
    fn filling(place: usize) -> Self {
        1 + (place as Self) * 1_000_003
    }
}

impl Filling for i64 {
    /// Negative, which no number of an answer is.
    fn filling(place: usize) -> Self {
        -1 - (place as Self) * 1_000_003
    }
}

/// A lent slice within its surroundings.
pub struct Guarded<T> {
    all: Vec<T>,
    lent: Range<usize>,
}

impl<T: Filling> Guarded<T> {
    /// A slice of this length. It begins at another place for each `shift`, so
    /// that bytes come to lie at every alignment.
    #[must_use]
    pub fn new(length: usize, shift: usize) -> Self {
        let start = MARGIN / 2 + shift % (MARGIN / 2);
        let places = 0..start + length + MARGIN;
        Self {
            all: places.map(T::filling).collect(),
            lent: start..start + length,
        }
    }

    /// The slice to lend.
    pub fn lent(&mut self) -> &mut [T] {
        &mut self.all[self.lent.clone()]
    }

    /// Whether the slice begins with these and all else is as it was.
    #[must_use]
    pub fn holds(&self, front: &[T]) -> bool {
        let written = self.lent.start..self.lent.start + front.len();
        let is_as_before = |place: usize| self.all[place] == T::filling(place);
        written.end <= self.lent.end
            && self.all[written.clone()] == *front
            && (0..written.start).all(is_as_before)
            && (written.end..self.all.len()).all(is_as_before)
    }
}
