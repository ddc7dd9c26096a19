//! Columns and rows of a grid: cells that are used, empty ones between near ones, and a
//! gap where cells are far apart.

use std::collections::BTreeMap;

/// So many empty cells in a row are drawn; more are a gap.
const EMPTY: i64 = 2;

/// How wide a gap is.
const GAP: i32 = 30;

/// A column or a row.
#[derive(Clone, Copy, Debug, Eq, PartialEq)]
pub struct Track {
    /// What it stands for.
    pub of: Of,
    /// Where it begins.
    pub start: i32,
    /// How long it is across.
    pub size: i32,
}

/// What a track stands for.
#[derive(Clone, Copy, Debug, Eq, PartialEq)]
pub enum Of {
    /// The cells with this coordinate.
    Cells(i32),
    /// So many columns or rows without a block.
    Gap(i64),
}

/// The columns or the rows of a grid.
#[derive(Clone, Debug, Default, Eq, PartialEq)]
pub struct Axis {
    tracks: Vec<Track>,
    starts: BTreeMap<i32, i32>,
    end: i32,
}

impl Axis {
    /// An axis from a start on: the coordinates that are used, with the size that each
    /// needs, and the size of an empty one.
    #[must_use]
    pub fn of(start: i32, used: &BTreeMap<i32, i32>, empty: i32) -> Self {
        let mut axis = Self {
            end: start,
            ..Self::default()
        };
        let mut before = None;
        for (&at, &size) in used {
            if let Some(before) = before {
                axis.between(before, at, empty);
            }
            axis.push(Of::Cells(at), size);
            before = Some(at);
        }
        axis
    }

    fn between(&mut self, before: i32, at: i32, empty: i32) {
        let count = i64::from(at) - i64::from(before) - 1;
        if count > EMPTY {
            self.push(Of::Gap(count), GAP);
        } else {
            for between in before.saturating_add(1)..at {
                self.push(Of::Cells(between), empty);
            }
        }
    }

    fn push(&mut self, of: Of, size: i32) {
        let start = self.end;
        if let Of::Cells(at) = of {
            self.starts.insert(at, start);
        }
        self.tracks.push(Track { of, start, size });
        self.end = self.end.saturating_add(size);
    }

    /// The tracks, in order.
    #[must_use]
    pub fn tracks(&self) -> &[Track] {
        &self.tracks
    }

    /// Whether nothing is cut out.
    #[must_use]
    pub fn is_whole(&self) -> bool {
        let mut of = self.tracks.iter().map(|it| it.of);
        of.all(|it| matches!(it, Of::Cells(_)))
    }

    /// Where the cells with a coordinate begin.
    #[must_use]
    pub fn start(&self, at: i32) -> Option<i32> {
        self.starts.get(&at).copied()
    }

    /// Where the last track ends.
    #[must_use]
    pub const fn end(&self) -> i32 {
        self.end
    }
}

#[cfg(test)]
mod tests {
    use super::{Axis, GAP, Of};

    #[test]
    fn far_parts_are_cut_and_near_ones_are_not() {
        let used = [-30_000_000, -29_999_997, 5, 6, 9, 30_000_000];
        let used = used.into_iter().map(|at| (at, 10)).collect();
        let axis = Axis::of(100, &used, 7);
        let of: Vec<Of> = axis.tracks().iter().map(|it| it.of).collect();
        let wanted = [
            Of::Cells(-30_000_000),
            Of::Cells(-29_999_999),
            Of::Cells(-29_999_998),
            Of::Cells(-29_999_997),
            Of::Gap(30_000_001),
            Of::Cells(5),
            Of::Cells(6),
            Of::Cells(7),
            Of::Cells(8),
            Of::Cells(9),
            Of::Gap(29_999_990),
            Of::Cells(30_000_000),
        ];
        assert_eq!(of, wanted);
        assert_eq!(axis.start(-30_000_000), Some(100));
        assert_eq!(axis.start(-29_999_997), Some(124));
        assert_eq!(axis.start(0), None);
        assert_eq!(axis.end(), 100 + 6 * 10 + 4 * 7 + 2 * GAP);
    }
}
