//! Which line of a sheet holds what.

use std::ops::RangeInclusive;

use super::lists::{COMPONENT, CONNECTION, FRONTIER, Key};
use crate::Form;

/// The keys of the counts, in the order of the lists.
pub const COUNTS: [&str; 3] = ["components", "connections", "frontiers"];

/// What the records of each list begin with in the shorter form.
pub const LETTERS: [&str; 3] = ["c", "n", "f"];

/// The largest magnitude of a number in a line.
pub const LAST: u64 = 4_294_967_295;

/// A sheet as lines, as far as they tell where its records are.
pub struct Shape<'a> {
    pub text: &'a [u8],
    /// What stands between line feeds; the last piece has none behind it.
    pieces: Vec<&'a [u8]>,
    form: Form,
}

/// What belongs into a line.
#[derive(Clone, Copy, Debug, Eq, PartialEq)]
pub enum Expected {
    /// The first line of a sheet that is begun in no known way.
    Begin,
    /// The line `sheet=`.
    Sheet,
    /// The line `rules=`.
    Rules,
    /// The count of a list, by its number.
    Count(usize),
    /// A field of an item of a list, by its number, in the old form.
    Field(usize, usize, Key),
    /// An item of a list, by its number, in the shorter form.
    Record(usize, usize),
    /// Nothing: the sheet has ended.
    Nothing,
}

/// The keys of each list's records.
pub const fn keys(list: usize) -> &'static [Key] {
    match list {
        0 => &COMPONENT,
        1 => &CONNECTION,
        _ => &FRONTIER,
    }
}

impl<'a> Shape<'a> {
    pub fn of(text: &'a [u8]) -> Self {
        let form = if text.starts_with(b"sheet=") {
            Form::Short
        } else {
            Form::Old
        };
        Self {
            text,
            pieces: text.split(|byte| *byte == b'\n').collect(),
            form,
        }
    }

    /// A line with the line feed that ends it left out, and whether there is one; none
    /// past the end of the text.
    pub fn line(&self, number: usize) -> Option<(&'a [u8], bool)> {
        let piece = *self.pieces.get(number)?;
        let ended = number + 1 < self.pieces.len();
        (ended || !piece.is_empty()).then_some((piece, ended))
    }

    /// The lines before the count of components.
    fn head(&self) -> usize {
        match self.form {
            Form::Short => 2,
            Form::Old => usize::from(self.text.starts_with(b"rules=")),
        }
    }

    /// The lines of a record of a list.
    fn width(&self, list: usize) -> usize {
        match self.form {
            Form::Short => 1,
            Form::Old => keys(list).len(),
        }
    }

    /// The value behind a key, where it is a number.
    fn value(&self, line: usize) -> Option<i64> {
        let (piece, _) = self.line(line)?;
        let text = std::str::from_utf8(piece).ok()?;
        text.split_once('=')?.1.parse().ok()
    }

    /// The line of a list's count, from 0; none where a count before it is none.
    pub fn count_line(&self, list: usize) -> Option<usize> {
        let mut at = self.head();
        for before in 0..list {
            let count = usize::try_from(self.value(at)?).ok()?;
            at = count
                .checked_mul(self.width(before))?
                .checked_add(at)?
                .checked_add(1)?;
        }
        Some(at)
    }

    /// The count of a list.
    pub fn count(&self, list: usize) -> Option<usize> {
        usize::try_from(self.value(self.count_line(list)?)?).ok()
    }

    /// The lines of a record, from 0.
    pub fn lines(&self, list: usize, item: usize) -> Option<RangeInclusive<usize>> {
        let width = self.width(list);
        let first = self.count_line(list)?.checked_add(1)?;
        let first = item.checked_mul(width)?.checked_add(first)?;
        Some(first..=first.checked_add(width - 1)?)
    }

    /// The line of one field of a record, where it has one for itself.
    pub fn field_line(&self, list: usize, item: usize, field: usize) -> Option<usize> {
        let lines = self.lines(list, item)?;
        (self.form == Form::Old).then(|| lines.start() + field)
    }

    /// The numbers of a record.
    pub fn record(&self, list: usize, item: usize) -> Option<Vec<i64>> {
        let lines = self.lines(list, item)?;
        match self.form {
            Form::Old => lines.map(|line| self.value(line)).collect(),
            Form::Short => {
                let (piece, _) = self.line(*lines.start())?;
                let (_, values) = std::str::from_utf8(piece).ok()?.split_once('=')?;
                values.split(',').map(|value| value.parse().ok()).collect()
            }
        }
    }

    /// What belongs into a line, where all before it are as they must be.
    pub fn expected(&self, line: usize) -> Expected {
        match (line, self.head()) {
            (0, 0) => return self.begin(),
            (0, 2) => return Expected::Sheet,
            (0, 1) | (1, 2) => return Expected::Rules,
            _ => {}
        }
        let mut of_list = (0..3).filter_map(|list| self.expected_of(list, line));
        of_list.next().unwrap_or(Expected::Nothing)
    }

    fn begin(&self) -> Expected {
        if self.text.starts_with(b"components=") {
            Expected::Count(0)
        } else {
            Expected::Begin
        }
    }

    fn expected_of(&self, list: usize, line: usize) -> Option<Expected> {
        let at = self.count_line(list)?;
        if line == at {
            return Some(Expected::Count(list));
        }
        let behind = line.checked_sub(at)?.checked_sub(1)?;
        let (item, field) = (behind / self.width(list), behind % self.width(list));
        if item >= self.count(list)? {
            return None;
        }
        Some(match self.form {
            Form::Short => Expected::Record(list, item),
            Form::Old => Expected::Field(list, item, *keys(list).get(field)?),
        })
    }
}
