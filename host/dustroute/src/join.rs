//! Two sheets as one.

use std::error::Error;
use std::fmt;

use crate::sheet::{Told, written};
use crate::work::Work;
use crate::{Component, Form, Reason, Refusal, Rules, read_sheet};

/// Why two sheets were not joined: of which, and what is wrong.
///
/// ```
/// use dustroute::{Clash, WhichSheet, join};
///
/// let lever = b"components=1\nid=7\nx=0\ny=64\nz=0\nkind=4\nfacing=0\nsupport=6\nconducts=0\n\
///     connections=0\nfrontiers=0\n";
/// let button = b"sheet=2\nrules=1\ncomponents=1\nc=7,0,64,0,5,0,6,0\nconnections=0\nfrontiers=0\n";
/// let Err(refusal) = join(lever, button) else {
///     panic!("one block cannot be both");
/// };
/// assert_eq!(refusal.sheet, WhichSheet::Both);
/// assert_eq!(
///     refusal.to_string(),
///     "the two sheets together: refusal 14 at item 0 of the components: \
///      a component that both sheets have, with unequal fields: \
///      id 7 (line 1 of the first sheet, line 3 of the second): kind=4 and kind=5"
/// );
/// assert!(matches!(refusal.clash, Some(Clash::Component(it)) if it.second_line == 3));
///
/// let said = join(lever, b"rules=9\n").map_err(|refusal| refusal.to_string());
/// let text = "the second sheet: refusal 11 at line 0: rules that are not known";
/// assert_eq!(said, Err(text.to_string()));
/// ```
#[derive(Clone, Copy, Debug, Eq, Hash, PartialEq)]
#[non_exhaustive]
pub struct JoinRefusal {
    /// Whose lines or lists are at fault.
    pub sheet: WhichSheet,
    /// The first fault. Its place is on that sheet; of [`WhichSheet::Both`] in the
    /// joined lists, but of [`Reason::UnequalFields`] on the second sheet.
    pub refusal: Refusal,
    /// What does not go together, of [`Reason::OtherRules`] and
    /// [`Reason::UnequalFields`].
    pub clash: Option<Clash>,
}

/// Of which sheet a refusal is. All faults of the first come before any of the
/// second, and these before any of both.
#[derive(Clone, Copy, Debug, Eq, Hash, PartialEq)]
pub enum WhichSheet {
    /// Number 1: the first sheet by itself.
    First,
    /// Number 2: the second sheet by itself.
    Second,
    /// Number 0: each sheet is valid, and they do not go together.
    Both,
}

/// What two valid sheets disagree in.
#[derive(Clone, Copy, Debug, Eq, Hash, PartialEq)]
#[non_exhaustive]
pub enum Clash {
    /// By which rules each is marked.
    Rules {
        /// The first sheet.
        first: Rules,
        /// The second.
        second: Rules,
    },
    /// A component that both have.
    Component(Unequal),
}

/// A component that two sheets have with unequal fields: of all, the earliest of the
/// second sheet.
#[derive(Clone, Copy, Debug, Eq, Hash, PartialEq)]
#[non_exhaustive]
pub struct Unequal {
    /// As the first sheet has it.
    pub first: Component,
    /// As the second has it: the same id.
    pub second: Component,
    /// Where it stands on the first sheet: its line, or its first line where each
    /// number has one; from 0.
    pub first_line: usize,
    /// Where it stands on the second sheet.
    pub second_line: usize,
}

/// The fields of a component, as a sheet names them.
const FIELDS: [&str; 8] = ["id", "x", "y", "z", "kind", "facing", "support", "conducts"];

impl Unequal {
    /// The fields that are unequal, by their keys on a sheet, with the number on
    /// each.
    pub fn fields(&self) -> impl Iterator<Item = (&'static str, i64, i64)> {
        let numbers = self.first.record().into_iter().zip(self.second.record());
        let all = FIELDS.into_iter().zip(numbers);
        all.filter_map(|(key, (first, second))| (first != second).then_some((key, first, second)))
    }
}

impl WhichSheet {
    const ALL: [Self; 3] = [Self::First, Self::Second, Self::Both];

    /// 1, 2 or 0.
    #[must_use]
    pub const fn number(self) -> u8 {
        match self {
            Self::First => 1,
            Self::Second => 2,
            Self::Both => 0,
        }
    }
}

impl fmt::Display for WhichSheet {
    fn fmt(&self, out: &mut fmt::Formatter<'_>) -> fmt::Result {
        out.write_str(match self {
            Self::First => "the first sheet",
            Self::Second => "the second sheet",
            Self::Both => "the two sheets together",
        })
    }
}

impl fmt::Display for Unequal {
    fn fmt(&self, out: &mut fmt::Formatter<'_>) -> fmt::Result {
        let Self {
            second,
            first_line,
            second_line,
            ..
        } = self;
        write!(
            out,
            "id {} (line {first_line} of the first sheet, line {second_line} of the second):",
            second.id.0
        )?;
        for (place, (key, first, second)) in self.fields().enumerate() {
            let between = if place == 0 { "" } else { "," };
            write!(out, "{between} {key}={first} and {key}={second}")?;
        }
        Ok(())
    }
}

impl fmt::Display for Clash {
    fn fmt(&self, out: &mut fmt::Formatter<'_>) -> fmt::Result {
        match self {
            Self::Rules { first, second } => {
                write!(out, "{first} on the first sheet, {second} on the second")
            }
            Self::Component(unequal) => unequal.fmt(out),
        }
    }
}

impl fmt::Display for JoinRefusal {
    fn fmt(&self, out: &mut fmt::Formatter<'_>) -> fmt::Result {
        write!(out, "{}: {}", self.sheet, self.refusal)?;
        match self.clash {
            Some(clash) => write!(out, ": {clash}"),
            None => Ok(()),
        }
    }
}

impl Error for JoinRefusal {}

/// What the library says.
#[derive(Clone, Copy, Debug, Eq, PartialEq)]
struct Said {
    sheet: WhichSheet,
    refusal: Refusal,
}

impl Told for Said {
    fn reason(&self) -> Reason {
        self.refusal.reason
    }
}

impl From<Refusal> for Said {
    fn from(refusal: Refusal) -> Self {
        Self {
            sheet: WhichSheet::Both,
            refusal,
        }
    }
}

/// Where the sheet of a refusal begins in an answer.
const SHEET: u32 = 56;

/// How many bytes were written.
fn bytes(answer: u64) -> Result<u64, Said> {
    if Refusal::of(answer).is_none() {
        return Ok(answer >> 16);
    }
    let mut sheets = WhichSheet::ALL.into_iter();
    let sheet = sheets.find(|it| u64::from(it.number()) == answer >> SHEET);
    let refusal = Refusal::of_sheet(answer % (1 << SHEET));
    Err(match (sheet, refusal) {
        (Some(sheet), Some(refusal)) => Said { sheet, refusal },
        _ => Refusal::UNREADABLE.into(),
    })
}

/// The line at which a component of a valid sheet begins: in either form behind the
/// lines before the lists and the count.
fn line_of(text: &[u8], form: Form, item: usize) -> usize {
    match form {
        Form::Old => usize::from(text.starts_with(b"rules=")) + 1 + FIELDS.len() * item,
        Form::Short => 3 + item,
    }
}

/// What the sheets disagree in.
fn clash(refusal: Refusal, first: &[u8], second: &[u8]) -> Option<Clash> {
    if !matches!(refusal.reason, Reason::OtherRules | Reason::UnequalFields) {
        return None;
    }
    let one = read_sheet(first).ok()?;
    let other = read_sheet(second).ok()?;
    if refusal.reason == Reason::OtherRules {
        return Some(Clash::Rules {
            first: one.rules,
            second: other.rules,
        });
    }
    let item = refusal.place?.item;
    let unequal = *other.components.get(item)?;
    let mut components = one.components.iter().enumerate();
    let (place, component) = components.find(|(_, it)| it.id == unequal.id)?;
    Some(Clash::Component(Unequal {
        first: *component,
        second: unequal,
        first_line: line_of(first, one.form, place),
        second_line: line_of(second, other.form, item),
    }))
}

/// Two valid sheets of the same rules, each in either form, as one valid sheet of the
/// old form: two halves of a plot, built at two tables. A component that both have,
/// with the same fields, stands once, and so does a connection that both have;
/// frontiers are those of the first and then those of the second. Components that
/// shared a net or fragment on either sheet share one on the joined sheet. In it
/// rules 1 have no line.
///
/// # Errors
/// A fault of the first sheet; then one of the second; then rules that differ, a
/// component that both have with unequal fields, or a joined list over its limit.
///
/// ```
/// // A wire that both tables know, a lever to its left and a lamp to its right.
/// let left = b"sheet=2\nrules=2\ncomponents=2\nc=1,0,0,0,4,0,0,0\nc=2,1,0,0,0,0,0,0\n\
///     connections=1\nn=1,2,7\nfrontiers=0\n";
/// let right = b"sheet=2\nrules=2\ncomponents=2\nc=2,1,0,0,0,0,0,0\nc=3,2,0,0,11,0,0,0\n\
///     connections=1\nn=2,3,3\nfrontiers=0\n";
///
/// let whole = dustroute::read_sheet(&dustroute::join(left, right)?)?;
/// assert_eq!(whole.form, dustroute::Form::Old);
/// assert_eq!(whole.components.iter().map(|it| it.id.0).collect::<Vec<_>>(), [1, 2, 3]);
/// assert_eq!(whole.connections.len(), 2);
///
/// let said = dustroute::join(left, b"components=0\nconnections=0\nfrontiers=0\n");
/// let said = said.map_err(|refusal| refusal.to_string());
/// let text = "the two sheets together: refusal 13: the two sheets are marked by different \
///     rules: rules 2 on the first sheet, rules 1 on the second";
/// assert_eq!(said, Err(text.to_string()));
/// # Ok::<(), Box<dyn std::error::Error>>(())
/// ```
pub fn join(first: &[u8], second: &[u8]) -> Result<Vec<u8>, JoinRefusal> {
    let mut work = Work::for_sheets(2);
    let joined = written(|out| bytes(work.join(first, second, out)));
    joined.map_err(|Said { sheet, refusal }| JoinRefusal {
        sheet,
        refusal,
        clash: clash(refusal, first, second),
    })
}

#[cfg(test)]
mod tests {
    use super::{SHEET, Said, WhichSheet, bytes};
    use crate::{List, Place, Reason, Refusal};

    #[test]
    fn the_sheet_stands_above_the_item() {
        for (sheet, number) in [
            (WhichSheet::First, 1),
            (WhichSheet::Second, 2),
            (WhichSheet::Both, 0),
        ] {
            let refusal = Refusal {
                reason: Reason::BadLine,
                place: Some(Place {
                    list: List::Lines,
                    item: 70_000,
                }),
            };
            let answer = 9 + 256 * 3 + 65_536 * 70_000 + (number << SHEET);
            assert_eq!(bytes(answer), Err(Said { sheet, refusal }));
        }
        assert_eq!(bytes(u64::MAX << 16), Ok(u64::MAX >> 16));
    }

    #[test]
    fn what_no_contract_allows_is_unreadable() {
        let unreadable = Err(Refusal::UNREADABLE.into());
        for answer in [9, 13 + 256 * 4, 19 + 256 * 3, 2 + 256 * 3 + (3 << SHEET)] {
            assert_eq!(bytes(answer), unreadable, "{answer}");
        }
    }
}
