//! Sheets: plots as text, of either form.

use std::fmt;

use crate::numbers::counts;
use crate::work::{CONVERT, REPORT, Work};
use crate::{Component, ComponentId, Connection, Position, Reason, Refusal, Rules};

/// How a sheet is written. Its first line tells which form it has.
#[derive(Clone, Copy, Debug, Eq, Hash, Ord, PartialEq, PartialOrd)]
pub enum Form {
    /// Number 1: a number to a line. It begins with its counts, or with the line
    /// `rules=`.
    Old,
    /// Number 2, the shorter one: a record to a line. It begins with the line
    /// `sheet=2`.
    Short,
}

impl Form {
    /// Both forms, by rising number.
    pub const ALL: [Self; 2] = [Self::Old, Self::Short];

    /// The number, of the shorter form that in its line `sheet=`.
    #[must_use]
    pub const fn number(self) -> u64 {
        match self {
            Self::Old => 1,
            Self::Short => 2,
        }
    }
}

impl fmt::Display for Form {
    fn fmt(&self, out: &mut fmt::Formatter<'_>) -> fmt::Result {
        out.write_str(match self {
            Self::Old => "old form",
            Self::Short => "shorter form",
        })
    }
}

/// What a valid sheet says.
#[derive(Clone, Debug, Eq, PartialEq)]
pub struct Sheet {
    /// How it is written.
    pub form: Form,
    /// By which rules it is marked: those of its line `rules=`; without one they are
    /// [`Rules::One`].
    pub rules: Rules,
    /// The blocks, by rising [`order`](Component::order).
    pub components: Vec<Component>,
    /// The grouping connections, rising. One with an end that is no component is
    /// there too.
    pub connections: Vec<Connection>,
    /// Cells at the edge of what was seen, in any order.
    pub frontiers: Vec<Position>,
}

impl Sheet {
    /// The blocks that the last block of the [`report`] names by [`Rules::Three`]:
    /// those whose facing was not seen, in list order, connected or not. By other
    /// rules there are none.
    ///
    /// ```
    /// let text = "sheet=2\nrules=3\n\
    ///     components=2\nc=1,0,0,0,4,0,0,0\nc=2,1,0,0,1,0,0,0\n\
    ///     connections=1\nn=1,2,5\nfrontiers=0\n";
    /// let sheet = dustroute::read_sheet(text.as_bytes())?;
    /// assert_eq!(sheet.unread().collect::<Vec<_>>(), [dustroute::ComponentId(2)]);
    /// # Ok::<(), dustroute::Refusal>(())
    /// ```
    pub fn unread(&self) -> impl Iterator<Item = ComponentId> {
        let unread = self.components.iter();
        let unread = unread.filter(|it| self.rules.leaves_unread(it));
        unread.map(|it| it.id)
    }
}

/// The bytes of the first buffer that is lent for a text that is written.
const FIRST: usize = 1 << 16;

/// How much longer each next one is.
const TIMES: usize = 4;

/// No report is as long: 4,096 verdict rows with two lists of 1,024 ids each are
/// less than half of it.
const LONGEST: usize = 1 << 28;

/// What a call answers in place of a text.
pub trait Told: From<Refusal> {
    fn reason(&self) -> Reason;
}

impl Told for Refusal {
    fn reason(&self) -> Reason {
        self.reason
    }
}

/// What a call writes into a buffer that is long enough; the call answers how many
/// bytes. The work lists are, so that a slice which is too short is the buffer.
pub fn written<R: Told>(mut call: impl FnMut(&mut [u8]) -> Result<u64, R>) -> Result<Vec<u8>, R> {
    let mut length = FIRST;
    loop {
        let mut out = vec![0; length];
        match call(&mut out) {
            Ok(count) => {
                let count = usize::try_from(count).ok();
                let count = count.filter(|count| *count <= length);
                out.truncate(count.ok_or(Refusal::UNREADABLE)?);
                return Ok(out);
            }
            Err(refusal) if refusal.reason() != Reason::ShortSlice => return Err(refusal),
            Err(_) if length >= LONGEST => return Err(Refusal::UNREADABLE.into()),
            Err(_) => length *= TIMES,
        }
    }
}

/// How many bytes an entry of one sheet has written.
fn bytes(answer: u64) -> Result<u64, Refusal> {
    Refusal::of_sheet(answer).map_or(Ok(answer >> 16), Err)
}

/// The report of a sheet of either form, line by line as docs/SHEET.md has it, under
/// the sheet's own rules. The lists may be as long as the library takes them; a
/// report is not too long here, as it can be for the program.
///
/// # Errors
/// A line that is not as it must be, or a list.
///
/// ```
/// let sheet = "sheet=2\nrules=3\n\
///     components=2\nc=1,0,0,0,4,0,0,0\nc=2,1,0,0,1,0,0,0\n\
///     connections=1\nn=1,2,5\nfrontiers=0\n";
/// let report = dustroute::report(sheet.as_bytes())?;
///
/// // Nobody saw where the repeater faces.
/// assert!(report.ends_with(b"inputs=0\nunread=1\nid=2\n"));
///
/// let said = dustroute::report(b"sheet=2\nrules=5\n").map_err(|refusal| refusal.to_string());
/// assert_eq!(said, Err("refusal 11 at line 1: rules that are not known".to_string()));
/// # Ok::<(), dustroute::Refusal>(())
/// ```
pub fn report(text: &[u8]) -> Result<Vec<u8>, Refusal> {
    let mut work = Work::new();
    written(|out| bytes(work.write(REPORT, text, out)))
}

/// The same sheet in its other form: the same rules and lists, connections to blocks
/// that are gone among them. In the old form rules 1 have no line. Back again it is
/// the sheet that it was, byte for byte, but for a line `rules=1` of an old one.
///
/// # Errors
/// A line that is not as it must be, or a list.
///
/// ```
/// let old = b"components=0\nconnections=0\nfrontiers=1\nx=0\ny=64\nz=-7\n";
/// let short = dustroute::convert(old)?;
/// assert_eq!(
///     String::from_utf8_lossy(&short),
///     "sheet=2\nrules=1\ncomponents=0\nconnections=0\nfrontiers=1\nf=0,64,-7\n"
/// );
/// assert_eq!(dustroute::convert(&short)?, old);
/// # Ok::<(), dustroute::Refusal>(())
/// ```
pub fn convert(text: &[u8]) -> Result<Vec<u8>, Refusal> {
    let mut work = Work::new();
    written(|out| bytes(work.write(CONVERT, text, out)))
}

/// Form, rules and lists of a sheet of either form, as the other functions take
/// them: its lines are as they must be, and so are its lists.
///
/// # Errors
/// A line that is not as it must be, or a list.
///
/// ```
/// use dustroute::{BlockKind, Form, Rules, groups, ports, read_sheet};
///
/// let text = "rules=2\ncomponents=1\n\
///     id=7\nx=0\ny=64\nz=0\nkind=11\nfacing=0\nsupport=0\nconducts=1\n\
///     connections=0\nfrontiers=0\n";
/// let sheet = read_sheet(text.as_bytes())?;
/// assert_eq!((sheet.form, sheet.rules), (Form::Old, Rules::Two));
/// assert_eq!(sheet.components[0].kind, BlockKind::RedstoneLamp);
/// assert_eq!(groups(sheet.rules, &sheet.components, &sheet.connections)?.net_count, 1);
///
/// let said = read_sheet(b"components=1\nid=07\n").map_err(|refusal| refusal.to_string());
/// assert_eq!(said, Err("refusal 9 at line 1: not the line that belongs there".to_string()));
/// # Ok::<(), dustroute::Refusal>(())
/// ```
pub fn read_sheet(text: &[u8]) -> Result<Sheet, Refusal> {
    let mut work = Work::new();
    let mut head = [0; 2];
    let answer = work.sheet(text, &mut head);
    if let Some(refusal) = Refusal::of_sheet(answer) {
        return Err(refusal);
    }
    work.read(counts(answer)?, head).ok_or(Refusal::UNREADABLE)
}

#[cfg(test)]
mod tests {
    use super::{bytes, written};
    use crate::Refusal;

    #[test]
    fn buffers_grow_until_the_text_fits() {
        let mut lengths = Vec::new();
        let text = written(|out| {
            lengths.push(out.len());
            if out.len() < 1_000_000 {
                return bytes(2 + 256 * 3);
            }
            out.fill(b'x');
            bytes(65_536 * 1_000_000)
        });
        assert_eq!(text.map(|it| it.len()), Ok(1_000_000));
        assert_eq!(lengths, [1 << 16, 1 << 18, 1 << 20]);
        assert_eq!(written(|_| bytes(2 + 256 * 3)), Err(Refusal::UNREADABLE));
        assert_eq!(
            written(|_| bytes(65_536 * 65_537)),
            Err(Refusal::UNREADABLE)
        );
    }
}
