//! The report of a sheet, compared byte for byte with the one that the
//! restatement prints, by rules 1 of the unchanged Rust's answers; a sheet in its
//! other form; refusals, and what each call leaves of the slices, with the
//! restatement.

use std::fmt::{self, Display};

use paper::sheet::{Left, Sheet, SheetLent};
use scenes::limits::{COMPONENT, CONNECTION, FRONTIER};
use scenes::sheets::Limits;

use crate::{Counted, Guarded};

/// The entry: a text, the limits, the three work lists and the buffer. It answers
/// how many bytes are written.
pub type Entry = fn(&[u8], [u64; 3], [&mut [i64]; 3], &mut [u8]) -> Result<u64, probe::Refusal>;

/// What the restatement says of a sheet.
type Judge = fn(&[u8], Limits) -> Sheet;

/// The highest number that a sheet can get.
pub const LAST: usize = 12;

/// Those that none can get.
pub const NEVER: [usize; 3] = [7, 8, 10];

/// Counts of what was compared.
#[derive(Clone, Debug)]
pub struct Sheets {
    entry: Entry,
    judge: Judge,
    sheets: usize,
    calls: usize,
    by_number: [u64; LAST + 1],
    /// Refusals with the work lists as before, and with them zero.
    left: [u64; 2],
    bytes_read: u64,
    bytes_written: u64,
}

/// Lent where a sheet is refused for a line, so that a write would show.
const FOR_A_FAULT: SheetLent = SheetLent {
    components: 3 * COMPONENT,
    connections: 4 * CONNECTION,
    frontiers: 2 * FRONTIER,
    out: 512,
};

/// A text as it is printed beside a fault, not more than its front.
pub struct Shown<'a>(pub &'a [u8]);

impl Display for Shown<'_> {
    fn fmt(&self, out: &mut fmt::Formatter<'_>) -> fmt::Result {
        const MOST: usize = 1_500;
        let front = &self.0[..self.0.len().min(MOST)];
        write!(out, "\n  {} bytes: {}", self.0.len(), front.escape_ascii())
    }
}

/// The slices of one call.
struct Slices {
    text: Guarded<u8>,
    components: Guarded<i64>,
    connections: Guarded<i64>,
    frontiers: Guarded<i64>,
    out: Guarded<u8>,
}

impl Slices {
    fn new(text: &[u8], lent: &SheetLent, shift: usize) -> Self {
        let mut guarded = Guarded::new(text.len(), shift);
        guarded.lent().copy_from_slice(text);
        Self {
            text: guarded,
            components: Guarded::new(lent.components, shift / 2),
            connections: Guarded::new(lent.connections, shift / 4),
            frontiers: Guarded::new(lent.frontiers, shift / 8),
            out: Guarded::new(lent.out, shift / 8),
        }
    }

    fn call(&mut self, entry: Entry, limits: Limits) -> Result<u64, probe::Refusal> {
        let work = [
            self.components.lent(),
            self.connections.lent(),
            self.frontiers.lent(),
        ];
        entry(self.text.lent(), limits.each(), work, self.out.lent())
    }

    /// Whether the work lists are as before, or zero throughout.
    fn are_left(&self, left: Left, lent: &SheetLent) -> bool {
        let holds = |list: &Guarded<i64>, length: usize| match left {
            Left::AsBefore => list.holds(&[]),
            Left::Zero => list.holds(&vec![0; length]),
        };
        holds(&self.components, lent.components)
            && holds(&self.connections, lent.connections)
            && holds(&self.frontiers, lent.frontiers)
    }
}

impl Sheets {
    /// An entry that writes the report.
    #[must_use]
    pub const fn new(entry: Entry) -> Self {
        Self::judged(entry, Sheet::read)
    }

    /// An entry that writes the sheet in its other form.
    #[must_use]
    pub const fn turning(entry: Entry) -> Self {
        Self::judged(entry, Sheet::turned)
    }

    const fn judged(entry: Entry, judge: Judge) -> Self {
        Self {
            entry,
            judge,
            sheets: 0,
            calls: 0,
            by_number: [0; LAST + 1],
            left: [0; 2],
            bytes_read: 0,
            bytes_written: 0,
        }
    }

    /// One call on a sheet that was judged already, with all that it answers
    /// and leaves.
    fn call(
        &mut self,
        text: &[u8],
        limits: Limits,
        sheet: &Sheet,
        lent: &SheetLent,
        case: &dyn Display,
    ) {
        let mut slices = Slices::new(text, lent, self.calls % 64);
        self.calls += 1;
        let given = slices.call(self.entry, limits);
        let (wanted, left) = sheet.answer(lent);
        self.count(text, wanted, left);
        let shown = Shown(text);
        let said = wanted.map(|report| report.len() as u64).map_err(probed);
        assert_eq!(given, said, "{case}, {limits:?} {lent:?}{shown}");
        let report = wanted.unwrap_or_default();
        let held = slices.out.holds(report);
        assert!(held, "buffer, {case}, {limits:?} {lent:?}{shown}");
        let held = slices.are_left(left, lent);
        assert!(held, "work lists, {case}, {limits:?} {lent:?}{shown}");
        assert!(slices.text.holds(text), "text, {case}{shown}");
    }

    fn count(&mut self, text: &[u8], wanted: Result<&[u8], scenes::Refusal>, left: Left) {
        self.bytes_read += text.len() as u64;
        match wanted {
            Ok(written) => {
                self.by_number[0] += 1;
                self.bytes_written += written.len() as u64;
            }
            Err(refusal) => {
                self.by_number[usize::try_from(refusal.number).unwrap_or(0)] += 1;
                self.left[usize::from(left == Left::Zero)] += 1;
            }
        }
    }

    /// A sheet with slices that are just enough, and with others; these go
    /// round from sheet to sheet.
    ///
    /// # Panics
    /// Where something differs; `case` is printed then.
    pub fn sheet(&mut self, text: &[u8], limits: Limits, case: &dyn Display) {
        let sheet = (self.judge)(text, limits);
        let enough = enough(&sheet);
        self.call(text, limits, &sheet, &enough, case);
        let others = others(&enough);
        if let Some(lent) = others.get(self.sheets % others.len().max(1)) {
            self.call(text, limits, &sheet, lent, case);
        }
        self.sheets += 1;
    }

    /// A sheet with all those slices.
    ///
    /// # Panics
    /// Where something differs; `case` is printed then.
    pub fn sheet_with_every_length(&mut self, text: &[u8], limits: Limits, case: &dyn Display) {
        let sheet = (self.judge)(text, limits);
        let enough = enough(&sheet);
        self.call(text, limits, &sheet, &enough, case);
        for lent in others(&enough) {
            self.call(text, limits, &sheet, &lent, case);
        }
        self.sheets += 1;
    }

    /// How many sheets there were, each called upon more than once.
    #[must_use]
    pub const fn sheets(&self) -> usize {
        self.sheets
    }

    /// Prints the counts.
    ///
    /// # Panics
    /// Where one of the numbers never came up, or one that a sheet cannot get
    /// did.
    pub fn assert_numbers_came_up(&self, numbers: &[usize], title: &str) {
        self.print(title);
        for number in numbers {
            assert!(self.count_of(*number) > 0, "{number} never came up");
        }
        assert_eq!(NEVER.map(|number| self.count_of(number)), [0; 3]);
    }
}

impl Counted for Sheets {
    const LAST: usize = LAST;

    fn count_of(&self, number: usize) -> u64 {
        self.by_number.get(number).copied().unwrap_or(0)
    }

    fn print(&self, title: &str) {
        let Self {
            sheets,
            calls,
            by_number,
            left: [before, zero],
            bytes_read,
            bytes_written,
            ..
        } = self;
        println!(
            "{title}: {sheets} sheets, {calls} calls, by number {by_number:?}, refused with work lists as before {before}, zero {zero}, {bytes_read} bytes read, {bytes_written} written"
        );
    }
}

const fn probed(refusal: scenes::Refusal) -> probe::Refusal {
    let scenes::Refusal { number, list, item } = refusal;
    probe::Refusal { number, list, item }
}

/// The least that is enough; where a line is refused, anything.
fn enough(sheet: &Sheet) -> SheetLent {
    match sheet {
        Sheet::Faulty(_) => FOR_A_FAULT,
        _ => sheet.enough(),
    }
}

/// Other lengths: each slice one short, empty, one over and much longer; all
/// longer; a work list and the buffer both short.
fn others(enough: &SheetLent) -> Vec<SheetLent> {
    let mut all = Vec::new();
    let mut add = |change: &dyn Fn(&mut SheetLent)| {
        let mut lent = *enough;
        change(&mut lent);
        if lent != *enough {
            all.push(lent);
        }
    };
    let slices: [fn(&mut SheetLent) -> &mut usize; 4] = [
        |lent| &mut lent.out,
        |lent| &mut lent.components,
        |lent| &mut lent.connections,
        |lent| &mut lent.frontiers,
    ];
    for slice in slices {
        add(&|lent| *slice(lent) = slice(lent).saturating_sub(1));
        add(&|lent| *slice(lent) = 0);
        add(&|lent| *slice(lent) += 1);
        add(&|lent| *slice(lent) += 200);
    }
    add(&|lent| slices.iter().for_each(|slice| *slice(lent) += 7));
    add(&|lent| *lent = SheetLent::default());
    for slice in &slices[1..] {
        add(&|lent| {
            *slice(lent) = slice(lent).saturating_sub(1);
            lent.out = lent.out.saturating_sub(1);
        });
    }
    all
}
