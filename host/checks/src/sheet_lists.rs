//! The lists of a sheet through the product's entry: form, rules and numbers,
//! refusals, and what each call leaves of the slices, with the restatement.

use std::fmt::Display;

use paper::sheet::{HEAD, Left, SheetLent, listed};
use probe::sheets::sheet;
use scenes::limits::{COMPONENT, CONNECTION, FRONTIER};
use scenes::sheets::{Limits, lists};

use crate::sheets::{LAST, NEVER, Shown};
use crate::{Counted, Guarded};

/// Lent where a line is refused, so that a write would show.
const FOR_A_FAULT: SheetLent = SheetLent {
    components: 3 * COMPONENT,
    connections: 4 * CONNECTION,
    frontiers: 2 * FRONTIER,
    out: 0,
};

/// Counts of what was compared.
#[derive(Clone, Debug, Default)]
pub struct SheetLists {
    sheets: usize,
    calls: usize,
    by_number: [u64; LAST + 1],
    /// Refused with work lists as before, and with work lists of zeros.
    left: [u64; 2],
    /// By form, and by rules.
    by_head: [[u64; 3]; 2],
    numbers: usize,
}

impl SheetLists {
    /// One call with slices of these lengths.
    ///
    /// # Panics
    /// Where something differs; `case` is printed then.
    pub fn call(&mut self, text: &[u8], lent: &SheetLent, head: usize, case: &dyn Display) {
        let shift = self.calls % 64;
        self.calls += 1;
        let mut read = Guarded::new(text.len(), shift);
        read.lent().copy_from_slice(text);
        let lengths = [lent.components, lent.connections, lent.frontiers];
        let mut work = lengths.map(|length| Guarded::new(length, shift / 2));
        let mut out = Guarded::<u64>::new(head, shift / 4);
        let given = sheet(read.lent(), work.each_mut().map(Guarded::lent), out.lent());
        let shown = format!("{case}, {lent:?} {head}{}", Shown(text));
        assert!(read.holds(text), "text, {shown}");
        match listed(text, lent, head) {
            Ok(parsed) => {
                let wanted = lists(&parsed.scene);
                let widths = [COMPONENT, CONNECTION, FRONTIER];
                let counts = [0, 1, 2].map(|list| (wanted[list].len() / widths[list]) as u64);
                assert_eq!(given, Ok(counts), "{shown}");
                for (list, numbers) in work.iter().zip(wanted) {
                    assert!(list.holds(numbers), "lists, {shown}");
                    self.numbers += numbers.len();
                }
                let rules = parsed.rules.unsigned_abs();
                let head = [parsed.form.number(), rules];
                assert!(out.holds(&head), "head, {shown}");
                let place = head.map(|it| usize::try_from(it - 1).unwrap_or(0));
                self.by_head[place[0]][place[1]] += 1;
                self.by_number[0] += 1;
            }
            Err((scenes::Refusal { number, list, item }, left)) => {
                let wanted = probe::Refusal { number, list, item };
                assert_eq!(given, Err(wanted), "{shown}");
                let held = work.iter().zip(lengths).all(|(list, length)| match left {
                    Left::AsBefore => list.holds(&[]),
                    Left::Zero => list.holds(&vec![0; length]),
                });
                assert!(held, "work lists, {shown}");
                assert!(out.holds(&[]), "a refusal wrote the head, {shown}");
                self.by_number[usize::try_from(number).unwrap_or(0)] += 1;
                self.left[usize::from(left == Left::Zero)] += 1;
            }
        }
    }

    /// A sheet with slices that are just enough, and each of them one short, empty
    /// and one over, in turn.
    ///
    /// # Panics
    /// Where something differs; `case` is printed then.
    pub fn sheet(&mut self, text: &[u8], case: &dyn Display) {
        let enough = enough(text);
        self.call(text, &enough, HEAD, case);
        let others = others(&enough);
        let (lent, head) = others[self.sheets % others.len()];
        self.call(text, &lent, head, case);
        self.sheets += 1;
    }

    /// A sheet with all those slices.
    ///
    /// # Panics
    /// Where something differs; `case` is printed then.
    pub fn sheet_with_every_length(&mut self, text: &[u8], case: &dyn Display) {
        let enough = enough(text);
        self.call(text, &enough, HEAD, case);
        for (lent, head) in others(&enough) {
            self.call(text, &lent, head, case);
        }
        self.sheets += 1;
    }

    /// By form, old and short, and by rules.
    #[must_use]
    pub const fn by_head(&self) -> [[u64; 3]; 2] {
        self.by_head
    }

    /// Prints the counts.
    ///
    /// # Panics
    /// Where one of the numbers never came up, or one that a sheet cannot get
    /// did.
    pub fn assert_numbers_came_up(&self, numbers: &[usize], title: &str) {
        self.print(title);
        for number in numbers {
            assert!(self.count_of(*number) > 0, "{number} never came up");
        }
        assert_eq!(NEVER.map(|number| self.count_of(number)), [0; 3]);
    }
}

impl Counted for SheetLists {
    const LAST: usize = LAST;

    fn count_of(&self, number: usize) -> u64 {
        self.by_number.get(number).copied().unwrap_or(0)
    }

    fn print(&self, title: &str) {
        let Self {
            sheets,
            calls,
            by_number,
            left: [before, zero],
            by_head,
            numbers,
        } = self;
        println!(
            "{title}: {sheets} sheets, {calls} calls, by number {by_number:?}, refused with work lists as before {before}, zero {zero}, by form and rules {by_head:?}, {numbers} numbers"
        );
    }
}

/// The least that is enough; where a line is refused, anything.
fn enough(text: &[u8]) -> SheetLent {
    let Ok(parsed) = paper::parse::parse(text, Limits::SCENE) else {
        return FOR_A_FAULT;
    };
    let [components, connections, frontiers] = lists(&parsed.scene).map(Vec::len);
    SheetLent {
        components,
        connections,
        frontiers,
        out: 0,
    }
}

/// Each slice one short, empty, one over and much longer; the head and a work list
/// both short.
fn others(enough: &SheetLent) -> Vec<(SheetLent, usize)> {
    let lists: [fn(&mut SheetLent) -> &mut usize; 3] = [
        |lent| &mut lent.components,
        |lent| &mut lent.connections,
        |lent| &mut lent.frontiers,
    ];
    let heads = [0, HEAD - 1, HEAD + 1, HEAD + 9];
    let mut all = heads.map(|head| (*enough, head)).to_vec();
    for list in lists {
        let length = *list(&mut enough.clone());
        for (to, head) in [
            (length.saturating_sub(1), HEAD),
            (length.saturating_sub(1), HEAD - 1),
            (0, HEAD),
            (length + 1, HEAD),
            (length + 200, HEAD + 1),
        ] {
            let mut lent = *enough;
            *list(&mut lent) = to;
            all.push((lent, head));
        }
    }
    all
}
