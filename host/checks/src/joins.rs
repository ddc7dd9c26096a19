//! Two sheets as one, compared byte for byte with the sheet of the restatement;
//! refusals with the sheet they are of, and what each call leaves of the slices.

use std::fmt::Display;

use paper::join::Join;
use paper::sheet::{Left, SheetLent};
use probe::sheets::join;
use scenes::limits::{COMPONENT, CONNECTION, FRONTIER};

use crate::Guarded;
use crate::sheets::Shown;

/// The highest number that a join can get.
const LAST: usize = 14;

/// Those that none can get.
const NEVER: [usize; 3] = [7, 8, 10];

/// Added where a line is refused, so that a write would show.
const FOR_A_FAULT: SheetLent = SheetLent {
    components: 3 * COMPONENT,
    connections: 4 * CONNECTION,
    frontiers: 2 * FRONTIER,
    out: 512,
};

/// Counts of what was compared.
#[derive(Clone, Debug, Default)]
pub struct Joins {
    pairs: usize,
    calls: usize,
    accepted: u64,
    /// By the sheet, 0 to 2, and by number.
    refused: [[u64; LAST + 1]; 3],
    /// Refusals with the work lists as before, and with them zero.
    left: [u64; 2],
    bytes_written: u64,
}

/// The slices of one call.
struct Slices {
    texts: [Guarded<u8>; 2],
    work: [Guarded<i64>; 3],
    out: Guarded<u8>,
}

fn guarded(text: &[u8], shift: usize) -> Guarded<u8> {
    let mut guarded = Guarded::new(text.len(), shift);
    guarded.lent().copy_from_slice(text);
    guarded
}

impl Slices {
    fn new(texts: [&[u8]; 2], lent: &SheetLent, shift: usize) -> Self {
        let lengths = [lent.components, lent.connections, lent.frontiers];
        Self {
            texts: texts.map(|text| guarded(text, shift)),
            work: lengths.map(|length| Guarded::new(length, shift / 2)),
            out: Guarded::new(lent.out, shift / 8),
        }
    }

    fn call(&mut self) -> Result<u64, probe::sheets::JoinRefusal> {
        let [first, second] = self.texts.each_mut().map(|it| &*it.lent());
        let work = self.work.each_mut().map(Guarded::lent);
        join(first, second, work, self.out.lent())
    }

    /// Whether the work lists are as before, or zero throughout.
    fn are_left(&self, left: Left, lent: &SheetLent) -> bool {
        let lengths = [lent.components, lent.connections, lent.frontiers];
        let mut lists = self.work.iter().zip(lengths);
        lists.all(|(list, length)| match left {
            Left::AsBefore => list.holds(&[]),
            Left::Zero => list.holds(&vec![0; length]),
        })
    }
}

impl Joins {
    fn call(&mut self, texts: [&[u8]; 2], pair: &Join, lent: &SheetLent, case: &dyn Display) {
        let mut slices = Slices::new(texts, lent, self.calls % 64);
        self.calls += 1;
        let given = slices.call();
        let (wanted, left) = pair.answer(lent);
        self.count(wanted, left);
        let shown = format!("{case}, {lent:?}{}{}", Shown(texts[0]), Shown(texts[1]));
        let said = wanted.map(|text| text.len() as u64).map_err(probed);
        assert_eq!(given, said, "{shown}");
        let written = slices.out.holds(wanted.unwrap_or_default());
        assert!(written, "buffer, {shown}");
        assert!(slices.are_left(left, lent), "work lists, {shown}");
        let mut read = slices.texts.iter().zip(texts);
        assert!(read.all(|(guarded, text)| guarded.holds(text)), "{shown}");
    }

    fn count(&mut self, wanted: Result<&[u8], paper::join::JoinRefusal>, left: Left) {
        match wanted {
            Ok(text) => {
                self.accepted += 1;
                self.bytes_written += text.len() as u64;
            }
            Err(refused) => {
                let [sheet, number] = [refused.sheet, refused.refusal.number];
                let [sheet, number] = [sheet, number].map(|it| usize::try_from(it).unwrap_or(0));
                self.refused[sheet][number] += 1;
                self.left[usize::from(left == Left::Zero)] += 1;
            }
        }
    }

    /// Two sheets with slices that are just enough, and with others; these go round
    /// from pair to pair. What is written, where the slices are enough.
    ///
    /// # Panics
    /// Where something differs; `case` is printed then.
    pub fn pair(&mut self, texts: [&[u8]; 2], case: &dyn Display) -> Option<Vec<u8>> {
        let pair = Join::of(texts[0], texts[1]);
        let enough = enough(&pair);
        self.call(texts, &pair, &enough, case);
        let others = others(&enough);
        if let Some(lent) = others.get(self.pairs % others.len().max(1)) {
            self.call(texts, &pair, lent, case);
        }
        self.pairs += 1;
        pair.answer(&enough).0.ok().map(<[u8]>::to_vec)
    }

    /// Two sheets with all those slices.
    ///
    /// # Panics
    /// Where something differs; `case` is printed then.
    pub fn pair_with_every_length(&mut self, texts: [&[u8]; 2], case: &dyn Display) {
        let pair = Join::of(texts[0], texts[1]);
        let enough = enough(&pair);
        self.call(texts, &pair, &enough, case);
        for lent in others(&enough) {
            self.call(texts, &pair, &lent, case);
        }
        self.pairs += 1;
    }

    /// How many calls were accepted.
    #[must_use]
    pub const fn accepted(&self) -> u64 {
        self.accepted
    }

    /// Prints the counts.
    ///
    /// # Panics
    /// Where one of these, a sheet and a number, never came up, or a number that no
    /// join can get did.
    pub fn assert_came_up(&self, wanted: &[(usize, &[usize])], title: &str) {
        let Self {
            pairs,
            calls,
            accepted,
            refused: [both, first, second],
            left: [before, zero],
            bytes_written,
        } = self;
        println!(
            "{title}: {pairs} pairs, {calls} calls, {accepted} accepted, refused by number of both {both:?}, of the first {first:?}, of the second {second:?}, work lists as before {before}, zero {zero}, {bytes_written} bytes written"
        );
        for (sheet, numbers) in wanted {
            for number in *numbers {
                let count = self.refused[*sheet][*number];
                assert!(count > 0, "{number} of {sheet} never came up");
            }
        }
        assert_eq!(self.refused.map(|by| NEVER.map(|it| by[it])), [[0; 3]; 3]);
        let of_both = [1, 2, 13, 14].map(|number| both[number]);
        assert_eq!(of_both.iter().sum::<u64>(), both.iter().sum());
    }
}

const fn probed(refused: paper::join::JoinRefusal) -> probe::sheets::JoinRefusal {
    let scenes::Refusal { number, list, item } = refused.refusal;
    probe::sheets::JoinRefusal {
        sheet: refused.sheet,
        refusal: probe::Refusal { number, list, item },
    }
}

/// The least that is enough; where a line is refused, more.
fn enough(pair: &Join) -> SheetLent {
    let enough = pair.enough();
    if !pair.has_a_bad_line() {
        return enough;
    }
    SheetLent {
        components: enough.components + FOR_A_FAULT.components,
        connections: enough.connections + FOR_A_FAULT.connections,
        frontiers: enough.frontiers + FOR_A_FAULT.frontiers,
        out: FOR_A_FAULT.out,
    }
}

/// Other lengths: each slice one short, a half, empty, one over and much longer; all
/// longer, and all empty; a work list and the buffer both short.
fn others(enough: &SheetLent) -> Vec<SheetLent> {
    let mut all = Vec::new();
    let mut add = |change: &dyn Fn(&mut SheetLent)| {
        let mut lent = *enough;
        change(&mut lent);
        if lent != *enough {
            all.push(lent);
        }
    };
    let slices: [fn(&mut SheetLent) -> &mut usize; 4] = [
        |lent| &mut lent.out,
        |lent| &mut lent.components,
        |lent| &mut lent.connections,
        |lent| &mut lent.frontiers,
    ];
    for slice in slices {
        add(&|lent| *slice(lent) = slice(lent).saturating_sub(1));
        add(&|lent| *slice(lent) /= 2);
        add(&|lent| *slice(lent) = 0);
        add(&|lent| *slice(lent) += 1);
        add(&|lent| *slice(lent) += 200);
    }
    add(&|lent| slices.iter().for_each(|slice| *slice(lent) += 7));
    add(&|lent| *lent = SheetLent::default());
    for slice in &slices[1..] {
        add(&|lent| {
            *slice(lent) = slice(lent).saturating_sub(1);
            lent.out = lent.out.saturating_sub(1);
        });
    }
    all
}
