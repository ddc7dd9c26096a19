//! "The sheet": the stages of the entries that read one, and what each leaves of
//! the slices.

use scenes::limits::{COMPONENT, CONNECTION, FRONTIER};
use scenes::refusals::{sheet_lists, too_short_slice};
use scenes::sheets::Limits;
use scenes::sheets::forms::write_form;
use scenes::{Refusal, Scene};

use super::parse::{Parsed, parse};
use super::report::report;

/// Lengths of the slices lent: of the work lists in numbers, and of the buffer in
/// bytes.
#[derive(Clone, Copy, Debug, Default, Eq, PartialEq)]
pub struct SheetLent {
    pub components: usize,
    pub connections: usize,
    pub frontiers: usize,
    pub out: usize,
}

/// What a call leaves in the work lists.
#[derive(Clone, Copy, Debug, Eq, PartialEq)]
pub enum Left {
    AsBefore,
    Zero,
}

/// Numbers of a sheet's head: its form and its rules.
pub const HEAD: usize = 2;

/// A sheet, as far as it can be judged before anything is lent.
#[derive(Clone, Debug, Eq, PartialEq)]
pub enum Sheet {
    /// Refused for a line: 9, 1, 11 or 12.
    Faulty(Refusal),
    /// Refused for its lists: 3 to 6.
    Unsound(Parsed, Refusal),
    /// With what is to be written: its report, or the sheet in the other form.
    Sound(Parsed, Vec<u8>),
}

/// The report of what a sheet says.
fn reported(parsed: &Parsed) -> Vec<u8> {
    let Scene {
        components,
        connections,
        frontiers,
        ..
    } = &parsed.scene;
    report(parsed.rules, components, connections, frontiers)
}

/// "One of the other with the same lists and rules."
fn turned(parsed: &Parsed) -> Vec<u8> {
    write_form(parsed.form.other(), parsed.rules, &parsed.scene)
}

/// The list checks, by the sheet's own rules.
fn unsound(parsed: &Parsed) -> Option<Refusal> {
    let Scene {
        components,
        connections,
        frontiers,
        ..
    } = &parsed.scene;
    sheet_lists(parsed.rules, components, connections, frontiers)
}

impl Sheet {
    fn judged(text: &[u8], limits: Limits, written: fn(&Parsed) -> Vec<u8>) -> Self {
        let parsed = match parse(text, limits) {
            Ok(parsed) => parsed,
            Err(refusal) => return Self::Faulty(refusal),
        };
        match unsound(&parsed) {
            Some(refusal) => Self::Unsound(parsed, refusal),
            None => {
                let text = written(&parsed);
                Self::Sound(parsed, text)
            }
        }
    }

    /// A sheet that is to be reported.
    #[must_use]
    pub fn read(text: &[u8], limits: Limits) -> Self {
        Self::judged(text, limits, reported)
    }

    /// A sheet that is to be written in the other form.
    #[must_use]
    pub fn turned(text: &[u8], limits: Limits) -> Self {
        Self::judged(text, limits, turned)
    }

    /// What it says, where its lines are as they must be.
    #[must_use]
    pub const fn parsed(&self) -> Option<&Parsed> {
        match self {
            Self::Faulty(_) => None,
            Self::Unsound(parsed, _) | Self::Sound(parsed, _) => Some(parsed),
        }
    }

    /// The least that is enough for it.
    #[must_use]
    pub fn enough(&self) -> SheetLent {
        let Some(Parsed { scene, .. }) = self.parsed() else {
            return SheetLent::default();
        };
        SheetLent {
            components: scene.components.len(),
            connections: scene.connections.len(),
            frontiers: scene.frontiers.len(),
            out: match self {
                Self::Sound(_, text) => text.len(),
                _ => 0,
            },
        }
    }

    /// What is written, or the refusal, of a call with slices of these lengths, and
    /// what it leaves in the work lists. A refusal leaves the buffer as it was.
    pub fn answer(&self, lent: &SheetLent) -> (Result<&[u8], Refusal>, Left) {
        let parsed = match self {
            Self::Faulty(refusal) => return (Err(*refusal), Left::AsBefore),
            Self::Unsound(parsed, _) | Self::Sound(parsed, _) => parsed,
        };
        if is_work_short(&parsed.scene, lent) {
            return (Err(too_short_slice()), Left::AsBefore);
        }
        let given = match self {
            Self::Sound(_, text) if text.len() <= lent.out => Ok(&text[..]),
            Self::Unsound(_, refusal) => Err(*refusal),
            _ => Err(too_short_slice()),
        };
        (given, Left::Zero)
    }
}

/// The first 2: a work list with fewer places than the sheet counts.
const fn is_work_short(scene: &Scene, lent: &SheetLent) -> bool {
    lent.components / COMPONENT < scene.components.len() / COMPONENT
        || lent.connections / CONNECTION < scene.connections.len() / CONNECTION
        || lent.frontiers / FRONTIER < scene.frontiers.len() / FRONTIER
}

/// What the entry that gives a sheet's lists answers: form, rules and lists, or
/// 9, 1, 11 or 12, then 2 for the work lists and for the head, which has so many
/// numbers, and then 3 to 6. A refusal leaves the head as it was.
///
/// # Errors
/// The refusal, and what it leaves in the work lists.
pub fn listed(text: &[u8], lent: &SheetLent, head: usize) -> Result<Parsed, (Refusal, Left)> {
    let parsed = parse(text, Limits::SCENE).map_err(|refusal| (refusal, Left::AsBefore))?;
    if is_work_short(&parsed.scene, lent) || head < HEAD {
        return Err((too_short_slice(), Left::AsBefore));
    }
    match unsound(&parsed) {
        Some(refusal) => Err((refusal, Left::Zero)),
        None => Ok(parsed),
    }
}
