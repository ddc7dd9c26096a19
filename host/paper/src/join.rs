//! "Two tables, one plot" (document 02, R-9): two sheets as one, and what each call
//! leaves of the slices.

use std::collections::{BTreeMap, BTreeSet};

use scenes::limits::{
    COMPONENT, COMPONENTS, CONNECTION, CONNECTIONS, FRONTIER, FRONTIERS, RULES_OF_THE_RUST,
};
use scenes::refusals::{NO_LIST, too_short_slice};
use scenes::sheets::Limits;
use scenes::sheets::forms::{Form, write_form};
use scenes::{Refusal, Scene};

use super::parse::Parsed;
use super::sheet::{Left, Sheet, SheetLent};

/// A refusal, and the sheet that it is of: 1, 2, or 0 of both.
#[derive(Clone, Copy, Debug, Eq, PartialEq)]
pub struct JoinRefusal {
    pub sheet: u64,
    pub refusal: Refusal,
}

/// Two sheets, as far as they can be judged before anything is lent.
#[derive(Clone, Debug)]
pub struct Join {
    first: Sheet,
    second: Sheet,
    /// The joined sheet, or 13, 14 or 1; only of two valid sheets.
    together: Result<Vec<u8>, Refusal>,
}

const RULES_DIFFER: Refusal = Refusal {
    number: 13,
    list: NO_LIST,
    item: 0,
};

/// "One id has unequal fields": the earliest component of the second list.
fn unequal(first: &[i64], second: &[i64]) -> Option<Refusal> {
    let known = first.chunks(COMPONENT).map(|record| (record[0], record));
    let known: BTreeMap<i64, &[i64]> = known.collect();
    let clashes = |record: &[i64]| known.get(&record[0]).is_some_and(|it| *it != record);
    let item = second.chunks(COMPONENT).position(clashes)?;
    Some(Refusal {
        number: 14,
        list: 0,
        item: item as u64,
    })
}

/// By position and then id.
fn united_components(lists: [&[i64]; 2]) -> Vec<i64> {
    let records = lists.into_iter().flat_map(|list| list.chunks(COMPONENT));
    let placed = records.map(|it| ([it[1], it[2], it[3], it[0]], it));
    let placed: BTreeMap<[i64; 4], &[i64]> = placed.collect();
    placed.into_values().flatten().copied().collect()
}

fn united_connections(lists: [&[i64]; 2]) -> Vec<i64> {
    let records = lists.into_iter().flat_map(|list| list.chunks(CONNECTION));
    let records: BTreeSet<&[i64]> = records.collect();
    records.into_iter().flatten().copied().collect()
}

/// The plot of both.
fn whole(first: &Scene, second: &Scene) -> Scene {
    Scene {
        components: united_components([&first.components, &second.components]),
        connections: united_connections([&first.connections, &second.connections]),
        ports: Vec::new(),
        frontiers: [&first.frontiers[..], &second.frontiers].concat(),
    }
}

/// 1: a list over its limit, which is the item.
fn too_long(scene: &Scene) -> Option<Refusal> {
    let counts = [
        (scene.components.len() / COMPONENT, COMPONENTS),
        (scene.connections.len() / CONNECTION, CONNECTIONS),
        (scene.frontiers.len() / FRONTIER, FRONTIERS),
    ];
    let list = counts.iter().position(|(count, limit)| count > limit)?;
    Some(Refusal {
        number: 1,
        list: list as u64,
        item: counts[list].1 as u64,
    })
}

fn together(first: &Parsed, second: &Parsed) -> Result<Vec<u8>, Refusal> {
    if first.rules != second.rules {
        return Err(RULES_DIFFER);
    }
    let clash = unequal(&first.scene.components, &second.scene.components);
    let joined = whole(&first.scene, &second.scene);
    match clash.or_else(|| too_long(&joined)) {
        Some(refusal) => Err(refusal),
        None => Ok(write_form(Form::Old, first.rules, &joined)),
    }
}

/// What is left of the slices behind the records of a sheet.
const fn behind(lent: &SheetLent, scene: &Scene) -> SheetLent {
    SheetLent {
        components: lent.components.saturating_sub(scene.components.len()),
        connections: lent.connections.saturating_sub(scene.connections.len()),
        frontiers: lent.frontiers.saturating_sub(scene.frontiers.len()),
        out: lent.out,
    }
}

/// The first refusal of a sheet by itself, and whether its lists had been read by
/// then. A buffer of any length is enough for that.
fn by_itself(sheet: &Sheet, lent: &SheetLent) -> (Option<Refusal>, Left) {
    let (answer, left) = sheet.answer(&SheetLent {
        out: usize::MAX,
        ..*lent
    });
    (answer.err(), left)
}

impl Join {
    /// Both sheets, and what they make together.
    #[must_use]
    pub fn of(first: &[u8], second: &[u8]) -> Self {
        let [first, second] = [first, second].map(|text| Sheet::turned(text, Limits::SCENE));
        let none = Parsed {
            form: Form::Old,
            rules: RULES_OF_THE_RUST,
            scene: Scene::default(),
        };
        let said = [&first, &second].map(|it| it.parsed().unwrap_or(&none));
        let together = together(said[0], said[1]);
        Self {
            first,
            second,
            together,
        }
    }

    /// The least that is enough: room for the records of both, and for the joined
    /// sheet.
    #[must_use]
    pub fn enough(&self) -> SheetLent {
        let [one, other] = [&self.first, &self.second].map(Sheet::enough);
        SheetLent {
            components: one.components + other.components,
            connections: one.connections + other.connections,
            frontiers: one.frontiers + other.frontiers,
            out: self.together.as_ref().map_or(0, Vec::len),
        }
    }

    /// Whether a line of a sheet is refused, so that any slices would do.
    #[must_use]
    pub const fn has_a_bad_line(&self) -> bool {
        self.first.parsed().is_none() || self.second.parsed().is_none()
    }

    /// What is written, or the refusal, of a call with slices of these lengths, and
    /// what it leaves in the work lists. A refusal leaves the buffer as it was.
    pub fn answer(&self, lent: &SheetLent) -> (Result<&[u8], JoinRefusal>, Left) {
        let refused = |sheet, refusal| Err(JoinRefusal { sheet, refusal });
        let (fault, left) = by_itself(&self.first, lent);
        if let Some(refusal) = fault {
            return (refused(1, refusal), left);
        }
        let rest = self.first.parsed().map(|it| behind(lent, &it.scene));
        let (fault, _) = by_itself(&self.second, &rest.unwrap_or_default());
        let answer = match (&self.together, fault) {
            (_, Some(refusal)) => refused(2, refusal),
            (Err(refusal), None) => refused(0, *refusal),
            (Ok(text), None) if text.len() > lent.out => refused(0, too_short_slice()),
            (Ok(text), None) => Ok(&text[..]),
        };
        (answer, Left::Zero)
    }
}
