//! A plot built at several tables: parts that share some of it, and together have
//! all.

use std::collections::{BTreeMap, BTreeSet};
use std::ops::Range;

use crate::Scene;
use crate::limits::{COMPONENT, CONNECTION, FRONTIER};
use crate::random::Random;

/// The tables at which a record stands.
#[derive(Clone, Copy)]
enum Cut {
    /// Each at any of them, at one at least.
    Drawn,
    /// In order along the list, so much of it at two neighbours as well.
    Along(usize),
    /// All of it at the first.
    Whole,
}

impl Cut {
    fn drawn(random: &mut Random) -> Self {
        match random.below(8) {
            0 => Self::Whole,
            1..=3 => Self::Along(random.below(5)),
            _ => Self::Drawn,
        }
    }

    /// At which of so many tables the item of a list stands.
    fn stands(self, tables: usize, item: usize, items: usize, random: &mut Random) -> Vec<bool> {
        let own = match self {
            Self::Drawn => random.below(tables),
            Self::Along(_) => item * tables / items.max(1),
            Self::Whole => 0,
        };
        let at = |table: usize, random: &mut Random| match self {
            Self::Drawn => random.once_in(3),
            Self::Along(shared) => part(table, tables, items, shared).contains(&item),
            Self::Whole => false,
        };
        let all = 0..tables;
        all.map(|table| table == own || at(table, random)).collect()
    }
}

/// The items of a table where they are cut along the list.
const fn part(table: usize, tables: usize, items: usize, shared: usize) -> Range<usize> {
    let start = table * items / tables;
    start.saturating_sub(shared)..(table + 1) * items / tables
}

fn deal(list: &[i64], width: usize, tables: usize, random: &mut Random) -> Vec<Vec<i64>> {
    let cut = Cut::drawn(random);
    let mut parts = vec![Vec::new(); tables];
    let items = list.len() / width;
    for (item, record) in list.chunks(width).enumerate() {
        let stands = cut.stands(tables, item, items, random);
        for (part, _) in parts.iter_mut().zip(stands).filter(|(_, stands)| *stands) {
            part.extend_from_slice(record);
        }
    }
    parts
}

/// Frontiers are not shared: those of the first table come before those of the next.
fn cut_frontiers(list: &[i64], tables: usize, random: &mut Random) -> Vec<Vec<i64>> {
    let items = list.len() / FRONTIER;
    let mut ends: Vec<usize> = (1..tables).map(|_| random.below(items + 1)).collect();
    ends.sort_unstable();
    ends.push(items);
    let mut start = 0;
    let parts = ends.into_iter().map(|end| {
        let part = list[start * FRONTIER..end * FRONTIER].to_vec();
        start = end;
        part
    });
    parts.collect()
}

/// A valid scene at so many tables: each part is valid, and joined in order they are
/// the scene.
#[must_use]
pub fn parts(scene: &Scene, tables: usize, random: &mut Random) -> Vec<Scene> {
    let components = deal(&scene.components, COMPONENT, tables, random);
    let connections = deal(&scene.connections, CONNECTION, tables, random);
    let frontiers = cut_frontiers(&scene.frontiers, tables, random);
    let lists = components.into_iter().zip(connections).zip(frontiers);
    let parts = lists.map(|((components, connections), frontiers)| Scene {
        components,
        connections,
        ports: Vec::new(),
        frontiers,
    });
    parts.collect()
}

/// The places of ids in a scene's lists.
fn ids(scene: &mut Scene) -> impl Iterator<Item = &mut i64> {
    let own = scene.components.iter_mut().step_by(COMPONENT);
    let ends = scene.connections.chunks_mut(CONNECTION);
    own.chain(ends.flat_map(|record| record.iter_mut().take(2)))
}

/// The scene with ids that the other has not, in the same order.
#[must_use]
pub fn renamed(scene: &Scene, other: &Scene) -> Scene {
    let [mut renamed, mut other] = [scene.clone(), other.clone()];
    let taken: BTreeSet<i64> = ids(&mut other).map(|id| *id).collect();
    let old: BTreeSet<i64> = ids(&mut renamed).map(|id| *id).collect();
    let free = (0..).filter(|id| !taken.contains(id));
    let new: BTreeMap<i64, i64> = old.into_iter().zip(free).collect();
    for id in ids(&mut renamed) {
        *id = new.get(id).copied().unwrap_or(*id);
    }
    renamed
}
