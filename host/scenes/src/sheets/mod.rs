//! Sheets: three lists written as lines `key=value`, and the limits that a
//! caller sets to their counts.

pub mod drawn;
pub mod edits;
pub mod fields;
pub mod forms;
pub mod lengths;
pub mod parts;

use std::fmt::Write;

use crate::Scene;
use crate::limits::{COMPONENT, COMPONENTS, CONNECTION, CONNECTIONS, FRONTIER, FRONTIERS};

pub const COMPONENT_KEYS: [&str; COMPONENT] =
    ["id", "x", "y", "z", "kind", "facing", "support", "conducts"];
pub const CONNECTION_KEYS: [&str; CONNECTION] = ["source", "sink", "kind"];
pub const FRONTIER_KEYS: [&str; FRONTIER] = ["x", "y", "z"];

/// The keys of the counts, in the order of the lists.
pub const COUNT_KEYS: [&str; 3] = ["components", "connections", "frontiers"];

/// The largest magnitude of a number in a line.
pub const LAST_MAGNITUDE: i64 = 4_294_967_295;

/// The most records that a caller takes of each list.
#[derive(Clone, Copy, Debug, Eq, PartialEq)]
pub struct Limits {
    pub components: u64,
    pub connections: u64,
    pub frontiers: u64,
}

impl Limits {
    /// Those of a scene.
    pub const SCENE: Self = Self {
        components: COMPONENTS as u64,
        connections: CONNECTIONS as u64,
        frontiers: FRONTIERS as u64,
    };

    /// Those of the program.
    pub const PROGRAM: Self = Self {
        components: 256,
        connections: 1_024,
        frontiers: 256,
    };

    /// No limits of a caller's own: those of a scene still hold.
    pub const NONE: Self = Self {
        components: u64::MAX,
        connections: u64::MAX,
        frontiers: u64::MAX,
    };

    /// In the order of the lists.
    #[must_use]
    pub const fn each(self) -> [u64; 3] {
        [self.components, self.connections, self.frontiers]
    }

    /// Cut to those of a scene.
    #[must_use]
    pub fn cut(self) -> Self {
        Self {
            components: self.components.min(Self::SCENE.components),
            connections: self.connections.min(Self::SCENE.connections),
            frontiers: self.frontiers.min(Self::SCENE.frontiers),
        }
    }
}

/// The numbers of a scene's three lists in a sheet, in their order.
#[must_use]
pub const fn lists(scene: &Scene) -> [&Vec<i64>; 3] {
    [&scene.components, &scene.connections, &scene.frontiers]
}

/// Writing to a string cannot fail.
fn push_count(text: &mut String, count_key: &str, count: usize) {
    let _ = writeln!(text, "{count_key}={count}");
}

fn push_list(text: &mut String, count_key: &str, keys: &[&str], numbers: &[i64]) {
    push_count(text, count_key, numbers.len() / keys.len());
    for (number, key) in numbers.iter().zip(keys.iter().cycle()) {
        let _ = writeln!(text, "{key}={number}");
    }
}

/// The old sheet of three lists under rules 1. Numbers behind the last whole record are written
/// too, though not counted; such a sheet is no good one.
#[must_use]
pub fn write_sheet(components: &[i64], connections: &[i64], frontiers: &[i64]) -> Vec<u8> {
    let mut text = String::new();
    push_list(&mut text, COUNT_KEYS[0], &COMPONENT_KEYS, components);
    push_list(&mut text, COUNT_KEYS[1], &CONNECTION_KEYS, connections);
    push_list(&mut text, COUNT_KEYS[2], &FRONTIER_KEYS, frontiers);
    text.into_bytes()
}

/// The old sheet of a scene under rules 1: of its components, grouping connections
/// and frontiers.
#[must_use]
pub fn sheet_of(scene: &Scene) -> Vec<u8> {
    write_sheet(&scene.components, &scene.connections, &scene.frontiers)
}

/// The front of a valid scene's lists, as much as the limits allow; valid too,
/// since a grouping connection may lack its ends.
#[must_use]
pub fn within(limits: Limits, scene: &Scene) -> Scene {
    let front = |list: &[i64], width: usize, limit: u64| {
        let most = usize::try_from(limit).unwrap_or(usize::MAX);
        list[..list.len().min(most.saturating_mul(width))].to_vec()
    };
    Scene {
        components: front(&scene.components, COMPONENT, limits.components),
        connections: front(&scene.connections, CONNECTION, limits.connections),
        frontiers: front(&scene.frontiers, FRONTIER, limits.frontiers),
        ports: Vec::new(),
    }
}
