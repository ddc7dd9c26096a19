//! Sheets of an exact length, and scenes whose reports can be brought to one.

use crate::Scene;
use crate::sheets::{Limits, sheet_of};

/// The most characters of a coordinate that are counted on: a minus and eight
/// digits.
const MOST_CHARACTERS: usize = 9;

/// A coordinate that is written with so many characters.
fn coordinate(characters: usize) -> i64 {
    match characters {
        0 | 1 => 0,
        MOST_CHARACTERS => -10_000_000,
        more => 10_i64.pow(u32::try_from(more - 1).unwrap_or(0)),
    }
}

fn count(number: u64) -> i64 {
    i64::try_from(number).unwrap_or(i64::MAX)
}

/// Every list at the limit of the program: blocks in a row, with long ids;
/// connections between ids that none has; frontiers at the origin.
fn long_scene() -> Scene {
    let limits = Limits::PROGRAM;
    let block = |z: i64| [4_000_000_000 + z, 0, 0, z, 9, 0, 0, 0];
    let connection = |k: i64| [2_000_000_000 + k, 3_000_000_000, 0];
    Scene {
        components: (0..count(limits.components)).flat_map(block).collect(),
        connections: (0..count(limits.connections))
            .flat_map(connection)
            .collect(),
        frontiers: (0..count(limits.frontiers)).flat_map(|_| [0; 3]).collect(),
        ports: Vec::new(),
    }
}

/// A good sheet of so many bytes, within the limits of the program; nothing
/// where it would have to be much shorter or longer than its buffer. Frontiers
/// have no order, and far from all components they change nothing but the
/// length.
#[must_use]
pub fn sheet_of_length(bytes: usize) -> Option<Vec<u8>> {
    let mut scene = long_scene();
    let mut missing = bytes.checked_sub(sheet_of(&scene).len())?;
    for number in &mut scene.frontiers {
        let more = missing.min(MOST_CHARACTERS - 1);
        *number = coordinate(1 + more);
        missing -= more;
    }
    let text = sheet_of(&scene);
    (text.len() == bytes).then_some(text)
}

/// Wires to the side of the plot of `dense_scene`.
const SIDE: i64 = 14;
/// Repeaters beside it, and blocks that stand alone.
const REPEATERS: i64 = 10;
const ALONE: usize = 50;
/// Digits by which the id of a block that stands alone can grow.
const MORE_DIGITS: usize = 6;

/// The most digits that `dense_scene` can add.
pub const MOST_DIGITS: usize = ALONE * MORE_DIGITS;

/// Neighbouring wires both ways, by dust, then some of them by rising dust too.
fn dense_connections() -> Vec<[i64; 3]> {
    let id = |x: i64, z: i64| x * SIDE + z;
    let cells = (0..SIDE).flat_map(|x| (0..SIDE).map(move |z| (x, z)));
    let beside = |(x, z): (i64, i64)| {
        let steps = [(x + 1, z), (x, z + 1)];
        let inside = steps.into_iter().filter(|to| to.0 < SIDE && to.1 < SIDE);
        inside.flat_map(move |to| {
            let ends = [id(x, z), id(to.0, to.1)];
            [ends, [ends[1], ends[0]]]
        })
    };
    let pairs: Vec<[i64; 2]> = cells.flat_map(beside).collect();
    let by_kind = |kind: i64| pairs.iter().map(move |ends| [ends[0], ends[1], kind]);
    by_kind(0).chain(by_kind(1)).collect()
}

/// Ids of blocks that stand alone, with so many digits more than four each.
fn ids_alone(mut digits: usize) -> Vec<i64> {
    (0..)
        .take(ALONE)
        .map(|place| {
            let more = digits.min(MORE_DIGITS);
            digits -= more;
            10_i64.pow(u32::try_from(3 + more).unwrap_or(0)) + place
        })
        .collect()
}

/// A plot within the limits of the program that makes a long report: wires,
/// of which so many connections are kept, repeaters fed by them, and blocks
/// that stand alone, whose ids have so many digits more. Each such digit is a
/// byte of the report, since nothing but the line of its id changes.
#[must_use]
pub fn dense_scene(connections: usize, digits: usize) -> Scene {
    let wires = (0..SIDE).flat_map(|x| (0..SIDE).map(move |z| [x * SIDE + z, x, 0, z, 0, 0, 0, 0]));
    let repeater = |z: i64| [SIDE * SIDE + z, SIDE, 0, z, 1, 2, 0, 0];
    let alone = (100..).zip(ids_alone(digits));
    let alone = alone.map(|(x, id)| [id, x, 0, 0, 9, 0, 0, 1]);
    let components = wires.chain((0..REPEATERS).map(repeater)).chain(alone);
    let fed = (0..REPEATERS).map(|z| [(SIDE - 1) * SIDE + z, SIDE * SIDE + z, 5]);
    let mut rows: Vec<[i64; 3]> = dense_connections();
    rows.truncate(connections);
    rows.extend(fed);
    rows.sort_unstable();
    Scene {
        components: components.flatten().collect(),
        connections: rows.concat(),
        frontiers: vec![0, 0, 0],
        ports: Vec::new(),
    }
}
