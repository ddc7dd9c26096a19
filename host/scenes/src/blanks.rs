//! Plots in which facings were left blank, which rules 3 read otherwise than the
//! rules before them: every block beside every device that turns, and drawn
//! plots.

use crate::Scene;
use crate::draft::{Block, Draft, ids};
use crate::limits::{LAST_CONNECTION_KIND, LAST_FACE, LAST_KIND, LAST_PORT, SUPPORT};
use crate::random::Random;

const WIRE: i64 = 0;
const REPEATER: i64 = 1;
const COMPARATOR: i64 = 2;
const TORCH: i64 = 3;
const LEVER: i64 = 4;
const PISTON: i64 = 8;
const SOLID: i64 = 9;
const LAMP: i64 = 11;

/// The kinds that turn with their facing.
pub const TURNING: [i64; 3] = [REPEATER, COMPARATOR, PISTON];

/// The place of the facing in a component's record.
pub const FACING: usize = 5;

/// Steps that have a face, to a later cell: to the sides, level, up and down, and
/// straight up.
const STEPS: [[i64; 3]; 7] = [
    [0, 0, 1],
    [0, 1, 1],
    [0, 1, -1],
    [1, 0, 0],
    [1, 1, 0],
    [1, -1, 0],
    [0, 1, 0],
];

/// A device that turns and any other block beside it, one after the other and the
/// other way round, every facing of both, with a connection of each kind either
/// way.
pub fn pairs() -> impl Iterator<Item = Scene> {
    let faces = || 0..=LAST_FACE;
    let devices = TURNING.into_iter().flat_map(move |kind| {
        faces().flat_map(move |facing| (0..=LAST_KIND).map(move |other| (kind, facing, other)))
    });
    devices.flat_map(move |(kind, facing, other)| {
        let turned = faces().filter(move |to| *to == 0 || TURNING.contains(&other));
        turned.flat_map(move |to| {
            STEPS.into_iter().flat_map(move |step| {
                let device = [kind, facing];
                let other = [other, to];
                [[device, other], [other, device]].map(|blocks| pair(blocks, step))
            })
        })
    })
}

fn pair([first, second]: [[i64; 2]; 2], [x, y, z]: [i64; 3]) -> Scene {
    let mut scene = Scene::default();
    for (id, [x, y, z], [kind, facing]) in [(3, [0; 3], first), (2, [x, y, z], second)] {
        scene.components.extend([id, x, y, z, kind, facing, 0, 1]);
    }
    for ends in [[2, 3], [3, 2]] {
        let kinds = 0..=LAST_CONNECTION_KIND;
        scene
            .connections
            .extend(kinds.flat_map(|kind| [ends[0], ends[1], kind]));
    }
    scene
}

/// A block of a drawn plot: mostly wires and devices, whose facings are blank as
/// often as not.
fn block(random: &mut Random) -> Block {
    let kind = match random.below(16) {
        0..=4 => WIRE,
        5..=10 => random.pick(&TURNING),
        11 | 12 => LEVER,
        13 => LAMP,
        14 => random.pick(&[TORCH, SOLID]),
        _ => random.between(0, LAST_KIND),
    };
    let mut block = Block::drawn(kind, random);
    if random.once_in(2) {
        block.facing = 0;
    }
    block
}

/// The plot of a seed: up to twenty blocks close together, connected to those
/// beside them; and port connections at ports that a device may have or not.
#[must_use]
pub fn scene(seed: u64) -> Scene {
    let random = &mut Random::new(seed ^ (0xb1_u64 << 56));
    let count = 1 + random.below(20);
    let ids = ids(count, random);
    let mut draft = Draft::default();
    let mut cells = Vec::new();
    for (place, &id) in (0..).zip(&ids) {
        let cell = [place / 3, random.between(0, 1), place % 3];
        draft.component(id, cell, block(random));
        cells.push((cell, id));
    }
    for &(from, source) in &cells {
        for &(to, sink) in &cells {
            let near = (0..3).all(|axis| (from[axis] - to[axis]).abs() <= 1);
            if near && source != sink && random.once_in(2) {
                draft.connect(source, sink, random.between(0, LAST_CONNECTION_KIND));
            }
        }
    }
    for _ in 0..random.below(2 * count) {
        let port = match random.below(12) {
            0 => random.between(0, LAST_PORT),
            1..=3 => random.between(0, 4),
            _ => 1,
        };
        let ends = [random.pick(&ids), random.pick(&ids)];
        draft.feed([ends[0], 0, ends[1], port, random.between(0, SUPPORT)]);
    }
    if random.once_in(8) {
        let cell = draft.some_cell(random);
        draft.frontier(cell);
    }
    draft.finish()
}

/// The same plot with this facing wherever one was left blank.
#[must_use]
pub fn with_blanks_as(facing: i64, scene: &Scene) -> Scene {
    let mut other = scene.clone();
    for record in other.components.chunks_exact_mut(crate::limits::COMPONENT) {
        if record[FACING] == 0 {
            record[FACING] = facing;
        }
    }
    other
}

/// Whether a device that turns has no facing.
#[must_use]
pub fn holds_a_blank(scene: &Scene) -> bool {
    let mut records = scene.components.chunks_exact(crate::limits::COMPONENT);
    records.any(|record| record[FACING] == 0 && TURNING.contains(&record[4]))
}
