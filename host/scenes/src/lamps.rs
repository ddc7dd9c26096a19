//! Plots in which lamps feed wires, which rules 1 and 2 mark differently: small
//! ones, all of them, and drawn ones; and plots without a lamp.

use crate::Scene;
use crate::draft::{Block, Draft, ids};
use crate::limits::{COMPONENT, LAST_KIND, LAST_PORT, SUPPORT};
use crate::random::Random;

const WIRE: i64 = 0;
const REPEATER: i64 = 1;
const LEVER: i64 = 4;
pub const SOLID: i64 = 9;
pub const LAMP: i64 = 11;
pub const AIR: i64 = 12;

/// The place of the kind in a component's record.
const KIND: usize = 4;

/// The kinds of small plots.
const KINDS: [i64; 5] = [WIRE, LAMP, LEVER, SOLID, REPEATER];

/// Every order of the ids of up to two components, and of three a rising, a
/// falling and a mixed one.
const ORDERS: [&[i64]; 7] = [
    &[],
    &[7],
    &[0, 7],
    &[7, 0],
    &[0, 7, 8],
    &[8, 7, 0],
    &[7, 0, 8],
];

/// All plots of up to three components of five kinds, with every set of
/// connections between them, those from one to itself included. The ports and
/// transfers go round; most connections feed a repeater's input.
pub fn plots() -> impl Iterator<Item = Scene> {
    ORDERS.into_iter().flat_map(|order| {
        let count = order.len();
        let kinds = KINDS.len().pow(u32::try_from(count).unwrap_or(0));
        (0..kinds).flat_map(move |kinds| {
            (0..1_usize << (count * count)).map(move |graph| plot(order, kinds, graph))
        })
    })
}

fn plot(order: &[i64], kinds: usize, graph: usize) -> Scene {
    let (count, mut scene, mut rest) = (order.len(), Scene::default(), kinds);
    for (x, &id) in (0..).zip(order) {
        let kind = KINDS[rest % KINDS.len()];
        scene.components.extend([id, x, 0, 0, kind, 2, 0, 1]);
        rest /= KINDS.len();
    }
    for pair in (0..count * count).filter(|pair| (graph >> pair) & 1 == 1) {
        let turn = i64::try_from(graph + pair).unwrap_or(0);
        let port = if turn % 5 == 4 { 2 } else { 1 };
        let [source, sink] = [order[pair / count], order[pair % count]];
        scene.ports.extend([source, 0, sink, port, turn % SUPPORT]);
    }
    scene
}

/// A block of a drawn plot: mostly wires, lamps and repeaters, few levers.
fn block(random: &mut Random) -> Block {
    match random.below(16) {
        0..=5 => Block::plain(WIRE),
        6..=9 => Block::plain(LAMP),
        10..=12 => Block::drawn(REPEATER, random),
        13 => Block::plain(SOLID),
        14 => Block::drawn(random.between(0, LAST_KIND), random),
        _ if random.once_in(3) => Block::plain(LEVER),
        _ => Block::plain(WIRE),
    }
}

/// The plot of a seed: up to sixteen blocks, seldom up to three hundred, with
/// about as many connections.
#[must_use]
pub fn scene(seed: u64) -> Scene {
    let random = &mut Random::new(seed ^ (0x1a_u64 << 56));
    let most = if random.once_in(200) { 300 } else { 16 };
    let count = 1 + random.below(most);
    let ids = ids(count, random);
    let mut draft = Draft::default();
    for (x, &id) in (0..).zip(&ids) {
        draft.component(id, [x, 0, 0], block(random));
    }
    for _ in 0..random.below(2 * count) {
        let port = match random.below(12) {
            0 => random.between(0, LAST_PORT),
            1 => 2,
            _ => 1,
        };
        let transfer = random.between(0, SUPPORT - 1);
        let ends = [random.pick(&ids), random.pick(&ids)];
        draft.feed([ends[0], 0, ends[1], port, transfer]);
        if random.once_in(6) {
            draft.feed([ends[1], 0, ends[0], 1, transfer]);
        }
        if random.once_in(12) {
            draft.feed([random.between(0, 9), 0, ends[1], 0, SUPPORT]);
        }
    }
    if random.once_in(12) {
        let cell = draft.some_cell(random);
        draft.frontier(cell);
    }
    draft.finish()
}

#[must_use]
pub fn holds_a_lamp(scene: &Scene) -> bool {
    let mut records = scene.components.chunks_exact(COMPONENT);
    records.any(|record| record[KIND] == LAMP)
}

/// The same plot with blocks of another kind in place of its lamps.
#[must_use]
pub fn with_lamps_as(kind: i64, scene: &Scene) -> Scene {
    let mut other = scene.clone();
    for record in other.components.chunks_exact_mut(COMPONENT) {
        if record[KIND] == LAMP {
            record[KIND] = kind;
        }
    }
    other
}
