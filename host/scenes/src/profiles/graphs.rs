//! Directed graphs: loops, long paths, one cycle through everything.

use super::plots::{feed_at_random, scatter};
use crate::draft::{Block, Draft, cell_within, ids};
use crate::limits::{COMPONENTS, SUPPORT};
use crate::random::Random;

/// Kinds in which loops matter most: wires and the devices that are fed.
const DEVICES: [i64; 7] = [0, 0, 1, 2, 3, 8, 9];

/// An edge from one component to another, into a port that has a verdict for
/// most devices, and the same as a grouping connection.
fn edge(draft: &mut Draft, source: i64, sink: i64, random: &mut Random) {
    let transfer = random.between(0, SUPPORT - 1);
    let port = random.pick(&[0, 1, 1, 1, 4]);
    draft.feed([source, random.between(0, 6), sink, port, transfer]);
    draft.connect(source, sink, random.between(0, 6));
}

fn devices(draft: &mut Draft, ids: &[i64], random: &mut Random) {
    for &id in ids {
        let kind = random.pick(&DEVICES);
        let block = Block::drawn(kind, random);
        draft.component(id, cell_within(4, random), block);
    }
}

pub fn cyclic(random: &mut Random) -> Draft {
    let count = 1 + random.below(40);
    let ids = ids(count, random);
    let mut draft = Draft::default();
    devices(&mut draft, &ids, random);
    for _ in 0..random.below(8) {
        let length = 1 + random.below(5);
        let ring: Vec<i64> = (0..length).map(|_| random.pick(&ids)).collect();
        for (place, &source) in ring.iter().enumerate() {
            edge(&mut draft, source, ring[(place + 1) % length], random);
        }
    }
    let more = random.below(10);
    feed_at_random(&mut draft, more, random);
    draft
}

pub fn sparse(random: &mut Random) -> Draft {
    let count = 1 + random.below(60);
    let ids = ids(count, random);
    let mut draft = Draft::default();
    scatter(&mut draft, &ids, random, |random| cell_within(3, random));
    for place in 1..count {
        let earlier = place - 1 - random.below(place.min(4));
        edge(&mut draft, ids[earlier], ids[place], random);
    }
    if random.once_in(3) {
        let cell = draft.some_cell(random);
        draft.frontier(cell);
    }
    draft
}

pub fn one_cycle(random: &mut Random) -> Draft {
    let count = random.pick(&[2, 64, 1_000, COMPONENTS, COMPONENTS]);
    let ids = ids(count, random);
    let mut draft = Draft::default();
    devices(&mut draft, &ids, random);
    for (place, &source) in ids.iter().enumerate() {
        edge(&mut draft, source, ids[(place + 1) % count], random);
    }
    draft
}
