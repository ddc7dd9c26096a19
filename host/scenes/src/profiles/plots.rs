//! Scenes without a shape of their own, each stressing one list.

use crate::draft::{Block, Cell, Draft, cell_at_an_end, cell_within, ids};
use crate::limits::{
    COMPONENTS, CONNECTIONS, FRONTIERS, LAST_CONNECTION_KIND, LAST_ID, LAST_KIND, SUPPORT,
};
use crate::random::Random;

const SOLID: i64 = 9;

/// Components of any kind, one for each id, in cells that `cell` draws.
pub fn scatter(
    draft: &mut Draft,
    ids: &[i64],
    random: &mut Random,
    cell: impl Fn(&mut Random) -> Cell,
) {
    for &id in ids {
        let kind = random.between(0, LAST_KIND);
        let block = Block::drawn(kind, random);
        draft.component(id, cell(random), block);
    }
}

/// Grouping connections of any kind between components that exist.
pub fn join_at_random(draft: &mut Draft, count: usize, random: &mut Random) {
    for _ in 0..count {
        let source = draft.some_id(random);
        let sink = draft.some_id(random);
        draft.connect(source, sink, random.between(0, LAST_CONNECTION_KIND));
    }
}

/// Port connections between components that exist; some come twice.
pub fn feed_at_random(draft: &mut Draft, count: usize, random: &mut Random) {
    for _ in 0..count {
        let mut again = random.clone();
        draft.feed_at_random(random);
        if random.once_in(8) {
            draft.feed_at_random(&mut again);
        }
    }
}

fn mixed(ids: &[i64], random: &mut Random, cell: impl Fn(&mut Random) -> Cell) -> Draft {
    let mut draft = Draft::default();
    scatter(&mut draft, ids, random, cell);
    let most = 2 * ids.len() + 1;
    let connections = random.below(most);
    join_at_random(&mut draft, connections, random);
    let feeds = random.below(most);
    feed_at_random(&mut draft, feeds, random);
    for _ in 0..random.below(3) {
        let cell = draft.some_cell(random);
        draft.frontier(cell);
    }
    draft
}

pub fn tiny(random: &mut Random) -> Draft {
    let count = random.below(5);
    let ids = ids(count, random);
    mixed(&ids, random, |random| cell_within(1, random))
}

pub fn shared_cells(random: &mut Random) -> Draft {
    let count = 2 + random.below(30);
    let ids = ids(count, random);
    mixed(&ids, random, |random| [random.between(0, 2), 0, 0])
}

pub fn scattered_ids(random: &mut Random) -> Draft {
    let count = 2 + random.below(40);
    let ids: Vec<i64> = (0..count)
        .map(|_| random.between(0, LAST_ID))
        .chain([LAST_ID, 0])
        .collect();
    mixed(&ids, random, |random| cell_within(2, random))
}

pub fn missing_ends(random: &mut Random) -> Draft {
    let count = random.below(12);
    let ids: Vec<i64> = (0..).step_by(2).take(count).collect();
    let mut draft = mixed(&ids, random, |random| cell_within(1, random));
    for _ in 0..random.below(20) {
        let ends = [random.between(0, 30), random.between(0, 30)];
        draft.connect(ends[0], ends[1], random.between(0, LAST_CONNECTION_KIND));
        let ports = [random.between(0, 6), random.between(0, 6)];
        draft.feed([ends[0], ports[0], ends[1], ports[1], SUPPORT]);
    }
    draft
}

pub fn frontiers(random: &mut Random) -> Draft {
    let count = random.below(12);
    let ids = ids(count, random);
    let mut draft = mixed(&ids, random, |random| cell_within(1, random));
    for (id, kind) in [(1_000, LAST_KIND), (1_001, SOLID)] {
        let cell = cell_within(1, random);
        draft.component(id, cell, Block::plain(kind));
        draft.frontier(cell);
    }
    for _ in 0..random.below(FRONTIERS) {
        let cell = if random.once_in(2) {
            draft.some_cell(random)
        } else {
            cell_within(3, random)
        };
        draft.frontier(cell);
    }
    draft
}

pub fn far_cells(random: &mut Random) -> Draft {
    let count = 2 + random.below(40);
    let ids = ids(count, random);
    let mut draft = mixed(&ids, random, cell_at_an_end);
    for _ in 0..random.below(6) {
        draft.frontier(cell_at_an_end(random));
    }
    draft
}

pub fn full(random: &mut Random) -> Draft {
    let ids = ids(COMPONENTS, random);
    let mut draft = Draft::default();
    scatter(&mut draft, &ids, random, |random| cell_within(6, random));
    while draft.connection_count() < CONNECTIONS {
        join_at_random(&mut draft, 1, random);
    }
    feed_at_random(&mut draft, CONNECTIONS, random);
    for _ in 0..FRONTIERS {
        draft.frontier(cell_within(7, random));
    }
    draft
}
