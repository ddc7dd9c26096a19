//! Joins that build deep forests.

use crate::draft::{Block, Cell, Draft, ids};
use crate::limits::COMPONENTS;
use crate::random::Random;

/// Kinds of connection that join nets.
const NET_KINDS: usize = 5;

/// Wires with the given ids in cells that have nothing to do with them.
fn wires(ids: &[i64], random: &mut Random) -> Draft {
    let mut cells: Vec<Cell> = (0..).take(ids.len()).map(|x| [x, 0, 0]).collect();
    random.shuffle(&mut cells);
    let mut draft = Draft::default();
    for (&id, cell) in ids.iter().zip(cells) {
        draft.component(id, cell, Block::plain(0));
    }
    draft
}

/// The same edge for grouping and for the analysis.
fn join(draft: &mut Draft, source: i64, sink: i64, random: &mut Random) {
    let kind = (0..).nth(random.below(NET_KINDS)).unwrap_or(0);
    draft.connect(source, sink, kind);
    draft.feed([source, 1, sink, 3, 0]);
}

/// Connections are taken by rising source, so each round joins by ids above
/// those of the round before: halves, quarters and so on of what is left.
pub fn deep_merge(random: &mut Random) -> Draft {
    let count = COMPONENTS >> random.below(6);
    let mut ids = ids(count, random);
    ids.sort_unstable();
    let mut draft = wires(&ids, random);
    let mut rest = &ids[..];
    while rest.len() > 1 {
        let half = rest.len() / 2;
        for place in 0..half {
            join(&mut draft, rest[place], rest[half + place], random);
        }
        rest = &rest[half..];
    }
    draft
}

/// Each joined to the next, the source first or the sink first.
pub fn chain(random: &mut Random) -> Draft {
    let count = random.pick(&[3, 100, COMPONENTS - 1, COMPONENTS]);
    let ids = ids(count, random);
    let mut draft = wires(&ids, random);
    let backward = random.once_in(2);
    for pair in ids.windows(2) {
        let (source, sink) = if backward {
            (pair[1], pair[0])
        } else {
            (pair[0], pair[1])
        };
        join(&mut draft, source, sink, random);
    }
    draft
}
