//! Plots that look like real ones: cells beside each other, connected.

use std::collections::BTreeMap;

use crate::draft::{Block, Cell, Draft, ids};
use crate::limits::{COMPONENTS, LAST_CONNECTION_KIND, LAST_KIND};
use crate::random::Random;

const WIRE: i64 = 0;
const REPEATER: i64 = 1;
const TORCH: i64 = 3;
const LEVER: i64 = 4;
const PISTON: i64 = 8;
const SOLID: i64 = 9;
const LAMP: i64 = 11;

const NORTH: i64 = 1;
const EAST: i64 = 2;
const SOUTH: i64 = 3;
const WEST: i64 = 4;
const UP: i64 = 5;
const DOWN: i64 = 6;

type Plot = BTreeMap<Cell, (i64, Block)>;

/// The faces and their steps; a horizontal one may rise or fall by one.
const STEPS: [(i64, Cell); 14] = [
    (EAST, [1, 0, 0]),
    (EAST, [1, 1, 0]),
    (EAST, [1, -1, 0]),
    (WEST, [-1, 0, 0]),
    (WEST, [-1, 1, 0]),
    (WEST, [-1, -1, 0]),
    (SOUTH, [0, 0, 1]),
    (SOUTH, [0, 1, 1]),
    (SOUTH, [0, -1, 1]),
    (NORTH, [0, 0, -1]),
    (NORTH, [0, 1, -1]),
    (NORTH, [0, -1, -1]),
    (UP, [0, 1, 0]),
    (DOWN, [0, -1, 0]),
];

/// A block of a row: mostly wire, with devices that face along it.
fn of_a_row(along: i64, random: &mut Random) -> Block {
    let facing = if random.once_in(4) {
        random.between(0, DOWN)
    } else {
        along
    };
    match random.below(16) {
        0 | 1 => Block {
            facing,
            ..Block::plain(REPEATER)
        },
        2 => Block {
            facing,
            ..Block::plain(REPEATER + 1)
        },
        3 => Block {
            support: random.pick(&[0, EAST, WEST, SOUTH, NORTH, DOWN]),
            ..Block::plain(TORCH)
        },
        4 => Block::plain(random.between(LEVER, PISTON - 1)),
        5 => Block {
            facing,
            ..Block::plain(PISTON)
        },
        6 => Block {
            conducts: 1,
            ..Block::plain(random.pick(&[SOLID, LAMP]))
        },
        7 => Block::drawn(random.between(SOLID, LAST_KIND), random),
        _ => Block::plain(WIRE),
    }
}

/// A kind of connection that the two blocks suggest.
fn plausible(source: Block, sink: Block, rise: i64, random: &mut Random) -> i64 {
    if random.once_in(12) {
        return random.between(0, LAST_CONNECTION_KIND);
    }
    match (source.kind, sink.kind) {
        (WIRE, WIRE) => match rise {
            0 => 0,
            1 => 1,
            _ => 2,
        },
        (SOLID..=LAMP, TORCH) => 8,
        (_, REPEATER | 2) if random.once_in(4) => 8,
        (_, REPEATER | 2 | TORCH | PISTON) => 5,
        (REPEATER | 2, _) => 6,
        (TORCH..=7, _) => 7,
        (_, SOLID..=LAMP) => 3,
        _ => 4,
    }
}

/// The port at a face: the place of the face among the four, Up, Down. That
/// is the true port of a wire, and of other kinds a port that may exist.
fn port_at(block: Block, face: i64, outgoing: bool) -> i64 {
    match block.kind {
        REPEATER | 2 if outgoing => 0,
        REPEATER | 2 if opposite(face) == block.facing => 1,
        REPEATER | 2 => 2,
        TORCH if !outgoing => 4,
        _ => face - 1,
    }
}

const fn opposite(face: i64) -> i64 {
    match face {
        NORTH => SOUTH,
        EAST => WEST,
        SOUTH => NORTH,
        WEST => EAST,
        UP => DOWN,
        _ => UP,
    }
}

fn transfer_of(kind: i64) -> i64 {
    [0, 0, 0, 2, 3, 4, 4, 1, 5, 6][usize::try_from(kind).unwrap_or(0)]
}

/// Connects neighbours; one pair in `leaving` stays apart.
fn connect_neighbours(draft: &mut Draft, plot: &Plot, leaving: usize, random: &mut Random) {
    for (cell, &(source, from)) in plot {
        for (face, step) in STEPS {
            let there = [0, 1, 2].map(|axis| cell[axis] + step[axis]);
            let Some(&(sink, to)) = plot.get(&there) else {
                continue;
            };
            if random.once_in(leaving) {
                continue;
            }
            let kind = plausible(from, to, step[1], random);
            draft.connect(source, sink, kind);
            let ports = [
                port_at(from, face, true),
                port_at(to, opposite(face), false),
            ];
            draft.feed([source, ports[0], sink, ports[1], transfer_of(kind)]);
        }
    }
}

fn draft_of(plot: &Plot) -> Draft {
    let mut draft = Draft::default();
    for (&cell, &(id, block)) in plot {
        draft.component(id, cell, block);
    }
    draft
}

fn plot_of(cells: &[Cell], random: &mut Random, block: impl Fn(&mut Random) -> Block) -> Plot {
    let ids = ids(cells.len(), random);
    let blocks = cells.iter().zip(ids);
    blocks
        .map(|(&cell, id)| (cell, (id, block(random))))
        .collect()
}

pub fn lattice(random: &mut Random) -> Draft {
    let (rows, length) = (1 + random.between(0, 5), 2 + random.between(0, 14));
    let along = random.pick(&[EAST, WEST, NORTH, SOUTH]);
    let mut cells = Vec::new();
    for row in 0..rows {
        let mut height = 64;
        for place in 0..length {
            if random.once_in(6) {
                height += random.pick(&[1, -1]);
            }
            let (x, z) = if along % 2 == 0 {
                (place, row)
            } else {
                (row, place)
            };
            cells.push([x, height, z]);
        }
    }
    let plot = plot_of(&cells, random, |random| of_a_row(along, random));
    let mut draft = draft_of(&plot);
    connect_neighbours(&mut draft, &plot, 5, random);
    for _ in 0..random.below(3) {
        let cell = draft.some_cell(random);
        draft.frontier(cell);
    }
    draft
}

pub fn packed(random: &mut Random) -> Draft {
    let side = random.between(0, 2);
    let mut cells = Vec::new();
    for x in 0..=side {
        for y in 0..=side {
            cells.extend((0..=side).map(|z| [x - 1, y - 1, z - 1]));
        }
    }
    cells.truncate(COMPONENTS);
    let kinds = |random: &mut Random| Block::drawn(random.between(0, LAST_KIND), random);
    let plot = plot_of(&cells, random, kinds);
    let mut draft = draft_of(&plot);
    connect_neighbours(&mut draft, &plot, 3, random);
    for &(source, _) in plot.values() {
        let sink = draft.some_id(random);
        draft.connect(source, sink, random.between(0, LAST_CONNECTION_KIND));
    }
    draft
}
