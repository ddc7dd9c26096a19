//! Scenes of a given size: so many components, four connections to each.

use std::collections::BTreeMap;

use crate::Scene;
use crate::draft::{Block, Cell, Draft, ids};
use crate::limits::{LAST_CONNECTION_KIND, LAST_KIND, SUPPORT};
use crate::random::Random;

/// Connections to a component.
pub const CONNECTIONS_EACH: usize = 4;

/// Cells to the side of a circuit.
const CIRCUIT: i64 = 4;

/// The last port that a block can have.
const LAST_BLOCK_PORT: i64 = 6;

/// How components lie and what connects them.
#[derive(Clone, Copy, Debug, Eq, PartialEq)]
pub enum Shape {
    /// A plane, mostly wire; neighbours connected, mostly by dust.
    Lattice,
    /// A plane of small circuits, four cells to a side, each apart from the
    /// others; otherwise as the lattice.
    Circuits,
    /// A cube of blocks of every kind and face; neighbours, steps that rise
    /// or fall included, connected by any kind.
    Packed,
    /// Blocks of every kind, any one connected to any other by any kind.
    Random,
    /// Wires joined at equal ranks in rounds, up to the highest rank there
    /// can be, each pair connected by several kinds.
    Merges,
}

/// A pair of list places.
type Pair = (usize, usize);

/// The steps to a neighbour.
const STEPS: [Cell; 14] = [
    [1, 0, 0],
    [-1, 0, 0],
    [0, 0, 1],
    [0, 0, -1],
    [0, 1, 0],
    [0, -1, 0],
    [1, 1, 0],
    [-1, 1, 0],
    [0, 1, 1],
    [0, 1, -1],
    [1, -1, 0],
    [-1, -1, 0],
    [0, -1, 1],
    [0, -1, -1],
];

impl Shape {
    pub const ALL: [Self; 5] = [
        Self::Lattice,
        Self::Circuits,
        Self::Packed,
        Self::Random,
        Self::Merges,
    ];

    #[must_use]
    pub const fn name(self) -> &'static str {
        match self {
            Self::Lattice => "lattice",
            Self::Circuits => "circuits",
            Self::Packed => "packed",
            Self::Random => "random",
            Self::Merges => "merges",
        }
    }

    /// A scene of so many components, at least 8, and four times as many
    /// connections.
    #[must_use]
    pub fn scene(self, components: usize, seed: u64) -> Scene {
        let random = &mut self.random(seed);
        let (mut draft, ids, pairs) = self.placed(components, random);
        if self == Self::Merges {
            for &(source, sink) in &pairs {
                draft.connect(ids[source], ids[sink], random.between(0, 4));
            }
        }
        while draft.connection_count() < CONNECTIONS_EACH * components {
            let (source, sink) = random.pick(&pairs);
            draft.connect(ids[source], ids[sink], self.kind(random));
        }
        draft.finish()
    }

    /// The same components with four times as many port connections, all of
    /// them signals, between the same pairs.
    #[must_use]
    pub fn fed_scene(self, components: usize, seed: u64) -> Scene {
        let random = &mut self.random(seed);
        let (mut draft, ids, pairs) = self.placed(components, random);
        for _ in 0..CONNECTIONS_EACH * components {
            let (source, sink) = random.pick(&pairs);
            let [from, to] = [(); 2].map(|()| random.between(0, LAST_BLOCK_PORT));
            let transfer = random.between(0, SUPPORT - 1);
            draft.feed([ids[source], from, ids[sink], to, transfer]);
        }
        draft.finish()
    }

    const fn random(self, seed: u64) -> Random {
        Random::new(seed ^ ((self as u64) << 48))
    }

    /// The components, their ids by place, and the pairs that may be connected.
    fn placed(self, components: usize, random: &mut Random) -> (Draft, Vec<i64>, Vec<Pair>) {
        let mut cells = self.cells(components);
        let mut ids = ids(components, random);
        if self == Self::Merges {
            ids.sort_unstable();
            random.shuffle(&mut cells);
        }
        let mut draft = Draft::default();
        for (&id, &cell) in ids.iter().zip(&cells) {
            draft.component(id, cell, self.block(random));
        }
        let pairs = self.pairs(&cells);
        (draft, ids, pairs)
    }

    const fn is_plane(self) -> bool {
        matches!(self, Self::Lattice | Self::Circuits)
    }

    /// The first cells of a plane or a cube that has room for them all.
    fn cells(self, count: usize) -> Vec<Cell> {
        let axes = if self.is_plane() { 2 } else { 3 };
        let side = (1..).find(|side: &usize| side.pow(axes) >= count);
        let side = side.and_then(|side| i64::try_from(side).ok()).unwrap_or(1);
        let heights = if axes == 2 { 1 } else { side };
        let apart = |axis| match self {
            Self::Circuits => axis + axis / CIRCUIT,
            _ => axis,
        };
        let columns = (0..side).flat_map(|x| (0..side).map(move |z| (x, z)));
        columns
            .flat_map(|(x, z)| (0..heights).map(move |y| [apart(x), y, apart(z)]))
            .take(count)
            .collect()
    }

    fn block(self, random: &mut Random) -> Block {
        match self {
            Self::Merges => Block::plain(0),
            _ if self.is_plane() && !random.once_in(4) => Block::plain(0),
            _ => Block::drawn(random.between(0, LAST_KIND), random),
        }
    }

    /// A kind of connection: in a plane mostly dust.
    fn kind(self, random: &mut Random) -> i64 {
        if self.is_plane() && !random.once_in(4) {
            0
        } else {
            random.between(0, LAST_CONNECTION_KIND)
        }
    }

    /// The pairs that may be connected.
    fn pairs(self, cells: &[Cell]) -> Vec<Pair> {
        let all = 0..cells.len();
        match self {
            Self::Lattice | Self::Circuits | Self::Packed => neighbours(cells),
            Self::Random => all
                .clone()
                .flat_map(|source| all.clone().map(move |sink| (source, sink)))
                .collect(),
            Self::Merges => rounds(cells.len()),
        }
    }
}

fn neighbours(cells: &[Cell]) -> Vec<Pair> {
    let places: BTreeMap<Cell, usize> = cells.iter().copied().zip(0..).collect();
    let beside = |(source, cell): (usize, &Cell)| {
        let there = STEPS.map(|step| [0, 1, 2].map(|axis| cell[axis] + step[axis]));
        let sinks = there.map(|there| places.get(&there).copied());
        let sinks = sinks.into_iter().flatten();
        sinks.map(|sink| (source, sink)).collect::<Vec<_>>()
    };
    cells.iter().enumerate().flat_map(beside).collect()
}

/// Connections are taken by rising source, so each round joins by ids above
/// those of the round before: halves, quarters and so on of what is left.
fn rounds(count: usize) -> Vec<Pair> {
    let (mut start, mut pairs) = (0, Vec::new());
    while count - start > 1 {
        let half = (count - start) / 2;
        pairs.extend((start..start + half).map(|source| (source, source + half)));
        start += half;
    }
    pairs
}
