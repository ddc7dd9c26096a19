//! A scene in the making: records in any order, put in order at the end.

use std::collections::{BTreeMap, BTreeSet};

use crate::Scene;
use crate::limits::{
    COMPONENTS, CONNECTIONS, FAR, FRONTIERS, LAST_FACE, LAST_ID, LAST_PORT, SUPPORT,
};
use crate::random::Random;

pub type Cell = [i64; 3];

/// The fields of a component after its position.
#[derive(Clone, Copy, Debug, Default)]
pub struct Block {
    pub kind: i64,
    pub facing: i64,
    pub support: i64,
    pub conducts: i64,
}

impl Block {
    #[must_use]
    pub const fn plain(kind: i64) -> Self {
        Self {
            kind,
            facing: 0,
            support: 0,
            conducts: 0,
        }
    }

    /// Any faces, conducting or not.
    pub fn drawn(kind: i64, random: &mut Random) -> Self {
        Self {
            kind,
            facing: random.between(0, LAST_FACE),
            support: random.between(0, LAST_FACE),
            conducts: random.between(0, 1),
        }
    }
}

/// Records collected so far. Nothing is taken beyond a list's limit.
#[derive(Clone, Debug, Default)]
pub struct Draft {
    components: BTreeMap<(Cell, i64), Block>,
    pub ids: Vec<i64>,
    connections: BTreeSet<[i64; 3]>,
    ports: Vec<[i64; 5]>,
    frontiers: Vec<Cell>,
}

impl Draft {
    /// Adds a component unless its id is taken; ids keep the order of adding.
    pub fn component(&mut self, id: i64, cell: Cell, block: Block) {
        if self.ids.len() < COMPONENTS && !self.ids.contains(&id) {
            self.ids.push(id);
            self.components.insert((cell, id), block);
        }
    }

    /// Adds a grouping connection; a repeat changes nothing.
    pub fn connect(&mut self, source: i64, sink: i64, kind: i64) {
        if self.connections.len() < CONNECTIONS {
            self.connections.insert([source, sink, kind]);
        }
    }

    pub fn connection_count(&self) -> usize {
        self.connections.len()
    }

    /// Adds a port connection, repeats included.
    pub fn feed(&mut self, row: [i64; 5]) {
        if self.ports.len() < CONNECTIONS {
            self.ports.push(row);
        }
    }

    pub fn frontier(&mut self, cell: Cell) {
        if self.frontiers.len() < FRONTIERS {
            self.frontiers.push(cell);
        }
    }

    pub fn some_id(&self, random: &mut Random) -> i64 {
        random.pick(&self.ids)
    }

    /// The cell of some component, the origin where there is none.
    pub fn some_cell(&self, random: &mut Random) -> Cell {
        let drawn = random.below(self.components.len());
        let cell = self.components.keys().nth(drawn).map(|(cell, _)| *cell);
        cell.unwrap_or_default()
    }

    /// A port connection between components that exist; ports are mostly low
    /// ones, which blocks have, and now and then any.
    pub fn feed_at_random(&mut self, random: &mut Random) {
        if self.ids.is_empty() {
            return;
        }
        let port = |random: &mut Random| {
            let high = if random.once_in(16) { LAST_PORT } else { 6 };
            random.between(0, high)
        };
        let source = self.some_id(random);
        let sink = self.some_id(random);
        let row = [
            source,
            port(random),
            sink,
            port(random),
            random.between(0, SUPPORT),
        ];
        self.feed(row);
    }

    pub fn finish(self) -> Scene {
        let record = |((cell, id), block): ((Cell, i64), Block)| {
            let [x, y, z] = cell;
            let Block {
                kind,
                facing,
                support,
                conducts,
            } = block;
            [id, x, y, z, kind, facing, support, conducts]
        };
        Scene {
            components: self.components.into_iter().flat_map(record).collect(),
            connections: self.connections.into_iter().flatten().collect(),
            ports: self.ports.into_iter().flatten().collect(),
            frontiers: self.frontiers.into_iter().flatten().collect(),
        }
    }
}

/// `count` different ids in an order of their own: near or spread over the
/// whole range, both ends included.
pub fn ids(count: usize, random: &mut Random) -> Vec<i64> {
    let mut ids: Vec<i64> = if random.once_in(2) {
        (0..).take(count).collect()
    } else {
        let mut drawn = BTreeSet::from([0, LAST_ID]);
        while drawn.len() < count {
            drawn.insert(random.between(0, LAST_ID));
        }
        drawn.into_iter().take(count).collect()
    };
    random.shuffle(&mut ids);
    ids
}

/// A cell of a cube of the given side about the origin.
pub fn cell_within(side: i64, random: &mut Random) -> Cell {
    [0; 3].map(|_: i64| random.between(-side, side))
}

/// A cell at, or one inside, the ends of the range.
pub fn cell_at_an_end(random: &mut Random) -> Cell {
    [0; 3].map(|_: i64| random.pick(&[-FAR, 1 - FAR, 0, FAR - 1, FAR]))
}
