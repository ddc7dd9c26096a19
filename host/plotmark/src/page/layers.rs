//! Where each block is drawn: a grid per layer, North up.

use std::collections::{BTreeMap, BTreeSet};

use dustroute::{Component, ComponentId, Facing, Position};

use super::axes::Axis;

/// A block's width and height, what is free between two, and between blocks that share a
/// cell.
pub const WIDTH: i32 = 66;
pub const HEIGHT: i32 = 62;
pub const BETWEEN: i32 = 28;
const SHARED: i32 = 20;

/// Where the first cell begins, with room for coordinates.
pub const LEFT: i32 = 74;
pub const TOP: i32 = 30;

/// Layers share their axes where the whole plot has no gap, and no more columns and rows
/// than this.
const FEW: usize = 24;

/// Where a block is drawn.
#[derive(Clone, Copy, Debug, Eq, PartialEq)]
pub struct Spot {
    pub x: i32,
    pub y: i32,
}

/// One layer.
#[derive(Clone, Debug, Eq, PartialEq)]
pub struct Layer {
    /// Its height in the world.
    pub height: i32,
    /// Its columns, by x.
    pub columns: Axis,
    /// Its rows, by z.
    pub rows: Axis,
    /// Its blocks.
    pub spots: BTreeMap<ComponentId, Spot>,
    /// The cells that they are in, by x and z.
    used: BTreeSet<(i32, i32)>,
}

impl Layer {
    /// Whether the cell beside a block is drawn and no block is in it.
    #[must_use]
    pub fn has_room(&self, at: Position, face: Facing) -> bool {
        let (dx, dz) = direction(face);
        let (x, z) = (at.x.saturating_add(dx), at.z.saturating_add(dz));
        let is_drawn = self.columns.start(x).is_some() && self.rows.start(z).is_some();
        is_drawn && !self.used.contains(&(x, z))
    }
}

impl Spot {
    /// A point on a side, so far from its middle.
    #[must_use]
    pub const fn on(self, face: Facing, off: i32) -> (i32, i32) {
        let (middle, half) = (self.x + WIDTH / 2, self.y + HEIGHT / 2);
        match face {
            Facing::North => (middle + off, self.y),
            Facing::East => (self.x + WIDTH, half + off),
            Facing::South => (middle + off, self.y + HEIGHT),
            Facing::West => (self.x, half + off),
            Facing::Up => (self.x, self.y),
            Facing::Down => (self.x, self.y + HEIGHT),
        }
    }
}

/// Which way a side looks on the page.
#[must_use]
pub const fn direction(face: Facing) -> (i32, i32) {
    match face {
        Facing::North | Facing::Up => (0, -1),
        Facing::East => (1, 0),
        Facing::South | Facing::Down => (0, 1),
        Facing::West => (-1, 0),
    }
}

/// How high a row is in which so many blocks share a cell.
fn tall(shared: usize) -> i32 {
    let shared = i32::try_from(shared).unwrap_or(i32::MAX / 1_000);
    BETWEEN + shared * HEIGHT + (shared - 1) * SHARED
}

/// The axes that some blocks need.
fn axes(blocks: &[&Component]) -> (Axis, Axis) {
    let mut shared: BTreeMap<(i32, i32, i32), usize> = BTreeMap::new();
    for block in blocks {
        let at = block.position;
        *shared.entry((at.z, at.x, at.y)).or_default() += 1;
    }
    let mut rows: BTreeMap<i32, i32> = BTreeMap::new();
    let mut columns: BTreeMap<i32, i32> = BTreeMap::new();
    for ((z, x, _), count) in shared {
        let row = rows.entry(z).or_default();
        *row = tall(count).max(*row);
        columns.insert(x, WIDTH + BETWEEN);
    }
    let columns = Axis::of(LEFT, &columns, WIDTH + BETWEEN);
    (columns, Axis::of(TOP, &rows, tall(1)))
}

/// The layers, from the lowest up.
#[must_use]
pub fn layers(components: &[Component]) -> Vec<Layer> {
    let mut by_height: BTreeMap<i32, Vec<&Component>> = BTreeMap::new();
    for block in components {
        by_height.entry(block.position.y).or_default().push(block);
    }
    let whole = axes(&components.iter().collect::<Vec<_>>());
    let is_small = [&whole.0, &whole.1]
        .iter()
        .all(|it| it.is_whole() && it.tracks().len() <= FEW);
    let each = by_height.into_iter().map(|(height, blocks)| {
        let axes = if is_small {
            whole.clone()
        } else {
            axes(&blocks)
        };
        layer(height, &blocks, axes)
    });
    each.collect()
}

fn layer(height: i32, blocks: &[&Component], (columns, rows): (Axis, Axis)) -> Layer {
    let mut used: BTreeMap<(i32, i32), i32> = BTreeMap::new();
    let mut spots = BTreeMap::new();
    for block in blocks {
        let (x, z) = (block.position.x, block.position.z);
        let (Some(left), Some(top)) = (columns.start(x), rows.start(z)) else {
            continue;
        };
        let above = used.entry((x, z)).or_default();
        let spot = Spot {
            x: left + BETWEEN / 2,
            y: top + BETWEEN / 2 + *above * (HEIGHT + SHARED),
        };
        *above += 1;
        spots.insert(block.id, spot);
    }
    Layer {
        height,
        columns,
        rows,
        spots,
        used: used.into_keys().collect(),
    }
}
