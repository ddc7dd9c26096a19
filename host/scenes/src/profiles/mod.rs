//! The profiles: kinds of valid scenes, each drawn from a seed.

mod graphs;
mod lattice;
mod merges;
mod plots;

use crate::Scene;
use crate::random::Random;

/// A kind of scene.
#[derive(Clone, Copy, Debug, Eq, PartialEq)]
pub enum Profile {
    /// Up to four components of any kind in few cells, with few connections.
    Tiny,
    /// Rows of wire with repeaters, torches on blocks and levers, neighbours
    /// connected as redstone would.
    Lattice,
    /// Blocks of every kind and face packed into a small cube, neighbouring
    /// cells connected by any kind.
    Packed,
    /// Directed graphs with many short loops.
    Cyclic,
    /// Directed graphs with few edges, hence long paths and many regions.
    Sparse,
    /// Several components in each cell.
    SharedCells,
    /// Ids spread over their whole range, unrelated to list order.
    ScatteredIds,
    /// Grouping connections, and support connections, whose ends are missing.
    MissingEnds,
    /// Frontiers repeated and on empty cells, on Air and on Solid.
    Frontiers,
    /// Coordinates at both ends of their range.
    FarCells,
    /// Every list at its limit.
    Full,
    /// Joins of equal ranks, in rounds, up to the highest rank there can be.
    DeepMerge,
    /// One chain of joins, forward or backward, up to the limit.
    Chain,
    /// One cycle through all components, up to the limit.
    OneCycle,
}

impl Profile {
    pub const ALL: [Self; 14] = [
        Self::Tiny,
        Self::Lattice,
        Self::Packed,
        Self::Cyclic,
        Self::Sparse,
        Self::SharedCells,
        Self::ScatteredIds,
        Self::MissingEnds,
        Self::Frontiers,
        Self::FarCells,
        Self::Full,
        Self::DeepMerge,
        Self::Chain,
        Self::OneCycle,
    ];

    /// A name fit for a file.
    #[must_use]
    pub const fn name(self) -> &'static str {
        match self {
            Self::Tiny => "tiny",
            Self::Lattice => "lattice",
            Self::Packed => "packed",
            Self::Cyclic => "cyclic",
            Self::Sparse => "sparse",
            Self::SharedCells => "shared_cells",
            Self::ScatteredIds => "scattered_ids",
            Self::MissingEnds => "missing_ends",
            Self::Frontiers => "frontiers",
            Self::FarCells => "far_cells",
            Self::Full => "full",
            Self::DeepMerge => "deep_merge",
            Self::Chain => "chain",
            Self::OneCycle => "one_cycle",
        }
    }

    /// Whether its scenes may be as large as the limits.
    #[must_use]
    pub const fn is_large(self) -> bool {
        matches!(
            self,
            Self::Full | Self::DeepMerge | Self::Chain | Self::OneCycle
        )
    }

    /// The scene of a seed.
    #[must_use]
    pub fn scene(self, seed: u64) -> Scene {
        let random = &mut Random::new(seed ^ ((self as u64) << 56));
        let draft = match self {
            Self::Tiny => plots::tiny(random),
            Self::Lattice => lattice::lattice(random),
            Self::Packed => lattice::packed(random),
            Self::Cyclic => graphs::cyclic(random),
            Self::Sparse => graphs::sparse(random),
            Self::SharedCells => plots::shared_cells(random),
            Self::ScatteredIds => plots::scattered_ids(random),
            Self::MissingEnds => plots::missing_ends(random),
            Self::Frontiers => plots::frontiers(random),
            Self::FarCells => plots::far_cells(random),
            Self::Full => plots::full(random),
            Self::DeepMerge => merges::deep_merge(random),
            Self::Chain => merges::chain(random),
            Self::OneCycle => graphs::one_cycle(random),
        };
        draft.finish()
    }
}
