//! Stand-ins for `Block` and what is asked of it.

use std::collections::BTreeMap;

use crate::{Facing, Pos};

/// The kinds in the order of their codes.
#[derive(Clone, Copy, Debug, Eq, Hash, Ord, PartialEq, PartialOrd)]
pub enum BlockKind {
    RedstoneWire,
    Repeater,
    Comparator,
    RedstoneTorch,
    Lever,
    Button,
    PressurePlate,
    RedstoneBlock,
    Piston,
    Solid,
    Transparent,
    RedstoneLamp,
    Air,
}

impl BlockKind {
    /// Asked by the gap search alone, which is not compared.
    #[must_use]
    pub const fn is_redstone_related(self) -> bool {
        !matches!(self, Self::Solid | Self::Transparent | Self::Air)
    }
}

/// The two traits that `scene.rs` asks for.
#[derive(Clone, Copy, Debug, Eq, PartialEq)]
pub struct RedstoneTraits {
    pub conducts_weak_power: bool,
    pub supports_dust_on_top: bool,
}

/// The drawn shape of a wire; it only ends up in evidence.
#[derive(Clone, Copy, Debug, Eq, PartialEq)]
pub enum WireConnection {
    None,
    Side,
    Up,
}

#[derive(Clone, Copy, Debug, Eq, PartialEq)]
pub enum CapabilityLevel {
    Full,
    Partial,
    Unsupported,
}

#[derive(Clone, Copy, Debug, Eq, PartialEq)]
pub struct BlockCapabilities {
    pub physical_classification: CapabilityLevel,
    pub connectivity: CapabilityLevel,
    pub steady_state: CapabilityLevel,
    pub temporal: CapabilityLevel,
    pub repair: CapabilityLevel,
    pub placement: CapabilityLevel,
}

/// A block as its caller describes it; `conducts` is the trait
/// `conducts_weak_power`, which the caller supplies.
#[derive(Clone, Debug, Eq, PartialEq)]
pub struct Block {
    pub kind: BlockKind,
    pub facing: Option<Facing>,
    pub support_offset: Option<Pos>,
    pub wire_connections: Option<BTreeMap<Facing, WireConnection>>,
    pub observed_name: Option<String>,
    pub conducts: bool,
}

impl Block {
    #[must_use]
    pub const fn redstone_traits(&self) -> RedstoneTraits {
        RedstoneTraits {
            conducts_weak_power: self.conducts,
            supports_dust_on_top: self.conducts,
        }
    }

    /// The cell that holds the block up, where an offset is known.
    #[must_use]
    pub fn support_pos(&self, pos: Pos) -> Option<Pos> {
        self.support_offset
            .map(|offset| Pos::new(pos.x + offset.x, pos.y + offset.y, pos.z + offset.z))
    }

    /// One level for all: the capability report is not compared.
    #[must_use]
    pub const fn capabilities(&self) -> BlockCapabilities {
        BlockCapabilities {
            physical_classification: CapabilityLevel::Full,
            connectivity: CapabilityLevel::Full,
            steady_state: CapabilityLevel::Full,
            temporal: CapabilityLevel::Full,
            repair: CapabilityLevel::Full,
            placement: CapabilityLevel::Full,
        }
    }
}
