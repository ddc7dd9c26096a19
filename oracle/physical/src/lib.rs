//! `circuit.rs` and `scene.rs` as they stand in DustRoute, over stand-ins for
//! the items that they name and whose own files are not at hand.
//!
//! The stand-ins decide the order of positions, opposite faces and the names
//! of the kinds, all by the project's scope paper. What a block conducts is
//! told by the caller. Capabilities, wire shapes and worlds have a shape only.

mod block;
#[rustfmt::skip] // kept byte for byte
mod circuit;
mod geometry;
#[rustfmt::skip] // kept byte for byte
mod scene;
mod world;

pub use block::{
    Block, BlockCapabilities, BlockKind, CapabilityLevel, RedstoneTraits, WireConnection,
};
pub use circuit::*;
pub use geometry::{Facing, Pos};
pub use scene::*;
pub use world::World;
