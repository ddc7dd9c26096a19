//! `liveness.rs` as it stands in DustRoute. It needs nothing of its own crate.

#[rustfmt::skip] // kept byte for byte
mod liveness;

pub use liveness::*;
