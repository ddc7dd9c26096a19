//! A stand-in for the crate `serde`: the two derive names and no more.

pub use serde_derive::{Deserialize, Serialize};
