//! The scope paper's rules for groups, ports, liveness, sheets and reports,
//! restated plainly.
//!
//! They follow the paper's words rule by rule, and the answers have the shape
//! of the crate `oracle`, so that the unchanged Rust can be held to the paper.
//! Only the channels of ports are taken from the Rust, where the paper itself
//! points to it. A report by rules 1 prints the Rust's own answers, but for slopes,
//! which the Rust does not have.

mod groups;
pub mod join;
mod liveness;
pub mod parse;
mod ports;
pub mod program;
pub mod report;
mod rings;
pub mod sheet;
mod walk;

pub use groups::{greatest_ranks, groups};
pub use liveness::liveness;
pub use ports::{is_unread, ports, ports_of, sloped};
pub use rings::{Rings, rings};
