//! The unchanged Rust, called over the flat lists of numbers of the project's
//! scope paper.
//!
//! The answers mean something on lists that the matching entry accepts. On
//! others nothing panics: a number that the Rust's types cannot hold is read
//! as the nearest one that they can.

mod answers;
mod codes;
pub mod lists;

pub use answers::{Groups, Input, Liveness, Region, groups, liveness, ports, ports_of};
