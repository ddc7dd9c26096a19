//! The support line's tool: a sheet in, words and a picture out.
//!
//! What a plot's marks are, the crate `dustroute` says; here they are told and drawn.
//! [`plot::Marked`] has all marks of one sheet; [`words::told`] tells them, and
//! [`page::page`] draws them. Both are plain functions from a marked plot to text.

#![deny(missing_docs)]
#![deny(
    clippy::expect_used,
    clippy::indexing_slicing,
    clippy::panic,
    clippy::unreachable,
    clippy::unwrap_used
)]

pub mod args;
mod closed;
pub mod files;
pub mod html;
pub mod lines;
pub mod page;
pub mod plot;
pub mod refused;
pub mod run;
pub mod steps;
pub mod terms;
pub mod text;
pub mod told;
pub mod words;
