//! Marks redstone plots. The work is done by a library whose every function is
//! proved to meet its contract on every input; this crate gives it typed lists
//! and hands its answers on.
//!
//! - [`groups`] joins components into nets and fragments.
//! - [`liveness`] finds regions of signals that feed each other, the sources of
//!   signals, what they drive, and a verdict for each required input.
//! - [`ports`] finds the port connections that grouping connections make, and why the
//!   others make none; [`block_ports`] has the ports of a block.
//! - [`mark`] joins all this: from blocks and connections to verdicts and what feeds
//!   each input, in one value.
//! - [`driven`] tells of one required input whether it is driven, without the
//!   rest of the plot; [`input`] tells what feeds it.
//! - [`trail`] shows the way from a drive source to a driven input, and
//!   [`check_trail`] tells of any list of components whether it is such a way.
//! - [`clear`] drops the port connections to blocks that are gone, for which the
//!   others refuse a plot.
//! - [`light`] lights a plot region by region, for a lesson that never lights a
//!   lamp before a lever that feeds it.
//! - [`rings`] finds which regions have a ring, which is more than being cyclic.
//! - [`reach_table`] finds the same regions the slow way, for lessons: by a
//!   table of who reaches whom, which can be printed.
//! - [`what_if`] and [`what_if_joined`] find what one connection more would
//!   change of either answer.
//! - [`read_sheet`] reads the lists of a sheet, [`report`] marks one as the program
//!   `plotreport` does, [`convert`] writes it in its other form, and [`join()`] makes
//!   one sheet of two.
//! - [`HeldPlot`] is a plot held open while pupils build: blocks are placed and broken,
//!   connections added, and it is marked at any time without a new list.
//! - [`self_test`] marks the paper's worked plots by the library that is linked, for
//!   the start of a server.
//!
//! Each takes the [`Rules`] first, by which year's rules the plot is marked; a sheet
//! has its own.
//!
//! Every list gets an answer or one [`Refusal`] with the place of the fault, which
//! [`Refusal::explain`] puts in words for the person who sent the plot.
//! Nothing here panics, and nothing is kept from call to call: every function
//! may be called from any number of threads at once. A call needs less than
//! 1 MiB of stack, most of it for the library's own tables.
//!
//! A lever beside a repeater that faces East:
//!
//! ```
//! use dustroute::{
//!     BlockKind, Component, ComponentId, Facing, PortConnection, PortRef, Position,
//!     RequiredInputStatus, Rules, TransferKind,
//! };
//!
//! let lever = Component::new(ComponentId(1), Position::new(0, 0, 0), BlockKind::Lever);
//! let repeater = Component {
//!     facing: Some(Facing::East),
//!     ..Component::new(ComponentId(2), Position::new(1, 0, 0), BlockKind::Repeater)
//! };
//! let fed = PortConnection {
//!     source: PortRef::new(ComponentId(1), 1),
//!     sink: PortRef::new(ComponentId(2), 1),
//!     transfer: TransferKind::DirectionalDevice,
//! };
//!
//! let found = dustroute::liveness(Rules::Two, &[lever, repeater], &[fed], &[])?;
//! assert_eq!(found.regions.len(), 2);
//! assert_eq!(found.inputs.len(), 1);
//! assert_eq!(found.inputs[0].status, RequiredInputStatus::DrivenByKnownSource);
//! # Ok::<(), dustroute::Refusal>(())
//! ```
//!
//! What all need of their lists: components ascend strictly by position and
//! then id, no id occurs twice, coordinates are from -30,000,000 to 30,000,000,
//! and no list is over its [limit](limits). What is not so is refused, never
//! put right: a plot that was saved otherwise is a damaged plot. [`clear`] alone
//! mends one fault, and tells what it dropped.

#![deny(missing_docs)]
#![deny(
    clippy::expect_used,
    clippy::indexing_slicing,
    clippy::panic,
    clippy::unreachable,
    clippy::unwrap_used
)]

mod block;
pub mod bytes;
mod clear;
mod codes;
mod driven;
mod explain;
mod groups;
mod held;
mod input;
mod interface;
mod join;
mod light;
pub mod limits;
mod liveness;
mod mark;
mod numbers;
mod ports;
mod reach_table;
mod reasons;
mod refusal;
mod rings;
mod rows;
mod rules;
mod scene;
mod self_test;
mod sheet;
mod trail;
mod what_if;
mod words;
mod work;

pub use block::{Channel, Port, Role, block_ports};
pub use clear::{Cleared, Dropped, Missing, clear};
pub use codes::{BlockKind, ConnectionKind, Facing, Slope, TransferKind};
pub use driven::{DrivenInput, driven};
pub use explain::Given;
pub use groups::{ComponentGroups, Groups, groups};
pub use held::HeldPlot;
pub use input::{InputSources, input};
pub use interface::{INTERFACE, interface};
pub use join::{Clash, JoinRefusal, Unequal, WhichSheet, join};
pub use light::{ComponentLight, Lighting, Step, light};
pub use liveness::{
    ComponentLiveness, Liveness, Region, RequiredInput, RequiredInputStatus, SignalSource,
    SignalSourceKind, liveness,
};
pub use mark::{Mark, MarkedInput, Scene, mark};
pub use ports::{KeptConnection, Ports, ports};
pub use reach_table::{ReachTable, reach_table};
pub use reasons::{LeftOut, Why, left_out};
pub use refusal::{List, Place, Reason, Refusal};
pub use rings::{ComponentRegion, Rings, rings};
pub use rules::Rules;
pub use scene::{Component, ComponentId, Connection, PortConnection, PortRef, Position};
pub use self_test::{SelfTestFailure, self_test};
pub use sheet::{Form, Sheet, convert, read_sheet, report};
pub use trail::{check_trail, trail};
pub use what_if::{Change, ChangedInput, Joined, what_if, what_if_joined};

/// The code in README.md is run as well.
#[cfg(doctest)]
#[doc = include_str!("../README.md")]
struct Readme;
