//! Comparisons of one scene's answers, for the tests beside it.

mod alive;
mod compare;
mod counted;
mod groups;
mod guarded;
mod joins;
mod ports;
pub mod program;
pub mod runs;
pub mod scale;
mod sheet_lists;
mod sheets;
mod unknown;

pub use alive::{Alive, LivenessLists};
pub use compare::Tally;
pub use counted::{Counted, UNKNOWN_RULES};
pub use groups::{ByteLists, Groups};
pub use guarded::Guarded;
pub use joins::Joins;
pub use ports::Ports;
pub use sheet_lists::SheetLists;
pub use sheets::{Entry, Sheets};
pub use unknown::Unknown;
