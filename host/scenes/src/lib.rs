//! Scenes to try: generated ones, damaged copies of them, and the refusal that
//! the scope paper gives to each list.
//!
//! Everything here is plain Rust over flat lists of numbers and depends on no
//! other crate, so that it can stand as a judge beside other code.

pub mod blanks;
pub mod bytes;
pub mod damage;
mod draft;
pub mod exhaustive;
pub mod lamps;
pub mod lent;
pub mod limits;
pub mod members;
pub mod profiles;
pub mod random;
pub mod refusals;
mod scene;
pub mod sheets;
pub mod sized;

pub use lent::Lent;
pub use profiles::Profile;
pub use refusals::Refusal;
pub use scene::Scene;
