//! How long a list may be.

/// Components of a scene.
pub const COMPONENTS: usize = 1_024;

/// Grouping connections, and port connections, of a scene.
pub const CONNECTIONS: usize = 4_096;

/// Frontiers of a scene.
pub const FRONTIERS: usize = 256;

/// The farthest coordinate from 0, either way.
pub const FAR: i32 = 30_000_000;
