//! The rules and the lists of a call as numbers.

use crate::numbers::records;
use crate::{Component, PortConnection, Position, Rules, limits};

/// The rules' number, and the lists as rows of numbers.
pub struct Rows {
    pub rules: i64,
    components: Vec<[i64; 8]>,
    ports: Vec<[i64; 5]>,
    frontiers: Vec<[i64; 3]>,
}

impl Rows {
    pub fn of(
        rules: Rules,
        components: &[Component],
        ports: &[PortConnection],
        frontiers: &[Position],
    ) -> Self {
        Self {
            rules: rules.number(),
            components: records(components, limits::COMPONENTS, Component::record),
            ports: records(ports, limits::CONNECTIONS, PortConnection::record),
            frontiers: records(frontiers, limits::FRONTIERS, Position::record),
        }
    }

    pub fn components(&self) -> &[i64] {
        self.components.as_flattened()
    }

    pub fn ports(&self) -> &[i64] {
        self.ports.as_flattened()
    }

    pub fn frontiers(&self) -> &[i64] {
        self.frontiers.as_flattened()
    }
}
