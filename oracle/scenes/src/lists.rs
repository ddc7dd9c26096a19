//! Flat lists of numbers turned into the Rust's values.

use dustroute_physical::{
    Block, ComponentId, Confidence, FrontierReason, Observation, ObservationFrontier,
    PhysicalComponent, PhysicalConnection, PhysicalScene, PortConnection, PortId, PortRef, Pos,
    SceneBounds, VerifiedTopology,
};

use crate::codes;

fn id(number: i64) -> ComponentId {
    ComponentId(usize::try_from(number).unwrap_or(0))
}

/// Held to half of the type's range, so that no difference overflows.
fn coordinate(number: i64) -> i32 {
    const FAR: i32 = i32::MAX / 2;
    i32::try_from(number.clamp(-i64::from(FAR), i64::from(FAR))).unwrap_or(FAR)
}

fn position(numbers: &[i64]) -> Pos {
    Pos::new(
        coordinate(numbers[0]),
        coordinate(numbers[1]),
        coordinate(numbers[2]),
    )
}

fn component(record: &[i64]) -> PhysicalComponent {
    PhysicalComponent {
        id: id(record[0]),
        pos: position(&record[1..4]),
        block: Block {
            kind: codes::kind(record[4]),
            facing: codes::facing(record[5]),
            support_offset: codes::support_offset(record[6]),
            wire_connections: None,
            observed_name: None,
            conducts: record[7] == 1,
        },
    }
}

fn connection(record: &[i64]) -> PhysicalConnection {
    PhysicalConnection {
        source: id(record[0]),
        sink: id(record[1]),
        kind: codes::connection(record[2]),
    }
}

fn port_ref(component: i64, port: i64) -> PortRef {
    PortRef {
        component: id(component),
        port: PortId(u8::try_from(port).unwrap_or(u8::MAX)),
    }
}

fn port_connection(record: &[i64]) -> PortConnection {
    PortConnection {
        source: port_ref(record[0], record[1]),
        sink: port_ref(record[2], record[3]),
        transfer: codes::transfer(record[4]),
        confidence: Confidence::Certain,
        evidence: Vec::new(),
    }
}

/// Direction and reason are not part of a frontier's record, and the analysis
/// never looks at them.
fn frontier(record: &[i64]) -> ObservationFrontier {
    ObservationFrontier {
        position: position(record),
        direction: dustroute_physical::Facing::North,
        reason: FrontierReason::PolicyBoundary,
    }
}

/// An observation with these frontiers.
#[must_use]
pub fn observation(frontiers: &[i64]) -> Observation {
    let origin = Pos::new(0, 0, 0);
    let mut observation = Observation::complete("plot", SceneBounds::new(origin, origin));
    observation.frontier = frontiers.chunks_exact(3).map(frontier).collect();
    observation
}

/// The components of a list.
#[must_use]
pub fn components(list: &[i64]) -> Vec<PhysicalComponent> {
    list.chunks_exact(8).map(component).collect()
}

/// The grouping connections of a list.
#[must_use]
pub fn connections(list: &[i64]) -> Vec<PhysicalConnection> {
    list.chunks_exact(3).map(connection).collect()
}

/// The topology of components and grouping connections.
#[must_use]
pub fn topology(components: &[i64], connections: &[i64]) -> VerifiedTopology {
    VerifiedTopology::from_parts(self::components(components), self::connections(connections))
}

/// The scene whose port connections `scene.rs` selects.
#[must_use]
pub fn selected_scene(components: &[i64], connections: &[i64]) -> PhysicalScene {
    PhysicalScene::from_unvalidated_topology(observation(&[]), &topology(components, connections))
}

/// The scene with the port connections given, and ports as `scene.rs` makes them.
#[must_use]
pub fn given_scene(components: &[i64], ports: &[i64], frontiers: &[i64]) -> PhysicalScene {
    let mut scene = PhysicalScene::from_unvalidated_topology(
        observation(frontiers),
        &topology(components, &[]),
    );
    scene.connections = ports.chunks_exact(5).map(port_connection).collect();
    scene
}
