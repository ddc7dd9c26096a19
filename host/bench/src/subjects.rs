//! What is timed. Both sides get their inputs in their own form, made before
//! the clock starts; the Rust's are copied for each run where it takes them.

use dustroute_physical::{
    Observation, PhysicalComponent, PhysicalConnection, PhysicalScene, VerifiedTopology,
};
use dustroute_translate::analyze_signal_liveness;
use oracle::lists;
use probe::capi;
use probe::ports::port_connections;
use scenes::limits::{COMPONENT, CONNECTION, PORT_CONNECTION, RULES_OF_THE_RUST};
use scenes::{Lent, Scene, bytes};

use crate::measure::Times;

/// A scene made ready for both sides.
pub trait Subject {
    fn new(scene: Scene) -> Self;

    /// How many connections of a scene are looked at.
    fn connections(scene: &Scene) -> usize {
        scene.connections.len() / CONNECTION
    }

    /// One run of each side.
    fn run(&mut self, times: &mut Times);
}

/// Nets and fragments.
pub struct Groups {
    components: Vec<PhysicalComponent>,
    connections: Vec<PhysicalConnection>,
    component_bytes: Vec<u8>,
    connection_bytes: Vec<u8>,
    nets: Vec<u8>,
    fragments: Vec<u8>,
}

impl Subject for Groups {
    fn new(scene: Scene) -> Self {
        let components = lists::components(&scene.components);
        let enough = components.len() * bytes::NUMBER;
        Self {
            components,
            connections: lists::connections(&scene.connections),
            component_bytes: bytes::of(&scene.components),
            connection_bytes: bytes::of(&scene.connections),
            nets: vec![0; enough],
            fragments: vec![0; enough],
        }
    }

    fn run(&mut self, times: &mut Times) {
        let (components, connections) = (self.components.clone(), self.connections.clone());
        times.rust(|| VerifiedTopology::from_parts(components, connections));
        times.proved(|| {
            let answer = capi::groups(
                RULES_OF_THE_RUST,
                &self.component_bytes,
                &self.connection_bytes,
                &mut self.nets,
                &mut self.fragments,
            );
            assert!(answer.is_ok());
        });
    }
}

/// Ports and the connections that are kept; the topology is there already.
pub struct Ports {
    topology: VerifiedTopology,
    observation: Observation,
    scene: Scene,
    out: Vec<i64>,
}

impl Subject for Ports {
    fn new(scene: Scene) -> Self {
        Self {
            topology: lists::topology(&scene.components, &scene.connections),
            observation: lists::observation(&[]),
            out: vec![0; Lent::enough(&scene).ports],
            scene,
        }
    }

    fn run(&mut self, times: &mut Times) {
        let observation = self.observation.clone();
        times.rust(|| PhysicalScene::from_unvalidated_topology(observation, &self.topology));
        times.proved(|| {
            let (components, connections) = (&self.scene.components, &self.scene.connections);
            let answer =
                port_connections(RULES_OF_THE_RUST, components, connections, &mut self.out);
            assert!(answer.is_ok());
        });
    }
}

/// Regions, sources and verdicts of the port connections.
pub struct Liveness {
    given: PhysicalScene,
    lists: [Vec<u8>; 3],
    regions: Vec<u8>,
    sources: Vec<u8>,
    inputs: Vec<u8>,
    sets: Vec<u8>,
    stack: Vec<u8>,
}

impl Subject for Liveness {
    fn connections(scene: &Scene) -> usize {
        scene.ports.len() / PORT_CONNECTION
    }

    fn new(scene: Scene) -> Self {
        let (components, ports, frontiers) = (&scene.components, &scene.ports, &scene.frontiers);
        let lent = Lent::enough(&scene);
        let zeros = |numbers: usize| vec![0; numbers * bytes::NUMBER];
        Self {
            given: lists::given_scene(components, ports, frontiers),
            lists: [components, ports, frontiers].map(|list| bytes::of(list)),
            regions: zeros(lent.regions),
            sources: zeros(lent.sources),
            inputs: zeros(lent.inputs),
            sets: zeros(bytes::SET_WORDS),
            stack: zeros(lent.stack),
        }
    }

    fn run(&mut self, times: &mut Times) {
        times.rust(|| analyze_signal_liveness(&self.given));
        times.proved(|| {
            let [components, ports, frontiers] = &self.lists;
            let lent = capi::Lent {
                regions: &mut self.regions,
                sources: &mut self.sources,
                inputs: &mut self.inputs,
                sets: &mut self.sets,
                stack: &mut self.stack,
            };
            let answer =
                capi::liveness_bytes(RULES_OF_THE_RUST, components, ports, frontiers, lent);
            assert!(answer.is_ok());
        });
    }
}

/// With the port connections that the scene builder keeps.
pub fn with_kept(mut scene: Scene) -> Scene {
    scene.ports = oracle::ports(&scene.components, &scene.connections).concat();
    scene
}

/// Index of a component's support in its record.
const SUPPORT: usize = 6;

/// The Rust looks for each support among all components; without supports it
/// has nothing to look for.
pub fn without_supports(mut scene: Scene) -> Scene {
    for record in scene.components.chunks_exact_mut(COMPONENT) {
        record[SUPPORT] = 0;
    }
    scene
}
