//! What the Rust answers, put back into numbers.

use std::collections::{BTreeMap, BTreeSet};

use dustroute_physical::{ComponentId, PortConnection};
use dustroute_translate::{RequiredInputAssessment, SignalLivenessReport, analyze_signal_liveness};

use crate::{codes, lists};

/// Nets and fragments. Numbers per component are in list order.
#[derive(Clone, Debug, Default, Eq, PartialEq)]
pub struct Groups {
    pub net: Vec<i64>,
    pub fragment: Vec<i64>,
    pub net_count: usize,
    pub fragment_count: usize,
    /// The nets that share a member with each fragment, rising.
    pub fragment_nets: Vec<Vec<i64>>,
}

/// A directed region: its members by rising id.
#[derive(Clone, Debug, Default, Eq, PartialEq)]
pub struct Region {
    pub members: Vec<i64>,
    pub cyclic: bool,
    pub contains_drive_source: bool,
}

/// One required input with its verdict; the sets are rising ids.
#[derive(Clone, Debug, Default, Eq, PartialEq)]
pub struct Input {
    pub device: i64,
    pub port: i64,
    pub status: i64,
    pub immediate: Vec<i64>,
    pub inferred: Vec<i64>,
}

/// The whole answer of the analysis. Region numbers are in list order, sources
/// (id, source kind) in the Rust's order, the sets are rising ids.
#[derive(Clone, Debug, Default, Eq, PartialEq)]
pub struct Liveness {
    pub region: Vec<i64>,
    pub regions: Vec<Region>,
    pub sources: Vec<[i64; 2]>,
    pub drive: Vec<i64>,
    pub potential: Vec<i64>,
    pub inputs: Vec<Input>,
}

fn number(id: ComponentId) -> i64 {
    i64::try_from(id.0).unwrap_or(i64::MAX)
}

fn numbers(ids: &BTreeSet<ComponentId>) -> Vec<i64> {
    ids.iter().copied().map(number).collect()
}

/// For each listed component the place of the set that holds it, -1 for none.
fn places<'a>(
    components: &[i64],
    sets: impl Iterator<Item = &'a BTreeSet<ComponentId>>,
) -> Vec<i64> {
    let mut place = BTreeMap::new();
    for (index, set) in (0..).zip(sets) {
        place.extend(set.iter().map(|id| (number(*id), index)));
    }
    let ids = components.chunks_exact(8).map(|record| record[0]);
    ids.map(|id| place.get(&id).copied().unwrap_or(-1))
        .collect()
}

/// Nets and fragments by `VerifiedTopology::from_parts`.
#[must_use]
pub fn groups(components: &[i64], connections: &[i64]) -> Groups {
    let topology = lists::topology(components, connections);
    let nets = topology.nets.iter().map(|net| &net.components);
    let fragments = topology.fragments.iter().map(|group| &group.components);
    let fragment_nets = topology.fragments.iter().map(|group| {
        let nets = group.nets.iter();
        nets.map(|net| i64::try_from(net.0).unwrap_or(i64::MAX))
            .collect()
    });
    Groups {
        net: places(components, nets),
        fragment: places(components, fragments),
        net_count: topology.nets.len(),
        fragment_count: topology.fragments.len(),
        fragment_nets: fragment_nets.collect(),
    }
}

fn port_row(connection: &PortConnection) -> [i64; 5] {
    [
        number(connection.source.component),
        i64::from(connection.source.port.0),
        number(connection.sink.component),
        i64::from(connection.sink.port.0),
        connection.transfer as i64,
    ]
}

/// The kept port connections by `PhysicalScene::from_unvalidated_topology`.
#[must_use]
pub fn ports(components: &[i64], connections: &[i64]) -> Vec<[i64; 5]> {
    let scene = lists::selected_scene(components, connections);
    scene.connections.iter().map(port_row).collect()
}

/// The ports (role, face, channel) that `scene.rs` gives each component.
#[must_use]
pub fn ports_of(components: &[i64]) -> Vec<Vec<[i64; 3]>> {
    let scene = lists::selected_scene(components, &[]);
    let of_one = |component: &dustroute_physical::SceneComponent| {
        let ports = component.ports.iter();
        ports
            .map(|port| {
                let face = codes::facing_code(port.face);
                [port.role as i64, face, port.channel as i64]
            })
            .collect()
    };
    scene.components.iter().map(of_one).collect()
}

fn input(assessment: &RequiredInputAssessment) -> Input {
    Input {
        device: number(assessment.device),
        port: i64::from(assessment.input.port.0),
        status: assessment.status as i64,
        immediate: numbers(&assessment.immediate_sources),
        inferred: numbers(&assessment.inferred_primary_inputs),
    }
}

fn regions(report: &SignalLivenessReport) -> Vec<Region> {
    let regions = report.directed_regions.iter();
    regions
        .map(|region| Region {
            members: numbers(&region.components),
            cyclic: region.cyclic,
            contains_drive_source: region.contains_drive_source,
        })
        .collect()
}

/// The analysis of a scene with its port connections given.
#[must_use]
pub fn liveness(components: &[i64], port_connections: &[i64], frontiers: &[i64]) -> Liveness {
    let scene = lists::given_scene(components, port_connections, frontiers);
    let report = analyze_signal_liveness(&scene);
    let sets = report
        .directed_regions
        .iter()
        .map(|region| &region.components);
    let sources = report.sources.iter();
    Liveness {
        region: places(components, sets),
        regions: regions(&report),
        sources: sources
            .map(|source| [number(source.component), source.kind as i64])
            .collect(),
        drive: numbers(&report.drive_reachable),
        potential: numbers(&report.potential_drive_reachable),
        inputs: report
            .required_input_assessments
            .iter()
            .map(input)
            .collect(),
    }
}
