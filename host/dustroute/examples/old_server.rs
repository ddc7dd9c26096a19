//! The old server's types turned into this crate's, and a plot marked the old way,
//! by three calls, and the new, by one: no port is found or written down by the
//! server. The old server knows the first year's rules, so the plot is marked by
//! these. To be copied and changed.
//!
//!     cargo run --offline --example old_server

use std::collections::BTreeSet;
use std::error::Error;
use std::iter::zip;

use dustroute_physical as physical;
use dustroute_translate::{SignalLivenessReport, analyze_signal_liveness};

use dustroute::{
    BlockKind, Component, ComponentId, ComponentLiveness, Connection, ConnectionKind, Facing,
    Groups, Mark, PortRef, Position, Rules, Scene,
};

type Failure = Box<dyn Error>;

/// Ids of the server have 64 bits, ids of the library 32.
fn id(old: physical::ComponentId) -> Result<ComponentId, Failure> {
    let number = old.0;
    let id = u32::try_from(number).map_err(|_| format!("the id {number} has more than 32 bits"))?;
    Ok(ComponentId(id))
}

const fn position(old: physical::Pos) -> Position {
    Position::new(old.x, old.y, old.z)
}

const fn kind(old: physical::BlockKind) -> BlockKind {
    match old {
        physical::BlockKind::RedstoneWire => BlockKind::RedstoneWire,
        physical::BlockKind::Repeater => BlockKind::Repeater,
        physical::BlockKind::Comparator => BlockKind::Comparator,
        physical::BlockKind::RedstoneTorch => BlockKind::RedstoneTorch,
        physical::BlockKind::Lever => BlockKind::Lever,
        physical::BlockKind::Button => BlockKind::Button,
        physical::BlockKind::PressurePlate => BlockKind::PressurePlate,
        physical::BlockKind::RedstoneBlock => BlockKind::RedstoneBlock,
        physical::BlockKind::Piston => BlockKind::Piston,
        physical::BlockKind::Solid => BlockKind::Solid,
        physical::BlockKind::Transparent => BlockKind::Transparent,
        physical::BlockKind::RedstoneLamp => BlockKind::RedstoneLamp,
        physical::BlockKind::Air => BlockKind::Air,
    }
}

const fn facing(old: physical::Facing) -> Facing {
    match old {
        physical::Facing::North => Facing::North,
        physical::Facing::East => Facing::East,
        physical::Facing::South => Facing::South,
        physical::Facing::West => Facing::West,
        physical::Facing::Up => Facing::Up,
        physical::Facing::Down => Facing::Down,
    }
}

/// The face of a unit step; other offsets, which the old torch read as Down,
/// are not told apart from none.
const fn support(offset: physical::Pos) -> Option<Facing> {
    match (offset.x, offset.y, offset.z) {
        (0, 0, -1) => Some(Facing::North),
        (1, 0, 0) => Some(Facing::East),
        (0, 0, 1) => Some(Facing::South),
        (-1, 0, 0) => Some(Facing::West),
        (0, 1, 0) => Some(Facing::Up),
        (0, -1, 0) => Some(Facing::Down),
        _ => None,
    }
}

fn component(
    id: physical::ComponentId,
    pos: physical::Pos,
    block: &physical::Block,
) -> Result<Component, Failure> {
    Ok(Component {
        id: self::id(id)?,
        position: position(pos),
        kind: kind(block.kind),
        facing: block.facing.map(facing),
        support: block.support_offset.and_then(support),
        conducts: block.redstone_traits().conducts_weak_power,
    })
}

fn connection(old: &physical::PhysicalConnection) -> Result<Connection, Failure> {
    use physical::ConnectionKind as Old;
    Ok(Connection {
        source: id(old.source)?,
        sink: id(old.sink)?,
        kind: match old.kind {
            Old::Dust => ConnectionKind::Dust,
            Old::DustRise => ConnectionKind::DustRise,
            Old::DustFallThroughConductor => ConnectionKind::DustFallThroughConductor,
            Old::WeakPower => ConnectionKind::WeakPower,
            Old::StrongPower => ConnectionKind::StrongPower,
            Old::DirectionalInput => ConnectionKind::DirectionalInput,
            Old::DirectionalOutput => ConnectionKind::DirectionalOutput,
            Old::DirectSource => ConnectionKind::DirectSource,
            Old::Control => ConnectionKind::Control,
            Old::Support => ConnectionKind::Support,
        },
    })
}

/// The old server's lists. The old calls sort them; the new refuse lists that do not
/// ascend.
pub fn scene(
    components: &[physical::PhysicalComponent],
    connections: &[physical::PhysicalConnection],
    observation: &physical::Observation,
) -> Result<Scene, Failure> {
    let components = components.iter();
    let components = components.map(|old| component(old.id, old.pos, &old.block));
    let connections = connections.iter().map(connection);
    let frontiers = observation.frontier.iter();
    Ok(Scene {
        rules: Rules::One,
        components: components.collect::<Result<_, _>>()?,
        connections: connections.collect::<Result<_, _>>()?,
        frontiers: frontiers.map(|old| position(old.position)).collect(),
    })
}

/// In place of `VerifiedTopology::from_parts`, `PhysicalScene::from_unvalidated_topology`
/// and `analyze_signal_liveness`. A refusal is told in words.
pub fn marked(scene: &Scene) -> Result<Mark, Failure> {
    let mark = scene.mark();
    mark.map_err(|refusal| format!("{refusal}: {}", refusal.explain(scene)).into())
}

fn ids(old: &BTreeSet<physical::ComponentId>) -> Result<BTreeSet<ComponentId>, Failure> {
    old.iter().copied().map(id).collect()
}

fn port(old: physical::PortRef) -> Result<PortRef, Failure> {
    Ok(PortRef::new(id(old.component)?, old.port.0))
}

/// Whether nets and fragments are the same in both forms.
pub fn groups_agree(old: &physical::VerifiedTopology, new: &Groups) -> Result<bool, Failure> {
    let nets = old.nets.iter().map(|it| ids(&it.components));
    let fragments = old.fragments.iter().map(|it| ids(&it.components));
    Ok(nets.collect::<Result<Vec<_>, _>>()? == new.nets()
        && fragments.collect::<Result<Vec<_>, _>>()? == new.fragments())
}

/// Whether the port connections are.
pub fn ports_agree(old: &physical::PhysicalScene, new: &Mark) -> Result<bool, Failure> {
    let mut same = old.connections.len() == new.ports.kept.len();
    for (old, new) in zip(&old.connections, &new.ports.kept) {
        same &= port(old.source)? == new.connection.source
            && port(old.sink)? == new.connection.sink
            && old.transfer as u8 == new.connection.transfer as u8;
    }
    Ok(same)
}

/// Whether what liveness has in both forms is.
pub fn liveness_agrees(old: &SignalLivenessReport, new: &Mark) -> Result<bool, Failure> {
    let found = &new.liveness;
    let reached = |holds: fn(&ComponentLiveness) -> bool| -> BTreeSet<ComponentId> {
        let some = found.components.iter().filter(|it| holds(it));
        some.map(|it| it.id).collect()
    };
    let undriven = old.undriven_inputs.iter().map(|it| port(it.input));
    Ok(ids(&old.drive_reachable)? == reached(|it| it.drive)
        && ids(&old.potential_drive_reachable)? == reached(|it| it.potential)
        && ids(&old.drive_sources)? == found.drive_sources()
        && found
            .undriven()
            .eq(undriven.collect::<Result<Vec<_>, _>>()?)
        && rows_agree(old, new)?)
}

/// Regions, sources and required inputs, one by one.
fn rows_agree(old: &SignalLivenessReport, new: &Mark) -> Result<bool, Failure> {
    let found = &new.liveness;
    let mut same = old.directed_regions.len() == found.regions.len()
        && old.sources.len() == found.sources.len()
        && old.required_input_assessments.len() == new.inputs.len();
    let regions = zip(&found.regions, found.region_members());
    for (old, (region, members)) in zip(&old.directed_regions, regions) {
        same &= ids(&old.components)? == members
            && [old.cyclic, old.contains_drive_source] == [region.cyclic, region.has_drive];
    }
    for (old, new) in zip(&old.sources, &found.sources) {
        same &= id(old.component)? == new.component && old.kind as u8 == new.kind as u8;
    }
    for (old, new) in zip(&old.required_input_assessments, &new.inputs) {
        same &= port(old.input)? == new.input
            && old.status as u8 == new.status as u8
            && ids(&old.immediate_sources)? == new.immediate
            && ids(&old.inferred_primary_inputs)? == new.inferred;
    }
    Ok(same)
}

/// A lever at the origin, and a repeater beside it that faces East.
#[allow(dead_code, reason = "a test takes this file for its functions alone")]
fn main() -> Result<(), Failure> {
    let components = oracle::lists::components(&[1, 0, 0, 0, 4, 0, 0, 0, 2, 1, 0, 0, 1, 2, 0, 0]);
    let connections = oracle::lists::connections(&[1, 2, 5]);
    let observation = oracle::lists::observation(&[]);
    let new = marked(&scene(&components, &connections, &observation)?)?;

    let topology = physical::VerifiedTopology::from_parts(components, connections);
    let old = physical::PhysicalScene::from_unvalidated_topology(observation, &topology);
    let report = analyze_signal_liveness(&old);

    for input in &new.inputs {
        println!("{:?} {}", input.input, input.status);
    }
    let agree = groups_agree(&topology, &new.groups)?
        && ports_agree(&old, &new)?
        && liveness_agrees(&report, &new)?;
    println!("old and new agree: {agree}");
    Ok(())
}
