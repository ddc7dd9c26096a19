//! The worked plots of the paper, marked by the library that is linked.

use std::error::Error;
use std::fmt::{self, Debug};

use crate::{
    BlockKind, Component, ComponentId, Connection, ConnectionKind, Facing, Liveness,
    PortConnection, PortRef, Position, Refusal, RequiredInputStatus, Role, Rules, SignalSourceKind,
    Slope, TransferKind, Why, block_ports, groups, liveness, mark, ports, rings,
};

/// Worked plots that the linked library does not mark as it must.
#[derive(Clone, Debug, Eq, PartialEq)]
pub struct SelfTestFailure {
    /// A line to each: its name, what was asked of it, what was found and what must be.
    pub plots: Vec<String>,
}

impl fmt::Display for SelfTestFailure {
    fn fmt(&self, out: &mut fmt::Formatter<'_>) -> fmt::Result {
        write!(out, "worked plots are marked wrongly: ")?;
        out.write_str(&self.plots.join("; "))
    }
}

impl Error for SelfTestFailure {}

type Told = Result<(), String>;

/// A plot's name, and what is asked of it.
type Plot = (&'static str, fn() -> Told);

/// The plots W1 to W12 of the paper.
const PLOTS: [Plot; 12] = [
    ("W1", nothing),
    ("W2", nets),
    ("W3", steps),
    ("W4", torch),
    ("W5", repeater_facing_up),
    ("W6", lone_wire),
    ("W7", three_wires),
    ("W8", wire_before_a_repeater),
    ("W9", lamp_before_a_wire),
    ("W10", second_before_first),
    ("W11", lever_on_a_frontier),
    ("W12", two_repeaters),
];

/// Marks the paper's worked plots W1 to W12 by the library that is linked, for the start
/// of a server. A millisecond is enough for it.
///
/// The plots are proved of the library's sources; this tells whether what was linked was
/// made of them, as far as twelve small plots can.
///
/// # Errors
/// Which plots are not marked as they must be.
///
/// ```
/// dustroute::self_test()?;
/// # Ok::<(), dustroute::SelfTestFailure>(())
/// ```
pub fn self_test() -> Result<(), SelfTestFailure> {
    let failed = PLOTS.iter().filter_map(|(name, plot)| {
        let words = plot().err()?;
        Some(format!("{name}, {words}"))
    });
    let plots: Vec<String> = failed.collect();
    if plots.is_empty() {
        Ok(())
    } else {
        Err(SelfTestFailure { plots })
    }
}

fn same<T: Debug + PartialEq>(what: &str, found: Result<T, Refusal>, wanted: T) -> Told {
    match found {
        Ok(found) if found == wanted => Ok(()),
        Ok(found) => Err(format!("{what}: {found:?}, not {wanted:?}")),
        Err(refusal) => Err(format!("{what}: {refusal}")),
    }
}

/// A block in a row, at as many steps East as its place.
const fn block(id: u32, x: i32, kind: BlockKind) -> Component {
    Component::new(ComponentId(id), Position::new(x, 0, 0), kind)
}

const fn wire(id: u32, x: i32) -> Component {
    block(id, x, BlockKind::RedstoneWire)
}

const fn joined(source: u32, sink: u32, kind: ConnectionKind) -> Connection {
    Connection {
        source: ComponentId(source),
        sink: ComponentId(sink),
        kind,
    }
}

/// From port 1 to port 1.
const fn feed(source: u32, sink: u32) -> PortConnection {
    PortConnection {
        source: PortRef::new(ComponentId(source), 1),
        sink: PortRef::new(ComponentId(sink), 1),
        transfer: TransferKind::DustPropagation,
    }
}

fn statuses(found: &Liveness) -> Vec<RequiredInputStatus> {
    found.inputs.iter().map(|it| it.status).collect()
}

fn sources(found: &Liveness) -> Vec<(ComponentId, SignalSourceKind)> {
    let sources = found.sources.iter();
    sources.map(|it| (it.component, it.kind)).collect()
}

/// The components of each region.
fn regions(found: &Liveness) -> Vec<Vec<u32>> {
    let members = found.region_members().into_iter();
    members
        .map(|set| set.into_iter().map(|id| id.0).collect())
        .collect()
}

/// The liveness of a plot by every year's rules.
fn by_all_rules<T: Debug + PartialEq>(
    what: &str,
    (components, connections): (&[Component], &[PortConnection]),
    read: impl Fn(&Liveness) -> T,
    wanted: impl Fn(Rules) -> T,
) -> Told {
    Rules::ALL.into_iter().try_for_each(|rules| {
        let found = liveness(rules, components, connections, &[]);
        let what = format!("{what} by {rules}");
        same(&what, found.map(|found| read(&found)), wanted(rules))
    })
}

fn nothing() -> Told {
    let counts = mark(Rules::One, &[], &[], &[]).map(|it| {
        let found = it.liveness;
        let groups = [it.groups.net_count, it.groups.fragment_count];
        let rows = [found.regions.len(), found.sources.len(), it.inputs.len()];
        (groups, it.ports.kept.len(), rows)
    });
    same("counts of an empty plot", counts, ([0; 2], 0, [0; 3]))
}

fn nets() -> Told {
    let components = [wire(0, 0), wire(1, 0), wire(2, 0)];
    let found = groups(
        Rules::One,
        &components,
        &[joined(2, 0, ConnectionKind::Dust)],
    );
    let wanted = [vec![1], vec![0, 2]];
    let wanted = wanted.map(|ids| ids.into_iter().map(ComponentId).collect());
    same(
        "nets of dust from 2 to 0",
        found.map(|it| it.nets()),
        wanted.to_vec(),
    )
}

fn steps() -> Told {
    let down = Component::new(
        ComponentId(2),
        Position::new(1, -1, 0),
        BlockKind::RedstoneWire,
    );
    let corner = Component::new(
        ComponentId(4),
        Position::new(1, 1, 1),
        BlockKind::RedstoneWire,
    );
    let components = [wire(1, 0), wire(3, 0), down, corner];
    let dust = [2, 3, 4].map(|sink| joined(1, sink, ConnectionKind::Dust));
    let found = ports(Rules::One, &components, &dust).map(|it| {
        let kept = it.kept.iter();
        let kept = kept.map(|it| (it.connection.source.port, it.connection.sink.port, it.slope));
        let left_out = it.left_out.iter().map(|it| (it.item, it.why));
        (kept.collect(), left_out.collect())
    });
    let wanted = (
        vec![(1, 3, Slope::Falling)],
        vec![(1, Why::NoStep), (2, Why::NoStep)],
    );
    same("steps of 1,-1,0 and 0,0,0 and 1,1,1", found, wanted)
}

fn torch() -> Told {
    let torch = Component {
        support: Some(Facing::East),
        ..block(1, 0, BlockKind::RedstoneTorch)
    };
    let connections = [
        joined(1, 2, ConnectionKind::Dust),
        joined(2, 1, ConnectionKind::Control),
    ];
    let found = ports(Rules::One, &[torch, wire(2, 1)], &connections).map(|it| {
        let kept = it.kept.iter();
        let ports = kept.map(|it| (it.connection.source.port, it.connection.sink.port));
        ports.collect()
    });
    let wanted = vec![(1, 3), (3, 4)];
    same(
        "ports out of and into a torch whose support is East",
        found,
        wanted,
    )
}

fn repeater_facing_up() -> Told {
    let repeater = Component {
        facing: Some(Facing::Up),
        ..block(1, 0, BlockKind::Repeater)
    };
    let found = block_ports(Rules::One, &repeater);
    let found = found.map(|ports| ports.iter().map(|it| (it.role, it.face)).collect());
    let control = |face| (Role::Control, face);
    let wanted = vec![
        (Role::Output, Facing::Up),
        (Role::Input, Facing::Down),
        control(Facing::North),
        control(Facing::East),
        control(Facing::South),
        control(Facing::West),
        (Role::Support, Facing::Down),
    ];
    same("ports of a repeater facing Up", found, wanted)
}

fn lone_wire() -> Told {
    let found = |it: &Liveness| (sources(it), it.regions.iter().any(|it| it.cyclic));
    let wanted = |_| {
        (
            vec![(ComponentId(1), SignalSourceKind::InferredPrimaryInput)],
            false,
        )
    };
    by_all_rules(
        "sources, and whether any is cyclic",
        (&[wire(1, 0)], &[]),
        found,
        wanted,
    )
}

fn three_wires() -> Told {
    let components = [wire(1, 0), wire(2, 1), wire(3, 2)];
    let round = [feed(1, 2), feed(2, 3), feed(3, 1)];
    let found = |it: &Liveness| {
        let cyclic: Vec<bool> = it.regions.iter().map(|it| it.cyclic).collect();
        (regions(it), cyclic, it.sources.len())
    };
    let wanted = |_| (vec![vec![1, 2, 3]], vec![true], 0);
    by_all_rules("regions and sources", (&components, &round), found, wanted)?;
    let ring = rings(Rules::One, &components, &round, &[]).map(|it| it.rings);
    same("whether there is a ring", ring, vec![true])
}

fn wire_before_a_repeater() -> Told {
    let repeater = Component {
        facing: Some(Facing::East),
        ..block(2, 1, BlockKind::Repeater)
    };
    let plot = (&[wire(1, 0), repeater][..], &[feed(1, 2)][..]);
    let wanted = |_| vec![RequiredInputStatus::AwaitingExternalInput];
    by_all_rules("verdict of the repeater", plot, statuses, wanted)
}

/// A lamp is passive from rules 2 on, a solid block by all.
fn lamp_before_a_wire() -> Told {
    let inferred = vec![(ComponentId(2), SignalSourceKind::InferredPrimaryInput)];
    let fed = [feed(1, 2)];
    let lamp = [block(1, 0, BlockKind::RedstoneLamp), wire(2, 1)];
    by_all_rules(
        "sources behind a lamp",
        (&lamp, &fed),
        sources,
        |rules| match rules {
            Rules::One => Vec::new(),
            _ => inferred.clone(),
        },
    )?;
    let solid = [block(1, 0, BlockKind::Solid), wire(2, 1)];
    by_all_rules(
        "sources behind a solid block",
        (&solid, &fed),
        sources,
        |_| inferred.clone(),
    )
}

fn second_before_first() -> Told {
    let components = [wire(1, 0), wire(2, 1)];
    let wanted = |_| vec![vec![2], vec![1]];
    by_all_rules("regions", (&components, &[feed(2, 1)]), regions, wanted)
}

fn lever_on_a_frontier() -> Told {
    let lever = [block(1, 0, BlockKind::Lever)];
    let found = liveness(Rules::One, &lever, &[], &[Position::new(0, 0, 0)]);
    let wanted = [
        SignalSourceKind::ControllableInput,
        SignalSourceKind::ObservationBoundary,
    ];
    let wanted = wanted.map(|kind| (ComponentId(1), kind)).to_vec();
    same("sources", found.map(|it| sources(&it)), wanted)
}

fn two_repeaters() -> Told {
    let facing = |id, x, facing| Component {
        facing: Some(facing),
        ..block(id, x, BlockKind::Repeater)
    };
    let components = [facing(1, 0, Facing::East), facing(2, 1, Facing::West)];
    let fed = [feed(1, 2), feed(2, 1)];
    let wanted = |_| vec![RequiredInputStatus::NoKnownSource; 2];
    by_all_rules("verdicts", (&components, &fed), statuses, wanted)
}

#[cfg(test)]
mod tests {
    use super::{SelfTestFailure, same};
    use crate::Refusal;

    #[test]
    fn what_differs_is_told() {
        assert_eq!(same("count", Ok(1), 1), Ok(()));
        let said = "count: 1, not 2".to_string();
        assert_eq!(same("count", Ok(1), 2), Err(said));
        let said = same("count", Err(Refusal::UNREADABLE), 2).err();
        assert!(said.is_some_and(|it| it.starts_with("count: refusal 0")));
        let failure = SelfTestFailure {
            plots: vec!["W1, counts".to_string(), "W9, sources".to_string()],
        };
        let wanted = "worked plots are marked wrongly: W1, counts; W9, sources";
        assert_eq!(failure.to_string(), wanted);
    }
}
