//! Lists at their limits and beyond, any thread, and little stack.

mod typed;

use std::io;
use std::thread::{self, Builder};

use dustroute::{
    BlockKind, Component, ComponentId, Connection, ConnectionKind, List, Place, PortConnection,
    PortRef, Position, Reason, Refusal, Rules, TransferKind, clear, driven, groups, light, limits,
    liveness, ports, reach_table, rings,
};
use scenes::Profile;
use typed::Lists;

/// The limits are the same under all rules.
const RULES: Rules = Rules::Two;

fn wire(k: usize) -> Component {
    let number = u32::try_from(k).unwrap_or(u32::MAX);
    let x = i32::try_from(k).unwrap_or(i32::MAX);
    Component::new(
        ComponentId(number),
        Position::new(x, 0, 0),
        BlockKind::RedstoneWire,
    )
}

fn too_long(list: List, item: usize) -> Refusal {
    Refusal {
        reason: Reason::Length,
        place: Some(Place { list, item }),
    }
}

#[test]
fn the_limits_are_those_of_the_judge() {
    use scenes::limits::{COMPONENTS, CONNECTIONS, FAR, FRONTIERS};
    assert_eq!(limits::COMPONENTS, COMPONENTS);
    assert_eq!(limits::CONNECTIONS, CONNECTIONS);
    assert_eq!(limits::FRONTIERS, FRONTIERS);
    assert_eq!(i64::from(limits::FAR), FAR);
}

#[test]
fn as_many_components_as_the_limit_and_more() {
    for count in [1_023, 1_024, 1_025, 1_026, 300_000] {
        let components: Vec<Component> = (0..count).map(wire).collect();
        let wanted = if count <= 1_024 {
            Ok(count)
        } else {
            Err(too_long(List::Components, 1_024))
        };
        assert_eq!(
            groups(RULES, &components, &[]).map(|it| it.net_count),
            wanted
        );
        assert_eq!(
            liveness(RULES, &components, &[], &[]).map(|it| it.regions.len()),
            wanted
        );
        assert_eq!(
            reach_table(RULES, &components, &[], &[]).map(|it| it.count),
            wanted
        );
        assert_eq!(
            rings(RULES, &components, &[], &[]).map(|it| it.rings.len()),
            wanted
        );
    }
}

#[test]
fn as_many_connections_as_the_limit_and_more() {
    let components: Vec<Component> = (0..100).map(wire).collect();
    let pairs = (0..100).flat_map(|source| (0..100).map(move |sink| (source, sink)));
    let joined = |(source, sink): (u32, u32)| Connection {
        source: ComponentId(source),
        sink: ComponentId(sink),
        kind: ConnectionKind::Dust,
    };
    let fed = |(source, sink): (u32, u32)| PortConnection {
        source: PortRef::new(ComponentId(source), 0),
        sink: PortRef::new(ComponentId(sink), 0),
        transfer: TransferKind::DustPropagation,
    };
    for count in [4_096, 4_097, 9_000] {
        let refused = (count > 4_096).then(|| too_long(List::Connections, 4_096));
        let connections: Vec<Connection> = pairs.clone().map(joined).take(count).collect();
        assert_eq!(groups(RULES, &components, &connections).err(), refused);
        assert_eq!(ports(RULES, &components, &connections).err(), refused);
        let feeds: Vec<PortConnection> = pairs.clone().map(fed).take(count).collect();
        assert_eq!(liveness(RULES, &components, &feeds, &[]).err(), refused);
        assert_eq!(clear(RULES, &components, &feeds, &[]).err(), refused);
    }
}

#[test]
fn as_many_frontiers_as_the_limit_and_more() {
    for count in [256, 257, 1_000] {
        let refused = (count > 256).then(|| too_long(List::Frontiers, 256));
        let frontiers = vec![Position::new(0, 0, 0); count];
        assert_eq!(liveness(RULES, &[wire(0)], &[], &frontiers).err(), refused);
    }
}

#[test]
fn as_far_as_the_range_and_farther() {
    for far in [
        limits::FAR,
        -limits::FAR,
        limits::FAR + 1,
        -limits::FAR - 1,
        i32::MIN,
        i32::MAX,
    ] {
        let outside = !(-limits::FAR..=limits::FAR).contains(&far);
        for cell in [[far, 0, 0], [0, far, 0], [0, 0, far]] {
            let [x, y, z] = cell;
            let position = Position::new(x, y, z);
            let out_of_range = |list| Refusal {
                reason: Reason::OutOfRange,
                place: Some(Place { list, item: 0 }),
            };
            let components = [Component {
                position,
                ..wire(7)
            }];
            let refused = outside.then(|| out_of_range(List::Components));
            assert_eq!(groups(RULES, &components, &[]).err(), refused, "{cell:?}");
            assert_eq!(
                liveness(RULES, &components, &[], &[]).err(),
                refused,
                "{cell:?}"
            );
            let refused = outside.then(|| out_of_range(List::Frontiers));
            assert_eq!(
                liveness(RULES, &[], &[], &[position]).err(),
                refused,
                "{cell:?}"
            );
        }
    }
}

/// Full plots: every list at its limit, or a ring through all components.
fn full_plots() -> Option<Vec<Lists>> {
    let plots = [
        Profile::Full.scene(3),
        Profile::OneCycle.scene(1),
        Profile::DeepMerge.scene(2),
    ];
    plots.iter().map(Lists::of).collect()
}

fn mark(plot: &Lists) -> Result<[usize; 2], Refusal> {
    let found = liveness(RULES, &plot.components, &plot.ports, &plot.frontiers)?;
    light(RULES, &plot.components, &plot.ports, &plot.frontiers)?;
    let looped = rings(RULES, &plot.components, &plot.ports, &plot.frontiers)?;
    assert_eq!(looped.rings.len(), found.regions.len());
    for row in found.inputs.iter().take(20) {
        driven(
            RULES,
            &plot.components,
            &plot.ports,
            &plot.frontiers,
            row.input,
        )?;
    }
    let cleared = clear(RULES, &plot.components, &plot.ports, &plot.frontiers)?;
    assert_eq!(cleared.kept, plot.ports);
    let whole = dustroute::mark(RULES, &plot.components, &plot.connections, &plot.frontiers)?;
    let groups = groups(RULES, &plot.components, &plot.connections)?;
    assert_eq!(whole.groups, groups);
    Ok([groups.net_count, found.regions.len()])
}

/// The slow finder, which takes its time.
fn slow(plot: &Lists) -> Result<usize, Refusal> {
    let table = reach_table(RULES, &plot.components, &plot.ports, &plot.frontiers)?;
    Ok(table.count)
}

/// A server's threads have little stack.
#[test]
fn full_plots_within_one_mebibyte_of_stack() -> io::Result<()> {
    let plots = full_plots().unwrap_or_default();
    assert_eq!(plots.len(), 3);
    let full = plots
        .iter()
        .map(|it| (it.components.len(), it.connections.len()));
    assert!(full.max() >= Some((limits::COMPONENTS, limits::CONNECTIONS)));
    let run = move || {
        plots
            .iter()
            .all(|plot| mark(plot).is_ok() && slow(plot).is_ok())
    };
    let thread = Builder::new().stack_size(1 << 20).spawn(run)?;
    assert!(thread.join().is_ok_and(|all| all));
    Ok(())
}

/// Nothing is kept from call to call, or shared between calls.
#[test]
fn many_threads_at_once() {
    let plots = full_plots().unwrap_or_default();
    let alone: Vec<_> = plots.iter().map(mark).collect();
    thread::scope(|scope| {
        for _ in 0..8 {
            scope.spawn(|| {
                for _ in 0..5 {
                    assert!(plots.iter().map(mark).eq(alone.iter().copied()));
                }
            });
        }
    });
}
