//! Regions, sources, verdicts, drive and potential by the proved entry, and
//! the sets of each verdict row by the input query, against the unchanged
//! Rust on accepted scenes.

use std::io;

use checks::runs::{self, Seeds};
use checks::{Alive, Counted, LivenessLists};
use probe::capi::liveness;
use scenes::limits::{
    COMPONENT, COMPONENTS, CONNECTIONS, PORT_CONNECTION, RULES_OF_THE_RUST, SUPPORT,
};
use scenes::random::Random;
use scenes::{Profile, Scene};

#[test]
fn on_every_small_scene() {
    let mut alive = Alive::default();
    runs::on_small_scenes(|scene, case| alive.call(&LivenessLists::of(scene), &case));
    alive.assert_all_accepted("liveness, small scenes");
    assert!(alive.statuses().iter().all(|count| *count > 0));
}

/// Every directed graph over four, self connections among them, as signals.
/// Kinds go round, so that wires, devices and sources all occur.
fn graph(code: usize) -> Scene {
    let kinds = [0, 0, 1, 4, 9, 11, 3, 0, 8];
    let component = |k: usize| {
        let place = i64::try_from(k).unwrap_or(0);
        [
            7 * (3 - place),
            place,
            0,
            0,
            kinds[(code / 7 + k) % kinds.len()],
            0,
            0,
            1,
        ]
    };
    let pair = |k: usize| {
        let ids = [k / 4, k % 4].map(|it| 7 * i64::try_from(it).unwrap_or(0));
        let port = i64::try_from((code / 5 + k) % 5).unwrap_or(0);
        let transfer = i64::try_from((code + k) % 6).unwrap_or(0);
        [ids[0], 0, ids[1], port, transfer]
    };
    let chosen = (0..16).filter(|k| (code >> k) & 1 == 1);
    Scene {
        components: (0..4).flat_map(component).collect(),
        ports: chosen.flat_map(pair).collect(),
        ..Scene::default()
    }
}

#[test]
fn on_every_graph_over_four() {
    let mut alive = Alive::default();
    for code in 0..1 << 16 {
        alive.call(&LivenessLists::of(&graph(code)), &format!("graph {code}"));
    }
    alive.assert_all_accepted("liveness, graphs over four");
}

/// The same scene with its port connections in another order and some of them
/// twice, which changes nothing.
fn shuffled(scene: &Scene, random: &mut Random) -> Scene {
    let rows = scene.ports.chunks_exact(PORT_CONNECTION);
    let mut rows: Vec<&[i64]> = rows.collect();
    let again: Vec<&[i64]> = rows.iter().copied().filter(|_| random.once_in(4)).collect();
    if rows.len() + again.len() <= CONNECTIONS {
        rows.extend(again);
    }
    random.shuffle(&mut rows);
    Scene {
        ports: rows.concat(),
        ..scene.clone()
    }
}

#[test]
fn on_every_profile() {
    let mut alive = Alive::default();
    let seeds = Seeds {
        small: 1_500,
        large: 24,
    };
    runs::on_profiles(seeds, |scene, seed, case| {
        alive.call(&LivenessLists::of(scene), &case);
        let other = shuffled(scene, &mut Random::new(seed));
        alive.call(&LivenessLists::of(&other), &format!("{case} shuffled"));
    });
    alive.assert_all_accepted("liveness, profiles");
    assert!(alive.statuses().iter().all(|count| *count > 0));
    assert!(alive.source_kinds().iter().all(|count| *count > 0));
}

/// The scene with the connections that the Rust keeps, as in a sheet.
fn with_kept_connections(scene: &Scene) -> Scene {
    let kept = oracle::ports(&scene.components, &scene.connections);
    Scene {
        ports: kept.concat(),
        ..scene.clone()
    }
}

#[test]
fn on_kept_connections() {
    let mut alive = Alive::default();
    let seeds = Seeds {
        small: 1_000,
        large: 12,
    };
    runs::on_profiles(seeds, |scene, _, case| {
        alive.call(&LivenessLists::of(&with_kept_connections(scene)), &case);
    });
    alive.assert_all_accepted("liveness, kept connections");
}

#[test]
fn on_full_plots() {
    let mut alive = Alive::default();
    let sizes = [64, 256, COMPONENTS - 1, COMPONENTS];
    runs::on_plots(&sizes, 2, |scene, case| {
        alive.call(&LivenessLists::of(&with_kept_connections(scene)), &case);
    });
    alive.assert_all_accepted("liveness, full plots");
}

#[test]
fn on_a_small_stack() -> io::Result<()> {
    runs::within_one_mebibyte_of_stack(|| {
        let mut alive = Alive::default();
        alive.call(&LivenessLists::of(&Profile::Full.scene(0)), &"full plot");
        let scene = line(1_024, 0, true, true);
        alive.call(&LivenessLists::of(&scene), &"ring of 1,024");
        alive.assert_all_accepted("liveness, small stack");
    })
}

/// A line of components of one kind, each feeding the next; closed to a ring.
fn line(count: i64, kind: i64, ring: bool, rising: bool) -> Scene {
    let id = |k: i64| if rising { k } else { count - 1 - k };
    let component = |k: i64| [id(k), k, 0, 0, kind, 0, 0, 0];
    let last = if ring { count } else { count - 1 };
    Scene {
        components: (0..count).flat_map(component).collect(),
        ports: (0..last)
            .flat_map(|k| [id(k), 0, id((k + 1) % count), 1, 0])
            .collect(),
        ..Scene::default()
    }
}

/// Nothing recurses as deep as the plot, and support connections, even to ids
/// that no component has, make no edge.
#[test]
fn on_lines_and_rings() {
    let mut alive = Alive::default();
    for count in [1, 2, 3, 64, 1_023, 1_024] {
        for kind in [0, 1, 4, 9, 12] {
            for (ring, rising) in [(false, false), (false, true), (true, false), (true, true)] {
                let mut scene = line(count, kind, ring, rising);
                let case = format!("{count} of kind {kind}, ring {ring}, rising {rising}");
                alive.call(&LivenessLists::of(&scene), &case);
                scene.frontiers = vec![count / 2, 0, 0, count / 2, 0, 0, 5, 5, 5];
                alive.call(&LivenessLists::of(&scene), &format!("{case}, frontier"));
                scene.ports.extend([5_000_000, 0, 0, 9, SUPPORT]);
                scene.ports.extend([0, 0, 0, 255, SUPPORT]);
                alive.call(&LivenessLists::of(&scene), &format!("{case}, support"));
            }
        }
    }
    alive.assert_all_accepted("liveness, lines and rings");
}

/// A cleared block of a saved plot is refused at the connection that names it,
/// as its source, which the old report called a loop, and as its sink.
#[test]
fn a_cleared_block_is_refused_at_either_end() {
    let mut alive = Alive::default();
    let cleared = [[9, 0, 0, 0, 0], [9, 0, 1, 0, 0], [2, 0, 9, 0, 0]];
    for connection in cleared {
        let mut scene = line(3, 0, false, true);
        assert_eq!(scene.components.len(), 3 * COMPONENT);
        let before = scene.ports.len() / connection.len();
        scene.ports.extend(connection);
        let Scene {
            components,
            ports,
            frontiers,
            ..
        } = &scene;
        let said = liveness(RULES_OF_THE_RUST, components, ports, frontiers);
        let at = said.map_err(|it| (it.number, it.list, it.item)).map(|_| ());
        assert_eq!(at, Err((7, 1, before as u64)));
        alive.call(&LivenessLists::of(&scene), &"cleared block");
    }
    assert_eq!(alive.count_of(7), cleared.len() as u64);
}
