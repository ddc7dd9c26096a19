//! The liveness entry and the input query under rules 1 and 2:
//! by rules 1 the unchanged Rust, by rules 2 the restatement, on all small plots
//! with lamps, on drawn ones and on every profile; and what the rules must leave
//! as it is.

use checks::runs::{self, Seeds};
use checks::{Alive, Counted, LivenessLists};
use probe::capi::{self, Liveness, liveness};
use probe::ports::port_connections;
use scenes::limits::{PASSIVE_LAMPS, RULES_OF_THE_RUST};
use scenes::{Lent, Scene, bytes, lamps};

fn by(rules: i64, scene: &Scene) -> LivenessLists {
    LivenessLists {
        rules,
        ..LivenessLists::of(scene)
    }
}

fn on_small_plots(rules: i64) {
    let mut alive = Alive::default();
    for (place, scene) in lamps::plots().enumerate() {
        alive.call(&by(rules, &scene), &format!("plot {place}"));
    }
    alive.assert_all_accepted(&format!("rules {rules}, small plots with lamps"));
    assert!(alive.statuses().iter().all(|count| *count > 0));
}

#[test]
fn every_small_plot_by_rules_1() {
    on_small_plots(1);
}

#[test]
fn every_small_plot_by_rules_2() {
    on_small_plots(2);
}

/// The input query is asked on one of four.
fn on_drawn_plots(rules: i64) {
    let mut alive = Alive::asking_every(4);
    for seed in 0..150_000 {
        let case = format!("lamps seed {seed}");
        alive.call(&by(rules, &lamps::scene(seed)), &case);
    }
    alive.assert_all_accepted(&format!("rules {rules}, drawn plots with lamps"));
    assert!(alive.statuses().iter().all(|count| *count > 0));
    assert!(alive.source_kinds().iter().all(|count| *count > 0));
}

#[test]
fn drawn_plots_by_rules_1() {
    on_drawn_plots(1);
}

#[test]
fn drawn_plots_by_rules_2() {
    on_drawn_plots(2);
}

#[test]
fn every_profile_by_rules_2() {
    let mut alive = Alive::asking_every(2);
    let seeds = Seeds {
        small: 1_000,
        large: 12,
    };
    runs::on_profiles(seeds, |scene, _, case| {
        alive.call(&by(2, scene), &case);
        let kept = oracle::ports(&scene.components, &scene.connections);
        let mut sheet = by(2, scene);
        sheet.ports = bytes::of(kept.as_flattened());
        alive.call(&sheet, &format!("{case}, kept connections"));
    });
    alive.assert_all_accepted("rules 2, profiles");
}

/// What was met by comparing the answers under both rules.
#[derive(Debug, Default)]
struct Met {
    scenes: u64,
    without_a_lamp: u64,
    different: u64,
    rows: u64,
    rows_that_differ: u64,
}

/// The kind of source that an inferred input is.
const INFERRED: u64 = 3;

fn answer(rules: i64, scene: &Scene, case: &str) -> Liveness {
    let (components, ports) = (&scene.components, &scene.ports);
    match liveness(rules, components, ports, &scene.frontiers) {
        Ok(found) => found,
        Err(refusal) => panic!("{case}: {refusal:?}{scene}"),
    }
}

fn drive_sources(found: &Liveness) -> Vec<[u64; 2]> {
    let rows = found.sources.iter().copied();
    rows.filter(|row| row[1] != INFERRED).collect()
}

impl Met {
    /// Without a lamp both answers are equal. On any scene regions, drive, drive
    /// sources and what holds them are, and every status but 1 and 3. By rules 2
    /// a lamp is a Solid to all that the entry answers.
    fn hold(&mut self, scene: &Scene, case: &str) {
        let old = answer(RULES_OF_THE_RUST, scene, case);
        let new = answer(PASSIVE_LAMPS, scene, case);
        let case = format!("{case}{scene}");
        if lamps::holds_a_lamp(scene) {
            let solids = lamps::with_lamps_as(lamps::SOLID, scene);
            assert_eq!(new, answer(RULES_OF_THE_RUST, &solids, &case), "{case}");
        } else {
            assert_eq!(old, new, "{case}");
            self.without_a_lamp += 1;
        }
        assert_eq!(old.region_count, new.region_count, "{case}");
        assert_eq!(old.regions, new.regions, "{case}");
        assert_eq!(old.drive, new.drive, "{case}");
        assert_eq!(old.cyclic, new.cyclic, "{case}");
        assert_eq!(old.has_drive, new.has_drive, "{case}");
        assert_eq!(drive_sources(&old), drive_sources(&new), "{case}");
        assert_eq!(old.inputs.len(), new.inputs.len(), "{case}");
        for ([device, port, before], [other, sink, after]) in old.inputs.iter().zip(&new.inputs) {
            assert_eq!((device, port), (other, sink), "{case}");
            assert!(before == after || (*before, *after) == (3, 1), "{case}");
            self.rows += 1;
            self.rows_that_differ += u64::from(before != after);
        }
        self.scenes += 1;
        self.different += u64::from(old != new);
    }

    fn assert_met(&self, title: &str) {
        println!("{title}: {self:?}");
        for count in [self.without_a_lamp, self.different, self.rows_that_differ] {
            assert!(count > 10, "{title}");
        }
    }
}

#[test]
fn what_does_not_depend_on_the_rules() {
    let mut met = Met::default();
    for (place, scene) in lamps::plots().enumerate() {
        met.hold(&scene, &format!("plot {place}"));
    }
    for seed in 200_000..350_000 {
        met.hold(&lamps::scene(seed), &format!("lamps seed {seed}"));
    }
    met.assert_met("both rules, plots with lamps");
    let mut met = Met::default();
    let seeds = Seeds {
        small: 1_500,
        large: 12,
    };
    runs::on_profiles(seeds, |scene, _, case| met.hold(scene, case));
    met.assert_met("both rules, profiles");
}

/// The groups of a scene, packed, and the rows of its ports.
fn grouped(rules: i64, scene: &Scene, case: &str) -> (capi::Counts, [Vec<u8>; 2], Vec<i64>) {
    let lent = Lent::enough(scene);
    let mut nets = vec![0; lent.nets * bytes::NUMBER];
    let mut fragments = nets.clone();
    let [components, connections] =
        [&scene.components, &scene.connections].map(|list| bytes::of(list));
    let counts = capi::groups(rules, &components, &connections, &mut nets, &mut fragments);
    let mut rows = vec![0; lent.ports];
    let kept = port_connections(rules, &scene.components, &scene.connections, &mut rows);
    match (counts, kept) {
        (Ok(counts), Ok(_)) => (counts, [nets, fragments], rows),
        refused => panic!("{case}: {refused:?}{scene}"),
    }
}

/// Groups and ports are the same under both rules.
#[test]
fn groups_and_ports_do_not_depend_on_the_rules() {
    let mut count = 0;
    let seeds = Seeds {
        small: 1_500,
        large: 20,
    };
    let mut hold = |scene: &Scene, case: &str| {
        let [old, new] = [1, 2].map(|rules| grouped(rules, scene, case));
        assert_eq!(old, new, "{case}{scene}");
        count += 1;
    };
    runs::on_small_scenes(&mut hold);
    runs::on_profiles(seeds, |scene, _, case| hold(scene, case));
    println!("groups and ports under both rules: {count} scenes");
}
