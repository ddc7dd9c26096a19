//! The restatement under the rules of either year, on all small plots with
//! lamps, on drawn ones and on every profile: by rules 1 it is the unchanged
//! Rust; by rules 2 it is the Rust on the same plot with a Solid in place of each
//! lamp; and what must be the same under both is.

use oracle::Liveness;
use scenes::limits::RULES_OF_THE_RUST;
use scenes::{Profile, Scene, lamps};

/// The rules by which lamps are passive.
const LATER: i64 = 2;

/// Not an input's own number.
const NO_KNOWN_SOURCE: i64 = 3;
const AWAITING: i64 = 1;

/// The kind of source that an inferred input is.
const INFERRED: i64 = 3;

fn restated(rules: i64, scene: &Scene) -> Liveness {
    paper::liveness(rules, &scene.components, &scene.ports, &scene.frontiers)
}

fn by_the_rust(scene: &Scene) -> Liveness {
    oracle::liveness(&scene.components, &scene.ports, &scene.frontiers)
}

/// What was met.
#[derive(Debug, Default)]
struct Met {
    scenes: u64,
    without_a_lamp: u64,
    /// Scenes that the two rules mark differently, and in what.
    different: u64,
    inferred_more: u64,
    potential_more: u64,
    await_now: u64,
}

/// The rows of drive sources, and those of inferred inputs.
fn parted(found: &Liveness) -> [Vec<[i64; 2]>; 2] {
    let rows = |inferred: bool| {
        let rows = found.sources.iter().copied();
        rows.filter(|row| (row[1] == INFERRED) == inferred)
            .collect()
    };
    [rows(false), rows(true)]
}

impl Met {
    fn hold(&mut self, scene: &Scene, case: &dyn Fn() -> String) {
        self.scenes += 1;
        let old = restated(RULES_OF_THE_RUST, scene);
        let new = restated(LATER, scene);
        assert_eq!(old, by_the_rust(scene), "{}{scene}", case());
        let solids = lamps::with_lamps_as(lamps::SOLID, scene);
        assert_eq!(new, by_the_rust(&solids), "{}{scene}", case());
        if lamps::holds_a_lamp(scene) {
            let without = lamps::with_lamps_as(lamps::AIR, scene);
            let [old, new] = [RULES_OF_THE_RUST, LATER].map(|rules| restated(rules, &without));
            assert_eq!(old, new, "without lamps, {}{without}", case());
        } else {
            self.without_a_lamp += 1;
            assert_eq!(old, new, "{}{scene}", case());
        }
        self.hold_same(&old, &new, &|| format!("{}{scene}", case()));
    }

    /// Drive, regions, drive sources and statuses 0 and 2 are the same; inferred
    /// inputs and what they would drive can only come to be more.
    fn hold_same(&mut self, old: &Liveness, new: &Liveness, case: &dyn Fn() -> String) {
        assert_eq!(old.region, new.region, "{}", case());
        assert_eq!(old.regions, new.regions, "{}", case());
        assert_eq!(old.drive, new.drive, "{}", case());
        let [[drive, inferred], [new_drive, new_inferred]] = [old, new].map(parted);
        assert_eq!(drive, new_drive, "{}", case());
        assert!(
            inferred.iter().all(|it| new_inferred.contains(it)),
            "{}",
            case()
        );
        assert!(
            old.potential.iter().all(|it| new.potential.contains(it)),
            "{}",
            case()
        );
        assert_eq!(old.inputs.len(), new.inputs.len(), "{}", case());
        for (before, after) in old.inputs.iter().zip(&new.inputs) {
            assert_eq!((before.device, before.port), (after.device, after.port));
            assert_eq!(before.immediate, after.immediate, "{}", case());
            if before.status != after.status {
                let change = (before.status, after.status);
                assert_eq!(change, (NO_KNOWN_SOURCE, AWAITING), "{}", case());
                self.await_now += 1;
            }
        }
        self.different += u64::from(old != new);
        self.inferred_more += (new_inferred.len() - inferred.len()) as u64;
        self.potential_more += (new.potential.len() - old.potential.len()) as u64;
    }

    fn assert_met(&self, title: &str) {
        println!("{title}: {self:?}");
        for count in [
            self.without_a_lamp,
            self.different,
            self.inferred_more,
            self.potential_more,
            self.await_now,
        ] {
            assert!(count > 10, "{title}");
        }
    }
}

#[test]
fn on_every_small_plot_with_lamps() {
    let mut met = Met::default();
    for (place, scene) in lamps::plots().enumerate() {
        met.hold(&scene, &|| format!("plot {place}"));
    }
    met.assert_met("rules, small plots");
}

#[test]
fn on_drawn_plots_with_lamps() {
    let mut met = Met::default();
    for seed in 0..100_000 {
        met.hold(&lamps::scene(seed), &|| format!("lamps seed {seed}"));
    }
    met.assert_met("rules, drawn plots");
}

#[test]
fn on_every_profile() {
    let mut met = Met::default();
    for profile in Profile::ALL {
        let seeds = if profile.is_large() { 6 } else { 1_000 };
        for seed in 60_000..60_000 + seeds {
            met.hold(&profile.scene(seed), &|| {
                format!("{} seed {seed}", profile.name())
            });
        }
    }
    met.assert_met("rules, profiles");
}

/// The request's own words: "a wire fed only by a lamp may be an inferred input".
/// With a second feed that is no lamp it is none.
#[test]
fn a_wire_fed_only_by_a_lamp() {
    let blocks = [
        [1, 0, 0, 0, 11, 0, 0, 0],
        [2, 1, 0, 0, 0, 0, 0, 0],
        [3, 2, 0, 0, 1, 2, 0, 0],
    ];
    let fed = [[1, 0, 2, 1, 2], [2, 0, 3, 1, 4]];
    let found = |rules, ports: &[[i64; 5]]| {
        paper::liveness(rules, blocks.as_flattened(), ports.as_flattened(), &[])
    };
    let [old, new] = [1, 2].map(|rules| found(rules, &fed));
    assert_eq!(
        (old.sources.as_slice(), old.inputs[0].status),
        (&[][..], NO_KNOWN_SOURCE)
    );
    assert_eq!(
        (new.sources.as_slice(), new.inputs[0].status),
        (&[[2, INFERRED]][..], AWAITING)
    );
    assert_eq!(new.inputs[0].inferred, [2]);
    let [one, other] = fed;
    let from_the_repeater = [3, 0, 2, 1, 0];
    let both = found(2, &[one, from_the_repeater]);
    assert_eq!(both.sources, [[0; 2]; 0]);
    assert_eq!(found(2, &[one, other]), new);
}
