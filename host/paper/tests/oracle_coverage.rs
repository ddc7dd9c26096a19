//! The generated scenes reach every answer that the rules can give.

use std::collections::BTreeMap;

use oracle::Liveness;
use scenes::{Profile, Scene};

/// How often each answer came up, by name and value.
type Counts = BTreeMap<(&'static str, i64), u64>;

fn count(counts: &mut Counts, name: &'static str, value: i64) {
    *counts.entry((name, value)).or_default() += 1;
}

fn count_analysis(counts: &mut Counts, answer: &Liveness) {
    for source in &answer.sources {
        count(counts, "source kind", source[1]);
    }
    for input in &answer.inputs {
        count(counts, "status", input.status);
        count(counts, "inferred", i64::from(!input.inferred.is_empty()));
        let many = input.immediate.len() > 1;
        count(counts, "many immediate", i64::from(many));
    }
    for region in &answer.regions {
        count(counts, "cyclic", i64::from(region.cyclic));
        let alone = region.cyclic && region.members.len() == 1;
        count(counts, "own loop", i64::from(alone));
        let has_drive = region.contains_drive_source;
        count(counts, "has drive", i64::from(has_drive));
    }
    let only_potential = answer.potential.len() > answer.drive.len();
    count(counts, "only potential", i64::from(only_potential));
}

fn count_scene(counts: &mut Counts, scene: &Scene) {
    let groups = oracle::groups(&scene.components, &scene.connections);
    for nets in &groups.fragment_nets {
        count(counts, "many nets", i64::from(nets.len() > 1));
    }
    let kept = oracle::ports(&scene.components, &scene.connections);
    for row in &kept {
        count(counts, "source port", row[1]);
        count(counts, "sink port", row[3]);
        count(counts, "transfer", row[4]);
    }
    for ports in [&kept.concat(), &scene.ports] {
        let answer = oracle::liveness(&scene.components, ports, &scene.frontiers);
        count_analysis(counts, &answer);
    }
}

#[test]
fn every_answer_comes_up() {
    let mut counts = Counts::new();
    for profile in Profile::ALL {
        let seeds = if profile.is_large() { 3 } else { 300 };
        for seed in 0..seeds {
            count_scene(&mut counts, &profile.scene(seed));
        }
    }
    println!("{counts:?}");
    for (name, values) in [
        ("source kind", 0..=3),
        ("status", 0..=3),
        ("inferred", 0..=1),
        ("many immediate", 0..=1),
        ("cyclic", 0..=1),
        ("own loop", 0..=1),
        ("has drive", 0..=1),
        ("only potential", 0..=1),
        ("many nets", 0..=1),
        ("source port", 0..=5),
        ("sink port", 0..=5),
        ("transfer", 0..=5),
    ] {
        for value in values {
            assert!(counts.contains_key(&(name, value)), "{name} {value}");
        }
    }
    assert!(!counts.contains_key(&("transfer", 6)), "support is dropped");
}
