//! Every generated scene is valid, and the profiles reach what they promise.

use scenes::limits::{
    COMPONENT, COMPONENTS, CONNECTION, CONNECTIONS, FRONTIER, FRONTIERS, LAST_RULES,
};
use scenes::{Lent, Profile, Scene, blanks, exhaustive, lamps, refusals};

fn assert_valid(scene: &Scene, name: &str, seed: u64) {
    let lent = Lent::enough(scene);
    let Scene {
        components,
        connections,
        ports,
        frontiers,
    } = scene;
    let grouping = refusals::grouping(
        LAST_RULES,
        components,
        connections,
        lent.nets,
        lent.fragments,
    );
    let liveness = refusals::liveness(LAST_RULES, components, ports, frontiers, &lent);
    assert!(
        grouping.is_none() && liveness.is_none(),
        "{name} seed {seed}: {grouping:?} {liveness:?}{scene}"
    );
}

#[test]
fn every_profile_gives_valid_scenes() {
    for profile in Profile::ALL {
        let seeds = if profile.is_large() { 20 } else { 3_000 };
        let mut numbers = 0;
        for seed in 0..seeds {
            let scene = profile.scene(seed);
            numbers += scene.components.len() / COMPONENT;
            assert_valid(&scene, profile.name(), seed);
        }
        println!("{}: {seeds} scenes, {numbers} components", profile.name());
    }
}

#[test]
fn a_seed_gives_one_scene() {
    for profile in Profile::ALL {
        assert_eq!(profile.scene(7), profile.scene(7));
        assert_ne!(profile.scene(7), profile.scene(8), "{}", profile.name());
    }
}

#[test]
fn tiny_scenes_are_valid_and_different() {
    let mut count = 0;
    let mut last = None;
    for scene in exhaustive::scenes() {
        assert_valid(&scene, "exhaustive", count);
        assert_ne!(last.as_ref(), Some(&scene));
        last = Some(scene);
        count += 1;
    }
    println!("{count} tiny scenes");
    assert_eq!(count, 93_536);
}

#[test]
fn plots_with_lamps_are_valid_and_different() {
    let (mut count, mut last) = (0, None);
    for scene in lamps::plots() {
        assert_valid(&scene, "plot with lamps", count);
        assert_ne!(last.as_ref(), Some(&scene));
        last = Some(scene);
        count += 1;
    }
    println!("{count} small plots with lamps");
    assert_eq!(count, 1 + 10 + 2 * 400 + 3 * 64_000);
    let mut with = 0_u64;
    for seed in 0..20_000 {
        let scene = lamps::scene(seed);
        assert_valid(&scene, "drawn plot with lamps", seed);
        with += u64::from(lamps::holds_a_lamp(&scene));
        let without = lamps::with_lamps_as(lamps::AIR, &scene);
        assert!(!lamps::holds_a_lamp(&without));
        assert_valid(&without, "drawn plot without lamps", seed);
    }
    println!("{with} of 20000 drawn plots hold a lamp");
    assert!(with > 14_000);
}

#[test]
fn full_scenes_are_full() {
    let scene = Profile::Full.scene(1);
    assert_eq!(scene.components.len(), COMPONENTS * COMPONENT);
    assert_eq!(scene.connections.len(), CONNECTIONS * CONNECTION);
    assert_eq!(scene.frontiers.len(), FRONTIERS * FRONTIER);
    let sizes: Vec<usize> = (0..40)
        .map(|seed| Profile::DeepMerge.scene(seed).components.len() / COMPONENT)
        .collect();
    assert!(sizes.contains(&COMPONENTS));
}

#[test]
fn plots_with_blank_facings_are_valid() {
    let (mut count, mut with) = (0, 0_u64);
    for scene in blanks::pairs() {
        assert_valid(&scene, "pair", count);
        with += u64::from(blanks::holds_a_blank(&scene));
        count += 1;
    }
    println!("{count} pairs, {with} with a device that nobody saw");
    assert_eq!(count, 3 * 7 * (10 + 3 * 7) * 7 * 2);
    let mut drawn = 0_u64;
    for seed in 0..20_000 {
        let scene = blanks::scene(seed);
        assert_valid(&scene, "drawn plot with blank facings", seed);
        drawn += u64::from(blanks::holds_a_blank(&scene));
        let seen = blanks::with_blanks_as(4, &scene);
        assert!(!blanks::holds_a_blank(&seen));
    }
    assert!(with > 1_000 && drawn > 10_000);
}
