//! The unchanged Rust against the scope paper's rules, on accepted scenes.

use scenes::limits::{COMPONENT, LAST_FACE, LAST_KIND, RULES_OF_THE_RUST};
use scenes::random::Random;
use scenes::{Profile, Scene, exhaustive};

/// Compares every answer of a scene; `case` is printed where they differ.
fn hold(scene: &Scene, case: &str) {
    let (list, connections) = (&scene.components, &scene.connections);
    let groups = oracle::groups(list, connections);
    assert_eq!(groups, paper::groups(list, connections), "{case}{scene}");
    assert_eq!(
        oracle::ports_of(list),
        paper::ports_of(RULES_OF_THE_RUST, list),
        "{case}{scene}"
    );
    let kept = oracle::ports(list, connections);
    assert_eq!(
        kept,
        paper::ports(RULES_OF_THE_RUST, list, connections),
        "{case}{scene}"
    );
    for ports in [&scene.ports, &kept.concat()] {
        let wanted = paper::liveness(RULES_OF_THE_RUST, list, ports, &scene.frontiers);
        let given = oracle::liveness(list, ports, &scene.frontiers);
        assert_eq!(given, wanted, "{case}{scene}\n  analysed {ports:?}");
    }
}

#[test]
fn small_scenes_agree() {
    let mut count = 0;
    for scene in exhaustive::scenes() {
        hold(&scene, &format!("small scene {count}"));
        count += 1;
    }
    println!("{count} small scenes agree");
}

#[test]
fn every_profile_agrees() {
    for profile in Profile::ALL {
        let seeds = if profile.is_large() { 12 } else { 1_500 };
        for seed in 0..seeds {
            let case = format!("{} seed {seed}", profile.name());
            hold(&profile.scene(seed), &case);
        }
        println!("{}: {seeds} scenes agree", profile.name());
    }
}

/// Every kind with every facing, support and conducts has the same ports.
#[test]
fn every_block_has_the_ports_of_the_paper() {
    let mut count = 0;
    for kind in 0..=LAST_KIND {
        for facing in 0..=LAST_FACE {
            for support in 0..=LAST_FACE {
                for conducts in 0..=1 {
                    let block = [0, 0, 0, 0, kind, facing, support, conducts];
                    assert_eq!(
                        oracle::ports_of(&block),
                        paper::ports_of(RULES_OF_THE_RUST, &block)
                    );
                    count += 1;
                }
            }
        }
    }
    println!("{count} blocks agree");
}

/// Two blocks of every kind, every step from -2 to 2, every kind of connection.
#[test]
fn every_step_between_two_blocks_agrees() {
    let random = &mut Random::new(1);
    let mut count = 0;
    for step in 0..125 {
        let step = [step / 25 - 2, step / 5 % 5 - 2, step % 5 - 2];
        for kinds in 0..13 * 13 {
            let kinds = [kinds % 13, kinds / 13];
            for kind in 0..10 {
                let scene = two_blocks(step, kinds, kind, random);
                let given = oracle::ports(&scene.components, &scene.connections);
                let wanted = paper::ports(RULES_OF_THE_RUST, &scene.components, &scene.connections);
                assert_eq!(given, wanted, "step {step:?}{scene}");
                count += 1;
            }
        }
    }
    println!("{count} steps agree");
}

fn two_blocks(step: [i64; 3], kinds: [i64; 2], kind: i64, random: &mut Random) -> Scene {
    let mut face = || random.between(0, LAST_FACE);
    let blocks = [[0; 3], step].map(|[x, y, z]| [x, y, z, face(), face()]);
    let mut records: Vec<[i64; COMPONENT]> = (0..)
        .zip(blocks.iter().zip(kinds))
        .map(|(id, (&[x, y, z, facing, support], kind))| [id, x, y, z, kind, facing, support, 1])
        .collect();
    records.sort_unstable_by_key(|&[id, x, y, z, ..]| [x, y, z, id]);
    Scene {
        components: records.concat(),
        connections: vec![0, 1, kind],
        ..Scene::default()
    }
}
