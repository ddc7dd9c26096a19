//! Ten million scenes for each kind of check, only on demand:
//!
//!     cargo test --offline --release -p checks --test scale -- --ignored --nocapture
//!
//! `SCALE_SCENES` is how many scenes instead, `SCALE_FROM` the place of the
//! first. A failing case prints its place, which repeats it alone.

use checks::scale::Run;
use checks::{Alive, ByteLists, Counted, Groups, LivenessLists, Ports, Tally};
use scenes::damage::{garbage, pair};
use scenes::limits::LAST_RULES;
use scenes::random::Random;
use scenes::{Lent, Scene};

#[test]
#[ignore = "ten million scenes"]
fn groups() {
    let mut groups = Groups::default();
    Run::asked_for().each("groups", |scene, _, case| {
        groups.call(&ByteLists::of(scene), &case);
    });
    groups.assert_all_accepted("groups");
}

#[test]
#[ignore = "ten million scenes"]
fn ports() {
    let mut ports = Ports::default();
    Run::asked_for().each("ports", |scene, _, case| {
        ports.call(scene, Lent::enough(scene).ports, &case);
    });
    ports.assert_all_accepted("ports");
}

/// The scene's own port connections, or those that are kept of its grouping
/// connections; one scene of four by rules 2 and 3 in turn. The input query is asked on one
/// scene of sixteen.
#[test]
#[ignore = "ten million scenes"]
fn liveness() {
    let mut alive = Alive::asking_every(16);
    Run::asked_for().each("liveness", |scene, seed, case| {
        let mut lists = LivenessLists::of(scene);
        if seed % 4 == 3 {
            lists.rules = 2 + i64::from(seed % 8 == 7);
        }
        if Random::new(seed).once_in(2) {
            let kept = oracle::ports(&scene.components, &scene.connections);
            lists.ports = scenes::bytes::of(kept.as_flattened());
        }
        alive.call(&lists, &case);
    });
    alive.assert_all_accepted("liveness");
}

/// The scene with two faults that compete, or one of any numbers.
fn damaged(scene: &Scene, random: &mut Random) -> Scene {
    let faults = if random.once_in(4) {
        None
    } else {
        pair(scene, random)
    };
    match faults {
        Some([first, second]) => second.apply(&first.apply(scene)),
        None => garbage(random),
    }
}

/// Every entry's refusal, now and then by rules that are not known; and what it
/// leaves of its slices.
#[test]
#[ignore = "ten million scenes"]
fn refusals() {
    let (mut tally, mut groups) = (Tally::default(), Groups::default());
    let (mut ports, mut alive) = (Ports::default(), Alive::asking_every(16));
    Run::asked_for().each("refusals", |scene, seed, case| {
        let random = &mut Random::new(seed);
        let scene = damaged(scene, random);
        let mut lent = Lent::enough(&scene);
        if random.once_in(8) {
            let variants = lent.variants();
            lent = variants[random.below(variants.len())];
        }
        let rules = [1, 2, LAST_RULES, LAST_RULES + 1][usize::try_from(seed % 4).unwrap_or(0)];
        tally.refusals_by(rules, &scene, &lent, &case);
        match random.below(3) {
            0 => groups.call(&ByteLists::of(&scene), &case),
            1 => ports.call(&scene, Lent::enough(&scene).ports, &case),
            _ => {
                let lists = LivenessLists::of(&scene);
                alive.call(&LivenessLists { rules, ..lists }, &case);
            }
        }
    });
    tally.assert_every_number_came_up("refusals");
    groups.print("refusals, groups");
    ports.print("refusals, ports");
    alive.print("refusals, liveness");
}
