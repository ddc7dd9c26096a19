//! Typed calls by rules 1 against the unchanged Rust on generated scenes, and
//! against the restated table of refusals on damaged ones.

mod answers;
mod typed;

use answers::{hold_liveness, signed};
use dustroute::{Groups, List, Place, Refusal, Rules, SignalSourceKind, groups, liveness};
use scenes::damage::{pair, single};
use scenes::random::Random;
use scenes::sized::Shape;
use scenes::{Lent, Profile, Scene, exhaustive, refusals};
use typed::Lists;

/// A scene with the words that name it.
type Named = (Scene, String);

/// Scenes of every profile, every eleventh small scene, and large plots.
fn accepted() -> impl Iterator<Item = Named> {
    let drawn = Profile::ALL.into_iter().flat_map(|profile| {
        let count = if profile.is_large() { 12 } else { 400 };
        let seeds = 20_000..20_000 + count;
        seeds.map(move |seed| {
            let case = format!("{} seed {seed}", profile.name());
            (profile.scene(seed), case)
        })
    });
    let small = exhaustive::scenes().enumerate().step_by(11);
    let small = small.map(|(place, scene)| (scene, format!("small scene {place}")));
    let plots = Shape::ALL.into_iter().flat_map(|shape| {
        [8, 256, 1_023, 1_024].map(|size| {
            let case = format!("{} of {size}", shape.name());
            (shape.scene(size, 5), case)
        })
    });
    drawn.chain(small).chain(plots)
}

fn hold_groups(given: &Groups, wanted: &oracle::Groups, case: &str) {
    let each = given.components.iter();
    assert_eq!(signed(each.clone().map(|it| it.net)), wanted.net, "{case}");
    let fragments = signed(each.clone().map(|it| it.fragment));
    assert_eq!(fragments, wanted.fragment, "{case}");
    let counts = [given.net_count, given.fragment_count];
    assert_eq!(counts, [wanted.net_count, wanted.fragment_count], "{case}");
    let nets = given.fragment_nets();
    let nets: Vec<Vec<i64>> = nets.iter().map(|it| signed(it.iter().copied())).collect();
    assert_eq!(nets, wanted.fragment_nets, "{case}");
    for sets in [given.nets(), given.fragments()] {
        assert!(sets.iter().all(|set| !set.is_empty()), "{case}");
        let members: usize = sets.iter().map(|set| set.len()).sum();
        assert_eq!(members, given.components.len(), "{case}");
    }
    let (nets, fragments) = (given.nets(), given.fragments());
    let lies = |it: &dustroute::ComponentGroups| {
        nets[it.net].contains(&it.id) && fragments[it.fragment].contains(&it.id)
    };
    assert!(each.clone().all(lies), "{case}");
}

#[test]
fn groups_are_those_of_the_rust() {
    let mut count = 0;
    for (scene, case) in accepted() {
        let Some(lists) = Lists::of(&scene) else {
            panic!("{case} cannot be typed");
        };
        match groups(Rules::One, &lists.components, &lists.connections) {
            Ok(given) => {
                let wanted = oracle::groups(&scene.components, &scene.connections);
                hold_groups(&given, &wanted, &case);
            }
            Err(refusal) => panic!("{case}: {refusal}"),
        }
        count += 1;
    }
    println!("typed groups: {count} scenes");
    assert!(count > 12_000);
}

#[test]
fn liveness_is_that_of_the_rust() {
    let (mut count, mut by_status, mut by_source) = (0, [0; 4], [0; 4]);
    for (scene, case) in accepted() {
        let Some(lists) = Lists::of(&scene) else {
            panic!("{case} cannot be typed");
        };
        match liveness(
            Rules::One,
            &lists.components,
            &lists.ports,
            &lists.frontiers,
        ) {
            Ok(given) => {
                let Scene {
                    components,
                    ports,
                    frontiers,
                    ..
                } = &scene;
                let wanted = oracle::liveness(components, ports, frontiers);
                hold_liveness(&given, &wanted, &case);
                given
                    .inputs
                    .iter()
                    .for_each(|it| by_status[it.status as usize] += 1);
                given
                    .sources
                    .iter()
                    .for_each(|it| by_source[it.kind as usize] += 1);
            }
            Err(refusal) => panic!("{case}: {refusal}"),
        }
        count += 1;
    }
    println!("typed liveness: {count} scenes, statuses {by_status:?}, sources {by_source:?}");
    assert!(count > 12_000);
    assert!(by_status.iter().chain(&by_source).all(|count| *count > 0));
    assert_eq!(by_source.len(), SignalSourceKind::ALL.len());
}

/// Number, list and item, as the table has them.
fn plain(refusal: Refusal) -> [u64; 3] {
    let number = u64::from(refusal.reason.number());
    let Some(Place { list, item }) = refusal.place else {
        return [number, 3, 0];
    };
    let list = match list {
        List::Components => 0,
        List::Connections => 1,
        List::Frontiers => 2,
        List::Lines => 3,
    };
    [number, list, item as u64]
}

/// Both functions on a damaged scene, if the types can hold it. The slices
/// that are lent are always enough.
fn hold_refusals(scene: &Scene, by_number: &mut [u64; 8], case: &str) {
    let Some(lists) = Lists::of(scene) else {
        return;
    };
    let (rules, enough) = (Rules::One.number(), usize::MAX);
    let lent = Lent::all(enough);
    let Scene {
        components,
        connections,
        ports,
        frontiers,
    } = scene;
    let wanted = [
        refusals::grouping(rules, components, connections, enough, enough),
        refusals::liveness(rules, components, ports, frontiers, &lent),
    ];
    let given = [
        groups(Rules::One, &lists.components, &lists.connections).err(),
        liveness(
            Rules::One,
            &lists.components,
            &lists.ports,
            &lists.frontiers,
        )
        .err(),
    ];
    let wanted = wanted.map(|it| it.map(|it| [it.number, it.list, it.item]));
    let given = given.map(|it| it.map(plain));
    assert_eq!(given, wanted, "{case}{scene}");
    for refusal in given {
        let number = refusal.map_or(0, |[number, ..]| number);
        by_number[usize::try_from(number).unwrap_or(0)] += 1;
    }
}

/// 2 never comes up: what is lent is always enough.
#[test]
fn refusals_are_those_of_the_table() {
    let mut by_number = [0; 8];
    for profile in Profile::ALL {
        let seeds = if profile.is_large() { 2 } else { 40 };
        for seed in 30_000..30_000 + seeds {
            let (scene, random) = (profile.scene(seed), &mut Random::new(seed));
            let case = format!("{} seed {seed}", profile.name());
            for damage in single(&scene).into_iter().step_by(3) {
                let damaged = damage.apply(&scene);
                hold_refusals(&damaged, &mut by_number, &format!("{case} {damage:?}"));
            }
            for _ in 0..20 {
                if let Some([first, second]) = pair(&scene, random) {
                    let damaged = second.apply(&first.apply(&scene));
                    let case = format!("{case} {first:?} {second:?}");
                    hold_refusals(&damaged, &mut by_number, &case);
                }
            }
        }
    }
    println!("typed refusals by number: {by_number:?}");
    assert!([0, 1, 3, 4, 5, 6, 7].iter().all(|it| by_number[*it] > 0));
    assert_eq!(by_number[2], 0);
}
