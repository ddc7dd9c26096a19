//! The way from a lever held to the request restated: on lists of numbers
//! as a host lends them, and through the typed functions.

mod trails;
#[expect(dead_code, reason = "the grouping connections have no part in it")]
mod typed;

use dustroute::{ComponentId, PortRef, check_trail, liveness, trail};
use scenes::damage::{garbage, pair, single};
use scenes::random::Random;
use scenes::{Profile, Scene, exhaustive};
use trails::{DIRT, NOT_DRIVEN, Plot, RULES, Runs, check, find, number, of, refusal_of_driven};
use typed::Lists;

#[test]
fn every_trail_of_the_profiles() {
    let mut runs = Runs::default();
    for profile in Profile::ALL {
        let seeds = if profile.is_large() { 2 } else { 1_000 };
        for seed in 70_000..70_000 + seeds {
            let case = format!("{} seed {seed}", profile.name());
            let most = if profile.is_large() { 4 } else { 20 };
            runs.hold(&profile.scene(seed), &mut Random::new(seed), most, &case);
        }
    }
    runs.told("profiles");
}

#[test]
fn every_trail_of_the_small_scenes() {
    let mut runs = Runs::default();
    let mut random = Random::new(19);
    for (place, scene) in exhaustive::scenes().enumerate() {
        runs.hold(&scene, &mut random, 40, &format!("scene {place}"));
    }
    runs.told("small scenes");
}

/// A repeater and one or two more blocks, each a lever or a wire: all graphs,
/// and of each every list of up to three ids, with the least of the shortest of
/// those that are a trail.
#[test]
fn every_list_of_the_small_graphs() {
    let mut runs = Runs::default();
    for ids in [&[7, 3][..], &[7, 3, 5], &[4, 5, 3]] {
        let count = ids.len();
        for kinds in 0..1 << (count - 1) {
            for edges in 0..1 << (count * count) {
                let scene = graph(ids, kinds, edges);
                let case = format!("{ids:?}, kinds {kinds}, edges {edges}");
                hold_all(&mut runs, &scene, ids, &case);
            }
        }
    }
    runs.told("small graphs");
}

/// A repeater and three more blocks: all graphs without a connection from a
/// block to itself, and the least of the shortest trails from a listing of all
/// lists of up to three ids of the three.
#[test]
fn every_trail_of_the_graphs_of_four() {
    let mut runs = Runs::default();
    let ids = [6, 9, 2, 5];
    for kinds in 0..8 {
        for chosen in 0..1 << 12 {
            let mut pairs = (0..16).filter(|pair| pair / 4 != pair % 4);
            let edges = (0..12).fold(0, |edges, place| {
                let pair = pairs.next().unwrap_or_default();
                edges | (chosen >> place & 1) << pair
            });
            let scene = graph(&ids, kinds, edges);
            let case = format!("four, kinds {kinds}, edges {edges}");
            let lists = Plot::lists(&ids[1..], 3);
            hold_least(&mut runs, &scene, &ids, &lists, &case);
        }
    }
    println!(
        "graphs of four: {} trails found, of up to {} ids, {} inputs not driven",
        runs.found, runs.longest, runs.not_driven
    );
    assert!(runs.found > 10_000 && runs.not_driven > 10_000);
}

/// Every list of up to three ids.
fn hold_all(runs: &mut Runs, scene: &Scene, ids: &[u64], case: &str) {
    let lists = Plot::lists(ids, 3);
    let plot = hold_least(runs, scene, ids, &lists, case);
    let input = PortRef::new(ComponentId(ids[0] as u32), 1);
    for list in &lists {
        let wanted = plot.is_trail(input, list);
        runs.hold_check(scene, of(input), list, wanted, case);
    }
}

/// The finder's answer is the least of the shortest of the lists that are a
/// trail.
fn hold_least(runs: &mut Runs, scene: &Scene, ids: &[u64], lists: &[Vec<u64>], case: &str) -> Plot {
    let Some(typed) = Lists::of(scene) else {
        panic!("{case} cannot be typed");
    };
    let Ok(whole) = liveness(RULES, &typed.components, &typed.ports, &typed.frontiers) else {
        panic!("{case} is refused");
    };
    let plot = Plot::of(&typed.ports, &whole);
    let input = PortRef::new(ComponentId(ids[0] as u32), 1);
    let trails = lists.iter().filter(|list| plot.is_trail(input, list));
    let least = trails.min_by_key(|list| (list.len(), (*list).clone()));
    let wanted = least.map(Vec::as_slice).ok_or(NOT_DRIVEN);
    runs.hold_finder(scene, of(input), wanted, case);
    plot
}

/// The first block is a repeater, the others are levers or wires; its edges lead
/// to port 1, one from the block to itself included.
fn graph(ids: &[u64], kinds: usize, edges: usize) -> Scene {
    let mut scene = Scene::default();
    for (place, &id) in ids.iter().enumerate() {
        let kind = match place {
            0 => 1,
            _ => [0, 4][kinds >> (place - 1) & 1],
        };
        scene
            .components
            .extend([id as i64, place as i64, 0, 0, kind, 2, 0, 0]);
    }
    for (source, &from) in ids.iter().enumerate() {
        for (sink, &to) in ids.iter().enumerate() {
            if edges >> (source * ids.len() + sink) & 1 == 1 {
                scene.ports.extend([from as i64, 1, to as i64, 1, 1]);
            }
        }
    }
    scene
}

/// One fault and two at once: the refusal is that of the question of one input,
/// with the trail's list in 2.
#[test]
fn damaged_scenes_are_refused_alike() {
    let mut runs = Runs::default();
    let mut random = Random::new(23);
    for profile in Profile::ALL.into_iter().filter(|it| !it.is_large()) {
        for seed in 80_000..80_010 {
            let scene = profile.scene(seed);
            for damage in single(&scene) {
                let case = format!("{} seed {seed}, {damage:?}", profile.name());
                runs.hold(&damage.apply(&scene), &mut random, 4, &case);
            }
            if let Some([one, other]) = pair(&scene, &mut random) {
                let case = format!("{} seed {seed}, {one:?}, {other:?}", profile.name());
                runs.hold(&other.apply(&one.apply(&scene)), &mut random, 4, &case);
            }
        }
    }
    for place in 0..2_000 {
        let scene = garbage(&mut random);
        if refusal_of_driven(&scene, [1, 1]) & 0xff != 0 {
            runs.hold_refusal(&scene, [1, 1], &format!("garbage {place}"));
        }
    }
    runs.told("damaged");
    assert!(runs.refused > 1_000);
}

/// A row of a lever, as many wires as there may be and a repeater, four
/// connections from each to the next: the longest trail there is, in a thread
/// with 1 MiB of stack.
#[test]
fn the_longest_trail() {
    let count: usize = 1_024;
    let mut scene = Scene::default();
    for place in 0..count as i64 {
        let kind = match place {
            0 => 4,
            1_023 => 1,
            _ => 0,
        };
        let id = 5_000 - 3 * place;
        scene.components.extend([id, place, 0, 0, kind, 2, 0, 0]);
        let times = if place < 1_023 { 4 } else { 0 };
        for _ in 0..times {
            scene.ports.extend([id, 1, id - 3, 1, 1]);
        }
    }
    let wanted: Vec<u64> = (0..1_023).map(|place| 5_000 - 3 * place).collect();
    let asked = [5_000 - 3 * 1_023, 1];
    let call = move || {
        let mut ids = vec![DIRT; count];
        let answer = find(&scene, asked, &mut ids);
        let checked = check(&scene, asked, &wanted);
        (
            answer,
            ids.get(..1_023) == Some(&wanted[..]),
            ids.last().copied(),
            checked,
        )
    };
    let thread = std::thread::Builder::new().stack_size(1 << 20).spawn(call);
    let found = thread.map(std::thread::JoinHandle::join);
    assert!(
        matches!(found, Ok(Ok((67_043_328, true, Some(DIRT), 65_536)))),
        "{found:?}"
    );
}

/// The typed functions hand on what the calls on numbers answer.
#[test]
fn typed_trails_are_the_same() {
    let mut same = 0;
    for profile in Profile::ALL {
        for seed in 90_000..90_010 {
            let scene = profile.scene(seed);
            let Some(lists) = Lists::of(&scene) else {
                panic!("{} seed {seed} cannot be typed", profile.name());
            };
            let Lists {
                components,
                ports,
                frontiers,
                ..
            } = &lists;
            let Ok(whole) = liveness(RULES, components, ports, frontiers) else {
                panic!("{} seed {seed} is refused", profile.name());
            };
            for row in whole.inputs.iter().take(10) {
                let mut ids = vec![DIRT; components.len()];
                let answer = find(&scene, of(row.input), &mut ids);
                let found = trail(RULES, components, ports, frontiers, row.input);
                match found {
                    Err(refusal) => {
                        assert_eq!(u64::from(refusal.reason.number()) + 256 * 3, answer)
                    }
                    Ok(way) => {
                        let numbers: Vec<u64> = way.iter().copied().map(number).collect();
                        assert_eq!(answer, 65_536 * way.len() as u64);
                        assert_eq!(ids.get(..way.len()), Some(numbers.as_slice()));
                        let checked =
                            check_trail(RULES, components, ports, frontiers, row.input, &way);
                        assert_eq!(checked, Ok(true));
                    }
                }
                same += 1;
            }
        }
    }
    println!("typed: {same} inputs");
    assert!(same > 100);
}
