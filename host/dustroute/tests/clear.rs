//! `dustroute_clear` and `clear` held to the request restated, and to
//! what is proved of what they leave: the liveness entry takes it, and cleared
//! again it stays as it is.

mod clearing;
#[expect(dead_code, reason = "the grouping connections have no part in it")]
mod typed;

use clearing::{Asked, Room};
use scenes::damage::{garbage, pair, single};
use scenes::limits::{CONNECTIONS, LAST_ID, PORT_CONNECTION, SUPPORT};
use scenes::random::Random;
use scenes::{Profile, Scene, exhaustive};

/// Components of these ids in a row.
fn row_of(ids: &[i64]) -> Vec<i64> {
    let places = (0..).zip(ids);
    places
        .flat_map(|(x, &id)| [id, x, 0, 0, 0, 0, 0, 0])
        .collect()
}

/// Every end of an id that is there or of one that is not, signal or support.
fn ends() -> Vec<[i64; PORT_CONNECTION]> {
    let ids = [0, 1, 7, LAST_ID];
    let pairs = ids.into_iter().flat_map(|a| ids.map(|b| (a, b)));
    pairs
        .flat_map(|(a, b)| [0, SUPPORT].map(|transfer| [a, 1, b, 2, transfer]))
        .collect()
}

/// Up to two components, and up to three connections of every kind of ends.
#[test]
fn all_small_scenes() {
    let mut asked = Asked::default();
    let mut lists = vec![Vec::new()];
    let mut last = lists.clone();
    for _ in 0..3 {
        let longer = last.iter().flat_map(|list: &Vec<i64>| {
            let rows = ends().into_iter();
            rows.map(move |row| [&list[..], &row[..]].concat())
        });
        last = longer.collect();
        lists.extend(last.iter().cloned());
    }
    for ids in [&[][..], &[0], &[1, 0], &[LAST_ID, 1]] {
        for ports in &lists {
            let scene = Scene {
                components: row_of(ids),
                ports: ports.clone(),
                ..Scene::default()
            };
            asked.hold_all(&scene, &|| format!("{ids:?}"));
        }
    }
    asked.assert_met("small scenes");
}

/// Lists of every combination of faults, whatever else is wrong with them.
#[test]
fn all_small_lists_good_and_bad() {
    let mut asked = Asked::default();
    for (place, scene) in exhaustive::lists().enumerate() {
        asked.hold_all(&scene, &|| format!("lists {place}"));
    }
    asked.assert_met("small lists, good and bad");
    // They are whole records, few of them.
    assert!(asked.refused[2..].iter().all(|count| *count > 0));
}

/// A scene in which about one end in `once` was dug away, some of them support.
fn dug(scene: &Scene, once: usize, random: &mut Random) -> Scene {
    let mut dug = scene.clone();
    for row in dug.ports.chunks_exact_mut(PORT_CONNECTION) {
        for end in [0, 2] {
            if random.once_in(once) {
                row[end] = random.between(0, LAST_ID);
            }
        }
        if random.once_in(9) {
            row[4] = SUPPORT;
        }
    }
    dug
}

#[test]
fn the_profiles_dug_up() {
    let mut asked = Asked::default();
    let mut random = Random::new(31);
    for profile in Profile::ALL {
        let seeds = if profile.is_large() { 6 } else { 1_200 };
        for seed in 70_000..70_000 + seeds {
            let scene = profile.scene(seed);
            let case = || format!("{} seed {seed}", profile.name());
            asked.hold_all(&scene, &case);
            for once in [1, 2, 9, 60] {
                asked.hold_all(&dug(&scene, once, &mut random), &case);
            }
        }
    }
    asked.assert_met("profiles dug up");
}

/// As many connections as there may be, with every end missing, with none, and
/// one more.
#[test]
fn full_lists() {
    let mut asked = Asked::default();
    let full = Profile::Full.scene(5);
    for ends in [[0, 1], [9, 1], [0, 9], [9, 9]] {
        for count in [CONNECTIONS, CONNECTIONS + 1] {
            let row = [ends[0], 0, ends[1], 0, 0];
            let scene = Scene {
                components: row_of(&[0, 1]),
                ports: row.repeat(count),
                frontiers: full.frontiers.clone(),
                ..Scene::default()
            };
            asked.hold_all(&scene, &|| format!("{ends:?}, {count} times"));
        }
    }
    asked.assert_met("full lists");
}

/// One fault and two at once, of lists that miss ends too: every other fault
/// comes before the missing ends.
#[test]
fn damaged_and_competing() {
    let mut asked = Asked::default();
    let mut random = Random::new(17);
    for profile in Profile::ALL.into_iter().filter(|it| !it.is_large()) {
        for seed in 60_000..60_012 {
            let scene = dug(&profile.scene(seed), 9, &mut random);
            for damage in single(&scene) {
                let case = || format!("{} seed {seed}, {damage:?}", profile.name());
                asked.hold_all(&damage.apply(&scene), &case);
            }
            for _ in 0..40 {
                if let Some([one, other]) = pair(&scene, &mut random) {
                    let case = || format!("{} seed {seed}, {one:?}, {other:?}", profile.name());
                    asked.hold_all(&other.apply(&one.apply(&scene)), &case);
                }
            }
        }
    }
    asked.assert_met("damaged");
    let [length, _, rest @ ..] = asked.refused;
    assert!(length > 50 && rest.iter().all(|count| *count > 50));
}

#[test]
fn lists_of_anything() {
    let mut asked = Asked::default();
    let mut random = Random::new(23);
    for turn in 0..60_000 {
        let scene = garbage(&mut random);
        asked.hold_all(&scene, &|| format!("turn {turn}"));
    }
    asked.assert_met("lists of anything");
}

/// Slices one short and one over, empty ones, and beside other faults.
#[test]
fn slices_of_other_lengths() {
    let mut asked = Asked::default();
    let mut random = Random::new(29);
    for profile in Profile::ALL.into_iter().filter(|it| !it.is_large()) {
        for seed in 80_000..80_040 {
            let scene = dug(&profile.scene(seed), 4, &mut random);
            let damage = pair(&scene, &mut random).map(|[one, _]| one.apply(&scene));
            for scene in [Some(scene), damage].into_iter().flatten() {
                for room in Room::enough(&scene).variants() {
                    let case = || format!("{} seed {seed}, {room:?}", profile.name());
                    asked.hold(&scene, room, &case);
                }
            }
        }
    }
    asked.assert_met("slices of other lengths");
    assert!(asked.refused[1] > 1_000);
}
