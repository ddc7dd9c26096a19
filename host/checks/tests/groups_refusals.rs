//! Refusals of the proved grouping entry by bytes against the restatement, and
//! that a refusal writes nothing.

use checks::runs::{self, Seeds};
use checks::{ByteLists, Counted, Groups};
use scenes::damage::List;
use scenes::limits::{COMPONENT, CONNECTION};
use scenes::random::Random;
use scenes::{Profile, bytes, exhaustive};

/// Slices that are short now and then.
fn shorten(lists: &mut ByteLists, random: &mut Random) {
    if random.once_in(8) {
        lists.nets = random.below(lists.nets + 20);
    }
    if random.once_in(8) {
        lists.fragments = random.below(lists.fragments + 20);
    }
}

#[test]
fn of_nothing() {
    let mut groups = Groups::default();
    let empty = ByteLists::default();
    groups.call(&empty, &"all empty");
    let lists = ByteLists {
        connections: bytes::of(&[0, 1, 0, 1, 2, 3]),
        ..empty
    };
    groups.call(&lists, &"connections without components");
    assert_eq!(groups.count_of(0), 2);
}

#[test]
fn on_small_lists_in_every_combination() {
    let mut groups = Groups::default();
    let random = &mut Random::new(0);
    for (place, scene) in exhaustive::lists().enumerate().step_by(3) {
        let mut lists = ByteLists::of(&scene);
        groups.call(&lists, &format!("list {place}"));
        shorten(&mut lists, random);
        groups.call(&lists, &format!("list {place}, other slices"));
    }
    groups.print("groups, small lists");
    assert!((2..7).all(|number| groups.count_of(number) > 0));
}

#[test]
fn on_every_single_damage() {
    let mut groups = Groups::default();
    let seeds = Seeds {
        small: 16,
        large: 2,
    };
    let lists = [List::Components, List::Connections];
    runs::on_single_damage(seeds, &lists, |damaged, case| {
        groups.call(&ByteLists::of(damaged), &case);
    });
    groups.print("groups, single damage");
}

#[test]
fn on_two_faults_that_compete() {
    let mut groups = Groups::default();
    let seeds = Seeds {
        small: 1_000,
        large: 30,
    };
    runs::on_two_faults(seeds, |damaged, random, case| {
        let mut lists = ByteLists::of(damaged);
        shorten(&mut lists, random);
        groups.call(&lists, &case);
    });
    groups.assert_every_number_came_up("groups, two faults");
}

/// One of the two lists.
type Pick = fn(&mut ByteLists) -> &mut Vec<u8>;

/// Both lists, with the numbers to a record.
const BOTH: [(Pick, usize); 2] = [
    (|lists| &mut lists.components, COMPONENT),
    (|lists| &mut lists.connections, CONNECTION),
];

/// A copy with one list changed.
fn changed(whole: &ByteLists, list: Pick, change: impl Fn(&mut Vec<u8>)) -> ByteLists {
    let mut lists = whole.clone();
    change(list(&mut lists));
    lists
}

/// Lists cut at every byte of their last two records, and lengthened likewise.
#[test]
fn on_lists_of_every_length_in_bytes() {
    let mut groups = Groups::default();
    runs::on_profiles(Seeds { small: 4, large: 1 }, |scene, _, case| {
        let whole = ByteLists::of(scene);
        for (list, width) in BOTH {
            for bytes in 1..=2 * width * bytes::NUMBER {
                let case = format!("{case}, {bytes} bytes");
                let cut = |list: &mut Vec<u8>| {
                    list.truncate(list.len().saturating_sub(bytes));
                };
                groups.call(&changed(&whole, list, cut), &case);
                let lengthened = |list: &mut Vec<u8>| list.resize(list.len() + bytes, 7);
                groups.call(&changed(&whole, list, lengthened), &case);
            }
        }
    });
    groups.print("groups, lengths in bytes");
    assert!(groups.count_of(1) > 0);
}

/// One bit changed: a high one makes a number negative or far too large.
#[test]
fn on_every_byte_changed() {
    let mut groups = Groups::default();
    for profile in Profile::ALL.into_iter().filter(|it| !it.is_large()) {
        for seed in 0..12 {
            let mut whole = ByteLists::of(&profile.scene(seed));
            for (list, width) in BOTH {
                for place in 0..list(&mut whole).len().min(400) {
                    let flip = |list: &mut Vec<u8>| list[place] ^= 1 << (place % 8);
                    let name = profile.name();
                    let case = format!("{name} seed {seed}, width {width}, byte {place}");
                    groups.call(&changed(&whole, list, flip), &case);
                }
            }
        }
    }
    groups.print("groups, bytes changed");
    assert!([0, 3, 4, 5, 6].iter().all(|it| groups.count_of(*it) > 0));
}

#[test]
fn on_garbage() {
    let mut groups = Groups::default();
    runs::on_garbage(200_000, |scene, random, case| {
        let mut lists = ByteLists::of(scene);
        if random.once_in(16) {
            lists.components.extend(vec![0; random.below(8)]);
            lists.connections.extend(vec![0; random.below(8)]);
        }
        shorten(&mut lists, random);
        groups.call(&lists, &case);
    });
    groups.assert_every_number_came_up("groups, garbage");
}
