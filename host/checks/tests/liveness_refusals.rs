//! Refusals of the proved liveness entry by bytes against the restatement, and
//! that a refusal writes nothing.

use checks::runs::{self, Seeds};
use checks::{Alive, Counted, LivenessLists};
use scenes::bytes::{LivenessLent, NUMBER};
use scenes::damage::List;
use scenes::limits::{COMPONENT, FRONTIER, PORT_CONNECTION};
use scenes::random::Random;
use scenes::{Scene, exhaustive};

/// Every number of this entry; 6 is of grouping connections.
fn assert_every_number_came_up(alive: &Alive, title: &str) {
    alive.print(title);
    for number in [0, 1, 2, 3, 4, 5, 7] {
        assert!(alive.count_of(number) > 0, "{number} never came up");
    }
}

fn each(lent: &mut LivenessLent) -> [&mut usize; 5] {
    let LivenessLent {
        regions,
        sources,
        inputs,
        sets,
        stack,
    } = lent;
    [regions, sources, inputs, sets, stack]
}

/// Slices that are short now and then.
fn shorten(lists: &mut LivenessLists, random: &mut Random) {
    for length in each(&mut lists.lent) {
        if random.once_in(16) {
            *length = random.below(*length + 20);
        }
    }
}

#[test]
fn of_nothing() {
    let mut alive = Alive::default();
    let mut lists = LivenessLists::of(&Scene::default());
    lists.lent.sets = 0;
    alive.call(&lists, &"all empty, no room for sets");
    lists.lent.sets = 512;
    alive.call(&lists, &"all empty");
    lists.lent.sets = 511;
    alive.call(&lists, &"sets a byte short");
    assert_eq!([alive.count_of(0), alive.count_of(2)], [1, 2]);
}

#[test]
fn on_small_lists_in_every_combination() {
    let mut alive = Alive::default();
    let random = &mut Random::new(0);
    for (place, scene) in exhaustive::lists().enumerate().step_by(5) {
        let mut lists = LivenessLists::of(&scene);
        shorten(&mut lists, random);
        alive.call(&lists, &format!("list {place}"));
    }
    alive.print("liveness, small lists");
    assert!([2, 3, 4, 5, 7].iter().all(|it| alive.count_of(*it) > 0));
}

#[test]
fn on_every_single_damage() {
    let mut alive = Alive::default();
    let lists = [List::Components, List::Ports, List::Frontiers];
    let seeds = Seeds {
        small: 12,
        large: 1,
    };
    runs::on_single_damage(seeds, &lists, |scene, case| {
        alive.call(&LivenessLists::of(scene), &case);
    });
    alive.print("liveness, single damage");
}

#[test]
fn on_two_faults_that_compete() {
    let mut alive = Alive::default();
    let seeds = Seeds {
        small: 1_000,
        large: 12,
    };
    runs::on_two_faults(seeds, |scene, random, case| {
        let mut lists = LivenessLists::of(scene);
        shorten(&mut lists, random);
        alive.call(&lists, &case);
    });
    assert_every_number_came_up(&alive, "liveness, two faults");
}

/// What lies behind the rows stays as it was; a byte too few is refused.
#[test]
fn with_slices_of_every_length() {
    let mut alive = Alive::default();
    let seeds = Seeds {
        small: 60,
        large: 2,
    };
    runs::on_profiles(seeds, |scene, _, case| {
        let enough = LivenessLists::of(scene);
        for slice in 0..5 {
            for change in [-9_isize, -8, -1, 0, 1, 7, 8, 300, 100_000] {
                let mut lists = enough.clone();
                let length = &mut *each(&mut lists.lent)[slice];
                *length = length.saturating_add_signed(change);
                alive.call(&lists, &format!("{case}, slice {slice} by {change}"));
            }
        }
    });
    alive.print("liveness, slices of every length");
    assert!(alive.count_of(0) > 0 && alive.count_of(2) > 0);
}

/// One of the three lists.
type Pick = fn(&mut LivenessLists) -> &mut Vec<u8>;

/// The lists, with the numbers to a record.
const ALL: [(Pick, usize); 3] = [
    (|lists| &mut lists.components, COMPONENT),
    (|lists| &mut lists.ports, PORT_CONNECTION),
    (|lists| &mut lists.frontiers, FRONTIER),
];

/// Lists cut at every byte of their last record, and lengthened likewise.
#[test]
fn on_lists_of_every_length_in_bytes() {
    let mut alive = Alive::default();
    let seeds = Seeds { small: 4, large: 1 };
    runs::on_profiles(seeds, |scene, _, case| {
        let whole = LivenessLists::of(scene);
        for (list, width) in ALL {
            for bytes in 1..=width * NUMBER {
                let mut cut = whole.clone();
                let length = list(&mut cut).len();
                list(&mut cut).truncate(length.saturating_sub(bytes));
                alive.call(&cut, &format!("{case}, {bytes} bytes less"));
                let mut more = whole.clone();
                list(&mut more).resize(length + bytes, 7);
                alive.call(&more, &format!("{case}, {bytes} bytes more"));
            }
        }
    });
    alive.print("liveness, lengths in bytes");
    assert!(alive.count_of(1) > 0);
}

#[test]
fn on_garbage() {
    let mut alive = Alive::default();
    runs::on_garbage(100_000, |scene, random, case| {
        let mut lists = LivenessLists::of(scene);
        if random.once_in(16) {
            lists.components.extend(vec![0; random.below(8)]);
            lists.frontiers.extend(vec![0; random.below(8)]);
        }
        shorten(&mut lists, random);
        alive.call(&lists, &case);
    });
    assert_every_number_came_up(&alive, "liveness, garbage");
}
