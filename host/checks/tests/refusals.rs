//! The proved refusals against the restatement, on lists good and bad.

use checks::runs::{self, Seeds};
use checks::{Counted, Tally};
use scenes::damage::List;
use scenes::{Lent, Profile, exhaustive};

#[test]
fn on_small_lists_in_every_combination() {
    let mut tally = Tally::default();
    for (place, scene) in exhaustive::lists().enumerate() {
        let case = format!("list {place}");
        let enough = Lent::enough(&scene);
        tally.refusals(&scene, &enough, &case);
        let variants = enough.variants();
        tally.refusals(&scene, &variants[place % variants.len()], &case);
    }
    tally.print("small lists");
    assert!((2..8).all(|number| tally.count_of(number) > 0));
}

#[test]
fn on_small_scenes_all_accepted() {
    let mut tally = Tally::default();
    runs::on_small_scenes(|scene, case| {
        tally.refusals(scene, &Lent::enough(scene), &case);
    });
    tally.assert_all_accepted("small scenes");
}

#[test]
fn on_every_profile_with_slices_of_every_length() {
    let mut tally = Tally::default();
    let seeds = Seeds {
        small: 400,
        large: 8,
    };
    runs::on_profiles(seeds, |scene, _, case| {
        for lent in Lent::enough(scene).variants() {
            tally.refusals(scene, &lent, &case);
        }
    });
    tally.print("profiles");
    assert!(tally.count_of(2) > 0);
}

#[test]
fn on_every_single_damage() {
    let mut tally = Tally::default();
    let seeds = Seeds {
        small: 12,
        large: 2,
    };
    runs::on_single_damage(seeds, &List::ALL, |damaged, case| {
        tally.refusals(damaged, &Lent::enough(damaged), &case);
    });
    tally.print("single damage");
}

/// Now and then slices are short as well.
#[test]
fn on_two_faults_that_compete() {
    let mut tally = Tally::default();
    let seeds = Seeds {
        small: 2_000,
        large: 60,
    };
    runs::on_two_faults(seeds, |damaged, random, case| {
        let mut lent = Lent::enough(damaged);
        if random.once_in(8) {
            let variants = lent.variants();
            lent = variants[random.below(variants.len())];
        }
        tally.refusals(damaged, &lent, &case);
    });
    tally.assert_every_number_came_up("two faults");
}

#[test]
fn on_garbage() {
    let mut tally = Tally::default();
    runs::on_garbage(400_000, |scene, random, case| {
        let mut lent = Lent::enough(scene);
        if random.once_in(8) {
            lent = Lent::all(random.below(40));
        }
        tally.refusals(scene, &lent, &case);
    });
    tally.assert_every_number_came_up("garbage");
}

#[test]
fn within_one_mebibyte_of_stack() -> std::io::Result<()> {
    runs::within_one_mebibyte_of_stack(|| {
        let mut tally = Tally::default();
        let scene = Profile::Full.scene(3);
        tally.refusals(&scene, &Lent::enough(&scene), &"full, small stack");
        tally.id_table(&scene, &"full, small stack");
    })
}
