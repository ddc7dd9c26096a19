//! The proved id table against the restatement.

use checks::Tally;
use checks::runs::{self, Seeds};
use scenes::damage::List;
use scenes::exhaustive;

#[test]
fn on_small_lists() {
    let mut tally = Tally::default();
    for (place, scene) in exhaustive::lists().enumerate().step_by(43 * 3) {
        tally.id_table(&scene, &format!("list {place}"));
    }
    for (place, scene) in exhaustive::scenes().enumerate().step_by(32) {
        tally.id_table(&scene, &format!("scene {place}"));
    }
    tally.print_places("id table, small lists");
}

#[test]
fn on_every_profile() {
    let mut tally = Tally::default();
    let seeds = Seeds {
        small: 2_000,
        large: 20,
    };
    runs::on_profiles(seeds, |scene, _, case| tally.id_table(scene, &case));
    tally.print_places("id table, profiles");
}

#[test]
fn on_damaged_components() {
    let mut tally = Tally::default();
    let seeds = Seeds {
        small: 20,
        large: 1,
    };
    runs::on_single_damage(seeds, &[List::Components], |damaged, case| {
        tally.id_table(damaged, &case);
    });
    tally.print_places("id table, damaged");
}

#[test]
fn on_garbage() {
    let mut tally = Tally::default();
    runs::on_garbage(40_000, |scene, _, case| tally.id_table(scene, &case));
    tally.print_places("id table, garbage");
}
