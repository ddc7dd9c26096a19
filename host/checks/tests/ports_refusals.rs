//! Refusals of the proved ports entry against the restatement, and that a
//! refusal writes nothing.

use checks::runs::{self, Seeds};
use checks::{Counted, Ports};
use scenes::damage::List;
use scenes::random::Random;
use scenes::{Lent, Scene, exhaustive};

/// Enough for the connections, and now and then some other length.
fn lent(scene: &Scene, random: &mut Random) -> usize {
    let enough = Lent::enough(scene).ports;
    if random.once_in(8) {
        random.below(enough + 10)
    } else {
        enough
    }
}

#[test]
fn of_nothing() {
    let mut ports = Ports::default();
    ports.call(&Scene::default(), 0, &"all empty");
    ports.call(&Scene::default(), 3, &"a slice for nothing");
    assert_eq!(ports.count_of(0), 2);
}

#[test]
fn on_small_lists_in_every_combination() {
    let mut ports = Ports::default();
    let random = &mut Random::new(0);
    for (place, scene) in exhaustive::lists().enumerate().step_by(3) {
        let case = format!("list {place}");
        ports.call(&scene, Lent::enough(&scene).ports, &case);
        ports.call(&scene, lent(&scene, random), &case);
    }
    ports.print("ports, small lists");
    assert!((2..7).all(|number| ports.count_of(number) > 0));
}

#[test]
fn on_every_single_damage() {
    let mut ports = Ports::default();
    let seeds = Seeds {
        small: 16,
        large: 2,
    };
    let lists = [List::Components, List::Connections];
    runs::on_single_damage(seeds, &lists, |damaged, case| {
        ports.call(damaged, Lent::enough(damaged).ports, &case);
    });
    ports.print("ports, single damage");
}

#[test]
fn on_two_faults_that_compete() {
    let mut ports = Ports::default();
    let seeds = Seeds {
        small: 1_000,
        large: 30,
    };
    runs::on_two_faults(seeds, |damaged, random, case| {
        ports.call(damaged, lent(damaged, random), &case);
    });
    ports.assert_every_number_came_up("ports, two faults");
}

#[test]
fn on_garbage() {
    let mut ports = Ports::default();
    runs::on_garbage(200_000, |scene, random, case| {
        ports.call(scene, lent(scene, random), &case);
    });
    ports.assert_every_number_came_up("ports, garbage");
}
