//! Refusal 11: a rules number other than 1 and 2 is refused by every entry before
//! all else, whatever the lists and slices, and nothing is written.

use checks::runs::{self, Seeds};
use checks::{Counted, Tally, UNKNOWN_RULES, Unknown};
use scenes::damage::List;
use scenes::limits::LAST_RULES;
use scenes::random::Random;
use scenes::{Lent, Profile, Scene, exhaustive, refusals};

/// Numbers just beside the known ones, the ends of the type, and such as a
/// narrower number, or one without a sign, would take for a known one.
const NUMBERS: [i64; 10] = [
    i64::MIN,
    i64::MIN + 1,
    -1,
    0,
    LAST_RULES + 1,
    LAST_RULES + 2,
    256 + 1,
    65_536 + 1,
    (1 << 32) + 1,
    i64::MAX,
];

/// Unknown numbers in turn, and now and then any.
struct Turn(usize, Random);

impl Turn {
    const fn new(seed: u64) -> Self {
        Self(0, Random::new(seed))
    }

    fn next(&mut self) -> i64 {
        self.0 += 1;
        let drawn = self.1.between(i64::MIN, i64::MAX);
        let is_any = self.0.is_multiple_of(16) && refusals::unknown_rules(drawn).is_some();
        if is_any {
            drawn
        } else {
            NUMBERS[self.0 % NUMBERS.len()]
        }
    }
}

#[test]
fn of_nothing_and_of_far_too_much() {
    let mut unknown = Unknown::default();
    let many = |numbers: usize| Scene {
        components: vec![-1; numbers],
        connections: vec![i64::MAX; numbers],
        ports: vec![i64::MIN; numbers],
        frontiers: vec![7; numbers],
    };
    for rules in NUMBERS {
        for short in [0, 1, usize::MAX] {
            for numbers in [0, 1, 8, 15, 8 * 1_025, 100_001] {
                let case = format!("{numbers} numbers, {short} short");
                unknown.call(rules, &many(numbers), short, &case);
            }
        }
    }
    println!("rules, nothing and far too much: {unknown:?}");
}

/// Whole lists, good ones, with slices that are enough and such as are short.
#[test]
fn of_good_lists() {
    let mut unknown = Unknown::default();
    let seeds = Seeds {
        small: 40,
        large: 2,
    };
    runs::on_profiles(seeds, |scene, seed, case| {
        for rules in NUMBERS {
            let short = usize::try_from(seed % 3).unwrap_or(0);
            unknown.call(rules, scene, short, &case);
        }
    });
    println!("rules, good lists: {unknown:?}");
}

/// With it competes every other number.
#[test]
fn beside_every_other_fault() {
    let (mut unknown, mut turn) = (Unknown::default(), Turn::new(4));
    let seeds = Seeds { small: 4, large: 0 };
    runs::on_single_damage(seeds, &List::ALL, |damaged, case| {
        unknown.call(turn.next(), damaged, 0, &case);
    });
    let seeds = Seeds {
        small: 200,
        large: 4,
    };
    runs::on_two_faults(seeds, |damaged, random, case| {
        let short = if random.once_in(4) { 1 } else { 0 };
        unknown.call(turn.next(), damaged, short, &case);
    });
    for (place, scene) in exhaustive::lists().enumerate().step_by(29) {
        unknown.call(turn.next(), &scene, place % 2, &format!("list {place}"));
    }
    runs::on_garbage(20_000, |scene, random, case| {
        unknown.call(turn.next(), scene, random.below(3), &case);
    });
    unknown.assert_stood_beside_every_number("rules beside every fault");
}

/// The checks by themselves, the query's and the sheet's among them, under known
/// and unknown rules in turn.
#[test]
fn the_checks_by_themselves() {
    let (mut tally, mut turn) = (Tally::default(), Turn::new(5));
    for (place, scene) in exhaustive::lists().enumerate().step_by(3) {
        let enough = Lent::enough(&scene);
        let variants = enough.variants();
        let lent = &variants[place % variants.len()];
        let case = format!("list {place}");
        let known = 1 + i64::try_from(place).unwrap_or(0) % LAST_RULES;
        tally.refusals_by(known, &scene, lent, &case);
        tally.refusals_by(turn.next(), &scene, lent, &case);
    }
    let seeds = Seeds {
        small: 600,
        large: 20,
    };
    runs::on_two_faults(seeds, |damaged, random, case| {
        let enough = Lent::enough(damaged);
        for rules in [turn.next(), 1, random.between(1, LAST_RULES)] {
            tally.refusals_by(rules, damaged, &enough, &case);
        }
    });
    tally.assert_every_number_came_up("rules, the checks");
    assert!(tally.count_of(UNKNOWN_RULES) > 0);
}

#[test]
fn within_one_mebibyte_of_stack() -> std::io::Result<()> {
    runs::within_one_mebibyte_of_stack(|| {
        let scene = Profile::Full.scene(3);
        Unknown::default().call(LAST_RULES + 1, &scene, 0, &"full, small stack");
    })
}
