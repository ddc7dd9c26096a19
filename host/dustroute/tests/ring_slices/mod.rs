//! The call of `rings` itself, with slices of any length, dirty before it.

use dustroute::{Rings, Rules, rings};
use scenes::damage::{garbage, single};
use scenes::limits::{COMPONENT, LAST_RULES, SET_WORDS, STACK_PAIR};
use scenes::random::Random;
use scenes::{Profile, Scene, exhaustive, refusals};

use crate::ring_plots::{drawn, graphs};
use crate::typed::Lists;

mod raw {
    unsafe extern "C" {
        pub fn dustroute_rings(
            rules: i64,
            components: *const i64,
            components_len: usize,
            ports: *const i64,
            ports_len: usize,
            frontiers: *const i64,
            frontiers_len: usize,
            regions: *mut u64,
            regions_len: usize,
            rings: *mut u64,
            rings_len: usize,
            stack: *mut usize,
            stack_len: usize,
        ) -> u64;
    }
}

/// Of the known rules nothing depends on the number.
const RULES: i64 = Rules::Two.number();

const FILLINGS: [u64; 2] = [0xa5a5_a5a5_a5a5_a5a5, u64::MAX];

/// Lengths of regions, set and stack: just enough, all one over, none at all, and
/// each one short, empty and one over.
fn lengths(scene: &Scene) -> Vec<[usize; 3]> {
    let components = scene.components.len() / COMPONENT;
    let enough = [components, SET_WORDS, STACK_PAIR * components];
    let mut all = vec![enough, enough.map(|it| it + 1), [0; 3]];
    for slice in 0..3 {
        for length in [enough[slice].saturating_sub(1), 0, enough[slice] + 1] {
            let mut lengths = enough;
            lengths[slice] = length;
            all.push(lengths);
        }
    }
    all
}

/// What a call answered and left.
struct Left {
    answer: u64,
    regions: Vec<u64>,
    rings: Vec<u64>,
    stack: Vec<usize>,
}

fn call(rules: i64, scene: &Scene, lengths: [usize; 3], filling: u64) -> Left {
    let [regions, rings, stack] = lengths;
    let mut regions = vec![filling; regions];
    let mut rings = vec![filling; rings];
    let mut stack = vec![filling as usize; stack];
    // SAFETY: each pointer is to a whole vector of the length beside it.
    let answer = unsafe {
        raw::dustroute_rings(
            rules,
            scene.components.as_ptr(),
            scene.components.len(),
            scene.ports.as_ptr(),
            scene.ports.len(),
            scene.frontiers.as_ptr(),
            scene.frontiers.len(),
            regions.as_mut_ptr(),
            regions.len(),
            rings.as_mut_ptr(),
            rings.len(),
            stack.as_mut_ptr(),
            stack.len(),
        )
    };
    Left {
        answer,
        regions,
        rings,
        stack,
    }
}

/// What must be written of an accepted scene: the regions and the set.
fn wanted(found: &Rings) -> [Vec<u64>; 2] {
    let regions = found.components.iter().map(|it| it.region as u64);
    let mut words = vec![0; SET_WORDS];
    for (region, _) in found.rings.iter().enumerate().filter(|(_, has)| **has) {
        words[region / 64] |= 1 << (region % 64);
    }
    [regions.collect(), words]
}

fn is_laid(slice: &[u64], rows: &[u64], filling: u64) -> bool {
    let (front, rest) = slice.split_at(rows.len());
    front == rows && rest.iter().all(|it| *it == filling)
}

fn is_untouched(left: &Left, filling: u64) -> bool {
    let mut outputs = [&left.regions, &left.rings].into_iter().flatten();
    let mut work = left.stack.iter();
    outputs.all(|it| *it == filling) && work.all(|it| *it == filling as usize)
}

/// The typed answer, if there is one. The grouping connections have no part in it.
fn rings_of(scene: &Scene) -> Option<Rings> {
    let lists = Lists::of(&Scene {
        connections: Vec::new(),
        ..scene.clone()
    })?;
    rings(
        Rules::Two,
        &lists.components,
        &lists.ports,
        &lists.frontiers,
    )
    .ok()
}

/// Calls that were accepted, and refusals by their number.
#[derive(Default)]
struct Called {
    accepted: u64,
    refused: [u64; 12],
}

impl Called {
    fn hold(
        &mut self,
        rules: i64,
        scene: &Scene,
        lengths: [usize; 3],
        found: Option<&Rings>,
        filling: u64,
    ) {
        let refusal = refusals::rings(
            rules,
            &scene.components,
            &scene.ports,
            &scene.frontiers,
            lengths,
        );
        let left = call(rules, scene, lengths, filling);
        let case = || format!("rules {rules}, {lengths:?}, {filling:x} of {scene}");
        if let Some(refusals::Refusal { number, list, item }) = refusal {
            let packed = number + 256 * list + 65_536 * item;
            assert_eq!(left.answer, packed, "{}", case());
            assert!(is_untouched(&left, filling), "{}", case());
            self.refused[number as usize] += 1;
            return;
        }
        let Some(found) = found else {
            panic!("refused alone: {}", case());
        };
        let count = found.rings.len() as u64;
        assert_eq!(left.answer, 65_536 * count, "{}", case());
        let [regions, words] = wanted(found);
        assert!(is_laid(&left.regions, &regions, filling), "{}", case());
        assert!(is_laid(&left.rings, &words, filling), "{}", case());
        assert!(left.stack.iter().all(|it| *it == 0), "{}", case());
        self.accepted += 1;
    }

    /// Every length of each slice, with two fillings, and by rules that are not
    /// known.
    fn hold_all(&mut self, scene: &Scene) {
        let found = rings_of(scene);
        for lengths in lengths(scene) {
            for filling in FILLINGS {
                self.hold(RULES, scene, lengths, found.as_ref(), filling);
            }
        }
        // The first are enough, the third none at all.
        for rules in [0, LAST_RULES + 1] {
            for lengths in lengths(scene).into_iter().step_by(2).take(2) {
                self.hold(rules, scene, lengths, None, FILLINGS[0]);
            }
        }
    }

    fn tell(&self, name: &str) {
        println!(
            "{name}: {} calls accepted, refused by number {:?}",
            self.accepted, self.refused
        );
    }
}

#[test]
fn slices_of_any_length() {
    let mut called = Called::default();
    for scene in exhaustive::scenes().step_by(23) {
        called.hold_all(&scene);
    }
    for scene in graphs().step_by(61) {
        called.hold_all(&scene);
    }
    for profile in Profile::ALL {
        let seeds = if profile.is_large() { 4 } else { 100 };
        for seed in 95_000..95_000 + seeds {
            called.hold_all(&profile.scene(seed));
        }
    }
    let mut random = Random::new(41);
    for _ in 0..300 {
        called.hold_all(&drawn(60, &mut random));
    }
    called.tell("slices");
    assert!(called.accepted > 10_000 && called.refused[2] > 10_000);
    assert!(called.refused[11] > 1_000);
}

#[test]
fn faulty_lists_and_short_slices() {
    let mut called = Called::default();
    let mut random = Random::new(43);
    for profile in Profile::ALL.into_iter().filter(|it| !it.is_large()) {
        for seed in 96_000..96_010 {
            let scene = profile.scene(seed);
            for damage in single(&scene) {
                called.hold_all(&damage.apply(&scene));
            }
        }
    }
    for _ in 0..2_000 {
        called.hold_all(&garbage(&mut random));
    }
    called.tell("faulty lists");
    let numbers = [1, 2, 3, 4, 5, 7, 11].map(|number: usize| called.refused[number]);
    assert!(numbers.iter().all(|it| *it > 100), "{numbers:?}");
}

/// All lists of up to three components, two port connections and a frontier,
/// good and bad in every combination, with slices that are just enough.
#[test]
fn every_combination_of_faults() {
    let mut called = Called::default();
    for scene in exhaustive::lists() {
        let found = rings_of(&scene);
        called.hold(RULES, &scene, lengths(&scene)[0], found.as_ref(), u64::MAX);
    }
    called.tell("combinations");
    assert!(called.accepted > 100);
}
