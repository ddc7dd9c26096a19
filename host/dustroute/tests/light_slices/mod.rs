//! The call of `light` itself, with slices of any length, dirty before it.

use dustroute::{Lighting, Rules, light};
use scenes::damage::{garbage, single};
use scenes::limits::{COMPONENT, SET_WORDS, STACK_PAIR};
use scenes::random::Random;
use scenes::{Profile, Scene, exhaustive, refusals};

use crate::typed::Lists;

mod raw {
    unsafe extern "C" {
        pub fn dustroute_light(
            rules: i64,
            components: *const i64,
            components_len: usize,
            ports: *const i64,
            ports_len: usize,
            frontiers: *const i64,
            frontiers_len: usize,
            regions: *mut u64,
            regions_len: usize,
            lit: *mut u64,
            lit_len: usize,
            driven: *mut u64,
            driven_len: usize,
            stack: *mut usize,
            stack_len: usize,
        ) -> u64;
    }
}

/// Nothing depends on them.
const RULES: Rules = Rules::Two;

/// Lengths of the slices that are lent.
#[derive(Clone, Copy, Debug)]
struct Lengths {
    regions: usize,
    lit: usize,
    driven: usize,
    stack: usize,
}

impl Lengths {
    /// Just enough, all one over, none at all, and each one short, empty and
    /// one over.
    fn all(components: usize) -> Vec<[usize; 4]> {
        let enough = [components, SET_WORDS, SET_WORDS, STACK_PAIR * components];
        let mut all = vec![enough, enough.map(|it| it + 1), [0; 4]];
        for slice in 0..4 {
            for change in [
                |length: usize| length.saturating_sub(1),
                |_| 0,
                |length: usize| length + 1,
            ] {
                let mut lengths = enough;
                lengths[slice] = change(enough[slice]);
                all.push(lengths);
            }
        }
        all
    }

    const fn of([regions, lit, driven, stack]: [usize; 4]) -> Self {
        Self {
            regions,
            lit,
            driven,
            stack,
        }
    }
}

/// What a call answered and left.
struct Left {
    answer: u64,
    regions: Vec<u64>,
    lit: Vec<u64>,
    driven: Vec<u64>,
    stack: Vec<usize>,
}

fn call(scene: &Scene, lengths: Lengths, filling: u64) -> Left {
    let mut regions = vec![filling; lengths.regions];
    let mut lit = vec![filling; lengths.lit];
    let mut driven = vec![filling; lengths.driven];
    let mut stack = vec![filling as usize; lengths.stack];
    // SAFETY: each pointer is to a whole vector of the length beside it.
    let answer = unsafe {
        raw::dustroute_light(
            RULES.number(),
            scene.components.as_ptr(),
            scene.components.len(),
            scene.ports.as_ptr(),
            scene.ports.len(),
            scene.frontiers.as_ptr(),
            scene.frontiers.len(),
            regions.as_mut_ptr(),
            regions.len(),
            lit.as_mut_ptr(),
            lit.len(),
            driven.as_mut_ptr(),
            driven.len(),
            stack.as_mut_ptr(),
            stack.len(),
        )
    };
    Left {
        answer,
        regions,
        lit,
        driven,
        stack,
    }
}

/// The words of a set.
fn words(members: impl Iterator<Item = usize>) -> Vec<u64> {
    let mut words = vec![0; SET_WORDS];
    for member in members {
        words[member / 64] |= 1 << (member % 64);
    }
    words
}

/// What must be written of an accepted scene.
fn wanted(lighting: &Lighting) -> [Vec<u64>; 3] {
    let regions = lighting.components.iter().map(|it| it.region as u64);
    let lit = (0..lighting.lit.len()).filter(|it| lighting.lit[*it]);
    let mut by_id: Vec<_> = lighting
        .components
        .iter()
        .map(|it| (it.id, it.driven))
        .collect();
    by_id.sort_unstable();
    let driven = (0..by_id.len()).filter(|member| by_id[*member].1);
    [regions.collect(), words(lit), words(driven)]
}

fn is_laid(slice: &[u64], rows: &[u64], filling: u64) -> bool {
    let (front, rest) = slice.split_at(rows.len());
    front == rows && rest.iter().all(|it| *it == filling)
}

/// The typed answer, if there is one. The grouping connections have no part in it.
fn lit_of(scene: &Scene) -> Option<Lighting> {
    let lists = Lists::of(&Scene {
        connections: Vec::new(),
        ..scene.clone()
    })?;
    light(RULES, &lists.components, &lists.ports, &lists.frontiers).ok()
}

/// Calls that were accepted, and refusals by their number.
#[derive(Default)]
struct Called {
    accepted: u64,
    refused: [u64; 8],
}

impl Called {
    fn hold(&mut self, scene: &Scene, lengths: Lengths, lighting: Option<&Lighting>, filling: u64) {
        let Lengths {
            regions,
            lit,
            driven,
            stack,
        } = lengths;
        let refusal = refusals::light(
            RULES.number(),
            &scene.components,
            &scene.ports,
            &scene.frontiers,
            [regions, lit, driven, stack],
        );
        let left = call(scene, lengths, filling);
        let case = || format!("{lengths:?}, {filling:x} of {scene}");
        if let Some(refusals::Refusal { number, list, item }) = refusal {
            assert_eq!(
                left.answer,
                number + 256 * list + 65_536 * item,
                "{}",
                case()
            );
            let outputs = [&left.regions, &left.lit, &left.driven];
            let mut each = outputs.into_iter().flatten();
            assert!(each.all(|it| *it == filling), "{}", case());
            assert!(
                left.stack.iter().all(|it| *it == filling as usize),
                "{}",
                case()
            );
            self.refused[number as usize] += 1;
            return;
        }
        let Some(lighting) = lighting else {
            panic!("refused alone: {}", case());
        };
        let count = lighting.lit.len() as u64;
        assert_eq!(left.answer, 65_536 * count, "{}", case());
        let [regions, lit, driven] = wanted(lighting);
        assert!(is_laid(&left.regions, &regions, filling), "{}", case());
        assert!(is_laid(&left.lit, &lit, filling), "{}", case());
        assert!(is_laid(&left.driven, &driven, filling), "{}", case());
        assert!(left.stack.iter().all(|it| *it == 0), "{}", case());
        self.accepted += 1;
    }

    /// Every length of each slice, with two fillings.
    fn hold_all(&mut self, scene: &Scene) {
        let lighting = lit_of(scene);
        for lengths in Lengths::all(scene.components.len() / COMPONENT) {
            for filling in [0xa5a5_a5a5_a5a5_a5a5, u64::MAX] {
                self.hold(scene, Lengths::of(lengths), lighting.as_ref(), filling);
            }
        }
    }

    fn tell(&self, name: &str) {
        println!(
            "{name}: {} calls accepted, refused by number {:?}",
            self.accepted, self.refused
        );
    }
}

#[test]
fn slices_of_any_length() {
    let mut called = Called::default();
    for scene in exhaustive::scenes().step_by(23) {
        called.hold_all(&scene);
    }
    for profile in Profile::ALL {
        let seeds = if profile.is_large() { 4 } else { 100 };
        for seed in 90_000..90_000 + seeds {
            called.hold_all(&profile.scene(seed));
        }
    }
    called.tell("slices");
    assert!(called.accepted > 10_000 && called.refused[2] > 10_000);
}

#[test]
fn faulty_lists_and_short_slices() {
    let mut called = Called::default();
    let mut random = Random::new(29);
    for profile in Profile::ALL.into_iter().filter(|it| !it.is_large()) {
        for seed in 91_000..91_010 {
            let scene = profile.scene(seed);
            for damage in single(&scene) {
                called.hold_all(&damage.apply(&scene));
            }
        }
    }
    for _ in 0..2_000 {
        called.hold_all(&garbage(&mut random));
    }
    called.tell("faulty lists");
    let numbers = [1, 2, 3, 4, 5, 7].map(|number: usize| called.refused[number]);
    assert!(numbers.iter().all(|it| *it > 100), "{numbers:?}");
}

/// All lists of up to three components, two port connections and a frontier,
/// good and bad in every combination, with slices that are just enough.
#[test]
fn every_combination_of_faults() {
    let mut called = Called::default();
    for scene in exhaustive::lists() {
        let lighting = lit_of(&scene);
        let lengths = Lengths::all(scene.components.len() / COMPONENT)[0];
        called.hold(&scene, Lengths::of(lengths), lighting.as_ref(), u64::MAX);
    }
    called.tell("combinations");
    assert!(called.accepted > 100);
}
