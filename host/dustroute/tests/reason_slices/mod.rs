//! The calls of `left_out` and `block_ports` themselves, with slices of any
//! length, dirty before it, and rules that are none.

use dustroute::{Rules, left_out};
use scenes::damage::{garbage, single};
use scenes::limits::{CONNECTION, KEPT_ROW};
use scenes::random::Random;
use scenes::{Profile, Scene, exhaustive, refusals};

use crate::typed::Lists;

mod raw {
    unsafe extern "C" {
        pub fn dustroute_reasons(
            rules: i64,
            components: *const i64,
            components_len: usize,
            connections: *const i64,
            connections_len: usize,
            reasons: *mut u64,
            reasons_len: usize,
        ) -> u64;

        pub fn dustroute_block_ports(
            rules: i64,
            kind: i64,
            facing: i64,
            support: i64,
            conducts: i64,
            ports: *mut u64,
            ports_len: usize,
        ) -> u64;
    }
}

const FILLINGS: [u64; 2] = [0xa5a5_a5a5_a5a5_a5a5, u64::MAX];

fn reasons(rules: i64, scene: &Scene, reasons: &mut [u64]) -> u64 {
    let (components, connections) = (&scene.components, &scene.connections);
    // SAFETY: each pointer is to a whole slice of the length beside it.
    unsafe {
        raw::dustroute_reasons(
            rules,
            components.as_ptr(),
            components.len(),
            connections.as_ptr(),
            connections.len(),
            reasons.as_mut_ptr(),
            reasons.len(),
        )
    }
}

fn block_ports(rules: i64, block: [i64; 4], ports: &mut [u64]) -> u64 {
    let [kind, facing, support, conducts] = block;
    // SAFETY: the pointer is to a whole slice of the length beside it.
    unsafe {
        raw::dustroute_block_ports(
            rules,
            kind,
            facing,
            support,
            conducts,
            ports.as_mut_ptr(),
            ports.len(),
        )
    }
}

/// The numbers of an accepted scene: none where it is refused.
fn wanted(rules: i64, scene: &Scene) -> Option<Vec<u64>> {
    let rules = Rules::try_from(rules).ok()?;
    let lists = Lists::of(&Scene {
        ports: Vec::new(),
        frontiers: Vec::new(),
        ..scene.clone()
    })?;
    let mut numbers = vec![0; lists.connections.len()];
    for it in left_out(rules, &lists.components, &lists.connections).ok()? {
        numbers[it.item] = it.why as u64 + 1;
    }
    Some(numbers)
}

/// Calls that were accepted, and refusals by their number.
#[derive(Debug, Default)]
struct Called {
    accepted: u64,
    refused: [u64; 12],
}

impl Called {
    /// Just enough numbers, one short, none, and one over.
    fn hold(&mut self, scene: &Scene) {
        let enough = scene.connections.len() / CONNECTION;
        for rules in 0..=4 {
            let wanted = wanted(rules, scene);
            for len in [enough, enough.saturating_sub(1), 0, enough + 1] {
                for filling in FILLINGS {
                    self.hold_one(rules, scene, wanted.as_deref(), (len, filling));
                }
            }
        }
    }

    fn hold_one(
        &mut self,
        rules: i64,
        scene: &Scene,
        wanted: Option<&[u64]>,
        (len, filling): (usize, u64),
    ) {
        let case = || format!("rules {rules}, {len} of {filling:x}{scene}");
        let mut slice = vec![filling; len];
        let answer = reasons(rules, scene, &mut slice);
        // The ports entry has wider rows, and refuses as this one does.
        let room = KEPT_ROW * len;
        let refusal = refusals::ports(rules, &scene.components, &scene.connections, room);
        if let Some(refusals::Refusal { number, list, item }) = refusal {
            let said = number + 256 * list + 65_536 * item;
            assert_eq!(answer, said, "{}", case());
            assert!(slice.iter().all(|it| *it == filling), "{}", case());
            self.refused[number as usize] += 1;
            return;
        }
        let Some(wanted) = wanted else {
            panic!("refused alone: {}", case());
        };
        let kept = wanted.iter().filter(|it| **it == 0).count() as u64;
        assert_eq!(answer, 65_536 * kept, "{}", case());
        let (front, rest) = slice.split_at(wanted.len());
        assert_eq!(front, wanted, "{}", case());
        assert!(rest.iter().all(|it| *it == filling), "{}", case());
        self.accepted += 1;
    }
}

#[test]
fn reasons_in_slices_of_any_length() {
    let mut called = Called::default();
    let mut random = Random::new(37);
    for scene in exhaustive::scenes().step_by(29) {
        called.hold(&scene);
    }
    for profile in Profile::ALL {
        let seeds = if profile.is_large() { 2 } else { 10 };
        for seed in 130_000..130_000 + seeds {
            let scene = profile.scene(seed);
            called.hold(&scene);
            if !profile.is_large() {
                let each = single(&scene).into_iter();
                each.for_each(|damage| called.hold(&damage.apply(&scene)));
            }
        }
    }
    for _ in 0..2_000 {
        called.hold(&garbage(&mut random));
    }
    println!("reasons in slices: {called:?}");
    let numbers = [1, 2, 3, 4, 5, 6, 11].map(|number: usize| called.refused[number]);
    assert!(called.accepted > 10_000 && numbers.iter().all(|it| *it > 100));
}

/// 11 before 2, and 2 before 3; a bad number is 3 at item 0 of list 0.
#[test]
fn ports_of_a_block_in_slices_of_any_length() {
    const SHORT: u64 = 2 + 256 * 3;
    const UNKNOWN: u64 = 11 + 256 * 3;
    let (low, high) = ([-1, i64::MIN, 1 << 32], [12, 6, 6, 1]);
    let mut blocks = vec![([0; 4], true), (high, true), ([1, 2, 6, 0], true)];
    for field in 0..4 {
        let above = [high[field] + 1, high[field] + 256, i64::MAX];
        for bad in low.into_iter().chain(above) {
            for mut block in [[0; 4], high] {
                block[field] = bad;
                blocks.push((block, false));
            }
        }
    }
    for rules in [i64::MIN, -1, 0, 1, 2, 3, 4, 257, i64::MAX] {
        for &(block, good) in &blocks {
            for len in [0, 1, 20, 21, 22, 30] {
                for filling in FILLINGS {
                    let case = || format!("rules {rules}, {block:?}, {len} of {filling:x}");
                    let mut slice = vec![filling; len];
                    let answer = block_ports(rules, block, &mut slice);
                    let refusal = match () {
                        () if !(1..=3).contains(&rules) => Some(UNKNOWN),
                        () if len < 21 => Some(SHORT),
                        () if !good => Some(3),
                        () => None,
                    };
                    if let Some(refusal) = refusal {
                        assert_eq!(answer, refusal, "{}", case());
                        assert!(slice.iter().all(|it| *it == filling), "{}", case());
                        continue;
                    }
                    let [kind, facing, support, conducts] = block;
                    let record = [0, 0, 0, 0, kind, facing, support, conducts];
                    let ports = paper::ports_of(rules, &record).concat();
                    assert_eq!(answer, 65_536 * ports.len() as u64, "{}", case());
                    let mut rows: Vec<u64> = ports.iter().flatten().map(|it| *it as u64).collect();
                    rows.resize(21, 0);
                    rows.resize(len, filling);
                    assert_eq!(slice, rows, "{}", case());
                }
            }
        }
    }
}
