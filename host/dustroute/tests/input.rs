//! `input` held to a plain search and to the verdicts and sources of `liveness`; by
//! the call itself, to what it refuses and may write.

#[expect(dead_code, reason = "the grouping connections have no part in it")]
mod typed;

use std::collections::{BTreeMap, BTreeSet};

use dustroute::{
    ComponentId, InputSources, Liveness, PortConnection, PortRef, Reason, RequiredInputStatus,
    Rules, SignalSourceKind, TransferKind, input, liveness,
};
use scenes::damage::{garbage, single};
use scenes::limits::{SET_WORDS, STACK_PAIR};
use scenes::random::Random;
use scenes::{Profile, Scene, blanks, exhaustive, lamps, refusals};
use typed::Lists;

mod raw {
    unsafe extern "C" {
        pub fn dustroute_input(
            rules: i64,
            components: *const i64,
            components_len: usize,
            ports: *const i64,
            ports_len: usize,
            frontiers: *const i64,
            frontiers_len: usize,
            id: u64,
            port: u64,
            immediate: *mut u64,
            immediate_len: usize,
            inferred: *mut u64,
            inferred_len: usize,
            stack: *mut usize,
            stack_len: usize,
        ) -> u64;
    }
}

/// What feeds a port, and the sources among that and all upstream of it.
fn search(
    connections: &[PortConnection],
    port: PortRef,
    sources: &BTreeSet<ComponentId>,
) -> InputSources {
    let mut feeding: BTreeMap<ComponentId, Vec<ComponentId>> = BTreeMap::new();
    let mut immediate = BTreeSet::new();
    for it in connections {
        if it.transfer == TransferKind::StructuralSupport {
            continue;
        }
        let near = feeding.entry(it.sink.component).or_default();
        near.push(it.source.component);
        if it.sink == port {
            immediate.insert(it.source.component);
        }
    }
    let mut met = BTreeSet::new();
    let mut left: Vec<ComponentId> = immediate.iter().copied().collect();
    while let Some(id) = left.pop() {
        if met.insert(id) {
            left.extend(feeding.get(&id).into_iter().flatten());
        }
    }
    let inferred = met.intersection(sources).copied().collect();
    InputSources {
        immediate,
        inferred,
    }
}

fn inferred_inputs(whole: &Liveness) -> BTreeSet<ComponentId> {
    let mut all = BTreeSet::new();
    for it in &whole.sources {
        if it.kind == SignalSourceKind::InferredPrimaryInput {
            all.insert(it.component);
        }
    }
    all
}

/// The verdict that the two sets and what is driven make.
fn verdict(found: &InputSources, whole: &Liveness) -> RequiredInputStatus {
    let mut each = whole.components.iter();
    let driven = each.any(|it| it.drive && found.immediate.contains(&it.id));
    match () {
        () if found.immediate.is_empty() => RequiredInputStatus::Disconnected,
        () if driven => RequiredInputStatus::DrivenByKnownSource,
        () if !found.inferred.is_empty() => RequiredInputStatus::AwaitingExternalInput,
        () => RequiredInputStatus::NoKnownSource,
    }
}

/// How often it was asked, and what came up.
#[derive(Debug, Default)]
struct Asked {
    scenes: u64,
    refused: u64,
    /// By verdict.
    inputs: [u64; 4],
    /// With an inferred input upstream.
    inferred: u64,
    /// Ports that are no required input.
    others: u64,
}

impl Asked {
    /// A scene that the types can hold, by all rules.
    fn hold(&mut self, scene: &Scene, case: &str) {
        if let Some(lists) = Lists::of(scene) {
            for rules in Rules::ALL {
                self.hold_by(rules, &lists, &format!("{rules}, {case}{scene}"));
            }
        }
    }

    fn hold_by(&mut self, rules: Rules, lists: &Lists, case: &str) {
        let (components, fed, frontiers) = (&lists.components, &lists.ports, &lists.frontiers);
        let ask = |port| input(rules, components, fed, frontiers, port);
        let whole = match liveness(rules, components, fed, frontiers) {
            Ok(whole) => whole,
            Err(refusal) => {
                let nobody = PortRef::new(ComponentId(0), 0);
                assert_eq!(ask(nobody), Err(refusal), "{case}");
                self.refused += 1;
                return;
            }
        };
        self.scenes += 1;
        let sources = inferred_inputs(&whole);
        for row in whole.inputs.iter().take(40) {
            let found = match ask(row.input) {
                Ok(found) => found,
                Err(refusal) => panic!("{refusal} of {row:?}, {case}"),
            };
            assert_eq!(found, search(fed, row.input, &sources), "{row:?}, {case}");
            assert_eq!(verdict(&found, &whole), row.status, "{row:?}, {case}");
            self.inputs[row.status as usize] += 1;
            self.inferred += u64::from(!found.inferred.is_empty());
        }
        let required: BTreeSet<PortRef> = whole.inputs.iter().map(|it| it.input).collect();
        let start = self.scenes as usize % components.len().max(1);
        let ids = components.iter().skip(start).take(2).map(|it| it.id);
        let missing = (0..).map(ComponentId);
        let missing = missing
            .filter(|id| components.iter().all(|it| it.id != *id))
            .take(1);
        for id in ids.chain(missing) {
            for port in [0, 1, 2, 4, 255] {
                let port = PortRef::new(id, port);
                if !required.contains(&port) {
                    let said = ask(port).map_err(|it| (it.reason, it.place));
                    assert_eq!(said, Err((Reason::NoVerdict, None)), "{port:?}, {case}");
                    self.others += 1;
                }
            }
        }
    }

    fn assert_met(&self, name: &str) {
        println!("input, {name}: {self:?}");
        assert!(self.inferred > 100 && self.others > 100);
        assert!(self.inputs.iter().all(|count| *count > 100));
    }
}

#[test]
fn every_input_of_the_profiles() {
    let mut asked = Asked::default();
    for profile in Profile::ALL {
        let seeds = if profile.is_large() { 2 } else { 600 };
        for seed in 140_000..140_000 + seeds {
            let case = format!("{} seed {seed}", profile.name());
            asked.hold(&profile.scene(seed), &case);
        }
    }
    asked.assert_met("profiles");
}

#[test]
fn every_input_of_small_scenes_and_of_plots_with_lamps_and_blanks() {
    let mut asked = Asked::default();
    for (place, scene) in exhaustive::scenes().enumerate().step_by(13) {
        asked.hold(&scene, &format!("small scene {place}"));
    }
    for seed in 0..4_000 {
        asked.hold(&lamps::scene(seed), &format!("lamps seed {seed}"));
        asked.hold(&blanks::scene(seed), &format!("blanks seed {seed}"));
    }
    asked.assert_met("small scenes, lamps and blanks");
}

#[test]
fn damaged_scenes_are_refused_as_by_liveness() {
    let mut asked = Asked::default();
    for profile in Profile::ALL.into_iter().filter(|it| !it.is_large()) {
        for seed in 150_000..150_010 {
            let scene = profile.scene(seed);
            for damage in single(&scene).into_iter().step_by(3) {
                let case = format!("{} seed {seed}, {damage:?}", profile.name());
                asked.hold(&damage.apply(&scene), &case);
            }
        }
    }
    asked.assert_met("damaged");
    assert!(asked.refused > 1_000);
}

/// What a call answered and left.
struct Left {
    answer: u64,
    immediate: Vec<u64>,
    inferred: Vec<u64>,
    stack: Vec<usize>,
}

fn call(rules: i64, scene: &Scene, asked: [u64; 2], lengths: [usize; 3], filling: u64) -> Left {
    let mut immediate = vec![filling; lengths[0]];
    let mut inferred = vec![filling; lengths[1]];
    let mut stack = vec![filling as usize; lengths[2]];
    let (components, ports, frontiers) = (&scene.components, &scene.ports, &scene.frontiers);
    // SAFETY: each pointer is to a whole vector of the length beside it.
    let answer = unsafe {
        raw::dustroute_input(
            rules,
            components.as_ptr(),
            components.len(),
            ports.as_ptr(),
            ports.len(),
            frontiers.as_ptr(),
            frontiers.len(),
            asked[0],
            asked[1],
            immediate.as_mut_ptr(),
            immediate.len(),
            inferred.as_mut_ptr(),
            inferred.len(),
            stack.as_mut_ptr(),
            stack.len(),
        )
    };
    Left {
        answer,
        immediate,
        inferred,
        stack,
    }
}

/// Sixteen words: member k is the k-th smallest id.
fn words(components: &[i64], ids: &[i64]) -> Vec<u64> {
    let mut all: Vec<i64> = components.chunks_exact(8).map(|it| it[0]).collect();
    all.sort_unstable();
    let mut words = vec![0; SET_WORDS];
    for (member, id) in all.iter().enumerate() {
        words[member / 64] |= u64::from(ids.contains(id)) << (member % 64);
    }
    words
}

/// By the paper's words: the answer and both sets, or the refusal.
fn wanted(
    rules: i64,
    scene: &Scene,
    asked: [u64; 2],
    [immediate, inferred, stack]: [usize; 3],
) -> Result<[Vec<u64>; 2], u64> {
    let (components, ports, frontiers) = (&scene.components, &scene.ports, &scene.frontiers);
    // As of `light`, without its regions.
    let lengths = [usize::MAX, immediate, inferred, stack];
    let refusal = refusals::light(rules, components, ports, frontiers, lengths);
    if let Some(refusals::Refusal { number, list, item }) = refusal {
        return Err(number + 256 * list + 65_536 * item);
    }
    let whole = paper::liveness(rules, components, ports, frontiers);
    let mut rows = whole.inputs.iter();
    let row = rows.find(|it| [it.device as u64, it.port as u64] == asked);
    let Some(row) = row else {
        return Err(8 + 256 * 3);
    };
    Ok([&row.immediate, &row.inferred].map(|ids| words(components, ids)))
}

/// Calls that were accepted, and refusals by their number.
#[derive(Debug, Default)]
struct Called {
    accepted: u64,
    refused: [u64; 12],
}

impl Called {
    /// Rules 0 to 4, three ports, and slices just enough, short, none and over.
    fn hold(&mut self, scene: &Scene) {
        let stack = STACK_PAIR * (scene.components.len() / 8);
        let enough = [SET_WORDS, SET_WORDS, stack];
        let mut all = vec![enough, enough.map(|it| it + 1), [0; 3]];
        for slice in 0..3 {
            let mut short = enough;
            short[slice] = short[slice].saturating_sub(1);
            all.push(short);
        }
        let inputs = paper_inputs(scene);
        let first = inputs.first().copied().unwrap_or([1, 1]);
        let last = inputs.last().copied().unwrap_or([1, 0]);
        for rules in 0..=4 {
            for asked in [first, last, [first[0] | 1 << 32, first[1]], [u64::MAX; 2]] {
                for &lengths in &all {
                    self.hold_one(rules, scene, asked, lengths);
                }
            }
        }
    }

    fn hold_one(&mut self, rules: i64, scene: &Scene, asked: [u64; 2], lengths: [usize; 3]) {
        let filling = 0xa5a5_a5a5_a5a5_a5a5;
        let case = || format!("rules {rules}, {asked:?}, {lengths:?}{scene}");
        let left = call(rules, scene, asked, lengths, filling);
        let sets = [&left.immediate, &left.inferred];
        match wanted(rules, scene, asked, lengths) {
            Ok(wanted) => {
                assert_eq!(left.answer, 0, "{}", case());
                for (set, wanted) in sets.into_iter().zip(&wanted) {
                    let (front, rest) = set.split_at(SET_WORDS);
                    assert_eq!(front, wanted, "{}", case());
                    assert!(rest.iter().all(|it| *it == filling), "{}", case());
                }
                assert!(left.stack.iter().all(|it| *it == 0), "{}", case());
                self.accepted += 1;
            }
            Err(refusal) => {
                assert_eq!(left.answer, refusal, "{}", case());
                let mut each = sets.into_iter().flatten();
                assert!(each.all(|it| *it == filling), "{}", case());
                let mut stack = left.stack.iter();
                assert!(stack.all(|it| *it == filling as usize), "{}", case());
                self.refused[(refusal & 0xff) as usize] += 1;
            }
        }
    }
}

/// The required inputs by rules 2, if the lists are whole and sound.
fn paper_inputs(scene: &Scene) -> Vec<[u64; 2]> {
    let (components, ports, frontiers) = (&scene.components, &scene.ports, &scene.frontiers);
    if refusals::query(2, components, ports, frontiers, usize::MAX).is_some() {
        return Vec::new();
    }
    let whole = paper::liveness(2, components, ports, frontiers);
    let rows = whole.inputs.iter();
    rows.map(|it| [it.device as u64, it.port as u64]).collect()
}

#[test]
fn slices_of_any_length_and_faulty_lists() {
    let mut called = Called::default();
    let mut random = Random::new(41);
    for scene in exhaustive::scenes().step_by(997) {
        called.hold(&scene);
    }
    for profile in Profile::ALL.into_iter().filter(|it| !it.is_large()) {
        for seed in 160_000..160_004 {
            let scene = profile.scene(seed);
            called.hold(&scene);
            for damage in single(&scene).into_iter().step_by(3) {
                called.hold(&damage.apply(&scene));
            }
        }
    }
    for _ in 0..200 {
        called.hold(&garbage(&mut random));
    }
    println!("input in slices: {called:?}");
    let numbers = [1, 2, 3, 4, 5, 7, 8, 11].map(|number: usize| called.refused[number]);
    assert!(called.accepted > 1_000 && numbers.iter().all(|it| *it > 100));
}
