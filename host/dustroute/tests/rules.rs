//! The rules of every school year by the typed functions: what `liveness` says by
//! each is the restatement's, and what must not depend on rules 1 or 2 does
//! not. By a number that is not known nothing is answered and nothing written.

mod answers;
mod typed;

use answers::hold_liveness;
use dustroute::bytes::{self, Lent};
use dustroute::{
    BlockKind, Liveness, Reason, Refusal, RequiredInputStatus, Rules, SignalSource,
    SignalSourceKind, check_trail, clear, driven, groups, light, liveness, ports, reach_table,
    rings, trail, what_if, what_if_joined,
};
use scenes::limits::{LAST_RULES, PASSIVE_LAMPS, RULES_OF_THE_RUST, UNREAD_BLANKS};
use scenes::{Profile, Scene, exhaustive, lamps};
use typed::Lists;

/// A scene that can be typed, with the words that name it.
type Named = (Lists, Scene, String);

/// Small and drawn plots with lamps, and scenes of every profile.
fn plots(step: usize, drawn: u64) -> impl Iterator<Item = Named> {
    let small = lamps::plots().enumerate().step_by(step);
    let small = small.map(|(place, scene)| (scene, format!("plot {place}")));
    let seeds = 600_000..600_000 + drawn;
    let drawn_plots = seeds.map(|seed| (lamps::scene(seed), format!("lamps seed {seed}")));
    let of_profiles = Profile::ALL.into_iter().flat_map(move |profile| {
        let seeds = if profile.is_large() { 3 } else { drawn / 100 };
        (0..seeds).map(move |seed| {
            let case = format!("{} seed {seed}", profile.name());
            (profile.scene(seed), case)
        })
    });
    let all = small.chain(drawn_plots).chain(of_profiles);
    all.filter_map(|(scene, case)| Some((Lists::of(&scene)?, scene, case)))
}

#[test]
fn the_numbers_are_those_of_the_judge() {
    let numbers = Rules::ALL.map(Rules::number);
    assert_eq!(numbers, [RULES_OF_THE_RUST, PASSIVE_LAMPS, UNREAD_BLANKS]);
    assert_eq!(numbers.last(), Some(&LAST_RULES));
}

#[test]
fn liveness_by_each_is_the_restatement() {
    let mut counts = [0_u64; 3];
    for (lists, scene, case) in plots(3, 60_000) {
        for (rules, count) in Rules::ALL.into_iter().zip(&mut counts) {
            let Scene {
                components,
                ports,
                frontiers,
                ..
            } = &scene;
            let wanted = paper::liveness(rules.number(), components, ports, frontiers);
            match liveness(rules, &lists.components, &lists.ports, &lists.frontiers) {
                Ok(given) => hold_liveness(&given, &wanted, &format!("{rules}, {case}{scene}")),
                Err(refusal) => panic!("{rules}, {case}: {refusal}{scene}"),
            }
            *count += 1;
        }
    }
    println!("typed liveness by rules 1, 2 and 3: {counts:?} scenes");
    assert!(counts.iter().all(|count| *count > 100_000));
}

fn drive_sources(found: &Liveness) -> Vec<SignalSource> {
    let rows = found.sources.iter().copied();
    let inferred = SignalSourceKind::InferredPrimaryInput;
    rows.filter(|it| it.kind != inferred).collect()
}

/// What differs, of what may.
#[derive(Debug, Default)]
struct Met {
    scenes: u64,
    without_a_lamp: u64,
    different: u64,
    inferred_more: usize,
    await_now: usize,
}

impl Met {
    fn hold(&mut self, lists: &Lists, case: &str) -> Result<(), Refusal> {
        let (components, frontiers) = (&lists.components, &lists.frontiers);
        let old = liveness(Rules::One, components, &lists.ports, frontiers)?;
        let new = liveness(Rules::Two, components, &lists.ports, frontiers)?;
        let has_lamp = |kind| kind == BlockKind::RedstoneLamp;
        if !components.iter().any(|it| has_lamp(it.kind)) {
            assert_eq!(old, new, "{case}");
            self.without_a_lamp += 1;
        }
        assert_eq!(old.regions, new.regions, "{case}");
        assert_eq!(drive_sources(&old), drive_sources(&new), "{case}");
        for (old, new) in old.components.iter().zip(&new.components) {
            let [same, other] = [old, new].map(|it| (it.id, it.region, it.drive));
            assert_eq!(same, other, "{case}");
            assert!(new.potential || !old.potential, "{case}");
        }
        assert_eq!(old.inputs.len(), new.inputs.len(), "{case}");
        for (before, after) in old.inputs.iter().zip(&new.inputs) {
            assert_eq!(before.input, after.input, "{case}");
            if before.status != after.status {
                assert_eq!(before.status, RequiredInputStatus::NoKnownSource, "{case}");
                assert_eq!(
                    after.status,
                    RequiredInputStatus::AwaitingExternalInput,
                    "{case}"
                );
                self.await_now += 1;
            }
        }
        assert!(
            old.sources.iter().all(|it| new.sources.contains(it)),
            "{case}"
        );
        self.inferred_more += new.sources.len() - old.sources.len();
        self.different += u64::from(old != new);
        self.scenes += 1;
        Ok(())
    }
}

#[test]
fn drive_regions_and_status_0_do_not_depend_on_the_rules() -> Result<(), Refusal> {
    let mut met = Met::default();
    for (lists, _, case) in plots(1, 150_000) {
        met.hold(&lists, &case)?;
    }
    println!("typed liveness under both rules: {met:?}");
    let Met {
        without_a_lamp,
        different,
        inferred_more,
        await_now,
        ..
    } = met;
    assert!(without_a_lamp > 10_000 && different > 10_000);
    assert!(inferred_more > 10_000 && await_now > 1_000);
    Ok(())
}

/// Whether both rules give one answer.
fn same<T: PartialEq>(call: impl Fn(Rules) -> T) -> bool {
    let [old, new] = [Rules::One, Rules::Two].map(call);
    old == new
}

/// Every other function answers the same by either rules, or refuses the same.
#[test]
fn the_other_functions_do_not_depend_on_the_rules() -> Result<(), Refusal> {
    let (mut scenes, mut inputs) = (0_u64, 0_u64);
    let bad = exhaustive::lists().enumerate().step_by(97);
    let bad = bad.map(|(place, scene)| (scene, format!("list {place}")));
    let bad = bad.filter_map(|(scene, case)| Some((Lists::of(&scene)?, scene, case)));
    for (lists, _, case) in plots(7, 10_000).chain(bad) {
        let Lists {
            components,
            connections,
            ports: fed,
            frontiers,
        } = &lists;
        assert!(
            same(|rules| groups(rules, components, connections)),
            "{case}"
        );
        assert!(
            same(|rules| ports(rules, components, connections)),
            "{case}"
        );
        assert!(
            same(|rules| clear(rules, components, fed, frontiers)),
            "{case}"
        );
        assert!(
            same(|rules| light(rules, components, fed, frontiers)),
            "{case}"
        );
        assert!(
            same(|rules| rings(rules, components, fed, frontiers)),
            "{case}"
        );
        if components.len() < 64 {
            let table = |rules| reach_table(rules, components, fed, frontiers);
            assert!(same(table), "{case}");
        }
        if let Some(extra) = connections.first() {
            let joined = |rules| what_if_joined(rules, components, connections, *extra);
            assert!(same(joined), "{case}");
        }
        scenes += 1;
        let Ok(found) = liveness(Rules::Two, components, fed, frontiers) else {
            continue;
        };
        for row in found.inputs.iter().take(8) {
            let asked = |rules| driven(rules, components, fed, frontiers, row.input);
            assert!(same(asked), "{case} {row:?}");
            let way = |rules| trail(rules, components, fed, frontiers, row.input);
            assert!(same(way), "{case} {row:?}");
            let ids = way(Rules::One).unwrap_or_default();
            let check = |rules| check_trail(rules, components, fed, frontiers, row.input, &ids);
            assert!(same(check), "{case} {row:?}");
            inputs += 1;
        }
        if let Some(extra) = fed.first() {
            let newly = |rules| {
                let change = what_if(rules, components, fed, frontiers, *extra);
                change.map(|it| it.newly_driven)
            };
            assert!(same(newly), "{case}");
        }
    }
    println!("the other functions under both rules: {scenes} scenes, {inputs} inputs");
    assert!(scenes > 30_000 && inputs > 10_000);
    Ok(())
}

/// Refused by the calls on bytes, before a list that is no list, and nothing is
/// written; the typed calls know no other rules than these.
#[test]
fn unknown_numbers_are_refused() {
    let refusal = Refusal {
        reason: Reason::UnknownRules,
        place: None,
    };
    let numbers = [i64::MIN, -1, 0, 4, 5, 256 + 1, (1 << 32) + 1, i64::MAX];
    for rules in numbers {
        assert_eq!(Rules::try_from(rules), Err(refusal));
        for length in [0, 7, 64, 64 * 1_025 + 3] {
            let list = vec![0xff; length];
            let mut slices = [(); 5].map(|()| vec![0xa5; 700]);
            let [regions, sources, inputs, sets, stack] = &mut slices;
            let answer = bytes::groups(rules, &list, &list, regions, sources);
            assert_eq!(Refusal::of(answer), Some(refusal), "{rules}, {length}");
            let lent = Lent {
                regions,
                sources,
                inputs,
                sets,
                stack,
            };
            let answer = bytes::liveness(rules, &list, &list, &list, lent);
            assert_eq!(Refusal::of(answer), Some(refusal), "{rules}, {length}");
            let mut written = slices.iter().flatten();
            assert!(written.all(|byte| *byte == 0xa5), "{rules}, {length}");
        }
    }
}

#[test]
fn the_archive_has_the_interface_of_the_crate() {
    assert_eq!((dustroute::INTERFACE, dustroute::interface()), (2, 2));
}
