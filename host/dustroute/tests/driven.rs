//! `driven` held to the verdicts of `liveness`, and to what is proved of the
//! components that its search meets, by the rules of either year.

#[expect(dead_code, reason = "the grouping connections have no part in it")]
mod typed;

use std::collections::{BTreeMap, BTreeSet};

use dustroute::{
    ComponentId, Liveness, PortConnection, PortRef, Reason, Refusal, RequiredInputStatus, Rules,
    SignalSourceKind, TransferKind, driven, liveness,
};
use scenes::damage::{pair, single};
use scenes::random::Random;
use scenes::{Profile, Scene, exhaustive, lamps};
use typed::Lists;

/// The request restated: upstream from an input, sources by rising id and each
/// one's own before the next, until the first drive source is met. Whether it
/// stopped, and the components met.
fn search(
    connections: &[PortConnection],
    input: PortRef,
    drive: &BTreeSet<ComponentId>,
) -> (bool, BTreeSet<ComponentId>) {
    let mut feeding: BTreeMap<ComponentId, BTreeSet<ComponentId>> = BTreeMap::new();
    let mut immediate = BTreeSet::new();
    for it in connections {
        if it.transfer == TransferKind::StructuralSupport {
            continue;
        }
        let sources = feeding.entry(it.sink.component).or_default();
        sources.insert(it.source.component);
        if it.sink == input {
            immediate.insert(it.source.component);
        }
    }
    let mut met = BTreeSet::new();
    // The next one stands last.
    let mut left: Vec<ComponentId> = immediate.into_iter().rev().collect();
    while let Some(id) = left.pop() {
        if met.insert(id) {
            if drive.contains(&id) {
                return (true, met);
            }
            left.extend(feeding.get(&id).into_iter().flatten().rev());
        }
    }
    (false, met)
}

fn drive_sources(found: &Liveness) -> BTreeSet<ComponentId> {
    let inferred = SignalSourceKind::InferredPrimaryInput;
    let drive = found.sources.iter().filter(|it| it.kind != inferred);
    drive.map(|it| it.component).collect()
}

/// The rules, and how many answers were yes, no, and a yes before all upstream
/// was met.
struct Asked {
    rules: Rules,
    yes: u64,
    no: u64,
    early: u64,
    refused: u64,
}

impl Asked {
    const fn by(rules: Rules) -> Self {
        Self {
            rules,
            yes: 0,
            no: 0,
            early: 0,
            refused: 0,
        }
    }

    /// Every verdict of a scene, or its refusal.
    fn hold(&mut self, scene: &Scene, case: &str) {
        // A damaged number may be no kind or face.
        let Some(lists) = Lists::of(scene) else {
            return;
        };
        let Lists {
            components,
            ports,
            frontiers,
            ..
        } = &lists;
        let rules = self.rules;
        let whole = liveness(rules, components, ports, frontiers);
        let Ok(whole) = whole else {
            let nobody = PortRef::new(ComponentId(0), 0);
            let asked = driven(rules, components, ports, frontiers, nobody);
            assert_eq!(asked.err(), whole.err(), "{case}");
            self.refused += 1;
            return;
        };
        let sources = drive_sources(&whole);
        for row in whole.inputs.iter().take(40) {
            let found = driven(rules, components, ports, frontiers, row.input);
            let Ok(found) = found else {
                panic!("{case}: {found:?} of {row:?}");
            };
            let is = row.status == RequiredInputStatus::DrivenByKnownSource;
            assert_eq!(found.driven, is, "{case}: {row:?}");
            let met: BTreeSet<ComponentId> = found.met.iter().copied().collect();
            let (stopped, wanted) = search(ports, row.input, &sources);
            assert_eq!((found.driven, &met), (stopped, &wanted), "{case}: {row:?}");
            let (_, all) = search(ports, row.input, &BTreeSet::new());
            assert!(met.is_subset(&all), "{case}: {row:?}");
            let ends = met.intersection(&sources).count();
            assert_eq!(ends, usize::from(found.driven), "{case}: {row:?}");
            self.yes += u64::from(found.driven);
            self.no += u64::from(!found.driven);
            self.early += u64::from(met.len() < all.len());
        }
    }

    fn assert_met(&self, name: &str) {
        let Self {
            yes,
            no,
            early,
            refused,
            rules,
        } = self;
        println!(
            "{rules}, {name}: {yes} driven, {early} of them before all upstream was met, {no} not; \
             {refused} scenes refused"
        );
        assert!(*yes > 100 && *no > 100 && *early > 100);
    }
}

#[test]
fn every_verdict_of_the_profiles() {
    let mut asked = Asked::by(Rules::One);
    for profile in Profile::ALL {
        let seeds = if profile.is_large() { 2 } else { 2_000 };
        for seed in 50_000..50_000 + seeds {
            let case = format!("{} seed {seed}", profile.name());
            asked.hold(&profile.scene(seed), &case);
        }
    }
    asked.assert_met("profiles");
}

#[test]
fn every_verdict_of_the_small_scenes() {
    let mut asked = Asked::by(Rules::One);
    for (place, scene) in exhaustive::scenes().enumerate() {
        asked.hold(&scene, &format!("scene {place}"));
    }
    asked.assert_met("small scenes");
}

/// Lamps tell the rules apart, but not what is driven.
#[test]
fn every_verdict_of_the_plots_with_lamps() {
    for rules in Rules::ALL {
        let mut asked = Asked::by(rules);
        for (place, scene) in lamps::plots().enumerate() {
            asked.hold(&scene, &format!("{rules}, plot {place}"));
        }
        asked.assert_met("small plots with lamps");
        let mut asked = Asked::by(rules);
        for seed in 400_000..500_000 {
            let case = format!("{rules}, lamps seed {seed}");
            asked.hold(&lamps::scene(seed), &case);
        }
        asked.assert_met("drawn plots with lamps");
    }
}

/// One fault and two at once: the refusal is that of the whole analysis.
#[test]
fn damaged_scenes_are_refused_in_the_same_words() {
    let mut asked = Asked::by(Rules::One);
    let mut random = Random::new(17);
    for profile in Profile::ALL.into_iter().filter(|it| !it.is_large()) {
        for seed in 60_000..60_010 {
            let scene = profile.scene(seed);
            for damage in single(&scene) {
                let case = format!("{} seed {seed}, {damage:?}", profile.name());
                asked.hold(&damage.apply(&scene), &case);
            }
            if let Some([one, other]) = pair(&scene, &mut random) {
                let case = format!("{} seed {seed}, {one:?}, {other:?}", profile.name());
                asked.hold(&other.apply(&one.apply(&scene)), &case);
            }
        }
    }
    asked.assert_met("damaged");
    assert!(asked.refused > 100);
}

#[test]
fn a_port_without_a_verdict_is_refused() {
    let nothing = PortRef::new(ComponentId(0), 0);
    let refusal = Refusal {
        reason: Reason::NoVerdict,
        place: None,
    };
    for rules in Rules::ALL {
        assert_eq!(driven(rules, &[], &[], &[], nothing), Err(refusal));
    }
}
