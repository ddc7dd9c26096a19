//! `light` held to the request restated plainly and to `liveness`; in
//! `light_slices`, by the call itself, to what it may write.

mod light_slices;
#[expect(dead_code, reason = "the grouping connections have no part in it")]
mod typed;

use std::collections::{BTreeMap, BTreeSet};

use dustroute::{
    BlockKind, Component, ComponentId, Lighting, Liveness, PortConnection, Rules, Step,
    TransferKind, light, liveness,
};
use scenes::damage::{pair, single};
use scenes::limits::COMPONENT;
use scenes::random::Random;
use scenes::{Profile, Scene, exhaustive};
use typed::Lists;

/// The drive sources: those by their kind, and the first listed component at
/// each frontier.
fn drive_sources(lists: &Lists) -> BTreeSet<ComponentId> {
    let is_source = |it: &&Component| {
        matches!(
            it.kind,
            BlockKind::Lever
                | BlockKind::Button
                | BlockKind::PressurePlate
                | BlockKind::RedstoneTorch
                | BlockKind::RedstoneBlock
        )
    };
    let by_kind = lists.components.iter().filter(is_source);
    let seen = lists.frontiers.iter().filter_map(|frontier| {
        let mut each = lists.components.iter();
        each.find(|it| it.position == *frontier)
    });
    by_kind.chain(seen).map(|it| it.id).collect()
}

fn carries(it: &&PortConnection) -> bool {
    it.transfer != TransferKind::StructuralSupport
}

/// The old walk: what the drive sources reach, themselves included.
fn reached(lists: &Lists, sources: &BTreeSet<ComponentId>) -> BTreeSet<ComponentId> {
    let mut fed: BTreeMap<ComponentId, Vec<ComponentId>> = BTreeMap::new();
    for it in lists.ports.iter().filter(carries) {
        let sinks = fed.entry(it.source.component).or_default();
        sinks.push(it.sink.component);
    }
    let mut met = BTreeSet::new();
    let mut left: Vec<ComponentId> = sources.iter().copied().collect();
    while let Some(id) = left.pop() {
        if met.insert(id) {
            left.extend(fed.get(&id).into_iter().flatten());
        }
    }
    met
}

/// The request: "marking regions once in number order is enough: a region is
/// driven exactly if it holds a drive source or an already marked region feeds
/// it."
fn one_pass(lists: &Lists, whole: &Liveness, sources: &BTreeSet<ComponentId>) -> Vec<bool> {
    let region: BTreeMap<ComponentId, usize> = whole
        .components
        .iter()
        .map(|it| (it.id, it.region))
        .collect();
    let mut feeding = vec![BTreeSet::new(); whole.regions.len()];
    for it in lists.ports.iter().filter(carries) {
        let [from, to] = [it.source, it.sink].map(|end| region[&end.component]);
        feeding[to].insert(from);
    }
    let mut holds = vec![false; whole.regions.len()];
    for id in sources {
        holds[region[id]] = true;
    }
    let mut marks = vec![false; whole.regions.len()];
    for number in 0..marks.len() {
        // Of the others none is marked yet.
        marks[number] = holds[number] || feeding[number].iter().any(|it| marks[*it]);
    }
    marks
}

/// How often it was asked, and what came up.
#[derive(Default)]
struct Asked {
    accepted: u64,
    refused: u64,
    /// Regions that hold a drive source; that are lit and hold none; the others.
    sources: u64,
    fed: u64,
    dark: u64,
    /// Lit regions of two components or more.
    shared: u64,
}

impl Asked {
    fn hold(&mut self, scene: &Scene, case: &str) {
        // A damaged number may be no kind or face.
        let Some(lists) = Lists::of(scene) else {
            return;
        };
        let Lists {
            components,
            ports,
            frontiers,
            ..
        } = &lists;
        // They go round, and nothing here depends on them.
        let rules = Rules::ALL[(self.accepted % 3) as usize];
        let lighting = light(rules, components, ports, frontiers);
        let whole = liveness(rules, components, ports, frontiers);
        let (lighting, whole) = match (lighting, whole) {
            (Ok(lighting), Ok(whole)) => (lighting, whole),
            (lighting, whole) => {
                assert_eq!(lighting.err(), whole.err(), "{case}");
                self.refused += 1;
                return;
            }
        };
        self.accepted += 1;
        let sources = drive_sources(&lists);
        let met = reached(&lists, &sources);
        assert_eq!(lighting.components.len(), components.len(), "{case}");
        for (it, other) in lighting.components.iter().zip(&whole.components) {
            let wanted = (other.id, other.region, other.drive);
            assert_eq!((it.id, it.region, it.driven), wanted, "{case}");
            assert_eq!(it.driven, met.contains(&it.id), "{case}");
        }
        assert_eq!(lighting.lit, one_pass(&lists, &whole, &sources), "{case}");
        self.hold_steps(&lists, &lighting, case);
        for (lit, region) in lighting.lit.iter().zip(&whole.regions) {
            self.sources += u64::from(region.has_drive);
            self.fed += u64::from(*lit && !region.has_drive);
            self.dark += u64::from(!lit);
        }
    }

    /// The driven components are whole regions, and no step comes before one
    /// that feeds it.
    fn hold_steps(&mut self, lists: &Lists, lighting: &Lighting, case: &str) {
        let driven: BTreeSet<ComponentId> = lighting
            .components
            .iter()
            .filter(|it| it.driven)
            .map(|it| it.id)
            .collect();
        let mut step: BTreeMap<ComponentId, usize> = BTreeMap::new();
        for (
            place,
            Step {
                region,
                blocks,
                lights,
            },
        ) in lighting.steps().enumerate()
        {
            assert_eq!(region, place, "{case}");
            assert!(!blocks.is_empty(), "{case}: step {place}");
            let each = blocks.iter().all(|id| driven.contains(id) == lights);
            assert!(each, "{case}: step {place}");
            self.shared += u64::from(lights && blocks.len() > 1);
            step.extend(blocks.into_iter().map(|id| (id, place)));
        }
        assert_eq!(step.len(), lists.components.len(), "{case}");
        for it in lists.ports.iter().filter(carries) {
            let [from, to] = [it.source, it.sink].map(|end| step[&end.component]);
            assert!(from <= to, "{case}: {it:?}");
        }
    }

    fn assert_met(&self, name: &str) {
        let Self {
            accepted,
            refused,
            sources,
            fed,
            dark,
            shared,
        } = self;
        println!(
            "{name}: {accepted} scenes lit, {refused} refused; regions: {sources} with a drive \
             source, {fed} lit by others, {dark} dark, {shared} of those lit with two blocks or more"
        );
        assert!([sources, fed, dark, shared].iter().all(|it| **it > 100));
    }
}

#[test]
fn every_scene_of_the_profiles() {
    let mut asked = Asked::default();
    for profile in Profile::ALL {
        let seeds = if profile.is_large() { 40 } else { 8_000 };
        for seed in 70_000..70_000 + seeds {
            let case = format!("{} seed {seed}", profile.name());
            asked.hold(&profile.scene(seed), &case);
        }
    }
    asked.assert_met("profiles");
}

#[test]
fn every_small_scene() {
    let mut asked = Asked::default();
    for (place, scene) in exhaustive::scenes().enumerate() {
        asked.hold(&scene, &format!("scene {place}"));
    }
    asked.assert_met("small scenes");
}

/// All directed graphs over four blocks, their ids in every order: wires, with
/// a lever at each place in turn, or none.
#[test]
fn every_graph_of_four_blocks() {
    let mut asked = Asked::default();
    for (place, mut scene) in exhaustive::graphs().enumerate() {
        let rows = scene.connections.chunks_exact(3);
        let ports = rows.flat_map(|row| {
            let transfer = if row[2] == 9 { 6 } else { row[2] % 6 };
            [row[0], 0, row[1], 0, transfer]
        });
        scene.ports = ports.collect();
        scene.connections.clear();
        if let Some(kind) = scene.components.get_mut(place % 5 * COMPONENT + 4) {
            *kind = 4;
        }
        asked.hold(&scene, &format!("graph {place}"));
    }
    asked.assert_met("graphs");
}

/// One fault and two at once: the refusal is that of the whole analysis.
#[test]
fn damaged_scenes_are_refused_in_the_same_words() {
    let mut asked = Asked::default();
    let mut random = Random::new(23);
    for profile in Profile::ALL.into_iter().filter(|it| !it.is_large()) {
        for seed in 80_000..80_020 {
            let scene = profile.scene(seed);
            for damage in single(&scene) {
                let case = format!("{} seed {seed}, {damage:?}", profile.name());
                asked.hold(&damage.apply(&scene), &case);
            }
            if let Some([one, other]) = pair(&scene, &mut random) {
                let case = format!("{} seed {seed}, {one:?}, {other:?}", profile.name());
                asked.hold(&other.apply(&one.apply(&scene)), &case);
            }
        }
    }
    asked.assert_met("damaged");
    assert!(asked.refused > 100);
}
