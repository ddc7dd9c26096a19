//! `rings` held to a search of all simple cycles on small plots, to the
//! restatement (for each connection a search for another way back) on all, and to
//! `liveness`; in `ring_slices`, by the call itself, to what it may write.

mod ring_plots;
mod ring_slices;
#[expect(dead_code, reason = "the grouping connections have no part in it")]
mod typed;

use std::collections::{BTreeMap, BTreeSet};
use std::error::Error;
use std::fs;
use std::path::PathBuf;

use dustroute::{
    Component, ComponentId, Liveness, PortConnection, Rings, Rules, TransferKind, liveness, ports,
    read_sheet, rings,
};
use ring_plots::{drawn, graph, graphs};
use scenes::damage::{pair, single};
use scenes::random::Random;
use scenes::{Profile, Scene, exhaustive};
use typed::Lists;

/// Who feeds whom, supports left out.
fn feeds(ports: &[PortConnection]) -> BTreeSet<[ComponentId; 2]> {
    let signals = ports.iter();
    let signals = signals.filter(|it| it.transfer != TransferKind::StructuralSupport);
    signals
        .map(|it| [it.source.component, it.sink.component])
        .collect()
}

/// Whether the chain can be made longer, through distinct components, until its
/// last feeds its first: the definition, tried out.
fn closes(
    chain: &mut Vec<ComponentId>,
    all: &[Component],
    feeds: &BTreeSet<[ComponentId; 2]>,
) -> bool {
    let (Some(&first), Some(&last)) = (chain.first(), chain.last()) else {
        return false;
    };
    if chain.len() != 2 && feeds.contains(&[last, first]) {
        return true;
    }
    for next in all.iter().map(|it| it.id) {
        if feeds.contains(&[last, next]) && !chain.contains(&next) {
            chain.push(next);
            if closes(chain, all, feeds) {
                return true;
            }
            chain.pop();
        }
    }
    false
}

/// The regions that are a tree joined both ways: two members or more, each
/// connection inside with one back, none to itself, one pair fewer than members.
fn two_way_trees(
    count: usize,
    region: &BTreeMap<ComponentId, usize>,
    feeds: &BTreeSet<[ComponentId; 2]>,
) -> Vec<bool> {
    let (mut members, mut pairs) = (vec![0; count], vec![0; count]);
    let mut is_two_way = vec![true; count];
    for it in region.values() {
        members[*it] += 1;
    }
    for &[source, sink] in feeds {
        let here = region[&source];
        if here == region[&sink] {
            is_two_way[here] &= source != sink && feeds.contains(&[sink, source]);
            pairs[here] += usize::from(source < sink);
        }
    }
    let is_tree = |it: usize| members[it] >= 2 && is_two_way[it] && pairs[it] + 1 == members[it];
    (0..count).map(is_tree).collect()
}

/// How often it was asked, and what came up.
#[derive(Debug, Default)]
struct Asked {
    accepted: u64,
    refused: u64,
    /// Regions with a ring; cyclic ones without; the others.
    rings: u64,
    trees: u64,
    plain: u64,
}

impl Asked {
    /// With a search of all simple cycles where the plot is small.
    fn hold(&mut self, scene: &Scene, is_small: bool, case: &str) {
        // A damaged number may be no kind or face.
        let Some(lists) = Lists::of(scene) else {
            return;
        };
        let (components, ports) = (&lists.components, &lists.ports);
        // They go round, and nothing here depends on them.
        let rules = Rules::ALL[(self.accepted % 3) as usize];
        let found = rings(rules, components, ports, &lists.frontiers);
        let whole = liveness(rules, components, ports, &lists.frontiers);
        let (found, whole) = match (found, whole) {
            (Ok(found), Ok(whole)) => (found, whole),
            (found, whole) => {
                assert_eq!(found.err(), whole.err(), "{case}{scene}");
                self.refused += 1;
                return;
            }
        };
        self.accepted += 1;
        let stated = paper::rings(&scene.components, &scene.ports);
        assert_eq!(found.rings, stated.has_ring, "{case}{scene}");
        for (it, region) in found.components.iter().zip(&stated.region) {
            assert_eq!(it.region, *region, "{case}{scene}");
        }
        let feeds = feeds(ports);
        if is_small {
            let mut on_ring = vec![false; found.rings.len()];
            for it in &found.components {
                on_ring[it.region] |= closes(&mut vec![it.id], components, &feeds);
            }
            assert_eq!(found.rings, on_ring, "{case}{scene}");
        }
        self.hold_beside(&found, &whole, &feeds, &format!("{case}{scene}"));
    }

    /// Regions are those of `liveness`; a ring makes one cyclic, and one that is
    /// cyclic without is a tree joined both ways.
    fn hold_beside(
        &mut self,
        found: &Rings,
        whole: &Liveness,
        feeds: &BTreeSet<[ComponentId; 2]>,
        case: &str,
    ) {
        let mine = found.components.iter().map(|it| (it.id, it.region));
        let others = whole.components.iter().map(|it| (it.id, it.region));
        assert!(mine.clone().eq(others), "{case}");
        let region: BTreeMap<ComponentId, usize> = mine.collect();
        let around: BTreeSet<ComponentId> = found.around().collect();
        assert!(
            region
                .iter()
                .all(|(id, it)| around.contains(id) == found.has_ring(*it)),
            "{case}"
        );
        assert_eq!(found.rings.len(), whole.regions.len(), "{case}");
        assert!(!found.has_ring(found.rings.len()), "{case}");
        let trees = two_way_trees(whole.regions.len(), &region, feeds);
        for (number, (it, is_tree)) in whole.regions.iter().zip(trees).enumerate() {
            let has = found.has_ring(number);
            assert!(it.cyclic || !has, "{case}");
            assert_eq!(it.cyclic && !has, is_tree, "{case}");
            self.rings += u64::from(has);
            self.trees += u64::from(is_tree);
            self.plain += u64::from(!it.cyclic);
        }
    }

    fn assert_met(&self, name: &str) {
        let Self {
            accepted,
            refused,
            rings,
            trees,
            plain,
        } = self;
        println!(
            "{name}: {accepted} scenes, {refused} refused; regions: {rings} with a ring, {trees} \
             cyclic without, {plain} not cyclic"
        );
        assert!([rings, trees, plain].iter().all(|it| **it > 100));
    }
}

/// The rings of a plot given by what feeds what; ids are places.
fn of(count: u32, feeds: &[[i64; 2]]) -> Vec<bool> {
    let mut scene = graph(count, 0);
    let places = feeds.iter().map(|pair| pair.map(|it| 10 * it + 3));
    scene.ports = places.flat_map(|[a, b]| [a, 1, b, 3, 0]).collect();
    let Some(lists) = Lists::of(&scene) else {
        return Vec::new();
    };
    let found = rings(Rules::Two, &lists.components, &lists.ports, &[]);
    found.map(|it| it.rings).unwrap_or_default()
}

#[test]
fn plots_of_the_request() {
    // The founding row, each feeding the next; five in a row, joined both ways.
    assert_eq!(of(3, &[[0, 1], [1, 2]]), [false; 3]);
    let row: Vec<[i64; 2]> = (0..4).flat_map(|k| [[k, k + 1], [k + 1, k]]).collect();
    assert_eq!(of(5, &row), [false]);
    // A triangle, one way round and both ways; a device that feeds itself round
    // four blocks; a wire connected to itself.
    assert_eq!(of(3, &[[0, 1], [1, 2], [2, 0]]), [true]);
    let both = [[0, 1], [1, 0], [1, 2], [2, 1], [2, 0], [0, 2]];
    assert_eq!(of(3, &both), [true]);
    assert_eq!(of(5, &[[0, 1], [1, 2], [2, 3], [3, 4], [4, 0]]), [true]);
    assert_eq!(of(1, &[[0, 0]]), [true]);
    assert_eq!(of(2, &[[0, 1], [1, 0]]), [false]);
    assert_eq!(of(2, &[[0, 1], [1, 0], [1, 1]]), [true]);
}

/// What examples/README.md says: of the sheets, and of the scenes that are
/// accepted, the three wires that feed each other alone have a ring.
#[test]
fn of_the_examples_the_loop_alone() -> Result<(), Box<dyn Error>> {
    let folder = PathBuf::from(env!("CARGO_MANIFEST_DIR")).join("../../examples");
    let mut looped = BTreeMap::new();
    for entry in fs::read_dir(folder)? {
        let path = entry?.path();
        let name = path
            .file_name()
            .unwrap_or_default()
            .to_string_lossy()
            .into_owned();
        if !name.ends_with(".sheet") && !name.ends_with(".txt") {
            continue;
        }
        let found = if name.ends_with(".sheet") {
            let sheet = read_sheet(&fs::read(path)?)?;
            let fed = ports(sheet.rules, &sheet.components, &sheet.connections)?.connections();
            rings(sheet.rules, &sheet.components, &fed, &sheet.frontiers)
        } else {
            let text = fs::read_to_string(path)?;
            let list = |word: &str| -> Vec<i64> {
                let line = text.lines().find_map(|line| line.strip_prefix(word));
                let numbers = line.unwrap_or_default().split_whitespace();
                numbers.map(|it| it.parse().unwrap_or(-1)).collect()
            };
            let scene = Scene {
                components: list("components"),
                ports: list("ports"),
                ..Scene::default()
            };
            let lists = Lists::of(&scene).ok_or("no lists")?;
            rings(Rules::Two, &lists.components, &lists.ports, &[])
        };
        looped.insert(name, found.is_ok_and(|it| it.rings.contains(&true)));
    }
    assert!(looped.len() > 10);
    for (name, has) in looped {
        assert_eq!(has, name.starts_with("three-wire-loop"), "{name}");
    }
    Ok(())
}

/// All 66,066, those with wires that feed themselves among them.
#[test]
fn every_graph_of_up_to_four_wires() {
    let mut asked = Asked::default();
    for (place, scene) in graphs().enumerate() {
        asked.hold(&scene, true, &format!("graph {place}"));
    }
    asked.assert_met("graphs");
    assert_eq!(asked.accepted, 66_066);
}

/// All directed graphs over four wires, their ids in every order, some of the
/// connections supports.
#[test]
fn every_order_of_four_wires() {
    let mut asked = Asked::default();
    for (place, mut scene) in exhaustive::graphs().enumerate() {
        let rows = scene.connections.chunks_exact(3);
        let ports = rows.flat_map(|row| {
            let transfer = if row[2] == 9 { 6 } else { row[2] % 6 };
            [row[0], 0, row[1], 0, transfer]
        });
        scene.ports = ports.collect();
        scene.connections.clear();
        asked.hold(&scene, true, &format!("graph {place}"));
    }
    asked.assert_met("orders");
}

/// Graphs over five wires, drawn.
#[test]
fn graphs_of_five_wires() {
    let mut asked = Asked::default();
    let mut random = Random::new(31);
    for _ in 0..80_000 {
        let mut code = random.next() as u32 & ((1 << 25) - 1);
        // Half of them sparser, in which rings are few.
        if random.once_in(2) {
            code &= random.next() as u32 & random.next() as u32;
        }
        asked.hold(&graph(5, code), true, &format!("graph {code:x}"));
    }
    asked.assert_met("five wires");
}

#[test]
fn every_small_scene() {
    let mut asked = Asked::default();
    for (place, scene) in exhaustive::scenes().enumerate() {
        asked.hold(&scene, true, &format!("scene {place}"));
    }
    asked.assert_met("small scenes");
}

#[test]
fn every_scene_of_the_profiles() {
    let mut asked = Asked::default();
    for profile in Profile::ALL {
        let seeds = if profile.is_large() { 40 } else { 8_000 };
        for seed in 75_000..75_000 + seeds {
            let case = format!("{} seed {seed}", profile.name());
            asked.hold(&profile.scene(seed), false, &case);
        }
    }
    asked.assert_met("profiles");
}

/// Near the border: trees joined both ways, a connection more or less, to the
/// full size.
#[test]
fn drawn_plots() {
    let mut asked = Asked::default();
    let mut random = Random::new(37);
    for (most, count) in [(12, 100_000), (60, 20_000), (1_024, 400)] {
        for place in 0..count {
            let scene = drawn(most, &mut random);
            asked.hold(&scene, false, &format!("up to {most}, {place}"));
        }
    }
    asked.assert_met("drawn");
}

/// One fault and two at once: the refusal is that of the whole analysis.
#[test]
fn damaged_scenes_are_refused_in_the_same_words() {
    let mut asked = Asked::default();
    let mut random = Random::new(29);
    for profile in Profile::ALL.into_iter().filter(|it| !it.is_large()) {
        for seed in 85_000..85_020 {
            let scene = profile.scene(seed);
            for damage in single(&scene) {
                let case = format!("{} seed {seed}, {damage:?}", profile.name());
                asked.hold(&damage.apply(&scene), false, &case);
            }
            if let Some([one, other]) = pair(&scene, &mut random) {
                let case = format!("{} seed {seed}, {one:?}, {other:?}", profile.name());
                asked.hold(&other.apply(&one.apply(&scene)), false, &case);
            }
        }
    }
    asked.assert_met("damaged");
    assert!(asked.refused > 100);
}
