//! The slow region finder held to a breadth-first search from each component,
//! and its regions to those of `liveness`.

mod squares;
#[expect(dead_code, reason = "the grouping connections have no part in it")]
mod typed;

use std::collections::BTreeMap;

use dustroute::{Refusal, liveness, reach_table};
use scenes::damage::{garbage, pair, single};
use scenes::limits::{COMPONENT, PORT_CONNECTION, SUPPORT};
use scenes::random::Random;
use scenes::{Profile, Scene, exhaustive, refusals};
use squares::{RULES, Slices, enough};
use typed::Lists;

/// The request restated, without a table: from each component a breadth-first
/// search along the connections that are no support, by list place.
fn searched(scene: &Scene) -> Vec<u8> {
    let ids = scene.components.chunks(COMPONENT).map(|it| it[0]);
    let places: BTreeMap<i64, usize> = ids.zip(0..).collect();
    let side = places.len();
    let mut next = vec![Vec::new(); side];
    for port in scene.ports.chunks(PORT_CONNECTION) {
        if port[4] != SUPPORT {
            next[places[&port[0]]].push(places[&port[2]]);
        }
    }
    let mut square = vec![0; side * side];
    for (start, row) in square.chunks_mut(side.max(1)).enumerate() {
        let mut queue = vec![start];
        row[start] = 1;
        let mut looked_at = 0;
        while let Some(&place) = queue.get(looked_at) {
            looked_at += 1;
            for &sink in &next[place] {
                if row[sink] == 0 {
                    row[sink] = 1;
                    queue.push(sink);
                }
            }
        }
    }
    square
}

#[derive(Default)]
struct Met {
    accepted: u64,
    refused: u64,
    /// Scenes with a region of two or more, and places of 1 off the diagonal.
    joined: u64,
    ones: u64,
    by_number: BTreeMap<u64, u64>,
}

impl Met {
    /// The scene is accepted: the table is the searched one, regions and count
    /// are those of the quick walk, and all else is as it was.
    fn accepted(&mut self, scene: &Scene, more: usize, case: &str) {
        let [places, side, work] = enough(scene);
        let mut slices = Slices::dirty([places + more, side + more, work + more]);
        let answer = slices.call(scene);
        assert_eq!(answer & 0xffff, 0, "{case}");
        let count = answer >> 16;
        let square = searched(scene);
        let mut wanted = Slices::dirty([places + more, side + more, work + more]);
        Slices::lent(&mut wanted.square)[..places].copy_from_slice(&square);
        Slices::lent(&mut wanted.stack).fill(0);
        let quick = Self::quick(scene, case);
        Slices::lent(&mut wanted.regions)[..side].copy_from_slice(&quick);
        assert!(slices == wanted, "{case}");
        let regions = quick.iter().max().map_or(0, |most| most + 1);
        assert_eq!(count, regions, "{case}");
        let ones: u64 = square.iter().map(|it| u64::from(*it)).sum();
        self.accepted += 1;
        self.joined += u64::from(count < side as u64);
        self.ones += ones - side as u64;
    }

    /// The region of each component by the liveness entry. The grouping
    /// connections, which may be damaged, have no part in it.
    fn quick(scene: &Scene, case: &str) -> Vec<u64> {
        let scene = Scene {
            connections: Vec::new(),
            ..scene.clone()
        };
        let lists = Lists::of(&scene).unwrap_or_else(|| panic!("{case}: no lists"));
        let found = liveness(RULES, &lists.components, &lists.ports, &lists.frontiers);
        let found = found.unwrap_or_else(|refusal| panic!("{case}: {refusal}"));
        let regions = found.components.iter().map(|it| it.region as u64);
        regions.collect()
    }

    /// Any lists and any lengths: the refusal of the restatement, or an answer.
    fn any(&mut self, scene: &Scene, lengths: [usize; 3], case: &str) {
        let short = lengths.iter().zip(enough(scene)).any(|(is, of)| *is < of);
        // In the restatement of the query the stack alone is lent.
        let stack = if short { 0 } else { usize::MAX };
        let Scene {
            components,
            ports,
            frontiers,
            ..
        } = scene;
        let wanted = refusals::query(RULES.number(), components, ports, frontiers, stack);
        let Some(wanted) = wanted else {
            let more = lengths[1] - enough(scene)[1];
            assert_eq!(lengths, enough(scene).map(|it| it + more), "{case}");
            return self.accepted(scene, more, case);
        };
        let mut slices = Slices::dirty(lengths);
        let answer = slices.call(scene);
        let packed = wanted.number | wanted.list << 8 | wanted.item << 16;
        assert_eq!(answer, packed, "{case}: {wanted:?}");
        assert!(slices == Slices::dirty(lengths), "{case}: written");
        self.refused += 1;
        *self.by_number.entry(wanted.number).or_default() += 1;
    }

    fn report(&self, name: &str) {
        let Self {
            accepted,
            refused,
            joined,
            ones,
            by_number,
        } = self;
        println!(
            "{name}: {accepted} accepted, {joined} with a region of two or more, {ones} pairs \
             reached; {refused} refused, by number {by_number:?}"
        );
    }
}

/// A scene of wires with these ids in list order, connected as the bits say.
/// Ports and transfers go round; where bit 0 of `twist` is set every connection
/// that is left out is there as a support, and where bit 1 is each one twice.
fn wires(ids: &[i64], graph: u64, twist: u64) -> Scene {
    let side = ids.len();
    let mut scene = Scene::default();
    for (x, id) in (0..).zip(ids) {
        scene.components.extend([*id, x, 0, 0, 0, 0, 0, 0]);
    }
    for place in 0..side * side {
        let (source, sink) = (ids[place / side], ids[place % side]);
        let kind = i64::try_from((graph + place as u64) % 6).unwrap_or(0);
        let is = graph >> place & 1 == 1;
        if is || twist & 1 == 1 {
            let transfer = if is { kind } else { SUPPORT };
            let port = [source, kind, sink, 5 - kind, transfer];
            let times = 1 + usize::from(twist & 2 == 2);
            scene.ports.extend(port.repeat(times));
        }
    }
    scene
}

/// Every order of the first so many of four ids.
fn orders(side: usize) -> Vec<Vec<i64>> {
    const IDS: [i64; 4] = [7, 0, 4_294_967_295, 12];
    let mut all = vec![Vec::new()];
    for _ in 0..side {
        let longer = all.iter().flat_map(|order: &Vec<i64>| {
            let rest = IDS[..side].iter().filter(|id| !order.contains(id));
            rest.map(|id| [&order[..], &[*id]].concat())
        });
        all = longer.collect();
    }
    all
}

/// All directed graphs of up to four components, connections from one to
/// itself included: of three in every order of the ids, of four in four of them
/// each, which go round.
#[test]
fn every_graph_of_up_to_four_components() {
    let mut met = Met::default();
    for side in 0..=4 {
        let orders = orders(side);
        let each = orders.len().min(6);
        let each = if side == 4 { 4 } else { each };
        for graph in 0..1_u64 << (side * side) {
            for turn in 0..each {
                let place = (graph as usize * each + turn) % orders.len();
                let twist = graph % 4;
                let scene = wires(&orders[place], graph, twist);
                let case = format!("graph {graph:b} of {side}, {:?}", orders[place]);
                met.accepted(&scene, turn % 2, &case);
            }
        }
    }
    met.report("graphs of up to four");
    assert!(met.accepted > 250_000 && met.joined > 100_000);
}

#[test]
fn every_small_scene() {
    let mut met = Met::default();
    for (place, scene) in exhaustive::scenes().enumerate() {
        met.accepted(&scene, place % 2, &format!("scene {place}"));
    }
    met.report("small scenes");
    assert!(met.accepted > 40_000);
}

/// The profiles, those at the limits among them.
#[test]
fn every_profile() {
    let mut met = Met::default();
    for profile in Profile::ALL {
        let seeds = if profile.is_large() { 8 } else { 4_000 };
        for seed in 70_000..70_000 + seeds {
            let case = format!("{} seed {seed}", profile.name());
            met.accepted(&profile.scene(seed), seed as usize % 3, &case);
        }
    }
    met.report("profiles");
    assert!(met.accepted > 30_000 && met.joined > 5_000);
}

/// Random graphs of every density, ids scattered, up to the full size.
#[test]
fn random_graphs_up_to_the_full_size() {
    let mut met = Met::default();
    let mut random = Random::new(8);
    for turn in 0..3_000 {
        let side = match turn % 100 {
            0 => 1_024,
            1 => 1 + random.below(1_024),
            _ => 1 + random.below(48),
        };
        let mut scene = Scene::default();
        let mut ids: Vec<i64> = (0..side as i64)
            .map(|k| k * 4_000_003 % (1 << 32))
            .collect();
        random.shuffle(&mut ids);
        for (x, id) in (0..).zip(&ids) {
            scene.components.extend([*id, x, 0, 0, 0, 0, 0, 0]);
        }
        let edges = random.below(1 + (2 * side).min(4_096));
        for _ in 0..edges {
            let [source, sink] = [random.pick(&ids), random.pick(&ids)];
            scene
                .ports
                .extend([source, 0, sink, 1, random.between(0, SUPPORT)]);
        }
        met.accepted(&scene, turn % 2, &format!("turn {turn}"));
    }
    met.report("random graphs");
    assert!(met.joined > 1_000);
}

/// Each slice a place short and a place over, of scenes that would be accepted
/// and of damaged ones: 2 comes after 1 and before the rest.
#[test]
fn refusals_are_those_of_the_lists_and_the_slices() {
    let mut met = Met::default();
    let mut random = Random::new(18);
    for profile in Profile::ALL.into_iter().filter(|it| !it.is_large()) {
        for seed in 80_000..80_020 {
            let scene = profile.scene(seed);
            let mut copies = vec![scene.clone()];
            copies.extend(single(&scene).into_iter().map(|it| it.apply(&scene)));
            if let Some([one, other]) = pair(&scene, &mut random) {
                copies.push(other.apply(&one.apply(&scene)));
            }
            for (place, copy) in copies.iter().enumerate() {
                let case = format!("{} seed {seed}, copy {place}", profile.name());
                let room = enough(copy);
                met.any(copy, room, &case);
                met.any(copy, room.map(|it| it + 1), &case);
                for slice in 0..3 {
                    let mut short = room;
                    if short[slice] > 0 {
                        short[slice] -= 1;
                        met.any(copy, short, &case);
                    }
                }
            }
        }
    }
    for turn in 0..20_000 {
        let scene = garbage(&mut random);
        met.any(&scene, enough(&scene), &format!("garbage {turn}"));
    }
    met.report("damaged");
    let numbers: Vec<u64> = met.by_number.keys().copied().collect();
    assert_eq!(numbers, [1, 2, 3, 4, 5, 7]);
    assert!(met.refused > 50_000 && met.accepted > 10_000);
}

/// The typed call hands on what the library leaves.
#[test]
fn the_typed_table_is_the_square() {
    let mut asked = 0_u64;
    for profile in Profile::ALL.into_iter().filter(|it| !it.is_large()) {
        for seed in 90_000..90_200 {
            let scene = profile.scene(seed);
            let case = format!("{} seed {seed}", profile.name());
            let Some(lists) = Lists::of(&scene) else {
                continue;
            };
            let table = reach_table(RULES, &lists.components, &lists.ports, &lists.frontiers);
            let table = table.unwrap_or_else(|refusal| panic!("{case}: {refusal}"));
            let square = searched(&scene);
            let ids: Vec<_> = lists.components.iter().map(|it| it.id).collect();
            for (place, one) in square.iter().enumerate() {
                let [from, to] = [place / ids.len(), place % ids.len()].map(|it| ids[it]);
                assert_eq!(
                    table.reaches(from, to),
                    *one == 1,
                    "{case}: {from:?} {to:?}"
                );
                asked += 1;
            }
            let quick = Met::quick(&scene, &case);
            let regions: Vec<u64> = table.regions.iter().map(|it| *it as u64).collect();
            assert_eq!(regions, quick, "{case}");
            assert_eq!(table.to_string().lines().count(), ids.len() + 1, "{case}");
        }
    }
    println!("{asked} pairs asked of typed tables");
    assert!(asked > 100_000);
}

#[test]
fn the_typed_refusal_is_that_of_liveness() {
    let mut refused = 0;
    for profile in Profile::ALL.into_iter().filter(|it| !it.is_large()) {
        for seed in 91_000..91_010 {
            let scene = profile.scene(seed);
            for damage in single(&scene) {
                let Some(lists) = Lists::of(&damage.apply(&scene)) else {
                    continue;
                };
                let [table, whole]: [Option<Refusal>; 2] = [
                    reach_table(RULES, &lists.components, &lists.ports, &lists.frontiers).err(),
                    liveness(RULES, &lists.components, &lists.ports, &lists.frontiers).err(),
                ];
                assert_eq!(table, whole, "{} seed {seed}, {damage:?}", profile.name());
                refused += usize::from(whole.is_some());
            }
        }
    }
    assert!(refused > 100);
}

/// An empty plot has an empty table: a line with no columns.
#[test]
fn no_components_no_places() {
    let mut met = Met::default();
    met.accepted(&Scene::default(), 0, "nothing");
    let table = reach_table(RULES, &[], &[], &[]).unwrap_or_default();
    assert_eq!((table.count, table.regions.len()), (0, 0));
    assert_eq!(table.to_string(), "   region\n");
}
