//! How much one port connection more can do, held to the answers of the
//! proved entry by the rules of every year: pairs of accepted scenes, of which
//! the second has one connection that the first has not. Nothing here knows how
//! the entry works.

use std::collections::BTreeSet;

use checks::runs::{self, Seeds};
use probe::capi::{Liveness, Words, liveness};
use scenes::Scene;
use scenes::limits::{COMPONENT, CONNECTIONS, LAST_RULES, PORT_CONNECTION, SUPPORT};
use scenes::random::Random;

/// Connections drawn for each scene.
const PAIRS: usize = 2;

/// The verdict that nothing feeds the port.
const DISCONNECTED: u64 = 2;

type PortConnection = [i64; PORT_CONNECTION];

/// Small scenes many times, and fifty of each profile with large ones.
const SEEDS: Seeds = Seeds {
    small: 5_000,
    large: 50,
};

/// The rules go round with the seeds.
fn rules(seed: u64) -> i64 {
    1 + seed.cast_signed() % LAST_RULES
}

fn ids(scene: &Scene) -> Vec<i64> {
    let records = scene.components.chunks_exact(COMPONENT);
    records.map(|record| record[0]).collect()
}

/// The records of a list.
fn records<const W: usize>(list: &[i64]) -> Vec<[i64; W]> {
    let (records, rest) = list.as_chunks();
    assert!(rest.is_empty());
    records.to_vec()
}

/// What was met by the pairs of lists of port connections.
#[derive(Debug, Default)]
struct Feeds {
    pairs: u64,
    some_newly_driven: u64,
    newly_driven: u64,
    most_newly_driven: usize,
    /// As many newly driven as there are reachable from the sink.
    all_reachable_newly_driven: u64,
    /// Newly driven other than the sink.
    beyond_the_sink: u64,
    source_driven: u64,
    source_not_driven: u64,
    rows: u64,
    rows_that_change: u64,
    left_status_2: u64,
    stayed_at_status_2: u64,
    repeats: u64,
    repeats_of_support: u64,
}

/// A list of port connections with the liveness entry's answer.
struct Marked {
    rules: i64,
    ports: Vec<PortConnection>,
    found: Liveness,
}

impl Marked {
    fn of(rules: i64, scene: &Scene, ports: Vec<PortConnection>, case: &str) -> Self {
        let (components, list) = (&scene.components, ports.as_flattened());
        match liveness(rules, components, list, &scene.frontiers) {
            Ok(found) => Self {
                rules,
                ports,
                found,
            },
            Err(refusal) => panic!("{case}: {refusal:?}{scene}"),
        }
    }

    /// The same with a record put in at a place.
    fn with(&self, scene: &Scene, place: usize, one: PortConnection, case: &str) -> Self {
        let ports = [&self.ports[..place], &[one], &self.ports[place..]].concat();
        Self::of(self.rules, scene, ports, case)
    }

    /// The same with the record at a place left out.
    fn without(&self, scene: &Scene, place: usize, case: &str) -> Self {
        let ports = [&self.ports[..place], &self.ports[place + 1..]].concat();
        Self::of(self.rules, scene, ports, case)
    }
}

/// The ids of the components in a set. Its members are ranks of ids: member k
/// has the k-th smallest.
fn ids_of(words: &Words, scene: &Scene) -> BTreeSet<i64> {
    let mut ids = ids(scene);
    ids.sort_unstable();
    let members = ids.into_iter().enumerate();
    let some = members.filter(|(k, _)| (words[k / 64] >> (k % 64)) & 1 == 1);
    some.map(|(_, id)| id).collect()
}

/// Whatever a walk from the id along connections that are no support comes to,
/// the id itself among it.
fn reachable(ports: &[PortConnection], from: i64) -> BTreeSet<i64> {
    let mut reached = BTreeSet::from([from]);
    let mut open = vec![from];
    while let Some(at) = open.pop() {
        for &[source, _, sink, _, transfer] in ports {
            if source == at && transfer != SUPPORT && reached.insert(sink) {
                open.push(sink);
            }
        }
    }
    reached
}

/// A connection that is no support, between components; often from one that is
/// driven, and often to an input with a verdict.
fn any_port_connection(scene: &Scene, old: &Liveness, random: &mut Random) -> PortConnection {
    let ids = ids(scene);
    let driven: Vec<i64> = ids_of(&old.drive, scene).into_iter().collect();
    let source = if !driven.is_empty() && random.once_in(2) {
        random.pick(&driven)
    } else {
        random.pick(&ids)
    };
    let (sink, port) = if !old.inputs.is_empty() && random.once_in(3) {
        let [device, port, _] = random.pick(&old.inputs);
        (device.cast_signed(), port.cast_signed())
    } else {
        (random.pick(&ids), random.between(0, 5))
    };
    let transfer = random.between(0, SUPPORT - 1);
    [source, random.between(0, 5), sink, port, transfer]
}

/// "If one non-support port connection is added and the scene is still
/// accepted, every component newly driven is reachable from its sink, and none
/// ceases to be driven. The count of components newly driven is at most the
/// count reachable from that sink, itself included. A verdict leaves status 2
/// only at that sink port."
fn hold_feed(
    scene: &Scene,
    [before, after]: [&Marked; 2],
    place: usize,
    met: &mut Feeds,
    case: &str,
) {
    let one = after.ports[place];
    let [source, _, sink, sink_port, _] = one;
    let (old, new) = (&before.found, &after.found);
    let case = format_args!("{case}, {one:?} at {place}{scene}");

    let driven = [old, new].map(|it| ids_of(&it.drive, scene));
    let [driven_before, driven_after] = &driven;
    assert!(driven_before.is_subset(driven_after), "{case}");
    let newly: BTreeSet<i64> = driven_after.difference(driven_before).copied().collect();
    let reached = reachable(&before.ports, sink);
    assert_eq!(reached, reachable(&after.ports, sink), "{case}");
    assert!(newly.is_subset(&reached), "{case}");
    assert!(newly.len() <= reached.len(), "{case}");
    let source_driven = driven_before.contains(&source);
    assert!(source_driven || newly.is_empty(), "{case}");

    assert_eq!(old.inputs.len(), new.inputs.len(), "{case}");
    for (row_before, row_after) in old.inputs.iter().zip(&new.inputs) {
        let &[device, port, status_before] = row_before;
        let &[device_after, port_after, status_after] = row_after;
        assert_eq!([device, port], [device_after, port_after], "{case}");
        let there = [device.cast_signed(), port.cast_signed()] == [sink, sink_port];
        if status_before == DISCONNECTED && status_after != DISCONNECTED {
            assert!(there, "{case}");
            met.left_status_2 += 1;
        }
        if status_after == DISCONNECTED {
            assert_eq!(status_before, DISCONNECTED, "{case}");
            met.stayed_at_status_2 += 1;
        }
        met.rows += 1;
        met.rows_that_change += u64::from(status_before != status_after);
    }

    met.pairs += 1;
    met.some_newly_driven += u64::from(!newly.is_empty());
    met.newly_driven += newly.len() as u64;
    met.most_newly_driven = met.most_newly_driven.max(newly.len());
    met.all_reachable_newly_driven += u64::from(newly.len() == reached.len());
    met.beyond_the_sink += u64::from(newly.iter().any(|id| *id != sink));
    met.source_driven += u64::from(source_driven);
    met.source_not_driven += u64::from(!source_driven);
}

impl Feeds {
    /// Some that are put in, and where the list has connections also one that
    /// is left out, which is the same pair the other way, and a repeat.
    fn of(&mut self, scene: &Scene, seed: u64, case: &str) {
        let random = &mut Random::new(seed ^ 0x14);
        let there = Marked::of(rules(seed), scene, records(&scene.ports), case);
        let count = there.ports.len();
        if !scene.components.is_empty() && count < CONNECTIONS {
            for _ in 0..PAIRS {
                let one = any_port_connection(scene, &there.found, random);
                let place = random.below(count + 1);
                let more = there.with(scene, place, one, case);
                hold_feed(scene, [&there, &more], place, self, case);
            }
        }
        let signals = (0..count).filter(|place| there.ports[*place][4] != SUPPORT);
        let signals: Vec<usize> = signals.collect();
        if !signals.is_empty() {
            let place = random.pick(&signals);
            let fewer = there.without(scene, place, case);
            hold_feed(scene, [&fewer, &there], place, self, case);
        }
        if count > 0 && count < CONNECTIONS {
            let again = random.pick(&there.ports);
            let place = random.below(count + 1);
            let more = there.with(scene, place, again, case);
            // One that is there already changes nothing at all.
            assert_eq!(there.found, more.found, "{case}{scene}");
            self.repeats += 1;
            self.repeats_of_support += u64::from(again[4] == SUPPORT);
        }
    }

    /// No claim was met by empty cases alone.
    fn assert_met(&self, name: &str) {
        println!("{name}: {self:?}");
        for count in [
            self.some_newly_driven,
            self.all_reachable_newly_driven,
            self.beyond_the_sink,
            self.source_driven,
            self.source_not_driven,
            self.rows_that_change,
            self.left_status_2,
            self.stayed_at_status_2,
            self.repeats,
            self.repeats_of_support,
        ] {
            assert!(count > 100, "{name}");
        }
        assert!(self.most_newly_driven > 1, "{name}");
    }
}

#[test]
fn one_port_connection_on_every_small_scene() {
    let (mut met, mut seed) = (Feeds::default(), 0);
    runs::on_small_scenes(|scene, case| {
        met.of(scene, seed, case);
        seed += 1;
    });
    met.assert_met("one port connection, small scenes");
    assert!(met.pairs > 180_000);
}

#[test]
fn one_port_connection_on_every_profile() {
    let mut met = Feeds::default();
    runs::on_profiles(SEEDS, |scene, seed, case| met.of(scene, seed, case));
    met.assert_met("one port connection, profiles");
    assert!(met.pairs > 100_000);
}

/// A lever and wires, each feeding the next, and the last the first where it is
/// a ring.
fn line(count: usize, ring: bool) -> (Scene, Vec<PortConnection>) {
    let ids = (0..count).map(|k| k as i64);
    let component = |id: i64| [id, id, 0, 0, if id == 0 { 4 } else { 0 }, 0, 0, 0];
    let last = if ring { count } else { count - 1 };
    let scene = Scene {
        components: ids.clone().flat_map(component).collect(),
        ..Scene::default()
    };
    let feeds = ids.take(last);
    let feed = |id: i64| [id, 1, (id + 1) % count as i64, 3, 0];
    (scene, feeds.map(feed).collect())
}

/// Of one connection everything behind it hangs, and no more: the bound on what
/// is newly driven is reached at every length.
#[test]
fn one_port_connection_on_lines_and_rings() {
    let mut met = Feeds::default();
    for count in [2, 3, 64, 65, 1_023, 1_024] {
        for ring in [false, true] {
            let (scene, ports) = line(count, ring);
            let case = format!("{count}, ring {ring}");
            let last = ports.len() - 1;
            let all = Marked::of(LAST_RULES, &scene, ports, &case);
            for place in [0, last / 3, last / 2, last] {
                let newly = met.newly_driven;
                let fewer = all.without(&scene, place, &case);
                hold_feed(&scene, [&fewer, &all], place, &mut met, &case);
                assert_eq!(
                    met.newly_driven - newly,
                    (count - 1 - place) as u64,
                    "{case}"
                );
            }
        }
    }
    println!("one port connection, lines and rings: {met:?}");
    assert_eq!((met.pairs, met.most_newly_driven), (48, 1_023));
    assert!(met.all_reachable_newly_driven >= 24);
}
