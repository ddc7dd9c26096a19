//! How much one grouping connection more can do, held to the answers of
//! the proved entry: pairs of accepted scenes, of which the second has one
//! connection that the first has not. Nothing here knows how the entry works.

use checks::runs::{self, Seeds};
use probe::capi::{Counts, groups};
use scenes::limits::{COMPONENT, CONNECTION, CONNECTIONS, LAST_CONNECTION_KIND, LAST_RULES};
use scenes::random::Random;
use scenes::{Scene, bytes};

/// Connections drawn for each scene.
const PAIRS: usize = 2;

/// The last kind of grouping connection that joins nets, and the last that
/// joins fragments.
const NET_KINDS: i64 = 4;
const FRAGMENT_KINDS: i64 = 8;

type Connection = [i64; CONNECTION];

/// Small scenes many times, and fifty of each profile with large ones.
const SEEDS: Seeds = Seeds {
    small: 5_000,
    large: 50,
};

fn ids(scene: &Scene) -> Vec<i64> {
    let records = scene.components.chunks_exact(COMPONENT);
    records.map(|record| record[0]).collect()
}

/// The records of a list.
fn records<const W: usize>(list: &[i64]) -> Vec<[i64; W]> {
    let (records, rest) = list.as_chunks();
    assert!(rest.is_empty());
    records.to_vec()
}

/// What was met by the pairs of lists of grouping connections.
#[derive(Debug, Default)]
struct Joins {
    pairs: u64,
    nets_fell: u64,
    nets_stayed: u64,
    fragments_fell: u64,
    fragments_stayed: u64,
    /// A kind above 4 that joined two fragments and no nets.
    fragments_alone_fell: u64,
    kinds_without_nets: u64,
    kind_nine: u64,
    kind_nine_between_fragments: u64,
    missing_ends: u64,
}

/// The grouping entry's answer: the counts, and each component's numbers.
struct Grouped {
    counts: Counts,
    fragments: Vec<i64>,
}

fn grouped(components: &[i64], connections: &[Connection], case: &str) -> Grouped {
    let room = components.len() / COMPONENT * bytes::NUMBER;
    let (mut nets, mut fragments) = (vec![0; room], vec![0; room]);
    let connections = bytes::of(connections.as_flattened());
    match groups(
        LAST_RULES,
        &bytes::of(components),
        &connections,
        &mut nets,
        &mut fragments,
    ) {
        Ok(counts) => Grouped {
            counts,
            fragments: bytes::numbers(&fragments),
        },
        Err(refusal) => panic!("{case}: {refusal:?}"),
    }
}

/// A connection to put in, or one that is there, to leave out. Mostly between
/// components; where the list is full, one that is there.
fn any_connection(scene: &Scene, random: &mut Random) -> Connection {
    let there: Vec<Connection> = records(&scene.connections);
    if there.len() == CONNECTIONS || (!there.is_empty() && random.once_in(4)) {
        return random.pick(&there);
    }
    let ids = ids(scene);
    let end = |random: &mut Random| {
        if random.once_in(12) {
            random.between(0, 9)
        } else {
            random.pick(&ids)
        }
    };
    let (source, sink) = (end(random), end(random));
    [source, sink, random.between(0, LAST_CONNECTION_KIND)]
}

/// "If one grouping connection is added and the lists are still accepted, the
/// net count falls by one or not at all, and the fragment count likewise."
fn hold_join(scene: &Scene, one: Connection, met: &mut Joins, case: &str) {
    let all: Vec<Connection> = records(&scene.connections);
    let before: Vec<Connection> = all.into_iter().filter(|it| *it != one).collect();
    // Its place among those in order.
    let place = before.partition_point(|it| *it < one);
    let after = [&before[..place], &[one], &before[place..]].concat();

    let old = grouped(&scene.components, &before, case);
    let new = grouped(&scene.components, &after, case);
    let [source, sink, kind] = one;
    let case = format_args!("{case}, {one:?} at {place}{scene}");
    let fell = |before: u64, after: u64| {
        assert!(before == after || before == after + 1, "{case}");
        before == after + 1
    };
    let nets = fell(old.counts.nets, new.counts.nets);
    let fragments = fell(old.counts.fragments, new.counts.fragments);
    assert!(kind <= NET_KINDS || !nets, "{case}");
    assert!(kind <= FRAGMENT_KINDS || !fragments, "{case}");

    let ids = ids(scene);
    let place = |end| ids.iter().position(|id| *id == end);
    let ends = place(source).zip(place(sink));
    let apart = ends.is_some_and(|(source, sink)| old.fragments[source] != old.fragments[sink]);
    met.pairs += 1;
    met.nets_fell += u64::from(nets);
    met.nets_stayed += u64::from(!nets);
    met.fragments_fell += u64::from(fragments);
    met.fragments_stayed += u64::from(!fragments);
    met.fragments_alone_fell += u64::from(fragments && kind > NET_KINDS);
    met.kinds_without_nets += u64::from(kind > NET_KINDS);
    met.kind_nine += u64::from(kind > FRAGMENT_KINDS);
    met.kind_nine_between_fragments += u64::from(kind > FRAGMENT_KINDS && apart);
    met.missing_ends += u64::from(ends.is_none());
}

impl Joins {
    fn of(&mut self, scene: &Scene, seed: u64, case: &str) {
        let random = &mut Random::new(seed ^ 0x14);
        for _ in 0..PAIRS {
            let one = any_connection(scene, random);
            hold_join(scene, one, self, case);
        }
    }

    /// No claim was met by empty cases alone.
    fn assert_met(&self, name: &str) {
        println!("{name}: {self:?}");
        for count in [
            self.nets_fell,
            self.nets_stayed,
            self.fragments_fell,
            self.fragments_stayed,
            self.fragments_alone_fell,
            self.kinds_without_nets,
            self.kind_nine,
            self.kind_nine_between_fragments,
            self.missing_ends,
        ] {
            assert!(count > 100, "{name}");
        }
    }
}

#[test]
fn one_grouping_connection_on_every_small_scene() {
    let (mut met, mut seed) = (Joins::default(), 0);
    runs::on_small_scenes(|scene, case| {
        met.of(scene, seed, case);
        seed += 1;
    });
    met.assert_met("one grouping connection, small scenes");
    assert!(met.pairs > 180_000);
}

#[test]
fn one_grouping_connection_on_every_profile() {
    let mut met = Joins::default();
    runs::on_profiles(SEEDS, |scene, seed, case| met.of(scene, seed, case));
    met.assert_met("one grouping connection, profiles");
    assert!(met.pairs > 100_000);
}
