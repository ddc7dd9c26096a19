//! "Regions, sources, verdicts": each rule in a function of its own.

use std::collections::BTreeSet;

use oracle::{Input, Liveness, Region};
use scenes::limits::{COMPONENT, FRONTIER, PASSIVE_LAMPS, PORT_CONNECTION, SUPPORT};

use super::ports::ports_of;
use super::walk::{Edges, regions, spread};

const WIRE: i64 = 0;
const TORCH: i64 = 3;

/// What is no external feed: Solid and Transparent, and from rules 2 on a lamp.
const fn is_passive(rules: i64, kind: i64) -> bool {
    match kind {
        9 | 10 => true,
        11 => rules >= PASSIVE_LAMPS,
        _ => false,
    }
}

/// The scene by members: component k has the k-th smallest id.
struct Plot<'a> {
    records: Vec<&'a [i64]>,
    /// Members in list order.
    listed: Vec<usize>,
    /// Source member, sink member and sink port of each edge.
    fed: Vec<(usize, usize, i64)>,
    edges: Edges,
    region: Vec<usize>,
}

impl<'a> Plot<'a> {
    fn new(components: &'a [i64], connections: &[i64]) -> Self {
        let list: Vec<&[i64]> = components.chunks_exact(COMPONENT).collect();
        let mut records = list.clone();
        records.sort_unstable_by_key(|record| record[0]);
        let member = |id: i64| records.binary_search_by_key(&id, |record| record[0]);
        let rows = connections.chunks_exact(PORT_CONNECTION);
        let fed: Vec<_> = rows
            .filter(|row| row[4] != SUPPORT)
            .filter_map(|row| Some((member(row[0]).ok()?, member(row[2]).ok()?, row[3])))
            .collect();
        let pairs: Vec<_> = fed
            .iter()
            .map(|&(source, sink, _)| (source, sink))
            .collect();
        let edges = Edges::new(records.len(), &pairs);
        let listed = list.iter().filter_map(|record| member(record[0]).ok());
        Self {
            listed: listed.collect(),
            region: regions(&edges),
            records,
            fed,
            edges,
        }
    }

    fn kind(&self, member: usize) -> i64 {
        self.records[member][4]
    }

    fn ids(&self, marked: &[bool]) -> Vec<i64> {
        let members = self.records.iter().zip(marked);
        members
            .filter(|(_, marked)| **marked)
            .map(|(record, _)| record[0])
            .collect()
    }

    /// Drive sources as (member, source kind).
    fn drive_sources(&self, frontiers: &[i64]) -> BTreeSet<(usize, i64)> {
        let at_frontier = |cell: &[i64]| {
            let mut listed = self.listed.iter().copied();
            listed.find(|&member| self.records[member][1..4] == *cell)
        };
        let by_kind = self
            .listed
            .iter()
            .filter_map(|&member| match self.kind(member) {
                4..=6 => Some((member, 0)),
                7 | TORCH => Some((member, 1)),
                _ => None,
            });
        let fronts = frontiers.chunks_exact(FRONTIER).filter_map(at_frontier);
        by_kind.chain(fronts.map(|member| (member, 2))).collect()
    }

    /// No drive source inside, no feed from outside but of what is passive.
    fn is_region_open(&self, rules: i64, region: usize, drives: &[bool]) -> bool {
        let members = 0..self.records.len();
        let holds_drive = members
            .clone()
            .any(|it| self.region[it] == region && drives[it]);
        let is_fed = self.fed.iter().any(|&(source, sink, _)| {
            self.region[sink] == region
                && self.region[source] != region
                && !is_passive(rules, self.kind(source))
        });
        !holds_drive && !is_fed
    }

    /// Whether a wire has at most one distinct neighbour in its region.
    fn is_loose_end(&self, member: usize) -> bool {
        let both = self.edges.forward[member]
            .iter()
            .chain(&self.edges.backward[member]);
        let near: BTreeSet<&usize> = both
            .filter(|&&other| self.region[other] == self.region[member])
            .collect();
        self.kind(member) == WIRE && near.len() <= 1
    }

    fn inferred(&self, rules: i64, drives: &[bool]) -> Vec<bool> {
        let count = self.region.iter().max().map_or(0, |last| last + 1);
        let open: Vec<bool> = (0..count)
            .map(|it| self.is_region_open(rules, it, drives))
            .collect();
        (0..self.records.len())
            .map(|member| open[self.region[member]] && self.is_loose_end(member))
            .collect()
    }

    fn reached(&self, from: &[bool]) -> Vec<bool> {
        let mut marked = from.to_vec();
        spread(&self.edges.forward, &mut marked, |_| true);
        marked
    }

    fn region_rows(&self, drives: &[bool]) -> Vec<Region> {
        let count = self.region.iter().max().map_or(0, |last| last + 1);
        let row = |region: usize| {
            let marked: Vec<bool> = self.region.iter().map(|&it| it == region).collect();
            let members = self.ids(&marked);
            let own = |(source, sink): (usize, usize)| source == sink && marked[source];
            Region {
                cyclic: members.len() >= 2 || self.fed.iter().any(|&(a, b, _)| own((a, b))),
                contains_drive_source: marked.iter().zip(drives).any(|(a, b)| *a && *b),
                members,
            }
        };
        (0..count).map(row).collect()
    }

    fn verdict(&self, member: usize, port: i64, sets: &[Vec<bool>; 3]) -> Input {
        let [drive, potential, inferred] = sets;
        let mut immediate = vec![false; self.records.len()];
        for &(source, ..) in self.fed.iter().filter(|it| (it.1, it.2) == (member, port)) {
            immediate[source] = true;
        }
        let touches = |set: &[bool]| immediate.iter().zip(set).any(|(a, b)| *a && *b);
        let status = match () {
            () if !immediate.contains(&true) => 2,
            () if touches(drive) => 0,
            () if touches(potential) => 1,
            () => 3,
        };
        let mut upstream = immediate.clone();
        spread(&self.edges.backward, &mut upstream, |_| true);
        let open: Vec<bool> = upstream
            .iter()
            .zip(inferred)
            .map(|(a, b)| *a && *b)
            .collect();
        Input {
            device: self.records[member][0],
            port,
            status,
            immediate: self.ids(&immediate),
            inferred: self.ids(&open),
        }
    }

    /// Input ports of devices, and the torch's Control. A device without such a
    /// port has no row.
    fn verdicts(&self, rules: i64, sets: &[Vec<bool>; 3]) -> Vec<Input> {
        let mut rows = Vec::new();
        for &member in &self.listed {
            let kind = self.kind(member);
            if !matches!(kind, 1 | 2 | 8 | TORCH) {
                continue;
            }
            let role = if kind == TORCH { 3 } else { 0 };
            let ports = ports_of(rules, self.records[member]).concat();
            let asked = (0..).zip(ports).filter(|(_, port)| port[0] == role);
            rows.extend(asked.map(|(port, _)| self.verdict(member, port, sets)));
        }
        rows
    }

    /// Source rows by list place, then source kind.
    fn source_rows(&self, drives: &BTreeSet<(usize, i64)>, inferred: &[bool]) -> Vec<[i64; 2]> {
        let mut rows = Vec::new();
        for &member in &self.listed {
            let mut kinds: Vec<i64> = (0..3)
                .filter(|&it| drives.contains(&(member, it)))
                .collect();
            kinds.extend(inferred[member].then_some(3));
            rows.extend(
                kinds
                    .into_iter()
                    .map(|kind| [self.records[member][0], kind]),
            );
        }
        rows
    }
}

/// The whole answer by the paper's words, under the rules of a number.
#[must_use]
pub fn liveness(
    rules: i64,
    components: &[i64],
    connections: &[i64],
    frontiers: &[i64],
) -> Liveness {
    let plot = Plot::new(components, connections);
    let sources = plot.drive_sources(frontiers);
    let mut drives = vec![false; plot.records.len()];
    for &(member, _) in &sources {
        drives[member] = true;
    }
    let inferred = plot.inferred(rules, &drives);
    let either: Vec<bool> = drives
        .iter()
        .zip(&inferred)
        .map(|(a, b)| *a || *b)
        .collect();
    let sets = [plot.reached(&drives), plot.reached(&either), inferred];
    let number = |member: &usize| i64::try_from(plot.region[*member]).unwrap_or(-1);
    Liveness {
        region: plot.listed.iter().map(number).collect(),
        regions: plot.region_rows(&drives),
        sources: plot.source_rows(&sources, &sets[2]),
        drive: plot.ids(&sets[0]),
        potential: plot.ids(&sets[1]),
        inputs: plot.verdicts(rules, &sets),
    }
}
