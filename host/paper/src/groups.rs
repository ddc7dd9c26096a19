//! "Groups": joins by rank, numbers by rising list place of the root.

use std::collections::{BTreeMap, BTreeSet};

use oracle::Groups;
use scenes::limits::{COMPONENT, CONNECTION};

/// The last kind of connection that joins nets, and that joins fragments.
const LAST_OF_NETS: i64 = 4;
const LAST_OF_FRAGMENTS: i64 = 8;

/// Parents and ranks, without flattening.
struct Forest {
    parent: Vec<usize>,
    rank: Vec<u32>,
}

impl Forest {
    fn root(&self, mut place: usize) -> usize {
        while self.parent[place] != place {
            place = self.parent[place];
        }
        place
    }

    /// The lower rank goes under the higher; at equal rank the sink's root
    /// goes under the source's, whose rank grows.
    fn join(&mut self, source: usize, sink: usize) {
        let (source, sink) = (self.root(source), self.root(sink));
        if source == sink {
            return;
        }
        if self.rank[source] < self.rank[sink] {
            self.parent[source] = sink;
        } else {
            self.parent[sink] = source;
            self.rank[source] += u32::from(self.rank[source] == self.rank[sink]);
        }
    }
}

/// The forest over list places, kinds up to `last` joining.
fn joined(components: &[i64], connections: &[i64], last: i64) -> Forest {
    let ids = components.chunks_exact(COMPONENT).map(|record| record[0]);
    let places: BTreeMap<i64, usize> = ids.zip(0..).collect();
    let count = components.len() / COMPONENT;
    let mut forest = Forest {
        parent: (0..count).collect(),
        rank: vec![0; count],
    };
    let rows = connections.chunks_exact(CONNECTION);
    for row in rows.filter(|row| row[2] <= last) {
        if let (Some(&source), Some(&sink)) = (places.get(&row[0]), places.get(&row[1])) {
            forest.join(source, sink);
        }
    }
    forest
}

/// The group number of each component, kinds up to `last` joining.
fn numbered(components: &[i64], connections: &[i64], last: i64) -> Vec<i64> {
    let forest = joined(components, connections, last);
    let count = forest.parent.len();
    let roots: BTreeSet<usize> = (0..count).map(|place| forest.root(place)).collect();
    let numbers: BTreeMap<usize, i64> = roots.into_iter().zip(0..).collect();
    (0..count)
        .map(|place| numbers[&forest.root(place)])
        .collect()
}

fn count(numbers: &[i64]) -> usize {
    numbers.iter().collect::<BTreeSet<_>>().len()
}

/// The greatest rank in the forest of the nets and in that of the fragments.
#[must_use]
pub fn greatest_ranks(components: &[i64], connections: &[i64]) -> [u32; 2] {
    [LAST_OF_NETS, LAST_OF_FRAGMENTS].map(|last| {
        let forest = joined(components, connections, last);
        forest.rank.into_iter().max().unwrap_or(0)
    })
}

/// Nets by kinds 0 to 4, fragments by kinds 0 to 8.
#[must_use]
pub fn groups(components: &[i64], connections: &[i64]) -> Groups {
    let net = numbered(components, connections, LAST_OF_NETS);
    let fragment = numbered(components, connections, LAST_OF_FRAGMENTS);
    let fragment_count = count(&fragment);
    let mut fragment_nets = vec![BTreeSet::new(); fragment_count];
    for (net, fragment) in net.iter().zip(&fragment) {
        fragment_nets[usize::try_from(*fragment).unwrap_or(0)].insert(*net);
    }
    Groups {
        net_count: count(&net),
        fragment_count,
        fragment_nets: fragment_nets.into_iter().map(Vec::from_iter).collect(),
        net,
        fragment,
    }
}
