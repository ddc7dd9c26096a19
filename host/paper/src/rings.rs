//! Rings (an addition to the paper): a chain of port connections, supports left
//! out, from a component through two others or more and back to it, none met
//! twice; or a connection from a component to itself.

use scenes::limits::{COMPONENT, PORT_CONNECTION, SUPPORT};

use super::walk::{Edges, regions, spread};

/// The regions, and which of them have a ring.
#[derive(Clone, Debug, Eq, PartialEq)]
pub struct Rings {
    /// The region of each component, in list order.
    pub region: Vec<usize>,
    /// By the region's number.
    pub has_ring: Vec<bool>,
}

/// Whether a chain leads from the sink of a connection back to its source, other
/// than by the one connection back. Cut short where it meets a component twice,
/// it goes through a third one.
fn leads_back(edges: &Edges, source: usize, sink: usize) -> bool {
    let mut met = vec![false; edges.forward.len()];
    for &next in edges.forward[sink].iter().filter(|&&next| next != source) {
        met[next] = true;
    }
    // A chain that comes by the sink again may as well begin there.
    met[sink] = false;
    spread(&edges.forward, &mut met, |next| next != sink);
    met[source]
}

/// Of accepted lists: each connection in turn is asked whether it is on a ring.
#[must_use]
pub fn rings(components: &[i64], connections: &[i64]) -> Rings {
    let listed: Vec<i64> = components.chunks_exact(COMPONENT).map(|it| it[0]).collect();
    let mut ids = listed.clone();
    ids.sort_unstable();
    let member = |id: i64| ids.binary_search(&id).ok();
    let rows = connections.chunks_exact(PORT_CONNECTION);
    let pairs: Vec<_> = rows
        .filter(|row| row[4] != SUPPORT)
        .filter_map(|row| Some((member(row[0])?, member(row[2])?)))
        .collect();
    let edges = Edges::new(ids.len(), &pairs);
    let region = regions(&edges);
    let mut has_ring = vec![false; region.iter().max().map_or(0, |last| last + 1)];
    for (source, sinks) in edges.forward.iter().enumerate() {
        for &sink in sinks {
            let has = &mut has_ring[region[source]];
            *has = *has || source == sink || leads_back(&edges, source, sink);
        }
    }
    let each = listed.iter().filter_map(|id| member(*id));
    Rings {
        region: each.map(|member| region[member]).collect(),
        has_ring,
    }
}
