//! The calls of the finder and of the check on lists of numbers, the request
//! restated, and what is held of both.

mod runs;

use std::collections::{BTreeMap, BTreeSet};

use dustroute::{
    ComponentId, Liveness, PortConnection, PortRef, Rules, SignalSourceKind, TransferKind,
};
use scenes::Scene;

pub use runs::{NOT_DRIVEN, Runs};

mod raw {
    unsafe extern "C" {
        pub fn dustroute_trail(
            rules: i64,
            components: *const i64,
            components_len: usize,
            ports: *const i64,
            ports_len: usize,
            frontiers: *const i64,
            frontiers_len: usize,
            id: u64,
            port: u64,
            trail: *mut u64,
            trail_len: usize,
        ) -> u64;

        pub fn dustroute_check_trail(
            rules: i64,
            components: *const i64,
            components_len: usize,
            ports: *const i64,
            ports_len: usize,
            frontiers: *const i64,
            frontiers_len: usize,
            id: u64,
            port: u64,
            trail: *const u64,
            trail_len: usize,
        ) -> u64;

        pub fn dustroute_driven(
            rules: i64,
            components: *const i64,
            components_len: usize,
            ports: *const i64,
            ports_len: usize,
            frontiers: *const i64,
            frontiers_len: usize,
            id: u64,
            port: u64,
            met: *mut u64,
            met_len: usize,
            stack: *mut usize,
            stack_len: usize,
        ) -> u64;
    }
}

/// No way depends on them.
pub const RULES: Rules = Rules::Two;

/// What stands in a lent list before a call.
pub const DIRT: u64 = 0xdead_beef_0bad_f00d;

pub fn find(scene: &Scene, [id, port]: [u64; 2], trail: &mut [u64]) -> u64 {
    let Scene {
        components,
        ports,
        frontiers,
        ..
    } = scene;
    // SAFETY: each pointer is to a whole slice of the length beside it.
    unsafe {
        raw::dustroute_trail(
            RULES.number(),
            components.as_ptr(),
            components.len(),
            ports.as_ptr(),
            ports.len(),
            frontiers.as_ptr(),
            frontiers.len(),
            id,
            port,
            trail.as_mut_ptr(),
            trail.len(),
        )
    }
}

pub fn check(scene: &Scene, [id, port]: [u64; 2], trail: &[u64]) -> u64 {
    let Scene {
        components,
        ports,
        frontiers,
        ..
    } = scene;
    // SAFETY: each pointer is to a whole slice of the length beside it.
    unsafe {
        raw::dustroute_check_trail(
            RULES.number(),
            components.as_ptr(),
            components.len(),
            ports.as_ptr(),
            ports.len(),
            frontiers.as_ptr(),
            frontiers.len(),
            id,
            port,
            trail.as_ptr(),
            trail.len(),
        )
    }
}

/// The refusal of `dustroute_driven`, with room for its set and its stack: the
/// same lists, the same port.
pub fn refusal_of_driven(scene: &Scene, [id, port]: [u64; 2]) -> u64 {
    let mut met = [0; 16];
    let mut stack = vec![0; scene.components.len() / 4 + 2];
    // SAFETY: each pointer is to a whole slice of the length beside it.
    let answer = unsafe {
        raw::dustroute_driven(
            RULES.number(),
            scene.components.as_ptr(),
            scene.components.len(),
            scene.ports.as_ptr(),
            scene.ports.len(),
            scene.frontiers.as_ptr(),
            scene.frontiers.len(),
            id,
            port,
            met.as_mut_ptr(),
            met.len(),
            stack.as_mut_ptr(),
            stack.len(),
        )
    };
    if answer & 0xffff == 0 { 0 } else { answer }
}

/// The request restated: what feeds what, and what is a drive source.
pub struct Plot {
    /// Each component's id with those that feed it.
    fed: BTreeMap<u64, BTreeSet<u64>>,
    drive: BTreeSet<u64>,
    connections: Vec<PortConnection>,
}

pub fn number(id: ComponentId) -> u64 {
    u64::from(id.0)
}

impl Plot {
    pub fn of(connections: &[PortConnection], found: &Liveness) -> Self {
        let inferred = SignalSourceKind::InferredPrimaryInput;
        let drive = found.sources.iter().filter(|it| it.kind != inferred);
        let mut fed: BTreeMap<u64, BTreeSet<u64>> = BTreeMap::new();
        let signals = connections.iter().copied();
        let signals = signals.filter(|it| it.transfer != TransferKind::StructuralSupport);
        let connections: Vec<PortConnection> = signals.collect();
        for it in &connections {
            let sources = fed.entry(number(it.sink.component)).or_default();
            sources.insert(number(it.source.component));
        }
        Self {
            fed,
            drive: drive.map(|it| number(it.component)).collect(),
            connections,
        }
    }

    /// Those that feed a port.
    pub fn immediate(&self, input: PortRef) -> BTreeSet<u64> {
        let fed = self.connections.iter().filter(|it| it.sink == input);
        fed.map(|it| number(it.source.component)).collect()
    }

    /// "its first member is a drive source, each next one is fed by the one
    /// before, and its last feeds the port"
    pub fn is_trail(&self, input: PortRef, ids: &[u64]) -> bool {
        let (Some(first), Some(last)) = (ids.first(), ids.last()) else {
            return false;
        };
        let fed = |pair: &[u64]| {
            self.fed
                .get(&pair[1])
                .is_some_and(|it| it.contains(&pair[0]))
        };
        self.drive.contains(first)
            && ids.windows(2).all(fed)
            && self.immediate(input).contains(last)
    }

    /// The least of the shortest, by mending: each component's best way to the
    /// port is its own id before the best way of one that it feeds, or alone
    /// where it feeds the port.
    pub fn best(&self, input: PortRef) -> Option<Vec<u64>> {
        let better = |a: &Vec<u64>, b: &Vec<u64>| (a.len(), a) < (b.len(), b);
        let alone = self.immediate(input).into_iter().map(|id| (id, vec![id]));
        let mut best: BTreeMap<u64, Vec<u64>> = alone.collect();
        let mut mended = true;
        while mended {
            mended = false;
            for (sink, sources) in &self.fed {
                let Some(rest) = best.get(sink).cloned() else {
                    continue;
                };
                for &source in sources {
                    let way: Vec<u64> = [source].into_iter().chain(rest.iter().copied()).collect();
                    if best.get(&source).is_none_or(|old| better(&way, old)) {
                        best.insert(source, way);
                        mended = true;
                    }
                }
            }
        }
        let driving = best.into_iter().filter(|(id, _)| self.drive.contains(id));
        driving
            .map(|(_, way)| way)
            .min_by_key(|way| (way.len(), way.clone()))
    }

    /// All lists of up to so many of the ids.
    pub fn lists(ids: &[u64], most: usize) -> Vec<Vec<u64>> {
        let mut all = vec![vec![]];
        let mut last = vec![vec![]];
        for _ in 0..most {
            let longer = |list: &Vec<u64>, id: u64| [list.as_slice(), &[id]].concat();
            last = last
                .iter()
                .flat_map(|list| ids.iter().map(move |&id| longer(list, id)))
                .collect();
            all.extend(last.iter().cloned());
        }
        all
    }
}

pub fn of(input: PortRef) -> [u64; 2] {
    [number(input.component), u64::from(input.port)]
}
