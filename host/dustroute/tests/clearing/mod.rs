//! Calls of `dustroute_clear` and `clear`, and what each answer must be.

use std::collections::BTreeSet;

use crate::typed::Lists;
use dustroute::bytes::{self, Lent, NUMBER, SETS, WORDS};
use dustroute::{Cleared, Dropped, Missing, Refusal, Rules, clear};
use scenes::limits::{
    COMPONENT, DROPPED_ROW, INPUT_ROW, INPUTS_EACH, PORT_CONNECTION, SOURCE_ROW, SOURCES_EACH,
    STACK_PAIR, SUPPORT,
};
use scenes::{Scene, refusals};

mod raw {
    unsafe extern "C" {
        pub fn dustroute_clear(
            rules: i64,
            components: *const i64,
            components_len: usize,
            ports: *const i64,
            ports_len: usize,
            frontiers: *const i64,
            frontiers_len: usize,
            kept: *mut i64,
            kept_len: usize,
            dropped: *mut u64,
            dropped_len: usize,
        ) -> u64;
    }
}

fn call(rules: Rules, scene: &Scene, kept: &mut [i64], dropped: &mut [u64]) -> u64 {
    let Scene {
        components,
        ports,
        frontiers,
        ..
    } = scene;
    // SAFETY: each pointer is to a whole slice of the length beside it. The
    // callee only reads the first three, and the borrows keep the others apart.
    unsafe {
        raw::dustroute_clear(
            rules.number(),
            components.as_ptr(),
            components.len(),
            ports.as_ptr(),
            ports.len(),
            frontiers.as_ptr(),
            frontiers.len(),
            kept.as_mut_ptr(),
            kept.len(),
            dropped.as_mut_ptr(),
            dropped.len(),
        )
    }
}

/// The request restated: the rows of both lists.
fn restated(scene: &Scene) -> (Vec<i64>, Vec<u64>) {
    let components = scene.components.chunks_exact(COMPONENT);
    let ids: BTreeSet<i64> = components.map(|it| it[0]).collect();
    let (mut kept, mut dropped) = (Vec::new(), Vec::new());
    for (item, row) in (0..).zip(scene.ports.chunks_exact(PORT_CONNECTION)) {
        let missing = [row[0], row[2]].map(|id| !ids.contains(&id));
        match missing {
            _ if row[4] == SUPPORT => kept.extend_from_slice(row),
            [false, false] => kept.extend_from_slice(row),
            [true, false] => dropped.extend([item, 0]),
            [false, true] => dropped.extend([item, 1]),
            [true, true] => dropped.extend([item, 2]),
        }
    }
    (kept, dropped)
}

/// The answer of the liveness entry, its slices just long enough.
fn analyzed(rules: Rules, scene: &Scene) -> u64 {
    let Scene {
        components,
        ports,
        frontiers,
        ..
    } = scene;
    let n = components.len() / COMPONENT;
    let room = |places: usize| vec![0; places * NUMBER];
    let lent = Lent {
        regions: &mut room(n),
        sources: &mut room(n * SOURCES_EACH * SOURCE_ROW),
        inputs: &mut room(n * INPUTS_EACH * INPUT_ROW),
        sets: &mut room(SETS * WORDS),
        stack: &mut room(n * STACK_PAIR),
    };
    let [components, ports, frontiers] =
        [components, ports, frontiers].map(|list| scenes::bytes::of(list));
    bytes::liveness(rules.number(), &components, &ports, &frontiers, lent)
}

const fn packed(refusal: refusals::Refusal) -> u64 {
    refusal.number + (refusal.list << 8) + (refusal.item << 16)
}

/// How many numbers of each list are lent.
#[derive(Clone, Copy, Debug)]
pub struct Room {
    kept: usize,
    dropped: usize,
}

impl Room {
    pub const fn enough(scene: &Scene) -> Self {
        let places = scene.ports.len() / PORT_CONNECTION;
        Self {
            kept: places * PORT_CONNECTION,
            dropped: places * DROPPED_ROW,
        }
    }

    /// Each list a number short, just long enough, a number over, or empty.
    pub fn variants(self) -> Vec<Self> {
        let lengths = |it: usize| [it.saturating_sub(1), it, it + 1, 0];
        let kept = lengths(self.kept).into_iter();
        kept.flat_map(|kept| lengths(self.dropped).map(|dropped| Self { kept, dropped }))
            .collect()
    }
}

/// What a dirty slice holds: numbers that a row may hold too.
fn dirt(length: usize, from: u64) -> impl Iterator<Item = u64> {
    (0..length as u64).map(move |place| (place * 7 + from) % 12)
}

/// Numbers behind each slice, which must stay.
const MARGIN: usize = 3;

/// How many calls were made, and what they said.
#[derive(Debug, Default)]
pub struct Asked {
    calls: u64,
    /// With nothing dropped.
    whole: u64,
    cleared: u64,
    kept: u64,
    dropped: [u64; 3],
    /// By number, from 1.
    pub refused: [u64; 5],
    analyses: u64,
}

impl Asked {
    /// The rules go round, and nothing depends on them.
    fn rules(&self) -> Rules {
        Rules::ALL[(self.calls % 3) as usize]
    }

    /// A call with dirty slices in a margin: the answer, both slices at exit,
    /// and all that is no row as it was. None for a refusal.
    pub fn hold(&mut self, scene: &Scene, room: Room, case: &dyn Fn() -> String) -> Option<Scene> {
        let Room { kept, dropped } = room;
        let dirty = dirt(kept + MARGIN, self.calls).map(u64::cast_signed);
        let mut kept_slice: Vec<i64> = dirty.collect();
        let mut dropped_slice: Vec<u64> = dirt(dropped + MARGIN, self.calls + 5).collect();
        let (mut kept_wanted, mut dropped_wanted) = (kept_slice.clone(), dropped_slice.clone());
        let answer = call(
            self.rules(),
            scene,
            &mut kept_slice[..kept],
            &mut dropped_slice[..dropped],
        );
        let Scene {
            components,
            ports,
            frontiers,
            ..
        } = scene;
        let rules = self.rules().number();
        let refusal = refusals::clearing(rules, components, ports, frontiers, kept, dropped);
        self.calls += 1;
        let cleared = match refusal {
            Some(refusal) => {
                assert_eq!(answer, packed(refusal), "{}: {scene}", case());
                self.refused[refusal.number as usize - 1] += 1;
                None
            }
            None => {
                let (rows, items) = restated(scene);
                let counts = [rows.len() / PORT_CONNECTION, items.len() / DROPPED_ROW];
                let [kept, dropped] = counts.map(|it| it as u64);
                assert_eq!(answer, kept << 16 | dropped << 32, "{}: {scene}", case());
                kept_wanted[..rows.len()].copy_from_slice(&rows);
                dropped_wanted[..items.len()].copy_from_slice(&items);
                self.count(kept, &items);
                Some(Scene {
                    ports: rows,
                    ..scene.clone()
                })
            }
        };
        assert_eq!(kept_slice, kept_wanted, "{}: {scene}", case());
        assert_eq!(dropped_slice, dropped_wanted, "{}: {scene}", case());
        cleared
    }

    fn count(&mut self, kept: u64, items: &[u64]) {
        self.whole += u64::from(items.is_empty());
        self.cleared += u64::from(!items.is_empty());
        self.kept += kept;
        for row in items.chunks_exact(DROPPED_ROW) {
            self.dropped[row[1] as usize] += 1;
        }
    }

    /// Besides: cleared again nothing changes, the liveness entry takes what is
    /// kept, and where it refuses the given list with 7 its item is the first
    /// that was dropped.
    pub fn hold_all(&mut self, scene: &Scene, case: &dyn Fn() -> String) {
        let rules = self.rules();
        let cleared = self.hold(scene, Room::enough(scene), case);
        let given = analyzed(rules, scene);
        let refused = Refusal::of(given);
        self.analyses += 1;
        let Some(cleared) = cleared else {
            assert!(refused.is_some(), "{}: {scene}", case());
            return;
        };
        let again = self.hold(&cleared, Room::enough(&cleared), case);
        assert_eq!(again.map(|it| it.ports).as_ref(), Some(&cleared.ports));
        let taken = analyzed(rules, &cleared);
        self.analyses += 1;
        assert_eq!(Refusal::of(taken), None, "{}: {scene}", case());
        let (_, items) = restated(scene);
        match items.first() {
            Some(item) => assert_eq!(given, 7 | 1 << 8 | item << 16, "{}: {scene}", case()),
            None => assert_eq!(given, taken, "{}: {scene}", case()),
        }
        self.hold_typed(scene, &cleared.ports, &items, case);
    }

    /// The same of the typed function.
    fn hold_typed(
        &mut self,
        scene: &Scene,
        rows: &[i64],
        items: &[u64],
        case: &dyn Fn() -> String,
    ) {
        let kept = Scene {
            ports: rows.to_vec(),
            ..Scene::default()
        };
        let (Some(lists), Some(kept)) = (Lists::of(scene), Lists::of(&kept)) else {
            return;
        };
        let dropped = items.chunks_exact(DROPPED_ROW).map(|row| Dropped {
            item: row[0] as usize,
            missing: Missing::ALL[row[1] as usize],
        });
        let wanted = Cleared {
            kept: kept.ports,
            dropped: dropped.collect(),
        };
        let found = clear(
            self.rules(),
            &lists.components,
            &lists.ports,
            &lists.frontiers,
        );
        self.calls += 1;
        assert_eq!(found, Ok(wanted), "{}: {scene}", case());
    }

    pub fn assert_met(&self, name: &str) {
        let Self {
            calls,
            whole,
            cleared,
            kept,
            dropped,
            refused,
            analyses,
        } = self;
        println!(
            "{name}: {calls} calls; {whole} whole, {cleared} cleared, in them {kept} kept and \
             {dropped:?} dropped by source, sink, both; {refused:?} refused with 1 to 5; \
             {analyses} calls of the liveness entry"
        );
        assert!(*whole > 0 && *cleared > 0);
        assert!(dropped.iter().all(|count| *count > 0));
    }
}
