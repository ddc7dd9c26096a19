//! The liveness entry by bytes, compared under rules 1 with the unchanged Rust
//! where it accepts, under others with the restatement, and with the restatement
//! where it refuses; and the input query of each verdict row.

use std::fmt::{self, Display};

use oracle::Input;
use probe::blocks::input;
use probe::capi::{self, RowCounts, WORDS};
use probe::entries::{Lists, Port};
use scenes::bytes::{self, LivenessLent, NUMBER, SET_WORDS};
use scenes::limits::{COMPONENT, RULES_OF_THE_RUST};
use scenes::refusals::NO_LIST;
use scenes::{Lent, Scene};

use crate::{Counted, Guarded, UNKNOWN_RULES};

/// What the entry takes: the rules' number, three lists as bytes, and how many
/// bytes are lent.
#[derive(Clone, Debug)]
pub struct LivenessLists {
    pub rules: i64,
    pub components: Vec<u8>,
    pub ports: Vec<u8>,
    pub frontiers: Vec<u8>,
    pub lent: LivenessLent,
}

impl LivenessLists {
    /// The lists of a scene, with the fewest bytes lent that are enough, to be
    /// marked by the rules of the Rust.
    #[must_use]
    pub fn of(scene: &Scene) -> Self {
        Self {
            rules: RULES_OF_THE_RUST,
            components: bytes::of(&scene.components),
            ports: bytes::of(&scene.ports),
            frontiers: bytes::of(&scene.frontiers),
            lent: enough(scene),
        }
    }

    fn scene(&self) -> Scene {
        Scene {
            components: bytes::numbers(&self.components),
            ports: bytes::numbers(&self.ports),
            frontiers: bytes::numbers(&self.frontiers),
            ..Scene::default()
        }
    }
}

impl Display for LivenessLists {
    fn fmt(&self, out: &mut fmt::Formatter<'_>) -> fmt::Result {
        let lists = [&self.components, &self.ports, &self.frontiers];
        let tails = lists.map(|list| list.len() % NUMBER);
        let (rules, lent, scene) = (self.rules, &self.lent, self.scene());
        write!(
            out,
            "\n  rules {rules}, lent {lent:?}, odd bytes at the ends {tails:?}{scene}"
        )
    }
}

/// Counts of what was compared.
#[derive(Clone, Debug, Default)]
pub struct Alive {
    /// Scenes that are not asked about after one that is.
    spared: u64,
    calls: u64,
    by_number: [u64; UNKNOWN_RULES + 1],
    components: u64,
    regions: u64,
    cyclic: u64,
    by_source: [u64; 4],
    by_status: [u64; 4],
    rows_asked: u64,
}

/// Up to this many components every row is asked for.
const FEW: usize = 8;

/// Rows asked for in a scene with more components.
const ASKED: usize = 4;

/// 8: the port asked for has no verdict row.
const NO_ROW: u64 = 8 + 256 * NO_LIST;

/// The slices that are lent to one call.
struct Slices {
    regions: Guarded<u8>,
    sources: Guarded<u8>,
    inputs: Guarded<u8>,
    sets: Guarded<u8>,
    stack: Guarded<u8>,
}

impl Slices {
    fn new(lent: &LivenessLent, shift: usize) -> Self {
        Self {
            regions: Guarded::new(lent.regions, shift),
            sources: Guarded::new(lent.sources, shift / 2),
            inputs: Guarded::new(lent.inputs, shift / 4),
            sets: Guarded::new(lent.sets, shift / 8),
            stack: Guarded::new(lent.stack, shift / 16),
        }
    }

    fn call(&mut self, lists: &LivenessLists) -> Result<RowCounts, probe::Refusal> {
        let lent = capi::Lent {
            regions: self.regions.lent(),
            sources: self.sources.lent(),
            inputs: self.inputs.lent(),
            sets: self.sets.lent(),
            stack: self.stack.lent(),
        };
        let LivenessLists {
            rules,
            components,
            ports,
            frontiers,
            ..
        } = lists;
        capi::liveness_bytes(*rules, components, ports, frontiers, lent)
    }

    fn are_as_before(&self) -> bool {
        [
            &self.regions,
            &self.sources,
            &self.inputs,
            &self.sets,
            &self.stack,
        ]
        .iter()
        .all(|slice| slice.holds(&[]))
    }
}

impl Alive {
    /// The input query is asked on one accepted scene of so many.
    #[must_use]
    pub fn asking_every(scenes: u64) -> Self {
        Self {
            spared: scenes.saturating_sub(1),
            ..Self::default()
        }
    }

    /// One call, with all that it answers and leaves.
    ///
    /// # Panics
    /// Where something differs; `case` is printed then.
    pub fn call(&mut self, lists: &LivenessLists, case: &dyn Display) {
        let shift = usize::try_from(self.calls % 128).unwrap_or(0);
        self.calls += 1;
        let mut slices = Slices::new(&lists.lent, shift);
        let given = slices.call(lists);
        match wanted(lists) {
            Ok(report) => {
                let scene = lists.scene();
                self.by_number[0] += 1;
                self.count(&report);
                assert_eq!(given, Ok(counts(&report)), "counts, {case}{lists}");
                hold_rows(&slices, &report, &scene, lists, case);
                // The query is lent none of these slices: other lengths of them
                // need not ask it again.
                let is_asked = self.by_number[0].is_multiple_of(self.spared + 1);
                if is_asked && lists.lent == enough(&scene) {
                    self.queries(lists.rules, &report, &scene, case);
                }
            }
            Err(refusal) => {
                self.by_number[usize::try_from(refusal.number).unwrap_or(0)] += 1;
                assert_eq!(given, Err(refusal), "refusal, {case}{lists}");
                assert!(slices.are_as_before(), "a refusal wrote, {case}{lists}");
            }
        }
    }

    fn count(&mut self, report: &oracle::Liveness) {
        self.components += report.region.len() as u64;
        self.regions += report.regions.len() as u64;
        self.cyclic += report.regions.iter().filter(|it| it.cyclic).count() as u64;
        for [_, kind] in &report.sources {
            self.by_source[usize::try_from(*kind).unwrap_or(0)] += 1;
        }
        for input in &report.inputs {
            self.by_status[usize::try_from(input.status).unwrap_or(0)] += 1;
        }
    }

    /// The immediate and the inferred set of verdict rows: of all of them in a
    /// small scene, else of some. A port beside them has no row and is refused.
    fn queries(
        &mut self,
        rules: i64,
        report: &oracle::Liveness,
        scene: &Scene,
        case: &dyn Display,
    ) {
        let few = scene.components.len() / COMPONENT <= FEW;
        let step = if few {
            1
        } else {
            1 + report.inputs.len() / ASKED
        };
        let lists = Lists {
            rules,
            components: &scene.components,
            ports: &scene.ports,
            frontiers: &scene.frontiers,
        };
        for row in report.inputs.iter().step_by(step) {
            self.rows_asked += 1;
            let [id, port] = [row.device, row.port].map(i64::unsigned_abs);
            hold_query(lists, [id, port], Some(row), scene, case);
            hold_query(lists, [id, port + 5], None, scene, case);
        }
    }

    /// How often each status came up.
    #[must_use]
    pub const fn statuses(&self) -> [u64; 4] {
        self.by_status
    }

    /// How often each source kind came up.
    #[must_use]
    pub const fn source_kinds(&self) -> [u64; 4] {
        self.by_source
    }
}

impl Counted for Alive {
    const LAST: usize = 7;

    fn count_of(&self, number: usize) -> u64 {
        self.by_number.get(number).copied().unwrap_or(0)
    }

    fn print(&self, title: &str) {
        println!("{title}: {self:?}");
    }
}

/// The query of a port: both sets of a verdict row and a stack of zeros, or 8 and
/// every slice as it was.
fn hold_query(
    lists: Lists<'_>,
    port: Port,
    row: Option<&Input>,
    scene: &Scene,
    case: &dyn Display,
) {
    let length = Lent::enough(scene).stack;
    let [mut immediate, mut inferred] = [0, 1].map(|shift| Guarded::new(WORDS, shift));
    let mut stack = Guarded::new(length, 0);
    let sets = [immediate.lent(), inferred.lent()];
    let given = input(lists, port, sets, stack.lent());
    let (wanted, sets, zeros) = match row {
        Some(row) => {
            let sets = [&row.immediate, &row.inferred].map(|ids| members(ids, scene));
            (0, sets, vec![0; length])
        }
        None => (NO_ROW, [Vec::new(), Vec::new()], Vec::new()),
    };
    assert_eq!(given, wanted, "answer of {port:?}, {case}{scene}");
    let held = immediate.holds(&sets[0]) && inferred.holds(&sets[1]);
    assert!(held, "sets of {port:?}, {case}{scene}");
    assert!(stack.holds(&zeros), "stack of {port:?}, {case}{scene}");
}

/// The fewest bytes that are enough.
const fn enough(scene: &Scene) -> LivenessLent {
    let enough = Lent::enough(scene);
    LivenessLent {
        regions: enough.regions * NUMBER,
        sources: enough.sources * NUMBER,
        inputs: enough.inputs * NUMBER,
        sets: SET_WORDS * NUMBER,
        stack: enough.stack * NUMBER,
    }
}

/// The Rust's report, or under other rules than its own the restatement's; or the
/// restatement's refusal.
fn wanted(lists: &LivenessLists) -> Result<oracle::Liveness, probe::Refusal> {
    let refusal = bytes::liveness(
        lists.rules,
        &lists.components,
        &lists.ports,
        &lists.frontiers,
        &lists.lent,
    );
    if let Some(scenes::Refusal { number, list, item }) = refusal {
        return Err(probe::Refusal { number, list, item });
    }
    let Scene {
        components,
        ports,
        frontiers,
        ..
    } = &lists.scene();
    Ok(match lists.rules {
        RULES_OF_THE_RUST => oracle::liveness(components, ports, frontiers),
        rules => paper::liveness(rules, components, ports, frontiers),
    })
}

const fn counts(report: &oracle::Liveness) -> RowCounts {
    RowCounts {
        regions: report.regions.len() as u64,
        sources: report.sources.len() as u64,
        inputs: report.inputs.len() as u64,
    }
}

fn hold_rows(
    slices: &Slices,
    report: &oracle::Liveness,
    scene: &Scene,
    lists: &LivenessLists,
    case: &dyn Display,
) {
    let held = slices.regions.holds(&bytes::of(&report.region));
    assert!(held, "regions, {case}{lists}");
    let held = slices.sources.holds(&bytes::of(&report.sources.concat()));
    assert!(held, "sources, {case}{lists}");
    let rows = report.inputs.iter();
    let rows: Vec<i64> = rows
        .flat_map(|it| [it.device, it.port, it.status])
        .collect();
    assert!(
        slices.inputs.holds(&bytes::of(&rows)),
        "inputs, {case}{lists}"
    );
    let regions = || (0_u64..).zip(&report.regions);
    let cyclic = regions().filter(|(_, it)| it.cyclic).map(|(k, _)| k);
    let driven = regions().filter(|(_, it)| it.contains_drive_source);
    let sets = [
        members(&report.drive, scene),
        members(&report.potential, scene),
        words(cyclic),
        words(driven.map(|(k, _)| k)),
    ];
    let sets: Vec<u8> = sets
        .concat()
        .iter()
        .flat_map(|it| it.to_le_bytes())
        .collect();
    assert!(slices.sets.holds(&sets), "sets, {case}{lists}");
    let zero = vec![0; lists.lent.stack];
    assert!(slices.stack.holds(&zero), "stack, {case}{lists}");
}

/// The set of the components with these ids: member k has the k-th smallest.
fn members(ids: &[i64], scene: &Scene) -> Vec<u64> {
    let mut all: Vec<i64> = scene
        .components
        .iter()
        .step_by(COMPONENT)
        .copied()
        .collect();
    all.sort_unstable();
    let member = |id: &i64| all.binary_search(id).unwrap_or(usize::MAX) as u64;
    words(ids.iter().map(member))
}

/// Sixteen words with these bits.
fn words(numbers: impl Iterator<Item = u64>) -> Vec<u64> {
    let mut words = vec![0; WORDS];
    for number in numbers {
        let word = usize::try_from(number / 64).unwrap_or(usize::MAX);
        words[word] |= 1_u64 << (number % 64);
    }
    words
}
