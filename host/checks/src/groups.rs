//! The grouping entry by bytes under rules 1, compared with the unchanged Rust
//! where it accepts and with the restatement where it refuses.

use std::fmt::{self, Display};

use probe::capi::{self, Counts};
use probe::ports::fragment_net;
use scenes::limits::{COMPONENT, RULES_OF_THE_RUST};
use scenes::{Scene, bytes};

use crate::{Counted, Guarded};

/// What the entry takes: two lists as bytes, and how many bytes are lent for
/// the nets and the fragments.
#[derive(Clone, Debug, Default)]
pub struct ByteLists {
    pub components: Vec<u8>,
    pub connections: Vec<u8>,
    pub nets: usize,
    pub fragments: usize,
}

impl ByteLists {
    /// The lists of a scene, with the fewest bytes lent that are enough.
    #[must_use]
    pub fn of(scene: &Scene) -> Self {
        let enough = scene.components.len() / COMPONENT * bytes::NUMBER;
        Self {
            components: bytes::of(&scene.components),
            connections: bytes::of(&scene.connections),
            nets: enough,
            fragments: enough,
        }
    }

    fn numbers(&self) -> [Vec<i64>; 2] {
        [&self.components, &self.connections].map(|list| bytes::numbers(list))
    }
}

impl Display for ByteLists {
    fn fmt(&self, out: &mut fmt::Formatter<'_>) -> fmt::Result {
        let tails = [&self.components, &self.connections].map(|list| list.len() % bytes::NUMBER);
        let [components, connections] = self.numbers();
        let scene = Scene {
            components,
            connections,
            ..Scene::default()
        };
        let lent = [self.nets, self.fragments];
        write!(
            out,
            "\n  lent bytes {lent:?}, odd bytes at the ends {tails:?}{scene}"
        )
    }
}

/// Counts of what was compared.
#[derive(Clone, Debug, Default)]
pub struct Groups {
    calls: u64,
    by_number: [u64; 7],
    components: u64,
    fragment_nets: u64,
}

/// Up to this many components every fragment is asked for every net.
const FEW: usize = 8;

/// Fragments asked for in a scene with more components.
const ASKED: usize = 40;

impl Groups {
    /// One call, with all that it answers and leaves.
    ///
    /// # Panics
    /// Where something differs; `case` is printed then.
    pub fn call(&mut self, lists: &ByteLists, case: &dyn Display) {
        let shift = usize::try_from(self.calls % 64).unwrap_or(0);
        self.calls += 1;
        let mut nets = Guarded::new(lists.nets, shift);
        let mut fragments = Guarded::new(lists.fragments, shift / 8);
        let given = capi::groups(
            RULES_OF_THE_RUST,
            &lists.components,
            &lists.connections,
            nets.lent(),
            fragments.lent(),
        );
        match wanted(lists) {
            Ok(groups) => {
                self.by_number[0] += 1;
                self.components += groups.net.len() as u64;
                let counts = Counts {
                    nets: groups.net_count as u64,
                    fragments: groups.fragment_count as u64,
                };
                assert_eq!(given, Ok(counts), "counts, {case}{lists}");
                let held = nets.holds(&bytes::of(&groups.net));
                assert!(held, "nets, {case}{lists}");
                let held = fragments.holds(&bytes::of(&groups.fragment));
                assert!(held, "fragments, {case}{lists}");
                self.fragment_nets(&groups, lists, case);
            }
            Err(refusal) => {
                self.by_number[usize::try_from(refusal.number).unwrap_or(0)] += 1;
                assert_eq!(given, Err(refusal), "refusal, {case}{lists}");
                let held = nets.holds(&[]) && fragments.holds(&[]);
                assert!(held, "a refusal wrote, {case}{lists}");
            }
        }
    }

    /// The nets of fragments: all with all in a small scene, else of some
    /// fragments all that they have and some that they have not.
    fn fragment_nets(&mut self, groups: &oracle::Groups, lists: &ByteLists, case: &dyn Display) {
        let [nets, fragments] = [&groups.net, &groups.fragment].map(|list| unsigned(list));
        let few = nets.len() <= FEW;
        let step = if few {
            1
        } else {
            1 + groups.fragment_count / ASKED
        };
        let none = Vec::new();
        let asked = (0..=groups.fragment_count).step_by(step);
        for fragment in asked {
            let inside = unsigned(groups.fragment_nets.get(fragment).unwrap_or(&none));
            let asked = if few {
                (0..=groups.net_count as u64).collect()
            } else {
                some_nets(&inside, groups.net_count as u64)
            };
            for net in asked {
                let given = fragment_net(&nets, &fragments, fragment as u64, net);
                let wanted = u64::from(inside.contains(&net));
                self.fragment_nets += 1;
                assert_eq!(
                    given, wanted,
                    "net {net} of fragment {fragment}, {case}{lists}"
                );
            }
        }
    }
}

impl Counted for Groups {
    const LAST: usize = 6;

    fn count_of(&self, number: usize) -> u64 {
        self.by_number.get(number).copied().unwrap_or(0)
    }

    fn print(&self, title: &str) {
        let Self {
            calls,
            by_number,
            components,
            fragment_nets,
        } = self;
        println!(
            "{title}: {calls} calls, by number {by_number:?}, {components} components, {fragment_nets} nets of fragments"
        );
    }
}

/// The Rust's groups, or the restatement's refusal.
fn wanted(lists: &ByteLists) -> Result<oracle::Groups, probe::Refusal> {
    let ByteLists {
        components,
        connections,
        nets,
        fragments,
    } = lists;
    if let Some(refusal) = bytes::grouping(
        RULES_OF_THE_RUST,
        components,
        connections,
        *nets,
        *fragments,
    ) {
        let scenes::Refusal { number, list, item } = refusal;
        return Err(probe::Refusal { number, list, item });
    }
    let [components, connections] = lists.numbers();
    Ok(oracle::groups(&components, &connections))
}

fn unsigned(numbers: &[i64]) -> Vec<u64> {
    numbers.iter().map(|number| number.unsigned_abs()).collect()
}

/// Some of the nets inside, the nets beside those, and the ends of the range.
fn some_nets(inside: &[u64], net_count: u64) -> Vec<u64> {
    let step = 1 + inside.len() / 4;
    let some = inside.iter().step_by(step);
    let mut nets: Vec<u64> = some.flat_map(|&net| [net, net + 1]).collect();
    nets.extend([0, net_count]);
    nets.retain(|&net| net <= net_count.min(1_023));
    nets
}
