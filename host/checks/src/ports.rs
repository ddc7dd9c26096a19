//! The kept port connections under rules 1, compared with the unchanged Rust
//! where they are given, their slopes and refusals with the restatement.

use std::fmt::Display;

use probe::ports::port_connections;
use scenes::limits::RULES_OF_THE_RUST;
use scenes::{Scene, refusals};

use crate::{Counted, Guarded};

/// Counts of what was compared.
#[derive(Clone, Debug, Default)]
pub struct Ports {
    calls: u64,
    by_number: [u64; 7],
    connections: u64,
    /// Level, rising and falling.
    kept: [u64; 3],
}

impl Ports {
    /// One call with a slice of this length lent, and all that it answers and
    /// leaves.
    ///
    /// # Panics
    /// Where something differs; `case` is printed then.
    pub fn call(&mut self, scene: &Scene, lent: usize, case: &dyn Display) {
        self.calls += 1;
        let (components, connections) = (&scene.components, &scene.connections);
        let mut out = Guarded::new(lent, 0);
        let given = port_connections(RULES_OF_THE_RUST, components, connections, out.lent());
        match wanted(scene, lent) {
            Ok(rows) => {
                self.by_number[0] += 1;
                self.connections += connections.len() as u64 / 3;
                for row in &rows {
                    self.kept[usize::try_from(row[5]).unwrap_or(0)] += 1;
                }
                assert_eq!(given, Ok(rows.len() as u64), "count, {case}{scene}");
                let held = out.holds(rows.as_flattened());
                assert!(held, "rows, lent {lent}, {case}{scene}");
            }
            Err(refusal) => {
                self.by_number[usize::try_from(refusal.number).unwrap_or(0)] += 1;
                assert_eq!(given, Err(refusal), "refusal, lent {lent}, {case}{scene}");
                assert!(
                    out.holds(&[]),
                    "a refusal wrote, lent {lent}, {case}{scene}"
                );
            }
        }
    }
}

impl Counted for Ports {
    const LAST: usize = 6;

    fn count_of(&self, number: usize) -> u64 {
        self.by_number.get(number).copied().unwrap_or(0)
    }

    fn print(&self, title: &str) {
        let Self {
            calls,
            by_number,
            connections,
            kept,
        } = self;
        println!(
            "{title}: {calls} calls, by number {by_number:?}, of {connections} connections kept by slope {kept:?}"
        );
    }
}

/// The Rust's rows with the restatement's slopes, or its refusal.
fn wanted(scene: &Scene, lent: usize) -> Result<Vec<[i64; 6]>, probe::Refusal> {
    let (components, connections) = (&scene.components, &scene.connections);
    if let Some(refusal) = refusals::ports(RULES_OF_THE_RUST, components, connections, lent) {
        let scenes::Refusal { number, list, item } = refusal;
        return Err(probe::Refusal { number, list, item });
    }
    let kept = oracle::ports(components, connections);
    Ok(paper::sloped(components, &kept))
}
