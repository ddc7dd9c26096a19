//! The table of ids, restated: where a component with an id stands in the
//! list, and which component is the k-th by rising id.

use crate::limits::COMPONENT;
use crate::refusals::components_alone;

/// Ids with their list places, by rising id; none where the components are
/// not acceptable by themselves.
fn table(components: &[i64]) -> Option<Vec<(u64, u64)>> {
    if components_alone(components).is_some() {
        return None;
    }
    let records = components.chunks_exact(COMPONENT).zip(0..);
    let mut table: Vec<(u64, u64)> = records
        .map(|(record, place)| (record[0].unsigned_abs(), place))
        .collect();
    table.sort_unstable();
    Some(table)
}

/// The list place of the component with an id.
#[must_use]
pub fn place_of(components: &[i64], id: u64) -> Option<u64> {
    let table = table(components)?;
    let entry = table.iter().find(|(used, _)| *used == id)?;
    Some(entry.1)
}

/// The list place of the component with the k-th smallest id, k from 0.
#[must_use]
pub fn place_of_member(components: &[i64], k: u64) -> Option<u64> {
    let table = table(components)?;
    let entry = table.get(usize::try_from(k).ok()?)?;
    Some(entry.1)
}
