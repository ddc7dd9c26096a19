//! Lists lent as bytes, eight to a number, lowest first, and the refusals of
//! lists lent so.

use crate::Lent;
use crate::limits::{
    COMPONENT, COMPONENTS, CONNECTION, CONNECTIONS, FRONTIER, FRONTIERS, PORT_CONNECTION,
};
use crate::refusals::{self, COMPONENT_LIST, CONNECTION_LIST, FRONTIER_LIST, Refusal};

/// Bytes to a number.
pub const NUMBER: usize = 8;

/// The bytes of a list.
#[must_use]
pub fn of(numbers: &[i64]) -> Vec<u8> {
    let numbers = numbers.iter();
    numbers.flat_map(|number| number.to_le_bytes()).collect()
}

/// The whole numbers of the bytes; fewer than eight at the end are left out.
#[must_use]
pub fn numbers(bytes: &[u8]) -> Vec<i64> {
    let (whole, _) = bytes.as_chunks::<NUMBER>();
    whole.iter().copied().map(i64::from_le_bytes).collect()
}

/// 1: over the limit, or not whole records of whole numbers.
fn not_a_list(list: u64, bytes: &[u8], width: usize, limit: usize) -> Option<Refusal> {
    let record = NUMBER * width;
    let whole = bytes.len() / record;
    let fault = whole > limit || !bytes.len().is_multiple_of(record);
    fault.then(|| Refusal {
        number: 1,
        list,
        item: whole.min(limit) as u64,
    })
}

/// The grouping entry by bytes: 11, 1 to 6. The slices are given by their lengths
/// in bytes.
#[must_use]
pub fn grouping(
    rules: i64,
    components: &[u8],
    connections: &[u8],
    nets: usize,
    fragments: usize,
) -> Option<Refusal> {
    refusals::unknown_rules(rules)
        .or_else(|| not_a_list(COMPONENT_LIST, components, COMPONENT, COMPONENTS))
        .or_else(|| not_a_list(CONNECTION_LIST, connections, CONNECTION, CONNECTIONS))
        .or_else(|| {
            let lists = [components, connections].map(numbers);
            let [nets, fragments] = [nets, fragments].map(|it| it / NUMBER);
            refusals::grouping(rules, &lists[0], &lists[1], nets, fragments)
        })
}

/// The words of the four sets that the liveness entry writes.
pub const SET_WORDS: usize = 4 * 16;

/// Lengths in bytes of the slices lent to the liveness entry.
#[derive(Clone, Copy, Debug, Default, Eq, PartialEq)]
pub struct LivenessLent {
    pub regions: usize,
    pub sources: usize,
    pub inputs: usize,
    pub sets: usize,
    pub stack: usize,
}

/// The liveness entry by bytes: 11, 1 to 5 and 7. A slice of sets that is too
/// short is one of the slices of number 2.
#[must_use]
pub fn liveness(
    rules: i64,
    components: &[u8],
    ports: &[u8],
    frontiers: &[u8],
    lent: &LivenessLent,
) -> Option<Refusal> {
    refusals::unknown_rules(rules)
        .or_else(|| not_a_list(COMPONENT_LIST, components, COMPONENT, COMPONENTS))
        .or_else(|| not_a_list(CONNECTION_LIST, ports, PORT_CONNECTION, CONNECTIONS))
        .or_else(|| not_a_list(FRONTIER_LIST, frontiers, FRONTIER, FRONTIERS))
        .or_else(|| (lent.sets / NUMBER < SET_WORDS).then(refusals::too_short_slice))
        .or_else(|| {
            let lists = [components, ports, frontiers].map(numbers);
            let lent = Lent {
                regions: lent.regions / NUMBER,
                sources: lent.sources / NUMBER,
                inputs: lent.inputs / NUMBER,
                stack: lent.stack / NUMBER,
                ..Lent::default()
            };
            refusals::liveness(rules, &lists[0], &lists[1], &lists[2], &lent)
        })
}
