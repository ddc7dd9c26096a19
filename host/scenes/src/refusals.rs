//! The refusal table, restated plainly from the scope paper.
//!
//! Each entry lists its checks by rising number, but for 11, which comes before
//! all else; the first that finds a fault gives the answer. Within one number the lists are looked at in the order
//! components, connections, frontiers, and a list from its first record on.

use std::collections::BTreeSet;

use crate::Lent;
use crate::limits::{
    COMPONENT, COMPONENT_RANGES, COMPONENTS, CONNECTION, CONNECTION_RANGES, CONNECTIONS,
    DROPPED_ROW, FRONTIER, FRONTIER_RANGES, FRONTIERS, INPUT_ROW, INPUTS_EACH, KEPT_ROW,
    LAST_RULES, PORT_CONNECTION, PORT_CONNECTION_RANGES, Range, SET_WORDS, SOURCE_ROW,
    SOURCES_EACH, STACK_PAIR, SUPPORT,
};

/// A refusal: its number, the list it concerns and the item in that list.
#[derive(Clone, Copy, Debug, Eq, PartialEq)]
pub struct Refusal {
    pub number: u64,
    pub list: u64,
    pub item: u64,
}

pub const COMPONENT_LIST: u64 = 0;
pub const CONNECTION_LIST: u64 = 1;
pub const FRONTIER_LIST: u64 = 2;
pub const NO_LIST: u64 = 3;

const fn refusal(number: u64, list: u64, item: usize) -> Refusal {
    Refusal {
        number,
        list,
        item: item as u64,
    }
}

/// 11: a rules number other than those that are known.
#[must_use]
pub fn unknown_rules(rules: i64) -> Option<Refusal> {
    let known = 1..=LAST_RULES;
    (!known.contains(&rules)).then(|| refusal(11, NO_LIST, 0))
}

/// 1: over the limit, or not whole records.
fn not_a_list(list: u64, numbers: &[i64], width: usize, limit: usize) -> Option<Refusal> {
    let whole = numbers.len() / width;
    let fault = whole > limit || !numbers.len().is_multiple_of(width);
    fault.then(|| refusal(1, list, whole.min(limit)))
}

/// 2: some lent slice has fewer places than the worst case. Each slice is
/// given as its length, the numbers to a place, and the places needed.
fn too_short(slices: &[(usize, usize, usize)]) -> Option<Refusal> {
    let short = slices
        .iter()
        .any(|&(length, width, needed)| length / width < needed);
    short.then(|| refusal(2, NO_LIST, 0))
}

/// 2 by itself: nothing comes before it in lists of whole records within
/// their limits.
#[must_use]
pub const fn too_short_slice() -> Refusal {
    refusal(2, NO_LIST, 0)
}

/// 3: a field outside its range.
fn out_of_range(list: u64, numbers: &[i64], ranges: &[Range]) -> Option<Refusal> {
    let outside = |record: &[i64]| {
        let mut fields = record.iter().zip(ranges);
        fields.any(|(&field, &(low, high))| field < low || field > high)
    };
    let item = numbers.chunks_exact(ranges.len()).position(outside)?;
    Some(refusal(3, list, item))
}

/// What components ascend by: x, y, z, id.
fn order_of(component: &[i64]) -> [i64; 4] {
    [component[1], component[2], component[3], component[0]]
}

/// The later of the first two neighbours that do not ascend strictly.
fn not_ascending<K: Ord>(keys: impl Iterator<Item = K>) -> Option<usize> {
    let keys: Vec<K> = keys.collect();
    let earlier = keys.windows(2).position(|pair| pair[0] >= pair[1])?;
    Some(earlier + 1)
}

/// 4: components not strictly ascending.
fn components_unordered(components: &[i64]) -> Option<Refusal> {
    let item = not_ascending(components.chunks_exact(COMPONENT).map(order_of))?;
    Some(refusal(4, COMPONENT_LIST, item))
}

/// 5: an id that an earlier component has.
fn id_used_twice(components: &[i64]) -> Option<Refusal> {
    let mut used = BTreeSet::new();
    let mut ids = components.chunks_exact(COMPONENT).map(|record| record[0]);
    let item = ids.position(|id| !used.insert(id))?;
    Some(refusal(5, COMPONENT_LIST, item))
}

/// 6: grouping connections not strictly ascending.
fn connections_unordered(connections: &[i64]) -> Option<Refusal> {
    let item = not_ascending(connections.chunks_exact(CONNECTION))?;
    Some(refusal(6, CONNECTION_LIST, item))
}

/// 7: a port connection, no support, with an end that is no component.
fn end_missing(components: &[i64], ports: &[i64]) -> Option<Refusal> {
    let ids: BTreeSet<i64> = components
        .chunks_exact(COMPONENT)
        .map(|record| record[0])
        .collect();
    let missing =
        |row: &[i64]| row[4] != SUPPORT && !(ids.contains(&row[0]) && ids.contains(&row[2]));
    let item = ports.chunks_exact(PORT_CONNECTION).position(missing)?;
    Some(refusal(7, CONNECTION_LIST, item))
}

fn components_not_a_list(components: &[i64]) -> Option<Refusal> {
    not_a_list(COMPONENT_LIST, components, COMPONENT, COMPONENTS)
}

fn connections_not_a_list(connections: &[i64]) -> Option<Refusal> {
    not_a_list(CONNECTION_LIST, connections, CONNECTION, CONNECTIONS)
}

fn ports_not_a_list(ports: &[i64]) -> Option<Refusal> {
    not_a_list(CONNECTION_LIST, ports, PORT_CONNECTION, CONNECTIONS)
}

fn frontiers_not_a_list(frontiers: &[i64]) -> Option<Refusal> {
    not_a_list(FRONTIER_LIST, frontiers, FRONTIER, FRONTIERS)
}

fn components_range(components: &[i64]) -> Option<Refusal> {
    out_of_range(COMPONENT_LIST, components, &COMPONENT_RANGES)
}

fn connections_range(connections: &[i64]) -> Option<Refusal> {
    out_of_range(CONNECTION_LIST, connections, &CONNECTION_RANGES)
}

fn ports_range(ports: &[i64]) -> Option<Refusal> {
    out_of_range(CONNECTION_LIST, ports, &PORT_CONNECTION_RANGES)
}

fn frontiers_range(frontiers: &[i64]) -> Option<Refusal> {
    out_of_range(FRONTIER_LIST, frontiers, &FRONTIER_RANGES)
}

/// The grouping entry: 11, 1 to 6.
#[must_use]
pub fn grouping(
    rules: i64,
    components: &[i64],
    connections: &[i64],
    nets_len: usize,
    fragments_len: usize,
) -> Option<Refusal> {
    let n = components.len() / COMPONENT;
    unknown_rules(rules)
        .or_else(|| components_not_a_list(components))
        .or_else(|| connections_not_a_list(connections))
        .or_else(|| too_short(&[(nets_len, 1, n), (fragments_len, 1, n)]))
        .or_else(|| components_range(components))
        .or_else(|| connections_range(connections))
        .or_else(|| components_unordered(components))
        .or_else(|| id_used_twice(components))
        .or_else(|| connections_unordered(connections))
}

/// The ports entry: 11, 1 to 6.
#[must_use]
pub fn ports(
    rules: i64,
    components: &[i64],
    connections: &[i64],
    out_len: usize,
) -> Option<Refusal> {
    let m = connections.len() / CONNECTION;
    unknown_rules(rules)
        .or_else(|| components_not_a_list(components))
        .or_else(|| connections_not_a_list(connections))
        .or_else(|| too_short(&[(out_len, KEPT_ROW, m)]))
        .or_else(|| components_range(components))
        .or_else(|| connections_range(connections))
        .or_else(|| components_unordered(components))
        .or_else(|| id_used_twice(components))
        .or_else(|| connections_unordered(connections))
}

/// 11, 1 to 5 and 7 over the three lists of the liveness entries.
fn analysed(
    rules: i64,
    components: &[i64],
    ports: &[i64],
    frontiers: &[i64],
    slices: &[(usize, usize, usize)],
) -> Option<Refusal> {
    unknown_rules(rules)
        .or_else(|| components_not_a_list(components))
        .or_else(|| ports_not_a_list(ports))
        .or_else(|| frontiers_not_a_list(frontiers))
        .or_else(|| too_short(slices))
        .or_else(|| components_range(components))
        .or_else(|| ports_range(ports))
        .or_else(|| frontiers_range(frontiers))
        .or_else(|| components_unordered(components))
        .or_else(|| id_used_twice(components))
        .or_else(|| end_missing(components, ports))
}

/// The liveness entry: 11, 1 to 5 and 7. Regions, sources, inputs and the stack
/// are lent.
#[must_use]
pub fn liveness(
    rules: i64,
    components: &[i64],
    ports: &[i64],
    frontiers: &[i64],
    lent: &Lent,
) -> Option<Refusal> {
    let n = components.len() / COMPONENT;
    let slices = [
        (lent.regions, 1, n),
        (lent.sources, SOURCE_ROW, n * SOURCES_EACH),
        (lent.inputs, INPUT_ROW, n * INPUTS_EACH),
        (lent.stack, STACK_PAIR, n),
    ];
    analysed(rules, components, ports, frontiers, &slices)
}

/// The one pass over the regions: 11, 1 to 5 and 7. Given are the lengths of the
/// regions, of both sets, which have sixteen words each, and of the stack.
#[must_use]
pub fn light(
    rules: i64,
    components: &[i64],
    ports: &[i64],
    frontiers: &[i64],
    [regions_len, lit_len, driven_len, stack_len]: [usize; 4],
) -> Option<Refusal> {
    let n = components.len() / COMPONENT;
    let slices = [
        (regions_len, 1, n),
        (lit_len, SET_WORDS, 1),
        (driven_len, SET_WORDS, 1),
        (stack_len, STACK_PAIR, n),
    ];
    analysed(rules, components, ports, frontiers, &slices)
}

/// The regions that have a ring: 11, 1 to 5 and 7. Given are the lengths of the
/// regions, of the set, which has sixteen words, and of the stack.
#[must_use]
pub fn rings(
    rules: i64,
    components: &[i64],
    ports: &[i64],
    frontiers: &[i64],
    [regions_len, rings_len, stack_len]: [usize; 3],
) -> Option<Refusal> {
    let n = components.len() / COMPONENT;
    let slices = [
        (regions_len, 1, n),
        (rings_len, SET_WORDS, 1),
        (stack_len, STACK_PAIR, n),
    ];
    analysed(rules, components, ports, frontiers, &slices)
}

/// The input query without its own number 8: 11, 1 to 5 and 7.
#[must_use]
pub fn query(
    rules: i64,
    components: &[i64],
    ports: &[i64],
    frontiers: &[i64],
    stack_len: usize,
) -> Option<Refusal> {
    let n = components.len() / COMPONENT;
    analysed(
        rules,
        components,
        ports,
        frontiers,
        &[(stack_len, STACK_PAIR, n)],
    )
}

/// The clearing tool: 11, 1 to 5, since it mends 7.
#[must_use]
pub fn clearing(
    rules: i64,
    components: &[i64],
    ports: &[i64],
    frontiers: &[i64],
    kept_len: usize,
    dropped_len: usize,
) -> Option<Refusal> {
    let m = ports.len() / PORT_CONNECTION;
    let slices = [
        (kept_len, PORT_CONNECTION, m),
        (dropped_len, DROPPED_ROW, m),
    ];
    analysed(rules, components, ports, frontiers, &slices).filter(|it| it.number != 7)
}

/// The list checks of a sheet: 11, 3 to 6, on whole lists within their limits.
#[must_use]
pub fn sheet_lists(
    rules: i64,
    components: &[i64],
    connections: &[i64],
    frontiers: &[i64],
) -> Option<Refusal> {
    unknown_rules(rules)
        .or_else(|| components_range(components))
        .or_else(|| connections_range(connections))
        .or_else(|| frontiers_range(frontiers))
        .or_else(|| components_unordered(components))
        .or_else(|| id_used_twice(components))
        .or_else(|| connections_unordered(connections))
}

/// Components by themselves: 1, 3, 4, 5.
#[must_use]
pub fn components_alone(components: &[i64]) -> Option<Refusal> {
    components_not_a_list(components)
        .or_else(|| components_range(components))
        .or_else(|| components_unordered(components))
        .or_else(|| id_used_twice(components))
}
