//! The restatement on cases worked out by hand from the scope paper.

use scenes::bytes::{self, LivenessLent};
use scenes::limits::LAST_RULES;
use scenes::refusals::{
    clearing, components_alone, grouping, light, liveness, ports, query, rings, sheet_lists,
};
use scenes::{Lent, Refusal, Scene};

/// Rules that are known; no other refusal depends on them.
const RULES: i64 = 1;

/// A wire at x with an id.
const fn wire(id: i64, x: i64) -> [i64; 8] {
    [id, x, 0, 0, 0, 0, 0, 0]
}

fn wires(count: i64) -> Vec<i64> {
    (0..count).flat_map(|id| wire(id, id)).collect()
}

fn given(refusal: Option<Refusal>) -> Option<(u64, u64, u64)> {
    refusal.map(|it| (it.number, it.list, it.item))
}

fn group(components: &[i64], connections: &[i64]) -> Option<(u64, u64, u64)> {
    given(grouping(RULES, components, connections, 5_000, 5_000))
}

fn live(components: &[i64], ports: &[i64], frontiers: &[i64]) -> Option<(u64, u64, u64)> {
    let long = Lent::all(50_000);
    given(liveness(RULES, components, ports, frontiers, &long))
}

#[test]
fn nothing_is_accepted() {
    for rules in 1..=LAST_RULES {
        let none = Lent::default();
        assert_eq!(given(grouping(rules, &[], &[], 0, 0)), None);
        assert_eq!(given(ports(rules, &[], &[], 0)), None);
        assert_eq!(given(liveness(rules, &[], &[], &[], &none)), None);
        assert_eq!(given(query(rules, &[], &[], &[], 0)), None);
        assert_eq!(given(sheet_lists(rules, &[], &[], &[])), None);
    }
}

/// 11 whatever the lists: over their limits, of broken records, with fields out
/// of range.
#[test]
fn unknown_rules_come_before_all_else() {
    let long = vec![-1; 8 * 1_025 + 1];
    let none = Lent::default();
    for rules in [
        i64::MIN,
        -1,
        0,
        LAST_RULES + 1,
        257,
        (1 << 32) + 1,
        i64::MAX,
    ] {
        for list in [&[][..], &[7], &long] {
            let all = [
                grouping(rules, list, list, 0, 0),
                ports(rules, list, list, 0),
                liveness(rules, list, list, list, &none),
                light(rules, list, list, list, [0; 4]),
                rings(rules, list, list, list, [0; 3]),
                query(rules, list, list, list, 0),
                clearing(rules, list, list, list, 0, 0),
                sheet_lists(rules, list, list, list),
                bytes::grouping(rules, &[1], &[1], 0, 0),
                bytes::liveness(rules, &[1], &[1], &[1], &LivenessLent::default()),
            ];
            assert_eq!(all.map(given), [Some((11, 3, 0)); 10], "{rules}");
        }
    }
    assert_eq!(given(grouping(1, &[7], &[], 0, 0)), Some((1, 0, 0)));
}

#[test]
fn the_item_of_1_is_the_smaller_of_limit_and_whole_records() {
    let cut = |records: i64, more: usize| {
        let mut list = wires(records);
        list.extend(vec![0; more]);
        group(&list, &[])
    };
    assert_eq!(cut(3, 5), Some((1, 0, 3)));
    assert_eq!(cut(1_025, 0), Some((1, 0, 1_024)));
    assert_eq!(cut(1_024, 1), Some((1, 0, 1_024)));
    assert_eq!(cut(2_000, 3), Some((1, 0, 1_024)));
    assert_eq!(cut(1_024, 0), None);
    assert_eq!(group(&[], &[0; 3 * 4_097]), Some((1, 1, 4_096)));
    assert_eq!(live(&[], &[], &[0; 3 * 257]), Some((1, 2, 256)));
    assert_eq!(live(&[], &[0; 4], &[0; 2]), Some((1, 1, 0)));
}

#[test]
fn a_range_in_a_later_list_comes_before_an_order_in_an_earlier_one() {
    let unordered = [wire(1, 1), wire(0, 0)].concat();
    assert_eq!(live(&unordered, &[], &[0, 30_000_001, 0]), Some((3, 2, 0)));
    assert_eq!(live(&unordered, &[], &[0, 30_000_000, 0]), Some((4, 0, 1)));
}

#[test]
fn within_a_number_the_list_comes_before_the_item() {
    let mut components = wires(8);
    components[7 * 8 + 4] = 13;
    assert_eq!(group(&components, &[-1, 0, 0]), Some((3, 0, 7)));
}

#[test]
fn ranges_hold_for_every_kind() {
    assert_eq!(
        group(&[0, 0, 0, 0, 12, 7, 0, 0], &[]),
        Some((3, 0, 0)),
        "Air with a facing out of range"
    );
    assert_eq!(group(&[], &[4_294_967_295, 0, 9]), None);
    assert_eq!(group(&[], &[4_294_967_296, 0, 9]), Some((3, 1, 0)));
    assert_eq!(group(&[0, 0, 0, 0, 0, 0, 0, 2], &[]), Some((3, 0, 0)));
}

#[test]
fn one_cell_may_hold_two_components() {
    assert_eq!(group(&[wire(1, 0), wire(2, 0)].concat(), &[]), None);
    assert_eq!(
        group(&[wire(2, 0), wire(1, 0)].concat(), &[]),
        Some((4, 0, 1))
    );
    assert_eq!(
        group(&[wire(1, 0), wire(1, 0)].concat(), &[]),
        Some((4, 0, 1))
    );
}

#[test]
fn an_id_is_used_twice_however_far_apart() {
    let ids =
        |ids: &[i64]| -> Vec<i64> { (0..).zip(ids).flat_map(|(x, &id)| wire(id, x)).collect() };
    assert_eq!(group(&ids(&[1, 2, 2, 1]), &[]), Some((5, 0, 2)));
    assert_eq!(group(&ids(&[1, 2, 3, 1]), &[]), Some((5, 0, 3)));
    assert_eq!(given(components_alone(&ids(&[1, 2, 1]))), Some((5, 0, 2)));
}

#[test]
fn grouping_connections_ascend_strictly_and_may_lack_their_ends() {
    assert_eq!(group(&wires(1), &[5, 6, 0, 5, 6, 0]), Some((6, 1, 1)));
    assert_eq!(group(&wires(1), &[5, 6, 1, 5, 6, 0]), Some((6, 1, 1)));
    assert_eq!(group(&wires(1), &[5, 6, 0, 5, 6, 1]), None);
    assert_eq!(
        given(sheet_lists(RULES, &wires(1), &[1, 0, 0, 0, 9, 9], &[])),
        Some((6, 1, 1))
    );
}

#[test]
fn a_port_connection_needs_its_ends_unless_it_is_support() {
    assert_eq!(live(&wires(2), &[0, 0, 1, 0, 5], &[]), None);
    assert_eq!(
        live(&wires(2), &[0, 0, 1, 0, 0, 0, 0, 2, 0, 5], &[]),
        Some((7, 1, 1))
    );
    assert_eq!(live(&wires(2), &[2, 0, 0, 0, 5], &[]), Some((7, 1, 0)));
    assert_eq!(live(&wires(2), &[8, 0, 9, 0, 6], &[]), None);
    assert_eq!(live(&wires(2), &[8, 256, 9, 0, 6], &[]), Some((3, 1, 0)));
    assert_eq!(
        given(query(RULES, &wires(2), &[2, 0, 0, 0, 5], &[], 4)),
        Some((7, 1, 0))
    );
}

#[test]
fn slices_are_measured_in_whole_places_by_the_worst_case() {
    let scene = Scene {
        components: wires(3),
        connections: vec![0, 1, 0, 1, 2, 0],
        ..Scene::default()
    };
    let lent = Lent::enough(&scene);
    assert_eq!(
        (lent.nets, lent.ports, lent.sources, lent.inputs, lent.stack),
        (3, 12, 12, 36, 6)
    );
    let refused = |sources, inputs, stack| {
        let lent = Lent {
            sources,
            inputs,
            stack,
            ..lent
        };
        given(liveness(RULES, &scene.components, &[], &[], &lent))
    };
    assert_eq!(refused(12, 36, 6), None);
    assert_eq!(refused(11, 36, 6), Some((2, 3, 0)));
    assert_eq!(refused(12, 35, 6), Some((2, 3, 0)));
    assert_eq!(refused(13, 37, 5), Some((2, 3, 0)));
    let to_ports = |length| given(ports(RULES, &scene.components, &scene.connections, length));
    assert_eq!(to_ports(12), None);
    assert_eq!(to_ports(11), Some((2, 3, 0)));
    assert_eq!(
        given(grouping(RULES, &scene.components, &[], 3, 2)),
        Some((2, 3, 0))
    );
}

#[test]
fn a_list_over_its_limit_never_asks_for_room() {
    assert_eq!(
        given(grouping(RULES, &wires(1_025), &[], 0, 0)),
        Some((1, 0, 1_024))
    );
}

#[test]
fn a_short_slice_comes_before_a_range() {
    let bad = [-1, 0, 0, 0, 0, 0, 0, 0];
    assert_eq!(given(grouping(RULES, &bad, &[], 0, 1)), Some((2, 3, 0)));
    assert_eq!(given(grouping(RULES, &bad, &[], 1, 1)), Some((3, 0, 0)));
}

#[test]
fn both_ends_of_the_range_are_inside() {
    let at = |x| group(&[0, x, x, x, 12, 6, 6, 1], &[]);
    assert_eq!(at(30_000_000), None);
    assert_eq!(at(-30_000_000), None);
    assert_eq!(at(30_000_001), Some((3, 0, 0)));
    assert_eq!(at(-30_000_001), Some((3, 0, 0)));
}
