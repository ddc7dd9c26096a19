//! Where the unchanged Rust goes its own way on lists that the entries refuse:
//! the smallest inputs that show it.

use oracle::{groups, liveness, ports};

const fn wire(id: i64, x: i64) -> [i64; 8] {
    [id, x, 0, 0, 0, 0, 0, 0]
}

/// 4: the Rust sorts the components, so the answer is that of the sorted list.
#[test]
fn unordered_components_are_sorted() {
    let listed = groups(&[wire(1, 1), wire(2, 0)].concat(), &[]);
    assert_eq!(listed.net, [1, 0]);
}

/// 5: of two components with one id the later stands for both.
#[test]
fn the_later_of_two_equal_ids_is_taken() {
    let list = [wire(1, 0), wire(1, 1), wire(2, 2)].concat();
    assert_eq!(ports(&list, &[1, 2, 0]), [[1, 1, 2, 3, 0]]);
    let list = [wire(1, 0), wire(2, 1), wire(1, 5)].concat();
    assert!(ports(&list, &[1, 2, 0]).is_empty());
}

/// 6: connections are sorted, and repeats are dropped.
#[test]
fn repeated_connections_are_dropped() {
    let list = [wire(1, 0), wire(2, 1)].concat();
    assert_eq!(ports(&list, &[1, 2, 0, 1, 2, 0]).len(), 1);
    let sorted = ports(&list, &[2, 1, 0, 1, 2, 0]);
    assert_eq!(sorted, [[1, 1, 2, 3, 0], [2, 3, 1, 1, 0]]);
}

/// The members of each region and whether it is called cyclic: of a row of
/// three wires, each feeding the next, with one connection more.
fn regions_with(missing: [i64; 5]) -> Vec<(Vec<i64>, bool)> {
    let row = [wire(0, 0), wire(1, 1), wire(2, 2)].concat();
    let along = [0, 1, 1, 3, 0, 1, 1, 2, 3, 0];
    let answer = liveness(&row, &[&along[..], &missing].concat(), &[]);
    let regions = answer.regions.into_iter();
    regions.map(|it| (it.members, it.cyclic)).collect()
}

/// 7: the founding case. A cleared block named as a *source* is in no order of
/// the walk forward, so the walk back from what it feeds draws it into that
/// region: a region of two, and a straight row is called a loop.
#[test]
fn a_missing_source_makes_a_loop_of_a_straight_row() {
    let at_the_head = regions_with([9, 1, 0, 3, 0]);
    println!("9 to 0: {at_the_head:?}");
    let alone = |id| (vec![id], false);
    assert_eq!(at_the_head, [(vec![0, 9], true), alone(1), alone(2)]);
    let inside = regions_with([9, 1, 1, 3, 0]);
    println!("9 to 1: {inside:?}");
    assert_eq!(inside, [alone(0), (vec![1, 9], true), alone(2)]);
}

/// 7: a cleared block named as a *sink* becomes a region of its own, and
/// nothing is called a loop.
#[test]
fn a_missing_sink_is_a_region_of_its_own() {
    let behind = regions_with([2, 1, 9, 3, 0]);
    println!("2 to 9: {behind:?}");
    let wanted = [0, 1, 2, 9].map(|id| (vec![id], false));
    assert_eq!(behind, wanted);
}

/// 7: an id that no component has is drawn into a region and into `drive`.
#[test]
fn a_missing_end_becomes_a_region() {
    let lever = [1, 0, 0, 0, 4, 0, 0, 0];
    let answer = liveness(&lever, &[1, 0, 2, 0, 0], &[]);
    let members: Vec<_> = answer.regions.iter().map(|it| &it.members[..]).collect();
    assert_eq!(members, [&[1][..], &[2]]);
    assert_eq!(answer.drive, [1, 2]);
    let support = liveness(&lever, &[1, 0, 2, 0, 6], &[]);
    assert_eq!(support.regions.len(), 1);
}
