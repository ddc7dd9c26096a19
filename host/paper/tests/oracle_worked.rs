//! The unchanged Rust on the scope paper's worked example and plots to try.

use oracle::{Input, Liveness, Region, groups, liveness, ports, ports_of};

/// A component at the origin, unspecified fields 0.
const fn block(id: i64, kind: i64) -> [i64; 8] {
    [id, 0, 0, 0, kind, 0, 0, 0]
}

fn region(members: &[i64], cyclic: bool, contains_drive_source: bool) -> Region {
    Region {
        members: members.to_vec(),
        cyclic,
        contains_drive_source,
    }
}

fn statuses(answer: &Liveness) -> Vec<i64> {
    answer.inputs.iter().map(|input| input.status).collect()
}

#[test]
fn lever_and_repeater() {
    let components = [[1, 0, 0, 0, 4, 0, 0, 0], [2, 1, 0, 0, 1, 2, 0, 0]].concat();
    let joined = groups(&components, &[1, 2, 5]);
    assert_eq!((joined.net, joined.fragment), (vec![0, 1], vec![0, 0]));
    assert_eq!(joined.fragment_nets, [[0, 1]]);
    let kept = ports(&components, &[1, 2, 5]);
    assert_eq!(kept, [[1, 1, 2, 1, 4]]);
    let wanted = Liveness {
        region: vec![0, 1],
        regions: vec![region(&[1], false, true), region(&[2], false, false)],
        sources: vec![[1, 0]],
        drive: vec![1, 2],
        potential: vec![1, 2],
        inputs: vec![Input {
            device: 2,
            port: 1,
            status: 0,
            immediate: vec![1],
            inferred: vec![],
        }],
    };
    assert_eq!(liveness(&components, &kept.concat(), &[]), wanted);
}

#[test]
fn w1_no_components() {
    assert_eq!(groups(&[], &[]), oracle::Groups::default());
    assert!(ports(&[], &[]).is_empty());
    assert_eq!(liveness(&[], &[], &[]), Liveness::default());
}

#[test]
fn w2_the_source_root_gives_the_number() {
    let components = [block(0, 0), block(1, 0), block(2, 0)].concat();
    assert_eq!(groups(&components, &[2, 0, 0]).net, [1, 0, 1]);
}

#[test]
fn w3_faces_of_steps() {
    let between = |step: [i64; 3]| {
        let [x, y, z] = step;
        let components = [block(1, 0), [2, x, y, z, 0, 0, 0, 0]].concat();
        ports(&components, &[1, 2, 0])
    };
    assert_eq!(between([1, -1, 0]), [[1, 1, 2, 3, 0]]);
    assert!(between([1, 1, 1]).is_empty());
    assert!(between([0, 0, 0]).is_empty());
}

#[test]
fn w4_torch_with_support_east() {
    let components = [[1, 0, 0, 0, 3, 0, 2, 0], [2, 1, 0, 0, 0, 0, 0, 0]].concat();
    assert_eq!(ports(&components, &[2, 1, 0]), [[2, 3, 1, 4, 0]]);
    assert_eq!(ports(&components, &[1, 2, 0]), [[1, 1, 2, 3, 0]]);
}

#[test]
fn w5_repeater_facing_up() {
    let rows = ports_of(&[1, 0, 0, 0, 1, 5, 0, 0]).concat();
    let roles_and_faces: Vec<[i64; 2]> = rows.iter().map(|row| [row[0], row[1]]).collect();
    let wanted = [[1, 5], [0, 6], [3, 1], [3, 2], [3, 3], [3, 4], [4, 6]];
    assert_eq!(roles_and_faces, wanted);
}

#[test]
fn w6_lone_wire() {
    let answer = liveness(&block(1, 0), &[], &[]);
    assert_eq!(answer.sources, [[1, 3]]);
    assert_eq!(answer.regions, [region(&[1], false, false)]);
}

#[test]
fn w7_three_wires_in_a_ring() {
    let components = [block(1, 0), block(2, 0), block(3, 0)].concat();
    let ring = [[1, 0, 2, 0, 0], [2, 0, 3, 0, 0], [3, 0, 1, 0, 0]].concat();
    let answer = liveness(&components, &ring, &[]);
    assert_eq!(answer.regions, [region(&[1, 2, 3], true, false)]);
    assert!(answer.sources.is_empty());
}

#[test]
fn w8_wire_into_a_repeater() {
    let components = [block(1, 0), block(2, 1)].concat();
    let answer = liveness(&components, &[1, 0, 2, 1, 0], &[]);
    assert_eq!(statuses(&answer), [1]);
    assert_eq!(answer.inputs[0].inferred, [1]);
}

#[test]
fn w9_lamp_or_solid_into_a_wire() {
    let inferred = |kind| {
        let components = [block(1, kind), block(2, 0)].concat();
        liveness(&components, &[1, 0, 2, 0, 0], &[]).sources
    };
    assert!(inferred(11).is_empty());
    assert_eq!(inferred(9), [[2, 3]]);
}

#[test]
fn w10_regions_are_numbered_as_found() {
    let components = [block(1, 0), block(2, 0)].concat();
    let answer = liveness(&components, &[2, 0, 1, 0, 0], &[]);
    assert_eq!(answer.region, [1, 0]);
    assert_eq!(answer.regions[0].members, [2]);
}

#[test]
fn w11_lever_on_a_frontier() {
    let answer = liveness(&block(1, 4), &[], &[0, 0, 0, 0, 0, 0]);
    assert_eq!(answer.sources, [[1, 0], [1, 2]]);
}

#[test]
fn w12_repeaters_that_feed_each_other() {
    let components = [block(1, 1), block(2, 1)].concat();
    let answer = liveness(&components, &[1, 0, 2, 1, 0, 2, 0, 1, 1, 0], &[]);
    assert_eq!(statuses(&answer), [3, 3]);
    assert_eq!(answer.regions, [region(&[1, 2], true, false)]);
}

#[test]
fn the_codes_are_in_the_order_of_the_rust() {
    let kept = |kind: i64| {
        let components = [block(1, 0), [2, 1, 0, 0, 1, 2, 0, 0]].concat();
        ports(&components, &[1, 2, kind])
    };
    let transfers: Vec<Option<i64>> = (0..10)
        .map(|kind| kept(kind).first().map(|row| row[4]))
        .collect();
    let wanted = [0, 0, 0, 2, 3, 4, 4, 1].map(Some);
    assert_eq!(transfers[..8], wanted);
    assert_eq!(transfers[8..], [None, None], "no Control, no Support here");
}
