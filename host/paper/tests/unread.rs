//! Facings left blank, by hand, and what rules 3 leave as it was.

use paper::program::plotreport;
use paper::report::report;
use scenes::limits::{COMPONENT, LAST_FACE, LAST_KIND};
use scenes::sheets::forms::{Form, write_form};
use scenes::{Profile, Scene, blanks};

const RULES: i64 = 3;

fn block([kind, facing, support, conducts]: [i64; 4]) -> [i64; COMPONENT] {
    [7, 0, 0, 0, kind, facing, support, conducts]
}

/// All 13 x 7 x 7 x 2 blocks: those with a facing, or that do not turn, have the
/// Rust's ports under all rules; the others theirs under rules 1 and 2.
#[test]
fn only_a_blank_facing_changes_ports() {
    let (mut count, mut unread) = (0, 0);
    for kind in 0..=LAST_KIND {
        for facing in 0..=LAST_FACE {
            for support in 0..=LAST_FACE {
                for conducts in 0..=1 {
                    let block = block([kind, facing, support, conducts]);
                    let by = |rules| paper::ports_of(rules, &block).concat();
                    let rust = oracle::ports_of(&block).concat();
                    assert_eq!([by(1), by(2)], [rust.clone(), rust.clone()]);
                    let wanted = match (kind, facing) {
                        (1 | 2, 0) => vec![[4, 6, 4]],
                        (8, 0) => (1..5).map(|face| [0, face, 0]).collect(),
                        _ => rust,
                    };
                    assert_eq!(by(RULES), wanted, "{block:?}");
                    unread += i32::from(paper::is_unread(RULES, &block));
                    count += 1;
                }
            }
        }
    }
    println!("{count} blocks, {unread} of them unread");
    assert_eq!((count, unread), (1_274, 3 * 7 * 2));
}

/// "Connections from or to an unread Repeater or Comparator are dropped; those to an
/// unread Piston stay at its four sides, those from it are dropped."
fn hold_kept(scene: &Scene, case: &str) -> [usize; 2] {
    let (components, connections) = (&scene.components, &scene.connections);
    let [before, after] = [2, RULES].map(|rules| paper::ports(rules, components, connections));
    let unread = |id: i64| {
        let mut records = components.chunks_exact(COMPONENT);
        let found = records.find(|it| it[0] == id);
        found
            .filter(|it| paper::is_unread(RULES, it))
            .map(|it| it[4])
    };
    let stays =
        |row: &&[i64; 5]| unread(row[0]).is_none() && matches!(unread(row[2]), None | Some(8));
    let wanted: Vec<[i64; 5]> = before.iter().filter(stays).copied().collect();
    assert_eq!(after, wanted, "{case}{scene}");
    [before.len(), after.len()]
}

#[test]
fn connections_at_unread_devices_are_dropped() {
    let (mut scenes, mut kept) = (0, [0; 2]);
    let mut hold = |scene: &Scene, case: &str| {
        let counts = hold_kept(scene, case);
        kept = [kept[0] + counts[0], kept[1] + counts[1]];
        scenes += 1;
    };
    for (place, scene) in blanks::pairs().enumerate() {
        hold(&scene, &format!("pair {place}"));
    }
    for seed in 0..50_000 {
        hold(&blanks::scene(seed), &format!("blanks seed {seed}"));
    }
    for profile in Profile::ALL.into_iter().filter(|it| !it.is_large()) {
        for seed in 0..300 {
            hold(&profile.scene(seed), profile.name());
        }
    }
    println!("{scenes} scenes, connections kept by rules 2 and 3: {kept:?}");
    assert!(kept[1] * 10 < kept[0] * 9 && kept[1] > 0);
}

/// On the same ports rules 3 leave all but the rows of unread repeaters and
/// comparators as by rules 2.
#[test]
fn unread_repeaters_have_no_row() {
    let (mut rows, mut missing) = (0, 0);
    for seed in 0..50_000 {
        let scene = blanks::scene(seed);
        let (components, frontiers) = (&scene.components, &scene.frontiers);
        let ids: Vec<i64> = components.chunks_exact(COMPONENT).map(|it| it[0]).collect();
        let ports = scene.ports.chunks_exact(5);
        let ports = ports.filter(|it| it[4] == 6 || (ids.contains(&it[0]) && ids.contains(&it[2])));
        let ports: Vec<i64> = ports.flatten().copied().collect();
        let by = |rules| paper::liveness(rules, components, &ports, frontiers);
        let (mut before, after) = (by(2), by(RULES));
        let all = before.inputs.len();
        before.inputs.retain(|row| {
            let mut records = components.chunks_exact(COMPONENT);
            let record = records.find(|it| it[0] == row.device);
            record.is_some_and(|it| !paper::is_unread(RULES, it) || it[4] == 8)
        });
        assert_eq!(before, after, "blanks seed {seed}{scene}");
        rows += all;
        missing += all - after.inputs.len();
    }
    println!("{rows} rows by rules 2, {missing} fewer by rules 3");
    assert!(missing > 1_000);
}

/// By rules 3 the last block; without a blank facing that is all that differs from
/// rules 2.
#[test]
fn unread_devices_are_listed_last() {
    let mut listed = 0;
    for seed in 0..20_000 {
        let scene = blanks::scene(seed);
        let by = |rules, scene: &Scene| {
            let Scene {
                components,
                connections,
                frontiers,
                ..
            } = scene;
            String::from_utf8(report(rules, components, connections, frontiers)).unwrap_or_default()
        };
        let turned = blanks::with_blanks_as(2, &scene);
        assert_eq!(by(RULES, &turned), by(2, &turned) + "unread=0\n");
        assert!(
            [1, 2]
                .iter()
                .all(|&rules| !by(rules, &scene).contains("unread"))
        );
        let records = scene.components.chunks_exact(COMPONENT);
        let unread = records.filter(|it| it[5] == 0 && blanks::TURNING.contains(&it[4]));
        let ids: Vec<String> = unread.map(|it| format!("id={}\n", it[0])).collect();
        let last = format!("\nunread={}\n{}", ids.len(), ids.concat());
        assert!(
            by(RULES, &scene).ends_with(&last),
            "blanks seed {seed}{scene}"
        );
        listed += ids.len();
    }
    println!("{listed} devices listed");
}

/// A lever, a wire, a repeater that faced South before the fog, and a wire behind
/// it.
#[test]
fn the_class_that_was_told_that_north_facing_inputs_were_dead() {
    let scene = Scene {
        components: [
            [1, 0, 0, 0, 4, 0, 0, 0],
            [2, 0, 0, 1, 0, 0, 0, 0],
            [3, 0, 0, 2, 1, 0, 0, 0],
            [4, 0, 0, 3, 0, 0, 0, 0],
        ]
        .concat(),
        connections: vec![1, 2, 7, 2, 3, 5, 3, 4, 6],
        ..Scene::default()
    };
    let by = |rules| {
        let text = plotreport(&write_form(Form::Short, rules, &scene));
        String::from_utf8(text).unwrap_or_default()
    };
    let dead = "inputs=1\ndevice=3\nport=1\nstatus=2\nimmediate=\ninferred=\n";
    assert!(by(1).ends_with(dead) && by(2).ends_with(dead));
    assert!(by(3).ends_with("\ninputs=0\nunread=1\nid=3\n"));
}
