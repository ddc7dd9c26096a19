//! Facings left blank through the proved entries: kept connections, verdict
//! rows and input sets by rules 3 against the restatement, and whole reports.

use checks::runs::{self, Seeds};
use checks::{Alive, Counted, LivenessLists, Sheets};
use probe::ports::port_connections;
use scenes::limits::{COMPONENT, CONNECTION, KEPT_ROW, LAST_RULES, PASSIVE_LAMPS};
use scenes::sheets::Limits;
use scenes::sheets::forms::{Form, write_form};
use scenes::{Scene, blanks, bytes};

fn rows(rules: i64, scene: &Scene, case: &str) -> Vec<i64> {
    let places = scene.connections.len() / CONNECTION;
    let mut out = vec![0; places * KEPT_ROW];
    match port_connections(rules, &scene.components, &scene.connections, &mut out) {
        Ok(count) => out.truncate(usize::try_from(count).unwrap_or(0) * KEPT_ROW),
        Err(refusal) => panic!("{case}: {refusal:?}{scene}"),
    }
    out
}

/// Pairs of blocks, drawn plots, and scenes of every profile.
fn each(mut check: impl FnMut(&Scene, &str)) {
    for (place, scene) in blanks::pairs().enumerate() {
        check(&scene, &format!("pair {place}"));
    }
    for seed in 0..100_000 {
        check(&blanks::scene(seed), &format!("blanks seed {seed}"));
    }
    let seeds = Seeds {
        small: 400,
        large: 8,
    };
    runs::on_profiles(seeds, |scene, _, case| check(scene, case));
}

#[test]
fn kept_connections_by_rules_3() {
    let (mut scenes, mut kept, mut fewer) = (0_u64, 0, 0);
    each(|scene, case| {
        let [old, two, three] = [1, PASSIVE_LAMPS, LAST_RULES].map(|it| rows(it, scene, case));
        assert_eq!(old, two, "{case}{scene}");
        let wanted = paper::ports(LAST_RULES, &scene.components, &scene.connections);
        let wanted = paper::sloped(&scene.components, &wanted);
        assert_eq!(three, wanted.concat(), "{case}{scene}");
        if !blanks::holds_a_blank(scene) {
            assert_eq!(two, three, "{case}{scene}");
        }
        scenes += 1;
        kept += two.len() / KEPT_ROW;
        fewer += (two.len() - three.len()) / KEPT_ROW;
    });
    println!("kept connections of {scenes} scenes: {kept} by rules 1 and 2, {fewer} fewer by 3");
    assert!(fewer > 10_000 && fewer < kept);
}

fn by(rules: i64, scene: &Scene) -> LivenessLists {
    LivenessLists {
        rules,
        ..LivenessLists::of(scene)
    }
}

/// With the ports that a plot was given, and with those kept of it.
#[test]
fn liveness_by_rules_3() {
    let mut alive = Alive::asking_every(4);
    each(|scene, case| {
        alive.call(&by(LAST_RULES, scene), &case);
        let kept = paper::ports(LAST_RULES, &scene.components, &scene.connections);
        let mut sheet = by(LAST_RULES, scene);
        sheet.ports = bytes::of(kept.as_flattened());
        alive.call(&sheet, &format!("{case}, kept connections"));
    });
    alive.assert_all_accepted("rules 3, blank facings");
    assert!(alive.statuses().iter().all(|count| *count > 0));
    assert!(alive.source_kinds().iter().all(|count| *count > 0));
}

/// Both forms under all rules.
#[test]
fn reports_of_blank_facings() {
    let mut sheets = Sheets::new(probe::sheets::report);
    let mut unread = 0;
    for seed in 0..30_000 {
        let scene = blanks::scene(700_000 + seed);
        let case = format!("blanks seed {}", 700_000 + seed);
        let form = Form::ALL[usize::from(seed % 2 == 0)];
        for rules in 1..=LAST_RULES {
            sheets.sheet(&write_form(form, rules, &scene), Limits::SCENE, &case);
        }
        let records = scene.components.chunks_exact(COMPONENT);
        unread += records
            .filter(|it| paper::is_unread(LAST_RULES, it))
            .count();
    }
    for (place, scene) in blanks::pairs().enumerate().step_by(3) {
        let text = write_form(Form::Short, LAST_RULES, &scene);
        sheets.sheet(&text, Limits::SCENE, &format!("pair {place}"));
    }
    sheets.assert_numbers_came_up(&[0, 2], "reports, blank facings");
    let refused = [1, 3, 4, 5, 6, 9, 11, 12].map(|number| sheets.count_of(number));
    assert_eq!(refused, [0; 8]);
    println!("{unread} unread devices in drawn plots");
    assert!(unread > 50_000);
}
