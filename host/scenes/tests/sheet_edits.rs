//! The writing of a sheet, sheets of an exact length, and that edits do to a
//! sheet what they say.

use std::collections::BTreeSet;

use scenes::Scene;
use scenes::limits::LAST_RULES;
use scenes::random::Random;
use scenes::refusals::sheet_lists;
use scenes::sheets::edits::{Edit, drawn, of_bytes, of_counts, of_lines};
use scenes::sheets::fields::{of_heads, of_records};
use scenes::sheets::forms::{Form, spelled_out, there_and_back, write_form};
use scenes::sheets::lengths::{MOST_DIGITS, dense_scene, sheet_of_length};
use scenes::sheets::{Limits, drawn as sheets, sheet_of, within, write_sheet};

const TEXT: &[u8] = b"components=0\nconnections=1\nsource=3\nsink=-4\nkind=5\nfrontiers=0\n";

fn edited(edit: Edit) -> String {
    String::from_utf8_lossy(&edit.apply(TEXT)).into_owned()
}

#[test]
fn a_list_is_its_count_and_a_line_to_each_field() {
    assert_eq!(write_sheet(&[], &[3, -4, 5], &[]), TEXT);
    let more = write_sheet(&[], &[], &[1, 2, 3, 4]);
    let wanted = b"components=0\nconnections=0\nfrontiers=1\nx=1\ny=2\nz=3\nx=4\n";
    assert_eq!(more, wanted, "numbers behind the last record");
}

#[test]
fn edits_of_bytes() {
    assert_eq!(edited(Edit::Cut { place: 3 }), "com");
    assert_eq!(edited(Edit::From { place: 62 }), "\n");
    assert!(
        edited(Edit::Byte {
            place: 10,
            to: b'-'
        })
        .starts_with("components-0\n")
    );
    assert!(
        edited(Edit::Put {
            place: 0,
            byte: b' '
        })
        .starts_with(" components=0\n")
    );
    assert!(edited(Edit::Without { place: 0 }).starts_with("omponents=0\n"));
    let nowhere = Edit::Byte { place: 63, to: 0 };
    assert_eq!(nowhere.apply(TEXT), TEXT);
}

#[test]
fn edits_of_lines() {
    let second = |edit: Edit| edited(edit).split_inclusive('\n').nth(2).map(String::from);
    let is = |edit: Edit, wanted: &str| assert_eq!(second(edit).as_deref(), Some(wanted));
    let line = 2;
    is(
        Edit::Value {
            line,
            spelling: "01",
        },
        "source=01\n",
    );
    is(Edit::Grow { line, by: -4 }, "source=-1\n");
    is(Edit::Key { line, key: "id" }, "id=3\n");
    is(Edit::Sign { line, sign: ":" }, "source:3\n");
    is(Edit::End { line, end: "\r\n" }, "source=3\r\n");
    is(Edit::End { line, end: "" }, "source=3sink=-4\n");
    is(Edit::Before { line, text: "\n" }, "\n");
    is(Edit::NoLine { line }, "sink=-4\n");
    is(Edit::Twice { line: 1 }, "connections=1\n");
    is(Edit::Swap { line }, "sink=-4\n");
    assert_eq!(Edit::Swap { line: 5 }.apply(TEXT), TEXT);
    assert!(edited(Edit::Behind { text: "x" }).ends_with("frontiers=0\nx"));
}

const SHORT: &[u8] = b"sheet=2\nrules=7\ncomponents=0\nconnections=1\nn=3,-4,5\nfrontiers=0\n";

#[test]
fn a_record_of_the_shorter_form_is_a_line() {
    let scene = Scene {
        connections: vec![3, -4, 5],
        ..Scene::default()
    };
    assert_eq!(write_form(Form::Short, 7, &scene), SHORT);
    assert_eq!(write_form(Form::Old, 1, &scene), TEXT);
    let spelled = spelled_out(1, &scene);
    assert_eq!(spelled, [b"rules=1\n", TEXT].concat());
    assert_eq!(
        write_form(Form::Old, -2, &scene),
        [b"rules=-2\n", TEXT].concat()
    );
    assert_eq!(there_and_back(&spelled), TEXT);
    assert_eq!(there_and_back(SHORT), SHORT);
}

#[test]
fn edits_of_records() {
    let is = |edit: Edit, wanted: &str| {
        let text = String::from_utf8_lossy(&edit.apply(SHORT)).into_owned();
        assert_eq!(text.lines().nth(4), Some(wanted));
    };
    let (line, field) = (4, 1);
    let spelling = "01";
    is(
        Edit::Field {
            line,
            field,
            spelling,
        },
        "n=3,01,5",
    );
    is(Edit::NoField { line, field }, "n=3,5");
    is(Edit::NoField { line, field: 0 }, "n=-4,5");
    is(Edit::NoField { line, field: 3 }, "n=3,-4,5");
    let all = of_records(SHORT);
    assert!(all.len() > 40 && of_records(TEXT).is_empty());
    let texts: BTreeSet<Vec<u8>> = all.iter().map(|edit| edit.apply(SHORT)).collect();
    assert!(texts.len() > all.len() * 4 / 5 && of_heads().len() > 80);
}

/// Every form under every rules number, and old sheets that spell out rules 1.
#[test]
fn sheets_are_drawn_in_both_forms_under_all_rules() {
    let (mut met, mut spelled) = (BTreeSet::new(), 0);
    for seed in 0..600 {
        let sheet = sheets::sheet(seed);
        met.insert((sheet.form.number(), sheet.rules));
        spelled += usize::from(sheet.text.starts_with(b"rules=1\n"));
        let Scene {
            components,
            connections,
            frontiers,
            ..
        } = &sheet.scene;
        assert_eq!(
            sheet_lists(sheet.rules, components, connections, frontiers),
            None
        );
        let text = write_form(sheet.form, sheet.rules, &sheet.scene);
        assert_eq!(there_and_back(&sheet.text), text, "sheet seed {seed}");
    }
    assert_eq!(met.len(), 2 * usize::try_from(LAST_RULES).unwrap_or(0));
    assert!(spelled > 10);
}

#[test]
fn every_edit_is_there_and_most_change_the_text() {
    let all = [of_bytes(TEXT), of_lines(TEXT)].concat();
    let texts: BTreeSet<Vec<u8>> = all.iter().map(|edit| edit.apply(TEXT)).collect();
    println!("{} edits, {} different texts", all.len(), texts.len());
    assert!(texts.len() > 1_500 && texts.len() > all.len() * 4 / 5);
    let counts = of_counts(TEXT);
    assert!(counts.len() > 150 && counts.iter().all(|edit| all.contains(edit)));
    let random = &mut Random::new(0);
    assert!((0..999).any(|_| drawn(TEXT, random) != drawn(TEXT, random)));
}

#[test]
fn a_scene_is_cut_to_limits() {
    let scene = Scene {
        components: vec![0; 8 * 300],
        connections: vec![0; 3 * 10],
        ports: vec![0; 5],
        frontiers: vec![0; 3 * 257],
    };
    let cut = within(Limits::PROGRAM, &scene);
    let lengths = [
        &cut.components,
        &cut.connections,
        &cut.ports,
        &cut.frontiers,
    ];
    assert_eq!(lengths.map(Vec::len), [8 * 256, 30, 0, 3 * 256]);
    assert!(sheet_of(&cut).starts_with(b"components=256\n"));
    assert_eq!(Limits::NONE.cut(), Limits::SCENE);
}

#[test]
fn sheets_have_the_length_that_is_asked_for() {
    for bytes in [62_000, 65_535, 65_536, 65_537, 67_000] {
        let length = sheet_of_length(bytes).map(|text| text.len());
        assert_eq!(length, Some(bytes));
    }
    assert_eq!(sheet_of_length(50_000), None);
    assert_eq!(sheet_of_length(80_000), None);
}

#[test]
fn dense_scenes_are_valid_and_within_the_limits_of_the_program() {
    for connections in [0, 1, 727, 728, 1_014] {
        for digits in [0, 1, 7, MOST_DIGITS] {
            let scene = dense_scene(connections, digits);
            let (components, frontiers) = (&scene.components, &scene.frontiers);
            let refusal = sheet_lists(LAST_RULES, components, &scene.connections, frontiers);
            assert_eq!(refusal, None, "{connections} {digits}");
            assert_eq!(within(Limits::PROGRAM, &scene), scene);
            assert_eq!(scene.components.len(), 8 * 256);
            assert_eq!(scene.connections.len(), 3 * (connections + 10));
        }
    }
}
