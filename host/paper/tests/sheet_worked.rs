//! The restatement of sheets and reports, on the scope paper's worked example
//! and on cases worked out by hand.

use paper::parse::{Parsed, parse};
use paper::program::{BUFFER, plotreport};
use paper::report::{print, report};
use paper::sheet::{Left, Sheet, SheetLent};
use scenes::limits::RULES_OF_THE_RUST;
use scenes::sheets::forms::Form;
use scenes::sheets::{Limits, sheet_of, within, write_sheet};
use scenes::{Profile, Refusal, Scene, exhaustive};

const LEVER_AND_REPEATER: &str = "\
components=2
id=1
x=0
y=0
z=0
kind=4
facing=0
support=0
conducts=0
id=2
x=1
y=0
z=0
kind=1
facing=2
support=0
conducts=0
connections=1
source=1
sink=2
kind=5
frontiers=0
";

/// As the paper prints it, its lines parted by spaces.
const ITS_REPORT: &str = "answer=0 components=2 id=1 net=0 fragment=0 region=0 drive=1 potential=1 id=2 net=1 fragment=0 region=1 drive=1 potential=1 connections=1 source=1 source_port=1 sink=2 sink_port=1 transfer=4 slope=0 regions=2 cyclic=0 has_drive=1 cyclic=0 has_drive=0 sources=1 id=1 kind=0 inputs=1 device=2 port=1 status=0 immediate=1 inferred=";

fn wanted_report() -> Vec<u8> {
    format!("{}\n", ITS_REPORT.replace(' ', "\n")).into_bytes()
}

/// Number, list and item with the program's limits, or nothing.
fn refusal(text: &str) -> Option<(u64, u64, u64)> {
    let sheet = Sheet::read(text.as_bytes(), Limits::PROGRAM);
    let refusal = sheet.answer(&sheet.enough()).0.err();
    refusal.map(|it| (it.number, it.list, it.item))
}

/// The example with one line replaced.
fn with_line(line: usize, by: &str) -> String {
    let lines = LEVER_AND_REPEATER.split_inclusive('\n').enumerate();
    lines
        .map(|(place, kept)| if place == line { by } else { kept })
        .collect()
}

#[test]
fn lever_and_repeater_is_printed_byte_for_byte() {
    let components = [1, 0, 0, 0, 4, 0, 0, 0, 2, 1, 0, 0, 1, 2, 0, 0];
    let connections = [1, 2, 5];
    let text = LEVER_AND_REPEATER.as_bytes();
    assert_eq!(write_sheet(&components, &connections, &[]), text);
    let sheet = Sheet::read(text, Limits::SCENE);
    let wanted = wanted_report();
    let scene = Scene {
        components: components.to_vec(),
        connections: connections.to_vec(),
        ..Scene::default()
    };
    let said = Parsed {
        form: Form::Old,
        rules: RULES_OF_THE_RUST,
        scene,
    };
    assert_eq!(sheet, Sheet::Sound(said, wanted.clone()));
    assert_eq!(plotreport(text), wanted);
}

#[test]
fn w1_prints_all_counts_0() {
    let text = b"components=0\nconnections=0\nfrontiers=0\n";
    let wanted = b"answer=0\ncomponents=0\nconnections=0\nregions=0\nsources=0\ninputs=0\n";
    assert_eq!(plotreport(text), wanted);
}

#[test]
fn a_line_is_read_before_its_count_is_judged() {
    assert_eq!(refusal("components=256\n"), Some((9, 3, 1)));
    assert_eq!(refusal("components=257\n"), Some((1, 0, 256)));
    assert_eq!(refusal("components=257"), Some((9, 3, 0)));
    assert_eq!(refusal("components=257\r\n"), Some((9, 3, 0)));
    assert_eq!(refusal("components=4294967295\n"), Some((1, 0, 256)));
    assert_eq!(refusal("components=4294967296\n"), Some((9, 3, 0)));
    assert_eq!(refusal("components=-1\n"), Some((9, 3, 0)));
    assert_eq!(refusal("components=-0\n"), Some((9, 3, 0)));
    assert_eq!(
        refusal("components=0\nconnections=1025\n"),
        Some((1, 1, 1_024))
    );
    assert_eq!(
        refusal("components=0\nconnections=0\nfrontiers=257\n"),
        Some((1, 2, 256))
    );
}

#[test]
fn magnitude_is_of_the_line_and_range_of_the_list() {
    assert_eq!(refusal(&with_line(1, "id=4294967295\n")), None);
    assert_eq!(refusal(&with_line(1, "id=4294967296\n")), Some((9, 3, 1)));
    assert_eq!(refusal(&with_line(1, "id=-1\n")), Some((3, 0, 0)));
    assert_eq!(refusal(&with_line(10, "x=30000001\n")), Some((3, 0, 1)));
    assert_eq!(refusal(&with_line(10, "x=-30000001\n")), Some((3, 0, 1)));
    assert_eq!(refusal(&with_line(20, "kind=10\n")), Some((3, 1, 0)));
}

#[test]
fn missing_and_extra_lines_are_at_their_place() {
    assert_eq!(refusal(""), Some((9, 3, 0)));
    assert_eq!(refusal(&with_line(21, "")), Some((9, 3, 21)));
    assert_eq!(refusal(&with_line(21, "frontiers=0")), Some((9, 3, 21)));
    assert_eq!(refusal(&with_line(3, "")), Some((9, 3, 3)));
    let more = |text: &str| refusal(&format!("{LEVER_AND_REPEATER}{text}"));
    assert_eq!(more("\n"), Some((9, 3, 22)));
    assert_eq!(more("x"), Some((9, 3, 22)));
    assert_eq!(more("x=0\n"), Some((9, 3, 22)));
}

#[test]
fn the_first_line_decides_and_lines_come_before_lists() {
    let both = "components=1\nid=-1\nx=0\ny=01\n";
    assert_eq!(refusal(both), Some((9, 3, 3)));
    let late = format!("{}y=1\n", with_line(1, "id=-1\n"));
    assert_eq!(refusal(&late), Some((9, 3, 22)));
    assert_eq!(
        refusal("components=0\nconnections=1025\nx"),
        Some((1, 1, 1_024))
    );
}

#[test]
fn work_lists_then_lists_then_the_buffer() {
    let short = Refusal {
        number: 2,
        list: 3,
        item: 0,
    };
    let sound = Sheet::read(LEVER_AND_REPEATER.as_bytes(), Limits::PROGRAM);
    let enough = sound.enough();
    let with = |components, connections, out| SheetLent {
        components,
        connections,
        out,
        ..enough
    };
    assert_eq!((enough.components, enough.connections), (16, 3));
    let wanted = wanted_report();
    assert_eq!(sound.answer(&enough), (Ok(&wanted[..]), Left::Zero));
    let refused = |lent: SheetLent| sound.answer(&lent);
    let out = enough.out;
    assert_eq!(refused(with(15, 3, out)), (Err(short), Left::AsBefore));
    assert_eq!(refused(with(16, 2, out)), (Err(short), Left::AsBefore));
    assert_eq!(refused(with(16, 3, out - 1)), (Err(short), Left::Zero));
    let text = with_line(1, "id=-1\n");
    let unsound = Sheet::read(text.as_bytes(), Limits::PROGRAM);
    let range = Refusal {
        number: 3,
        list: 0,
        item: 0,
    };
    assert_eq!(unsound.answer(&with(16, 3, 0)), (Err(range), Left::Zero));
    assert_eq!(
        unsound.answer(&with(15, 3, 0)),
        (Err(short), Left::AsBefore)
    );
}

#[test]
fn a_long_sheet_comes_before_all_else() {
    let long = |length| plotreport(&vec![b'x'; length]);
    assert_eq!(long(BUFFER), b"answer=9\nlist=3\nitem=0\n");
    assert_eq!(long(BUFFER + 1), b"answer=1\nlist=3\nitem=65536\n");
}

/// What is written is read again, and the Rust's report is the one that the
/// paper's own rules give.
fn hold(scene: &Scene, case: &str) {
    let text = sheet_of(scene);
    let wanted = within(Limits::NONE, scene);
    let said = parse(&text, Limits::NONE).map(|parsed| parsed.scene);
    assert_eq!(said, Ok(wanted), "{case}{scene}");
    let (components, connections) = (&scene.components, &scene.connections);
    let rules = RULES_OF_THE_RUST;
    let kept = paper::ports(rules, components, connections);
    let alive = paper::liveness(rules, components, &kept.concat(), &scene.frontiers);
    let groups = paper::groups(components, connections);
    let by_the_paper = print(rules, components, &groups, &kept, &alive);
    let given = report(rules, components, connections, &scene.frontiers);
    assert!(given == by_the_paper, "{case}{scene}");
}

#[test]
fn every_profile_is_read_again_and_reported_by_the_paper() {
    let mut count = 0;
    for profile in Profile::ALL {
        let seeds = if profile.is_large() { 4 } else { 300 };
        for seed in 0..seeds {
            hold(
                &profile.scene(seed),
                &format!("{} seed {seed}", profile.name()),
            );
            count += 1;
        }
    }
    for (place, scene) in exhaustive::scenes().enumerate().step_by(31) {
        hold(&scene, &format!("small scene {place}"));
        count += 1;
    }
    println!("{count} sheets are read again");
}
