//! The product's entries over sheets of both forms: lists, reports and the
//! other form, against the restatement; every line and record broken, faults that
//! compete, slices of every length, and there and back.

use std::io;

use checks::runs::{self, Seeds};
use checks::{SheetLists, Sheets};
use paper::sheet::Sheet;
use probe::sheets::{convert, report, sheet};
use scenes::random::Random;
use scenes::sheets::drawn::{self, Drawn};
use scenes::sheets::edits::{self, Edit};
use scenes::sheets::forms::{Form, spelled_out, there_and_back, write_form};
use scenes::sheets::{Limits, fields};
use scenes::{Profile, Scene, damage};

/// The three entries.
struct All {
    lists: SheetLists,
    reports: Sheets,
    others: Sheets,
}

impl All {
    fn new() -> Self {
        Self {
            lists: SheetLists::default(),
            reports: Sheets::new(report),
            others: Sheets::turning(convert),
        }
    }

    fn sheet(&mut self, text: &[u8], case: &str) {
        self.lists.sheet(text, &case);
        self.reports.sheet(text, Limits::SCENE, &case);
        self.others.sheet(text, Limits::SCENE, &case);
    }

    fn sheet_with_every_length(&mut self, text: &[u8], case: &str) {
        self.lists.sheet_with_every_length(text, &case);
        let limits = Limits::SCENE;
        self.reports.sheet_with_every_length(text, limits, &case);
        self.others.sheet_with_every_length(text, limits, &case);
    }

    fn assert_numbers_came_up(&self, numbers: &[usize], title: &str) {
        self.lists
            .assert_numbers_came_up(numbers, &format!("{title}, lists"));
        self.reports
            .assert_numbers_came_up(numbers, &format!("{title}, reports"));
        self.others
            .assert_numbers_came_up(numbers, &format!("{title}, other form"));
    }
}

/// Small sheets of both forms, under rules that go round: nothing at all; a lever
/// and a repeater that was not seen; a wire far off, with long numbers; and wires in
/// a row.
fn small_sheets() -> Vec<Vec<u8>> {
    let far = [4_294_967_295, -30_000_000, 0, 30_000_000, 0, 0, 0, 0];
    let wire = |id, x| [id, x, 0, 0, 0, 0, 0, 0];
    let lists: [(Vec<i64>, Vec<i64>, Vec<i64>); 4] = [
        (vec![], vec![], vec![]),
        (
            vec![1, 0, 0, 0, 4, 0, 0, 0, 2, 1, 0, 0, 1, 0, 0, 0],
            vec![1, 2, 5],
            vec![],
        ),
        (far.to_vec(), vec![10, 4_294_967_295, 9], far[1..4].to_vec()),
        (
            [wire(1, -1), wire(3, 0), wire(2, 1)].concat(),
            vec![1, 3, 0, 1, 3, 1, 3, 2, 0],
            vec![0; 9],
        ),
    ];
    let mut sheets = Vec::new();
    for (rules, (components, connections, frontiers)) in (1..).zip(lists) {
        let scene = Scene {
            components,
            connections,
            frontiers,
            ports: Vec::new(),
        };
        let rules = 1 + rules % 3;
        sheets.extend(Form::ALL.map(|form| write_form(form, rules, &scene)));
        sheets.push(spelled_out(1, &scene));
    }
    sheets
}

const NUMBERS: [usize; 10] = [0, 1, 2, 3, 4, 5, 6, 9, 11, 12];

/// Every byte left out, put in or made another, and every cut.
#[test]
fn on_every_edit_of_a_byte() {
    let mut all = All::new();
    for text in small_sheets() {
        for edit in edits::of_bytes(&text) {
            all.sheet(&edit.apply(&text), &format!("{edit:?}"));
        }
    }
    all.assert_numbers_came_up(&[0, 2, 3, 4, 5, 6, 9, 11, 12], "both forms, edits of bytes");
}

/// Every rule of the lines, of the heads and of the records broken once.
#[test]
fn on_every_edit_of_a_line() {
    let mut all = All::new();
    for text in small_sheets() {
        let lines = [edits::of_lines(&text), fields::of_records(&text)];
        for edit in [lines.concat(), fields::of_heads()].concat() {
            all.sheet(&edit.apply(&text), &format!("{edit:?}"));
        }
    }
    all.assert_numbers_came_up(&NUMBERS, "both forms, edits of lines");
}

/// A head that is not known or not there, and another fault behind it.
#[test]
fn on_a_head_and_another_fault() {
    let mut all = All::new();
    for text in small_sheets() {
        for (place, head) in fields::of_heads().into_iter().enumerate() {
            let headed = head.apply(&text);
            let lines = [edits::of_lines(&headed), fields::of_records(&headed)].concat();
            for edit in lines.iter().skip(place % 41).step_by(41) {
                all.sheet(&edit.apply(&headed), &format!("{head:?} {edit:?}"));
            }
        }
    }
    all.assert_numbers_came_up(&[0, 1, 2, 9, 11, 12], "both forms, two faults");
}

/// Lists damaged once or twice, and a line besides.
#[test]
fn on_damaged_lists_and_an_edit() {
    let mut all = All::new();
    for seed in 0..6_000 {
        let random = &mut Random::new(seed);
        let Drawn {
            form, rules, scene, ..
        } = drawn::sheet(300_000 + seed);
        let Some([first, second]) = damage::pair(&scene, random) else {
            continue;
        };
        let damaged = first.apply(&scene);
        let case = format!("sheet seed {} {first:?}", 300_000 + seed);
        all.sheet(&write_form(form, rules, &damaged), &case);
        let text = write_form(form, rules, &second.apply(&damaged));
        let case = format!("{case} {second:?}");
        all.sheet(&text, &case);
        let edit = edits::drawn(&text, random);
        all.sheet(&edit.apply(&text), &format!("{case} {edit:?}"));
    }
    all.assert_numbers_came_up(&[0, 2, 3, 4, 5, 6, 9], "both forms, damaged lists");
}

#[test]
fn with_slices_of_every_length() {
    let mut all = All::new();
    for seed in 0..1_500 {
        let sheet = drawn::sheet(400_000 + seed);
        let case = format!("sheet seed {}", 400_000 + seed);
        all.sheet_with_every_length(&sheet.text, &case);
    }
    for (place, text) in small_sheets().iter().enumerate() {
        let others = [fields::of_heads(), edits::of_lines(text)].concat();
        for edit in others.iter().skip(place).step_by(23) {
            all.sheet_with_every_length(&edit.apply(text), &format!("{edit:?}"));
        }
    }
    all.assert_numbers_came_up(&[0, 2, 9, 11, 12], "both forms, slices of every length");
}

/// Full plots in both forms under all rules, and counts at their limits.
#[test]
fn on_full_plots() {
    let mut all = All::new();
    let seeds = Seeds { small: 0, large: 2 };
    runs::on_profiles(seeds, |scene, seed, case| {
        for form in Form::ALL {
            let rules = 1 + seed.cast_signed() % 3;
            all.sheet(&write_form(form, rules, scene), case);
        }
    });
    let full = Profile::Full.scene(4);
    for form in Form::ALL {
        let text = write_form(form, 3, &full);
        for count in edits::of_counts(&text).into_iter().step_by(3) {
            all.sheet(&count.apply(&text), &format!("full plot {count:?}"));
        }
    }
    all.assert_numbers_came_up(&[0, 1, 2, 9], "both forms, full plots");
}

/// What the converter writes.
fn turned(text: &[u8], case: &str) -> Vec<u8> {
    let sheet = Sheet::turned(text, Limits::SCENE);
    let lent = sheet.enough();
    let mut lists = [lent.components, lent.connections, lent.frontiers].map(|it| vec![0; it]);
    let mut out = vec![0; lent.out];
    let work = lists.each_mut().map(|list| &mut list[..]);
    let count = convert(text, Limits::SCENE.each(), work, &mut out);
    assert_eq!(count, Ok(lent.out as u64), "{case}");
    out
}

/// A hundred thousand sheets into the other form and back, the sheet's own bytes but
/// for a spelled-out `rules=1`; either form has one report, one sheet of eight asked.
/// (`program` has sheets of both forms through `plotreport`.)
#[test]
fn there_and_back_a_hundred_thousand_times() {
    let mut reports = Sheets::new(report);
    let (mut by_form, mut spelled) = ([0_u64; 2], 0_u64);
    for seed in 0..100_000 {
        let case = format!("sheet seed {seed}");
        let sheet = drawn::sheet(seed);
        let other = turned(&sheet.text, &case);
        let wanted = write_form(sheet.form.other(), sheet.rules, &sheet.scene);
        assert!(other == wanted, "{case}");
        let back = turned(&other, &case);
        assert!(back == there_and_back(&sheet.text), "{case}");
        by_form[usize::from(sheet.form == Form::Short)] += 1;
        spelled += u64::from(back.len() < sheet.text.len());
        if seed % 8 == 0 {
            reports.sheet(&sheet.text, Limits::SCENE, &case);
            reports.sheet(&other, Limits::SCENE, &case);
        }
    }
    println!("there and back: old and short {by_form:?}, {spelled} with rules=1 spelled out");
    assert!(by_form.iter().all(|count| *count > 40_000) && spelled > 1_000);
    reports.assert_numbers_came_up(&[0, 2], "there and back, reports");
}

/// The thread runs the entries and nothing else; what they must answer is found
/// outside.
#[test]
fn on_a_small_stack() -> io::Result<()> {
    for form in Form::ALL {
        let scene = Profile::Full.scene(1);
        let text = write_form(form, 3, &scene);
        let other = write_form(form.other(), 3, &scene);
        let reported = Sheet::read(&text, Limits::SCENE).enough();
        runs::within_one_mebibyte_of_stack(move || {
            let mut lists = [
                reported.components,
                reported.connections,
                reported.frontiers,
            ]
            .map(|it| vec![0; it]);
            let limits = Limits::SCENE.each();
            let mut out = vec![0; reported.out];
            let work = lists.each_mut().map(|list| &mut list[..]);
            let count = report(&text, limits, work, &mut out);
            assert_eq!(count, Ok(reported.out as u64));
            let work = lists.each_mut().map(|list| &mut list[..]);
            let mut out = vec![0; other.len()];
            let count = convert(&text, limits, work, &mut out);
            assert!(count == Ok(other.len() as u64) && out == other);
            let work = lists.each_mut().map(|list| &mut list[..]);
            assert!(sheet(&text, work, &mut [0; 2]).is_ok());
        })?;
    }
    Ok(())
}

/// Texts of pieces of sheets of both forms.
#[test]
fn on_garbage() {
    const PIECES: [&str; 20] = [
        "sheet=2\n",
        "rules=1\n",
        "rules=3\n",
        "components=0\n",
        "components=1\n",
        "connections=0\n",
        "connections=1\n",
        "frontiers=0\n",
        "frontiers=1\n",
        "id=1\nx=0\ny=0\nz=0\nkind=0\nfacing=0\nsupport=0\nconducts=0\n",
        "c=1,0,0,0,0,0,0,0\n",
        "source=1\nsink=1\nkind=0\n",
        "n=1,1,0\n",
        "x=1\ny=1\nz=1\n",
        "f=1,1,1\n",
        "sheet=",
        "rules=",
        "\n",
        "0\n",
        "4\n",
    ];
    let mut all = All::new();
    for seed in 0..40_000 {
        let random = &mut Random::new(seed);
        let mut text = Vec::new();
        if random.once_in(2) {
            text.extend_from_slice(b"sheet=2\nrules=2\n");
        }
        if random.once_in(2) {
            text.extend_from_slice(b"components=0\nconnections=");
        }
        for _ in 0..random.below(9) {
            text.extend_from_slice(random.pick(&PIECES).as_bytes());
        }
        all.sheet(&text, &format!("garbage seed {seed}"));
    }
    let nothing = Edit::Cut { place: 0 };
    all.sheet(&nothing.apply(b"x"), "empty text");
    all.assert_numbers_came_up(&[0, 9, 11, 12], "both forms, garbage");
}
