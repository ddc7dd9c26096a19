//! Both forms of a sheet, worked out by hand, and there and back.

use paper::parse::{Parsed, parse};
use paper::program::plotreport;
use paper::sheet::{HEAD, Left, Sheet, SheetLent, listed};
use scenes::Refusal;
use scenes::sheets::drawn;
use scenes::sheets::forms::{Form, spelled_out, there_and_back, write_form};
use scenes::sheets::{Limits, sheet_of, within};
use scenes::{Profile, Scene};

/// As docs/SHEET.md has it.
const SHORT: &str = "\
sheet=2
rules=1
components=2
c=1,0,0,0,4,0,0,0
c=2,1,0,0,1,2,0,0
connections=1
n=1,2,7
frontiers=0
";

fn scene() -> Scene {
    Scene {
        components: vec![1, 0, 0, 0, 4, 0, 0, 0, 2, 1, 0, 0, 1, 2, 0, 0],
        connections: vec![1, 2, 7],
        ..Scene::default()
    }
}

fn said(form: Form, rules: i64) -> Result<Parsed, Refusal> {
    let scene = scene();
    Ok(Parsed { form, rules, scene })
}

/// Number, list and item with the limits of the program, or nothing.
fn refusal(text: &str) -> Option<[u64; 3]> {
    let sheet = Sheet::read(text.as_bytes(), Limits::PROGRAM);
    let refusal = sheet.answer(&sheet.enough()).0.err();
    refusal.map(|it| [it.number, it.list, it.item])
}

/// The short sheet with one line replaced.
fn with_line(line: usize, by: &str) -> String {
    let lines = SHORT.split_inclusive('\n').enumerate();
    lines
        .map(|(place, kept)| if place == line { by } else { kept })
        .collect()
}

#[test]
fn a_record_is_a_line() {
    assert_eq!(write_form(Form::Short, 1, &scene()), SHORT.as_bytes());
    assert_eq!(parse(SHORT.as_bytes(), Limits::NONE), said(Form::Short, 1));
    let old = sheet_of(&scene());
    assert_eq!(write_form(Form::Old, 1, &scene()), old);
    for rules in 1..=3 {
        let text = spelled_out(rules, &scene());
        assert_eq!(parse(&text, Limits::NONE), said(Form::Old, rules));
    }
    assert_eq!(parse(&old, Limits::NONE), said(Form::Old, 1));
    assert_eq!(plotreport(SHORT.as_bytes()), plotreport(&old));
}

#[test]
fn the_first_lines_decide_on_form_and_rules() {
    let is = |text: &str, wanted: [u64; 3]| assert_eq!(refusal(text), Some(wanted), "{text}");
    let old = String::from_utf8_lossy(&sheet_of(&scene())).into_owned();
    for (rules, wanted) in [
        ("0", 11),
        ("4", 11),
        ("-1", 11),
        ("257", 11),
        ("4294967295", 11),
        ("4294967296", 9),
        ("01", 9),
        ("+1", 9),
        ("", 9),
        ("1 ", 9),
        ("-0", 9),
    ] {
        is(&format!("rules={rules}\n{old}"), [wanted, 3, 0]);
        is(&with_line(1, &format!("rules={rules}\n")), [wanted, 3, 1]);
    }
    for (form, wanted) in [
        ("1", 12),
        ("-2", 12),
        ("0", 12),
        ("3", 12),
        ("02", 9),
        ("", 9),
    ] {
        is(&with_line(0, &format!("sheet={form}\n")), [wanted, 3, 0]);
    }
    is("sheet=2", [9, 3, 0]);
    is("sheet=2\n", [9, 3, 1]);
    is("sheet=3\nrules=9\n", [12, 3, 0]);
    is(
        "sheet=2\ncomponents=0\nconnections=0\nfrontiers=0\n",
        [9, 3, 1],
    );
    is("rules=1\nrules=1\ncomponents=0\n", [9, 3, 1]);
    is("rules=2\nsheet=2\n", [9, 3, 1]);
    is("components=0\nrules=1\n", [9, 3, 1]);
    is("rule=1\n", [9, 3, 0]);
    is("rules", [9, 3, 0]);
    is("rules=1\ncomponents=257\n", [1, 0, 256]);
    is("rules=1\ncomponents=1\nid=0\nx=00\n", [9, 3, 3]);
}

#[test]
fn records_of_the_shorter_form_are_as_they_must_be() {
    let is = |line: usize, by: &str, wanted: Option<[u64; 3]>| {
        assert_eq!(refusal(&with_line(line, by)), wanted, "{by}");
    };
    is(3, "c=1,0,0,0,4,0,0,0\n", None);
    for by in [
        "c=1,0,0,0,4,0,0\n",
        "c=1,0,0,0,4,0,0,0,0\n",
        "c=1,0,0,0,4,0,0,0,\n",
        "c=,0,0,0,4,0,0,0\n",
        "c=1,0,0,0,4,0,0, 0\n",
        "c=1,0,0,0,4,0,0,0\r\n",
        "c=1,0,0,0,4,0,0,-0\n",
        "c=1,0,0,0,4,0,0,4294967296\n",
        "n=1,0,0,0,4,0,0,0\n",
        "id=1\n",
        "\n",
    ] {
        is(3, by, Some([9, 3, 3]));
    }
    is(3, "c=-1,0,0,0,4,0,0,0\n", Some([3, 0, 0]));
    is(3, "", Some([9, 3, 4]));
    is(4, "c=1,1,0,0,1,2,0,0\n", Some([5, 0, 1]));
    is(6, "n=1,2\n", Some([9, 3, 6]));
    is(7, "frontiers=1\n", Some([9, 3, 8]));
    is(7, "frontiers=1\nf=0,0\n", Some([9, 3, 8]));
    is(7, "frontiers=1\nf=0,0,0\n", None);
    is(7, "frontiers=1\nf=0,0,0\n\n", Some([9, 3, 9]));
    is(5, "connections=1025\n", Some([1, 1, 1_024]));
}

#[test]
fn the_lists_of_a_sheet_come_after_its_lines_and_its_slices() {
    let lent = SheetLent {
        components: 16,
        connections: 3,
        ..SheetLent::default()
    };
    let short = Refusal {
        number: 2,
        list: 3,
        item: 0,
    };
    let text = SHORT.as_bytes();
    let before = |refusal| Err((refusal, Left::AsBefore));
    assert_eq!(listed(text, &lent, HEAD).ok(), said(Form::Short, 1).ok());
    assert_eq!(listed(text, &lent, HEAD - 1), before(short));
    let less = SheetLent {
        components: 15,
        ..lent
    };
    assert_eq!(listed(text, &less, HEAD), before(short));
    let form = Refusal {
        number: 12,
        list: 3,
        item: 0,
    };
    assert_eq!(listed(b"sheet=1\n", &less, 0), before(form));
    let unsound = with_line(3, "c=-1,0,0,0,4,0,0,0\n");
    let outside = Refusal {
        number: 3,
        list: 0,
        item: 0,
    };
    let zero = Err((outside, Left::Zero));
    assert_eq!(listed(unsound.as_bytes(), &lent, HEAD), zero);
    assert_eq!(listed(unsound.as_bytes(), &lent, HEAD - 1), before(short));
}

/// The sheet in the other form.
fn turned(text: &[u8], case: &str) -> Vec<u8> {
    let sheet = Sheet::turned(text, Limits::NONE);
    match sheet.answer(&sheet.enough()).0 {
        Ok(other) => other.to_vec(),
        Err(refusal) => panic!("{case}: {refusal:?}"),
    }
}

#[test]
fn there_and_back_yields_the_sheet() {
    for seed in 0..20_000 {
        let case = format!("sheet seed {seed}");
        let sheet = drawn::sheet(seed);
        let (form, rules, scene) = (sheet.form, sheet.rules, sheet.scene.clone());
        let first = Parsed { form, rules, scene };
        assert_eq!(parse(&sheet.text, Limits::NONE), Ok(first), "{case}");
        let other = turned(&sheet.text, &case);
        let (form, scene) = (form.other(), sheet.scene);
        let second = Parsed { form, rules, scene };
        assert_eq!(parse(&other, Limits::NONE), Ok(second), "{case}");
        assert_eq!(turned(&other, &case), there_and_back(&sheet.text), "{case}");
    }
}

/// N-10: every list at the program's limits and every number as long as it can be.
#[test]
fn a_short_sheet_is_never_too_long_for_the_program() {
    let component = [-30_000_000; 3];
    let scene = Scene {
        components: (0..256)
            .flat_map(|id| {
                let [x, y, _] = component;
                [4_294_967_295 - id, x, y, id - 30_000_000, 12, 6, 6, 1]
            })
            .collect(),
        connections: (0..1_024)
            .flat_map(|kind| [4_294_967_295 - kind, 4_294_967_295, 9])
            .collect(),
        frontiers: (0..256).flat_map(|_| component).collect(),
        ports: Vec::new(),
    };
    let text = write_form(Form::Short, 3, &scene);
    println!("{} bytes at most", text.len());
    assert!(text.len() <= 48_190, "{}", text.len());
}

/// "The same lists and rules give the same report."
#[test]
fn both_forms_have_one_report() {
    let mut count = 0;
    for profile in Profile::ALL.into_iter().filter(|it| !it.is_large()) {
        for seed in 0..60 {
            let scene = within(Limits::PROGRAM, &profile.scene(seed));
            for rules in 1..=3 {
                let [old, short] = Form::ALL.map(|form| write_form(form, rules, &scene));
                let [old, short] = [old, short].map(|text| plotreport(&text));
                assert!(old == short, "{} seed {seed}", profile.name());
                count += 1;
            }
        }
    }
    println!("{count} reports of both forms");
}
