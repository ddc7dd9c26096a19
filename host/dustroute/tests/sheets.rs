//! Sheets by the typed functions: what they say, their reports, and there and
//! back, held to the restatement; a refusal is at its line or at its item.

#[expect(dead_code, reason = "port connections have no part in it")]
mod typed;

use dustroute::{Form, List, Place, Refusal, Rules, convert, read_sheet, report};
use paper::parse::parse;
use paper::sheet::Sheet;
use scenes::random::Random;
use scenes::sheets::edits;
use scenes::sheets::forms::{self, there_and_back, write_form};
use scenes::sheets::{Limits, drawn, fields, sheet_of};
use scenes::sized::Shape;
use scenes::{Profile, Scene};
use typed::Lists;

/// Number, list and item, as the table has them.
fn plain(refusal: Refusal) -> [u64; 3] {
    let number = u64::from(refusal.reason.number());
    let Some(Place { list, item }) = refusal.place else {
        return [number, 3, 0];
    };
    let list = match list {
        List::Components => 0,
        List::Connections => 1,
        List::Frontiers => 2,
        List::Lines => 3,
    };
    [number, list, item as u64]
}

/// What a call says of a sheet that the restatement judged.
fn hold_written(given: Result<Vec<u8>, Refusal>, sheet: &Sheet, case: &str) -> u64 {
    let wanted = sheet.answer(&sheet.enough()).0;
    let wanted = wanted.map_err(|it| [it.number, it.list, it.item]);
    let given = given.map_err(plain);
    assert_eq!(given.as_deref(), wanted.as_deref(), "{case}");
    given.err().map_or(0, |[number, ..]| number)
}

/// What was read, beside what the sheet says, if it is valid.
fn hold_read(text: &[u8], sheet: &Sheet, case: &str) {
    let given = read_sheet(text);
    let (Sheet::Sound(parsed, _), Ok(given)) = (sheet, &given) else {
        let wanted = sheet.answer(&sheet.enough()).0.err();
        let wanted = wanted.map(|it| [it.number, it.list, it.item]);
        assert_eq!(given.err().map(plain), wanted, "{case}");
        return;
    };
    assert_eq!(given.form.number(), parsed.form.number(), "{case}");
    assert_eq!(given.rules.number(), parsed.rules, "{case}");
    let Some(lists) = Lists::of(&parsed.scene) else {
        panic!("{case}: not typed{}", parsed.scene);
    };
    assert_eq!(given.components, lists.components, "{case}");
    assert_eq!(given.connections, lists.connections, "{case}");
    assert_eq!(given.frontiers, lists.frontiers, "{case}");
}

/// The last block of a report by rules 3: the ids of the devices that are unread. By
/// other rules there is none.
fn unread_told(report: &[u8]) -> Vec<u32> {
    let text = String::from_utf8_lossy(report);
    let Some((_, block)) = text.split_once("\nunread=") else {
        return Vec::new();
    };
    let ids = block.lines().filter_map(|line| line.strip_prefix("id="));
    ids.filter_map(|id| id.parse().ok()).collect()
}

/// All three calls; the number of the refusal.
fn hold(text: &[u8], case: &str) -> u64 {
    let turned = Sheet::turned(text, Limits::SCENE);
    hold_read(text, &turned, case);
    hold_written(convert(text), &turned, case);
    let reported = Sheet::read(text, Limits::SCENE);
    hold_written(report(text), &reported, case)
}

#[test]
fn drawn_sheets_are_read_reported_and_turned() -> Result<(), Refusal> {
    let mut counts = [[0_u64; 3]; 2];
    let mut unread = 0;
    for seed in 0..20_000 {
        let sheet = drawn::sheet(seed);
        let case = format!("sheet seed {seed}");
        assert_eq!(hold(&sheet.text, &case), 0, "{case}");
        let form = usize::from(sheet.form == forms::Form::Short);
        counts[form][usize::try_from(sheet.rules - 1).unwrap_or(0)] += 1;
        let other = convert(&sheet.text)?;
        assert_eq!(convert(&other)?, there_and_back(&sheet.text), "{case}");
        let told = report(&sheet.text)?;
        assert_eq!(report(&other)?, told, "{case}");
        let named = read_sheet(&sheet.text)?;
        let named: Vec<u32> = named.unread().map(|it| it.0).collect();
        assert_eq!(named, unread_told(&told), "{case}");
        unread += named.len();
    }
    println!("unread devices named: {unread}");
    assert!(unread > 1_000);
    println!("typed sheets by form and rules: {counts:?}");
    assert!(counts.as_flattened().iter().all(|count| *count > 1_000));
    Ok(())
}

/// Reports longer than the first buffers, and lists at the library's limits.
#[test]
fn full_plots_are_read_reported_and_turned() {
    let full = (0..2).map(|seed| Profile::Full.scene(seed));
    let plots = Shape::ALL.map(|shape| shape.scene(1_024, 3));
    let mut bytes = 0;
    for (place, scene) in full.chain(plots).enumerate() {
        for form in forms::Form::ALL {
            for rules in Rules::ALL {
                let text = write_form(form, rules.number(), &scene);
                let case = format!("full plot {place}, {form:?}, {rules}");
                assert_eq!(hold(&text, &case), 0);
                bytes = bytes.max(report(&text).map_or(0, |it| it.len()));
            }
        }
    }
    println!("reports of full plots: up to {bytes} bytes");
    assert!(bytes > 1 << 18);
}

/// Edits of bytes, lines, heads and records of sheets of either form.
#[test]
fn edited_sheets_are_refused_as_the_restatement_does() {
    let mut by_number = [0_u64; 13];
    for seed in 0..12_000 {
        let sheet = drawn::sheet(90_000 + seed);
        let random = &mut Random::new(seed);
        let mut text = sheet.text;
        let mut case = format!("sheet seed {}", 90_000 + seed);
        for _ in 0..1 + random.below(2) {
            let some = [fields::of_heads(), fields::of_records(&text)].concat();
            let edit = match some.get(random.below(4 * some.len())) {
                Some(edit) => *edit,
                None => edits::drawn(&text, random),
            };
            text = edit.apply(&text);
            case = format!("{case}, {edit:?}");
        }
        by_number[usize::try_from(hold(&text, &case)).unwrap_or(0)] += 1;
    }
    println!("typed sheets, edited, by number {by_number:?}");
    assert!([0, 1, 3, 5, 9, 11, 12].iter().all(|&it| by_number[it] > 0));
    assert_eq!([2, 7, 8, 10].map(|number| by_number[number]), [0; 4]);
}

#[test]
fn a_refusal_tells_its_line_or_its_item() {
    let said = |text: &[u8]| match report(text) {
        Ok(_) => String::new(),
        Err(refusal) => refusal.to_string(),
    };
    assert_eq!(
        said(b"rules=4\n"),
        "refusal 11 at line 0: rules that are not known"
    );
    assert_eq!(
        said(b"sheet=2\nrules=1\ncomponents=1\nc=0,0\n"),
        "refusal 9 at line 3: not the line that belongs there"
    );
    assert_eq!(
        said(b"components=1025\n"),
        "refusal 1 at item 1024 of the components: a list over its limit, or not whole records"
    );
    let scene = Scene {
        connections: vec![1, 2, 10],
        ..Scene::default()
    };
    assert_eq!(
        said(&sheet_of(&scene)),
        "refusal 3 at item 0 of the connections: a field outside its range"
    );
    let parsed = parse(&sheet_of(&scene), Limits::SCENE);
    assert!(parsed.is_ok(), "its lines are as they must be");
    assert_eq!(
        Form::ALL.map(|it| it.to_string()),
        ["old form", "shorter form"]
    );
}
