//! The program `plotreport` against the restatement and the examples: its
//! input from files and pipes, sheets and reports at the ends of its buffers,
//! reads and writes that fail.

use std::fs::File;
use std::io;
use std::path::PathBuf;
use std::process::{Output, Stdio};
use std::time::Duration;

use checks::program::{Feed, run, run_between};
use checks::runs::{self, Seeds};
use paper::program::{BUFFER, plotreport};
use paper::report::report;
use scenes::Scene;
use scenes::limits::RULES_OF_THE_RUST;
use scenes::sheets::edits;
use scenes::sheets::forms::{Form, write_form};
use scenes::sheets::lengths::{MOST_DIGITS, dense_scene, sheet_of_length};
use scenes::sheets::{Limits, drawn, fields, sheet_of, within, write_sheet};

const FEEDS: [Feed; 4] = [
    Feed::File,
    Feed::Pipe,
    Feed::Pieces {
        bytes: 30_011,
        pause: Duration::from_millis(5),
    },
    Feed::Pieces {
        bytes: 4_099,
        pause: Duration::from_millis(1),
    },
];

fn hold(input: &[u8], wanted: &[u8], feed: Feed, case: &str) -> io::Result<()> {
    let output = run(input, feed)?;
    let given = output.stdout.escape_ascii();
    assert!(output.stdout == wanted, "{case}, {feed:?}: {given}");
    assert!(output.stderr.is_empty(), "{case}, {feed:?}: errors");
    let status = output.status;
    assert!(status.success(), "{case}, {feed:?}: {status}");
    Ok(())
}

fn hold_by_every_feed(input: &[u8], case: &str) -> io::Result<Vec<u8>> {
    let wanted = plotreport(input);
    for feed in FEEDS {
        hold(input, &wanted, feed, case)?;
    }
    Ok(wanted)
}

#[test]
fn on_the_examples() -> io::Result<()> {
    let examples = PathBuf::from(env!("CARGO_MANIFEST_DIR")).join("../../examples");
    let mut count = 0;
    for folder in [examples.clone(), examples.join("refused")] {
        for entry in folder.read_dir()? {
            let path = entry?.path();
            if path
                .extension()
                .is_some_and(|it| it == "sheet" || it == "short")
            {
                let wanted = std::fs::read(path.with_extension("report"))?;
                let given = hold_by_every_feed(&std::fs::read(&path)?, &path.to_string_lossy())?;
                assert!(given == wanted, "{}", path.display());
                count += 1;
            }
        }
    }
    println!("{count} examples printed as they stand");
    assert!(count >= 48);
    Ok(())
}

#[test]
fn on_nothing() -> io::Result<()> {
    let wanted = hold_by_every_feed(b"", "nothing")?;
    assert_eq!(wanted, b"answer=9\nlist=3\nitem=0\n");
    Ok(())
}

/// A read or a write that failed: it is said, and is no answer.
fn hold_failed(output: &Output, kind: &str) {
    let said = output.stderr.escape_ascii().to_string();
    assert!(said.starts_with("Error: ") && said.contains(kind), "{said}");
    assert_eq!(output.status.code(), Some(1), "{said}");
    assert!(output.stdout.is_empty(), "{said}");
}

#[test]
fn on_input_that_cannot_be_read() -> io::Result<()> {
    let folder = File::open(env!("CARGO_MANIFEST_DIR"))?;
    hold_failed(&run_between(folder.into(), Stdio::piped())?, "IsADirectory");
    Ok(())
}

/// A report, and a refusal.
#[test]
fn on_output_that_cannot_be_written() -> io::Result<()> {
    let examples = PathBuf::from(env!("CARGO_MANIFEST_DIR")).join("../../examples");
    let full = || File::options().write(true).open("/dev/full");
    let sheet = File::open(examples.join("lever-and-repeater.sheet"))?;
    hold_failed(&run_between(sheet.into(), full()?.into())?, "StorageFull");
    hold_failed(&run_between(Stdio::null(), full()?.into())?, "StorageFull");
    Ok(())
}

/// A small sheet byte by byte, and in pieces that end anywhere in a line.
#[test]
fn on_input_that_comes_slowly() -> io::Result<()> {
    let components = [1, 0, 0, 0, 4, 0, 0, 0, 2, 1, 0, 0, 1, 2, 0, 0];
    let text = write_sheet(&components, &[1, 2, 5], &[]);
    let wanted = plotreport(&text);
    for (bytes, milliseconds) in [(1, 1), (7, 5), (50, 40), (150, 300)] {
        let pause = Duration::from_millis(milliseconds);
        hold(&text, &wanted, Feed::Pieces { bytes, pause }, "slowly")?;
    }
    Ok(())
}

#[test]
fn on_sheets_at_the_end_of_the_buffer() -> io::Result<()> {
    for length in [BUFFER - 1, BUFFER, BUFFER + 1] {
        let text = sheet_of_length(length);
        let text = text.ok_or_else(|| io::Error::other("no sheet of this length"))?;
        let given = hold_by_every_feed(&text, &format!("sheet of {length} bytes"))?;
        let is_accepted = given.starts_with(b"answer=0\n");
        assert_eq!(is_accepted, length <= BUFFER);
        let garbage = vec![b'x'; length];
        hold_by_every_feed(&garbage, &format!("garbage of {length} bytes"))?;
    }
    hold_by_every_feed(&vec![b'\n'; 20 * BUFFER], "a long garbage")?;
    Ok(())
}

fn report_of(scene: &Scene) -> Vec<u8> {
    let rules = RULES_OF_THE_RUST;
    report(
        rules,
        &scene.components,
        &scene.connections,
        &scene.frontiers,
    )
}

/// The scene with a report of so many bytes: the most connections that do not
/// make it longer, and digits for the rest.
fn scene_of_report(length: usize) -> Option<Scene> {
    let most = usize::try_from(Limits::PROGRAM.connections).ok()? - 10;
    let shorter = |count: &usize| report_of(&dense_scene(*count, 0)).len() <= length;
    let (mut fits, mut over) = (0, most + 1);
    while over - fits > 1 {
        let middle = fits.midpoint(over);
        if shorter(&middle) {
            fits = middle;
        } else {
            over = middle;
        }
    }
    let missing = length.checked_sub(report_of(&dense_scene(fits, 0)).len())?;
    let scene = dense_scene(fits, missing);
    let is_right = missing <= MOST_DIGITS && report_of(&scene).len() == length;
    is_right.then_some(scene)
}

#[test]
fn on_reports_at_the_end_of_the_buffer() -> io::Result<()> {
    for length in [BUFFER - 1, BUFFER, BUFFER + 1] {
        let scene = scene_of_report(length);
        let scene = scene.ok_or_else(|| io::Error::other("no report of this length"))?;
        let given = hold_by_every_feed(&sheet_of(&scene), &format!("report of {length} bytes"))?;
        if length <= BUFFER {
            assert_eq!(given.len(), length);
        } else {
            assert_eq!(given, b"answer=2\nlist=3\nitem=0\n");
        }
    }
    Ok(())
}

/// Both forms under all rules, and there and back.
#[test]
fn on_drawn_sheets() -> io::Result<()> {
    let mut accepted = 0;
    for seed in 0..2_000 {
        let sheet = drawn::sheet(7 * seed);
        let case = format!("sheet seed {}", 7 * seed);
        let wanted = plotreport(&sheet.text);
        accepted += usize::from(wanted.starts_with(b"answer=0\n"));
        let other = write_form(sheet.form.other(), sheet.rules, &sheet.scene);
        for text in [sheet.text, other] {
            hold(&text, &wanted, FEEDS[usize::from(seed % 9 == 0)], &case)?;
        }
    }
    println!("2,000 sheets in both forms, {accepted} of them accepted");
    assert!(accepted > 1_500);
    Ok(())
}

#[test]
fn on_edited_sheets() -> io::Result<()> {
    let wire = |id, x| [id, x, 0, 0, 0, 0, 0, 0];
    let components = [wire(1, -1), wire(3, 0), wire(2, 1)].concat();
    let scene = Scene {
        components,
        connections: vec![1, 3, 0, 3, 2, 0],
        frontiers: vec![0; 6],
        ports: Vec::new(),
    };
    let mut count = 0;
    for form in Form::ALL {
        let text = write_form(form, 3, &scene);
        let bytes_and_lines = [edits::of_bytes(&text), edits::of_lines(&text)].concat();
        let others = [fields::of_heads(), fields::of_records(&text)].concat();
        for edit in [bytes_and_lines, others].concat().iter().step_by(37) {
            let edited = edit.apply(&text);
            let feed = FEEDS[count % 2];
            hold(&edited, &plotreport(&edited), feed, &format!("{edit:?}"))?;
            count += 1;
        }
    }
    println!("{count} edited sheets");
    Ok(())
}

/// Scenes cut to the program's limits, and others that pass them.
#[test]
fn on_generated_scenes() -> io::Result<()> {
    let mut sheets = Vec::new();
    let seeds = Seeds { small: 8, large: 4 };
    runs::on_profiles(seeds, |scene, _, case| {
        sheets.push((sheet_of(&within(Limits::PROGRAM, scene)), case.to_string()));
        sheets.push((sheet_of(scene), format!("{case} whole")));
    });
    runs::on_plots(&[64, 256, 257], 2, |scene, case| {
        sheets.push((sheet_of(scene), case.to_string()));
    });
    let mut accepted = 0;
    for (place, (text, case)) in sheets.iter().enumerate() {
        let wanted = plotreport(text);
        accepted += usize::from(wanted.starts_with(b"answer=0\n"));
        hold(text, &wanted, FEEDS[place % 2], case)?;
    }
    println!("{} sheets, {accepted} of them accepted", sheets.len());
    assert!(accepted > 150);
    Ok(())
}
