//! The program itself: commands, exit statuses, and what it says where something fails.

mod common;

use std::error::Error;
use std::fs::{self, File};
use std::io::Write;
use std::path::PathBuf;
use std::process::{Command, Output, Stdio};

use common::{examples, marked_sheets, own, sheets};

type Done = Result<(), Box<dyn Error>>;

/// Runs `plotmark` with some text on its standard input.
fn run(words: &[&str], input: &[u8]) -> Result<Output, Box<dyn Error>> {
    let mut command = Command::new(env!("CARGO_BIN_EXE_plotmark"));
    command
        .args(words)
        .stdin(Stdio::piped())
        .stdout(Stdio::piped())
        .stderr(Stdio::piped());
    let mut child = command.spawn()?;
    let mut pipe = child.stdin.take().ok_or("no pipe")?;
    // It may end before it has read all of it.
    let _ = pipe.write_all(input);
    drop(pipe);
    Ok(child.wait_with_output()?)
}

/// Exit status, standard output and standard error.
fn said(words: &[&str], input: &[u8]) -> Result<(i32, String, String), Box<dyn Error>> {
    let output = run(words, input)?;
    let code = output.status.code().ok_or("ended by a signal")?;
    let text = |bytes| String::from_utf8(bytes);
    Ok((code, text(output.stdout)?, text(output.stderr)?))
}

fn path(name: &str) -> String {
    let path: PathBuf = own().join(name);
    path.to_string_lossy().into_owned()
}

#[test]
fn words_from_a_file_and_from_standard_input() -> Done {
    let row = path("row.sheet");
    let text = fs::read(&row)?;
    let (code, words, errors) = said(&[&row], b"")?;
    assert_eq!((code, errors.as_str()), (0, ""));
    assert!(words.starts_with(&format!("{row}: marked by rules 1 (old form). 8 blocks, ")));
    assert!(!words.contains('\x1b'), "colours in a pipe");
    for words_of in [&["-"][..], &[], &["--all", "-"], &["--", "-"]] {
        let (code, given, errors) = said(words_of, &text)?;
        assert_eq!((code, errors.as_str()), (0, ""));
        assert_eq!(given, words.replace(&row, "standard input"));
    }
    Ok(())
}

#[test]
fn every_example_is_marked_and_every_refused_one_is_not() -> Done {
    let good = marked_sheets()?;
    let good: Vec<&str> = good.iter().filter_map(|it| it.to_str()).collect();
    let (code, lines, errors) = said(&good, b"")?;
    assert_eq!((code, errors.as_str()), (0, ""));
    assert_eq!(lines.lines().count(), good.len());
    let bad = sheets(&examples().join("refused"), &["sheet"])?;
    let mut count = 0;
    for path in bad.iter().filter_map(|it| it.to_str()) {
        for option in [
            &[path][..],
            &["--page", path],
            &["--report", path],
            &["--check", path],
        ] {
            let (code, given, errors) = said(option, b"")?;
            assert_eq!((code, given.as_str()), (1, ""), "{path}");
            assert_eq!(errors.lines().count(), 1, "{path}: {errors}");
            assert!(
                errors.starts_with(&format!("{path}: not marked (refusal ")),
                "{errors}"
            );
        }
        count += 1;
    }
    println!("{} sheets marked, {count} refused", good.len());
    assert!(count >= 24);
    Ok(())
}

/// Of several sheets each has its line, and the worst of them is the exit status.
#[test]
fn several_sheets() -> Done {
    let (row, turned) = (path("row.sheet"), path("turned.sheet"));
    let (code, lines, errors) = said(&[&row, "no/such.sheet", &turned, "-"], b"")?;
    assert_eq!(code, 2);
    let wanted = format!(
        "{row}: marked by rules 1 (old form). 8 blocks, 11 connections, none of them left out. \
         1 input: 1 driven.\n\
         {turned}: marked by rules 1 (old form). 8 blocks, 11 connections, 2 of them left out. \
         1 input: 1 with nothing connected.\n"
    );
    assert_eq!(lines, wanted);
    let errors: Vec<&str> = errors.lines().collect();
    assert!(
        errors[0].starts_with("no/such.sheet: not read: "),
        "{errors:?}"
    );
    assert!(
        errors[1].starts_with("standard input: not marked (refusal 9"),
        "{errors:?}"
    );
    let (code, lines, _) = said(&["--check", &row, &turned], b"")?;
    assert_eq!((code, lines.as_str()), (0, ""));
    assert_eq!(said(&[&row, "-"], b"x")?.0, 1);
    Ok(())
}

#[test]
fn one_device() -> Done {
    let row = path("row.sheet");
    for asked in [&["--input", "7", &row][..], &["--input=7/1", &row]] {
        let (code, words, _) = said(asked, b"")?;
        assert_eq!(code, 0);
        let way = "the way: lever 1 > wire 2 > wire 3 > wire 4 > wire 5 > wire 6 > repeater 7";
        assert!(words.contains("its input at its back (West) is driven.") && words.contains(way));
    }
    for (asked, wanted) in [
        ("9", "there is no block 9."),
        ("2", "wire 2 has no input that must be driven."),
        (
            "7/0",
            "repeater 7 has no input at port 0 that must be driven.",
        ),
    ] {
        let (code, given, errors) = said(&["--input", asked, &row], b"")?;
        assert_eq!((code, given.as_str()), (1, ""));
        assert_eq!(errors, format!("{row}: {wanted}\n"));
    }
    let fog = examples().join("fog-rules-3.sheet");
    let (code, _, errors) = said(&["--input", "3", &fog.to_string_lossy()], b"")?;
    assert!(
        code == 1 && errors.contains("its facing is not known"),
        "{errors}"
    );
    Ok(())
}

#[test]
fn reports_and_other_forms() -> Done {
    for sheet in sheets(&examples(), &["sheet"])? {
        let short = fs::read(sheet.with_extension("short"))?;
        let name = sheet.to_string_lossy().into_owned();
        let report = run(&["--report", &name], b"")?;
        assert!(report.status.success() && report.stderr.is_empty());
        assert_eq!(
            report.stdout,
            fs::read(sheet.with_extension("report"))?,
            "{name}"
        );
        let turned = run(&["convert", &name], b"")?;
        assert!(turned.status.success() && turned.stdout == short, "{name}");
        let back = run(&["convert", "-"], &short)?;
        assert!(back.status.success(), "{name}");
    }
    // More than plotreport takes.
    let blocks = (0..257).map(|k| format!("c={k},{k},0,0,0,0,0,0\n"));
    let blocks: String = blocks.collect();
    let text = format!("sheet=2\nrules=3\ncomponents=257\n{blocks}connections=0\nfrontiers=0\n");
    let (code, report, _) = said(&["--report"], text.as_bytes())?;
    assert!(code == 0 && report.starts_with("answer=0\ncomponents=257\n"));
    Ok(())
}

#[test]
fn two_halves_of_a_lesson() -> Done {
    let example = |name: &str| examples().join(name).to_string_lossy().into_owned();
    let (left, right) = (example("left-half.sheet"), example("right-half.short"));
    let output = run(&["join", &left, &right], b"")?;
    assert!(output.status.success() && output.stderr.is_empty());
    assert_eq!(output.stdout, fs::read(example("halves-joined.sheet"))?);
    let text = fs::read(&right)?;
    let (code, joined, _) = said(&["join", &left, "-"], &text)?;
    assert_eq!((code, joined.as_bytes()), (0, output.stdout.as_slice()));
    Ok(())
}

/// Which sheet it is, or what they disagree in, with lines as an editor counts them.
#[test]
fn two_sheets_that_do_not_go_together() -> Done {
    let row = path("row.sheet");
    let (lever, rules) = (path("row.sheet"), path("everything-3.sheet"));
    let turned = path("turned.sheet");
    for (sheets, input, wanted) in [
        (
            [row.as_str(), "-"],
            "x",
            "standard input: not joined (refusal 9). Line 1 (`x`)".to_string(),
        ),
        (
            ["-", &row],
            "",
            "standard input: not joined (refusal 9). The sheet is empty.".to_string(),
        ),
        (
            [&lever, &rules],
            "",
            format!(
                "{lever} and {rules}: not joined (refusal 13). {lever} is marked by rules 1, and {rules} by rules 3.\n"
            ),
        ),
        (
            [&row, &turned],
            "",
            format!(
                "{row} and {turned}: not joined (refusal 14). Block 7 is not the same on both \
                 (line 50 of {row}, line 50 of {turned}): facing=2 and facing=4.\n"
            ),
        ),
    ] {
        let (code, given, errors) = said(&["join", sheets[0], sheets[1]], input.as_bytes())?;
        assert_eq!((code, given.as_str()), (1, ""), "{sheets:?}");
        assert!(errors.starts_with(&wanted), "{errors}");
    }
    Ok(())
}

#[test]
fn two_sheets_that_are_too_much_together() -> Done {
    let row_of = |from: u32| {
        let blocks = (from..from + 600).map(|id| format!("c={id},{id},0,0,0,0,0,0\n"));
        let blocks: String = blocks.collect();
        format!("sheet=2\nrules=3\ncomponents=600\n{blocks}connections=0\nfrontiers=0\n")
    };
    let folder = std::path::Path::new(env!("CARGO_TARGET_TMPDIR")).join("first.short");
    fs::write(&folder, row_of(0))?;
    let (code, _, errors) = said(
        &["join", &folder.to_string_lossy(), "-"],
        row_of(600).as_bytes(),
    )?;
    assert!(
        code == 1 && errors.ends_with("Together they have more than 1024 components.\n"),
        "{errors}"
    );
    Ok(())
}

#[test]
fn pages() -> Done {
    let (code, page, errors) = said(&["--page", &path("turned.sheet")], b"")?;
    assert_eq!((code, errors.as_str()), (0, ""));
    assert!(page.starts_with("<!DOCTYPE html>") && page.ends_with("</html>\n"));
    Ok(())
}

#[test]
fn wrong_usage() -> Done {
    let row = path("row.sheet");
    for words in [
        &["--nothing"][..],
        &["-p", &row],
        &["--page=x", &row],
        &["--page", &row, &row],
        &["--page", "--report", &row],
        &["--all", "--page", &row],
        &["--input"],
        &["--input", "seven", &row],
        &["--input", "7/256", &row],
        &["--input", "-7", &row],
        &["--report", &row, &row],
        &["convert", &row, &row],
        &["join", &row],
        &["join", "-", "-"],
    ] {
        let (code, given, errors) = said(words, b"")?;
        assert_eq!((code, given.as_str()), (2, ""), "{words:?}");
        assert!(
            errors.starts_with("plotmark: ") && errors.lines().count() == 1,
            "{errors}"
        );
    }
    let (code, help, _) = said(&["--help"], b"")?;
    assert!(code == 0 && help.contains("plotmark --input ID[/PORT] SHEET"));
    let (code, version, _) = said(&["--version"], b"")?;
    let interface = format!("\ncore: interface {}, sources ", dustroute::INTERFACE);
    assert!(code == 0 && version.contains(&interface), "{version}");
    Ok(())
}

#[test]
fn what_cannot_be_read_or_written_is_told() -> Done {
    let row = path("row.sheet");
    for words in [
        &["/"][..],
        &["--page", "/"],
        &["convert", "no/such"],
        &["--input", "7", "/"],
    ] {
        let (code, given, errors) = said(words, b"")?;
        assert_eq!((code, given.as_str()), (2, ""), "{words:?}");
        assert!(errors.contains(": not read: "), "{errors}");
    }
    let long = vec![b'\n'; (1 << 24) + 1];
    let (code, _, errors) = said(&[], &long)?;
    assert!(
        code == 2 && errors.contains("too long to be a sheet"),
        "{errors}"
    );
    let Ok(full) = File::options().write(true).open("/dev/full") else {
        println!("no /dev/full: what cannot be written is not tried");
        return Ok(());
    };
    for option in ["--page", "--report", "--all", "--help", "--version"] {
        let mut command = Command::new(env!("CARGO_BIN_EXE_plotmark"));
        let output = command
            .args([option, &row])
            .stdout(full.try_clone()?)
            .output()?;
        assert_eq!(output.status.code(), Some(2), "{option}");
        let errors = String::from_utf8_lossy(&output.stderr);
        assert!(
            errors.starts_with("standard output: not written: "),
            "{errors}"
        );
    }
    Ok(())
}

/// What is closed from the start is no empty sheet, and takes no words.
#[test]
fn closed_descriptors_are_told() -> Done {
    for (redirected, wanted) in [
        (">&-", "standard output: not written: "),
        ("<&-", "standard input: not read: "),
    ] {
        let line = format!("\"$0\" {redirected}");
        let mut shell = Command::new("sh");
        shell.args(["-c", &line, env!("CARGO_BIN_EXE_plotmark")]);
        let sheet = File::open(own().join("row.sheet"))?;
        let output = shell.stdin(sheet).output()?;
        let errors = String::from_utf8_lossy(&output.stderr);
        assert_eq!(output.status.code(), Some(2), "{redirected}: {errors}");
        assert!(errors.starts_with(wanted), "{redirected}: {errors}");
    }
    Ok(())
}

/// Nobody reads on: told, and no signal ends it.
#[test]
fn a_closed_pipe_is_told() -> Done {
    let mut command = Command::new(env!("CARGO_BIN_EXE_plotmark"));
    let page = examples().join("full-plot.sheet");
    command
        .arg("--page")
        .arg(page)
        .stdout(Stdio::piped())
        .stderr(Stdio::piped());
    let mut child = command.spawn()?;
    drop(child.stdout.take());
    let output = child.wait_with_output()?;
    assert_eq!(output.status.code(), Some(2));
    assert!(String::from_utf8_lossy(&output.stderr).contains("not written"));
    Ok(())
}
