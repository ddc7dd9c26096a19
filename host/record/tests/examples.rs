//! Each sheet under `examples/` has the report beside it that the unchanged
//! Rust's answers give, by rules 1, and the restatement's, by others; each that is
//! accepted also the shorter form, with the same report. No report and no shorter
//! form stands alone.

use std::collections::BTreeSet;
use std::io;
use std::path::PathBuf;

use record::examples;
use scenes::sheets::forms::there_and_back;

fn folder() -> PathBuf {
    PathBuf::from(env!("CARGO_MANIFEST_DIR")).join("../../examples")
}

#[test]
fn each_sheet_has_its_report() -> io::Result<()> {
    let sheets = examples::sheets(&folder())?;
    let (mut accepted, mut numbers) = (0, BTreeSet::new());
    for sheet in &sheets {
        let kept = std::fs::read(examples::report_path(sheet))?;
        let wanted = examples::report(sheet)?;
        assert!(kept == wanted, "{}", sheet.display());
        let is_refused = sheet.parent().is_some_and(|it| it.ends_with("refused"));
        let is_accepted = kept.starts_with(b"answer=0\n");
        assert_ne!(is_refused, is_accepted, "{}", sheet.display());
        accepted += usize::from(is_accepted);
        let answer = String::from_utf8_lossy(&kept).into_owned();
        let answer = answer.lines().next().map(str::to_string);
        numbers.extend(answer);
    }
    println!("{} sheets, {accepted} of them accepted", sheets.len());
    for number in [0, 1, 3, 4, 5, 6, 9, 11, 12] {
        assert!(numbers.contains(&format!("answer={number}")), "{number}");
    }
    Ok(())
}

#[test]
fn each_accepted_sheet_has_its_shorter_form() -> io::Result<()> {
    let mut wanted = Vec::new();
    for sheet in examples::sheets(&folder())? {
        let Some(text) = examples::turned(&sheet)? else {
            continue;
        };
        let short = examples::short_path(&sheet);
        assert!(std::fs::read(&short)? == text, "{}", short.display());
        let same = examples::report(&short)? == examples::report(&sheet)?;
        assert!(same, "{}", short.display());
        let back = examples::turned(&short)?;
        let own = std::fs::read(&sheet)?;
        assert!(back.as_deref() == Some(there_and_back(&own)));
        wanted.push(short);
    }
    println!("{} shorter forms", wanted.len());
    assert_eq!(examples::shorts(&folder())?, wanted);
    Ok(())
}

#[test]
fn each_report_has_its_sheet() -> io::Result<()> {
    let reports = examples::reports(&folder())?;
    let beside = examples::sheets(&folder())?;
    let beside: Vec<PathBuf> = beside.iter().map(|it| examples::report_path(it)).collect();
    assert_eq!(reports, beside);
    Ok(())
}
