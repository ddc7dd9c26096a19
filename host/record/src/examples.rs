//! The sheets of a folder, the report that stands beside each, and the same sheet
//! in the shorter form, which has the same report.

use std::io;
use std::path::{Path, PathBuf};

use paper::program::plotreport;
use paper::sheet::Sheet;
use scenes::sheets::Limits;

/// The ending of a sheet's file name, of its report's, and of the sheet's in the
/// shorter form.
const SHEET: &str = "sheet";
const REPORT: &str = "report";
const SHORT: &str = "short";

/// The files with an ending in a folder and below it, in order.
fn files(folder: &Path, ending: &str) -> io::Result<Vec<PathBuf>> {
    let mut found = Vec::new();
    for entry in folder.read_dir()? {
        let path = entry?.path();
        if path.is_dir() {
            found.extend(files(&path, ending)?);
        } else if path.extension().is_some_and(|it| it == ending) {
            found.push(path);
        }
    }
    found.sort_unstable();
    Ok(found)
}

/// The sheets of a folder and below it.
///
/// # Errors
/// Where a folder cannot be read.
pub fn sheets(folder: &Path) -> io::Result<Vec<PathBuf>> {
    files(folder, SHEET)
}

/// The reports of a folder and below it.
///
/// # Errors
/// Where a folder cannot be read.
pub fn reports(folder: &Path) -> io::Result<Vec<PathBuf>> {
    files(folder, REPORT)
}

/// The sheets in the shorter form of a folder and below it.
///
/// # Errors
/// Where a folder cannot be read.
pub fn shorts(folder: &Path) -> io::Result<Vec<PathBuf>> {
    files(folder, SHORT)
}

/// Where the report of a sheet of either form stands.
#[must_use]
pub fn report_path(sheet: &Path) -> PathBuf {
    sheet.with_extension(REPORT)
}

/// What `plotreport` prints of the sheet in a file: by rules 1 the Rust's answers.
///
/// # Errors
/// Where the file cannot be read.
pub fn report(sheet: &Path) -> io::Result<Vec<u8>> {
    Ok(plotreport(&std::fs::read(sheet)?))
}

/// Where the sheet stands in the shorter form.
#[must_use]
pub fn short_path(sheet: &Path) -> PathBuf {
    sheet.with_extension(SHORT)
}

/// The sheet of a file in the other form; none of one that is refused.
///
/// # Errors
/// Where the file cannot be read.
pub fn turned(sheet: &Path) -> io::Result<Option<Vec<u8>>> {
    let sheet = Sheet::turned(&std::fs::read(sheet)?, Limits::PROGRAM);
    Ok(match sheet {
        Sheet::Sound(_, text) => Some(text),
        _ => None,
    })
}
