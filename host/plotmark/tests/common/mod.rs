//! The sheets that tests are run on, and a report read into numbers.

#![allow(dead_code, reason = "each test takes what it needs")]

use std::collections::{BTreeMap, BTreeSet};
use std::fs;
use std::io;
use std::path::{Path, PathBuf};

/// The repository's examples.
pub fn examples() -> PathBuf {
    Path::new(env!("CARGO_MANIFEST_DIR")).join("../../examples")
}

/// This crate's own sheets.
pub fn own() -> PathBuf {
    Path::new(env!("CARGO_MANIFEST_DIR")).join("tests/sheets")
}

/// The sheets of a folder with one of these endings, by name.
pub fn sheets(folder: &Path, endings: &[&str]) -> io::Result<Vec<PathBuf>> {
    let mut found = Vec::new();
    for entry in folder.read_dir()? {
        let path = entry?.path();
        let ending = path.extension().unwrap_or_default();
        if endings.iter().any(|it| ending == *it) {
            found.push(path);
        }
    }
    found.sort_unstable();
    Ok(found)
}

/// All sheets that are marked: the examples of both forms, and this crate's own.
pub fn marked_sheets() -> io::Result<Vec<PathBuf>> {
    let mut found = sheets(&examples(), &["sheet", "short"])?;
    found.extend(sheets(&own(), &["sheet"])?);
    Ok(found)
}

/// The name of a file without its folder.
pub fn name(path: &Path) -> String {
    path.file_name()
        .unwrap_or_default()
        .to_string_lossy()
        .into_owned()
}

/// Holds a text to the file beside this test that was looked at; false where there is
/// none yet. Where `PLOTMARK_RECORD` is set the file is written.
pub fn hold(folder: &str, file: &str, text: &str) -> io::Result<bool> {
    let folder = Path::new(env!("CARGO_MANIFEST_DIR"))
        .join("tests")
        .join(folder);
    let path = folder.join(file);
    if std::env::var_os("PLOTMARK_RECORD").is_some() {
        fs::create_dir_all(folder)?;
        fs::write(&path, text)?;
        return Ok(true);
    }
    let Ok(wanted) = fs::read_to_string(&path) else {
        println!("{file} is not recorded: look at it, and set PLOTMARK_RECORD=1");
        return Ok(false);
    };
    for (place, (given, wanted)) in (1..).zip(text.lines().zip(wanted.lines())) {
        assert_eq!(given, wanted, "{}, line {place}", path.display());
    }
    assert!(text == wanted, "{}: not as long", path.display());
    Ok(true)
}

/// A report, by its numbers.
#[derive(Debug, Default)]
pub struct Report {
    /// By id: net, fragment, region, drive, potential.
    pub components: BTreeMap<u64, [u64; 5]>,
    pub kept: usize,
    /// `cyclic` and `has_drive` of each region.
    pub regions: Vec<[u64; 2]>,
    /// Ids of sources that are no places for an input.
    pub drives: BTreeSet<u64>,
    pub inputs: Vec<Verdict>,
    pub unread: Vec<u64>,
}

/// A verdict of a report, or of the words.
#[derive(Clone, Debug, Eq, Ord, PartialEq, PartialOrd)]
pub struct Verdict {
    pub device: u64,
    pub status: u64,
    pub immediate: BTreeSet<u64>,
    pub inferred: BTreeSet<u64>,
}

/// Reads values one after the other.
struct Values<'a>(std::str::Lines<'a>);

impl<'a> Values<'a> {
    fn text(&mut self) -> Option<&'a str> {
        self.0.next()?.split_once('=').map(|(_, value)| value)
    }

    fn number(&mut self) -> Option<u64> {
        self.text()?.parse().ok()
    }

    fn numbers<const N: usize>(&mut self) -> Option<[u64; N]> {
        let mut found = [0; N];
        for it in &mut found {
            *it = self.number()?;
        }
        Some(found)
    }

    fn ids(&mut self) -> Option<BTreeSet<u64>> {
        let ids = self.text()?.split_whitespace();
        ids.map(|id| id.parse().ok()).collect()
    }

    fn rows<const N: usize>(&mut self) -> Option<Vec<[u64; N]>> {
        let count = self.number()?;
        (0..count).map(|_| self.numbers()).collect()
    }
}

impl Report {
    /// Of the text that the core writes.
    pub fn of(text: &str) -> Option<Self> {
        let mut values = Values(text.lines());
        let answer = values.number()?;
        assert_eq!(answer, 0);
        let components = values.rows::<6>()?.into_iter();
        let components = components.map(|[id, rest @ ..]| (id, rest));
        let components = components.collect();
        let kept = values.rows::<6>()?.len();
        let regions = values.rows::<2>()?;
        let sources = values.rows::<2>()?.into_iter();
        let drives = sources
            .filter(|[_, kind]| *kind != 3)
            .map(|[id, _]| id)
            .collect();
        let count = values.number()?;
        let inputs = (0..count).map(|_| {
            let [device, _, status] = values.numbers()?;
            Some(Verdict {
                device,
                status,
                immediate: values.ids()?,
                inferred: values.ids()?,
            })
        });
        let inputs = inputs.collect::<Option<_>>()?;
        let unread = values.rows::<1>().unwrap_or_default();
        Some(Self {
            components,
            kept,
            regions,
            drives,
            inputs,
            unread: unread.into_iter().flatten().collect(),
        })
    }
}
