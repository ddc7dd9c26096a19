//! What an archive is: of which sources, by which kit, and which bytes.

use std::fmt;
use std::fs;
use std::io;
use std::path::{Path, PathBuf};

use crate::sha256;

/// What stands in `libNAME.id`, a line to each, as `tools/identity` writes them.
#[derive(Clone, Debug, Eq, PartialEq)]
pub struct Identity {
    /// The sum over the sources of the core.
    pub crates: String,
    /// The kit, as `rt version` prints it.
    pub kit: String,
    /// The sum of the archive.
    pub sha256: String,
}

impl Identity {
    /// What a text says; none where a line is missing.
    #[must_use]
    pub fn parse(text: &str) -> Option<Self> {
        let value = |key: &str| {
            let mut values = text.lines().filter_map(|line| line.strip_prefix(key));
            values.next().map(str::to_string)
        };
        Some(Self {
            crates: value("crates=")?,
            kit: value("kit=")?,
            sha256: value("sha256=")?,
        })
    }

    /// What a file says; none where there is none such.
    #[must_use]
    pub fn read(path: &Path) -> Option<Self> {
        Self::parse(&fs::read_to_string(path).ok()?)
    }
}

impl fmt::Display for Identity {
    fn fmt(&self, out: &mut fmt::Formatter<'_>) -> fmt::Result {
        let Self {
            crates,
            kit,
            sha256,
        } = self;
        write!(out, "sources {crates}, kit {kit}, SHA-256 {sha256}")
    }
}

/// The sum of a file.
///
/// # Errors
/// Where it cannot be read.
pub fn of_file(path: &Path) -> io::Result<String> {
    fs::read(path).map(|bytes| sha256::sum(&bytes))
}

/// The sum over `crates.txt` and the files `.rt` and `.antt` below `crates/`, but for the
/// folders `out` in which `rt` keeps its work: what
///
/// ```text
/// sha256sum FILE.. | sha256sum
/// ```
///
/// prints of them in the order of their names' bytes.
///
/// # Errors
/// Where one cannot be read.
pub fn of_sources(root: &Path) -> io::Result<String> {
    let mut names = vec!["crates.txt".to_string()];
    gather(root, "crates", &mut names)?;
    names.sort_unstable();
    let mut lines = String::new();
    for name in names {
        lines += &format!("{}  {name}\n", of_file(&root.join(&name))?);
    }
    Ok(sha256::sum(lines.as_bytes()))
}

fn gather(root: &Path, folder: &str, names: &mut Vec<String>) -> io::Result<()> {
    for entry in root.join(folder).read_dir()? {
        let entry = entry?;
        let Ok(own) = entry.file_name().into_string() else {
            continue;
        };
        let name = format!("{folder}/{own}");
        if entry.file_type()?.is_dir() {
            if own != "out" {
                gather(root, &name, names)?;
            }
        } else if own.ends_with(".rt") || own.ends_with(".antt") {
            names.push(name);
        }
    }
    Ok(())
}

/// The folder of the repository, where this crate stands in it.
#[must_use]
pub fn repository() -> Option<PathBuf> {
    let root = Path::new(env!("CARGO_MANIFEST_DIR")).join("../..");
    let is_whole = root.join("crates.txt").is_file() && root.join("tools/build").is_file();
    is_whole.then_some(root)
}

/// The kit that the repository is proved with.
///
/// # Errors
/// Where the file that has it cannot be read.
pub fn kit(root: &Path) -> io::Result<String> {
    Ok(fs::read_to_string(root.join(KIT))?.trim_end().to_string())
}

/// The file with the kit's identity, from the repository's root.
pub const KIT: &str = "tools/kit";

#[cfg(test)]
mod tests {
    use super::Identity;

    #[test]
    fn every_line_is_needed() {
        let text = "interface=2\ncrates=ab\nkit=some kit 1\nsha256=cd\n";
        let wanted = Identity {
            crates: "ab".to_string(),
            kit: "some kit 1".to_string(),
            sha256: "cd".to_string(),
        };
        assert_eq!(Identity::parse(text), Some(wanted));
        for key in ["crates=", "kit=", "sha256="] {
            assert_eq!(Identity::parse(&text.replace(key, "")), None, "{key}");
        }
    }
}
