//! For build scripts: links an archive of the proved library, and refuses another.
//!
//! In the repository the archive is `target/staticlib/libNAME.a`. It is made by
//! `tools/build NAME` unless the file `libNAME.id` beside it says that it was made of the
//! sources as they stand. An archive has no symbols but its exported functions, so two that
//! share code can be linked side by side. Where a crate links one and depends on a crate
//! that links another, cargo runs the scripts one after the other (`links`), and a lock
//! keeps two builds apart.

pub mod identity;
mod make;
pub mod sha256;

use std::env;
use std::ffi::OsString;
use std::path::{Path, PathBuf};
use std::process;

use identity::Identity;

/// The variable that names a folder of finished archives.
pub const FOLDER: &str = "DUSTROUTE_ARCHIVES";

/// What a crate that is handed on without the repository has beside its `Cargo.toml`: the
/// identity of the archive that belongs to it.
pub const BESIDE: &str = "core.id";

/// Where a release has its archives, from the folder of its crate.
const RELEASED: &str = "../../lib";

/// What a build finds around it.
#[derive(Clone, Debug)]
pub struct Build {
    /// What [`FOLDER`] is set to.
    pub given: Option<PathBuf>,
    /// The repository's root, where it is there.
    pub root: Option<PathBuf>,
    /// The folder of the crate that is built.
    pub package: PathBuf,
    /// Where programs are looked for.
    pub path: OsString,
    /// Processor and system that are built for.
    pub target: [String; 2],
}

/// Tells cargo to link `libNAME.a`, and gives the archive's path. Where it cannot be, the
/// build ends with what is missing and what to set.
///
/// Where the variable [`FOLDER`] is set, the archive is taken from there as it is, and no
/// `rt` is needed.
#[must_use]
pub fn link(name: &str) -> PathBuf {
    println!("cargo::rerun-if-env-changed={FOLDER}");
    match Build::here().archive(name) {
        Ok(archive) => {
            let folder = archive.parent().unwrap_or(Path::new("/"));
            println!("cargo::rustc-link-search=native={}", folder.display());
            println!("cargo::rustc-link-lib=static={name}");
            archive
        }
        Err(words) => {
            for line in words.lines() {
                println!("cargo::error={line}");
            }
            process::exit(1);
        }
    }
}

impl Build {
    /// As cargo and the environment tell a build script.
    #[must_use]
    pub fn here() -> Self {
        let told = |key: &str| env::var(key).unwrap_or_default();
        let path = |key: &str| env::var_os(key).map(PathBuf::from);
        Self {
            given: path(FOLDER),
            root: identity::repository(),
            package: path("CARGO_MANIFEST_DIR").unwrap_or_default(),
            path: env::var_os("PATH").unwrap_or_default(),
            target: ["CARGO_CFG_TARGET_ARCH", "CARGO_CFG_TARGET_OS"].map(told),
        }
    }

    /// The archive that is to be linked, which may have to be made.
    ///
    /// # Errors
    /// What is missing and what to set, in lines for a person.
    pub fn archive(&self, name: &str) -> Result<PathBuf, String> {
        self.is_of_this_target()?;
        let folder = match (&self.given, &self.root) {
            (Some(given), _) if given.is_relative() => return Err(is_relative(given)),
            (Some(given), _) => given.clone(),
            (None, Some(root)) => make::current(name, root, &self.path)?,
            (None, None) => self.released(name).ok_or_else(|| nowhere(name))?,
        };
        let archive = folder.join(format!("lib{name}.a"));
        println!("cargo::rerun-if-changed={}", archive.display());
        println!("cargo::rerun-if-changed={}", beside(&archive).display());
        let found = identified(&archive, name)?;
        match &self.root {
            Some(root) => is_of_sources(&found, name, root)?,
            None => self.is_of_package(&found, name)?,
        }
        Ok(archive)
    }

    /// The folder of archives of the release that the crate lies in.
    fn released(&self, name: &str) -> Option<PathBuf> {
        let folder = self.package.join(RELEASED);
        let is_there = folder.join(format!("lib{name}.a")).is_file();
        is_there.then_some(folder)
    }

    /// The archives are machine code.
    fn is_of_this_target(&self) -> Result<(), String> {
        let [arch, system] = &self.target;
        if arch == "x86_64" && system == "linux" {
            return Ok(());
        }
        Err(format!(
            "the library is machine code for x86_64 and linux, and this build is for {arch} and {system}"
        ))
    }

    /// Where a crate was handed on with the identity of its archive, it must be that one.
    fn is_of_package(&self, found: &Identity, name: &str) -> Result<(), String> {
        let path = self.package.join(BESIDE);
        println!("cargo::rerun-if-changed={}", path.display());
        match Identity::read(&path) {
            Some(wanted) if name == "capi" && wanted != *found => Err(format!(
                "lib{name}.a is of another version than this crate:\n\
                 it is the archive of {found}, and here belongs that of {wanted}"
            )),
            _ => Ok(()),
        }
    }
}

/// The file with an archive's identity.
fn beside(archive: &Path) -> PathBuf {
    archive.with_extension("id")
}

fn is_relative(given: &Path) -> String {
    format!(
        "{FOLDER} is `{}`; build scripts run elsewhere, so give the whole path, from / on",
        given.display()
    )
}

fn nowhere(name: &str) -> String {
    format!(
        "the sources of the library are not beside this crate, so that it cannot be made here;\n\
         set {FOLDER} to the whole path of a folder with lib{name}.a and lib{name}.id of the release"
    )
}

/// An archive's identity, if it is the archive that the file beside it tells of.
fn identified(archive: &Path, name: &str) -> Result<Identity, String> {
    let folder = archive.parent().unwrap_or(Path::new("/")).display();
    if !archive.is_file() {
        return Err(format!("there is no lib{name}.a in {folder}"));
    }
    let Some(found) = Identity::read(&beside(archive)) else {
        return Err(format!(
            "there is no lib{name}.id beside lib{name}.a in {folder}, which says what it is;\n\
             a release has it, and `tools/build {name}` writes it (`tools/identity` for an archive made by hand)"
        ));
    };
    let sum = identity::of_file(archive).map_err(|it| it.to_string())?;
    if sum == found.sha256 {
        return Ok(found);
    }
    Err(format!(
        "lib{name}.a in {folder} is not the archive of which lib{name}.id there tells:\n\
         its SHA-256 is {sum}, and that of the other {}",
        found.sha256
    ))
}

/// Where the sources stand beside, the archive must be made of them, by their kit.
fn is_of_sources(found: &Identity, name: &str, root: &Path) -> Result<(), String> {
    let crates = identity::of_sources(root).map_err(|it| it.to_string())?;
    let kit = identity::kit(root).map_err(|it| format!("{}: {it}", identity::KIT))?;
    for (what, found, wanted) in [
        ("of sources with the sum", &found.crates, &crates),
        ("by the kit", &found.kit, &kit),
    ] {
        if found != wanted {
            return Err(format!(
                "lib{name}.a was made {what} {found}, and here belongs {wanted};\n\
                 take the archive of this version, or unset {FOLDER} to have it made"
            ));
        }
    }
    Ok(())
}
