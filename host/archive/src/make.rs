//! Has an archive made, with a word of how far it is.

use std::env;
use std::ffi::OsStr;
use std::fs::{self, File};
use std::io::{self, BufRead, BufReader, Write};
use std::path::{Path, PathBuf};
use std::process::{Command, Stdio};
use std::time::Instant;

use crate::identity::{self, Identity};
use crate::{FOLDER, beside};

/// What an archive is made from, in the repository's root.
const SOURCES: [&str; 3] = ["crates", "crates.txt", identity::KIT];

/// The repository's folder of archives, in which this one is up to date.
pub fn current(name: &str, root: &Path, path: &OsStr) -> Result<PathBuf, String> {
    for source in SOURCES {
        println!("cargo::rerun-if-changed={}", root.join(source).display());
    }
    let folder = root.join("target/staticlib");
    let plain = |fault: io::Error| format!("{}: {fault}", folder.display());
    fs::create_dir_all(&folder).map_err(plain)?;
    let lock = File::create(folder.join(".lock")).map_err(plain)?;
    if lock.try_lock().is_err() {
        told("dustroute: another build is proving here; waiting for it");
        lock.lock().map_err(plain)?;
    }
    if !is_current(&folder.join(format!("lib{name}.a")), root) {
        is_there("rt", path).map_err(|()| without_rt(name, root))?;
        make(name, root, &folder.join(format!("lib{name}.log")))?;
    }
    Ok(folder)
}

/// Whether an archive was made of the sources as they stand. What their times are does not
/// matter.
fn is_current(archive: &Path, root: &Path) -> bool {
    let Some(found) = Identity::read(&beside(archive)) else {
        return false;
    };
    let is_now = |now: io::Result<String>, then: &str| now.is_ok_and(|now| now == then);
    is_now(identity::of_file(archive), &found.sha256)
        && is_now(identity::kit(root), &found.kit)
        && is_now(identity::of_sources(root), &found.crates)
}

/// Whether a program is found by its name.
fn is_there(program: &str, path: &OsStr) -> Result<(), ()> {
    let mut folders = env::split_paths(path);
    let is_found = folders.any(|folder| folder.join(program).is_file());
    is_found.then_some(()).ok_or(())
}

fn without_rt(name: &str, root: &Path) -> String {
    let kit = identity::kit(root).unwrap_or_default();
    format!(
        "`rt` is not found, by which the library is proved and lib{name}.a is made;\n\
         put the Rattle kit ({kit}) on the PATH,\n\
         or set {FOLDER} to the whole path of a folder with lib{name}.a and lib{name}.id of this version"
    )
}

/// Proves a library and writes its archive and identity.
fn make(name: &str, root: &Path, log: &Path) -> Result<(), String> {
    told(&format!(
        "dustroute: proving {name} and what it is made of, some minutes the first time (see {})",
        log.display()
    ));
    let start = Instant::now();
    let proved = run(name, root, log);
    if !proved.map_err(|it| format!("tools/build: {it}"))? {
        let text = fs::read_to_string(log).unwrap_or_default();
        let lines: Vec<&str> = text.lines().collect();
        let rest = lines.get(lines.len().saturating_sub(12)..);
        return Err(format!(
            "`tools/build {name}` failed; {} ends with\n{}",
            log.display(),
            rest.unwrap_or_default().join("\n")
        ));
    }
    let seconds = start.elapsed().as_secs();
    println!("cargo::warning=proved {name} and made its archive in {seconds} seconds");
    Ok(())
}

/// Whether `tools/build` did its work. What it says goes to a file, and as far as it is a
/// word of how far it is to the terminal.
fn run(name: &str, root: &Path, log: &Path) -> io::Result<bool> {
    let mut file = File::create(log)?;
    let (said, out) = io::pipe()?;
    let mut build = Command::new(root.join("tools/build"));
    let build = build.arg(name).stdin(Stdio::null());
    let mut child = build.stdout(out.try_clone()?).stderr(out).spawn()?;
    build.stdout(Stdio::null()).stderr(Stdio::null());
    for line in BufReader::new(said).split(b'\n') {
        let line = line?;
        file.write_all(&line)?;
        file.write_all(b"\n")?;
        let line = String::from_utf8_lossy(&line);
        if is_progress(&line) {
            told(&format!("dustroute: {}", line.trim_end()));
        }
    }
    Ok(child.wait()?.success())
}

/// Lines of `rt` that tell how far it is, or that it has begun with a crate.
fn is_progress(line: &str) -> bool {
    let is_start = line.starts_with("rt: ") && !line.contains("note:");
    is_start || line.starts_with("so far: ")
}

/// Cargo keeps what a build script says, so that the terminal is written to, if there is
/// one.
fn told(line: &str) {
    let terminal = File::options().write(true).open("/dev/tty");
    if let Ok(mut terminal) = terminal {
        let _ = writeln!(terminal, "{line}");
    }
}
