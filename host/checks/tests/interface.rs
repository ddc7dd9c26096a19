//! The interface number: an archive whose arguments, sizes or meanings are others
//! than those of the header fails when it is linked, and not when it is called.

use std::fs;
use std::io;
use std::path::{Path, PathBuf};
use std::process::{Command, Output};

const ROOT: &str = concat!(env!("CARGO_MANIFEST_DIR"), "/../..");

/// The function of the present interface.
const PRESENT: &str = "dustroute_interface_2";

/// A host that includes the header and calls nothing.
const SILENT: &str = "#include \"dustroute.h\"\nint main(void) { return 0; }\n";

/// A host that includes the header and calls an entry with any rules.
const CALLING: &str = "#include \"dustroute.h\"\n\
    int main(void) {\n\
        uint8_t none[1] = {0};\n\
        uint64_t answer = dustroute_groups(0, none, 0, none, 0, none, 0, none, 0);\n\
        return dustroute_interface_2() == DUSTROUTE_INTERFACE && answer == (11 | 3 << 8) ? 0 : 1;\n\
    }\n";

/// A host of the interface before this one.
const OLD: &str = "#include <stdint.h>\n\
    uint64_t dustroute_interface_1(void);\n\
    int main(void) { return dustroute_interface_1() == 1 ? 0 : 1; }\n";

/// An archive of the interface before this one: entries without rules.
const STALE: &str = "#include <stdint.h>\n\
    uint64_t dustroute_interface_1(void) { return 1; }\n\
    uint64_t dustroute_groups(void) { return 0; }\n";

fn scratch(name: &str) -> PathBuf {
    Path::new(env!("CARGO_TARGET_TMPDIR")).join(name)
}

/// A source of this text, in a file of this name.
fn source(name: &str, text: &str) -> io::Result<PathBuf> {
    let path = scratch(name);
    fs::write(&path, text)?;
    Ok(path)
}

/// The archive that the build linked.
fn archive() -> PathBuf {
    let given = std::env::var_os("DUSTROUTE_ARCHIVES").map(PathBuf::from);
    let folder = given.unwrap_or_else(|| Path::new(ROOT).join("target/staticlib"));
    folder.join("libcapi.a")
}

fn said(output: &Output) -> String {
    String::from_utf8_lossy(&output.stderr).into_owned()
}

/// Whether there is such a program; words for what is skipped without it.
fn is_there(program: &str) -> bool {
    let there = Command::new(program).arg("--version").output().is_ok();
    if !there {
        println!("skipped: no {program}");
    }
    there
}

/// The host compiled and linked with an archive.
fn linked(
    compiler: &str,
    flags: &[&str],
    host: &Path,
    archive: &Path,
    program: &Path,
) -> io::Result<Output> {
    Command::new(compiler)
        .args(["-std=c99", "-Wall", "-Wextra", "-Wpedantic", "-Werror"])
        .args(flags)
        .arg("-I")
        .arg(Path::new(ROOT).join("include"))
        .arg("-o")
        .args([program, host, archive])
        .output()
}

/// An archive of the C source.
fn archived(name: &str, text: &str) -> io::Result<PathBuf> {
    let [object, archive] = ["o", "a"].map(|ending| scratch(&format!("{name}.{ending}")));
    let file = source(&format!("{name}.c"), text)?;
    let compiled = Command::new("cc")
        .arg("-c")
        .arg("-o")
        .args([&object, &file])
        .output()?;
    assert!(compiled.status.success(), "{}", said(&compiled));
    let _ = fs::remove_file(&archive);
    let packed = Command::new("ar")
        .arg("rcs")
        .args([&archive, &object])
        .output()?;
    assert!(packed.status.success(), "{}", said(&packed));
    Ok(archive)
}

/// Ways to compile: plainly, and so that a linker drops what is unused.
const WAYS: [&[&str]; 3] = [
    &[],
    &["-O2"],
    &[
        "-O2",
        "-ffunction-sections",
        "-fdata-sections",
        "-Wl,--gc-sections",
    ],
];

/// Compilers that know how to keep the reference.
const COMPILERS: [&str; 2] = ["cc", "clang"];

#[test]
fn a_host_with_the_header_links_and_runs() -> io::Result<()> {
    for (name, text) in [("silent", SILENT), ("calling", CALLING)] {
        let host = source(&format!("present_{name}.c"), text)?;
        for compiler in COMPILERS.into_iter().filter(|it| is_there(it)) {
            for (way, flags) in WAYS.into_iter().enumerate() {
                let program = scratch(&format!("present_{name}_{compiler}_{way}"));
                let output = linked(compiler, flags, &host, &archive(), &program)?;
                assert!(output.status.success(), "{}", said(&output));
                let run = Command::new(&program).output()?;
                assert!(run.status.success(), "{name}, {compiler} {flags:?}");
            }
        }
    }
    Ok(())
}

/// A host of the old interface, with this archive.
#[test]
fn a_stale_host_does_not_link() -> io::Result<()> {
    if is_there("cc") {
        let host = source("stale_host.c", OLD)?;
        let output = linked("cc", &[], &host, &archive(), &scratch("stale_host"))?;
        let said = said(&output);
        assert!(!output.status.success(), "it was linked");
        assert!(said.contains("dustroute_interface_1"), "{said}");
    }
    Ok(())
}

/// A host with this header, whatever it calls, with an archive of the old
/// interface; and the same host with an archive that has the function.
#[test]
fn a_stale_archive_does_not_link() -> io::Result<()> {
    if !is_there("cc") || !is_there("ar") {
        return Ok(());
    }
    let stale = archived("stale_archive", STALE)?;
    let other = format!("{STALE}uint64_t {PRESENT}(void) {{ return 2; }}\n");
    let other = archived("other_archive", &other)?;
    for (name, text) in [("silent", SILENT), ("calling", CALLING)] {
        let host = source(&format!("fresh_{name}.c"), text)?;
        for compiler in COMPILERS.into_iter().filter(|it| is_there(it)) {
            for (way, flags) in WAYS.into_iter().enumerate() {
                let case = format!("{name}, {compiler} {flags:?}");
                let program = scratch(&format!("fresh_{name}_{compiler}_{way}"));
                let output = linked(compiler, flags, &host, &stale, &program)?;
                let said = said(&output);
                assert!(!output.status.success(), "{case}: it was linked");
                assert!(said.contains(PRESENT), "{case}: {said}");
                let output = linked(compiler, flags, &host, &other, &program)?;
                assert!(output.status.success(), "{case}: {}", self::said(&output));
            }
        }
    }
    Ok(())
}

/// The crate has the number of the header and of the function's name.
#[test]
fn the_crate_and_the_header_have_one_number() -> io::Result<()> {
    let header = fs::read_to_string(Path::new(ROOT).join("include/dustroute.h"))?;
    let number = dustroute::INTERFACE;
    assert!(header.contains(&format!("#define DUSTROUTE_INTERFACE {number}\n")));
    assert!(header.contains(&format!("uint64_t dustroute_interface_{number}(void);\n")));
    assert_eq!(PRESENT, format!("dustroute_interface_{number}"));
    assert_eq!(dustroute::interface(), number);
    Ok(())
}
