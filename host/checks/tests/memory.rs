//! A host in C, by the header alone; and that host and one in Rust under
//! valgrind: no byte beside a slice is touched, nothing is allocated by the
//! library, nothing is lost.

use std::env;
use std::path::{Path, PathBuf};
use std::process::{Command, Output};

fn root() -> PathBuf {
    Path::new(env!("CARGO_MANIFEST_DIR")).join("../..")
}

/// The folder of the archive that the build linked.
fn archives() -> PathBuf {
    let given = env::var_os("DUSTROUTE_ARCHIVES").map(PathBuf::from);
    given.unwrap_or_else(|| root().join("target/staticlib"))
}

/// What a command says; none where there is no such program.
fn run(command: &mut Command) -> Option<Output> {
    command.output().ok()
}

fn text(output: &Output) -> String {
    let [out, errors] =
        [&output.stdout, &output.stderr].map(|bytes| String::from_utf8_lossy(bytes).into_owned());
    out + &errors
}

/// A C host of `examples/`, compiled; none without a C compiler.
fn c_host(source: &str, name: &str) -> Option<PathBuf> {
    let program = Path::new(env!("CARGO_TARGET_TMPDIR")).join(name);
    let compiled = run(Command::new("cc")
        .args([
            "-std=c99",
            "-g",
            "-Wall",
            "-Wextra",
            "-Wpedantic",
            "-Werror",
        ])
        .arg("-I")
        .arg(root().join("include"))
        .arg("-o")
        .arg(&program)
        .arg(root().join("examples").join(source))
        .arg(archives().join("libcapi.a")));
    let Some(output) = compiled else {
        println!("skipped: no C compiler (cc)");
        return None;
    };
    assert!(output.status.success(), "{}", text(&output));
    Some(program)
}

/// A run under valgrind's memcheck, which ends with an error where it found
/// one; none without valgrind.
fn checked(program: &Path, arguments: &[&str]) -> Option<String> {
    let output = run(Command::new("valgrind")
        .args(["--error-exitcode=1", "--leak-check=full"])
        .arg(program)
        .args(arguments));
    let Some(output) = output else {
        println!("skipped: no valgrind");
        return None;
    };
    let said = text(&output);
    assert!(output.status.success(), "{said}");
    assert!(said.contains("ERROR SUMMARY: 0 errors"), "{said}");
    Some(said)
}

#[test]
fn a_host_in_c() {
    let Some(program) = c_host("worked.c", "worked") else {
        return;
    };
    for arguments in [&[][..], &["heap"]] {
        let output = run(Command::new(&program).args(arguments));
        let said = output.as_ref().map(text).unwrap_or_default();
        assert!(output.is_some_and(|it| it.status.success()), "{said}");
        assert_eq!(said, "all answers are as they must be\n");
    }
}

/// The host itself allocates nothing, so all that is counted would be the
/// library's.
#[test]
fn a_host_in_c_under_valgrind() {
    let Some(program) = c_host("worked.c", "worked_under_valgrind") else {
        return;
    };
    if let Some(said) = checked(&program, &[]) {
        assert!(said.contains("total heap usage: 0 allocs"), "{said}");
        println!("a host in C: no error, no allocation");
    }
    if let Some(said) = checked(&program, &["heap"]) {
        assert!(said.contains("no leaks are possible"), "{said}");
        println!("a host in C, slices of the heap: no error, no leak");
    }
}

/// A host that allocates nothing, run alone and under valgrind.
fn hold_host(source: &str, name: &str) {
    let Some(program) = c_host(source, name) else {
        return;
    };
    let output = run(&mut Command::new(&program));
    let said = output.as_ref().map(text).unwrap_or_default();
    assert!(output.is_some_and(|it| it.status.success()), "{said}");
    assert_eq!(said, "all answers are as they must be\n");
    if let Some(said) = checked(&program, &[]) {
        assert!(said.contains("total heap usage: 0 allocs"), "{said}");
    }
}

#[test]
fn questions_in_c_under_valgrind() {
    hold_host("questions.c", "questions");
}

#[test]
fn a_held_plot_in_c_under_valgrind() {
    hold_host("held.c", "held");
}

#[test]
fn the_rules_in_c_under_valgrind() {
    hold_host("rules.c", "rules");
}

#[test]
fn sheets_in_c_under_valgrind() {
    hold_host("sheets.c", "sheets");
}

#[test]
fn a_host_in_rust_under_valgrind() {
    let program = Path::new(env!("CARGO_BIN_EXE_memory"));
    if let Some(said) = checked(program, &[]) {
        assert!(
            said.contains("definitely lost: 0 bytes") || said.contains("no leaks are possible"),
            "{said}"
        );
        println!("a host in Rust: no error, no leak");
    }
}
