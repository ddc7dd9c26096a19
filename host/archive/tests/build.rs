//! What a build says where something is missing or is another's, and that an archive is
//! made once where two builds need it.

use std::fs;
use std::io;
use std::os::unix::fs::PermissionsExt;
use std::path::{Path, PathBuf};
use std::thread;

use archive::Build;
use archive::identity::{self, Identity};

/// A folder of a test's own, empty.
fn scratch(name: &str) -> io::Result<PathBuf> {
    let folder = Path::new(env!("CARGO_TARGET_TMPDIR")).join(name);
    let _ = fs::remove_dir_all(&folder);
    fs::create_dir_all(&folder)?;
    Ok(folder)
}

/// What stands for the repository: sources, the kit's name, and a build that appends to a
/// file, works for a while and writes what it should.
fn repository(folder: &Path) -> io::Result<PathBuf> {
    const BUILD: &str = "#!/bin/sh\n\
        cd \"$(dirname \"$0\")/..\"\n\
        echo run >> runs\n\
        echo 'rt: core: begins'\n\
        sleep 0.3\n\
        test -f broken && echo 'not proved' && exit 1\n\
        echo code > target/staticlib/lib$1.a\n\
        cp told target/staticlib/lib$1.id\n";
    let root = folder.join("repository");
    for inner in ["crates/core/src", "crates/core/out", "tools"] {
        fs::create_dir_all(root.join(inner))?;
    }
    for (name, text) in [
        ("crates.txt", "core:\n"),
        ("crates/core/src/lib.rt", "fn one() {}\n"),
        ("crates/core/out/kept.rt", "kept\n"),
        ("tools/kit", "some kit 1\n"),
        ("tools/build", BUILD),
        ("code", "code\n"),
    ] {
        fs::write(root.join(name), text)?;
    }
    fs::set_permissions(root.join("tools/build"), fs::Permissions::from_mode(0o755))?;
    write_told(&root)?;
    Ok(root)
}

/// The identity that the build writes: of the sources as they stand.
fn write_told(root: &Path) -> io::Result<()> {
    let crates = identity::of_sources(root)?;
    let sha256 = identity::of_file(&root.join("code"))?;
    let text = format!("interface=2\ncrates={crates}\nkit=some kit 1\nsha256={sha256}\n");
    fs::write(root.join("told"), text)
}

/// A build of the repository, with an `rt` to be found.
fn build(root: &Path) -> io::Result<Build> {
    let programs = root.join("programs");
    fs::create_dir_all(&programs)?;
    fs::write(programs.join("rt"), "")?;
    Ok(Build {
        given: None,
        root: Some(root.to_path_buf()),
        package: root.to_path_buf(),
        path: programs.into_os_string(),
        target: ["x86_64", "linux"].map(str::to_string),
    })
}

fn refused(build: &Build) -> String {
    build.archive("capi").err().unwrap_or_default()
}

fn runs(root: &Path) -> usize {
    let runs = fs::read_to_string(root.join("runs")).unwrap_or_default();
    runs.lines().count()
}

#[test]
fn an_archive_is_made_once_and_again_when_sources_change() -> io::Result<()> {
    let root = repository(&scratch("made")?)?;
    let build = build(&root)?;
    let wanted = root.join("target/staticlib/libcapi.a");
    for _ in 0..3 {
        assert_eq!(build.archive("capi"), Ok(wanted.clone()));
        assert_eq!(runs(&root), 1);
    }
    // what rt keeps is no source, and neither are times
    fs::write(root.join("crates/core/out/kept.rt"), "other\n")?;
    fs::write(root.join("crates/core/src/lib.rt"), "fn one() {}\n")?;
    assert_eq!(build.archive("capi"), Ok(wanted.clone()));
    assert_eq!(runs(&root), 1);

    fs::write(root.join("crates/core/src/lib.rt"), "fn two() {}\n")?;
    write_told(&root)?;
    assert_eq!(build.archive("capi"), Ok(wanted.clone()));
    assert_eq!(runs(&root), 2);
    fs::write(&wanted, "other code\n")?;
    assert_eq!(build.archive("capi"), Ok(wanted));
    assert_eq!(runs(&root), 3);
    Ok(())
}

#[test]
fn two_builds_at_once_make_it_once() -> io::Result<()> {
    let root = repository(&scratch("at_once")?)?;
    let build = build(&root)?;
    thread::scope(|scope| {
        let builds = [(); 4].map(|()| scope.spawn(|| build.archive("capi").is_ok()));
        let made = builds.map(|it| it.join().unwrap_or(false));
        assert_eq!(made, [true; 4]);
    });
    assert_eq!(runs(&root), 1);
    Ok(())
}

#[test]
fn a_failed_proof_is_told_with_its_last_lines() -> io::Result<()> {
    let root = repository(&scratch("failed")?)?;
    fs::write(root.join("broken"), "")?;
    let said = refused(&build(&root)?);
    assert!(said.starts_with("`tools/build capi` failed; "), "{said}");
    assert!(said.ends_with("rt: core: begins\nnot proved"), "{said}");
    Ok(())
}

/// The folder of archives of a repository's build, named as a user does.
fn given(name: &str) -> io::Result<(PathBuf, Build)> {
    let root = repository(&scratch(name)?)?;
    let mut build = build(&root)?;
    assert!(build.archive("capi").is_ok());
    build.given = Some(root.join("target/staticlib"));
    build.path = "/nowhere".into();
    assert!(build.archive("capi").is_ok());
    Ok((root, build))
}

#[test]
fn what_is_missing_is_told_and_what_to_set() -> io::Result<()> {
    let (root, build) = given("missing")?;
    let archives = root.join("target/staticlib");
    fs::remove_file(archives.join("libcapi.id"))?;
    let said = refused(&build);
    assert!(
        said.contains("no libcapi.id") && said.contains("tools/identity"),
        "{said}"
    );
    fs::remove_file(archives.join("libcapi.a"))?;
    let wanted = format!("there is no libcapi.a in {}", archives.display());
    assert_eq!(refused(&build), wanted);

    let mut other = build.clone();
    other.given = None;
    let said = refused(&other);
    assert!(said.starts_with("`rt` is not found"), "{said}");
    assert!(
        said.contains("some kit 1") && said.contains("DUSTROUTE_ARCHIVES"),
        "{said}"
    );
    other.root = None;
    let said = refused(&other);
    assert!(
        said.contains("not beside this crate") && said.contains("DUSTROUTE_ARCHIVES"),
        "{said}"
    );
    other.given = Some("archives".into());
    let said = refused(&other);
    assert!(
        said.starts_with("DUSTROUTE_ARCHIVES is `archives`"),
        "{said}"
    );
    other.target = ["aarch64", "macos"].map(str::to_string);
    let said = refused(&other);
    assert!(said.ends_with("for aarch64 and macos"), "{said}");
    Ok(())
}

#[test]
fn another_archive_is_refused() -> io::Result<()> {
    let (root, build) = given("another")?;
    let archives = root.join("target/staticlib");
    fs::write(archives.join("libcapi.a"), "other code\n")?;
    let said = refused(&build);
    assert!(said.contains("is not the archive of which"), "{said}");
    fs::write(archives.join("libcapi.a"), "code\n")?;
    assert!(build.archive("capi").is_ok());

    fs::write(root.join("tools/kit"), "some kit 2\n")?;
    let said = refused(&build);
    assert!(
        said.starts_with("libcapi.a was made by the kit some kit 1"),
        "{said}"
    );
    fs::write(root.join("crates/core/src/lib.rt"), "fn two() {}\n")?;
    let said = refused(&build);
    assert!(
        said.starts_with("libcapi.a was made of sources with the sum"),
        "{said}"
    );
    Ok(())
}

/// A crate without the repository: by the identity that was handed on with it.
#[test]
fn a_crate_that_was_handed_on_takes_its_own_archive() -> io::Result<()> {
    let (root, mut build) = given("handed_on")?;
    build.root = None;
    assert!(build.archive("capi").is_ok(), "nothing is known of it");
    let own = fs::read_to_string(root.join("target/staticlib/libcapi.id"))?;
    fs::write(root.join(archive::BESIDE), &own)?;
    assert!(build.archive("capi").is_ok());
    let other = own.replace("kit=some kit 1", "kit=some kit 2");
    fs::write(root.join(archive::BESIDE), other)?;
    let said = refused(&build);
    assert!(
        said.starts_with("libcapi.a is of another version"),
        "{said}"
    );

    // a release has its archive at a known place
    fs::write(root.join(archive::BESIDE), &own)?;
    let release = root.join("release");
    let [lib, package] = ["lib", "crate/dustroute"].map(|name| release.join(name));
    fs::create_dir_all(&lib)?;
    fs::create_dir_all(&package)?;
    fs::copy(root.join("core.id"), package.join("core.id"))?;
    build.given = None;
    build.package = package;
    assert!(refused(&build).contains("not beside this crate"));
    for name in ["libcapi.a", "libcapi.id"] {
        fs::copy(root.join("target/staticlib").join(name), lib.join(name))?;
    }
    let found = build.archive("capi").map(|path| path.canonicalize().ok());
    assert_eq!(found, Ok(lib.join("libcapi.a").canonicalize().ok()));
    Ok(())
}

/// The sums here and by the script are the same.
#[test]
fn the_script_says_the_same() -> io::Result<()> {
    let Some(root) = identity::repository() else {
        return Ok(());
    };
    if std::process::Command::new("rt")
        .arg("version")
        .output()
        .is_err()
    {
        println!("skipped: no rt");
        return Ok(());
    }
    let folder = scratch("script")?;
    fs::write(folder.join("libcapi.a"), "code\n")?;
    let script = root.join("tools/identity");
    let status = std::process::Command::new(script)
        .arg(folder.join("libcapi.a"))
        .status()?;
    assert!(status.success());
    let wanted = Identity {
        crates: identity::of_sources(&root)?,
        kit: identity::kit(&root)?,
        sha256: identity::of_file(&folder.join("libcapi.a"))?,
    };
    assert_eq!(Identity::read(&folder.join("libcapi.id")), Some(wanted));
    Ok(())
}
