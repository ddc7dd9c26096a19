//! The recorded answers are those that the unchanged Rust gives today.

use std::path::PathBuf;

use scenes::Profile;

/// All files together stay small enough to be kept beside the sources.
const MOST_BYTES: usize = 2 * 1024 * 1024;

fn folder() -> PathBuf {
    PathBuf::from(env!("CARGO_MANIFEST_DIR")).join("../recorded")
}

/// The first line in which two texts differ, from 1.
fn first_difference(left: &str, right: &str) -> usize {
    let same = left.lines().zip(right.lines());
    1 + same.take_while(|(left, right)| left == right).count()
}

#[test]
fn the_files_are_what_the_rust_answers() {
    let (mut bytes, mut scenes) = (0, 0);
    for profile in Profile::ALL {
        let name = record::file_name(profile);
        let kept = std::fs::read_to_string(folder().join(&name))
            .unwrap_or_else(|fault| panic!("{name}: {fault}"));
        let wanted = record::text(profile);
        let line = first_difference(&kept, &wanted);
        assert!(kept == wanted, "{name} differs from line {line} on");
        bytes += kept.len();
        scenes += record::seeds(profile);
    }
    println!("{scenes} recorded scenes, {bytes} bytes");
    assert!(bytes <= MOST_BYTES);
}
