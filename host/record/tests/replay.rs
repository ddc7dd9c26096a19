//! What the program `replay` reads is what the recorded answers say, in its
//! form.

use std::path::PathBuf;

use record::replay;

#[test]
fn a_line_is_its_word_its_count_and_its_numbers() {
    let text = "scene 7\ncomponents 1 -2\nfrontiers\n";
    assert_eq!(
        replay::plain(text),
        "scene=1\n7\ncomponents=2\n1\n-2\nfrontiers=0\n"
    );
}

#[test]
fn the_input_is_what_the_rust_answers() -> std::io::Result<()> {
    let path = PathBuf::from(env!("CARGO_MANIFEST_DIR")).join("../../crates/replay/stdin");
    let kept = std::fs::read_to_string(path)?;
    let wanted = replay::input();
    let same = kept.lines().zip(wanted.lines());
    let line = 1 + same.take_while(|(kept, wanted)| kept == wanted).count();
    assert!(kept == wanted, "the input differs from line {line} on");
    Ok(())
}
