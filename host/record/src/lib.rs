//! The unchanged Rust's answers as text, one file for each profile.
//!
//! A line is a word and numbers, parted by one blank and ended by LF; the
//! README beside the files lists the words.

pub mod examples;
pub mod replay;

use std::fmt::{Display, Write};

use oracle::{Groups, Liveness};
use scenes::{Profile, Scene};

/// Scenes recorded of a profile; the seeds are those below it.
#[must_use]
pub const fn seeds(profile: Profile) -> u64 {
    match profile {
        Profile::Full => 1,
        Profile::DeepMerge | Profile::Chain => 3,
        Profile::OneCycle => 2,
        _ => 24,
    }
}

/// The file name of a profile.
#[must_use]
pub fn file_name(profile: Profile) -> String {
    format!("{}.txt", profile.name())
}

/// The whole text of a profile's file.
#[must_use]
pub fn text(profile: Profile) -> String {
    let mut text = String::new();
    for seed in 0..seeds(profile) {
        line(&mut text, "scene", [seed]);
        write_scene(&mut text, &profile.scene(seed));
    }
    text
}

/// One line. Writing to a string cannot fail.
fn line(text: &mut String, word: &str, numbers: impl IntoIterator<Item = impl Display>) {
    text.push_str(word);
    for number in numbers {
        let _ = write!(text, " {number}");
    }
    text.push('\n');
}

fn write_scene(text: &mut String, scene: &Scene) {
    line(text, "components", &scene.components);
    line(text, "connections", &scene.connections);
    line(text, "frontiers", &scene.frontiers);
    write_groups(text, &oracle::groups(&scene.components, &scene.connections));
    let kept = oracle::ports(&scene.components, &scene.connections).concat();
    for (word, ports) in [("kept", &kept), ("given", &scene.ports)] {
        line(text, word, ports);
        let answer = oracle::liveness(&scene.components, ports, &scene.frontiers);
        write_liveness(text, &answer);
    }
}

fn write_groups(text: &mut String, groups: &Groups) {
    line(text, "nets", &groups.net);
    line(text, "fragments", &groups.fragment);
    for nets in &groups.fragment_nets {
        line(text, "fragment_nets", nets);
    }
}

fn write_liveness(text: &mut String, answer: &Liveness) {
    line(text, "regions", &answer.region);
    let cyclic = answer.regions.iter().map(|it| u8::from(it.cyclic));
    line(text, "cyclic", cyclic);
    let has_drive = answer.regions.iter();
    let has_drive = has_drive.map(|it| u8::from(it.contains_drive_source));
    line(text, "has_drive", has_drive);
    line(text, "sources", answer.sources.iter().flatten());
    line(text, "drive", &answer.drive);
    line(text, "potential", &answer.potential);
    for input in &answer.inputs {
        line(text, "input", [input.device, input.port, input.status]);
        line(text, "immediate", &input.immediate);
        line(text, "inferred", &input.inferred);
    }
}
