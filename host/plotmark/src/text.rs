//! What is told, as text for a terminal or a file.

use crate::told::{Line, Part, Told, Tone};

/// Whether to colour.
#[derive(Clone, Copy, Debug, Eq, PartialEq)]
pub enum Colours {
    /// None: for files and pipes.
    Off,
    /// As a terminal shows them.
    On,
}

/// Blanks before a line of a section, and more before each line under it.
const INDENT: usize = 2;
const UNDER: usize = 4;

const BOLD: &str = "\x1b[1m";
const END: &str = "\x1b[0m";

const fn colour(tone: Tone) -> &'static str {
    match tone {
        Tone::Good => "\x1b[32m",
        Tone::Waits => "\x1b[33m",
        Tone::Bad => "\x1b[31m",
    }
}

/// Writes all that is told, each line with its end.
#[must_use]
pub fn write(told: &Told, colours: Colours) -> String {
    let mut out = String::new();
    push(&mut out, &told.head, 0, colours);
    for section in &told.sections {
        out.push('\n');
        push_styled(&mut out, BOLD, &section.title, colours);
        out.push('\n');
        for line in &section.lines {
            push(&mut out, line, INDENT, colours);
        }
    }
    out
}

/// Writes one line with what is under it.
#[must_use]
pub fn line(told: &Line, colours: Colours) -> String {
    let mut out = String::new();
    push(&mut out, told, 0, colours);
    out
}

fn push(out: &mut String, line: &Line, indent: usize, colours: Colours) {
    out.extend(std::iter::repeat_n(' ', indent));
    for part in &line.parts {
        match part {
            Part::Plain(text) | Part::Block(_, text) => out.push_str(text),
            Part::Verdict(tone, text) => push_styled(out, colour(*tone), text, colours),
        }
    }
    out.push('\n');
    for under in &line.under {
        push(out, under, indent + UNDER, colours);
    }
}

fn push_styled(out: &mut String, style: &str, text: &str, colours: Colours) {
    match colours {
        Colours::Off => out.push_str(text),
        Colours::On => out.extend([style, text, END]),
    }
}
