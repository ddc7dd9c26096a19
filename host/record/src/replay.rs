//! The recorded answers in the form that the program `replay` reads.

use std::fmt::Write;

use scenes::Profile;

/// A recorded text, each line as its word and how many numbers it has,
/// `word=count`, and then these, one to a line.
#[must_use]
pub fn plain(text: &str) -> String {
    let mut plain = String::with_capacity(text.len());
    for line in text.lines() {
        let mut parts = line.split(' ');
        let word = parts.next().unwrap_or_default();
        let numbers: Vec<&str> = parts.collect();
        // writing to a string cannot fail
        let _ = writeln!(plain, "{word}={}", numbers.len());
        for number in numbers {
            plain.push_str(number);
            plain.push('\n');
        }
    }
    plain
}

/// Port connections that name the cleared block 9: as the source of the first
/// wire of a row and of the second, and as the sink of the last.
const CLEARED: [&str; 3] = ["9 1 0 3 0", "9 1 1 3 0", "2 1 9 3 0"];

/// The founding case: three wires in a straight row, each feeding the next, and
/// a connection more that names a cleared block. What the entries are to say is
/// the scope paper's refusal, 7 at that connection: the Rust answers.
#[must_use]
pub fn refused() -> String {
    let row = "0 0 0 0 0 0 0 0 1 1 0 0 0 0 0 0 2 2 0 0 0 0 0 0";
    let along = "0 1 1 3 0 1 1 2 3 0";
    let scenes = CLEARED.iter().enumerate().map(|(k, cleared)| {
        format!("refused {k}\ncomponents {row}\ngiven {along} {cleared}\nrefusal 7 1 2\n")
    });
    scenes.collect()
}

/// The recorded texts of all profiles, one after the other, and the scenes that
/// are to be refused, in that form.
#[must_use]
pub fn input() -> String {
    Profile::ALL.map(|it| plain(&crate::text(it))).concat() + &plain(&refused())
}
