//! The two forms of a sheet: in the old one each number has a line, in the
//! shorter one each record.

use std::fmt::Write;

use super::{
    COMPONENT_KEYS, CONNECTION_KEYS, COUNT_KEYS, FRONTIER_KEYS, lists, push_count, push_list,
};
use crate::Scene;
use crate::limits::RULES_OF_THE_RUST;

/// The number of the shorter form in its line `sheet=`.
pub const SHORT: i64 = 2;

/// The keys of the lines that come before the lists.
pub const FORM_KEY: &str = "sheet";
pub const RULES_KEY: &str = "rules";

/// What a record's line begins with in the shorter form, in the order of the
/// lists.
pub const LETTERS: [&str; 3] = ["c", "n", "f"];

/// The keys of a record's lines in the old form, in the order of the lists.
pub const KEYS: [&[&str]; 3] = [&COMPONENT_KEYS, &CONNECTION_KEYS, &FRONTIER_KEYS];

#[derive(Clone, Copy, Debug, Eq, Hash, PartialEq)]
pub enum Form {
    Old,
    Short,
}

impl Form {
    pub const ALL: [Self; 2] = [Self::Old, Self::Short];

    /// 1 or 2.
    #[must_use]
    pub const fn number(self) -> u64 {
        match self {
            Self::Old => 1,
            Self::Short => 2,
        }
    }

    #[must_use]
    pub const fn other(self) -> Self {
        match self {
            Self::Old => Self::Short,
            Self::Short => Self::Old,
        }
    }
}

/// The line of the rules. Writing to a string cannot fail.
fn push_rules(text: &mut String, rules: i64) {
    let _ = writeln!(text, "{RULES_KEY}={rules}");
}

/// The lines before the lists; an old sheet leaves out rules 1.
fn push_head(text: &mut String, form: Form, rules: i64) {
    if form == Form::Short {
        let _ = writeln!(text, "{FORM_KEY}={SHORT}");
    }
    if form == Form::Short || rules != RULES_OF_THE_RUST {
        push_rules(text, rules);
    }
}

fn push_records(text: &mut String, letter: &str, width: usize, numbers: &[i64]) {
    for record in numbers.chunks(width) {
        let record: Vec<String> = record.iter().map(i64::to_string).collect();
        let _ = writeln!(text, "{letter}={}", record.join(","));
    }
}

/// The sheet of a scene in a form, under the rules of a number, which may be any.
#[must_use]
pub fn write_form(form: Form, rules: i64, scene: &Scene) -> Vec<u8> {
    let mut text = String::new();
    push_head(&mut text, form, rules);
    for (list, numbers) in lists(scene).into_iter().enumerate() {
        let (count_key, keys) = (COUNT_KEYS[list], KEYS[list]);
        match form {
            Form::Old => push_list(&mut text, count_key, keys, numbers),
            Form::Short => {
                push_count(&mut text, count_key, numbers.len() / keys.len());
                push_records(&mut text, LETTERS[list], keys.len(), numbers);
            }
        }
    }
    text.into_bytes()
}

/// An old sheet that spells out its rules, `rules=1` too.
#[must_use]
pub fn spelled_out(rules: i64, scene: &Scene) -> Vec<u8> {
    let mut text = String::new();
    push_rules(&mut text, rules);
    let lists = write_form(Form::Old, RULES_OF_THE_RUST, scene);
    [text.into_bytes(), lists].concat()
}

/// "There and back yields the sheet's own bytes, save that an old sheet that
/// spells out `rules=1` loses that line."
#[must_use]
pub fn there_and_back(text: &[u8]) -> &[u8] {
    text.strip_prefix(b"rules=1\n").unwrap_or(text)
}
