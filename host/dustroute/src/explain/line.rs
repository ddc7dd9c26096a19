//! What is wrong with a line of a sheet.

use super::lists::item_of;
use super::quoted;
use super::shape::{COUNTS, Expected, LAST, LETTERS, Shape, keys};
use crate::Reason;

/// The words for a line, from 0, at which a sheet was refused.
pub fn told(reason: Reason, shape: &Shape, line: usize) -> Option<String> {
    let number = line.saturating_add(1);
    let shown = shape.line(line).map(|(piece, _)| quoted(piece));
    match reason {
        Reason::BadLine => Some(misplaced(shape, line)),
        Reason::UnknownRules => Some(format!(
            "line {number} ({}): the rules that are known are 1, 2 and 3",
            shown?
        )),
        Reason::UnknownForm => Some(format!(
            "line {number} ({}): the forms that are known are `sheet=2` and the old one, which has no such line",
            shown?
        )),
        _ => None,
    }
}

fn misplaced(shape: &Shape, line: usize) -> String {
    let (number, expected) = (line.saturating_add(1), shape.expected(line));
    if shape.text.is_empty() {
        return "the sheet is empty".to_string();
    }
    if let Some(saved) = wrongly_saved(shape.text).filter(|_| line == 0) {
        return format!("line 1: the file {saved}");
    }
    let Some((piece, ended)) = shape.line(line) else {
        return format!("line {number} is missing: {}", belongs(expected, shape));
    };
    let shown = quoted(piece);
    if ended && piece.ends_with(b"\r") {
        return format!(
            "line {number} ends in CR LF, as Windows writes it; save the sheet with LF line ends"
        );
    }
    if piece.contains(&b'\r') {
        return format!("line {number} ({shown}) has a CR in it; save the sheet with LF line ends");
    }
    if expected == Expected::Nothing {
        return format!(
            "line {number} ({shown}) is one too many: by its counts the sheet ends before it"
        );
    }
    match fault(expected, piece, shape) {
        Some(fault) => format!("line {number} ({shown}): {fault}"),
        None if !ended => {
            format!("line {number} ({shown}): the last line does not end in a line feed")
        }
        None => format!("line {number} ({shown}): not the line that belongs there"),
    }
}

/// How a file was saved that is no plain text.
fn wrongly_saved(text: &[u8]) -> Option<&'static str> {
    if text.starts_with(b"\xef\xbb\xbf") {
        return Some("begins with a byte order mark; save it as UTF-8 without one");
    }
    let marked = text.starts_with(b"\xff\xfe") || text.starts_with(b"\xfe\xff");
    let wide = text.iter().take(2).any(|byte| *byte == 0);
    (marked || wide).then_some("is UTF-16; save it as UTF-8 without a byte order mark")
}

/// What belongs into a line.
fn belongs(expected: Expected, shape: &Shape) -> String {
    match expected {
        Expected::Begin => "`sheet=2`, `rules=` or `components=` belongs there".to_string(),
        Expected::Sheet => "`sheet=2` belongs there".to_string(),
        Expected::Rules => "`rules=` belongs there".to_string(),
        Expected::Count(list) => {
            let before = list
                .checked_sub(1)
                .and_then(|list| Some((list, shape.count_line(list)?)));
            let by = before.map(|(list, line)| {
                format!(
                    ", by the count of {} in line {}",
                    named(&COUNTS, list),
                    line + 1
                )
            });
            let by = by.unwrap_or_default();
            format!("`{}=` belongs there{by}", named(&COUNTS, list))
        }
        Expected::Field(list, item, key) => {
            let (name, of) = (key.name, item_of(list));
            format!("`{name}=` of {of} number {} belongs there", item + 1)
        }
        Expected::Record(list, item) => {
            let (letter, count) = (named(&LETTERS, list), keys(list).len());
            let (of, number) = (item_of(list), item + 1);
            format!("{of} number {number} belongs there, `{letter}=` with {count} numbers")
        }
        Expected::Nothing => "nothing belongs there".to_string(),
    }
}

fn named(names: &[&'static str; 3], list: usize) -> &'static str {
    names.get(list).copied().unwrap_or("?")
}

/// What is wrong with a line, its end left out.
fn fault(expected: Expected, piece: &[u8], shape: &Shape) -> Option<String> {
    let key = match expected {
        Expected::Sheet => "sheet",
        Expected::Rules => "rules",
        Expected::Count(list) => named(&COUNTS, list),
        Expected::Field(.., key) => key.name,
        Expected::Record(list, _) => named(&LETTERS, list),
        Expected::Begin | Expected::Nothing => "",
    };
    let values = piece.strip_prefix(key.as_bytes());
    let values = values.and_then(|rest| rest.strip_prefix(b"="));
    let Some(values) = values.filter(|_| !key.is_empty()) else {
        return Some(belongs(expected, shape));
    };
    match expected {
        Expected::Record(list, _) => of_record(list, values),
        Expected::Count(_) => of_number(values).or_else(|| of_count(values)),
        _ => of_number(values),
    }
}

fn of_count(value: &[u8]) -> Option<String> {
    let negative = value.starts_with(b"-");
    negative.then(|| "a count is not negative".to_string())
}

fn of_record(list: usize, values: &[u8]) -> Option<String> {
    let each = || values.split(|byte| *byte == b',');
    let mut faults = keys(list).iter().zip(each()).filter_map(|(key, value)| {
        let fault = of_number(value)?;
        Some(format!("{} ({}): {fault}", key.name, quoted(value)))
    });
    let [given, wanted] = [each().count(), keys(list).len()];
    if given == wanted {
        return faults.next();
    }
    Some(format!(
        "it has {given} numbers between commas, not {wanted}"
    ))
}

/// What is wrong with the spelling of a number.
fn of_number(value: &[u8]) -> Option<String> {
    let digits = value.strip_prefix(b"-").unwrap_or(value);
    let fault = match digits {
        [] => "a number is missing",
        _ if value.iter().any(u8::is_ascii_whitespace) => "a number has no blanks",
        [b'+', ..] => "a number has no plus",
        _ if !digits.iter().all(u8::is_ascii_digit) => "a whole number belongs there, in digits",
        [b'0', _, ..] => "the number has a leading zero",
        [b'0'] if value.len() > 1 => "0 has no minus",
        _ if is_too_large(digits) => "the number is beyond 4294967295",
        _ => return None,
    };
    Some(fault.to_string())
}

fn is_too_large(digits: &[u8]) -> bool {
    let number = std::str::from_utf8(digits).ok();
    let number = number.and_then(|digits| digits.parse::<u64>().ok());
    number.is_none_or(|number| number > LAST)
}
