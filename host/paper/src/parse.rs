//! The lines of a sheet of either form, and what they say.

use scenes::limits::{LAST_RULES, RULES_OF_THE_RUST};
use scenes::refusals::NO_LIST;
use scenes::sheets::forms::{FORM_KEY, Form, KEYS, LETTERS, RULES_KEY, SHORT};
use scenes::sheets::{COUNT_KEYS, LAST_MAGNITUDE, Limits};
use scenes::{Refusal, Scene};

/// A refusal under no list, with the line as item: 9, a line that is not as it
/// must be; 11, rules that are not known; 12, a form other than 2.
const fn at_line(number: u64, line: u64) -> Refusal {
    Refusal {
        number,
        list: NO_LIST,
        item: line,
    }
}

const BAD_LINE: u64 = 9;
const UNKNOWN_RULES: u64 = 11;
const UNKNOWN_FORM: u64 = 12;

/// 1: a count over its limit.
const fn over_limit(list: usize, limit: u64) -> Refusal {
    Refusal {
        number: 1,
        list: list as u64,
        item: limit,
    }
}

/// "No leading zero, minus only on a nonzero number, magnitude at most
/// 4,294,967,295".
fn number(value: &[u8]) -> Option<i64> {
    let (is_negative, digits) = match value.strip_prefix(b"-") {
        Some(digits) => (true, digits),
        None => (false, value),
    };
    let is_plain = digits.iter().all(u8::is_ascii_digit);
    let is_short = digits.len() == 1 || digits.first().is_some_and(|first| *first != b'0');
    if !is_plain || !is_short {
        return None;
    }
    let magnitude: i64 = std::str::from_utf8(digits).ok()?.parse().ok()?;
    let is_minus_zero = is_negative && magnitude == 0;
    let is_right = magnitude <= LAST_MAGNITUDE && !is_minus_zero;
    is_right.then_some(if is_negative { -magnitude } else { magnitude })
}

/// "The same numbers in the same order with commas between".
fn record(value: &[u8], width: usize) -> Option<Vec<i64>> {
    let numbers = value.split(|byte| *byte == b',').map(number);
    let numbers: Option<Vec<i64>> = numbers.collect();
    numbers.filter(|numbers| numbers.len() == width)
}

/// What is still to be read, and the number of its first line.
struct Lines<'a> {
    rest: &'a [u8],
    line: u64,
}

impl<'a> Lines<'a> {
    const fn fault(&self) -> Refusal {
        at_line(BAD_LINE, self.line)
    }

    /// Whether the next line has this key, as far as there is one.
    fn has_key(&self, key: &str) -> bool {
        let rest = self.rest.strip_prefix(key.as_bytes());
        rest.is_some_and(|rest| rest.starts_with(b"="))
    }

    /// What stands behind the key of the next line, which is this one.
    fn text(&mut self, key: &str) -> Result<&'a [u8], Refusal> {
        let end = self.rest.iter().position(|byte| *byte == b'\n');
        let end = end.ok_or(self.fault())?;
        let (line, rest) = (&self.rest[..end], &self.rest[end + 1..]);
        let value = line.strip_prefix(key.as_bytes());
        let value = value.and_then(|line| line.strip_prefix(b"="));
        let value = value.ok_or(self.fault())?;
        self.rest = rest;
        self.line += 1;
        Ok(value)
    }

    /// The number of the next line, which has this key.
    fn value(&mut self, key: &str) -> Result<i64, Refusal> {
        let fault = self.fault();
        number(self.text(key)?).ok_or(fault)
    }

    /// The numbers of the next record: a line to each, or one to all.
    fn record(&mut self, form: Form, list: usize) -> Result<Vec<i64>, Refusal> {
        let (fault, keys) = (self.fault(), KEYS[list]);
        match form {
            Form::Old => keys.iter().map(|key| self.value(key)).collect(),
            Form::Short => record(self.text(LETTERS[list])?, keys.len()).ok_or(fault),
        }
    }

    /// The numbers of a list: its count, and then its records.
    fn list(&mut self, form: Form, list: usize, limit: u64) -> Result<Vec<i64>, Refusal> {
        let fault = self.fault();
        let count = self.value(COUNT_KEYS[list])?;
        let count = u64::try_from(count).map_err(|_| fault)?;
        if count > limit {
            return Err(over_limit(list, limit));
        }
        let records: Result<Vec<Vec<i64>>, Refusal> =
            (0..count).map(|_| self.record(form, list)).collect();
        records.map(|records| records.concat())
    }

    /// The number of the rules.
    fn rules(&mut self) -> Result<i64, Refusal> {
        let unknown = at_line(UNKNOWN_RULES, self.line);
        let rules = self.value(RULES_KEY)?;
        if (1..=LAST_RULES).contains(&rules) {
            Ok(rules)
        } else {
            Err(unknown)
        }
    }

    /// Form and rules. "Told apart by the first line"; no rules line means 1, but
    /// the shorter form must have one.
    fn head(&mut self) -> Result<(Form, i64), Refusal> {
        let unknown = at_line(UNKNOWN_FORM, self.line);
        if self.has_key(FORM_KEY) {
            return match self.value(FORM_KEY)? {
                SHORT => Ok((Form::Short, self.rules()?)),
                _ => Err(unknown),
            };
        }
        let rules = if self.has_key(RULES_KEY) {
            self.rules()?
        } else {
            RULES_OF_THE_RUST
        };
        Ok((Form::Old, rules))
    }

    fn end(&self) -> Result<(), Refusal> {
        if self.rest.is_empty() {
            Ok(())
        } else {
            Err(self.fault())
        }
    }
}

/// What the lines of a sheet say.
#[derive(Clone, Debug, Eq, PartialEq)]
pub struct Parsed {
    pub form: Form,
    pub rules: i64,
    /// The three lists, as a scene without port connections.
    pub scene: Scene,
}

/// What a sheet says.
///
/// # Errors
/// 9, 1, 11 or 12, by whichever line is first.
pub fn parse(text: &[u8], limits: Limits) -> Result<Parsed, Refusal> {
    let limits = limits.cut();
    let mut lines = Lines {
        rest: text,
        line: 0,
    };
    let (form, rules) = lines.head()?;
    let components = lines.list(form, 0, limits.components)?;
    let connections = lines.list(form, 1, limits.connections)?;
    let frontiers = lines.list(form, 2, limits.frontiers)?;
    lines.end()?;
    let scene = Scene {
        components,
        connections,
        frontiers,
        ports: Vec::new(),
    };
    Ok(Parsed { form, rules, scene })
}
