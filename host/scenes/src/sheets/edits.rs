//! Edits of a sheet's text: of single bytes, and of its lines, each rule of
//! the format broken in turn.
//!
//! An edited sheet may still be a good one: the restatement says which.

use crate::random::Random;
use crate::sheets::COUNT_KEYS;

/// One edit. Where the text has no such place or line, nothing happens.
#[derive(Clone, Copy, Debug, Eq, PartialEq)]
pub enum Edit {
    /// A byte becomes another.
    Byte { place: usize, to: u8 },
    /// A byte is put in before a place.
    Put { place: usize, byte: u8 },
    /// A byte is left out.
    Without { place: usize },
    /// The text ends before a place.
    Cut { place: usize },
    /// The text begins at a place.
    From { place: usize },
    /// The value of a line is spelt so.
    Value { line: usize, spelling: &'static str },
    /// The value of a line grows by so much.
    Grow { line: usize, by: i64 },
    /// The key of a line is another.
    Key { line: usize, key: &'static str },
    /// One of the numbers between commas is spelt so.
    Field {
        line: usize,
        field: usize,
        spelling: &'static str,
    },
    /// One of them is left out, with its comma.
    NoField { line: usize, field: usize },
    /// What stands between key and value.
    Sign { line: usize, sign: &'static str },
    /// A line ends in something else than LF.
    End { line: usize, end: &'static str },
    /// A text is put in before a line.
    Before { line: usize, text: &'static str },
    /// A line is left out.
    NoLine { line: usize },
    /// A line comes twice.
    Twice { line: usize },
    /// A line changes places with the next.
    Swap { line: usize },
    /// A text follows the last line.
    Behind { text: &'static str },
}

/// Bytes that may matter where another belongs: digits, signs, ends of lines,
/// commas, blanks, and the first and last byte.
const BYTES: [u8; 15] = *b"0159-+=,\n\r \t\0\xffx";

/// Spellings of a value, good and bad.
const SPELLINGS: [&str; 54] = [
    "",
    "-",
    "+",
    "0",
    "1",
    "2",
    "3",
    "4",
    "9",
    "10",
    "13",
    "256",
    "257",
    "1024",
    "1025",
    "4096",
    "4097",
    "30000000",
    "30000001",
    "-30000000",
    "-30000001",
    "4294967295",
    "4294967296",
    "4294967297",
    "-4294967295",
    "-4294967296",
    "9999999999",
    "10000000000",
    "9223372036854775808",
    "18446744073709551615",
    "18446744073709551616",
    "18446744073709551617",
    "99999999999999999999999999999999999999999",
    "-1",
    "-7",
    "-0",
    "-00",
    "-01",
    "00",
    "01",
    "007",
    "0000000000000",
    "+0",
    "+1",
    "--1",
    "1-",
    " 1",
    "1 ",
    "1\t",
    "1.0",
    "1,000",
    "0x1",
    "1e3",
    "one",
];

/// Keys that are another's, or nearly right.
const KEYS: [&str; 24] = [
    "",
    "rules",
    "sheet",
    "c",
    "f",
    "id",
    "x",
    "y",
    "z",
    "kind",
    "facing",
    "support",
    "conducts",
    "source",
    "sink",
    "components",
    "connections",
    "frontiers",
    "ID",
    " id",
    "id ",
    "i",
    "ids",
    "answer",
];

const SIGNS: [&str; 6] = ["", "==", ":", " =", "= ", "\n"];

const ENDS: [&str; 7] = ["", "\r\n", "\r", " \n", "\n\n", "\0\n", ";\n"];

const BEFORE: [&str; 7] = [
    "\n",
    "\r\n",
    "x=0\n",
    "#\n",
    "\u{feff}",
    "rules=2\n",
    "sheet=2\n",
];

const BEHIND: [&str; 9] = [
    "\n",
    "x",
    "x=0",
    "x=0\n",
    "\0",
    "\r",
    " ",
    "frontiers=0\n",
    "components=0\nconnections=0\nfrontiers=0\n",
];

/// How much a value grows.
const BY: [i64; 5] = [-1, 1, 2, 255, 256];

/// The lines, each with its LF where it has one.
fn lines(text: &[u8]) -> Vec<&[u8]> {
    text.split_inclusive(|byte| *byte == b'\n').collect()
}

/// Key and value of a line, without the sign and the LF.
fn parts(line: &[u8]) -> (&[u8], &[u8]) {
    let line = line.strip_suffix(b"\n").unwrap_or(line);
    match line.iter().position(|byte| *byte == b'=') {
        Some(sign) => (&line[..sign], &line[sign + 1..]),
        None => (line, b""),
    }
}

/// A value whose numbers between commas are others: the one at a place, or none.
fn with_field(value: &[u8], place: usize, to: Option<&str>) -> Vec<u8> {
    let mut fields: Vec<&[u8]> = value.split(|byte| *byte == b',').collect();
    match to {
        _ if place >= fields.len() => {}
        Some(spelling) => fields[place] = spelling.as_bytes(),
        None => {
            fields.remove(place);
        }
    }
    fields.join(&b',')
}

fn line_of(key: &[u8], sign: &[u8], value: &[u8], end: &[u8]) -> Vec<u8> {
    [key, sign, value, end].concat()
}

/// The value as a number, a good deal below the ends of the type.
fn grown(value: &[u8], by: i64) -> Vec<u8> {
    let number: i64 = std::str::from_utf8(value)
        .ok()
        .and_then(|value| value.parse::<i32>().ok())
        .map_or(0, i64::from);
    (number + by).to_string().into_bytes()
}

impl Edit {
    /// The text with this edit.
    #[must_use]
    pub fn apply(self, text: &[u8]) -> Vec<u8> {
        self.of_a_byte(text)
            .or_else(|| self.of_a_line(text))
            .unwrap_or_else(|| text.to_vec())
    }

    fn of_a_byte(self, text: &[u8]) -> Option<Vec<u8>> {
        let around = |place: usize| text.split_at_checked(place);
        match self {
            Self::Byte { place, to } => {
                let (before, behind) = around(place)?;
                Some([before, &[to], behind.get(1..)?].concat())
            }
            Self::Put { place, byte } => {
                let (before, behind) = around(place)?;
                Some([before, &[byte], behind].concat())
            }
            Self::Without { place } => {
                let (before, behind) = around(place)?;
                Some([before, behind.get(1..)?].concat())
            }
            Self::Cut { place } => Some(around(place)?.0.to_vec()),
            Self::From { place } => Some(around(place)?.1.to_vec()),
            Self::Behind { text: more } => Some([text, more.as_bytes()].concat()),
            _ => None,
        }
    }

    /// The line that is edited, and what stands in its place.
    fn line(self, lines: &[&[u8]]) -> Option<(usize, Vec<u8>)> {
        let parts_of = |line: usize| lines.get(line).map(|it| parts(it));
        let whole = |line: usize| lines.get(line).copied();
        let (line, edited) = match self {
            Self::Value { line, spelling } => {
                let (key, _) = parts_of(line)?;
                (line, line_of(key, b"=", spelling.as_bytes(), b"\n"))
            }
            Self::Grow { line, by } => {
                let (key, value) = parts_of(line)?;
                (line, line_of(key, b"=", &grown(value, by), b"\n"))
            }
            Self::Field {
                line,
                field,
                spelling,
            } => {
                let (key, value) = parts_of(line)?;
                let value = with_field(value, field, Some(spelling));
                (line, line_of(key, b"=", &value, b"\n"))
            }
            Self::NoField { line, field } => {
                let (key, value) = parts_of(line)?;
                let value = with_field(value, field, None);
                (line, line_of(key, b"=", &value, b"\n"))
            }
            Self::Key { line, key } => {
                let (_, value) = parts_of(line)?;
                (line, line_of(key.as_bytes(), b"=", value, b"\n"))
            }
            Self::Sign { line, sign } => {
                let (key, value) = parts_of(line)?;
                (line, line_of(key, sign.as_bytes(), value, b"\n"))
            }
            Self::End { line, end } => {
                let (key, value) = parts_of(line)?;
                (line, line_of(key, b"=", value, end.as_bytes()))
            }
            Self::Before { line, text } => (line, [text.as_bytes(), whole(line)?].concat()),
            Self::NoLine { line } => (line, Vec::new()),
            Self::Twice { line } => (line, [whole(line)?, whole(line)?].concat()),
            _ => return None,
        };
        Some((line, edited))
    }

    fn of_a_line(self, text: &[u8]) -> Option<Vec<u8>> {
        let mut lines = lines(text);
        if let Self::Swap { line } = self {
            lines.get(line + 1)?;
            lines.swap(line, line + 1);
            return Some(lines.concat());
        }
        let (line, edited) = self.line(&lines)?;
        *lines.get_mut(line)? = &edited;
        Some(lines.concat())
    }
}

/// Every cut, and every byte left out, put in, or made another.
#[must_use]
pub fn of_bytes(text: &[u8]) -> Vec<Edit> {
    let mut edits = Vec::new();
    for place in 0..=text.len() {
        edits.extend([Edit::Cut { place }, Edit::From { place }]);
        edits.extend(BYTES.map(|byte| Edit::Put { place, byte }));
        if place < text.len() {
            edits.push(Edit::Without { place });
            edits.extend(BYTES.map(|to| Edit::Byte { place, to }));
        }
    }
    edits
}

fn of_line(line: usize) -> Vec<Edit> {
    let mut edits = vec![
        Edit::NoLine { line },
        Edit::Twice { line },
        Edit::Swap { line },
    ];
    edits.extend(SPELLINGS.map(|spelling| Edit::Value { line, spelling }));
    edits.extend(BY.map(|by| Edit::Grow { line, by }));
    edits.extend(KEYS.map(|key| Edit::Key { line, key }));
    edits.extend(SIGNS.map(|sign| Edit::Sign { line, sign }));
    edits.extend(ENDS.map(|end| Edit::End { line, end }));
    edits.extend(BEFORE.map(|text| Edit::Before { line, text }));
    edits
}

/// Every edit of every line, and of the end.
#[must_use]
pub fn of_lines(text: &[u8]) -> Vec<Edit> {
    let mut edits: Vec<Edit> = (0..lines(text).len()).flat_map(of_line).collect();
    edits.extend(BEHIND.map(|text| Edit::Behind { text }));
    edits
}

/// The edits of the counts alone.
#[must_use]
pub fn of_counts(text: &[u8]) -> Vec<Edit> {
    let is_count = |line: &&[u8]| COUNT_KEYS.iter().any(|key| parts(line).0 == key.as_bytes());
    let lines = lines(text);
    let counts = (0..lines.len()).filter(|line| is_count(&lines[*line]));
    counts
        .flat_map(|line| {
            let spelt = SPELLINGS.map(|spelling| Edit::Value { line, spelling });
            let grown = BY.map(|by| Edit::Grow { line, by });
            spelt.into_iter().chain(grown)
        })
        .collect()
}

/// Some edit of a line or of the end, now and then of a byte.
pub fn drawn(text: &[u8], random: &mut Random) -> Edit {
    let count = text.iter().filter(|byte| **byte == b'\n').count();
    let place = random.below(text.len() + 1);
    match random.below(8) {
        0 => Edit::Byte {
            place,
            to: random.pick(&BYTES),
        },
        1 => Edit::Cut { place },
        2 => Edit::Behind {
            text: random.pick(&BEHIND),
        },
        _ => {
            let edits = of_line(random.below(count));
            let drawn = random.below(edits.len());
            edits.get(drawn).copied().unwrap_or(Edit::Cut { place })
        }
    }
}
