//! Edits of a sheet's first lines and of its records in the shorter form.

use super::edits::Edit;

/// What a record of the shorter form may have between its letter and its end,
/// good and bad.
const SPELLINGS: [&str; 14] = [
    "",
    "0",
    "1",
    "-1",
    "-0",
    "01",
    "+1",
    " 1",
    "1 ",
    "4294967295",
    "4294967296",
    "-30000001",
    "1,1",
    ",",
];

/// Letters that are another's, or none.
const LETTERS: [&str; 9] = ["c", "n", "f", "C", "", "cc", "components", "id", " c"];

/// What may stand before the lists, or anywhere else.
const HEADS: [&str; 22] = [
    "rules=1\n",
    "rules=2\n",
    "rules=3\n",
    "rules=4\n",
    "rules=0\n",
    "rules=-1\n",
    "rules=01\n",
    "rules=\n",
    "rules=257\n",
    "rules=4294967295\n",
    "rules=4294967296\n",
    "rules=4294967297\n",
    "sheet=2\n",
    "sheet=1\n",
    "sheet=0\n",
    "sheet=3\n",
    "sheet=-2\n",
    "sheet=02\n",
    "sheet=258\n",
    "sheet=4294967298\n",
    "sheet=2\nrules=1\n",
    "rules=1\nsheet=2\n",
];

/// How many numbers the records of a line have: one in the old form.
fn fields(line: &[u8]) -> usize {
    line.split(|byte| *byte == b',').count()
}

/// Every edit of the numbers and of the letter of every record.
#[must_use]
pub fn of_records(text: &[u8]) -> Vec<Edit> {
    let mut edits = Vec::new();
    let lines = text.split_inclusive(|byte| *byte == b'\n');
    for (line, content) in lines.enumerate() {
        if fields(content) == 1 {
            continue;
        }
        edits.extend(LETTERS.map(|key| Edit::Key { line, key }));
        for field in 0..fields(content) {
            edits.push(Edit::NoField { line, field });
            edits.extend(SPELLINGS.map(|spelling| Edit::Field {
                line,
                field,
                spelling,
            }));
        }
    }
    edits
}

/// Every head before the text, and before each of its first lines.
#[must_use]
pub fn of_heads() -> Vec<Edit> {
    let heads = |line| HEADS.map(|text| Edit::Before { line, text });
    let without = |line| Edit::NoLine { line };
    let lines = 0..4;
    lines
        .flat_map(|line| heads(line).into_iter().chain([without(line)]))
        .collect()
}
