//! "The program `plotreport`": what it prints of what it is given.

use scenes::Refusal;
use scenes::refusals::NO_LIST;
use scenes::sheets::Limits;

use super::report::refusal_lines;
use super::sheet::{Sheet, SheetLent};

/// Bytes that the program lends for a sheet, and for a report.
pub const BUFFER: usize = 65_536;

/// 1: a sheet longer than its buffer.
const LONG: Refusal = Refusal {
    number: 1,
    list: NO_LIST,
    item: BUFFER as u64,
};

/// What the program writes to its output, given its whole input.
#[must_use]
pub fn plotreport(input: &[u8]) -> Vec<u8> {
    if input.len() > BUFFER {
        return refusal_lines(LONG);
    }
    let sheet = Sheet::read(input, Limits::PROGRAM);
    let lent = SheetLent {
        out: BUFFER,
        ..sheet.enough()
    };
    match sheet.answer(&lent).0 {
        Ok(report) => report.to_vec(),
        Err(refusal) => refusal_lines(refusal),
    }
}
