//! The working, shown (02, A1): the listing's line of each slip, or of each typed line,
//! whether another register is as short (A8), then its sheet.

use crate::ask;
use crate::calls::Sequence;
use crate::join::{histories, register_after, sheet};
use crate::listing::{answers, line, queries};
use crate::only::only;
use crate::steps::StepRecord;

pub const SHEET_HEADER: &str = "power k row length u theta g case";

/// The listing's header once; for each slip its refusal alone, or the listing's line, a line
/// with sole, several or not told, the header of a sheet and a line for each record.
pub fn working(slips: &[u8]) -> String {
    answers(queries(slips), entry)
}

/// The same for typed lines.
pub fn working_lines(input: &[u8]) -> String {
    answers(ask::queries(input), entry)
}

fn entry(sequence: &Sequence) -> String {
    let histories = histories(sequence.modulus, &sequence.terms);
    let n = sequence.terms.len();
    let register = register_after(&histories, n);
    let told = only(sequence.modulus, n, register.length).to_string();
    let mut lines = vec![line(sequence, &register), told, String::from(SHEET_HEADER)];
    lines.extend(sheet(&histories).into_iter().map(record_line));
    lines.join("\n")
}

/// The eight numbers with single blanks.
fn record_line(record: StepRecord) -> String {
    record.numbers().map(|number| number.to_string()).join(" ")
}
