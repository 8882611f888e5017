//! The listing of 01 as request A6 of 02 words it: slips in, one line of text for each out.

use crate::calls::{check_slip, Sequence};
use crate::join::{register, Register};
use crate::limits::SLIP_BYTES;
use crate::refusals::Refusal;
use crate::steps::degree;

/// 02, A6: "The header becomes "modulus count order start register"."
pub const HEADER: &str = "modulus count order start register";

/// "Writes a header, then a line for each."
pub fn listing(slips: &[u8]) -> String {
    answers(queries(slips), answer)
}

/// The line of a sequence.
pub fn answer(sequence: &Sequence) -> String {
    line(sequence, &register(sequence.modulus, &sequence.terms))
}

/// What each slip asks for, or why it asks for nothing.
pub fn queries(slips: &[u8]) -> impl Iterator<Item = Result<Sequence, Refusal>> + '_ {
    slips.chunks(SLIP_BYTES).map(checked)
}

/// The header, then for each query what `entry` gives for it, or its refusal. Each line
/// ends in a line feed; the last one of an entry gets it here.
pub fn answers(
    queries: impl Iterator<Item = Result<Sequence, Refusal>>,
    entry: impl Fn(&Sequence) -> String,
) -> String {
    let mut text = format!("{HEADER}\n");
    for query in queries {
        match query {
            Ok(sequence) => text.push_str(&entry(&sequence)),
            Err(refusal) => text.push_str(&refusal.to_string()),
        }
        text.push('\n');
    }
    text
}

/// 5 for a last piece that is cut short, then 1 to 4.
fn checked(piece: &[u8]) -> Result<Sequence, Refusal> {
    if piece.len() != SLIP_BYTES {
        return Err(Refusal::Buffer);
    }
    check_slip(piece)
}

/// "Modulus, count", then 02, A6: "From now on order is the degree of a, start is the length,
/// and the register prints a_0 up to the order", as before with commas.
pub fn line(sequence: &Sequence, register: &Register) -> String {
    let count = sequence.terms.len();
    let order = degree(&register.a).expect("a_0 is 1, so that a is not 0");
    let start = register.length;
    let a: Vec<String> = register.a[..=order].iter().map(u64::to_string).collect();
    format!("{} {} {} {} {}", sequence.modulus, count, order, start, a.join(","))
}
