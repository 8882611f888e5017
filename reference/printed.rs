//! The census printed (02, A11): lines with a modulus and a count on standard input, and how many
//! sequences have each length.

use crate::ask::{lines, LINE_LIMIT};
use crate::calls::{cells, tally};
use crate::limits::TALLY_BYTES;

const HEADER: &str = "modulus count tally";

/// What a line of another form leads to.
const ENDED: &str = "not a modulus and a count";

/// The header, then a line for each line of the input, up to the first of another form.
pub fn census(input: &[u8]) -> String {
    let mut text = format!("{HEADER}\n");
    for line in lines(input) {
        let asked = asked(line);
        text.push_str(&asked.map_or(String::from(ENDED), answer));
        text.push('\n');
        if asked.is_none() {
            break;
        }
    }
    text
}

/// "How many sequences have each length": those from 0 to n, or the refusal.
fn answer((m, n): (u32, u32)) -> String {
    let mut buffer = [0; TALLY_BYTES];
    match tally(m, n, &mut buffer) {
        Ok(()) => {
            let told: Vec<String> = cells(&buffer).iter().map(u64::to_string).collect();
            format!("{m} {n} {}", told[..=n as usize].join(","))
        }
        Err(refusal) => refusal.to_string(),
    }
}

/// The modulus and the count of a line, which has one blank between them and nothing else.
fn asked(line: &[u8]) -> Option<(u32, u32)> {
    if line.len() > LINE_LIMIT {
        return None;
    }
    let mut pieces = line.split(|&byte| byte == b' ').map(number);
    match [pieces.next(), pieces.next(), pieces.next()] {
        [Some(m), Some(n), None] => m.zip(n),
        _ => None,
    }
}

/// A decimal number below 2^32 in one digit or more, zeros before it allowed.
fn number(piece: &[u8]) -> Option<u32> {
    if piece.is_empty() || !piece.iter().all(u8::is_ascii_digit) {
        return None;
    }
    let next = |value: u32, digit: &u8| value.checked_mul(10)?.checked_add(u32::from(digit - b'0'));
    piece.iter().try_fold(0, next)
}
