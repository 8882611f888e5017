//! Typed lines (02, A3): "mod 9: 6,3,1,-4,6". A whole line is judged by splitting it, a
//! begun one by trying to complete it; no state is carried from byte to byte.

use crate::refusals::Refusal;

/// "The fixed text".
const FIXED: &[u8] = b"mod ";

/// A short line. A begun line that can be completed at all can be so by an end of this
/// one: what is missing is the rest of the fixed text, the modulus and the colon, or a
/// digit of a term. The empty end is among them.
const SHORT: &[u8] = b"mod 0:0";

/// "From -2,147,483,648 to 2,147,483,647"; each has ten digits.
const HIGHEST: &[u8] = b"2147483647";
const HIGHEST_AFTER_MINUS: &[u8] = b"2147483648";

/// The numbers that a line holds; nothing but its form and their range has been looked at.
#[derive(Clone, PartialEq, Eq, Debug)]
pub struct Numbers {
    pub modulus: i128,
    pub terms: Vec<i128>,
}

/// 27 or 28: "the reading runs left to right". A number can pass its range only where the
/// line still keeps its form, so that the place of 27, if there is one, comes later.
pub fn read(line: &[u8]) -> Result<Numbers, Refusal> {
    let begun = longest_begun(line);
    if let Some(place) = passing_digit(&line[..begun]) {
        return Err(Refusal::LineRange(place));
    }
    // If all of the line is begun and it is not whole, this is its length.
    let (modulus, terms) = parts(line).ok_or(Refusal::LineForm(begun))?;
    Ok(Numbers { modulus: number(modulus), terms: terms.into_iter().map(number).collect() })
}

// ---- the form ----

/// The digits of the modulus, and the terms without the blanks around them, of a line that
/// keeps its form.
fn parts(line: &[u8]) -> Option<(&[u8], Vec<&[u8]>)> {
    let rest = line.strip_prefix(FIXED)?;
    let colon = rest.iter().position(|&byte| byte == b':')?;
    let (modulus, list) = (&rest[..colon], &rest[colon + 1..]);
    if !is_digits(modulus) {
        return None;
    }
    // "Nothing or only blanks after the colon means no terms."
    if without_blanks(list).is_empty() {
        return Some((modulus, Vec::new()));
    }
    let terms: Vec<&[u8]> = list.split(|&byte| byte == b',').map(without_blanks).collect();
    let right = |term: &&[u8]| is_digits(term.strip_prefix(b"-").unwrap_or(term));
    terms.iter().all(right).then_some((modulus, terms))
}

fn is_digits(text: &[u8]) -> bool {
    !text.is_empty() && text.iter().all(u8::is_ascii_digit)
}

/// "A blank is byte 32."
fn without_blanks(mut text: &[u8]) -> &[u8] {
    while let Some(rest) = text.strip_prefix(b" ") {
        text = rest;
    }
    while let Some(rest) = text.strip_suffix(b" ") {
        text = rest;
    }
    text
}

/// Whether some line of this form begins so.
fn can_begin(start: &[u8]) -> bool {
    (0..=SHORT.len()).any(|cut| parts(&[start, &SHORT[cut..]].concat()).is_some())
}

/// How many bytes of the line some line begins with: all, or as many as there are before
/// "the first byte that no line of this form with the same bytes before it has there".
/// What begins with a start that no line has is no start either, so bisection finds it.
fn longest_begun(line: &[u8]) -> usize {
    let sizes: Vec<usize> = (1..=line.len()).collect();
    sizes.partition_point(|&size| can_begin(&line[..size]))
}

// ---- the numbers ----

/// "The place of the digit that passes" the range, of the first number that does. The
/// start of a line has no digits but those of the modulus and the terms.
fn passing_digit(begun: &[u8]) -> Option<usize> {
    let mut next = 0;
    begun.split(|byte| !byte.is_ascii_digit()).find_map(|digits| {
        let place = next;
        next += digits.len() + 1;
        let minus = place > 0 && begun[place - 1] == b'-';
        let highest = if minus { HIGHEST_AFTER_MINUS } else { HIGHEST };
        let zeros = digits.iter().take_while(|&&digit| digit == b'0').count();
        let counted = &digits[zeros..];
        let passes = |&size: &usize| is_above(&counted[..size], highest);
        (1..=counted.len()).find(passes).map(|size| place + zeros + size - 1)
    })
}

/// Compares numbers without leading zeros by their lengths, then as strings.
fn is_above(digits: &[u8], limit: &[u8]) -> bool {
    (digits.len(), digits) > (limit.len(), limit)
}

/// The value of digits that may have a minus before them, within the range.
fn number(text: &[u8]) -> i128 {
    let text = std::str::from_utf8(text).expect("digits");
    text.parse().expect("a number within the range")
}
