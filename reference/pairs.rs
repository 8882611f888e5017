//! Random lines with a modulus and a count for the census (02, A11), all of the right form.

use crate::ask::LINE_LIMIT;
use crate::limits::MODULUS_LIMIT;
use crate::numbers::{any_pair, cheap_pair, Pair};
use crate::random::Random;

/// From this many lines on two have as many bytes as a line may have.
const LINES_WITH_LONG: u64 = 50;

/// `pairs SEED COUNT`: that many lines, each with its end mark.
pub fn pairs(seed: u64, count: u64) -> Vec<u8> {
    let mut random = Random::new(seed);
    let mut input = Vec::new();
    for place in 0..count {
        let line = line(&mut random);
        let long = if count >= LINES_WITH_LONG { long_line(&line, place) } else { None };
        input.extend(long.unwrap_or(line));
    }
    input
}

/// For two places the line with zeros before its modulus or its count, up to the longest that is
/// read, and each end mark.
fn long_line(line: &[u8], place: u64) -> Option<Vec<u8>> {
    let numbers = line.trim_ascii_end();
    let blank = numbers.iter().position(|&byte| byte == b' ')?;
    let (at, mark) = match place {
        5 => (0, "\n"),
        12 => (blank + 1, "\r\n"),
        _ => return None,
    };
    let zeros = vec![b'0'; LINE_LIMIT - numbers.len()];
    Some([&numbers[..at], &zeros, &numbers[at..], mark.as_bytes()].concat())
}

/// A line: one in four is refused, one in six has zeros before a number, one in six ends in a
/// carriage return and a line feed.
fn line(random: &mut Random) -> Vec<u8> {
    let (m, n) = if random.once_in(4) { refused(random) } else { cheap_pair(random) };
    let (modulus, count) = (written(random, m), written(random, n));
    let mark = if random.once_in(6) { "\r\n" } else { "\n" };
    format!("{modulus} {count}{mark}").into_bytes()
}

/// The digits of a number, now and then with zeros before them.
fn written(random: &mut Random, number: u32) -> String {
    let zeros = match random.below(60) {
        0 => random.between(4, 60),
        1..=5 => random.between(1, 3),
        _ => 0,
    };
    format!("{}{number}", "0".repeat(zeros as usize))
}

/// A pair that gets 1, 2 or 33, or two of them.
fn refused(random: &mut Random) -> Pair {
    let limit = MODULUS_LIMIT as u32;
    let top = u64::from(u32::MAX);
    let (m, n) = any_pair(random);
    let any = random.between(0, top) as u32;
    let above = random.between(MODULUS_LIMIT + 1, top) as u32;
    let modulus = random.pick(&[0, 1, limit + 1, 65_536 + m, above, any, u32::MAX, u32::MAX]);
    let longer = random.between(129, top) as u32;
    let count = random.pick(&[129, 130, 256 + n, 65_536 + n, longer, any, u32::MAX, u32::MAX]);
    let many = random.pick(&[13, 13, 14, 32, 64, 127, 128]);
    let next = random.pick(&[(2, 13), (3, 8), (9, 4), (17, 3), (65, 2), (limit, 2), (256, 4)]);
    match random.below(8) {
        0..=2 => (modulus, n),
        3..=4 => (m, count),
        5 => (m, many),
        6 => next,
        _ => (modulus, random.pick(&[count, many])),
    }
}
