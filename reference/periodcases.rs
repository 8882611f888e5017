//! Lengths of periods by hand (02, A10): the words of the request, lengths that were worked out
//! by hand or are known from elsewhere, every size, every value and every place.

use crate::calls::period_length;
use crate::cases::{bare, bytes_of, term_at, told, Told};
use crate::checks::Group;
use crate::coverage::{count, Tally};
use crate::periods::{asking, digits_of, ones_at, WRONG};
use crate::random::Random;
use crate::scenarios::cells_of;
use crate::script::{replay, Call, Operation};
use crate::sequences::uniform;

/// "Period N = 1, 2, 4 up to 64, doubling."
const SEVEN: [usize; 7] = [1, 2, 4, 8, 16, 32, 64];

/// The reply for these digits.
pub fn outcome(digits: &[u64]) -> Result<usize, Told> {
    told(period_length(&cells_of(digits)))
}

fn check(group: &mut Group, digits: &[u64], expected: Result<usize, Told>) {
    let found = outcome(digits);
    group.check(found == expected, || format!("{digits:?}: {found:?} for {expected:?}"));
}

pub fn by_hand(group: &mut Group) {
    for (text, length) in KNOWN {
        let digits: Vec<u64> = text.bytes().map(|byte| u64::from(byte - b'0')).collect();
        check(group, &digits, Ok(length));
    }
    few_ones(group);
    halves(group);
    binomials(group);
    counted(group);
    de_bruijn(group);
    sizes(group);
    values(group);
    places(group);
    replayed(group);
}

// ---- lengths ----

/// Digits and their length, by halving with pen and paper.
const KNOWN: [(&str, usize); 52] = [
    // At size 1 there is only the last digit.
    ("0", 0),
    ("1", 1),
    // 1 for halves that differ, and their sum is 1.
    ("00", 0),
    ("11", 1),
    ("01", 2),
    ("10", 2),
    // All of four: equal halves, then 2 and the length of their sum.
    ("0000", 0),
    ("1111", 1),
    ("0101", 2),
    ("1010", 2),
    ("0011", 3),
    ("1100", 3),
    ("0110", 3),
    ("1001", 3),
    ("0001", 4),
    ("0010", 4),
    ("0100", 4),
    ("1000", 4),
    ("0111", 4),
    ("1011", 4),
    ("1101", 4),
    ("1110", 4),
    // Eight with equal halves.
    ("00000000", 0),
    ("11111111", 1),
    ("01010101", 2),
    ("00110011", 3),
    ("10011001", 3),
    ("00010001", 4),
    ("11101110", 4),
    // 4 and the length of the sum: 1111 twice, then 1010, 0101, 0011, 0110, 0001.
    ("00001111", 5),
    ("01011010", 5),
    ("00001010", 6),
    ("00110110", 6),
    ("00000011", 7),
    ("10011111", 7),
    ("00000001", 8),
    // 1001 and 1010 differ, the sum 0011 does too, then 11 does not: 4, 2 and 1.
    ("10011010", 7),
    // Every three digits once round the wheel, in both ways that there are.
    ("00010111", 7),
    ("00011101", 7),
    // Halves that differ in the last digit alone, in the first alone, in all.
    ("01100111", 8),
    ("01101110", 8),
    ("01101001", 5),
    // Every four digits once: 8, 4, 2 and 1, for 10100110, 1100, 11; then for 01101010, 1100, 11.
    ("0000100110101111", 15),
    ("0000111101100101", 15),
    // 8 for the sum 01101001 of halves, 4 for 1111, and 1.
    ("0110100100000000", 13),
    ("0000000011111111", 9),
    ("0101010110101010", 9),
    ("0011001100110011", 3),
    ("0000000000000101", 14),
    ("0001000000010001", 16),
    ("0001000100010001", 4),
    ("1000000000000000", 16),
];

/// None, one, two, all ones, for each of the seven. One 1 has all of the size, wherever it is.
/// Two that stand d apart: halves are equal if they are half the size apart; else the sum has two
/// that are d apart. So it is the size less the largest power of 2 that divides d.
fn few_ones(group: &mut Group) {
    for size in SEVEN {
        check(group, &vec![0; size], Ok(0));
        check(group, &vec![1; size], Ok(1));
        for place in 0..size {
            check(group, &ones_at(size, &[place]), Ok(size));
            let mut digits = vec![1; size];
            digits[place] = 0;
            check(group, &digits, Ok(if size == 1 { 0 } else { size }));
            for other in 0..place {
                let power = 1 << (place - other).trailing_zeros();
                check(group, &ones_at(size, &[other, place]), Ok(size - power));
            }
        }
    }
}

/// Ones in one half and zeros in the other; any half and then each of its digits changed, so
/// that the sum of the halves is all ones: half the size and 1, 33 of 64.
fn halves(group: &mut Group) {
    let mut random = Random::new(61);
    for size in SEVEN.into_iter().filter(|&size| size > 1) {
        let half = size / 2;
        let (ones, zeros) = (vec![1; half], vec![0; half]);
        check(group, &[&ones[..], &zeros].concat(), Ok(half + 1));
        check(group, &[&zeros[..], &ones].concat(), Ok(half + 1));
        for _ in 0..20 {
            let first = uniform(&mut random, 2, half);
            let second: Vec<u64> = first.iter().map(|digit| 1 - digit).collect();
            check(group, &[&first[..], &second].concat(), Ok(half + 1));
        }
    }
}

/// Pascal's triangle modulo 2: the binomial coefficients of n over r for n = 0, 1, .. are the
/// sequence x^r / (1 + x)^(r+1), of length r+1. The period is the next of the seven above r, or
/// any later one.
fn binomials(group: &mut Group) {
    let mut rows = vec![ones_at(64, &[0])];
    for n in 1..64 {
        let above = &rows[n - 1];
        let left = |r: usize| if r > 0 { above[r - 1] } else { 0 };
        let next: Vec<u64> = (0..64).map(|r| (left(r) + above[r]) % 2).collect();
        rows.push(next);
    }
    for size in SEVEN {
        for r in 0..size {
            let column: Vec<u64> = (0..size).map(|n| rows[n][r]).collect();
            check(group, &column, Ok(r + 1));
        }
    }
}

/// All periods of 1, 2, 4, 8 and 16 digits: of the length c, from 1 on, there are 2 to the power
/// c-1, and one of the length 0.
fn counted(group: &mut Group) {
    for size in &SEVEN[..5] {
        let mut tally = Tally::new();
        for number in 0..1u64 << size {
            count(&mut tally, outcome(&digits_of(number, *size)));
        }
        for length in 0..=*size {
            let expected = if length == 0 { 1 } else { 1 << (length - 1) };
            let found = tally.get(&Ok(length)).copied().unwrap_or(0);
            group.check(found == expected, || format!("{size} digits, {length}: {found}"));
        }
        group.check(tally.len() == size + 1, || format!("{size} digits: {tally:?}"));
    }
}

// ---- every few digits once ----

/// Whether every n digits stand in the period exactly once, round the wheel; 2^n is its size.
fn has_all(digits: &[u64], n: usize) -> bool {
    let size = digits.len();
    let mut met = vec![false; size];
    for start in 0..size {
        let number = (0..n).fold(0, |number, i| 2 * number + digits[(start + i) % size] as usize);
        if met[number] {
            return false;
        }
        met[number] = true;
    }
    true
}

/// De Bruijn's sequences of order n, and what is known of them from elsewhere: apart from turning
/// there are 2 to the power 2^(n-1) - n, and from order 3 on their lengths are from 2^(n-1) + n to
/// 2^n - 1, and never the second of these (Chan, Games and Key, 1982; Games, 1983). All of orders
/// 3 and 4, and of orders 5 and 6 the one by the rule that puts a 1 where it can.
fn de_bruijn(group: &mut Group) {
    for (n, times) in [(3, 2), (4, 16)] {
        let size = 1 << n;
        let all = (0..1 << size).map(|number| digits_of(number, size));
        let found: Vec<Vec<u64>> = all.filter(|digits| has_all(digits, n)).collect();
        group.check(found.len() == times * size, || format!("order {n}: {}", found.len()));
        found.iter().for_each(|digits| check_de_bruijn(group, digits, n));
    }
    for n in [5, 6] {
        let digits = ones_first(n);
        group.check(has_all(&digits, n), || format!("order {n}: {digits:?}"));
        check_de_bruijn(group, &digits, n);
    }
}

fn check_de_bruijn(group: &mut Group, digits: &[u64], n: usize) {
    let found = outcome(digits);
    let (low, high) = ((1 << (n - 1)) + n, (1 << n) - 1);
    let right = found.is_ok_and(|l| l >= low && l <= high && l != low + 1);
    group.check(right, || format!("order {n}, {digits:?}: {found:?}"));
}

/// From n zeros on: a 1, unless the last n digits would then have been there before.
fn ones_first(n: usize) -> Vec<u64> {
    let mut digits = vec![0; n];
    while digits.len() < 1 << n {
        digits.push(1);
        let last = &digits[digits.len() - n..];
        if digits[..digits.len() - 1].windows(n).any(|window| window == last) {
            let end = digits.len() - 1;
            digits[end] = 0;
        }
    }
    digits
}

// ---- refused ----

/// Every number of bytes up to 600 and some above, of zeros, of digits 1, of digits 2, and of
/// bytes 255: 5 for an odd one, 32 for none of the seven, then 3.
fn sizes(group: &mut Group) {
    let above = [1024, 2048, 8192, 65535, 65536, 65538, 65664, 131_072, 131_200];
    for size in (0..=600).chain(above) {
        let fills = [([0, 0], Ok(0)), ([1, 0], Ok(1)), ([2, 0], Err(0)), ([255, 255], Err(0))];
        for (cell, told_for_it) in fills {
            let bytes: Vec<u8> = cell.into_iter().cycle().take(size).collect();
            let expected = match size {
                2 | 4 | 8 | 16 | 32 | 64 | 128 => told_for_it.map_err(term_at),
                _ => Err(bare(if size % 2 == 1 { 5 } else { 32 })),
            };
            let found = told(period_length(&bytes));
            group.check(found == expected, || format!("{size} bytes {cell:?}: {found:?}"));
        }
    }
}

/// Every value of a digit: 1001 has the length 3 and 1011 has 4.
fn values(group: &mut Group) {
    for value in 0..=65535 {
        let expected = match value {
            0 => Ok(3),
            1 => Ok(4),
            _ => Err(term_at(2)),
        };
        check(group, &[1, 0, value, 1], expected);
        let alone = if value < 2 { Ok(value as usize) } else { Err(term_at(0)) };
        check(group, &[value], alone);
    }
}

/// A digit above 1 at each place of each of the seven, alone, with all later ones above 1, and
/// with the last one.
fn places(group: &mut Group) {
    for size in SEVEN {
        for (place, value) in (0..size).flat_map(|place| WRONG.map(|value| (place, value))) {
            let mut digits = ones_at(size, &[0, size / 3]);
            digits[place] = value;
            check(group, &digits, Err(term_at(place)));
            digits[size - 1] = 2;
            check(group, &digits, Err(term_at(place)));
            digits[place..].fill(value);
            check(group, &digits, Err(term_at(place)));
            // The same with one cell more is 32, and with one byte more 5.
            let expected = if size == 1 { Err(term_at(0)) } else { Err(bare(32)) };
            check(group, &[&digits[..], &[2]].concat(), expected);
            let odd = [&cells_of(&digits)[..], &[2]].concat();
            let found = told(period_length(&odd));
            group.check(found == Err(bare(5)), || format!("{odd:?}: {found:?}"));
        }
    }
}

// ---- the replay ----

/// A column for the reading that is held, which no period touches.
fn column(list: &[u8]) -> Call {
    let (operation, lengths) = (Operation::PushAll, [list.len() as u16, 0, 0]);
    Call { operation, fill: 0xee, number: 0, lengths, l: 0, payload: list.to_vec() }
}

/// The first digits of a period, and zeros after them.
fn call(digits: &[u64], size: usize) -> Call {
    asking(&bytes_of(digits, size), 0xee)
}

/// Each call with its line. The hashes were computed apart from this program: those of the cells
/// and those of README.md.
fn script() -> Vec<(Call, &'static str)> {
    let (late, wrong) = (ones_at(64, &[63]), [&[0; 63][..], &[65535]].concat());
    let (odd, low) = (bytes_of(&[1; 64], 64), [1, 0, 0, 1, 1, 2, 1, 256]);
    let opening = Call { operation: Operation::Open, number: 9, ..column(&[]) };
    vec![
        (opening, "open ok 50315e8c"),
        (column(&[6, 0, 3, 0, 1, 0, 5, 0, 6, 0]), "push_all taken 5 ok 2f8aa196 17edca52"),
        (call(&[1, 0, 0, 1, 1, 0, 1], 8), "period_length length 7 8060353d"),
        (call(&low, 8), "period_length refused 3 at 5 780c239c"),
        (call(&[0, 0, 256], 4), "period_length refused 3 at 2 5cfabe1a"),
        (call(&wrong, 64), "period_length refused 3 at 63 16484c9b"),
        (call(&[2; 64], 64), "period_length refused 3 at 0 848211c5"),
        (call(&late, 64), "period_length length 64 81b2bd5c"),
        (call(&[1; 32], 64), "period_length length 33 8c74c145"),
        (call(&[1; 64], 64), "period_length length 1 394ecac5"),
        (call(&[], 64), "period_length length 0 a7b537c5"),
        (call(&[1], 1), "period_length length 1 eb741d64"),
        (call(&[0, 1], 2), "period_length length 2 25937aac"),
        (call(&[], 0), "period_length refused 32 811c9dc5"),
        (call(&[], 128), "period_length refused 32 e6a1d1c5"),
        (call(&[1, 0, 1], 3), "period_length refused 32 a9240a0d"),
        (call(&[2, 0, 1], 3), "period_length refused 32 5220fd26"),
        (asking(&[1], 0xee), "period_length refused 5 040c5b8c"),
        (asking(&[2, 0, 1], 0xee), "period_length refused 5 c77e5cba"),
        (asking(&[&odd[..], &[0]].concat(), 0xee), "period_length refused 5 fc09341f"),
        (column(&[]), "push_all taken 0 ok 2f8aa196 811c9dc5"),
        (call(&[1, 0, 0, 1, 1, 0, 1], 8), "period_length length 7 8060353d"),
    ]
}

/// The lines one by one, the bytes of a call, and a script that is cut inside the cells.
fn replayed(group: &mut Group) {
    let script = script();
    let bytes: Vec<u8> = script.iter().flat_map(|(call, _)| call.bytes()).collect();
    let (text, whole) = replay(&bytes);
    group.check(whole && text.lines().count() == script.len(), || text.clone());
    for (line, (_, expected)) in text.lines().zip(&script) {
        group.check(line == *expected, || format!("{line} for {expected}"));
    }
    let (call, line) = &script[2];
    let header = [13, 0xee, 0, 0, 0, 0, 0, 0, 16, 0, 0, 0, 0, 0, 0, 0];
    let cells = [1, 0, 0, 0, 0, 0, 1, 0, 1, 0, 0, 0, 1, 0, 0, 0];
    let parts = [header, cells].concat();
    group.check(call.bytes() == parts, || format!("{:?}", call.bytes()));
    group.check(replay(&parts) == (format!("{line}\n"), true), || format!("{line}"));
    let (text, whole) = replay(&parts[..parts.len() - 1]);
    group.check(!whole && text == "script cut short\n", || text.clone());
}
