//! The census by hand (02, A11): the words of the request, sequences and tallies that were worked
//! out by hand, every limit, every size of a buffer, lines of the replay.

use crate::calls::{cells, check_slip, enumerate, slip_of, tally, Sequence};
use crate::cases::{bare, padded, told, Told};
use crate::census::how_many;
use crate::checks::Group;
use crate::numbers::{enumerating, tallying};
use crate::script::{replay, Call, Operation};

/// What the buffers are filled with; no byte of a slip or of a tally here is the same.
const LENT: u8 = 0xa5;

/// The terms that a call for a number writes, or its refusal. The slip has the modulus, the count,
/// which is at most 12, and zeros past the terms, and it passes its checks; a refused call leaves
/// the buffer as it was.
pub fn terms_with(group: &mut Group, m: u32, n: u32, number: u64) -> Result<Vec<u64>, Told> {
    let mut slip = [LENT; 260];
    let found = told(enumerate(m, n, number, &mut slip));
    let words = || format!("number {number} of {n} terms modulo {m}: {found:?}");
    if let Err(refusal) = found {
        group.check(slip == [LENT; 260], words);
        return Err(refusal);
    }
    let numbers = cells(&slip);
    let (terms, past) = numbers[2..].split_at((n as usize).min(12));
    group.check(numbers[..2] == [u64::from(m), u64::from(n)], words);
    group.check(past.iter().all(|&cell| cell == 0), words);
    let expected = Sequence { modulus: u64::from(m), terms: terms.to_vec() };
    group.check(check_slip(&slip) == Ok(expected), words);
    Ok(terms.to_vec())
}

/// The cells from 0 to n of a tally, or its refusal. The others of the 13 are zero; a refused call
/// leaves the buffer as it was.
pub fn tally_with(group: &mut Group, m: u32, n: u32) -> Result<Vec<u64>, Told> {
    let mut buffer = [LENT; 26];
    let found = told(tally(m, n, &mut buffer));
    let words = || format!("tally of {n} terms modulo {m}: {found:?}");
    if let Err(refusal) = found {
        group.check(buffer == [LENT; 26], words);
        return Err(refusal);
    }
    let numbers = cells(&buffer);
    let (told, past) = numbers.split_at((n as usize).min(12) + 1);
    group.check(n <= 12 && past.iter().all(|&cell| cell == 0), words);
    Ok(told.to_vec())
}

pub fn by_hand(group: &mut Group) {
    for (m, expected) in TALLIES {
        let found = tally_with(group, m, expected.len() as u32 - 1);
        group.check(found.as_deref() == Ok(expected), || format!("modulo {m}: {found:?}"));
    }
    for (m, number, expected) in SEQUENCES {
        let found = terms_with(group, m, expected.len() as u32, number);
        let right = found.as_deref() == Ok(expected);
        group.check(right, || format!("number {number} modulo {m}: {found:?}"));
    }
    dictionaries(group);
    slips(group);
    refused(group);
    powers(group);
    grid(group);
    sizes(group);
    replayed(group);
}

// ---- tallies ----

/// Tallies, cells 0 to n. With one term only 0 has the length 0. Modulo a prime they are by the
/// formula of A11.
const TALLIES: [(u32, &[u64]); 30] = [
    // The words of A11.
    (2, &[1, 2, 4, 1]),
    (4, &[1, 10, 5]),
    // No terms: one sequence.
    (2, &[1]),
    (9, &[1]),
    (4095, &[1]),
    (2, &[1, 1]),
    (5, &[1, 4]),
    (6, &[1, 5]),
    (4093, &[1, 4092]),
    (4095, &[1, 4094]),
    // Two terms: l = 1 if the second is a multiple of the first, which is not 0.
    (2, &[1, 2, 1]),
    (3, &[1, 6, 2]),
    (61, &[1, 3660, 60]),
    // 4 times 8, 2 times 4 and 2; 6 times 9 and 2 times 3; 2048, 512, 128, 32, 8 and 2.
    (8, &[1, 42, 21]),
    (9, &[1, 60, 20]),
    (64, &[1, 2730, 1365]),
    // Up to l: 1, 3, 4 modulo 2, times 1, 7, 9 modulo 3, times 1, 11, 16 modulo 4 or 1, 21, 25
    // modulo 5.
    (6, &[1, 20, 15]),
    (12, &[1, 76, 67]),
    (30, &[1, 440, 459]),
    (3, &[1, 6, 18, 2]),
    // l = 1 as with two terms; l = 3 if the last is none of the multiples of the others' divisor.
    (4, &[1, 10, 44, 9]),
    (16, &[1, 170, 3340, 585]),
    (6, &[1, 20, 154, 41]),
    (2, &[1, 2, 8, 4, 1]),
    (7, &[1, 42, 2058, 294, 6]),
    (5, &[1, 20, 500, 2500, 100, 4]),
    (3, &[1, 6, 54, 486, 162, 18, 2]),
    (3, &[1, 6, 54, 486, 1458, 162, 18, 2]),
    (2, &[1, 2, 8, 32, 128, 512, 1024, 256, 64, 16, 4, 1]),
    (2, &[1, 2, 8, 32, 128, 512, 2048, 1024, 256, 64, 16, 4, 1]),
];

// ---- sequences ----

/// A modulus, a number and its terms. Modulo 10 they are the digits of the number, modulo 16, 8, 2
/// and 60 those of its hexadecimal, octal, binary and Babylonian writing.
const SEQUENCES: [(u32, u64, &[u64]); 27] = [
    (10, 527, &[5, 2, 7]),
    (10, 7, &[0, 0, 7]),
    (10, 700, &[7, 0, 0]),
    (10, 0, &[0, 0, 0]),
    (10, 999, &[9, 9, 9]),
    (10, 42, &[4, 2]),
    (10, 8, &[8]),
    (16, 0xabc, &[10, 11, 12]),
    (16, 0xfff, &[15, 15, 15]),
    (16, 0x100, &[1, 0, 0]),
    (8, 0o1234, &[1, 2, 3, 4]),
    (8, 0o7776, &[7, 7, 7, 6]),
    (2, 0b1000_0000_0011, &[1, 0, 0, 0, 0, 0, 0, 0, 0, 0, 1, 1]),
    (2, 0b0110_1001_0000, &[0, 1, 1, 0, 1, 0, 0, 1, 0, 0, 0, 0]),
    (2, 0b1111_1111_1111, &[1; 12]),
    (60, 3599, &[59, 59]),
    (60, 61, &[1, 1]),
    (60, 59, &[0, 59]),
    (64, 64, &[1, 0]),
    (64, 4095, &[63, 63]),
    (3, 5, &[1, 2]),
    (4095, 0, &[0]),
    (4095, 256, &[256]),
    (4095, 4094, &[4094]),
    (2, 0, &[]),
    (7, 0, &[]),
    (4095, 0, &[]),
];

/// Whole dictionaries in their order: a modulus and the words.
const DICTIONARIES: [(u32, &[&str]); 6] = [
    (2, &["000", "001", "010", "011", "100", "101", "110", "111"]),
    (3, &["00", "01", "02", "10", "11", "12", "20", "21", "22"]),
    (
        4,
        &[
            "00", "01", "02", "03", "10", "11", "12", "13", "20", "21", "22", "23", "30", "31",
            "32", "33",
        ],
    ),
    (5, &["0", "1", "2", "3", "4"]),
    (2, &["00", "01", "10", "11"]),
    (6, &[""]),
];

/// Every number has its word, and there is no other.
fn dictionaries(group: &mut Group) {
    for (m, dictionary) in DICTIONARIES {
        let n = dictionary[0].len() as u32;
        for (number, word) in dictionary.iter().enumerate() {
            let expected: Vec<u64> = word.bytes().map(|byte| u64::from(byte - b'0')).collect();
            let found = terms_with(group, m, n, number as u64);
            group.check(found == Ok(expected), || format!("modulo {m}: {word}, {found:?}"));
        }
        for past in 0..20 {
            let number = dictionary.len() as u64 + past;
            let found = terms_with(group, m, n, number);
            group.check(found == Err(bare(33)), || format!("modulo {m}, {number}: {found:?}"));
        }
    }
}

/// The bytes of two slips and of two tallies.
fn slips(group: &mut Group) {
    let starts: [(u32, u32, u64, &[u8]); 2] = [
        (10, 3, 527, &[10, 0, 3, 0, 5, 0, 2, 0, 7, 0]),
        (4095, 1, 2748, &[0xff, 0x0f, 1, 0, 0xbc, 0x0a]),
    ];
    for (m, n, number, start) in starts {
        let mut slip = [LENT; 260];
        let outcome = told(enumerate(m, n, number, &mut slip));
        let right = slip.starts_with(start) && slip[start.len()..].iter().all(|&byte| byte == 0);
        group.check(outcome == Ok(()) && right, || format!("{outcome:?}: {slip:?}"));
    }
    let mut cells = [LENT; 26];
    let outcome = told(tally(2, 3, &mut cells));
    let start = [1, 0, 2, 0, 4, 0, 1, 0];
    let right = cells.starts_with(&start) && cells[8..] == [0; 18];
    group.check(outcome == Ok(()) && right, || format!("{outcome:?}: {cells:?}"));
    let mut cells = [LENT; 26];
    let outcome = told(tally(4095, 1, &mut cells));
    let right = cells.starts_with(&[1, 0, 0xfe, 0x0f]) && cells[4..] == [0; 22];
    group.check(outcome == Ok(()) && right, || format!("{outcome:?}: {cells:?}"));
}

// ---- refused ----

/// A modulus and a count, refused in both calls.
const REFUSED: [(u32, u32, u32); 45] = [
    (0, 0, 1),
    (1, 0, 1),
    (0, 1, 1),
    (1, 1, 1),
    (1, 3, 1),
    (4096, 0, 1),
    (4096, 1, 1),
    (4097, 2, 1),
    (65535, 0, 1),
    (65536, 0, 1),
    (65538, 3, 1),
    (1 << 31, 0, 1),
    ((1 << 31) + 2, 3, 1),
    (u32::MAX, 0, 1),
    // Before 2, and before 33.
    (1, 129, 1),
    (0, u32::MAX, 1),
    (4096, 13, 1),
    (4096, 129, 1),
    (65538, 65539, 1),
    (2, 129, 2),
    (2, 255, 2),
    (2, 256, 2),
    (2, 259, 2),
    (2, 65536, 2),
    (2, 65539, 2),
    (2, 1 << 31, 2),
    (2, (1 << 31) + 3, 2),
    (4095, 129, 2),
    (4095, u32::MAX, 2),
    // 2, 3 and 4 to a power next above 4,096, then the next moduli.
    (2, 13, 33),
    (3, 8, 33),
    (4, 7, 33),
    (5, 6, 33),
    (6, 5, 33),
    (9, 4, 33),
    (17, 3, 33),
    (65, 2, 33),
    (4095, 2, 33),
    // 2 to the powers 16, 32, 64 and 128.
    (2, 16, 33),
    (2, 32, 33),
    (2, 64, 33),
    (2, 128, 33),
    (256, 8, 33),
    (3, 128, 33),
    (4095, 128, 33),
];

/// Numbers that are not below the power: the next, those of longer sequences, and some that would
/// be if they were cut to 8, 16 or 32 bits, or had a sign.
const LARGE: [(u32, u32, u64); 18] = [
    (2, 0, 1),
    (2, 3, 8),
    (2, 3, 9),
    (3, 2, 9),
    (3, 2, 10),
    (2, 12, 4096),
    (64, 2, 4096),
    (4095, 1, 4095),
    (4095, 0, 1),
    (2, 3, 256),
    (2, 3, 1 << 16),
    (2, 3, 1 << 32),
    (2, 3, (1 << 32) + 1),
    (2, 3, 1 << 63),
    (2, 3, (1 << 63) + 7),
    (2, 3, u64::MAX),
    (2, 0, 1 << 32),
    (2, 12, u64::MAX - 4095),
];

fn refused(group: &mut Group) {
    for (m, n, number) in REFUSED {
        let found = tally_with(group, m, n);
        group.check(found == Err(bare(number)), || format!("{m}, {n}: {found:?}"));
        for asked in [0, 1, 7, 1 << 32, u64::MAX] {
            let found = terms_with(group, m, n, asked);
            group.check(found == Err(bare(number)), || format!("{m}, {n}, {asked}: {found:?}"));
        }
    }
    for (m, n, asked) in LARGE {
        let found = terms_with(group, m, n, asked);
        group.check(found == Err(bare(33)), || format!("{m}, {n}, {asked}: {found:?}"));
    }
}

/// What a modulus and a count get, and how many sequences there are: the power is worked out with
/// 128 bits, and is too large where they do not hold it.
pub fn expected(m: u32, n: u32) -> Result<u64, Told> {
    let power = u128::from(m).checked_pow(n).filter(|&power| power <= 4096);
    match power {
        _ if !(2..=4095).contains(&m) => Err(bare(1)),
        _ if n > 128 => Err(bare(2)),
        Some(power) => Ok(power as u64),
        None => Err(bare(33)),
    }
}

/// The power by itself, for every modulus up to 65,535: with one term it is the modulus, and 4,096
/// is within the limit and 4,097 is not, which no other power is.
fn powers(group: &mut Group) {
    for m in 2..=65535 {
        let few = [0, 1, 2, 3].map(|n| how_many(m, n));
        let within = |power: u64| Some(power).filter(|&power| power <= 4096);
        let expected = [Some(1), within(m), within(m * m), within(m * m * m)];
        group.check(few == expected, || format!("{m}: {few:?} for {expected:?}"));
        let many = [13, 32, 64, 128].map(|n| how_many(m, n));
        group.check(many == [None; 4], || format!("{m}: {many:?}"));
    }
}

/// Every modulus up to 4,200 with every count up to 130: the first number or the refusal, the
/// last number, and the next. A tally is asked for where it is refused.
fn grid(group: &mut Group) {
    let mut times = 0;
    for (m, n) in (0..=4200).flat_map(|m| (0..=130).map(move |n| (m, n))) {
        let (power, refusal) = match expected(m, n) {
            Ok(power) => (power, None),
            Err(refusal) => (0, Some(refusal)),
        };
        let found = terms_with(group, m, n, 0);
        group.check(found.clone().err() == refusal, || format!("{m}, {n}: {found:?}"));
        if refusal.is_some() {
            let found = tally_with(group, m, n).err();
            group.check(found == refusal, || format!("{m}, {n}: {found:?}"));
            continue;
        }
        times += 1;
        let last = terms_with(group, m, n, power - 1);
        let largest = vec![u64::from(m) - 1; n as usize];
        group.check(last == Ok(largest), || format!("{m}, {n}, the last: {last:?}"));
        let next = terms_with(group, m, n, power);
        group.check(next == Err(bare(33)), || format!("{m}, {n}, {power}: {next:?}"));
    }
    // 4,094 moduli with no term and with one, 63 with two, then 15, 7, 4, 3, 2 and five times 2.
    group.check(times == 2 * 4094 + 99, || format!("{times} within the limit"));
}

/// Every other size of a buffer gets 5, whatever else there is.
fn sizes(group: &mut Group) {
    let handed = [(2, 3, 5), (9, 0, 0), (1, 3, 0), (2, 129, 0), (2, 13, 0), (2, 3, 8)];
    for size in (0..=600).chain([65535, 65536 + 26, 65536 + 260]) {
        for (m, n, number) in handed {
            let mut buffer = vec![LENT; size];
            let found = told(enumerate(m, n, number, &mut buffer));
            let right = size == 260 || (found == Err(bare(5)) && buffer == vec![LENT; size]);
            group.check(right, || format!("{size} bytes for {m}, {n}, {number}: {found:?}"));
            let mut buffer = vec![LENT; size];
            let found = told(tally(m, n, &mut buffer));
            let right = size == 26 || (found == Err(bare(5)) && buffer == vec![LENT; size]);
            group.check(right, || format!("{size} bytes for {m}, {n}: {found:?}"));
        }
    }
    for (m, n, _) in &handed[..2] {
        let (mut slip, mut cells) = (vec![LENT; 260], vec![LENT; 26]);
        let right = enumerate(*m, *n, 0, &mut slip).is_ok() && tally(*m, *n, &mut cells).is_ok();
        group.check(right, || format!("the right sizes for {m}, {n}"));
        let zeros = padded(&[], *n as usize);
        group.check(slip == slip_of(u64::from(*m), &zeros), || format!("{slip:?}"));
    }
}

// ---- the replay ----

/// An opening or a column for the reading that is held, which the census does not touch.
fn held(operation: Operation, number: u32, list: &[u8]) -> Call {
    let lengths = [list.len() as u16, 0, 0];
    Call { operation, fill: 0xee, number, lengths, l: 0, payload: list.to_vec() }
}

/// Each call with its line. The hashes were computed apart from this program, from the bytes that
/// the papers ask for: those of README.md among them.
fn script() -> Vec<(Call, &'static str)> {
    let number = |m, n, number, size| enumerating((m, n), number, size, 0xee);
    let tally = |m, n, size| tallying((m, n), size, 0xee);
    let column = [6, 0, 3, 0, 1, 0, 5, 0, 6, 0];
    vec![
        (held(Operation::Open, 9, &[]), "open ok 50315e8c"),
        (held(Operation::PushAll, 0, &column), "push_all taken 5 ok 2f8aa196 17edca52"),
        (number(10, 3, 527, 260), "enumerate ok aefa0a24"),
        (tally(2, 3, 26), "tally ok 9a4cfe13"),
        (tally(4, 2, 26), "tally ok c15a0c03"),
        (number(9, 5, 1, 260), "enumerate refused 33 0de6c695"),
        (number(2, 3, 8, 260), "enumerate refused 33 0de6c695"),
        (number(2, 12, 4095, 260), "enumerate ok f357fadb"),
        (number(2, 12, (1 << 32) + 4095, 260), "enumerate refused 33 0de6c695"),
        (number(4095, 1, 4094, 260), "enumerate ok fba10599"),
        (number(7, 0, 0, 260), "enumerate ok f1abffe2"),
        (number(2, 13, 0, 260), "enumerate refused 33 0de6c695"),
        (number(2, 129, 0, 260), "enumerate refused 2 0de6c695"),
        (number(1, 0, 0, 260), "enumerate refused 1 0de6c695"),
        (number(4096, 0, 0, 260), "enumerate refused 1 0de6c695"),
        (number(65538, 3, 0, 260), "enumerate refused 1 0de6c695"),
        (number(2, 65539, 0, 260), "enumerate refused 2 0de6c695"),
        (number(2, 3, 0, 259), "enumerate refused 5 9345d0d9"),
        (number(2, 3, 0, 26), "enumerate refused 5 9f78436d"),
        (number(0, 0, 0, 0), "enumerate refused 5 811c9dc5"),
        (tally(4095, 0, 26), "tally ok 5b8726e4"),
        (tally(4095, 1, 26), "tally ok 0f2a7adb"),
        (tally(2, 12, 26), "tally ok 5bec2e62"),
        (tally(65, 2, 26), "tally refused 33 9f78436d"),
        (tally(2, 128, 26), "tally refused 33 9f78436d"),
        (tally(2, u32::MAX, 26), "tally refused 2 9f78436d"),
        (tally(u32::MAX, 0, 26), "tally refused 1 9f78436d"),
        (tally(2, 3, 260), "tally refused 5 0de6c695"),
        (tally(2, 3, 27), "tally refused 5 8d524739"),
        (tally(2, 13, 25), "tally refused 5 2725c611"),
        (held(Operation::PushAll, 0, &[]), "push_all taken 0 ok 2f8aa196 811c9dc5"),
    ]
}

/// The lines one by one, the bytes of each kind of call, and scripts that are cut inside the
/// numbers of the payload.
fn replayed(group: &mut Group) {
    let script = script();
    let bytes: Vec<u8> = script.iter().flat_map(|(call, _)| call.bytes()).collect();
    let (text, whole) = replay(&bytes);
    group.check(whole && text.lines().count() == script.len(), || text.clone());
    for (line, (_, expected)) in text.lines().zip(&script) {
        group.check(line == *expected, || format!("{line} for {expected}"));
    }
    let header = |operation, m, size: [u8; 2]| {
        [&[operation, 0xee, 0, 0, m, 0, 0, 0][..], &size, &[0; 6]].concat()
    };
    let numbered = [&header(14, 10, [4, 1])[..], &[3, 0, 0, 0, 15, 2, 0, 0, 0, 0, 0, 0]].concat();
    let tallied = [&header(15, 2, [26, 0])[..], &[3, 0, 0, 0]].concat();
    for ((call, line), parts) in script[2..].iter().zip([numbered, tallied]) {
        group.check(call.bytes() == parts, || format!("{:?}", call.bytes()));
        group.check(replay(&parts) == (format!("{line}\n"), true), || format!("{line}"));
        for cut in 1..parts.len() {
            let (text, whole) = replay(&parts[..cut]);
            group.check(!whole && text == "script cut short\n", || format!("{cut}: {text}"));
        }
    }
}
