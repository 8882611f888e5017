//! A script of readings of typed lines (02, A3): first each place and each order by hand,
//! then random lines.

use crate::limits::{SLIP_BYTES, TERMS_LIMIT};
use crate::random::Random;
use crate::script::{Call, Operation};
use crate::typed;

/// The line that every byte is put into at every place; it has a term after a minus, one
/// with leading zeros, and blanks before and after a term.
pub const BASE: &[u8] = b"mod 12: -3 ,007";

/// What a slip buffer is filled with where the lines are not random.
const FILL: u8 = 0xa5;

/// `linecalls SEED COUNT`: the readings by hand, then that many random ones.
pub fn linecalls(seed: u64, count: u64) -> Vec<u8> {
    let mut random = Random::new(seed);
    let mut script = Vec::new();
    for (line, size) in by_hand() {
        script.extend(reading(line, size, FILL).bytes());
    }
    for _ in 0..count {
        let line = typed::line(&mut random);
        let wrong = random.pick(&[0, 259, 261, 130, 520]);
        let size = if random.once_in(16) { wrong } else { SLIP_BYTES };
        let (any, usual) = (random.byte(), random.pick(&[0, 0xff, FILL]));
        let fill = random.pick(&[any, usual]);
        script.extend(reading(line, size, fill).bytes());
    }
    script
}

/// A call; a line that is longer than the script can say is cut.
pub fn reading(mut line: Vec<u8>, size: usize, fill: u8) -> Call {
    line.truncate(usize::from(u16::MAX));
    Call {
        operation: Operation::ReadLine,
        fill,
        number: 0,
        lengths: [line.len() as u16, size as u16, 0],
        l: 0,
        payload: line,
    }
}

/// Lines and the sizes of the slip buffers lent for them.
fn by_hand() -> Vec<(Vec<u8>, usize)> {
    let lines = [bytes_at_places(), starts(), ends_of_ranges(), counts()].concat();
    let mut all: Vec<(Vec<u8>, usize)> = lines.into_iter().map(|line| (line, SLIP_BYTES)).collect();
    all.extend(orders());
    all
}

/// Every byte in the place of each byte of the base line.
fn bytes_at_places() -> Vec<Vec<u8>> {
    let mut lines = Vec::new();
    for place in 0..BASE.len() {
        for byte in 0..=255 {
            let mut line = BASE.to_vec();
            line[place] = byte;
            lines.push(line);
        }
    }
    lines
}

/// Every start of the base line, nothing and all among them.
fn starts() -> Vec<Vec<u8>> {
    (0..=BASE.len()).map(|size| BASE[..size].to_vec()).collect()
}

/// The ends of the ranges with their neighbours, and numbers that would be within them if
/// they were cut to four, eight or sixteen bytes.
const NUMBERS: [&str; 26] = [
    "0",
    "1",
    "2",
    "4094",
    "4095",
    "4096",
    "999999999",
    "1000000000",
    "2147483639",
    "2147483640",
    "2147483646",
    "2147483647",
    "2147483648",
    "2147483649",
    "2147483650",
    "2147483657",
    "3000000000",
    "4294967295",
    "4294967296",
    "4294967305",
    "9999999999",
    "10000000000",
    "21474836470",
    "18446744073709551615",
    "18446744073709551625",
    "340282366920938463463374607431768211465",
];

/// Each number as a modulus and as a term, with a minus, with zeros before it, and with a
/// byte after it that breaks the form.
fn ends_of_ranges() -> Vec<Vec<u8>> {
    let mut lines = Vec::new();
    for number in NUMBERS {
        for zeros in ["", "0", "00000000000"] {
            let digits = format!("{zeros}{number}");
            lines.push(format!("mod {digits}:1"));
            lines.push(format!("mod {digits}"));
            lines.push(format!("mod 9:{digits}"));
            lines.push(format!("mod 4095: -{digits} ,1"));
            lines.push(format!("mod 10:1,-{digits}x"));
        }
    }
    lines.into_iter().map(String::into_bytes).collect()
}

/// A line modulo m with n ones and then the text.
fn ones(m: u64, n: usize, text: &str) -> Vec<u8> {
    format!("mod {m}:{}{text}", vec!["1"; n].join(",")).into_bytes()
}

fn counts() -> Vec<Vec<u8>> {
    let counts = [0, 1, TERMS_LIMIT - 1, TERMS_LIMIT, TERMS_LIMIT + 1, 256, 257, 384];
    counts.into_iter().map(|n| ones(7, n, "")).collect()
}

/// Each pair of refusals in their order: 5, 27 or 28 by their places, 1, 2.
fn orders() -> Vec<(Vec<u8>, usize)> {
    let mut all = Vec::new();
    for size in [0, 130, 259, 261, 520] {
        for line in ["mod 9:x", "mod 9:2147483648", "mod 1:", "mod 9:1"] {
            all.push((line.as_bytes().to_vec(), size));
        }
        all.push((ones(9, 129, ""), size));
    }
    let pairs = [
        // 27 before 1 and before 2, the fault after the 129th term.
        ones(1, 2, ","),
        ones(4096, 1, " 1"),
        ones(9, 129, ","),
        ones(9, 129, ",x"),
        ones(9, 129, " 1"),
        // 28 before 1 and before 2.
        ones(0, 1, ",2147483648"),
        ones(4096, 1, ",-2147483649"),
        ones(9, 129, ",2147483648"),
        ones(9, 129, ",-2147483649,1"),
        // 1 before 2.
        ones(1, 129, ""),
        ones(4096, 129, ""),
        // 27 before a later 28, and 28 before a later 27, then with 1 and 2 as well.
        ones(9, 1, " 1,2147483648"),
        ones(9, 1, ",2147483648,x"),
        ones(9, 1, ",2147483648 1"),
        ones(9, 1, ",21474836480x"),
        ones(4096, 129, "x,2147483648"),
        ones(4096, 129, ",2147483648,x"),
        ones(2147483648, 129, ",x"),
    ];
    all.extend(pairs.map(|line| (line, SLIP_BYTES)));
    all
}
