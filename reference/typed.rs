//! Random typed lines (02, A3), good and damaged.

use crate::ask::LINE_LIMIT;
use crate::limits::TERMS_LIMIT;
use crate::random::Random;
use crate::sequences::{modulus, terms, uniform};

const DIGITS: &[u8] = b"0123456789";

/// Moduli that get 1 or 28. Some would be 9 if they were cut to two, four or eight bytes.
const WILD_MODULI: [&str; 15] = [
    "0",
    "1",
    "4096",
    "4097",
    "65536",
    "65537",
    "65545",
    "2147483647",
    "2147483648",
    "4294967296",
    "4294967305",
    "9999999999",
    "18446744073709551625",
    "340282366920938463463374607431768211465",
    "00000000000000000000000000000000000000000",
];

// ---- lines that keep their form ----

/// A random line without an end mark: as it should be, or damaged once or twice.
pub fn line(random: &mut Random) -> Vec<u8> {
    let mut line = match random.below(1600) {
        0..=1 => {
            let size = random.between(50_000, LINE_LIMIT as u64 - 1) as usize;
            stretched(random, size)
        }
        2..=6 => {
            let size = random.between(1000, 8000) as usize;
            stretched(random, size)
        }
        7..=10 => with_long_number(random),
        11..=13 => {
            let n = random.between(500, 3000) as usize;
            crowded(random, n)
        }
        14..=80 => {
            let n = random.pick(&[128, 129, 129, 130, 256, 257, 384]);
            crowded(random, n)
        }
        _ => ordinary(random),
    };
    if random.once_in(2) {
        damage(random, &mut line);
        if random.once_in(4) {
            damage(random, &mut line);
        }
    }
    line
}

fn ordinary(random: &mut Random) -> Vec<u8> {
    let m = modulus(random);
    let n = match random.below(40) {
        0..=2 => 0,
        3..=5 => 1,
        6..=8 => random.pick(&[127, 128, 129, 200]),
        9..=16 => random.place(33),
        _ => random.place(9),
    };
    let written = if random.once_in(8) {
        random.pick(&WILD_MODULI).as_bytes().to_vec()
    } else {
        m.to_string().into_bytes()
    };
    let digits = with_zeros(random, written);
    with_terms(random, m, digits, n)
}

/// The line of a modulus in digits and of n terms that make sense modulo m.
fn with_terms(random: &mut Random, m: u64, digits: Vec<u8>, n: usize) -> Vec<u8> {
    let widest = random.pick(&[0, 0, 1, 2, 5]);
    let mut line = [b"mod ", &digits[..], b":"].concat();
    let values = values(random, m as i64, n);
    // Where there are no terms there may still be blanks.
    line.extend(blanks(random, widest));
    for (i, &value) in values.iter().enumerate() {
        if i > 0 {
            line.push(b',');
            line.extend(blanks(random, widest));
        }
        line.extend(term(random, value));
        line.extend(blanks(random, widest));
    }
    line
}

fn blanks(random: &mut Random, widest: u64) -> Vec<u8> {
    vec![b' '; random.between(0, widest) as usize]
}

/// The digits, now and then with zeros before them.
fn with_zeros(random: &mut Random, digits: Vec<u8>) -> Vec<u8> {
    let zeros = match random.below(120) {
        0 => random.between(4, 60),
        1..=12 => random.between(1, 3),
        _ => 0,
    };
    [vec![b'0'; zeros as usize], digits].concat()
}

/// A number as it may be typed; 0 may have a minus.
fn term(random: &mut Random, value: i64) -> Vec<u8> {
    let digits = with_zeros(random, value.unsigned_abs().to_string().into_bytes());
    let minus = value < 0 || (value == 0 && random.once_in(3));
    [if minus { &b"-"[..] } else { b"" }, &digits].concat()
}

/// Numbers of a typed term's range: edges, anything, or the terms of a sequence, each
/// moved by a multiple of m.
fn values(random: &mut Random, m: i64, n: usize) -> Vec<i64> {
    match random.below(6) {
        0 => (0..n).map(|_| edge(random, m)).collect(),
        1 => (0..n).map(|_| random.below(1 << 32) as i64 - (1 << 31)).collect(),
        _ => {
            let mut sequence = terms(random, m as u64, n.min(TERMS_LIMIT));
            sequence.extend(uniform(random, m as u64, n.saturating_sub(TERMS_LIMIT)));
            let often = random.pick(&[1, 2, 8]);
            sequence.into_iter().map(|term| moved(random, m, term as i64, often)).collect()
        }
    }
}

/// The ends of the range, numbers next to 0 and next to multiples of m.
fn edge(random: &mut Random, m: i64) -> i64 {
    let (low, high) = (-(1 << 31), (1 << 31) - 1);
    let multiple = (random.below(1 << 32) as i64 + low) / m * m;
    let near = random.pick(&[m, -m, m - 1, 1 - m, m + 1, multiple, multiple, 10 * m]);
    random.pick(&[low, low + 1, low + 2, high, high - 1, -1, 0, 1, near, near, near])
}

/// Once in `often` the term plus a multiple of m: one m less or more, or any that the
/// range has.
fn moved(random: &mut Random, m: i64, term: i64, often: u64) -> i64 {
    if !random.once_in(often) {
        return term;
    }
    let (least, most) = (-((1 << 31) + term) / m, ((1 << 31) - 1 - term) / m);
    let any = least + random.below((most - least + 1) as u64) as i64;
    term + m * random.pick(&[-1, -1, 1, any, any])
}

/// Many short terms, mostly with a modulus or an end that is refused before their count.
fn crowded(random: &mut Random, n: usize) -> Vec<u8> {
    let modulus = random.pick(&["8", "08", "4095", "4096", "0", "2147483647"]);
    let list: Vec<String> = uniform(random, 8, n).iter().map(u64::to_string).collect();
    let mut line = format!("mod {modulus}:{}", list.join(",")).into_bytes();
    if !random.once_in(3) {
        line.extend(random.pick(&ENDINGS));
    }
    line
}

/// 28, with thousands of digits in a term.
fn with_long_number(random: &mut Random) -> Vec<u8> {
    let mut line = ordinary(random);
    let digits = (0..random.between(500, 6000)).map(|_| random.pick(DIGITS)).collect();
    insert_before(random, &mut line, b",", digits);
    line
}

/// A line of exactly this size that reads well: zeros before the modulus and before a
/// term, blanks before the first term and at the end.
pub fn stretched(random: &mut Random, size: usize) -> Vec<u8> {
    let m = modulus(random);
    let n = random.between(1, TERMS_LIMIT as u64 - 1) as usize;
    let list: Vec<String> = terms(random, m, n).iter().map(u64::to_string).collect();
    let pieces = ["mod ", &format!("{m}:"), &format!("{},-", list.join(",")), "1", ""];
    let mut missing = size - pieces.concat().len();
    let mut line = Vec::new();
    for (piece, filler) in pieces.into_iter().zip([b'0', b' ', b'0', b' ', b' ']) {
        line.extend(piece.as_bytes());
        let taken = if piece.is_empty() { missing } else { random.place(missing / 2 + 1) };
        line.extend(vec![filler; taken]);
        missing -= taken;
    }
    line
}

// ---- damage ----

/// Bytes that have their places in a line.
const USUAL: &[u8] = b"0123456789,- :";

/// Bytes whose codes are next to those of a line's bytes, or that may pass for them.
const STRANGE: &[u8] = b"/:;+.!MmOod_\t\n\r\x00\x0b\x1f\x7f\x80\xa0\xac\xad\xb0\xb9\xff";

/// What is put in, and before which bytes: blanks inside numbers, commas without terms,
/// minuses without digits, second ones, numbers that pass their range.
const INSERTIONS: [(&[u8], &[u8]); 19] = [
    (DIGITS, b" "),
    (DIGITS, b" "),
    (DIGITS, b"+"),
    (DIGITS, b"-"),
    (DIGITS, b"\t"),
    (DIGITS, b"99999999999"),
    (DIGITS, b"2147483648"),
    (b",", b","),
    (b",", b", "),
    (b",", b",-"),
    (b",", b",-2147483649"),
    (b",", b",00002147483648 "),
    (b",", b" 1,2147483648"),
    (b",", b",2147483648,x"),
    (b"-", b"-"),
    (b"-", b"- "),
    (b":", b" "),
    (b":", b":"),
    (b":", b"-"),
];

/// What is put at the end.
const ENDINGS: [&[u8]; 10] =
    [b",", b", ", b"-", b",-", b", - ", b"\r", b" 1", b",2147483648", b",-2147483649x", b",+1"];

/// Puts some kind of fault into a line; a few of them leave it a line that reads well.
fn damage(random: &mut Random, line: &mut Vec<u8>) {
    let place = random.place(line.len() + 1);
    let (any, strange, usual) = (random.byte(), random.pick(STRANGE), random.pick(USUAL));
    let byte = random.pick(&[any, strange, usual, b'\r']);
    match random.below(16) {
        0..=2 if place < line.len() => line[place] = byte,
        3..=4 => line.insert(place, byte),
        5 if place < line.len() => drop(line.remove(place)),
        6..=7 => line.truncate(place),
        8 => line.extend(random.pick(&ENDINGS)),
        9 => damage_start(random, line),
        10 => {
            // Two numbers pass their range.
            insert_before(random, line, b",", b"2147483648".to_vec());
            insert_before(random, line, b",", b",-99999999999".to_vec());
        }
        _ => {
            let (before, text) = random.pick(&INSERTIONS);
            insert_before(random, line, before, text.to_vec());
        }
    }
}

/// Puts the text before one of the bytes told, or at the end if there is none.
fn insert_before(random: &mut Random, line: &mut Vec<u8>, before: &[u8], text: Vec<u8>) {
    let places: Vec<usize> = (0..line.len()).filter(|&i| before.contains(&line[i])).collect();
    let place = if places.is_empty() { line.len() } else { random.pick(&places) };
    line.splice(place..place, text);
}

/// Another start than the fixed one, or blanks around it.
fn damage_start(random: &mut Random, line: &mut Vec<u8>) {
    let starts: [&[u8]; 9] =
        [b"", b" mod ", b"mod  ", b"mod", b"Mod ", b"MOD ", b"mod\t", b"mod -", b"mod +"];
    let end = line.len().min(4);
    line.splice(..end, random.pick(&starts).to_vec());
}

// ---- lines end to end ----

/// From this many lines on there are some at the limit of what is read.
const LINES_WITH_LONG: u64 = 50;

/// `typed SEED COUNT`: that many lines with their end marks; for one seed in two the last
/// has none. A line feed that is put into a line makes two of it.
pub fn typed(seed: u64, count: u64) -> Vec<u8> {
    let mut random = Random::new(seed);
    let mut input = Vec::new();
    let mut unmarked = 0;
    for i in 0..count {
        let long = if count >= LINES_WITH_LONG { long_line(&mut random, i) } else { None };
        let (line, mark) = long.unwrap_or_else(|| {
            let mark: &[u8] = if random.once_in(5) { b"\r\n" } else { b"\n" };
            (line(&mut random), mark)
        });
        input.extend(line);
        unmarked = input.len();
        input.extend(mark);
    }
    if random.once_in(2) {
        input.truncate(unmarked);
    }
    input
}

/// The line and the end mark for some places: lines of the limit with each end mark, one
/// above it, far above it, and those where a carriage return next to it is no end mark.
fn long_line(random: &mut Random, place: u64) -> Option<(Vec<u8>, &'static [u8])> {
    let (size, after, mark): (usize, &[u8], &[u8]) = match place {
        5 => (LINE_LIMIT, b"", b"\n"),
        12 => (LINE_LIMIT, b"", b"\r\n"),
        19 => (LINE_LIMIT + 1, b"", b"\n"),
        26 => (LINE_LIMIT + 75_000, b"", b"\n"),
        33 => (LINE_LIMIT, b"\r,1", b"\n"),
        40 => (LINE_LIMIT - 1, b"\r", b"\r\n"),
        47 => (LINE_LIMIT, b"\r", b"\r\n"),
        _ => return None,
    };
    let mut line = stretched(random, size);
    line.extend(after);
    Some((line, mark))
}
