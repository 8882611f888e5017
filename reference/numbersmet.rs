//! What the numbers and tallies of a script meet (02, A11), and what the lines of the census do:
//! each count of terms, moduli of each kind, every tally, each refusal and what it comes before.
//! Limits and sizes are numbers here, as the papers have them.

use crate::censuscases::expected;
use crate::checks::Group;
use crate::coverage::{count, often, Kinds, Tally};
use crate::numbers::{longer_pairs, Pair};
use crate::residue::prime_powers;
use crate::script::{Call, Operation};

/// What calls of both kinds must be.
const KINDS: [&str; 37] = [
    "answered, no term",
    "answered, one term",
    "answered, 12 terms",
    "answered, a power of 4,096",
    "answered, a prime modulus",
    "answered, a prime power that is no prime",
    "answered, a modulus of several primes",
    "answered, the largest modulus of all",
    "answered, the largest modulus for the count",
    "5, no byte",
    "5, one byte less",
    "5, one byte more",
    "5, as many as the other call has",
    "5, half as many",
    "5, another size",
    "1, modulus 0",
    "1, modulus 1",
    "1, the next modulus",
    "1, modulus 65,535",
    "1, within its limit in 16 bits",
    "1, the largest number",
    "1, another modulus",
    "2, 129 terms",
    "2, at most 12 in 8 bits",
    "2, at most 12 in 16 bits",
    "2, at most 12 in 31 bits",
    "2, the largest number",
    "2, another count",
    "33, the next modulus for the count",
    "33, the next count for the modulus",
    "33, 13 terms",
    "33, 127 terms",
    "33, 128 terms",
    "33, up to 12 terms, far above",
    "33, a power that is small in 16 bits",
    "33, a power that is 0 in 32 bits",
    "33, a power that is 0 in 64 bits",
];

/// What calls for a number must be besides.
const KINDS_OF_NUMBERS: [&str; 16] = [
    "the first number",
    "the first number of several",
    "the last number",
    "the last but one",
    "a number above 255",
    "a first term of 0 and then another",
    "a last term of 0 after another",
    "33, the next number",
    "33, the next but one",
    "33, no term and the number 1",
    "33, a number up to 4,096",
    "33, a power of the modulus",
    "33, a number that is below it in 16 bits",
    "33, a number that is below it in 32 bits",
    "33, a number from 2^63 on",
    "33, the largest number",
];

/// What a call is handed.
struct Handed {
    pair: Pair,
    /// Of a call for a number.
    number: Option<u64>,
    size: usize,
}

impl Handed {
    fn of(call: &Call) -> Option<Handed> {
        let low_first = |bytes: &[u8]| {
            bytes.iter().rev().fold(0, |value: u64, &byte| value * 256 + u64::from(byte))
        };
        let (count, number) = match call.operation {
            Operation::Enumerate => (&call.payload[..4], Some(low_first(&call.payload[4..]))),
            Operation::Tally => (&call.payload[..], None),
            _ => return None,
        };
        let pair = (call.number, low_first(count) as u32);
        Some(Handed { pair, number, size: call.lengths[0] as usize })
    }

    fn right_size(&self) -> usize {
        self.number.map_or(26, |_| 260)
    }

    /// All that is wrong, in the order of the refusals.
    fn wrong(&self) -> Vec<u32> {
        let (m, n) = self.pair;
        let mut wrong = Vec::new();
        wrong.extend((self.size != self.right_size()).then_some(5));
        wrong.extend((!(2..=4095).contains(&m)).then_some(1));
        wrong.extend((n > 128).then_some(2));
        let power = f64::from(m).powf(f64::from(n));
        let past = power > 4096.0 || self.number.is_some_and(|number| number as f64 >= power);
        wrong.extend(past.then_some(33));
        wrong
    }
}

/// What the calls of a script meet: those for a number, and tallies.
struct Met {
    kinds: [Tally<&'static str>; 2],
    orders: [Tally<(u32, u32)>; 2],
    /// The pairs that are answered.
    pairs: [Tally<Pair>; 2],
}

fn met_in(script: &[u8]) -> Met {
    let mut met = Met {
        kinds: [Tally::new(), Tally::new()],
        orders: [Tally::new(), Tally::new()],
        pairs: [Tally::new(), Tally::new()],
    };
    let mut rest = script;
    while let Ok((call, size)) = Call::parse(rest) {
        rest = &rest[size..];
        if let Some(handed) = Handed::of(&call) {
            met.note(&handed);
        }
    }
    met
}

pub fn met(group: &mut Group, script: &[u8]) {
    let met = met_in(script);
    let all = [KINDS.to_vec(), KINDS_OF_NUMBERS.to_vec()].concat();
    for (name, tally, kinds) in
        [("numbers", &met.kinds[0], &all[..]), ("tallies", &met.kinds[1], &KINDS[..])]
    {
        for kind in kinds {
            often(group, tally.get(kind).copied().unwrap_or(0), || format!("{name}: {kind}"));
        }
        let known = tally.len() == kinds.len();
        group.check(known, || format!("kinds of {name}: {tally:?}"));
    }
    orders_met(group, &met);
    for n in 0..=12 {
        let times = met.pairs[0].keys().filter(|pair| pair.1 == n).count();
        group.check(times > 0, || format!("numbers: {n} terms"));
    }
}

/// Every tally from two terms on; those by hand have them.
pub fn tallies_met(group: &mut Group, script: &[u8]) {
    let met = met_in(script);
    for pair in longer_pairs() {
        group.check(met.pairs[1].contains_key(&pair), || format!("tallies: {pair:?}"));
    }
}

impl Met {
    fn note(&mut self, handed: &Handed) {
        let call = usize::from(handed.number.is_none());
        let wrong = handed.wrong();
        match wrong.split_first() {
            None => count(&mut self.pairs[call], handed.pair),
            Some((&first, later)) => {
                later.iter().for_each(|&next| count(&mut self.orders[call], (first, next)));
            }
        }
        let mut kinds = kinds_of(handed, wrong.first().copied());
        if let Some(number) = handed.number {
            kinds.extend(kinds_of_number(handed.pair, number, &wrong));
        }
        for (kind, applies) in kinds {
            *self.kinds[call].entry(kind).or_insert(0) += usize::from(applies);
        }
    }
}

/// Each refusal before each that comes after it. 1, which is the first to look at the modulus,
/// may come with a power of 0 or 1, and 2 has a power that is too large.
fn orders_met(group: &mut Group, met: &Met) {
    for (name, orders) in ["numbers", "tallies"].iter().zip(&met.orders) {
        for pair in [(5, 1), (5, 2), (5, 33), (1, 2), (1, 33), (2, 33)] {
            let times = orders.get(&pair).copied().unwrap_or(0);
            often(group, times, || format!("{name}: {} before {}", pair.0, pair.1));
        }
    }
}

// ---- kinds ----

fn kinds_of(handed: &Handed, refused: Option<u32>) -> Kinds {
    let (m, n) = handed.pair;
    match refused {
        None => kinds_of_answered(m, n),
        Some(5) => kinds_of_size(handed.size, handed.right_size()),
        Some(1) => kinds_of_modulus(m),
        Some(2) => kinds_of_count(n),
        Some(_) if expected(m, n).is_err() => kinds_of_power(m, n),
        Some(_) => Vec::new(),
    }
}

fn kinds_of_answered(m: u32, n: u32) -> Kinds {
    let powers = prime_powers(u64::from(m));
    let single = powers.len() == 1;
    vec![
        ("answered, no term", n == 0),
        ("answered, one term", n == 1),
        ("answered, 12 terms", n == 12),
        ("answered, a power of 4,096", expected(m, n) == Ok(4096)),
        ("answered, a prime modulus", single && powers[0].e == 1),
        ("answered, a prime power that is no prime", single && powers[0].e > 1),
        ("answered, a modulus of several primes", !single),
        ("answered, the largest modulus of all", m == 4095),
        ("answered, the largest modulus for the count", n > 1 && expected(m + 1, n).is_err()),
    ]
}

fn kinds_of_size(size: usize, right: usize) -> Kinds {
    let other = 260 + 26 - right;
    let known = [0, right - 1, right + 1, other, right / 2].contains(&size);
    vec![
        ("5, no byte", size == 0),
        ("5, one byte less", size == right - 1),
        ("5, one byte more", size == right + 1),
        ("5, as many as the other call has", size == other),
        ("5, half as many", size == right / 2),
        ("5, another size", !known),
    ]
}

fn kinds_of_modulus(m: u32) -> Kinds {
    let cut = m >= 65536 && (2..=4095).contains(&(m % 65536));
    let known = cut || [0, 1, 4096, 65535, u32::MAX].contains(&m);
    vec![
        ("1, modulus 0", m == 0),
        ("1, modulus 1", m == 1),
        ("1, the next modulus", m == 4096),
        ("1, modulus 65,535", m == 65535),
        ("1, within its limit in 16 bits", cut),
        ("1, the largest number", m == u32::MAX),
        ("1, another modulus", !known),
    ]
}

fn kinds_of_count(n: u32) -> Kinds {
    let cut = |bits: u32| n % (1 << bits) <= 12;
    let known = n == 129 || n == u32::MAX || cut(8);
    vec![
        ("2, 129 terms", n == 129),
        ("2, at most 12 in 8 bits", cut(8) && !cut(16)),
        ("2, at most 12 in 16 bits", cut(16) && !cut(31)),
        ("2, at most 12 in 31 bits", cut(31)),
        ("2, the largest number", n == u32::MAX),
        ("2, another count", !known),
    ]
}

/// The power is above 4,096.
fn kinds_of_power(m: u32, n: u32) -> Kinds {
    let small = |bits: u32| {
        (0..n).fold(1, |power, _| power * u128::from(m) % (1 << bits)) <= 4096
    };
    let next_modulus = expected(m - 1, n).is_ok();
    let next_count = expected(m, n - 1).is_ok();
    vec![
        ("33, the next modulus for the count", next_modulus),
        ("33, the next count for the modulus", next_count),
        ("33, 13 terms", n == 13),
        ("33, 127 terms", n == 127),
        ("33, 128 terms", n == 128),
        ("33, up to 12 terms, far above", n <= 12 && !next_modulus && !next_count),
        ("33, a power that is small in 16 bits", m % 2 == 1 && small(16)),
        ("33, a power that is 0 in 32 bits", small(32) && !small(64)),
        ("33, a power that is 0 in 64 bits", small(64)),
    ]
}

/// Of a number that is answered, or gets 33 for itself.
fn kinds_of_number((m, n): Pair, number: u64, wrong: &[u32]) -> Kinds {
    let Ok(power) = expected(m, n) else { return Vec::new() };
    let modulus = u64::from(m);
    match wrong {
        [] => vec![
            ("the first number", number == 0),
            ("the first number of several", number == 0 && n > 0),
            ("the last number", n > 0 && number == power - 1),
            ("the last but one", number + 2 == power),
            ("a number above 255", number > 255),
            ("a first term of 0 and then another", number > 0 && number < power / modulus),
            ("a last term of 0 after another", n > 0 && number > 0 && number % modulus == 0),
        ],
        [33] => {
            let is_power = (1..=12).any(|e| number as f64 == f64::from(m).powi(e));
            vec![
                ("33, the next number", number == power),
                ("33, the next but one", number == power + 1),
                ("33, no term and the number 1", (n, number) == (0, 1)),
                ("33, a number up to 4,096", number > power && number <= 4096),
                ("33, a power of the modulus", number > power && is_power),
                ("33, a number that is below it in 16 bits", number % (1 << 16) < power),
                ("33, a number that is below it in 32 bits", number % (1 << 32) < power),
                ("33, a number from 2^63 on", number >= 1 << 63),
                ("33, the largest number", number == u64::MAX),
            ]
        }
        _ => Vec::new(),
    }
}

// ---- lines ----

/// What the lines of the census must be.
const KINDS_OF_LINES: [&str; 14] = [
    "zeros before the modulus",
    "zeros before the count",
    "many zeros",
    "a carriage return at the end",
    "no carriage return",
    "ten digits",
    "the largest number",
    "no term",
    "one term",
    "above 700 sequences",
    "a power of 4,096",
    "a prime modulus",
    "a prime power that is no prime",
    "a modulus of several primes",
];

/// The lines of an input, all of the right form: each count of terms, and each kind.
pub fn lines_met(group: &mut Group, input: &[u8]) {
    let mut tally = Tally::new();
    let mut counts = Tally::new();
    for line in String::from_utf8_lossy(input).split_terminator('\n') {
        let plain = line.trim_end_matches('\r');
        let (modulus, terms) = plain.split_once(' ').unwrap_or(("", ""));
        let numbers = (modulus.parse(), terms.parse());
        let (Ok(m), Ok(n)) = numbers else {
            group.check(false, || format!("a line of the right form: {line:?}"));
            continue;
        };
        if expected(m, n).is_ok() {
            count(&mut counts, n);
        }
        for (kind, applies) in kinds_of_line(line, (modulus, terms), (m, n)) {
            *tally.entry(kind).or_insert(0) += usize::from(applies);
        }
    }
    for kind in KINDS_OF_LINES {
        often(group, tally.get(kind).copied().unwrap_or(0), || format!("lines: {kind}"));
    }
    group.check(tally.len() == KINDS_OF_LINES.len(), || format!("kinds of lines: {tally:?}"));
    let sizes: Vec<usize> = input.split(|&byte| byte == b'\n').map(<[u8]>::len).collect();
    // Without its end mark, of which the line feed is not there, and with a carriage return.
    let longest = [65_536, 65_537].map(|size| sizes.contains(&size));
    group.check(longest == [true; 2], || format!("the longest lines: {longest:?}"));
    for n in 0..=12 {
        group.check(counts.contains_key(&n), || format!("lines: {n} terms"));
    }
}

fn kinds_of_line(line: &str, (modulus, terms): (&str, &str), (m, n): Pair) -> Kinds {
    let led = |digits: &str| digits.len() > 1 && digits.starts_with('0');
    let returned = line.ends_with('\r');
    let answered = expected(m, n);
    let powers = prime_powers(u64::from(if answered.is_ok() { m } else { 0 }));
    let single = powers.len() == 1;
    vec![
        ("zeros before the modulus", led(modulus)),
        ("zeros before the count", led(terms)),
        ("many zeros", line.starts_with("00000") || terms.starts_with("00000")),
        ("a carriage return at the end", returned),
        ("no carriage return", !returned),
        ("ten digits", m >= 1_000_000_000 || n >= 1_000_000_000),
        ("the largest number", m == u32::MAX || n == u32::MAX),
        ("no term", answered.is_ok() && n == 0),
        ("one term", answered.is_ok() && n == 1),
        ("above 700 sequences", answered.is_ok_and(|power| power > 700)),
        ("a power of 4,096", answered == Ok(4096)),
        ("a prime modulus", single && powers[0].e == 1),
        ("a prime power that is no prime", single && powers[0].e > 1),
        ("a modulus of several primes", powers.len() > 1),
    ]
}
