//! A script of sequences by their numbers and of tallies (02, A11): first whole dictionaries, every
//! tally, each limit and each refusal by hand, then random ones.

use crate::census::how_many;
use crate::limits::*;
use crate::random::Random;
use crate::scenarios::plain;
use crate::script::{Call, Operation};
use crate::sequences;

/// What a buffer is filled with where the calls are not random.
const FILL: u8 = 0xa5;

/// A modulus and a count of terms, as they are handed in.
pub type Pair = (u32, u32);

/// `numbers SEED COUNT`: the calls by hand, then that many random ones.
pub fn numbers(seed: u64, count: u64) -> Vec<u8> {
    let mut script: Vec<u8> = by_hand().iter().flat_map(Call::bytes).collect();
    script.extend(rounds(seed, count));
    script
}

/// A call for the slip with a number, lent a buffer of this size.
pub fn enumerating((m, n): Pair, number: u64, size: usize, fill: u8) -> Call {
    let payload = [&n.to_le_bytes()[..], &number.to_le_bytes()].concat();
    let lengths = [size as u16, 0, 0];
    Call { operation: Operation::Enumerate, fill, number: m, lengths, l: 0, payload }
}

/// A call for a tally, lent a buffer of this size.
pub fn tallying((m, n): Pair, size: usize, fill: u8) -> Call {
    let (lengths, payload) = ([size as u16, 0, 0], n.to_le_bytes().to_vec());
    Call { operation: Operation::Tally, fill, number: m, lengths, l: 0, payload }
}

/// A call with a number and one for the tally, both with the right buffer.
fn both(pair: Pair, number: u64) -> [Call; 2] {
    [enumerating(pair, number, SLIP_BYTES, FILL), tallying(pair, TALLY_BYTES, FILL)]
}

/// The calls with each of these numbers, and the right buffer.
fn each_number(pair: Pair, numbers: impl IntoIterator<Item = u64>) -> Vec<Call> {
    numbers.into_iter().map(|number| enumerating(pair, number, SLIP_BYTES, FILL)).collect()
}

/// The power of a legal modulus, where it is within its limit.
fn power(pair: Pair) -> Option<u64> {
    how_many(u64::from(pair.0), pair.1 as usize)
}

/// The largest legal modulus whose power n is within its limit, for n up to 12.
fn largest(n: u32) -> u32 {
    let fits = |m: &u32| power((*m, n)).is_some();
    (2..=MODULUS_LIMIT as u32).take_while(fits).last().expect("2 to the power 12 is within it")
}

// ---- by hand ----

fn by_hand() -> Vec<Call> {
    [
        dictionaries(),
        every_tally(),
        ends(),
        exact_powers(),
        wide_numbers(),
        counts(),
        moduli(),
        sizes(),
        orders(),
    ]
    .concat()
}

/// Every number of some short dictionaries, and the next two.
fn dictionaries() -> Vec<Call> {
    let pairs =
        [(2, 0), (9, 0), (2, 1), (5, 1), (2, 2), (3, 2), (4, 2), (2, 3), (3, 3), (6, 2), (2, 4)];
    let all = |pair| each_number(pair, 0..power(pair).unwrap_or(0) + 2);
    pairs.into_iter().flat_map(all).collect()
}

/// Moduli for the tallies with no term and with one: primes, prime powers, products, the largest.
const FEW_TERMS: [u32; 24] = [
    2, 3, 4, 5, 6, 7, 8, 9, 10, 12, 30, 64, 65, 97, 128, 243, 257, 360, 1024, 2048, 2310, 4093,
    4094, MODULUS_LIMIT as u32,
];

/// The modulus and the count of every tally with two terms or more.
pub fn longer_pairs() -> Vec<Pair> {
    (2..=12).flat_map(|n| (2..=largest(n)).map(move |m| (m, n))).collect()
}

fn every_tally() -> Vec<Call> {
    let few = FEW_TERMS.into_iter().flat_map(|m| [(m, 0), (m, 1)]);
    few.chain(longer_pairs()).map(|pair| tallying(pair, TALLY_BYTES, FILL)).collect()
}

/// For each count the largest modulus that it may have, with the first number, the last and the
/// next, and the next modulus, which gets 33, or 1 where it is above its own limit.
fn ends() -> Vec<Call> {
    let mut all = Vec::new();
    for n in 0..=12 {
        let m = largest(n);
        let past = power((m, n)).unwrap_or(0);
        all.extend(each_number((m, n), [0, past / 2, past - 1, past]));
        for above in [m + 1, m + 2] {
            all.extend(each_number((above, n), [0, past - 1, past]));
            all.push(tallying((above, n), TALLY_BYTES, FILL));
        }
    }
    all
}

/// Powers that are 4,096 exactly and the nearest below it with two terms and one; then some that
/// are above it, next or far.
const EXACT: [Pair; 7] = [(2, 12), (4, 6), (8, 4), (16, 3), (64, 2), (63, 2), (4095, 1)];
const ABOVE: [Pair; 14] = [
    (2, 13),
    (3, 8),
    (4, 7),
    (5, 6),
    (6, 5),
    (8, 5),
    (9, 4),
    (16, 4),
    (17, 3),
    (64, 3),
    (65, 2),
    (4095, 2),
    (4095, 12),
    (4095, 128),
];

fn exact_powers() -> Vec<Call> {
    let mut all = Vec::new();
    for pair in EXACT {
        let (m, past) = (u64::from(pair.0), power(pair).unwrap_or(0));
        let numbers = [1, m - 1, m, m + 1, past - m, past - 2, past + 1, 4095, 4096, 4097];
        all.extend(each_number(pair, numbers));
    }
    for pair in ABOVE {
        all.extend(both(pair, 0));
        all.extend(each_number(pair, [4095, 4096, u64::MAX]));
    }
    all
}

/// Numbers that are far too large; cut to 8, 16 or 32 bits many would pass.
const WIDE: [u64; 17] = [
    1 << 8,
    1 << 16,
    (1 << 16) + 3,
    1 << 31,
    u32::MAX as u64,
    1 << 32,
    (1 << 32) + 1,
    (1 << 32) + 7,
    (5 << 32) + 2,
    1 << 40,
    1 << 48,
    (1 << 48) + 5,
    i64::MAX as u64,
    1 << 63,
    (1 << 63) + 6,
    u64::MAX - 4095,
    u64::MAX,
];

fn wide_numbers() -> Vec<Call> {
    let pairs = [(2, 0), (2, 3), (3, 5), (64, 2), (2, 12), (4095, 1)];
    pairs.into_iter().flat_map(|pair| each_number(pair, WIDE)).collect()
}

/// Counts from 12 on. Up to 128 they get 33, and their powers may be 0 or small modulo a power
/// of 2. Above 128 they get 2; cut to 8, 16 or 31 bits many would pass.
const COUNTS: [u32; 27] = [
    12,
    13,
    14,
    16,
    24,
    31,
    32,
    33,
    63,
    64,
    65,
    127,
    128,
    129,
    130,
    255,
    256,
    256 + 3,
    1 << 16,
    (1 << 16) + 3,
    1 << 24,
    1 << 31,
    (1 << 31) + 1,
    (1 << 31) + 3,
    u32::MAX - 128,
    u32::MAX - 1,
    u32::MAX,
];

/// Powers that would be within the limit if they were cut to 16, 32 or 64 bits.
const CUT: [Pair; 12] = [
    (3, 46),
    (5, 10),
    (6, 12),
    (22, 6),
    (24, 4),
    (256, 2),
    (256, 4),
    (256, 8),
    (16, 16),
    (2048, 6),
    (6, 64),
    (1024, 13),
];

fn counts() -> Vec<Call> {
    let counted = [2, 3, 4, 256, 4095].into_iter().flat_map(|m| COUNTS.map(|n| (m, n)));
    counted.chain(CUT).flat_map(|pair| both(pair, 0)).collect()
}

/// Moduli within their limit and not. Cut to 8 or 16 bits, or less a sign, many would pass.
const MODULI: [u32; 17] = [
    0,
    1,
    2,
    3,
    256,
    MODULUS_LIMIT as u32,
    MODULUS_LIMIT as u32 + 1,
    MODULUS_LIMIT as u32 + 2,
    65_535,
    65_536,
    65_536 + 2,
    65_536 + 9,
    1 << 24,
    1 << 31,
    (1 << 31) + 2,
    u32::MAX - 1,
    u32::MAX,
];

fn moduli() -> Vec<Call> {
    let pairs = MODULI.into_iter().flat_map(|m| [0, 1, 2].map(|n| (m, n)));
    pairs.flat_map(|pair| both(pair, 0)).collect()
}

/// Sizes of buffers, each for both calls.
const SIZES: [usize; 17] =
    [0, 1, 2, 12, 13, 24, 25, 26, 27, 28, 52, 130, 258, 259, 260, 261, 520];

fn sizes() -> Vec<Call> {
    let mut all = Vec::new();
    for size in SIZES {
        for pair in [(2, 3), (9, 0), (64, 1)] {
            all.extend([enumerating(pair, 0, size, FILL), tallying(pair, size, FILL)]);
        }
    }
    all
}

/// The size of a buffer, the modulus, the count and the number with a set of faults; bit i stands
/// for place i of 5, 1, 2, 33. An odd kind has other values than an even one, and of the four
/// kinds the last two have 33 for the number, the others for the power.
fn faulty(set: u32, kind: u32, right: usize) -> (usize, Pair, u64) {
    let with = |place: u32| set >> place & 1 == 1;
    let either = |first: u32, second: u32| if kind % 2 == 0 { first } else { second };
    let size = if with(0) { right - 1 + 2 * (kind as usize % 2) } else { right };
    let m = if with(1) { either(1, MODULUS_LIMIT as u32 + 1) } else { 4 };
    // A count above 128 has no power within the limit: 2 comes with 33 in any case.
    let n = match (with(2), with(3) && kind < 2) {
        (true, _) => either(129, u32::MAX),
        (false, true) => either(13, 128),
        (false, false) => 2,
    };
    // A tally has no number.
    let number = if with(3) && kind >= 2 { either(16, u32::MAX) } else { 15 };
    (size, (m, n), u64::from(number))
}

/// Every set of faults of each kind.
fn orders() -> Vec<Call> {
    let mut all = Vec::new();
    for (set, kind) in (0..16).flat_map(|set| [0, 1, 2, 3].map(|kind| (set, kind))) {
        let (size, pair, number) = faulty(set, kind, SLIP_BYTES);
        all.push(enumerating(pair, number, size, FILL));
        let (size, pair, _) = faulty(set, kind, TALLY_BYTES);
        all.push(tallying(pair, size, FILL));
    }
    all
}

// ---- random ----

/// The random ones.
pub fn rounds(seed: u64, count: u64) -> Vec<u8> {
    let mut random = Random::new(seed);
    (0..count).flat_map(|_| any_call(&mut random).bytes()).collect()
}

/// What a call is handed; a tally has no number.
struct Handed {
    pair: Pair,
    number: u64,
    size: usize,
}

/// One call: two of three for a number, and the others for a tally. In one of four something is
/// wrong, and in some of these two things are, which shows the order of the refusals.
pub fn any_call(random: &mut Random) -> Call {
    let numbered = !random.once_in(3);
    let pair = if numbered { any_pair(random) } else { cheap_pair(random) };
    let number = any_number(random, pair);
    let size = if numbered { SLIP_BYTES } else { TALLY_BYTES };
    let mut handed = Handed { pair, number, size };
    if random.once_in(4) {
        spoil(random, &mut handed, numbered);
        if random.once_in(3) {
            spoil(random, &mut handed, numbered);
        }
    }
    let fill = plain(random, Operation::Tally, 0, [0; 3]).fill;
    let Handed { pair, number, size } = handed;
    if numbered {
        enumerating(pair, number, size, fill)
    } else {
        tallying(pair, size, fill)
    }
}

/// A modulus and a count whose power is within the limit: any count, and the largest modulus for
/// it, any up to that or a small one. Without terms and with one it is mostly one of a few moduli.
pub fn any_pair(random: &mut Random) -> Pair {
    let n = random.pick(&[0, 1, 1, 2, 2, 2, 3, 3, 3, 4, 4, 5, 5, 6, 6, 7, 8, 9, 10, 11, 12]);
    let most = u64::from(largest(n));
    let m = match (n, random.below(8)) {
        (0..=1, 0) => random.between(2, most),
        (0..=1, 1) => sequences::modulus(random),
        (0..=1, _) => u64::from(random.pick(&FEW_TERMS)),
        (_, 0) => most,
        (_, 1..=2) => random.between(2, most.min(9)),
        _ => random.between(2, most),
    };
    (m as u32, n)
}

/// One whose tally is mostly soon made: one in twelve may have more than 700 sequences.
pub fn cheap_pair(random: &mut Random) -> Pair {
    let any = random.once_in(12);
    loop {
        let pair = any_pair(random);
        if any || power(pair).is_some_and(|sequences| sequences <= 700) {
            return pair;
        }
    }
}

/// A number below the power: the first, the last, next to a power of m, or any.
fn any_number(random: &mut Random, pair: Pair) -> u64 {
    let past = power(pair).expect("within the limit");
    let shorter = power((pair.0, random.below(u64::from(pair.1) + 1) as u32)).unwrap_or(1);
    let any = random.below(past);
    let next_to = random.pick(&[shorter - 1, shorter, past - shorter]).min(past - 1);
    match random.below(12) {
        0 => 0,
        1 => past - 1,
        2..=3 => next_to,
        _ => any,
    }
}

/// Makes one thing wrong: the buffer, the modulus, the count, the power, or the number, which
/// only one of the two calls is handed.
fn spoil(random: &mut Random, handed: &mut Handed, numbered: bool) {
    match random.below(if numbered { 10 } else { 7 }) {
        0 => handed.size = wrong_size(random, handed.size),
        1..=2 => handed.pair.0 = wrong_modulus(random),
        3..=4 => handed.pair.1 = wrong_count(random),
        5..=6 => handed.pair = above(random),
        _ => handed.number = wrong_number(random, handed.pair),
    }
}

/// Another size than the right one.
fn wrong_size(random: &mut Random, right: usize) -> usize {
    let near = random.pick(&[right - 2, right - 1, right + 1, right + 2, 2 * right, right / 2]);
    let other = if right == SLIP_BYTES { TALLY_BYTES } else { SLIP_BYTES };
    let any = random.place(600);
    random.pick(&[0, near, near, other, if any == right { 0 } else { any }])
}

/// Outside its limits, whatever these are; some would pass if they were cut.
fn wrong_modulus(random: &mut Random) -> u32 {
    let wrong: Vec<u32> =
        MODULI.into_iter().filter(|&m| m < 2 || u64::from(m) > MODULUS_LIMIT).collect();
    let limit = MODULUS_LIMIT + 1;
    let any = random.between(limit, u64::from(u32::MAX)) as u32;
    let near = random.between(limit, 2 * limit) as u32;
    let cut = (random.between(1, 65535) << 16 | random.between(2, 64)) as u32;
    let known = random.pick(&wrong);
    random.pick(&[known, known, any, near, cut])
}

/// Above 128; some would pass if they were cut.
fn wrong_count(random: &mut Random) -> u32 {
    let any = random.between(129, u64::from(u32::MAX)) as u32;
    let near = random.between(129, 256) as u32;
    let cut = random.pick(&[1 << 8, 1 << 16, 1 << 24, 1 << 31]) + random.below(13) as u32;
    random.pick(&[129, u32::MAX, any, near, cut, cut])
}

/// A power above the limit: the next modulus or the next count, 13 to 128 terms, or any.
fn above(random: &mut Random) -> Pair {
    let n = random.between(2, 12) as u32;
    let limit = MODULUS_LIMIT as u32;
    let any = random.between(u64::from(largest(n)) + 1, MODULUS_LIMIT) as u32;
    let longer = random.between(13, 128) as u32;
    let m = random.between(2, MODULUS_LIMIT) as u32;
    let longest = |m: u32| (0..).find(|&n| power((m, n + 1)).is_none()).unwrap_or(0);
    match random.below(7) {
        0..=1 => (largest(n) + 1, n),
        2 => (m, longest(m) + 1),
        3 => (any, n),
        4 => (m, longer),
        5 => (random.pick(&[2, 3, 4, 256, limit]), random.pick(&[13, 16, 32, 64, 127, 128])),
        _ => random.pick(&CUT),
    }
}

/// Not below the power, where that is within its limit: the next, one of another count, one above
/// 32 bits that is below it if it is cut, or any.
fn wrong_number(random: &mut Random, (m, n): Pair) -> u64 {
    let legal = (2..=MODULUS_LIMIT).contains(&u64::from(m)) && n <= 12;
    let past = if legal { power((m, n)).unwrap_or(1) } else { 1 };
    let cut = random.between(1, u64::from(u32::MAX)) << 32 | random.below(past);
    let near = past + random.below(10);
    let any = random.between(past, u64::MAX - 1);
    let longer = past * u64::from(m.max(1));
    random.pick(&[past, past, near, longer, CENSUS_LIMIT, cut, cut, any, u64::MAX])
}
