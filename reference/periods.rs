//! A script of lengths of periods (02, A10): first the short periods, each length and each
//! refusal by hand, then random ones.

use crate::limits::*;
use crate::random::Random;
use crate::scenarios::{cells_of, plain};
use crate::script::{Call, Operation};
use crate::sequences::{not_below, set_cell, uniform, wrong_places};

/// The fill byte where the periods are not random; nothing here is lent for writing.
const FILL: u8 = 0xa5;

/// `periods SEED COUNT`: the lengths by hand, then that many random ones.
pub fn periods(seed: u64, count: u64) -> Vec<u8> {
    let mut script = Vec::new();
    for period in by_hand() {
        script.extend(asking(&period, FILL).bytes());
    }
    script.extend(rounds(seed, count));
    script
}

/// A call with the cells as they are.
pub fn asking(period: &[u8], fill: u8) -> Call {
    let lengths = [period.len() as u16, 0, 0];
    let operation = Operation::PeriodLength;
    Call { operation, fill, number: 0, lengths, l: 0, payload: period.to_vec() }
}

// ---- digits ----

/// The binary digits of a number, the lowest first.
pub fn digits_of(number: u64, size: usize) -> Vec<u64> {
    (0..size).map(|i| number >> i & 1).collect()
}

/// Each digit less the one before it, which for the first is the last, modulo 2. In the words
/// of 004 it is the period times 1 + x, and 1 + x^N is 1 + x to the power N modulo 2: so one
/// factor more is common to both, and the length is one less, if it was not 0.
pub fn differences(digits: &[u64]) -> Vec<u64> {
    let before = digits.iter().cycle().skip(digits.len() - 1);
    digits.iter().zip(before).map(|(digit, before)| (digit + before) % 2).collect()
}

/// A period of the given length, made from one with an odd number of ones, whose length is all
/// of its size, since 1 + x does not divide it.
pub fn of_length(odd: &[u64], length: usize) -> Vec<u64> {
    (length..odd.len()).fold(odd.to_vec(), |digits, _| differences(&digits))
}

/// A one at each of the places.
pub fn ones_at(size: usize, places: &[usize]) -> Vec<u64> {
    (0..size).map(|place| u64::from(places.contains(&place))).collect()
}

// ---- by hand ----

fn by_hand() -> Vec<Vec<u8>> {
    let digits = [
        short_periods(),
        each_length(),
        ones(),
        samples(),
        wrong_digits(),
        other_sizes(),
    ]
    .concat();
    let mut all: Vec<Vec<u8>> = digits.iter().map(|digits| cells_of(digits)).collect();
    all.extend(odd_sizes());
    all
}

/// All periods of 1, 2, 4 and 8 digits.
fn short_periods() -> Vec<Vec<u64>> {
    let all = |size: usize| (0..1 << size).map(move |number| digits_of(number, size));
    [1, 2, 4, 8].into_iter().flat_map(all).collect()
}

/// A number with 29 ones among its binary digits, without order to the eye.
const ODD: u64 = 0x94d0_49bb_1331_11eb;

/// Each length of the longer periods, and those of 64 digits once more.
fn each_length() -> Vec<Vec<u64>> {
    let mut odd: Vec<Vec<u64>> = [16, 32, 64].map(|size| ones_at(size, &[0])).to_vec();
    odd.push(digits_of(ODD, 64));
    let all = |odd: &Vec<u64>| -> Vec<Vec<u64>> {
        (0..=odd.len()).map(|length| of_length(odd, length)).collect()
    };
    odd.iter().flat_map(all).collect()
}

/// Longer periods: one 1 at the last place and next to the middle, ones in one half alone.
fn ones() -> Vec<Vec<u64>> {
    let mut all = Vec::new();
    for size in [16, 32, 64] {
        let half = size / 2;
        all.extend([size - 1, half - 1, half].map(|place| ones_at(size, &[place])));
        all.push(ones_at(size, &Vec::from_iter(0..half)));
        all.push(ones_at(size, &Vec::from_iter(half..size)));
    }
    all
}

/// Some of the other longer periods: multiples of an odd number, without order to the eye.
fn samples() -> Vec<Vec<u64>> {
    let factor = 0x9e37_79b9_7f4a_7c15_u64;
    let mut all = Vec::new();
    for (size, count) in [(16, 24), (32, 12), (64, 12)] {
        // The high digits of the multiples depend on all of the factor.
        let high = |i: u64| factor.wrapping_mul(i) >> (64 - size);
        all.extend((1..=count).map(|i| digits_of(high(i), size)));
    }
    all
}

/// Digits above 1; two bytes each, of which the low one alone may be 0 or 1.
pub const WRONG: [u64; 7] = [2, 3, 255, 256, 257, 512, 65535];

/// 1,0,0,1,0,0 and so on.
fn plain_digits(size: usize) -> Vec<u64> {
    (0..size).map(|i| u64::from(i % 3 == 0)).collect()
}

/// For each of the seven periods and each of those digits: at the first place, at the last, in
/// the middle, at two places; then nothing but 2.
fn wrong_digits() -> Vec<Vec<u64>> {
    let mut all = Vec::new();
    for size in PERIODS {
        let mut places = vec![vec![0], vec![size - 1], vec![size / 2], vec![size / 4, size - 1]];
        // With 1 or 2 digits some of these are the same.
        places.iter_mut().for_each(Vec::dedup);
        places.sort();
        places.dedup();
        for (places, value) in places.iter().flat_map(|at| WRONG.map(|value| (at, value))) {
            let mut digits = plain_digits(size);
            places.iter().for_each(|&place| digits[place] = 2);
            digits[places[0]] = value;
            all.push(digits);
        }
        all.push(vec![2; size]);
    }
    all
}

/// Numbers of cells that get 32: next to the seven, between them, above them, and some whose
/// low byte is one of the seven.
const OTHER_SIZES: [usize; 44] = [
    0, 3, 5, 6, 7, 9, 10, 12, 15, 17, 20, 24, 31, 33, 40, 47, 48, 49, 62, 63, 65, 66, 72, 96, 126,
    127, 128, 129, 130, 192, 255, 256, 257, 258, 260, 264, 272, 288, 320, 384, 512, 1000, 1024,
    4096,
];

/// Each alone, then 32 before 3.
fn other_sizes() -> Vec<Vec<u64>> {
    let mut all: Vec<Vec<u64>> = OTHER_SIZES.map(plain_digits).to_vec();
    for size in OTHER_SIZES.into_iter().filter(|&size| size > 0) {
        let mut digits = plain_digits(size);
        digits[size - 1] = 65535;
        digits[size / 2] = 2;
        all.push(digits);
    }
    all
}

/// Odd numbers of bytes: next to those of the seven periods, and others.
const ODD_SIZES: [usize; 25] = [
    1, 3, 5, 7, 9, 13, 15, 17, 31, 33, 35, 63, 65, 127, 129, 131, 191, 253, 255, 257, 259, 511,
    513, 1025, 8193,
];

/// Each alone or before 32, then with digits that would get 3.
fn odd_sizes() -> Vec<Vec<u8>> {
    let mut all = Vec::new();
    for size in ODD_SIZES {
        let mut bytes = cells_of(&plain_digits(size / 2 + 1));
        bytes.truncate(size);
        all.push(bytes.clone());
        bytes[0] = 2;
        bytes[size - 1] = 255;
        all.push(bytes);
    }
    all
}

// ---- random ----

/// The random ones.
pub fn rounds(seed: u64, count: u64) -> Vec<u8> {
    let mut random = Random::new(seed);
    (0..count).flat_map(|_| any_asking(&mut random).bytes()).collect()
}

/// One call: mostly of one of the longer periods, in one of four damaged.
pub fn any_asking(random: &mut Random) -> Call {
    let size = random.pick(&[1, 2, 4, 8, 16, 16, 32, 32, 32, 64, 64, 64, 64]);
    let mut period = cells_of(&any_period(random, size));
    if random.once_in(4) {
        damage(random, &mut period);
        // Two kinds of damage show the order of the refusals.
        if random.once_in(3) {
            damage(random, &mut period);
        }
    }
    let lent = plain(random, Operation::PeriodLength, 0, [0; 3]);
    asking(&period, lent.fill)
}

/// Digits of some kind; many have a length far below the size.
pub fn any_period(random: &mut Random, size: usize) -> Vec<u64> {
    match random.below(12) {
        0..=1 => uniform(random, 2, size),
        2..=4 => {
            let length = random.place(size + 1);
            any_of_length(random, size, length)
        }
        5 => {
            let length = random.place(size.min(8) + 1);
            any_of_length(random, size, length)
        }
        6 => {
            let places: Vec<usize> = (0..random.below(5)).map(|_| random.place(size)).collect();
            ones_at(size, &places)
        }
        7..=8 => repeated(random, size),
        _ => near_miss(random, size),
    }
}

/// Any period of the given length.
pub fn any_of_length(random: &mut Random, size: usize, length: usize) -> Vec<u64> {
    let mut odd = uniform(random, 2, size);
    if odd.iter().sum::<u64>() % 2 == 0 {
        change(random, &mut odd);
    }
    of_length(&odd, length)
}

/// Changes one digit.
fn change(random: &mut Random, digits: &mut [u64]) {
    let place = random.place(digits.len());
    digits[place] = 1 - digits[place];
}

/// Digits that repeat a shorter period, so that the halves are equal at first.
fn repeated(random: &mut Random, size: usize) -> Vec<u64> {
    let shorter: Vec<usize> = PERIODS.into_iter().filter(|&part| part <= size).collect();
    let part = random.pick(&shorter);
    uniform(random, 2, part).repeat(size / part)
}

/// A short length or equal halves, then one digit changed: the first, the last or any, or two.
fn near_miss(random: &mut Random, size: usize) -> Vec<u64> {
    let length = random.place(size / 4 + 1);
    let mut digits = if random.once_in(2) {
        repeated(random, size)
    } else {
        any_of_length(random, size, length)
    };
    match random.below(5) {
        0 => digits[0] = 1 - digits[0],
        1 => digits[size - 1] = 1 - digits[size - 1],
        2..=3 => change(random, &mut digits),
        _ => {
            change(random, &mut digits);
            change(random, &mut digits);
        }
    }
    digits
}

/// Puts a kind of fault into the cells, where there is room for it.
fn damage(random: &mut Random, period: &mut Vec<u8>) {
    let count = period.len() / CELL_BYTES;
    match random.below(8) {
        0..=3 if count > 0 => {
            for place in wrong_places(random, count) {
                let wrong = not_below(random, 2);
                set_cell(period, place, wrong);
            }
        }
        4..=5 => {
            let cells = other_size(random, count);
            let others = cells_of(&uniform(random, 2, cells));
            period.truncate(others.len());
            let kept = period.len();
            period.extend(&others[kept..]);
        }
        6 => {
            period.pop();
        }
        _ => period.push(random.below(3) as u8),
    }
}

/// Another number of cells: one less, one more, half as many more, 128, or any.
fn other_size(random: &mut Random, count: usize) -> usize {
    let any = random.place(200);
    let low = 256 + random.pick(&PERIODS);
    random.pick(&[0, 3, count.saturating_sub(1), count + 1, count / 2 * 3, 128, any, any, low])
}
