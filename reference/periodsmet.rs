//! What the periods of a script meet (02, A10): each length of each of the seven periods, each
//! refusal and what it comes before, sizes, digits and places. Sizes are numbers here, as the
//! papers have them.

use crate::calls::{cells, period_length};
use crate::cases::told;
use crate::checks::Group;
use crate::coverage::{count, often, Kinds, Tally};
use crate::faults::above_one;
use crate::script::{Call, Operation};

const SEVEN: [usize; 7] = [1, 2, 4, 8, 16, 32, 64];

/// What periods must be.
const KINDS: [&str; 46] = [
    "a length, zeros alone",
    "a length, ones alone",
    "a length, one 1",
    "a length, one 1, at the first place",
    "a length, one 1, at the last place",
    "a length, equal halves",
    "a length, equal halves, then others",
    "a length, equal quarters",
    "a length, halves that differ in the last digit alone",
    "a length, halves that differ in the first digit alone",
    "a length, halves that differ in every digit",
    "a length, halves that differ, and the sum has equal halves",
    "a length, halves that differ at each size",
    "a length, the first half is zeros",
    "a length, the second half is zeros",
    "a length, up to 8 of 64",
    "a length, next below 64",
    "5, one byte",
    "5, one byte less than one of the seven",
    "5, one byte more than one of the seven",
    "5, digits 0 and 1",
    "5, a digit above 1",
    "5, above 128 bytes",
    "32, no cell",
    "32, 3 cells",
    "32, 128 cells",
    "32, above 128 cells",
    "32, one cell less than one of the seven",
    "32, one cell more than one of the seven",
    "32, an even number up to 128",
    "32, the low byte is one of the seven",
    "32, digits 0 and 1",
    "32, a digit above 1",
    "3 at the first place",
    "3 at the last place",
    "3 at half",
    "3 elsewhere",
    "3, one digit",
    "3, several digits",
    "3, all digits",
    "3, the first is not the largest",
    "3, a digit 2",
    "3, a digit 3",
    "3, a digit 65,535",
    "3, another digit",
    "3, a low byte of 0 or 1",
];

/// What the periods of a script meet.
struct Met {
    kinds: Tally<&'static str>,
    /// The number of digits, and the length.
    lengths: Tally<(usize, usize)>,
    /// The number of digits of those that get 3.
    wrong: Tally<usize>,
    /// What is refused, and something else that is wrong.
    orders: Tally<(u32, u32)>,
}

pub fn met(group: &mut Group, script: &[u8]) {
    let mut met = Met {
        kinds: Tally::new(),
        lengths: Tally::new(),
        wrong: Tally::new(),
        orders: Tally::new(),
    };
    let mut rest = script;
    while let Ok((call, size)) = Call::parse(rest) {
        rest = &rest[size..];
        if call.operation == Operation::PeriodLength {
            met.note(&call.payload);
        }
    }
    for kind in KINDS {
        often(group, met.kinds.get(kind).copied().unwrap_or(0), || format!("periods: {kind}"));
    }
    let all = met.kinds.len() == KINDS.len();
    group.check(all, || format!("kinds of periods: {:?}", met.kinds));
    lengths_met(group, &met);
    for pair in [(5, 32), (5, 3), (32, 3)] {
        let times = met.orders.get(&pair).copied().unwrap_or(0);
        often(group, times, || format!("periods: {} before {}", pair.0, pair.1));
    }
}

impl Met {
    fn note(&mut self, period: &[u8]) {
        let wrong = wrong_with(period);
        if let Some((&first, later)) = wrong.split_first() {
            later.iter().for_each(|&next| count(&mut self.orders, (first, next)));
        }
        let size = period.len() / 2;
        match told(period_length(period)) {
            Ok(length) => count(&mut self.lengths, (size, length)),
            Err((3, _)) => count(&mut self.wrong, size),
            Err(_) => {}
        }
        for (kind, applies) in kinds_of(period) {
            *self.kinds.entry(kind).or_insert(0) += usize::from(applies);
        }
    }
}

/// Each length from 0 up to each of the seven, and 3 for each of them.
fn lengths_met(group: &mut Group, met: &Met) {
    for size in SEVEN {
        for length in 0..=size {
            let some = met.lengths.contains_key(&(size, length));
            group.check(some, || format!("periods: {size} digits, length {length}"));
        }
        let times = met.wrong.get(&size).copied().unwrap_or(0);
        often(group, times, || format!("periods: 3 of {size} digits"));
    }
    let all: usize = SEVEN.iter().map(|size| size + 1).sum();
    group.check(met.lengths.len() == all, || format!("lengths of periods: {:?}", met.lengths));
}

/// All that is wrong with a period, in the order of the refusals; the cells are the whole ones.
fn wrong_with(period: &[u8]) -> Vec<u32> {
    let mut wrong = Vec::new();
    wrong.extend((period.len() % 2 == 1).then_some(5));
    wrong.extend((!SEVEN.contains(&(period.len() / 2))).then_some(32));
    wrong.extend((!above_one(period).is_empty()).then_some(3));
    wrong
}

// ---- kinds ----

fn kinds_of(period: &[u8]) -> Kinds {
    let digits = cells(period);
    match told(period_length(period)) {
        Ok(length) => {
            let mut kinds = kinds_of_digits(&digits);
            kinds.extend(kinds_of_halves(&digits));
            kinds.extend([
                ("a length, up to 8 of 64", digits.len() == 64 && (2..=8).contains(&length)),
                ("a length, next below 64", (digits.len(), length) == (64, 63)),
            ]);
            kinds
        }
        Err((5, _)) => kinds_of_bytes(period),
        Err((32, _)) => kinds_of_size(&digits),
        Err(_) => kinds_of_wrong(&digits, &above_one(period)),
    }
}

fn kinds_of_digits(digits: &[u64]) -> Kinds {
    let ones: u64 = digits.iter().sum();
    let several = digits.len() > 1;
    let (first, second) = digits.split_at(digits.len() / 2);
    vec![
        ("a length, zeros alone", ones == 0),
        ("a length, ones alone", ones == digits.len() as u64),
        ("a length, one 1", ones == 1),
        ("a length, one 1, at the first place", several && ones == 1 && digits[0] == 1),
        ("a length, one 1, at the last place", several && ones == 1 && digits.ends_with(&[1])),
        ("a length, the first half is zeros", several && ones > 0 && !first.contains(&1)),
        ("a length, the second half is zeros", several && ones > 0 && !second.contains(&1)),
    ]
}

/// The places of the first half whose digit is another one in the second, at the size given and
/// at each that the halving comes to, for periods of 8 digits and more.
fn kinds_of_halves(digits: &[u64]) -> Kinds {
    let mut differing = Vec::new();
    let mut left = digits.to_vec();
    while left.len() > 1 {
        let half = left.len() / 2;
        let places: Vec<usize> = (0..half).filter(|&i| left[i] != left[half + i]).collect();
        if !places.is_empty() {
            left = (0..half).map(|i| left[i] ^ left[half + i]).collect();
        }
        left.truncate(half);
        differing.push(places);
    }
    let half = digits.len() / 2;
    let long = digits.len() >= 8;
    let differ = |time: usize| differing.get(time).is_some_and(|places| !places.is_empty());
    let equal = |time: usize| differing.get(time).is_some_and(Vec::is_empty);
    let only = |place: usize| differing.first().is_some_and(|places| *places == [place]);
    vec![
        ("a length, equal halves", long && equal(0)),
        ("a length, equal halves, then others", long && equal(0) && differ(1)),
        ("a length, equal quarters", long && equal(0) && equal(1)),
        ("a length, halves that differ in the last digit alone", long && only(half - 1)),
        ("a length, halves that differ in the first digit alone", long && only(0)),
        (
            "a length, halves that differ in every digit",
            long && differing.first().is_some_and(|places| places.len() == half),
        ),
        (
            "a length, halves that differ, and the sum has equal halves",
            long && differ(0) && equal(1),
        ),
        (
            "a length, halves that differ at each size",
            long && differing.iter().all(|places| !places.is_empty()),
        ),
    ]
}

fn kinds_of_bytes(period: &[u8]) -> Kinds {
    let size = period.len();
    let next_to = |other: usize| other % 2 == 0 && SEVEN.contains(&(other / 2));
    let wrong = !above_one(period).is_empty();
    vec![
        ("5, one byte", size == 1),
        ("5, one byte less than one of the seven", next_to(size + 1)),
        ("5, one byte more than one of the seven", next_to(size - 1)),
        ("5, digits 0 and 1", !wrong),
        ("5, a digit above 1", wrong),
        ("5, above 128 bytes", size > 128),
    ]
}

fn kinds_of_size(digits: &[u64]) -> Kinds {
    let size = digits.len();
    let wrong = digits.iter().any(|&digit| digit > 1);
    vec![
        ("32, no cell", size == 0),
        ("32, 3 cells", size == 3),
        ("32, 128 cells", size == 128),
        ("32, above 128 cells", size > 128),
        ("32, one cell less than one of the seven", SEVEN.contains(&(size + 1))),
        ("32, one cell more than one of the seven", size > 0 && SEVEN.contains(&(size - 1))),
        ("32, an even number up to 128", size > 0 && size < 128 && size % 2 == 0),
        ("32, the low byte is one of the seven", SEVEN.contains(&(size % 256))),
        ("32, digits 0 and 1", size > 0 && !wrong),
        ("32, a digit above 1", wrong),
    ]
}

fn kinds_of_wrong(digits: &[u64], places: &[usize]) -> Kinds {
    let Some(&place) = places.first() else { return Vec::new() };
    let (size, digit) = (digits.len(), digits[place]);
    let known = [2, 3, 65535].contains(&digit);
    let larger = places.iter().any(|&other| digits[other] > digit);
    let ends = size > 1;
    vec![
        ("3 at the first place", ends && place == 0),
        ("3 at the last place", ends && place == size - 1),
        ("3 at half", ends && place == size / 2),
        ("3 elsewhere", place > 0 && place < size - 1 && place != size / 2),
        ("3, one digit", places.len() == 1),
        ("3, several digits", places.len() > 1),
        ("3, all digits", ends && places.len() == size),
        ("3, the first is not the largest", larger),
        ("3, a digit 2", digit == 2),
        ("3, a digit 3", digit == 3),
        ("3, a digit 65,535", digit == 65535),
        ("3, another digit", !known),
        ("3, a low byte of 0 or 1", digit % 256 < 2),
    ]
}
