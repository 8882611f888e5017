//! The self-test's checks of the lengths of periods (02, A10): against the steps, against linear
//! algebra, for more terms, random ones by their bytes, what turning and adding do to them.

use crate::calls::{cells, open, period_length, push_all, register, Reported};
use crate::cases::{bare, padded, term_at, told, Told};
use crate::checks::Group;
use crate::faults::above_one;
use crate::join;
use crate::limits::{A_BYTES, A_CELLS, B_BYTES};
use crate::linear::{self, least_by_trying};
use crate::only::Only;
use crate::onlychecks::{ranked, shortest_lists};
use crate::periodcases::outcome;
use crate::periods::{any_asking, any_of_length, any_period, differences, digits_of, ones_at};
use crate::random::Random;
use crate::residue::PrimePower;
use crate::scenarios::cells_of;

/// All periods of that many digits.
fn all_periods(size: usize) -> impl Iterator<Item = Vec<u64>> {
    (0..1 << size).map(move |number| digits_of(number, size))
}

/// The length. No period of digits 0 and 1 is refused; if it is, a length that none has.
fn length_of(group: &mut Group, digits: &[u64]) -> usize {
    let found = outcome(digits);
    let right = found.is_ok_and(|length| length <= digits.len());
    group.check(right, || format!("{digits:?}: {found:?}"));
    found.unwrap_or(digits.len() + 1)
}

/// The sequence from the period on: its first terms.
fn terms_of(digits: &[u64], count: usize) -> Vec<u64> {
    digits.iter().copied().cycle().take(count).collect()
}

// ---- the steps ----

/// What the desk reports for terms modulo 2 that are taken as one column, and a.
fn desk(terms: &[u64]) -> (Option<Reported>, Vec<u64>) {
    let (mut reading, _) = open(2);
    let taken = push_all(&mut reading, &cells_of(terms));
    let (mut a, mut b) = ([0xff; A_BYTES], [0xff; B_BYTES]);
    let reported = register(&reading, &mut a, &mut b).ok();
    let whole = taken == (terms.len(), Ok(()));
    (reported.filter(|_| whole), cells(&a))
}

/// "The result must equal the desk's length for two whole periods": all periods up to 16 digits,
/// and random ones of 32 and 64, many of a given length.
pub fn by_steps(group: &mut Group) {
    for size in [1, 2, 4, 8, 16] {
        for digits in all_periods(size) {
            check_desk(group, &digits);
        }
    }
    let mut random = Random::new(62);
    for (size, rounds) in [(32, 12000), (64, 8000)] {
        let mut met = vec![0; size + 1];
        for round in 0..rounds {
            let digits = if round % 2 == 0 {
                any_of_length(&mut random, size, round / 2 % (size + 1))
            } else {
                any_period(&mut random, size)
            };
            let length = check_desk(group, &digits);
            let planned = round % 2 == 1 || length == round / 2 % (size + 1);
            group.check(planned, || format!("{digits:?}: {length}"));
            met[length.min(size)] += 1;
        }
        group.check(met.iter().all(|&times| times >= 10), || format!("{size} digits: {met:?}"));
    }
}

/// The desk's length and its word, which is sole, since 2l is at most 2N; its a, which is 1 + x to
/// the power l modulo 2, since 1 + x^N is 1 + x to the power N.
fn check_desk(group: &mut Group, digits: &[u64]) -> usize {
    let length = length_of(group, digits);
    let (reported, a) = desk(&digits.repeat(2));
    let right = reported == Some((length, Only::Sole));
    group.check(right, || format!("{digits:?}: {length} for {reported:?}"));
    let expected = padded(&power_of_one_and_x(length.min(128)), A_CELLS);
    group.check(a == expected, || format!("{digits:?}: {a:?}"));
    length
}

/// The coefficients of (1 + x)^l modulo 2.
fn power_of_one_and_x(l: usize) -> Vec<u64> {
    let mut power = vec![1];
    for _ in 0..l {
        power.push(0);
        for i in (1..power.len()).rev() {
            power[i] = (power[i] + power[i - 1]) % 2;
        }
    }
    power
}

// ---- linear algebra ----

/// The rank modulo 2 of the period turned to each of its N places. The sequence from place l on
/// is a sum of some of those from places 0 to l-1 on exactly if l coefficients give it; so the
/// rank is the least l.
fn rank_of_turnings(digits: &[u64]) -> usize {
    let size = digits.len();
    let turned = |turn: usize| (0..size).fold(0, |row, i| row << 1 | digits[(turn + i) % size]);
    let mut rows: Vec<u64> = (0..size).map(turned).collect();
    let mut rank = 0;
    for bit in 0..size {
        let Some(at) = (rank..size).find(|&i| rows[i] >> bit & 1 == 1) else { continue };
        rows.swap(rank, at);
        let pivot = rows[rank];
        for row in rows[rank + 1..].iter_mut().filter(|row| **row >> bit & 1 == 1) {
            *row ^= pivot;
        }
        rank += 1;
    }
    rank
}

/// The degree of a polynomial modulo 2 that is not 0; bit i is the coefficient of x^i.
fn degree(polynomial: u128) -> usize {
    127 - polynomial.leading_zeros() as usize
}

/// 004, section 1: the length is the degree of 1 - x^N over the greatest common divisor of it
/// and the period, which is found by Euclid's division here.
fn degree_of_quotient(digits: &[u64]) -> usize {
    let size = digits.len();
    let mut divisor: u128 = 1 | 1 << size;
    let mut rest = digits.iter().rev().fold(0, |sum, &digit| sum << 1 | u128::from(digit));
    while rest != 0 {
        let mut remainder = divisor;
        while remainder != 0 && degree(remainder) >= degree(rest) {
            remainder ^= rest << (degree(remainder) - degree(rest));
        }
        (divisor, rest) = (rest, remainder);
    }
    size - degree(divisor)
}

/// All periods up to 16 digits by rank, by the common divisor and by solving for coefficients,
/// those up to 8 also by trying every length so and with all lists of coefficients; random ones
/// of 16, 32 and 64.
pub fn by_algebra(group: &mut Group) {
    for size in [1, 2, 4, 8, 16] {
        for digits in all_periods(size) {
            let length = check_ranks(group, &digits);
            check_solved(group, &digits, length);
            if size < 16 {
                let twice = digits.repeat(2);
                let [solved, tried] = [linear::least_length, least_by_trying].map(|f| f(2, &twice));
                let right = [solved, tried] == [length; 2];
                group.check(right, || format!("{digits:?}: {length}, {solved}, {tried}"));
            }
        }
    }
    let mut random = Random::new(63);
    for (size, rounds) in [(16, 2000), (32, 2000), (64, 1000)] {
        for round in 0..rounds {
            let digits = any_period(&mut random, size);
            let length = check_ranks(group, &digits);
            check_solved(group, &digits, length);
            if round % 20 == 0 {
                let tried = linear::least_length(2, &digits.repeat(2));
                group.check(tried == length, || format!("{digits:?}: {length}, {tried}"));
            }
        }
    }
    for size in [32, 64] {
        for _ in 0..20000 {
            let digits = any_period(&mut random, size);
            check_ranks(group, &digits);
        }
    }
}

fn check_ranks(group: &mut Group, digits: &[u64]) -> usize {
    let length = length_of(group, digits);
    let (rank, degree) = (rank_of_turnings(digits), degree_of_quotient(digits));
    let right = length == rank && length == degree;
    group.check(right, || format!("{digits:?}: {length}, rank {rank}, degree {degree}"));
    length
}

/// Some list of l coefficients gives two whole periods, and goes on with them; none of l-1 does,
/// so that none of fewer does.
fn check_solved(group: &mut Group, digits: &[u64], length: usize) {
    let power = PrimePower { p: 2, e: 1 };
    let twice = digits.repeat(2);
    let found = linear::coefficients(power, &twice, length);
    let gives = found.is_some_and(|list| linear::gives(&list, &digits.repeat(5), 2));
    let fewer = length > 0 && linear::coefficients(power, &twice, length - 1).is_some();
    group.check(gives && !fewer, || format!("{digits:?}: {length}"));
}

// ---- more terms ----

/// Every number of terms from two whole periods on gives the length, 3, 4 and more periods among
/// them. All periods up to 8 digits up to the 128th term, and random ones.
pub fn more_terms(group: &mut Group) {
    let mut early = [false; 7];
    for size in [1, 2, 4, 8] {
        for digits in all_periods(size) {
            early[size.trailing_zeros() as usize] |= check_terms(group, &digits);
        }
    }
    let mut random = Random::new(64);
    for (size, rounds) in [(16, 1500), (32, 800), (64, 500)] {
        for _ in 0..rounds {
            let digits = any_period(&mut random, size);
            early[size.trailing_zeros() as usize] |= check_terms(group, &digits);
        }
    }
    // One digit repeated is known from the first term on.
    group.check(early == [false, true, true, true, true, true, true], || format!("{early:?}"));
    for size in [2, 4, 8, 16, 32, 64] {
        // 1 and then zeros: one period alone has the length 1, and from the next 1 on it is N.
        let digits = padded(&[1], size);
        let profile = join::profile(2, &digits.repeat(2));
        let right = profile[size] == 1 && profile[size + 1..].iter().all(|&l| l == size);
        group.check(right && outcome(&digits) == Ok(size), || format!("{size}: {profile:?}"));
        // All zeros but the last but one: it takes all but one of the 2N terms.
        let digits = ones_at(size, &[size - 2]);
        let profile = join::profile(2, &digits.repeat(2));
        let right = profile[2 * size - 2] == size - 1 && profile[2 * size - 1] == size;
        group.check(right && outcome(&digits) == Ok(size), || format!("{size}: {profile:?}"));
    }
}

/// The least length for the first k terms is the length from k = 2N on, also from 2l-1 on, and
/// never above it; whether that of one period alone is another.
fn check_terms(group: &mut Group, digits: &[u64]) -> bool {
    let (size, length) = (digits.len(), length_of(group, digits));
    let profile = join::profile(2, &terms_of(digits, 128));
    for (k, &least) in profile.iter().enumerate() {
        let known = k >= 2 * size || k + 1 >= 2 * length;
        let right = least == length || (!known && least < length);
        group.check(right, || format!("{digits:?}: {length}, for {k} terms {least}"));
    }
    profile[size] != length
}

// ---- the only one ----

/// 02, A8: the register of two whole periods is sole, by all lists of coefficients and by rank.
/// With one term less it is not, if the length is N: then there are two.
pub fn only_one(group: &mut Group) {
    for size in [1, 2, 4, 8] {
        for digits in all_periods(size) {
            let length = length_of(group, &digits);
            let twice = digits.repeat(2);
            let lists = shortest_lists(2, &twice);
            let right = lists.len() == 1 && lists[0] == power_of_one_and_x(length)[1..];
            group.check(right, || format!("{digits:?}: {length}, {lists:?}"));
            let lists = shortest_lists(2, &twice[..2 * size - 1]);
            let expected = if length == size { 2 } else { 1 };
            group.check(lists.len() == expected, || format!("{digits:?}, one less: {lists:?}"));
            check_word(group, &digits, length);
        }
    }
    let mut random = Random::new(65);
    for (size, rounds) in [(16, 3000), (32, 1500), (64, 600)] {
        for _ in 0..rounds {
            let digits = any_period(&mut random, size);
            let length = length_of(group, &digits);
            let found = ranked(2, &digits.repeat(2), length);
            group.check(found == (length, true), || format!("{digits:?}: {length}, {found:?}"));
            check_word(group, &digits, length);
        }
    }
}

/// What the desk says for two whole periods, and for one term less.
fn check_word(group: &mut Group, digits: &[u64], length: usize) {
    let twice = digits.repeat(2);
    let less = if length == digits.len() { Only::Several } else { Only::Sole };
    for (terms, word) in [(&twice[..], Only::Sole), (&twice[..twice.len() - 1], less)] {
        let (reported, _) = desk(terms);
        let right = reported == Some((length, word));
        group.check(right, || format!("{terms:?}: {reported:?} for {length}, {word}"));
    }
}

// ---- by bytes ----

/// What a call is refused for, from the bytes of the period: a cell of one byte, bytes that are
/// not 2 to any power from 1 to 7, a digit that is neither 0 nor 1.
fn expected_refusal(period: &[u8]) -> Option<Told> {
    if period.chunks(2).any(|cell| cell.len() < 2) {
        Some(bare(5))
    } else if (1..=7).all(|power| period.len() != 1 << power) {
        Some(bare(32))
    } else {
        above_one(period).first().map(|&place| term_at(place))
    }
}

/// Random calls, each as it is, cut anywhere, and with bytes of its own after it: the refusal, or
/// the length by the common divisor.
pub fn by_bytes(group: &mut Group) {
    let mut random = Random::new(66);
    for _ in 0..60000 {
        let period = any_asking(&mut random).payload;
        check_bytes(group, &period);
        let cut = random.place(period.len() + 1);
        check_bytes(group, &period[..cut]);
        let more = random.pick(&[1, 2, period.len()]).min(period.len());
        check_bytes(group, &[&period[..], &period[..more]].concat());
    }
}

fn check_bytes(group: &mut Group, period: &[u8]) {
    let found = told(period_length(period));
    let expected = expected_refusal(period);
    group.check(found.err() == expected, || format!("{found:?} for {expected:?}: {period:?}"));
    if let Ok(length) = found {
        let degree = degree_of_quotient(&cells(period));
        group.check(length == degree, || format!("{length} for {degree}: {period:?}"));
    }
}

// ---- turned, added, doubled ----

/// What is done to periods, and what becomes of their lengths.
pub fn related(group: &mut Group) {
    let mut random = Random::new(67);
    for size in [1, 2, 4, 8] {
        for digits in all_periods(size) {
            check_related(group, &mut random, &digits);
        }
    }
    for _ in 0..4000 {
        let size = random.pick(&[16, 32, 64]);
        let digits = any_period(&mut random, size);
        check_related(group, &mut random, &digits);
        let other = any_period(&mut random, size);
        check_sum(group, &digits, &other);
    }
    for size in [1, 2, 4, 8] {
        for one in all_periods(size) {
            all_periods(size).for_each(|other| check_sum(group, &one, &other));
        }
    }
}

/// Turned by any number of places, read backwards, written twice: the same length. A zero after
/// each digit, or before it: twice the length. Each digit changed: the same from 2 on, and of 0
/// and 1 the other. Differences: one less.
fn check_related(group: &mut Group, random: &mut Random, digits: &[u64]) {
    let (size, length) = (digits.len(), length_of(group, digits));
    let mut turned = digits.to_vec();
    turned.rotate_left(random.place(size));
    let backwards: Vec<u64> = digits.iter().rev().copied().collect();
    let changed: Vec<u64> = digits.iter().map(|digit| 1 - digit).collect();
    let mut all = vec![
        (turned, length),
        (backwards, length),
        (changed, if length < 2 { 1 - length } else { length }),
        (differences(digits), length.saturating_sub(1)),
    ];
    if size < 64 {
        all.push((digits.repeat(2), length));
        all.push((digits.iter().flat_map(|&digit| [digit, 0]).collect(), 2 * length));
        all.push((digits.iter().flat_map(|&digit| [0, digit]).collect(), 2 * length));
        // Each digit twice is a zero after each and before each: times 1 + x.
        let doubled = digits.iter().flat_map(|&digit| [digit, digit]).collect();
        all.push((doubled, (2 * length).saturating_sub(1)));
    }
    for (period, expected) in all {
        let found = outcome(&period);
        let right = found == Ok(expected);
        group.check(right, || format!("{digits:?}, {period:?}: {found:?} for {expected}"));
    }
}

/// The sum modulo 2 of two periods has the larger length, or less than both if they are equal
/// and not 0: the sum of two odd numbers of ones is even.
fn check_sum(group: &mut Group, one: &[u64], other: &[u64]) {
    let [first, second] = [one, other].map(|digits| length_of(group, digits));
    let sum: Vec<u64> = one.iter().zip(other).map(|(x, y)| (x + y) % 2).collect();
    let found = length_of(group, &sum);
    let right = if first == second {
        found < first || (found, first) == (0, 0)
    } else {
        found == first.max(second)
    };
    group.check(right, || format!("{one:?}, {other:?}: {first}, {second}, {found}"));
}
