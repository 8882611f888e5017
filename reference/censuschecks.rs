//! The self-test's checks of the census (02, A11): the whole dictionaries, the tallies against the
//! steps, against all lists of coefficients, against all registers, against what is known of them,
//! and random calls by their bytes.

use crate::calls::{enumerate, slip_of, tally};
use crate::cases::{bare, bytes_of, told, Told};
use crate::censuscases::{expected, tally_with, terms_with};
use crate::checks::Group;
use crate::join;
use crate::linear::{advance, least_by_trying};
use crate::numbers::{any_call, longer_pairs, Pair};
use crate::random::Random;
use crate::residue::prime_powers;
use crate::script::{Call, Operation};
use std::collections::BTreeSet;

/// Moduli for one term and for none: all small ones, and some of each kind up to the largest.
fn few_terms() -> Vec<Pair> {
    let larger = [97, 128, 243, 257, 360, 512, 1024, 1031, 2048, 2187, 2310, 4093, 4094, 4095];
    let moduli: Vec<u32> = (2..=80).chain(larger).collect();
    [0, 1].into_iter().flat_map(|n| moduli.iter().map(move |&m| (m, n))).collect()
}

/// All pairs from two terms on, then those.
fn pairs() -> Vec<Pair> {
    [longer_pairs(), few_terms()].concat()
}

/// How many sequences there are; 0 where a call is refused.
fn power(m: u32, n: u32) -> u64 {
    expected(m, n).unwrap_or(0)
}

/// The digits of a number by division, n of them, the highest first.
fn digits(m: u32, n: u32, number: u64) -> Vec<u64> {
    let m = u64::from(m);
    (0..n).rev().map(|place| number / m.pow(place) % m).collect()
}

/// The tally of lengths that are given one by one, cells 0 to n.
fn tallied(n: u32, lengths: impl Iterator<Item = usize>) -> Vec<u64> {
    let mut tally = vec![0; n as usize + 1];
    lengths.for_each(|length| tally[length] += 1);
    tally
}

/// All sequences by the digits of their numbers.
fn sequences(m: u32, n: u32) -> impl Iterator<Item = Vec<u64>> {
    (0..power(m, n)).map(move |number| digits(m, n, number))
}

// ---- the dictionary ----

/// "Counted from 0 in dictionary order by first term, so that every sequence has exactly one
/// number": each has the digits of its number, which the digits give back; each comes after the
/// one before; the first has zeros alone and after the last there is none.
pub fn dictionary(group: &mut Group) {
    group.check(longer_pairs().len() == 99, || format!("{:?}", longer_pairs()));
    for (m, n) in pairs() {
        let mut before: Option<Vec<u64>> = None;
        let mut met = 0;
        for number in 0..power(m, n) {
            let found = terms_with(group, m, n, number);
            let words = || format!("number {number} of {n} terms modulo {m}: {found:?}");
            let terms = found.clone().unwrap_or_default();
            group.check(found.is_ok() && terms == digits(m, n, number), words);
            let back = terms.iter().fold(0, |sum, term| sum * u64::from(m) + term);
            group.check(back == number, words);
            let after = before.map_or(terms.iter().all(|&term| term == 0), |last| last < terms);
            group.check(after, words);
            before = Some(terms);
            met += 1;
        }
        // The sum of the terms is the largest with the last one alone.
        let last = before.map_or(0, |terms| terms.iter().sum());
        let right = last == u64::from(n) * (u64::from(m) - 1) && met == power(m, n);
        group.check(right, || format!("{n} terms modulo {m}: {met}, {last}"));
        let past = terms_with(group, m, n, met);
        group.check(past == Err(bare(33)), || format!("{n} terms modulo {m}: {past:?}"));
    }
}

// ---- tallies by other means ----

/// The lengths by the steps, for every pair.
pub fn by_steps(group: &mut Group) {
    for (m, n) in pairs() {
        let length = |terms: Vec<u64>| join::profile(u64::from(m), &terms)[n as usize];
        let expected = tallied(n, sequences(m, n).map(length));
        let found = tally_with(group, m, n);
        let right = found == Ok(expected.clone());
        group.check(right, || format!("{n} terms modulo {m}: {found:?} for {expected:?}"));
    }
}

/// The least lengths by trying all lists of coefficients modulo m, for every pair.
pub fn by_trying(group: &mut Group) {
    for (m, n) in pairs() {
        let length = |terms: Vec<u64>| least_by_trying(u64::from(m), &terms);
        let expected = tallied(n, sequences(m, n).map(length));
        let found = tally_with(group, m, n);
        let right = found == Ok(expected.clone());
        group.check(right, || format!("{n} terms modulo {m}: {found:?} for {expected:?}"));
    }
}

/// The other way round: all lists of l coefficients run on from all l first terms give all the
/// sequences whose least length is at most l.
pub fn by_registers(group: &mut Group) {
    for (m, n) in longer_pairs() {
        let found = tally_with(group, m, n).unwrap_or_default();
        let within = |l: &u32| u64::from(m).pow(2 * l) <= 70_000;
        for l in (0..=n).take_while(within) {
            let given = all_given(u64::from(m), n as usize, l as usize);
            let up_to: u64 = found.iter().take(l as usize + 1).sum();
            let words = || format!("{n} terms modulo {m}, up to {l}: {given} for {up_to}");
            group.check(given as u64 == up_to, words);
        }
    }
}

/// How many sequences of n terms lists of l coefficients give.
fn all_given(m: u64, n: usize, l: usize) -> usize {
    let mut all = BTreeSet::new();
    // The coefficients, then the first terms.
    let mut list = vec![0; 2 * l];
    loop {
        let (coefficients, first) = list.split_at(l);
        let mut terms = first.to_vec();
        for j in l..n {
            let products = coefficients.iter().enumerate().map(|(i, c)| c * terms[j - 1 - i]);
            terms.push(products.sum::<u64>() % m);
        }
        all.insert(terms);
        if !advance(&mut list, m) {
            return all.len();
        }
    }
}

// ---- what is known of them ----

fn is_prime(m: u32) -> bool {
    (2..m).all(|divisor| m % divisor != 0)
}

/// For every pair: the sum is the power and cell 0 is 1, for every modulus; modulo a prime the
/// words of A11; the first lengths and the last; the tallies at the prime powers.
pub fn known(group: &mut Group) {
    for (m, n) in pairs() {
        let found = tally_with(group, m, n).unwrap_or_default();
        let words = || format!("{n} terms modulo {m}: {found:?}");
        let sum: u64 = found.iter().sum();
        group.check(sum == power(m, n) && found.len() == n as usize + 1, words);
        group.check(found.first() == Some(&1), words);
        if is_prime(m) {
            check_formula(group, m, &found);
            check_longer(group, m, &found);
        }
        if n >= 1 {
            check_ends(group, m, &found);
        }
        check_parts(group, m, &found);
    }
}

/// "For a prime m, and l from 1 to n, .. the tally is (m-1) times m to the smaller of 2n-2l and
/// 2l-1."
fn check_formula(group: &mut Group, m: u32, found: &[u64]) {
    let n = found.len() as u32 - 1;
    for l in 1..=n {
        let expected = u64::from(m - 1) * u64::from(m).pow((2 * n - 2 * l).min(2 * l - 1));
        let right = found[l as usize] == expected;
        group.check(right, || format!("{n} terms modulo {m}, {l}: {found:?}, {expected}"));
    }
}

/// From n terms to n + 1 modulo a prime. Where 2l is above n, every next term keeps the length l.
/// Elsewhere one does, and the m-1 others make it n+1-l.
fn check_longer(group: &mut Group, m: u32, found: &[u64]) {
    let n = found.len() - 1;
    if power(m, n as u32 + 1) == 0 {
        return;
    }
    let longer = tally_with(group, m, n as u32 + 1).unwrap_or_default();
    let before = |l: usize| found.get(l).copied().unwrap_or(0);
    for (l, &cell) in longer.iter().enumerate() {
        let kept = if n < 2 * l { before(l) } else { 0 };
        let grown = if n + 2 <= 2 * l { before(n + 1 - l) } else { 0 };
        let expected = before(l) + u64::from(m - 1) * (kept + grown);
        group.check(cell == expected, || format!("modulo {m}, {n} to {l}: {longer:?}, {expected}"));
    }
    group.check(longer.len() == n + 2, || format!("{} terms modulo {m}: {longer:?}", n + 1));
}

fn common_divisor(x: u64, y: u64) -> u64 {
    if y == 0 {
        x
    } else {
        common_divisor(y, x % y)
    }
}

/// For every modulus. The length is 1 if the first term is not 0 and the second is one of its
/// multiples, on which all later ones depend. It is n if the last term is no multiple of the
/// common divisor d of m and those before it, where m less m/d terms are none.
fn check_ends(group: &mut Group, m: u32, found: &[u64]) {
    let (n, modulus) = (found.len() as u32 - 1, u64::from(m));
    let multiples: u64 = (1..modulus).map(|first| modulus / common_divisor(first, modulus)).sum();
    let expected = if n == 1 { modulus - 1 } else { multiples };
    group.check(found[1] == expected, || format!("{n} terms modulo {m}: {found:?}, {expected}"));
    let none = |terms: Vec<u64>| {
        let divisor = terms.into_iter().fold(modulus, common_divisor);
        modulus - modulus / divisor
    };
    let last: u64 = sequences(m, n - 1).map(none).sum();
    group.check(found[n as usize] == last, || format!("{n} terms modulo {m}: {found:?}, {last}"));
}

/// A sequence modulo m is one at each of its prime powers, and the length is the largest of theirs:
/// those up to l are as many as there are at the prime powers, multiplied.
fn check_parts(group: &mut Group, m: u32, found: &[u64]) {
    let n = found.len() as u32 - 1;
    let up_to = |cells: &[u64], l: usize| cells[..=l].iter().sum::<u64>();
    let mut parts = Vec::new();
    for power in prime_powers(u64::from(m)) {
        parts.push(tally_with(group, power.modulus() as u32, n).unwrap_or_default());
    }
    for l in 0..=n as usize {
        let product: u64 = parts.iter().map(|part| up_to(part, l)).product();
        group.check(up_to(found, l) == product, || format!("{n} terms modulo {m}: {found:?}"));
    }
}

// ---- by bytes ----

/// The number that bytes give, low byte first.
fn value(bytes: &[u8]) -> u128 {
    bytes.iter().enumerate().map(|(place, &byte)| u128::from(byte) << (8 * place)).sum()
}

/// What a call gets by its own bytes: the content of the buffer, or why it stays.
fn outcome_by_bytes(call: &Call) -> Result<Vec<u8>, Told> {
    let numbered = call.operation == Operation::Enumerate;
    if call.lengths[0] != if numbered { 260 } else { 26 } {
        return Err(bare(5));
    }
    let (m, n) = (call.number, value(&call.payload[..4]) as u32);
    let power = expected(m, n)?;
    if !numbered {
        let lengths = sequences(m, n).map(|terms| join::profile(u64::from(m), &terms)[n as usize]);
        return Ok(bytes_of(&tallied(n, lengths), 13));
    }
    let number = value(&call.payload[4..]);
    if number >= u128::from(power) {
        return Err(bare(33));
    }
    Ok(slip_of(u64::from(m), &digits(m, n, number as u64)))
}

/// Random calls, with what they leave in their buffers; tallies of up to 300 sequences are made
/// again by the steps, and the larger ones are left to the checks above.
pub fn by_bytes(group: &mut Group) {
    let mut random = Random::new(71);
    let mut left = 0;
    for _ in 0..40000 {
        let call = any_call(&mut random);
        let count = value(&call.payload[..4]) as u32;
        if call.operation == Operation::Tally && power(call.number, count) > 300 {
            left += 1;
            continue;
        }
        let mut buffer = vec![call.fill; call.lengths[0] as usize];
        let found = match call.operation {
            Operation::Enumerate => {
                let number = value(&call.payload[4..]) as u64;
                told(enumerate(call.number, count, number, &mut buffer))
            }
            _ => told(tally(call.number, count, &mut buffer)),
        };
        let expected = outcome_by_bytes(&call);
        let words = || format!("{call:?}: {found:?} for {:?}", expected.clone().err());
        group.check(found == expected.clone().map(|_| ()), words);
        let lent = vec![call.fill; call.lengths[0] as usize];
        group.check(buffer == expected.clone().unwrap_or(lent), words);
    }
    group.check(left < 8000, || format!("{left} of the calls are left out"));
}
