//! Random moduli, sequences and slips, good and damaged.

use crate::calls::{outputs, slip_of};
use crate::join::Register;
use crate::limits::*;
use crate::random::Random;
use crate::residue::{prime_powers, PrimePower};

const HIGH_POWERS: [u64; 15] =
    [4, 8, 9, 16, 25, 27, 32, 49, 64, 81, 1024, 2048, 2187, 2401, 3125];
const PRODUCTS: [u64; 18] = [
    6, 10, 12, 18, 30, 36, 60, 72, 210, 360, 420, 900, 1260, 2310, 2520, 3600, 4080, 4095,
];
const EDGES: [u64; 8] = [2, 3, 4, 2047, 4091, 4093, 4094, 4095];

/// A legal modulus, with weight on prime powers, products of several primes and
/// small numbers.
pub fn modulus(random: &mut Random) -> u64 {
    match random.below(20) {
        0..=4 => random.pick(&HIGH_POWERS),
        5..=6 => any_power(random),
        7..=11 => random.pick(&PRODUCTS),
        12..=15 => random.between(2, 16),
        16 => random.pick(&EDGES),
        _ => random.between(2, MODULUS_LIMIT),
    }
}

/// Any prime power within the limit, the primes themselves among them.
fn any_power(random: &mut Random) -> u64 {
    loop {
        let number = random.between(2, MODULUS_LIMIT);
        let power = prime_powers(number)[0];
        let highest = (1..).take_while(|&e| power.power(e) <= MODULUS_LIMIT).count();
        if highest > 1 || random.once_in(4) {
            return power.power(random.between(1, highest as u64) as usize);
        }
    }
}

/// A count of terms, with weight on small ones and on 128.
pub fn count(random: &mut Random) -> usize {
    let count = match random.below(20) {
        0..=5 => random.below(9),
        6..=12 => random.below(33),
        13..=14 => 128,
        15 => 127,
        _ => random.below(129),
    };
    count as usize
}

/// A sequence of n terms modulo m of some kind.
pub fn terms(random: &mut Random, m: u64, n: usize) -> Vec<u64> {
    match random.below(20) {
        0..=2 => uniform(random, m, n),
        3..=8 => structured(random, m, n),
        9 => vec![0; n],
        10..=11 => zero_start(random, m, n),
        12..=14 => multiples(random, m, n),
        15 => mixed_powers(random, m, n),
        16 => sparse(random, m, n),
        17 => structured_at_one_prime(random, m, n),
        _ => near_miss(random, m, n),
    }
}

pub fn uniform(random: &mut Random, m: u64, n: usize) -> Vec<u64> {
    (0..n).map(|_| random.below(m)).collect()
}

/// A sequence that a short register generates.
pub fn structured(random: &mut Random, m: u64, n: usize) -> Vec<u64> {
    match random.below(4) {
        0 => fibonacci(random, m, n),
        1 => periodic(random, m, n),
        _ => {
            let length = random.below(1 + (n as u64 / 2).min(16)) as usize;
            let register = register(random, m, length);
            outputs(m, &register, n)
        }
    }
}

/// A register of the given length with random coefficients; often a has a
/// smaller degree than the length allows.
pub fn register(random: &mut Random, m: u64, length: usize) -> Register {
    let mut register = Register { length, a: vec![0; A_CELLS], b: vec![0; B_CELLS] };
    let degree = if random.once_in(3) { random.between(0, length as u64) as usize } else { length };
    for i in 1..=degree {
        register.a[i] = random.below(m);
    }
    for i in 0..length {
        register.b[i] = random.below(m);
    }
    register.a[0] = 1;
    register
}

fn fibonacci(random: &mut Random, m: u64, n: usize) -> Vec<u64> {
    let mut terms = uniform(random, m, n.min(2));
    for j in 2..n {
        terms.push((terms[j - 1] + terms[j - 2]) % m);
    }
    terms
}

fn periodic(random: &mut Random, m: u64, n: usize) -> Vec<u64> {
    let length = random.between(1, 16) as usize;
    let period = uniform(random, m, length);
    (0..n).map(|j| period[j % period.len()]).collect()
}

fn zero_start(random: &mut Random, m: u64, n: usize) -> Vec<u64> {
    let zeros = random.place(n + 1);
    let mut terms = vec![0; zeros];
    let rest = if random.once_in(2) {
        uniform(random, m, n - zeros)
    } else {
        structured(random, m, n - zeros)
    };
    terms.extend(rest);
    terms
}

/// Multiples of a divisor of m: of p, of p^j, or of a product of such.
fn multiples(random: &mut Random, m: u64, n: usize) -> Vec<u64> {
    let mut divisor = 1;
    for power in prime_powers(m) {
        divisor *= power.power(random.between(0, power.e as u64) as usize);
    }
    let base = if random.once_in(2) { uniform(random, m, n) } else { structured(random, m, n) };
    base.into_iter().map(|term| term * divisor % m).collect()
}

/// Each term has its own power of one of the primes.
fn mixed_powers(random: &mut Random, m: u64, n: usize) -> Vec<u64> {
    let powers = prime_powers(m);
    let mut terms = Vec::new();
    for _ in 0..n {
        let power: PrimePower = random.pick(&powers);
        let factor = power.power(random.between(0, power.e as u64) as usize);
        terms.push(random.below(m) * factor % m);
    }
    terms
}

fn sparse(random: &mut Random, m: u64, n: usize) -> Vec<u64> {
    let mut terms = vec![0; n];
    for _ in 0..random.between(1, 4) {
        if n > 0 {
            let place = random.place(n);
            terms[place] = random.below(m);
        }
    }
    terms
}

/// Structured at one prime power of m, anything at the others.
fn structured_at_one_prime(random: &mut Random, m: u64, n: usize) -> Vec<u64> {
    let q = random.pick(&prime_powers(m)).modulus();
    let base = structured(random, m, n);
    base.into_iter().map(|term| (term + q * random.below(m)) % m).collect()
}

/// A structured sequence with one term changed.
fn near_miss(random: &mut Random, m: u64, n: usize) -> Vec<u64> {
    let mut terms = structured(random, m, n);
    if n > 0 {
        let place = random.place(n);
        terms[place] = (terms[place] + random.between(1, m - 1)) % m;
    }
    terms
}

/// A slip that none of 1 to 4 applies to.
pub fn good_slip(random: &mut Random) -> Vec<u8> {
    let m = modulus(random);
    let n = count(random);
    slip_of(m, &terms(random, m, n))
}

/// A slip that is mostly good.
pub fn any_slip(random: &mut Random) -> Vec<u8> {
    let mut slip = good_slip(random);
    if random.once_in(5) {
        damage(random, &mut slip);
    }
    slip
}

/// Puts a kind of fault into a slip, sometimes two: these show the order of the refusals.
pub fn damage(random: &mut Random, slip: &mut [u8]) {
    put_fault(random, slip);
    if random.once_in(3) {
        put_fault(random, slip);
    }
}

/// Puts one kind of fault into a slip, where there is room for it.
fn put_fault(random: &mut Random, slip: &mut [u8]) {
    let modulus = u16::from_le_bytes([slip[0], slip[1]]);
    let count = usize::from(u16::from_le_bytes([slip[2], slip[3]])).min(TERMS_LIMIT);
    match random.below(9) {
        0 => {
            let wrong = random.pick(&[0, 1, 4096, 4097, 65535]);
            set_cell(slip, 0, wrong);
        }
        1 => {
            let wrong = random.pick(&[129, 130, 255, 256, 257, 384, 65535]);
            set_cell(slip, 1, wrong);
        }
        2..=5 if count > 0 => {
            for place in wrong_places(random, count) {
                let wrong = not_below(random, modulus);
                set_cell(slip, 2 + place, wrong);
            }
        }
        6..=7 if count < TERMS_LIMIT => {
            let any = random.between(count as u64, TERMS_LIMIT as u64 - 1) as usize;
            let place = random.pick(&[count, any, any, TERMS_LIMIT - 1]);
            let bit = 1 << random.below(16);
            let wrong = random.pick(&[bit, 1, 256, modulus, 65535]);
            set_cell(slip, 2 + place, wrong);
        }
        8 => {
            // A full slip, out of range at the last place.
            set_cell(slip, 1, TERMS_LIMIT as u16);
            let wrong = not_below(random, modulus);
            set_cell(slip, 1 + TERMS_LIMIT, wrong);
        }
        _ => {}
    }
}

/// Places for terms out of range, of which 3 tells the first: one at the start, at the
/// end or anywhere, or several, so that the first is not the last.
pub fn wrong_places(random: &mut Random, count: usize) -> Vec<usize> {
    let any = random.place(count);
    match random.below(8) {
        0 => vec![0],
        1..=2 => vec![count - 1],
        3..=4 => vec![any],
        5 => (any..count).collect(),
        _ => (0..random.between(2, 4)).map(|_| random.place(count)).collect(),
    }
}

/// A number that is not below the modulus; its low byte alone may well be.
pub fn not_below(random: &mut Random, modulus: u16) -> u16 {
    let any = random.between(u64::from(modulus), 65535) as u16;
    let high = (any & 0xff00).max(modulus);
    random.pick(&[modulus, modulus, modulus.saturating_add(1), any, high, 65535])
}

pub fn set_cell(bytes: &mut [u8], cell: usize, value: u16) {
    bytes[CELL_BYTES * cell..][..CELL_BYTES].copy_from_slice(&value.to_le_bytes());
}

/// `slips SEED COUNT`: that many slips end to end; for one seed in four the last
/// is cut short.
pub fn slips(seed: u64, count: u64) -> Vec<u8> {
    let mut random = Random::new(seed);
    let mut bytes = Vec::new();
    for _ in 0..count {
        bytes.extend(any_slip(&mut random));
    }
    if count > 0 && random.once_in(4) {
        let missing = random.between(1, SLIP_BYTES as u64 - 1) as usize;
        bytes.truncate(bytes.len() - missing);
    }
    bytes
}
