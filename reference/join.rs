//! From the steps at each prime power to the register, the profile and the sheet
//! modulo m (01, end of "The steps"; 000, section 3; 02, A1).

use crate::limits::{A_CELLS, B_CELLS};
use crate::residue::prime_powers;
use crate::steps::{coefficient, length, records, run, History, StepRecord};

/// A register in the cells of a report: 129 of a, 128 of b, zero past the length.
#[derive(Clone, PartialEq, Eq, Debug)]
pub struct Register {
    pub length: usize,
    pub a: Vec<u64>,
    pub b: Vec<u64>,
}

/// The history at each prime power of m.
pub fn histories(m: u64, terms: &[u64]) -> Vec<History> {
    prime_powers(m).into_iter().map(|power| run(power, terms)).collect()
}

/// The register modulo m for the terms.
pub fn register(m: u64, terms: &[u64]) -> Register {
    register_after(&histories(m, terms), terms.len())
}

/// The register joined from row 0 after k steps at each prime power. "Each
/// coefficient is the one number modulo m that has the right remainder at each
/// prime power; l is the largest of the lengths."
pub fn register_after(histories: &[History], k: usize) -> Register {
    Register {
        length: length_after(histories, k),
        a: (0..A_CELLS).map(|i| joined(histories, |h| coefficient(&h.rows[k][0].a, i))).collect(),
        b: (0..B_CELLS).map(|i| joined(histories, |h| coefficient(&h.rows[k][0].b, i))).collect(),
    }
}

/// The largest length of row 0 after k steps.
pub fn length_after(histories: &[History], k: usize) -> usize {
    histories.iter().map(|history| length(&history.rows[k][0])).max().unwrap_or(0)
}

/// The profile: the joined length after k steps, for k = 0 to n.
pub fn profile(m: u64, terms: &[u64]) -> Vec<usize> {
    let histories = histories(m, terms);
    (0..=terms.len()).map(|k| length_after(&histories, k)).collect()
}

/// The step records: "prime rising, then k, then η".
pub fn sheet(histories: &[History]) -> Vec<StepRecord> {
    histories.iter().flat_map(records).collect()
}

/// How many records a sheet must have room for: "n times the sum of the e".
pub fn sheet_size(m: u64, n: usize) -> usize {
    n * prime_powers(m).iter().map(|power| power.e).sum::<usize>()
}

/// Joins the remainders that the histories give.
fn joined(histories: &[History], remainder: impl Fn(&History) -> u64) -> u64 {
    let mut parts: Vec<(u64, u64)> =
        histories.iter().map(|h| (remainder(h), h.power.modulus())).collect();
    // The largest prime power first: then the search below is short.
    parts.sort_by(|x, y| y.1.cmp(&x.1));
    chinese_remainder(&parts)
}

/// The one number below the product of the moduli with the given remainders, for
/// moduli prime to each other: a number right for the first ones stays so when
/// their product is added, and that is done until the next remainder is right.
pub fn chinese_remainder(parts: &[(u64, u64)]) -> u64 {
    let mut number = 0;
    let mut product = 1;
    for &(remainder, modulus) in parts {
        while number % modulus != remainder {
            number += product;
        }
        product *= modulus;
    }
    number
}
