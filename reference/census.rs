//! "The census" (02, A11): the sequences of n terms modulo m in dictionary order, and how many of
//! them have each least length.

use crate::limits::{CENSUS_LIMIT, TALLY_CELLS};
use crate::linear::least_length_at;
use crate::residue::prime_powers;
use std::cell::RefCell;
use std::collections::BTreeMap;

/// m to the power n, if it is "at most 4,096". The first product above that ends the search, so
/// none is larger than 4,096 times m.
pub fn how_many(m: u64, n: usize) -> Option<u64> {
    (0..n).try_fold(1, |power, _| Some(power * m).filter(|&next| next <= CENSUS_LIMIT))
}

/// The sequence with a number, "counted from 0 in dictionary order by first term": that many
/// steps on from the first one, which has zeros alone.
pub fn numbered(m: u64, n: usize, number: u64) -> Vec<u64> {
    let mut terms = vec![0; n];
    for _ in 0..number {
        step(&mut terms, m);
    }
    terms
}

/// Goes on to the next sequence in the dictionary, and is false at the last: the last term that
/// can grow does, and those after it are 0 again.
fn step(terms: &mut [u64], m: u64) -> bool {
    let Some(place) = terms.iter().rposition(|&term| term + 1 < m) else {
        return false;
    };
    terms[place] += 1;
    terms[place + 1..].fill(0);
    true
}

thread_local! {
    /// The tallies made so far, by m and n. Scripts ask for the same ones over and over, and each
    /// takes up to 4,096 sequences with the equations of every length.
    static MADE: RefCell<BTreeMap<(u64, usize), Vec<u64>>> = RefCell::default();
}

/// How many sequences have each least length: "13 cells, zero past n".
pub fn tally_of(m: u64, n: usize) -> Vec<u64> {
    MADE.with_borrow_mut(|made| made.entry((m, n)).or_insert_with(|| counted(m, n)).clone())
}

/// The count itself, one sequence after the other; the lengths are not from the steps.
fn counted(m: u64, n: usize) -> Vec<u64> {
    let powers = prime_powers(m);
    let mut cells = vec![0; TALLY_CELLS];
    let mut terms = vec![0; n];
    loop {
        cells[least_length_at(&powers, &terms)] += 1;
        if !step(&mut terms, m) {
            return cells;
        }
    }
}
