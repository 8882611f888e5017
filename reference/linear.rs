//! The least length without the steps: by linear algebra modulo p^e, and by
//! trying every list of coefficients modulo m.

use crate::residue::{inverse, prime_powers, subtract, PrimePower};

/// A system of equations modulo p^e: each row has its coefficients and, last,
/// its right side.
struct System {
    power: PrimePower,
    unknowns: usize,
    rows: Vec<Vec<u64>>,
}

/// A pivot: its row is its place in the list of pivots.
struct Pivot {
    column: usize,
    u: usize,
}

/// "Coefficients c_1 .. c_l give the first k terms if, for every j from l to k-1,
/// S_j is modulo m the sum of c_i times S_(j-i), i from 1 to l."
pub fn gives(coefficients: &[u64], terms: &[u64], m: u64) -> bool {
    let l = coefficients.len();
    (l..terms.len()).all(|j| {
        let sum: u64 = (1..=l).map(|i| coefficients[i - 1] * terms[j - i] % m).sum();
        sum % m == terms[j] % m
    })
}

/// Coefficients c_1 .. c_l modulo p^e that give all the terms, if there are any.
pub fn coefficients(power: PrimePower, terms: &[u64], l: usize) -> Option<Vec<u64>> {
    let q = power.modulus();
    let mut rows = Vec::new();
    for j in l..terms.len() {
        let mut row: Vec<u64> = (1..=l).map(|i| terms[j - i] % q).collect();
        row.push(terms[j] % q);
        rows.push(row);
    }
    solve(System { power, unknowns: l, rows })
}

/// The least length modulo p^e for all the terms, tried from `start` up.
fn least_from(power: PrimePower, terms: &[u64], start: usize) -> usize {
    let mut l = start;
    loop {
        if let Some(found) = coefficients(power, terms, l) {
            assert!(gives(&found, terms, power.modulus()), "the solution found is one");
            return l;
        }
        l += 1;
    }
}

/// The least length modulo m for all the terms, every l tried from 0 up; the
/// largest of those at the prime powers.
pub fn least_length(m: u64, terms: &[u64]) -> usize {
    least_length_at(&prime_powers(m), terms)
}

/// The same where the prime powers of m are known.
pub fn least_length_at(powers: &[PrimePower], terms: &[u64]) -> usize {
    powers.iter().map(|&power| least_from(power, terms, 0)).max().unwrap_or(0)
}

/// The profile modulo m. What gives the first k+1 terms gives the first k, so
/// at each prime power the search for k+1 starts at the least length for k.
pub fn profile(m: u64, terms: &[u64]) -> Vec<usize> {
    let mut largest = vec![0; terms.len() + 1];
    for power in prime_powers(m) {
        let mut least = 0;
        for (k, cell) in largest.iter_mut().enumerate() {
            least = least_from(power, &terms[..k], least);
            *cell = least.max(*cell);
        }
    }
    largest
}

/// A solution, if there is one. Each pivot has the least power of p among all
/// that is left, so it divides everything in its row and column. The rows below
/// the last pivot are then 0 on the left. The system has a solution if and only
/// if their right sides are 0 and each pivot's power of p divides its right side.
fn solve(mut system: System) -> Option<Vec<u64>> {
    let mut pivots: Vec<Pivot> = Vec::new();
    let mut used = vec![false; system.unknowns];
    let mut floor = 0;
    while let Some((row, column, u)) = least_entry(&system, &used, pivots.len(), floor) {
        system.rows.swap(pivots.len(), row);
        clear_below(&mut system, pivots.len(), column, u);
        used[column] = true;
        floor = u;
        pivots.push(Pivot { column, u });
    }
    let right = system.unknowns;
    if system.rows.iter().skip(pivots.len()).any(|row| row[right] != 0) {
        return None;
    }
    back_substitute(&system, &pivots)
}

/// The place of a nonzero entry with the least power of p, among rows from
/// `first` on and unused columns. No entry has a power below `floor`, so one
/// that reaches it ends the search.
fn least_entry(
    system: &System,
    used: &[bool],
    first: usize,
    floor: usize,
) -> Option<(usize, usize, usize)> {
    let mut best: Option<(usize, usize, usize)> = None;
    for (i, row) in system.rows.iter().enumerate().skip(first) {
        for column in (0..system.unknowns).filter(|&c| !used[c] && row[c] != 0) {
            let (u, _) = system.power.split(row[column]);
            if best.map_or(true, |(_, _, least)| u < least) {
                best = Some((i, column, u));
                if u == floor {
                    return best;
                }
            }
        }
    }
    best
}

/// Makes the column 0 in every row below the pivot's.
fn clear_below(system: &mut System, at: usize, column: usize, u: usize) {
    let q = system.power.modulus();
    let divisor = system.power.power(u);
    let (_, unit) = system.power.split(system.rows[at][column]);
    let reciprocal = inverse(unit, q).expect("prime to p");
    let pivot_row = system.rows[at].clone();
    for row in system.rows.iter_mut().skip(at + 1).filter(|row| row[column] != 0) {
        let factor = q - row[column] / divisor * reciprocal % q;
        for (entry, above) in row.iter_mut().zip(&pivot_row) {
            *entry = (*entry + factor * above) % q;
        }
    }
}

/// The unknowns from the last pivot back; those without a pivot are 0.
fn back_substitute(system: &System, pivots: &[Pivot]) -> Option<Vec<u64>> {
    let q = system.power.modulus();
    let mut solution = vec![0; system.unknowns];
    for (i, pivot) in pivots.iter().enumerate().rev() {
        let row = &system.rows[i];
        let mut right = row[system.unknowns];
        for (c, x) in solution.iter().enumerate() {
            right = subtract(right, row[c] * x % q, q);
        }
        let divisor = system.power.power(pivot.u);
        if right % divisor != 0 {
            return None;
        }
        let (_, unit) = system.power.split(row[pivot.column]);
        let reciprocal = inverse(unit, q).expect("prime to p");
        solution[pivot.column] = right / divisor * reciprocal % q;
    }
    Some(solution)
}

/// The least length modulo m by trying every list of l coefficients, l from 0
/// up, directly modulo m. For tiny m and few terms only.
pub fn least_by_trying(m: u64, terms: &[u64]) -> usize {
    (0..).find(|&l| some_list_gives(m, terms, l)).expect("l = k always does")
}

fn some_list_gives(m: u64, terms: &[u64], l: usize) -> bool {
    let mut list = vec![0; l];
    loop {
        if gives(&list, terms, m) {
            return true;
        }
        if !advance(&mut list, m) {
            return false;
        }
    }
}

/// The next list in counting order; false after the last.
pub fn advance(list: &mut [u64], m: u64) -> bool {
    for digit in list.iter_mut() {
        *digit += 1;
        if *digit < m {
            return true;
        }
        *digit = 0;
    }
    false
}
