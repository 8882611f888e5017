//! 000's computer-implementation version, which keeps for each row only its
//! present pair, its next pair and one older pair. It serves the self-test: its
//! pair must be the one of the full history, coefficient by coefficient.

use crate::residue::{inverse, subtract, PrimePower};
use crate::steps::{coefficient, length, product_coefficient, set_coefficient, subtract_moved, Pair};

/// The older pair of a row: a^old, b^old, θ^old, u^old and r.
#[derive(Clone)]
struct Older {
    pair: Pair,
    theta: u64,
    u: usize,
    r: usize,
}

#[derive(Clone)]
struct Row {
    now: Pair,
    new: Pair,
    theta: u64,
    u: usize,
    older: Option<Older>,
}

/// (a_0^new, b_0^new) after the last step; (1, 0) for no terms.
pub fn synthesize(power: PrimePower, terms: &[u64]) -> Pair {
    noted(power, terms).0
}

/// That pair, and what the steps noted: L of the present pair, u and θ, for each step
/// and in it for each row.
pub fn noted(power: PrimePower, terms: &[u64]) -> (Pair, Vec<(usize, usize, u64)>) {
    let q = power.modulus();
    let remainders: Vec<u64> = terms.iter().map(|s| s % q).collect();
    if remainders.is_empty() {
        return (Pair { a: vec![1], b: Vec::new() }, Vec::new());
    }
    let note = |row: &Row| (length(&row.now), row.u, row.theta);
    let mut rows = step_zero(power, remainders[0]);
    let mut notes: Vec<(usize, usize, u64)> = rows.iter().map(note).collect();
    for k in 1..remainders.len() {
        remember(power, &mut rows, k);
        for row in rows.iter_mut() {
            row.now = row.new.clone();
        }
        advance(power, &mut rows, k, &remainders);
        notes.extend(rows.iter().map(note));
    }
    (rows[0].new.clone(), notes)
}

/// Step 0: a = p^η, b = 0, a^new = p^η, b^new = p^η S_0.
fn step_zero(power: PrimePower, first: u64) -> Vec<Row> {
    let q = power.modulus();
    let mut rows = Vec::new();
    for eta in 0..power.e {
        let now = Pair { a: vec![power.power(eta)], b: Vec::new() };
        let d = power.power(eta) * first % q;
        let (u, theta) = power.split(d);
        let mut new = now.clone();
        set_coefficient(&mut new.b, 0, d);
        rows.push(Row { now, new, theta, u, older: None });
    }
    rows
}

/// First part of step k: where the length grew, row h = e-1-u_g becomes the older pair.
fn remember(power: PrimePower, rows: &mut [Row], k: usize) {
    for g in 0..rows.len() {
        if length(&rows[g].new) > length(&rows[g].now) {
            let h = &rows[power.e - 1 - rows[g].u];
            let older = Older { pair: h.now.clone(), theta: h.theta, u: h.u, r: k - 1 };
            rows[g].older = Some(older);
        }
    }
}

/// Third part of step k: θ and u of each row, then cases I, IIa, IIb.
fn advance(power: PrimePower, rows: &mut [Row], k: usize, terms: &[u64]) {
    let q = power.modulus();
    for eta in 0..rows.len() {
        let pair = rows[eta].now.clone();
        let product = product_coefficient(terms, &pair.a, k, q);
        let d = subtract(product, coefficient(&pair.b, k), q);
        let (u, theta) = power.split(d);
        let mut new = pair;
        if u != power.e {
            let g = &rows[power.e - 1 - u];
            if length(&g.now) == 0 {
                let sum = (coefficient(&new.b, k) + d) % q;
                set_coefficient(&mut new.b, k, sum);
            } else {
                let older = g.older.as_ref().expect("a row with L above 0 has grown");
                let unit = inverse(older.theta, q).expect("θ is prime to p");
                let factor = theta * unit % q * power.power(u - older.u) % q;
                subtract_moved(&mut new.a, &older.pair.a, factor, k - older.r, q);
                subtract_moved(&mut new.b, &older.pair.b, factor, k - older.r, q);
            }
        }
        rows[eta].u = u;
        rows[eta].theta = theta;
        rows[eta].new = new;
    }
}
