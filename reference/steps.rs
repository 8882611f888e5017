//! The steps at a prime power p^e, in the words of document 01, by full history:
//! every row of every step is kept, and what an older step held is looked up there.

use crate::residue::{inverse, subtract, PrimePower};

/// A pair (a, b) of polynomials; place i of a list is the coefficient of x^i.
/// Missing coefficients count as zero.
#[derive(Clone, PartialEq, Eq, Debug)]
pub struct Pair {
    pub a: Vec<u64>,
    pub b: Vec<u64>,
}

/// What a step did with a row.
#[derive(Clone, Copy, PartialEq, Eq, Debug)]
pub enum Case {
    /// u = e: the row stays.
    Stays,
    /// Row g has L = 0: d is added at place k of b.
    Added,
    /// The row is cancelled by an older row.
    Cancelled,
}

impl Case {
    /// 02, A1: "the case: 1 stays, 2 added to b, 3 cancelled by an older row".
    pub fn number(self) -> u32 {
        match self {
            Case::Stays => 1,
            Case::Added => 2,
            Case::Cancelled => 3,
        }
    }
}

/// What a step found for a row: d, its u and θ, and the case.
#[derive(Clone, Copy, PartialEq, Eq, Debug)]
pub struct Finding {
    pub d: u64,
    pub u: usize,
    pub theta: u64,
    pub case: Case,
}

/// rows[k][η] is row η before step k; rows[n] is what the last step left.
/// findings[k][η] belongs to step k.
pub struct History {
    pub power: PrimePower,
    pub rows: Vec<Vec<Pair>>,
    pub findings: Vec<Vec<Finding>>,
}

/// A line of the sheet. 02, A1: "Each record has the prime power, k, η, the row's
/// length before the step, u, θ, g (e where the row stays) and the case". Lent
/// records may hold anything.
#[derive(Clone, Copy, PartialEq, Eq, Debug)]
pub struct StepRecord {
    pub power: u32,
    pub k: u32,
    pub eta: u32,
    pub length: u32,
    pub u: u32,
    pub theta: u32,
    pub g: u32,
    pub case: u32,
}

impl StepRecord {
    /// The eight numbers in the order of the paper.
    pub fn numbers(self) -> [u32; 8] {
        let StepRecord { power, k, eta, length, u, theta, g, case } = self;
        [power, k, eta, length, u, theta, g, case]
    }

    /// The record with these numbers.
    pub fn of([power, k, eta, length, u, theta, g, case]: [u32; 8]) -> StepRecord {
        StepRecord { power, k, eta, length, u, theta, g, case }
    }
}

/// Coefficient i, missing ones being zero.
pub fn coefficient(polynomial: &[u64], i: usize) -> u64 {
    polynomial.get(i).copied().unwrap_or(0)
}

/// The degree, none for the polynomial 0.
pub fn degree(polynomial: &[u64]) -> Option<usize> {
    polynomial.iter().rposition(|&c| c != 0)
}

/// "L is the larger of the degree of a and 1 + the degree of b, where b = 0 adds
/// nothing." The pair (0, 0) never arises; it gets 0.
pub fn length(pair: &Pair) -> usize {
    let of_a = degree(&pair.a).unwrap_or(0);
    let of_b = degree(&pair.b).map_or(0, |degree| 1 + degree);
    of_a.max(of_b)
}

/// Coefficient k of S × a modulo q.
pub fn product_coefficient(terms: &[u64], a: &[u64], k: usize, q: u64) -> u64 {
    let mut sum = 0;
    for (i, &c) in a.iter().enumerate().take(k + 1) {
        sum = (sum + c * (coefficient(terms, k - i) % q)) % q;
    }
    sum
}

/// The history of all steps for the terms, each taken modulo p^e.
pub fn run(power: PrimePower, terms: &[u64]) -> History {
    let q = power.modulus();
    let remainders: Vec<u64> = terms.iter().map(|s| s % q).collect();
    let mut history = History { power, rows: vec![first_rows(power)], findings: Vec::new() };
    for k in 0..remainders.len() {
        let findings = find(&history, k, &remainders);
        history.findings.push(findings);
        // "All rows are updated from the state before the step": the new rows
        // join the history only when all of them are there.
        let next: Vec<Pair> = (0..power.e).map(|eta| updated(&history, k, eta)).collect();
        history.rows.push(next);
    }
    history
}

/// "Before any term it is (p^η, 0)."
fn first_rows(power: PrimePower) -> Vec<Pair> {
    (0..power.e).map(|eta| Pair { a: vec![power.power(eta)], b: Vec::new() }).collect()
}

/// What step k finds for each row.
fn find(history: &History, k: usize, terms: &[u64]) -> Vec<Finding> {
    let power = history.power;
    let q = power.modulus();
    let rows = &history.rows[k];
    let mut findings = Vec::new();
    for row in rows {
        // "d is coefficient k of S × a less coefficient k of b, modulo p^e."
        let product = product_coefficient(terms, &row.a, k, q);
        let d = subtract(product, coefficient(&row.b, k), q);
        let (u, theta) = power.split(d);
        let case = if u == power.e {
            Case::Stays
        } else if length(&rows[power.e - 1 - u]) == 0 {
            Case::Added
        } else {
            Case::Cancelled
        };
        findings.push(Finding { d, u, theta, case });
    }
    findings
}

/// Row η after step k.
fn updated(history: &History, k: usize, eta: usize) -> Pair {
    let row = &history.rows[k][eta];
    let finding = history.findings[k][eta];
    match finding.case {
        Case::Stays => row.clone(),
        Case::Added => {
            let q = history.power.modulus();
            let mut next = row.clone();
            let sum = (coefficient(&next.b, k) + finding.d) % q;
            set_coefficient(&mut next.b, k, sum);
            next
        }
        Case::Cancelled => cancelled(history, k, eta),
    }
}

/// "From the row subtract θ × (inverse of the θ of row h at r) × p^(u minus that
/// row's u) × row h's pair as it was at r, moved up k-r places. The inverse and
/// every sum are modulo p^e."
fn cancelled(history: &History, k: usize, eta: usize) -> Pair {
    let power = history.power;
    let q = power.modulus();
    let present = history.findings[k][eta];
    let g = power.e - 1 - present.u;
    let r = last_growth(history, g, k).expect("a row with L above 0 has grown");
    // "h = e-1-u of row g at r"; row g grew at r, so its u there was not e.
    let h = power.e - 1 - history.findings[r][g].u;
    let older = history.findings[r][h];
    let rise = present.u.checked_sub(older.u).expect("the older u is not larger");
    let unit = inverse(older.theta, q).expect("θ is prime to p");
    let factor = present.theta * unit % q * (power.power(rise) % q) % q;
    let pair = &history.rows[r][h];
    let mut next = history.rows[k][eta].clone();
    subtract_moved(&mut next.a, &pair.a, factor, k - r, q);
    subtract_moved(&mut next.b, &pair.b, factor, k - r, q);
    next
}

/// "Let r be the last step at which row g's L grew", among the steps before k.
fn last_growth(history: &History, g: usize, k: usize) -> Option<usize> {
    (0..k).rev().find(|&r| length(&history.rows[r + 1][g]) > length(&history.rows[r][g]))
}

/// The records of all steps: k rising, then η.
pub fn records(history: &History) -> Vec<StepRecord> {
    let mut records = Vec::new();
    for k in 0..history.findings.len() {
        for eta in 0..history.power.e {
            records.push(record(history, k, eta));
        }
    }
    records
}

/// What step k did with row η. A row that stays has no g of its own: e stands there.
fn record(history: &History, k: usize, eta: usize) -> StepRecord {
    let e = history.power.e;
    let Finding { u, theta, case, .. } = history.findings[k][eta];
    StepRecord {
        power: history.power.modulus() as u32,
        k: k as u32,
        eta: eta as u32,
        length: length(&history.rows[k][eta]) as u32,
        u: u as u32,
        theta: theta as u32,
        g: (if case == Case::Stays { e } else { e - 1 - u }) as u32,
        case: case.number(),
    }
}

/// target - factor × source × x^places modulo q.
pub fn subtract_moved(target: &mut Vec<u64>, source: &[u64], factor: u64, places: usize, q: u64) {
    for (i, &c) in source.iter().enumerate() {
        let old = coefficient(target, i + places);
        set_coefficient(target, i + places, subtract(old, factor * c % q, q));
    }
}

/// Sets coefficient i. No zero is kept at the end of a list, so that a degree is
/// found at once.
pub fn set_coefficient(polynomial: &mut Vec<u64>, i: usize, value: u64) {
    if i >= polynomial.len() {
        polynomial.resize(i + 1, 0);
    }
    polynomial[i] = value;
    while polynomial.last() == Some(&0) {
        polynomial.pop();
    }
}
