//! The sheet, applied. 02, A1: "Applying the sheet's cases in order must give the
//! reported register." Only the modulus, the number of terms and the sheet are read
//! here, and no terms. It serves the self-test.

use crate::join::{chinese_remainder, Register};
use crate::limits::{A_CELLS, B_CELLS};
use crate::residue::{inverse, prime_powers, PrimePower};
use crate::steps::{coefficient, length, set_coefficient, subtract_moved, Pair, StepRecord};

/// The part of a sheet that belongs to one prime power.
struct Part<'a> {
    power: PrimePower,
    records: &'a [StepRecord],
}

impl Part<'_> {
    /// The record of row η at step k, by its place.
    fn record(&self, k: usize, eta: usize) -> Option<StepRecord> {
        self.records.chunks(self.power.e).nth(k)?.get(eta).copied()
    }

    /// The last step before k at which the length of row g grew, as the sheet tells it:
    /// each record has the length before its step.
    fn last_growth(&self, g: usize, k: usize) -> Option<usize> {
        let length = |k: usize| self.record(k, g).map(|record| record.length);
        (0..k).rev().find(|&r| length(r + 1) > length(r))
    }
}

/// The register that the sheet's cases lead to; none if a case cannot be applied.
pub fn apply(m: u64, n: usize, sheet: &[StepRecord]) -> Option<Register> {
    let mut ends: Vec<(Pair, u64)> = Vec::new();
    let mut at = 0;
    for power in prime_powers(m) {
        let records = sheet.get(at..at + n * power.e)?;
        ends.push((end(&Part { power, records }, n)?, power.modulus()));
        at += records.len();
    }
    let joined = |remainder: &dyn Fn(&Pair) -> u64| {
        let parts: Vec<(u64, u64)> = ends.iter().map(|(pair, q)| (remainder(pair), *q)).collect();
        chinese_remainder(&parts)
    };
    Some(Register {
        length: ends.iter().map(|(pair, _)| length(pair)).max()?,
        a: (0..A_CELLS).map(|i| joined(&|pair| coefficient(&pair.a, i))).collect(),
        b: (0..B_CELLS).map(|i| joined(&|pair| coefficient(&pair.b, i))).collect(),
    })
}

/// Row 0 after the n steps. rows[k][η] is row η before step k.
fn end(part: &Part, n: usize) -> Option<Pair> {
    let e = part.power.e;
    let first = |eta| Pair { a: vec![part.power.power(eta)], b: Vec::new() };
    let mut rows: Vec<Vec<Pair>> = vec![(0..e).map(first).collect()];
    for k in 0..n {
        let next: Option<Vec<Pair>> = (0..e).map(|eta| after(part, &rows, k, eta)).collect();
        rows.push(next?);
    }
    Some(rows[n][0].clone())
}

/// Row η after step k.
fn after(part: &Part, rows: &[Vec<Pair>], k: usize, eta: usize) -> Option<Pair> {
    let record = part.record(k, eta)?;
    let row = rows[k][eta].clone();
    match record.case {
        1 => Some(row),
        2 => Some(added(part.power, row, k, record)),
        3 => cancelled(part, rows, row, k, record),
        _ => None,
    }
}

/// θ p^u is added at place k of b.
fn added(power: PrimePower, mut row: Pair, k: usize, record: StepRecord) -> Pair {
    let d = u64::from(record.theta) * power.power(record.u as usize);
    let sum = (coefficient(&row.b, k) + d) % power.modulus();
    set_coefficient(&mut row.b, k, sum);
    row
}

/// The older row h is subtracted: h is the g of row g at r, where row g grew last.
fn cancelled(
    part: &Part,
    rows: &[Vec<Pair>],
    mut row: Pair,
    k: usize,
    record: StepRecord,
) -> Option<Pair> {
    let q = part.power.modulus();
    let g = record.g as usize;
    let r = part.last_growth(g, k)?;
    let h = part.record(r, g)?.g as usize;
    let older = part.record(r, h)?;
    let unit = inverse(u64::from(older.theta), q)?;
    let rise = part.power.power(record.u.checked_sub(older.u)? as usize);
    let factor = u64::from(record.theta) * unit % q * rise % q;
    subtract_moved(&mut row.a, &rows[r][h].a, factor, k - r, q);
    subtract_moved(&mut row.b, &rows[r][h].b, factor, k - r, q);
    Some(row)
}
