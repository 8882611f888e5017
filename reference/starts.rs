//! The order and the start in the listing's lines. 02, A6: "order is the degree of a, start is
//! the length, and the register prints a_0 up to the order". The lines are read back from
//! their text, by means of this file alone.

use crate::calls::{cells, slip_of, synthesize};
use crate::cases::padded;
use crate::checks::Group;
use crate::join;
use crate::limits::*;
use crate::linear;
use crate::listing::listing;
use crate::random::Random;
use crate::residue::prime_powers;
use crate::selftest::sample;
use std::cmp::Ordering;
use std::collections::BTreeMap;

/// The numbers of a line, as they stand in the text.
pub struct Line {
    pub modulus: u64,
    pub count: usize,
    pub order: usize,
    pub start: usize,
    /// As many as are printed, whatever the order says.
    pub register: Vec<u64>,
}

/// How an order may stand to its start.
pub const KINDS: [&str; 4] =
    ["start 0", "order 0, start above 0", "order between 0 and start", "order is start, above 0"];

impl Line {
    /// One of the kinds; an order above its start is of none of them.
    pub fn kind(&self) -> &'static str {
        match (self.order, self.order.cmp(&self.start)) {
            (0, Ordering::Equal) => "start 0",
            (0, Ordering::Less) => "order 0, start above 0",
            (_, Ordering::Less) => "order between 0 and start",
            (_, Ordering::Equal) => "order is start, above 0",
            (_, Ordering::Greater) => "order above start",
        }
    }
}

/// The line with this text; none for a header, a refusal, or a line of a sheet.
pub fn read_back(text: &str) -> Option<Line> {
    let (front, register) = text.rsplit_once(' ')?;
    let [modulus, count, order, start] = numbers(front, ' ')?[..] else { return None };
    Some(Line {
        modulus,
        count: count as usize,
        order: order as usize,
        start: start as usize,
        register: numbers(register, ',')?,
    })
}

/// The numbers with this mark between them.
fn numbers(text: &str, mark: char) -> Option<Vec<u64>> {
    text.split(mark).map(number).collect()
}

/// A number without a sign or leading zeros.
fn number(text: &str) -> Option<u64> {
    let number: u64 = text.parse().ok()?;
    (number.to_string() == text).then_some(number)
}

/// How often each kind was met, by the kind of modulus.
type Tally = BTreeMap<(&'static str, &'static str), usize>;

const KINDS_OF_MODULI: [&str; 3] = ["a prime", "a higher power of one", "several primes"];

pub fn kind_of_modulus(m: u64) -> &'static str {
    match prime_powers(m)[..] {
        [power] if power.e == 1 => "a prime",
        [_] => "a higher power of one",
        _ => "several primes",
    }
}

/// The lines of all short sequences for small moduli, then of random slips.
pub fn lines(group: &mut Group) {
    let mut tally = Tally::new();
    for (m, longest) in SMALL {
        for n in 0..=longest {
            all_sequences(group, &mut tally, m, n);
        }
    }
    met(group, &tally, 10);
    random_slips(group);
}

/// Moduli, each with the largest count.
const SMALL: [(u64, usize); 11] = [
    (2, 8), (3, 5), (4, 5), (5, 4), (6, 4), (7, 3), (8, 4), (9, 4), (10, 3), (12, 3), (30, 2),
];

/// The least lengths here come from trying all lists of coefficients.
fn all_sequences(group: &mut Group, tally: &mut Tally, m: u64, n: usize) {
    let mut terms = vec![0; n];
    loop {
        let least = linear::least_by_trying(m, &terms);
        check_line(group, tally, m, &terms, least);
        if !linear::advance(&mut terms, m) {
            break;
        }
    }
}

/// The least lengths here come from linear algebra.
fn random_slips(group: &mut Group) {
    let mut random = Random::new(35);
    let mut tally = Tally::new();
    for round in 0..8000 {
        let (m, terms) = sample(&mut random, if round % 200 == 0 { TERMS_LIMIT } else { 30 });
        let least = linear::least_length(m, &terms);
        check_line(group, &mut tally, m, &terms, least);
    }
    met(group, &tally, 100);
}

/// Every kind of line for every kind of modulus, so that neither number can stand for the
/// other.
fn met(group: &mut Group, tally: &Tally, times: usize) {
    for (modulus, kind) in KINDS_OF_MODULI.iter().flat_map(|m| KINDS.map(|kind| (*m, kind))) {
        let found = tally.get(&(modulus, kind)).copied().unwrap_or(0);
        group.check(found >= times, || format!("{modulus}, {kind}: {found} times"));
    }
}

/// The line of a sequence, whose least length is known from elsewhere.
fn check_line(group: &mut Group, tally: &mut Tally, m: u64, terms: &[u64], least: usize) {
    let text = listing(&slip_of(m, terms));
    let words = || format!("modulo {m}: {terms:?}: {text}");
    let after_header = text.strip_prefix("modulus count order start register\n");
    let line = after_header.and_then(|rest| rest.strip_suffix('\n')).and_then(read_back);
    group.check(line.is_some(), words);
    let Some(line) = line else { return };
    *tally.entry((kind_of_modulus(m), line.kind())).or_insert(0) += 1;
    group.check((line.modulus, line.count) == (m, terms.len()), words);
    group.check(line.order <= line.start, words);
    group.check(line.register.len() == line.order + 1, words);
    group.check(line.register.last() != Some(&0), words);
    // "Least" refers to the start.
    group.check(line.start == least, words);
    group.check(join::profile(m, terms).last() == Some(&line.start), words);
    group.check(as_reported(&line, terms), words);
    group.check(in_record(&line, terms), words);
    group.check(rule_starts(&line, terms), words);
}

/// The start is the register's length, and what is printed, with zeros up to the start, is
/// its a.
fn as_reported(line: &Line, terms: &[u64]) -> bool {
    let register = join::register(line.modulus, terms);
    let filled = padded(&line.register, line.register.len().max(line.start + 1));
    line.start == register.length && filled == register.a[..=register.length]
}

/// "Records keep the length": the start stands there, and the same a.
fn in_record(line: &Line, terms: &[u64]) -> bool {
    let mut record = [7; RECORD_BYTES];
    let made = synthesize(&slip_of(line.modulus, terms), &mut record).is_ok();
    let length = cells(&record[RECORD_LENGTH_AT..RECORD_A_AT]);
    let a = cells(&record[RECORD_A_AT..RECORD_B_AT]);
    made && length == [line.start as u64] && a == padded(&line.register, A_CELLS)
}

/// "The place from which the rule holds": from the start on, what is printed gives 0 at each
/// place of the terms. An order below the start leaves room for an earlier place, and there it
/// does not: otherwise the start less 1 would be a length that does.
fn rule_starts(line: &Line, terms: &[u64]) -> bool {
    let gives_0 = |j: usize| {
        let back = |i: usize| j.checked_sub(i).map_or(0, |place| terms[place]);
        let sum: u64 = line.register.iter().enumerate().map(|(i, a)| a * back(i)).sum();
        sum % line.modulus == 0
    };
    let before = line.order < line.start && gives_0(line.start - 1);
    !before && (line.start..terms.len()).all(gives_0)
}
