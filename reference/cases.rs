//! The cases of 01, lines of the listing, the tables of 000, and sheets by hand.

use crate::ask::ask;
use crate::calls::*;
use crate::checks::Group;
use crate::join;
use crate::limits::*;
use crate::listing::listing;
use crate::only::Only::{self, *};
use crate::refusals::Refusal;
use crate::residue::PrimePower;
use crate::sequences::set_cell;
use crate::steps::{length, run, Case, Pair, StepRecord};
use crate::working::{working, working_lines};

/// A case that names l, a_0 .. a_l and the first cells of b, and whether another register is
/// as short (02, A8).
type Named<'a> = (u64, &'a [u64], usize, &'a [u64], &'a [u64], Only);

const NAMED: [Named; 9] = [
    (2, &[], 0, &[1], &[], Sole),
    (5, &[0, 0, 0], 0, &[1], &[], Sole),
    (9, &[6, 3, 1, 5, 6], 3, &[1, 4, 7, 1], &[6, 0, 1], NotTold),
    (4, &[2, 2], 1, &[1, 3], &[2], NotTold),
    (4, &[2, 1], 2, &[1, 0, 0], &[2, 1], NotTold),
    (2, &[0, 0, 1], 3, &[1, 0, 0, 0], &[0, 0, 1], Several),
    (6, &[3, 3], 1, &[1, 3], &[3], NotTold),
    (7, &[1, 1, 2, 3, 5, 1], 2, &[1, 6, 6], &[1, 0], Sole),
    (6, &[1, 0], 1, &[1, 0], &[1], NotTold),
];

pub fn padded(numbers: &[u64], cells: usize) -> Vec<u64> {
    let mut numbers = numbers.to_vec();
    numbers.resize(cells, 0);
    numbers
}

pub fn bytes_of(numbers: &[u64], cells: usize) -> Vec<u8> {
    let mut bytes = vec![0; cells * CELL_BYTES];
    write_cells(&mut bytes, &padded(numbers, cells));
    bytes
}

/// A refusal as the papers have it: its number, and the place that it carries.
pub type Told = (u32, Option<usize>);

/// A refusal without a place.
pub const fn bare(number: u32) -> Told {
    (number, None)
}

/// A term out of range, with its place.
pub const fn term_at(place: usize) -> Told {
    (3, Some(place))
}

/// A reply with its refusal as the papers have it.
pub fn told<T>(reply: Result<T, Refusal>) -> Result<T, Told> {
    reply.map_err(|refusal| (refusal.number(), refusal.place()))
}

/// A fresh reading that took the terms.
pub fn reading_of(m: u64, terms: &[u64]) -> Reading {
    let (mut reading, _) = open(m as u32);
    for &term in terms {
        let _ = push(&mut reading, term as u32);
    }
    reading
}

/// The reply of a report and the cells of a and b after it.
type Report = (Result<Reported, Refusal>, Vec<u64>, Vec<u64>);

fn report(m: u64, terms: &[u64]) -> Report {
    let (mut a, mut b) = ([0xff; A_BYTES], [0xff; B_BYTES]);
    let reply = register(&reading_of(m, terms), &mut a, &mut b);
    (reply, cells(&a), cells(&b))
}

/// Cases 1 to 3 and 5 to 9 and 12 from the list, then the others.
pub fn cases(group: &mut Group) {
    for (m, terms, l, a, b, only) in NAMED {
        let expected = (Ok((l, only)), padded(a, A_CELLS), padded(b, B_CELLS));
        let found = report(m, terms);
        group.check(found == expected, || format!("modulo {m} {terms:?}: {found:?}"));
    }
    let mut buffer = [0xff; PROFILE_BYTES];
    let done = profile(&reading_of(9, &[6, 3, 1, 5, 6]), &mut buffer);
    let expected = padded(&[0, 1, 1, 3, 3, 3], PROFILE_CELLS);
    group.check(done == Ok(()) && cells(&buffer) == expected, || String::from("case 4"));
    let mut six = [0xff; 12];
    let (a, b) = (bytes_of(&[1, 6, 6], A_CELLS), bytes_of(&[1, 0], B_CELLS));
    let done = generate(7, &a, &b, 2, &mut six);
    let right = done == Ok(()) && cells(&six) == [1, 1, 2, 3, 5, 1];
    group.check(right, || String::from("case 10"));
    let (a, b) = (bytes_of(&[1, 4, 7, 2], A_CELLS), bytes_of(&[6, 0, 1], B_CELLS));
    let verdict = verify(&slip_of(9, &[6, 3, 1, 5, 6]), &a, &b, 3);
    group.check(verdict == Ok(Verdict::No(3)), || format!("case 11: {verdict:?}"));
    case_of_the_largest_modulus(group);
    cases_of_limits(group);
    cases_of_listing(group);
}

/// Case 13: 4,095 gets 3 at place 0 of a fresh reading, and at place 1 of one that took
/// 4,094.
fn case_of_the_largest_modulus(group: &mut Group) {
    let (mut reading, _) = open(4095);
    let takings = [(4095, Err(term_at(0))), (4094, Ok(())), (4095, Err(term_at(1)))];
    for (term, expected) in takings {
        let outcome = told(push(&mut reading, term));
        group.check(outcome == expected, || format!("case 13: {term}: {outcome:?}"));
    }
    let held = reading.count == 1 && reading.terms[0] == 4094 && reading.terms[1] == 0;
    group.check(held, || String::from("case 13: the reading"));
}

/// Cases 14 and 15.
fn cases_of_limits(group: &mut Group) {
    for m in [4096, 1] {
        let (reading, outcome) = open(m);
        let right = told(outcome) == Err(bare(1)) && reading == zero_reading();
        group.check(right, || format!("case 14: {m}"));
    }
    let (mut reading, _) = open(10);
    for i in 0..128 {
        group.check(push(&mut reading, i % 10) == Ok(()), || format!("case 15: term {i}"));
    }
    let full = reading.clone();
    for term in [0, 10] {
        let outcome = told(push(&mut reading, term));
        group.check(outcome == Err(bare(22)), || format!("case 15: the 129th: {outcome:?}"));
    }
    group.check(reading == full, || String::from("case 15: the reading"));
    let mut slip = slip_of(10, &[]);
    set_cell(&mut slip, 1, 129);
    let mut record = [1; RECORD_BYTES];
    let outcome = told(synthesize(&slip, &mut record));
    let refused = outcome == Err(bare(2)) && record == [1; RECORD_BYTES];
    group.check(refused, || String::from("case 15: count 129"));
}

/// The example of 01 in the words of A6, then a slip that has its eighth term wrong (02, A2:
/// "the listing prints "refused 3 at 7""), then a piece that is cut short; then lines by hand.
fn cases_of_listing(group: &mut Group) {
    let mut slips = slip_of(9, &[6, 3, 1, 5, 6]);
    slips.extend(slip_of(1, &[]));
    let mut expected =
        String::from("modulus count order start register\n9 5 3 3 1,4,7,1\nrefused 1\n");
    group.check(listing(&slips) == expected, || listing(&slips));
    slips.extend(slip_of(9, &[6, 3, 1, 5, 6, 6, 3, 9, 8, 10, 9]));
    expected.push_str("refused 3 at 7\n");
    group.check(listing(&slips) == expected, || listing(&slips));
    slips.push(0);
    expected.push_str("refused 5\n");
    group.check(listing(&slips) == expected, || listing(&slips));
    for (m, terms, line) in LISTED {
        check_listed(group, m, terms, line);
    }
    longest_listed(group);
}

/// Modulus, terms and the line of the listing (02, A6: "order is the degree of a, start is
/// the length, and the register prints a_0 up to the order"), by hand.
const LISTED: [(u64, &[u64], &str); 16] = [
    // "2,1 modulo 4 reads "4 2 0 2 1"".
    (4, &[2, 1], "4 2 0 2 1"),
    // The other cases of 01 that name a and l, each a without the zeros at its end.
    (2, &[], "2 0 0 0 1"),
    (5, &[0, 0, 0], "5 3 0 0 1"),
    (9, &[6, 3, 1, 5, 6], "9 5 3 3 1,4,7,1"),
    (4, &[2, 2], "4 2 1 1 1,3"),
    (2, &[0, 0, 1], "2 3 0 3 1"),
    (6, &[3, 3], "6 2 1 1 1,3"),
    (7, &[1, 1, 2, 3, 5, 1], "7 6 2 2 1,6,6"),
    (6, &[1, 0], "6 2 0 1 1"),
    // Step 0 finds 1 and row 1 has L = 0: 1 is added to b, and a stays 1.
    (9, &[1], "9 1 0 1 1"),
    // Steps 0 and 2 find 1. The first makes the pair (1, 1), the second subtracts x^2 × (1, 0),
    // and 1 - x^2 is 1 + x^2 modulo 2. The zero inside is printed.
    (2, &[1, 0, 1], "2 3 2 2 1,0,1"),
    // Step 2 adds x^2 to b, l is 3. Step 3 finds 1 and subtracts x × (1, 0). S × a is
    // (x^2 + x^3)(1 + x), up to x^3 the x^2 of b; two coefficients give 0 for the third term.
    (2, &[0, 0, 1, 1], "2 4 1 3 1,1"),
    // Step 3 adds x^3 to b, l is 4. Step 4 finds 0, step 5 finds 1 and subtracts x^2 × (1, 0).
    (2, &[0, 0, 0, 1, 0, 1], "2 6 2 4 1,0,1"),
    // Step 1 finds 2 in row 0, g is 0: 2x is added to b, l is 2. Step 2 finds 2, and g, r, h are
    // 0, 1, 0: x × (1, 0) is subtracted. S × a is (2x + 2x^2)(1 + 3x), up to x^2 it is 2x.
    (4, &[0, 2, 2], "4 3 1 2 1,3"),
    // 1,1 modulo 2 has a 1,1 and length 1, and 0,1 modulo 3 has a 1 and length 2: the order
    // comes from one prime and the start from the other. The number with remainders 1, 0 is 3.
    (6, &[3, 1], "6 2 1 2 1,3"),
    // 0,1 modulo 2 has a 1 and length 2, and 1,1 modulo 3 has a 1,2 and length 1. The number
    // with remainders 0, 2 is 2.
    (6, &[4, 1], "6 2 1 2 1,2"),
];

/// The listing has the line for the terms, and so have the working and, for the terms typed,
/// the asking and its working.
fn check_listed(group: &mut Group, m: u64, terms: &[u64], line: &str) {
    let slip = slip_of(m, terms);
    let numbers: Vec<String> = terms.iter().map(u64::to_string).collect();
    let typed = format!("mod {m}: {}", numbers.join(","));
    let expected = format!("modulus count order start register\n{line}\n");
    for text in [listing(&slip), ask(typed.as_bytes())] {
        group.check(text == expected, || format!("{typed}: {text}"));
    }
    for text in [working(&slip), working_lines(typed.as_bytes())] {
        group.check(text.starts_with(&expected), || format!("{typed}: {text}"));
    }
}

/// 128 terms, all 0 but for one or two that are 1. The first one, at place r, is added to b, and
/// l is r+1. Modulo a prime a second one, at place k, subtracts x^(k-r) × (1, 0): a then has m-1
/// at k-r, and l is the larger of k-r and r+1.
fn longest_listed(group: &mut Group) {
    let ones = |places: &[usize]| -> Vec<u64> {
        (0..TERMS_LIMIT).map(|place| u64::from(places.contains(&place))).collect()
    };
    let zeros = |count: usize| "0,".repeat(count);
    check_listed(group, 4095, &ones(&[127]), "4095 128 0 128 1");
    let line = format!("2 128 127 127 1,{}1", zeros(126));
    check_listed(group, 2, &ones(&[0, 127]), &line);
    let line = format!("3 128 63 65 1,{}2", zeros(62));
    check_listed(group, 3, &ones(&[64, 127]), &line);
}

/// Table 1 for k = 0 to 5: (a, b) of rows 0 and 1.
const TABLE_1: [[(&[u64], &[u64]); 2]; 6] = [
    [(&[1], &[]), (&[3], &[])],
    [(&[1], &[6]), (&[3], &[])],
    [(&[1, 4], &[6]), (&[3], &[])],
    [(&[1, 4], &[6, 0, 4]), (&[3, 0, 4], &[])],
    [(&[1, 4], &[6, 0, 4]), (&[3, 0, 4], &[])],
    [(&[1, 4, 7, 1], &[6, 0, 1]), (&[3, 0, 3, 5], &[0, 0, 3])],
];

/// Table 2 for k = 0 to 4: (l, u, θ, f, case) of rows 0 and 1. No f where the row
/// stays. The f and the case at k = 0 are not compared: they are the longer version's.
const TABLE_2: [[(usize, usize, u64, Option<usize>, Option<Case>); 2]; 5] = [
    [(0, 1, 2, None, None), (0, 2, 1, None, None)],
    [(1, 1, 1, Some(0), Some(Case::Cancelled)), (0, 2, 1, None, Some(Case::Stays))],
    [(1, 0, 4, Some(1), Some(Case::Added)), (0, 1, 1, Some(0), Some(Case::Cancelled))],
    [(3, 2, 1, None, Some(Case::Stays)), (2, 2, 1, None, Some(Case::Stays))],
    [(3, 0, 8, Some(1), Some(Case::Cancelled)), (2, 0, 4, Some(1), Some(Case::Cancelled))],
];

/// The example of 000, section 6.
pub fn tables(group: &mut Group) {
    let history = run(PrimePower { p: 3, e: 2 }, &[6, 3, 1, 5, 6]);
    for (k, rows) in TABLE_1.iter().enumerate() {
        for (eta, (a, b)) in rows.iter().enumerate() {
            let expected = Pair { a: a.to_vec(), b: b.to_vec() };
            let found = &history.rows[k][eta];
            group.check(*found == expected, || format!("table 1, {k}, {eta}: {found:?}"));
        }
    }
    for (k, rows) in TABLE_2.iter().enumerate() {
        for (eta, &(l, u, theta, f, case)) in rows.iter().enumerate() {
            let found = history.findings[k][eta];
            let right = length(&history.rows[k][eta]) == l
                && (found.u, found.theta) == (u, theta)
                && f.map_or(true, |g| g + found.u == 1)
                && case.map_or(true, |case| case == found.case);
            group.check(right, || format!("table 2, {k}, {eta}: {found:?}"));
        }
    }
    for row in &history.rows[5] {
        group.check(length(row) == 3, || String::from("table 2, 5"));
    }
}

/// Table 2 as a sheet, from the paper by hand. At k = 0, where the table has *, row 0
/// meets row g = 0 with L = 0 and is added to b, and row 1 stays; e stands for g where
/// a row stays.
pub const SHEET_OF_TABLE_2: [[u32; 8]; 10] = [
    [9, 0, 0, 0, 1, 2, 0, 2],
    [9, 0, 1, 0, 2, 1, 2, 1],
    [9, 1, 0, 1, 1, 1, 0, 3],
    [9, 1, 1, 0, 2, 1, 2, 1],
    [9, 2, 0, 1, 0, 4, 1, 2],
    [9, 2, 1, 0, 1, 1, 0, 3],
    [9, 3, 0, 3, 2, 1, 2, 1],
    [9, 3, 1, 2, 2, 1, 2, 1],
    [9, 4, 0, 3, 0, 8, 1, 3],
    [9, 4, 1, 2, 0, 4, 1, 3],
];

/// 3,3 modulo 6 by hand: all of the prime 2 comes before the prime 3.
const SHEET_OF_CASE_8: [[u32; 8]; 4] = [
    [2, 0, 0, 0, 0, 1, 0, 2],
    [2, 1, 0, 1, 0, 1, 0, 3],
    [3, 0, 0, 0, 1, 1, 1, 1],
    [3, 1, 0, 0, 1, 1, 1, 1],
];

/// 2,1 modulo 4 by hand: the lengths before the steps are those of the rows, 0 and 1 in row 0,
/// though a is 1 throughout.
const SHEET_OF_CASE_6: [[u32; 8]; 4] = [
    [4, 0, 0, 0, 1, 1, 0, 2],
    [4, 0, 1, 0, 2, 1, 2, 1],
    [4, 1, 0, 1, 0, 1, 1, 2],
    [4, 1, 1, 0, 1, 1, 0, 3],
];

/// 6,4 modulo 8 by hand: at r = 0 the older row is h = 1, not the longer version's 0.
const SHEET_MODULO_8: [[u32; 8]; 6] = [
    [8, 0, 0, 0, 1, 3, 1, 2],
    [8, 0, 1, 0, 2, 1, 0, 2],
    [8, 0, 2, 0, 3, 1, 3, 1],
    [8, 1, 0, 1, 2, 1, 0, 3],
    [8, 1, 1, 1, 3, 1, 3, 1],
    [8, 1, 2, 0, 3, 1, 3, 1],
];

/// What an untouched record of a lent sheet holds.
pub const LENT: [u32; 8] = [9, 8, 7, 6, 5, 4, 3, 2];

/// The report that a tracing of the terms gives, and its sheet of some records.
fn traced(m: u64, terms: &[u64], room: usize) -> (Report, Vec<[u32; 8]>) {
    let (mut a, mut b) = ([0xff; A_BYTES], [0xff; B_BYTES]);
    let mut sheet = vec![StepRecord::of(LENT); room];
    let reply = trace(&reading_of(m, terms), &mut a, &mut b, &mut sheet);
    ((reply, cells(&a), cells(&b)), sheet.into_iter().map(StepRecord::numbers).collect())
}

/// Sheets written out by hand, each record for itself, then the text of the working.
pub fn sheets_by_hand(group: &mut Group) {
    let by_hand: [(u64, &[u64], &[[u32; 8]]); 6] = [
        (9, &[6, 3, 1, 5, 6], &SHEET_OF_TABLE_2),
        (4, &[2, 1], &SHEET_OF_CASE_6),
        (6, &[3, 3], &SHEET_OF_CASE_8),
        (8, &[6, 4], &SHEET_MODULO_8),
        (2, &[], &[]),
        (5, &[0], &[[5, 0, 0, 0, 1, 1, 1, 1]]),
    ];
    for (m, terms, expected) in by_hand {
        let plain = report(m, terms);
        let (found, sheet) = traced(m, terms, expected.len() + 3);
        group.check(found == plain, || format!("modulo {m}: {found:?}"));
        for (i, record) in expected.iter().enumerate() {
            group.check(sheet[i] == *record, || format!("modulo {m}: {:?}", sheet[i]));
        }
        let kept = sheet[expected.len()..] == [LENT; 3];
        group.check(kept, || format!("modulo {m}: past the last"));
        let exact = traced(m, terms, expected.len());
        group.check(exact == (plain, expected.to_vec()), || format!("modulo {m}: exact room"));
        let size = join::sheet_size(m, terms.len());
        group.check(size == expected.len(), || format!("modulo {m}: {size} records"));
    }
    working_by_hand(group);
}

/// What `working_by_hand` has to get, header and all.
const WORKING: &str = "modulus count order start register
9 5 3 3 1,4,7,1
not told
power k row length u theta g case
9 0 0 0 1 2 0 2
9 0 1 0 2 1 2 1
9 1 0 1 1 1 0 3
9 1 1 0 2 1 2 1
9 2 0 1 0 4 1 2
9 2 1 0 1 1 0 3
9 3 0 3 2 1 2 1
9 3 1 2 2 1 2 1
9 4 0 3 0 8 1 3
9 4 1 2 0 4 1 3
refused 1
6 2 1 1 1,3
not told
power k row length u theta g case
2 0 0 0 0 1 0 2
2 1 0 1 0 1 0 3
3 0 0 0 1 1 1 1
3 1 0 0 1 1 1 1
refused 3 at 2
4 2 0 2 1
not told
power k row length u theta g case
4 0 0 0 1 1 0 2
4 0 1 0 2 1 2 1
4 1 0 1 0 1 1 2
4 1 1 0 1 1 0 3
2 0 0 0 1
sole
power k row length u theta g case
refused 5
";

fn working_by_hand(group: &mut Group) {
    let slips = [
        slip_of(9, &[6, 3, 1, 5, 6]),
        slip_of(1, &[]),
        slip_of(6, &[3, 3]),
        slip_of(6, &[3, 3, 6, 7]),
        slip_of(4, &[2, 1]),
        slip_of(2, &[]),
        vec![0; 100],
    ];
    let text = working(&slips.concat());
    group.check(text == WORKING, || text.clone());
    let header = working(&[]);
    group.check(header == "modulus count order start register\n", || header.clone());
}

/// Sequences whose register tells the compact version from the longer one, θ as a
/// whole number, the inverse modulo p^e, and rows read before the step.
pub fn named_registers(group: &mut Group) {
    let named: [(u64, &[u64], &[u64]); 6] = [
        (8, &[6, 4], &[1, 6]),
        (16, &[6, 8], &[1, 12]),
        (27, &[12, 9], &[1, 24]),
        (9, &[3, 6], &[1, 7]),
        (9, &[6, 3], &[1, 4]),
        (4, &[1, 1], &[1, 3]),
    ];
    for (m, terms, a) in named {
        let register = join::register(m, terms);
        let right = register.length + 1 == a.len() && register.a == padded(a, A_CELLS);
        group.check(right, || format!("modulo {m} {terms:?}: {register:?}"));
    }
}
