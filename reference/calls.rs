//! The calls of document 01, and of requests A1 to A3, A5 and A7 to A12 in 02, on plain
//! values and byte buffers.
//!
//! "Order where several apply: 5, 21, 1, 2, 22, 3, 4, 6, 23, 24. Each call gives
//! only those that concern what it is handed." 25 comes right before 6, 26 right
//! after it, and only the 5 of a sheet comes after 21. 27 and 28 come after 5 and before
//! 1, the one with the lower place. Of two slips the first has all of 1 to 4 before the
//! second, and 29, 30, 31 follow. 32 comes after 5 and before 3, and 33 after 5, 1 and 2. A
//! bundle of slips is refused by 5, 34 or 23 as a whole, before any slip's own. A
//! refused call leaves every lent byte as it was, and a reading too, but for the terms that a
//! column took before its refusal, and for the zeros in place of a refused slip of a bundle.

use crate::census::{how_many, numbered, tally_of};
use crate::join::{
    histories, profile as profile_of, register as register_of, register_after, sheet as sheet_of,
    sheet_size, Register,
};
use crate::limits::*;
use crate::lines;
use crate::merge::{common_multiple, joined_term};
use crate::only::{only, Only};
use crate::period::halved_length;
use crate::refusals::Refusal;
use crate::steps::{product_coefficient, StepRecord};

/// "A reading is a value: the modulus, the count, and 128 cells of terms, zero
/// past the count." The fields may hold anything; a bad reading gets 21.
#[derive(Clone, PartialEq, Eq, Debug)]
pub struct Reading {
    pub modulus: u16,
    pub count: u16,
    pub terms: [u16; TERMS_LIMIT],
}

/// What a report and a tracing return: l, and whether another register is as short.
pub type Reported = (usize, Only);

/// The verdict of a test; no carries the first place that differs.
#[derive(Clone, Copy, PartialEq, Eq, Debug)]
pub enum Verdict {
    Yes,
    No(usize),
}

/// The answer of serving: the number of the record found, or that one was made.
#[derive(Clone, Copy, PartialEq, Eq, Debug)]
pub enum Served {
    Found(usize),
    Made,
}

/// How many slips of a bundle were found, made and refused, "each counted once".
#[derive(Clone, Copy, Default, PartialEq, Eq, Debug)]
pub struct Counts {
    pub found: usize,
    pub made: usize,
    pub refused: usize,
}

/// A modulus and terms that passed the checks.
#[derive(Clone, PartialEq, Eq, Debug)]
pub struct Sequence {
    pub modulus: u64,
    pub terms: Vec<u64>,
}

// ---- cells ----

/// The cells of a buffer, low byte first.
pub fn cells(bytes: &[u8]) -> Vec<u64> {
    bytes.chunks_exact(CELL_BYTES).map(|c| u64::from(u16::from_le_bytes([c[0], c[1]]))).collect()
}

/// Writes the numbers as cells; the buffer has room for exactly these.
pub fn write_cells(buffer: &mut [u8], numbers: &[u64]) {
    assert_eq!(buffer.len(), numbers.len() * CELL_BYTES);
    for (cell, &number) in buffer.chunks_exact_mut(CELL_BYTES).zip(numbers) {
        cell.copy_from_slice(&u16::try_from(number).expect("fits a cell").to_le_bytes());
    }
}

// ---- checks ----

fn demand(holds: bool, refusal: Refusal) -> Result<(), Refusal> {
    if holds {
        Ok(())
    } else {
        Err(refusal)
    }
}

fn legal_modulus(modulus: u64) -> bool {
    (2..=MODULUS_LIMIT).contains(&modulus)
}

/// 1, 2, 3, 4 for a modulus, a count and 128 cells. 02, A2: "The range check on
/// terms now returns the first offending place". A cell past the count is a matter
/// of 4, however large it is.
fn check_terms(modulus: u64, count: u64, terms: &[u64]) -> Result<Sequence, Refusal> {
    demand(legal_modulus(modulus), Refusal::Modulus)?;
    demand(count <= TERMS_LIMIT as u64, Refusal::TooMany)?;
    let (taken, past) = terms.split_at(count as usize);
    if let Some(place) = taken.iter().position(|&term| term >= modulus) {
        return Err(Refusal::Term(place));
    }
    demand(past.iter().all(|&cell| cell == 0), Refusal::Padding)?;
    Ok(Sequence { modulus, terms: taken.to_vec() })
}

/// 1, 2, 3, 4 for a slip of the right length.
pub fn check_slip(slip: &[u8]) -> Result<Sequence, Refusal> {
    let numbers = cells(slip);
    check_terms(numbers[0], numbers[1], &numbers[2..])
}

/// 21 for anything that would be 1 to 4 on a slip; it carries no place.
fn check_reading(reading: &Reading) -> Result<Sequence, Refusal> {
    let terms: Vec<u64> = reading.terms.iter().map(|&term| u64::from(term)).collect();
    check_terms(u64::from(reading.modulus), u64::from(reading.count), &terms)
        .map_err(|_| Refusal::Reading)
}

/// 25, 6, 26 for a claim. 02, A2: "25 a claim's length is above 128, right before 6;
/// 26 a_0 is not 1, right after 6; 6 keeps the rest", which is "a coefficient not
/// below m, a nonzero a past l or b past l-1". So an a_0 not below m is a matter of 6.
fn check_claim(modulus: u64, a: &[u8], b: &[u8], l: u64) -> Result<Register, Refusal> {
    demand(l <= TERMS_LIMIT as u64, Refusal::ClaimLength)?;
    let claim = Register { length: l as usize, a: cells(a), b: cells(b) };
    demand(claim.a.iter().chain(&claim.b).all(|&c| c < modulus), Refusal::Claim)?;
    demand(claim.a.iter().skip(claim.length + 1).all(|&c| c == 0), Refusal::Claim)?;
    demand(claim.b.iter().skip(claim.length).all(|&c| c == 0), Refusal::Claim)?;
    demand(claim.a[0] == 1, Refusal::ClaimStart)?;
    Ok(claim)
}

// ---- calls that hold a reading ----

/// The reading of zeros, which gets 21 everywhere.
pub fn zero_reading() -> Reading {
    Reading { modulus: 0, count: 0, terms: [0; TERMS_LIMIT] }
}

/// Opens a reading. "A refused opening hands back a reading of zeros."
pub fn open(modulus: u32) -> (Reading, Result<(), Refusal>) {
    if !legal_modulus(u64::from(modulus)) {
        return (zero_reading(), Err(Refusal::Modulus));
    }
    (Reading { modulus: modulus as u16, ..zero_reading() }, Ok(()))
}

/// Takes a term: 21, 22, 3, this one with the reading's count. A refused term leaves
/// the reading as it came.
pub fn push(reading: &mut Reading, term: u32) -> Result<(), Refusal> {
    let held = check_reading(reading)?;
    let count = held.terms.len();
    demand(count < TERMS_LIMIT, Refusal::Full)?;
    demand(u64::from(term) < held.modulus, Refusal::Term(count))?;
    reading.terms[count] = term as u16;
    reading.count += 1;
    Ok(())
}

/// Takes a column, a list of cells: 5 (odd bytes), 21, then for each term 22, 3, this one
/// with the reading's count then. Returns how many were taken, and what ended it: "terms
/// taken before a refusal stay". It is known first how many fit; they join at once.
pub fn push_all(reading: &mut Reading, list: &[u8]) -> (usize, Result<(), Refusal>) {
    let even = demand(list.len() % CELL_BYTES == 0, Refusal::Buffer);
    let held = match even.and_then(|()| check_reading(reading)) {
        Ok(held) => held,
        Err(refusal) => return (0, Err(refusal)),
    };
    let offered = cells(list);
    let (taken, outcome) = fitting(&held, &offered);
    let count = held.terms.len();
    for (cell, &term) in reading.terms[count..].iter_mut().zip(&offered[..taken]) {
        *cell = term as u16;
    }
    reading.count = (count + taken) as u16;
    (taken, outcome)
}

/// How many of the offered terms are taken, and the refusal of the one after them: as many
/// as there is room for, and none from the first wrong one on. Where both end at the same
/// term, it is "reached when 128 are held": 22.
fn fitting(held: &Sequence, offered: &[u64]) -> (usize, Result<(), Refusal>) {
    let count = held.terms.len();
    let room = TERMS_LIMIT - count;
    let wrong = offered.iter().position(|&term| term >= held.modulus).unwrap_or(offered.len());
    let taken = offered.len().min(room).min(wrong);
    let outcome = if taken == offered.len() {
        Ok(())
    } else if taken == room {
        Err(Refusal::Full)
    } else {
        Err(Refusal::Term(count + taken))
    };
    (taken, outcome)
}

/// Reports the register, and returns l and whether another one is as short: 5, 21.
pub fn register(reading: &Reading, a: &mut [u8], b: &mut [u8]) -> Result<Reported, Refusal> {
    demand(a.len() == A_BYTES && b.len() == B_BYTES, Refusal::Buffer)?;
    let held = check_reading(reading)?;
    Ok(report(&held, &register_of(held.modulus, &held.terms), a, b))
}

/// Writes a and b into buffers of the right lengths; what a report of the register of these
/// terms returns.
fn report(held: &Sequence, register: &Register, a: &mut [u8], b: &mut [u8]) -> Reported {
    write_cells(a, &register.a);
    write_cells(b, &register.b);
    (register.length, only(held.modulus, held.terms.len(), register.length))
}

/// Reports the register as above, and fills the sheet with the records of the steps:
/// 5 (a), 5 (b), 21, 5 (the sheet). 02, A1: "A sheet of fewer records than n times the
/// sum of the e gets 5, which for the sheet comes after 21." A longer sheet is legal:
/// "Records past the last are unchanged."
pub fn trace(
    reading: &Reading,
    a: &mut [u8],
    b: &mut [u8],
    sheet: &mut [StepRecord],
) -> Result<Reported, Refusal> {
    demand(a.len() == A_BYTES, Refusal::Buffer)?;
    demand(b.len() == B_BYTES, Refusal::Buffer)?;
    let held = check_reading(reading)?;
    let n = held.terms.len();
    demand(sheet.len() >= sheet_size(held.modulus, n), Refusal::Buffer)?;
    let histories = histories(held.modulus, &held.terms);
    let records = sheet_of(&histories);
    sheet[..records.len()].copy_from_slice(&records);
    Ok(report(&held, &register_after(&histories, n), a, b))
}

/// Reports the profile, zero past n: 5, 21.
pub fn profile(reading: &Reading, buffer: &mut [u8]) -> Result<(), Refusal> {
    demand(buffer.len() == PROFILE_BYTES, Refusal::Buffer)?;
    let held = check_reading(reading)?;
    let mut lengths: Vec<u64> =
        profile_of(held.modulus, &held.terms).into_iter().map(|l| l as u64).collect();
    lengths.resize(PROFILE_CELLS, 0);
    write_cells(buffer, &lengths);
    Ok(())
}

// ---- testing and running ----

/// Tests a claim against a slip: 5, then 1 to 4, then 25, 6, 26.
pub fn verify(slip: &[u8], a: &[u8], b: &[u8], l: u32) -> Result<Verdict, Refusal> {
    let right = slip.len() == SLIP_BYTES && a.len() == A_BYTES && b.len() == B_BYTES;
    demand(right, Refusal::Buffer)?;
    let sequence = check_slip(slip)?;
    let claim = check_claim(sequence.modulus, a, b, u64::from(l))?;
    Ok(verdict(&sequence, &claim))
}

/// "It generates the terms if S × a and b agree modulo m in every coefficient 0 to
/// n-1"; no carries "the first place where the product and b differ".
pub fn verdict(sequence: &Sequence, claim: &Register) -> Verdict {
    let m = sequence.modulus;
    let differs =
        |&j: &usize| product_coefficient(&sequence.terms, &claim.a, j, m) != claim.b[j] % m;
    (0..sequence.terms.len()).find(differs).map_or(Verdict::Yes, Verdict::No)
}

/// Runs a claim: 5 (a, b, odd bytes), 1, 2 (cells), 25, 6, 26.
pub fn generate(
    modulus: u32,
    a: &[u8],
    b: &[u8],
    l: u32,
    buffer: &mut [u8],
) -> Result<(), Refusal> {
    let even = buffer.len() % CELL_BYTES == 0;
    demand(a.len() == A_BYTES && b.len() == B_BYTES && even, Refusal::Buffer)?;
    let count = buffer.len() / CELL_BYTES;
    demand(legal_modulus(u64::from(modulus)), Refusal::Modulus)?;
    demand(count <= TERMS_LIMIT, Refusal::TooMany)?;
    let claim = check_claim(u64::from(modulus), a, b, u64::from(l))?;
    write_cells(buffer, &outputs(u64::from(modulus), &claim, count));
    Ok(())
}

/// "Cell j is b_j less the sum of a_i times cell j-i, for i from 1 to the smaller
/// of l and j, brought to 0 .. m-1 modulo m."
pub fn outputs(m: u64, claim: &Register, count: usize) -> Vec<u64> {
    let mut run: Vec<u64> = Vec::new();
    for j in 0..count {
        let sum: u64 = (1..=claim.length.min(j)).map(|i| claim.a[i] * run[j - i] % m).sum();
        run.push((claim.b[j] + m - sum % m) % m);
    }
    run
}

// ---- typed lines ----

/// Reads a typed line into a slip: 5 (the slip), 27 or 28, 1, 2. A term "stands for its
/// remainder from 0 to m-1". The line is read to its end before 1 and 2 are looked at.
pub fn read_line(line: &[u8], slip: &mut [u8]) -> Result<(), Refusal> {
    demand(slip.len() == SLIP_BYTES, Refusal::Buffer)?;
    let lines::Numbers { modulus, terms } = lines::read(line)?;
    let m = u64::try_from(modulus).expect("a modulus has no sign");
    demand(legal_modulus(m), Refusal::Modulus)?;
    demand(terms.len() <= TERMS_LIMIT, Refusal::TooMany)?;
    let remainders: Vec<u64> = terms.iter().map(|term| term.rem_euclid(modulus) as u64).collect();
    slip.copy_from_slice(&slip_of(m, &remainders));
    Ok(())
}

// ---- two slips ----

/// Joins two slips "to one slip modulo the least common multiple": 5 (all three), the first
/// slip's own 1 to 4, the second slip's own, 29, 30, 31. 02, A9: "They follow 5 for all the
/// buffers and then each slip's own checks, first slip first, in this order."
pub fn merge(first: &[u8], second: &[u8], slip: &mut [u8]) -> Result<(), Refusal> {
    demand([first.len(), second.len(), slip.len()] == [SLIP_BYTES; 3], Refusal::Buffer)?;
    let first = check_slip(first)?;
    let second = check_slip(second)?;
    demand(first.terms.len() == second.terms.len(), Refusal::Counts)?;
    let multiple = common_multiple(first.modulus, second.modulus);
    demand(multiple <= MODULUS_LIMIT, Refusal::Multiple)?;
    let mut joined = Vec::new();
    for (place, (&s, &t)) in first.terms.iter().zip(&second.terms).enumerate() {
        let term = joined_term((s, first.modulus), (t, second.modulus));
        joined.push(term.ok_or(Refusal::Disagreement(place))?);
    }
    slip.copy_from_slice(&slip_of(multiple, &joined));
    Ok(())
}

// ---- one period ----

/// The length of the binary sequence that has these cells for one period: 5 (odd bytes), 32, 3
/// with the first place. 02, A10: 32 "comes before 3, and 2 isn't given here", so 128 cells and
/// more get 32 too.
pub fn period_length(period: &[u8]) -> Result<usize, Refusal> {
    demand(period.len() % CELL_BYTES == 0, Refusal::Buffer)?;
    let digits = cells(period);
    demand(PERIODS.contains(&digits.len()), Refusal::Period)?;
    if let Some(place) = digits.iter().position(|&digit| digit > 1) {
        return Err(Refusal::Term(place));
    }
    Ok(halved_length(&digits))
}

// ---- the census ----

/// What both calls of the census check after their buffer: 1, 2, 33 for the power, which is
/// handed back with m and n. 02, A11: 33 "follows 1 and 2"; so 129 terms get 2, and 13 to 128
/// get 33 for every modulus.
fn check_census(m: u32, n: u32) -> Result<(u64, usize, u64), Refusal> {
    let (m, n) = (u64::from(m), n as usize);
    demand(legal_modulus(m), Refusal::Modulus)?;
    demand(n <= TERMS_LIMIT, Refusal::TooMany)?;
    let power = how_many(m, n).ok_or(Refusal::Census)?;
    Ok((m, n, power))
}

/// Writes the slip of the sequence with this number among all of n terms modulo m: 5, 1, 2, 33.
pub fn enumerate(m: u32, n: u32, number: u64, slip: &mut [u8]) -> Result<(), Refusal> {
    demand(slip.len() == SLIP_BYTES, Refusal::Buffer)?;
    let (m, n, power) = check_census(m, n)?;
    demand(number < power, Refusal::Census)?;
    slip.copy_from_slice(&slip_of(m, &numbered(m, n, number)));
    Ok(())
}

/// Tallies the least lengths of all sequences of n terms modulo m: 5, 1, 2, 33.
pub fn tally(m: u32, n: u32, buffer: &mut [u8]) -> Result<(), Refusal> {
    demand(buffer.len() == TALLY_BYTES, Refusal::Buffer)?;
    let (m, n, _) = check_census(m, n)?;
    write_cells(buffer, &tally_of(m, n));
    Ok(())
}

// ---- slips, records, shelf ----

/// The record of a slip that passed its checks.
fn record_of(slip: &[u8], sequence: &Sequence) -> Vec<u8> {
    let register = register_of(sequence.modulus, &sequence.terms);
    record_with(slip, &register)
}

/// A slip, a length and the cells of a and b as a record just made, which has the
/// accession number 0.
pub fn record_with(slip: &[u8], register: &Register) -> Vec<u8> {
    let mut record = vec![0; RECORD_BYTES];
    record[..SLIP_BYTES].copy_from_slice(slip);
    write_cells(&mut record[RECORD_LENGTH_AT..RECORD_A_AT], &[register.length as u64]);
    write_cells(&mut record[RECORD_A_AT..RECORD_B_AT], &register.a);
    write_cells(&mut record[RECORD_B_AT..RECORD_NUMBER_AT], &register.b);
    write_cells(&mut record[RECORD_NUMBER_AT..], &[0]);
    record
}

/// Makes a record from a slip: 5 (slip, record), 1 to 4.
pub fn synthesize(slip: &[u8], record: &mut [u8]) -> Result<(), Refusal> {
    demand(slip.len() == SLIP_BYTES && record.len() == RECORD_BYTES, Refusal::Buffer)?;
    let sequence = check_slip(slip)?;
    record.copy_from_slice(&record_of(slip, &sequence));
    Ok(())
}

/// Serves a slip from a shelf to `who`: 5 (slip, record), 1 to 4, 23, 24. "Serving looks
/// for the first record whose first 260 bytes equal the slip's"; the first match alone
/// decides. 02, A7: "Matching and the test behind 24 ignore" the accession number, and
/// "the desk takes every shelf as one of the new size".
pub fn look_up(slip: &[u8], shelf: &[u8], who: u64, record: &mut [u8]) -> Result<Served, Refusal> {
    demand(slip.len() == SLIP_BYTES && record.len() == RECORD_BYTES, Refusal::Buffer)?;
    let sequence = check_slip(slip)?;
    demand(shelf.len() % RECORD_BYTES == 0, Refusal::Shelf)?;
    let mut records = shelf.chunks_exact(RECORD_BYTES);
    match records.position(|entry| entry[..SLIP_BYTES] == *slip) {
        None => {
            record.copy_from_slice(&record_of(slip, &sequence));
            Ok(Served::Made)
        }
        Some(index) => {
            let found = &shelf[index * RECORD_BYTES..][..RECORD_BYTES];
            check_record(&sequence, found)?;
            record.copy_from_slice(&shown(found, who));
            Ok(Served::Found(index))
        }
    }
}

/// A record as `who` sees it. 02, A7: "An editor is served all of it, a visitor sees 0
/// there." The whole of `who` is compared.
fn shown(found: &[u8], who: u64) -> Vec<u8> {
    let mut record = found.to_vec();
    if who != EDITOR {
        write_cells(&mut record[RECORD_NUMBER_AT..], &[0]);
    }
    record
}

/// 24: "the record found is a bad claim (as in 6) or its test against the slip
/// says no". 02, A2: "24 covers all three", 25, 6 and 26.
fn check_record(sequence: &Sequence, record: &[u8]) -> Result<(), Refusal> {
    let l = cells(&record[RECORD_LENGTH_AT..RECORD_A_AT])[0];
    let (a, b) = (&record[RECORD_A_AT..RECORD_B_AT], &record[RECORD_B_AT..RECORD_NUMBER_AT]);
    let claim = check_claim(sequence.modulus, a, b, l).map_err(|_| Refusal::Record)?;
    demand(verdict(sequence, &claim) == Verdict::Yes, Refusal::Record)
}

// ---- a bundle of slips ----

/// Serves a bundle of slips end to end, each alone from the whole shelf: 5 (slips, records,
/// replies), 34 and 23 for the whole call, and then nothing is written. 02, A12: "every reply,
/// refusal and found place is what that slip alone would get from the same shelf", and a "slip
/// refused gets 778 zero bytes in its place".
pub fn look_up_batch(
    slips: &[u8],
    shelf: &[u8],
    who: u64,
    records: &mut [u8],
    replies: &mut [u64],
) -> Result<Counts, Refusal> {
    let count = slips.len() / SLIP_BYTES;
    demand(slips.len() % SLIP_BYTES == 0, Refusal::Buffer)?;
    demand(records.len() == count * RECORD_BYTES, Refusal::Buffer)?;
    demand(replies.len() == count, Refusal::Buffer)?;
    demand(count <= BUNDLE_LIMIT, Refusal::Bundle)?;
    demand(shelf.len() % RECORD_BYTES == 0, Refusal::Shelf)?;
    let parts = records.chunks_exact_mut(RECORD_BYTES).zip(replies);
    let mut counts = Counts::default();
    for (slip, (part, reply)) in slips.chunks_exact(SLIP_BYTES).zip(parts) {
        let outcome = look_up(slip, shelf, who, part);
        match outcome {
            Ok(Served::Found(_)) => counts.found += 1,
            Ok(Served::Made) => counts.made += 1,
            Err(_) => {
                part.fill(0);
                counts.refused += 1;
            }
        }
        *reply = coded(outcome);
    }
    Ok(counts)
}

/// A serving's outcome as one number: the refusal, or 0, and 256 times a value, which is the place
/// that a refusal carries, or 1 more than the number of the record found.
fn coded(outcome: Result<Served, Refusal>) -> u64 {
    let (refusal, value) = match outcome {
        Ok(Served::Made) => (0, 0),
        Ok(Served::Found(index)) => (0, 1 + index),
        Err(refusal) => (refusal.number(), refusal.place().unwrap_or(0)),
    };
    u64::from(refusal) + 256 * value as u64
}

/// A modulus and terms as a slip; more than 128 terms are not written.
pub fn slip_of(modulus: u64, terms: &[u64]) -> Vec<u8> {
    let mut numbers = vec![modulus, terms.len() as u64];
    numbers.extend(terms);
    numbers.resize(SLIP_BYTES / CELL_BYTES, 0);
    let mut slip = vec![0; SLIP_BYTES];
    write_cells(&mut slip, &numbers);
    slip
}
