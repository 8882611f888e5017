//! Servings from shelves, to editors and to visitors, and makings: some by hand, and random
//! ones.

use crate::calls::{record_with, slip_of};
use crate::join::register as register_of;
use crate::limits::*;
use crate::random::Random;
use crate::scenarios::{change, fitted, lengthen, nearly, plain, spoil, trivial, Candidate};
use crate::script::{Call, Operation};
use crate::sequences::{any_slip, count, damage, modulus, structured, terms};

/// Visitors. Some would be an editor if their number were cut to one byte, to two or to
/// three, or if any number but 0 meant one.
const VISITORS: [u32; 14] =
    [0, 2, 2, 3, 256, 257, 257, 65536, 65537, 65537, 0x0100_0001, 1 << 31, (1 << 31) + 1, u32::MAX];

/// `catalogues SEED COUNT`: the servings and makings by hand, then that many random ones, of
/// which some come again.
pub fn catalogues(seed: u64, count: u64) -> Vec<u8> {
    let by_hand: Vec<u8> = by_hand().iter().flat_map(Call::bytes).collect();
    [by_hand, rounds(seed, count)].concat()
}

// ---- by hand ----

/// Who asks, each of those that matter.
pub const ASKERS: [u32; 14] =
    [1, 0, 2, 3, 255, 256, 257, 65535, 65536, 65537, 0x0100_0001, 1 << 31, (1 << 31) + 1, u32::MAX];

/// 6,3,1,5,6 modulo 9, which is asked for by hand.
const TERMS: [u64; 5] = [6, 3, 1, 5, 6];

/// A serving of that slip.
fn served(who: u32, fill: u8, shelf: &[u8], size: usize) -> Call {
    Call {
        operation: Operation::LookUp,
        fill,
        number: who,
        lengths: [SLIP_BYTES as u16, shelf.len() as u16, size as u16],
        l: 0,
        payload: [&slip_of(9, &TERMS), shelf].concat(),
    }
}

/// The record of that slip with a number.
fn record(number: u16) -> Vec<u8> {
    let mut record = made(9, &TERMS);
    set_number(&mut record, number);
    record
}

/// Every asker before a record with each kind of number; then what is found twice, made and
/// refused. Mostly a call is that before it but for the number on its shelf.
fn by_hand() -> Vec<Call> {
    let mut calls = Vec::new();
    for who in ASKERS {
        let numbers = [0, 1, 256, 0x1234, 65535].map(record);
        calls.extend(numbers.map(|shelf| served(who, 0xa5, &shelf, RECORD_BYTES)));
    }
    for who in [1, 0, 257] {
        calls.extend(with_numbers(who));
        calls.extend(made_by_hand(who));
        calls.extend(wrong_sizes(who));
    }
    calls.extend(makings_by_hand());
    calls
}

/// The bytes that make a record bad: 25, 6, 26, a test that says no, and the last cell of b.
pub const BAD: [(usize, u8); 6] = [(260, 129), (522, 9), (262, 2), (268, 2), (774, 1), (775, 1)];

/// 128 terms modulo 4,095 as b, with a = 1: a good record that has few zeros, and none in the
/// last cell of b.
fn full_record(number: u16) -> Vec<u8> {
    let terms = [0x0e0d; TERMS_LIMIT];
    let mut record = record_with(&slip_of(4095, &terms), &trivial(&terms));
    set_number(&mut record, number);
    record
}

/// A record that stands there again, one after others, one of few zeros, bad ones, slips that
/// are refused.
fn with_numbers(who: u32) -> Vec<Call> {
    let mut calls = Vec::new();
    let numbers = [0, 1, 256];
    calls.extend(numbers.map(full_record).map(|full| {
        let payload = [&full[..SLIP_BYTES], &full].concat();
        Call { payload, ..served(who, 0xa5, &full, RECORD_BYTES) }
    }));
    let twice = |number| [record(number), record(7)].concat();
    calls.extend(numbers.map(|number| served(who, 0xa5, &twice(number), RECORD_BYTES)));
    let last = |number| [made(4, &[2, 1]).repeat(11), record(number)].concat();
    calls.extend([1, 256].map(|number| served(who, 0xa5, &last(number), RECORD_BYTES)));
    for fault in BAD {
        calls.extend(numbers.map(|number| {
            let mut bad = record(number);
            put(&mut bad, &[fault]);
            served(who, 0xa5, &bad, RECORD_BYTES)
        }));
    }
    for faults in WRONG {
        calls.extend(numbers.map(|number| {
            let mut call = served(who, 0xa5, &record(number), RECORD_BYTES);
            put(&mut call.payload, faults);
            call
        }));
    }
    calls
}

/// The bytes that make the slip a wrong one: 1, 2, 3 at 0, at 1 and at 127, 4.
pub const WRONG: [&[(usize, u8)]; 6] =
    [&[(0, 1)], &[(2, 129)], &[(4, 9)], &[(6, 9)], &[(2, 128), (258, 9)], &[(258, 1)]];

pub fn put(bytes: &mut [u8], faults: &[(usize, u8)]) {
    for &(place, byte) in faults {
        bytes[place] = byte;
    }
}

/// From no record, from another one, and where an old shelf has it.
fn made_by_hand(who: u32) -> Vec<Call> {
    let mut other = made(4, &[2, 1]);
    let old = without_numbers(&[&other[..], &record(0)].concat());
    let mut calls = vec![served(who, 0, &[], RECORD_BYTES), served(who, 0xff, &[], RECORD_BYTES)];
    for number in [0, 1, 256] {
        set_number(&mut other, number);
        calls.push(served(who, 0xff, &other, RECORD_BYTES));
    }
    calls.push(served(who, 0xff, &fitted(&old, 2 * RECORD_BYTES as u16), RECORD_BYTES));
    calls
}

/// 23 and 5: a byte less or more, and the sizes before A7.
fn wrong_sizes(who: u32) -> Vec<Call> {
    let mut calls = Vec::new();
    for size in [1, 776, 777, 779, 1552, 1555, 1557] {
        let shelf = |number| record(number).repeat(3)[..size].to_vec();
        let numbers = [1, 256].map(shelf);
        calls.extend(numbers.map(|shelf| served(who, 0xa5, &shelf, RECORD_BYTES)));
    }
    for size in [0, 776, 777, 779, 1556] {
        calls.push(served(who, 0xa5, &record(1), size));
    }
    calls
}

/// Right and wrong buffers, then wrong slips.
fn makings_by_hand() -> Vec<Call> {
    let making = |fill, size, faults| {
        let mut slip = slip_of(9, &TERMS);
        put(&mut slip, faults);
        let lengths = [SLIP_BYTES as u16, size, 0];
        Call { operation: Operation::Synthesize, fill, number: 0, lengths, l: 0, payload: slip }
    };
    let fills = [0, 0xa5, 0xff];
    let mut calls = Vec::new();
    for size in [RECORD_BYTES as u16, 0, 776, 777, 779, 1556] {
        calls.extend(fills.map(|fill| making(fill, size, &[])));
    }
    for faults in WRONG {
        calls.extend(fills.map(|fill| making(fill, RECORD_BYTES as u16, faults)));
    }
    calls
}

// ---- random ----

/// The random ones.
pub fn rounds(seed: u64, count: u64) -> Vec<u8> {
    let mut random = Random::new(seed);
    let mut script = Vec::new();
    for _ in 0..count {
        script.extend(round(&mut random).iter().flat_map(Call::bytes));
    }
    script
}

/// A making, a serving, or a serving that comes again with other numbers.
fn round(random: &mut Random) -> Vec<Call> {
    if random.once_in(4) {
        return vec![making(random)];
    }
    let call = serving(random);
    // A shelf of several records, but not so many that the script would be long.
    let size = usize::from(call.lengths[1]);
    if (RECORD_BYTES..8 * RECORD_BYTES).contains(&size) && random.once_in(5) {
        again(random, call)
    } else {
        vec![call]
    }
}

/// 02, A7: "Two shelves that differ only in accession numbers give a visitor the same
/// replies". A visitor's serving from two such shelves, then an editor's.
fn again(random: &mut Random, call: Call) -> Vec<Call> {
    let first = Call { number: visitor(random), ..call };
    let mut second = first.clone();
    renumber(random, &mut second);
    let by_editor = |call: &Call| Call { number: EDITOR as u32, ..call.clone() };
    let editors = [by_editor(&second), by_editor(&first)];
    [first, second].into_iter().chain(editors).collect()
}

/// Gives the records of the call's shelf other accession numbers.
fn renumber(random: &mut Random, call: &mut Call) {
    let shelf = &mut call.payload[usize::from(call.lengths[0])..];
    for record in shelf.chunks_exact_mut(RECORD_BYTES) {
        let number = accession(random);
        set_number(record, number);
    }
}

pub fn set_number(record: &mut [u8], number: u16) {
    record[RECORD_NUMBER_AT..].copy_from_slice(&number.to_le_bytes());
}

/// An accession number: none, the least and the largest, one bit or one byte alone, or any.
pub fn accession(random: &mut Random) -> u16 {
    let (any, bit) = (random.next() as u16, 1 << random.below(16));
    random.pick(&[0, 1, 255, 256, 65535, bit, any & 0x00ff, any & 0xff00, any, any])
}

pub fn visitor(random: &mut Random) -> u32 {
    let any = (random.next() as u32).max(2);
    if random.once_in(12) {
        any
    } else {
        random.pick(&VISITORS)
    }
}

fn making(random: &mut Random) -> Call {
    let mut slip = any_slip(random);
    if random.once_in(2) {
        damage(random, &mut slip);
    }
    let lengths = [nearly(random, SLIP_BYTES), record_length(random), 0];
    let mut call = plain(random, Operation::Synthesize, 0, lengths);
    call.payload = fitted(&slip, lengths[0]);
    call
}

/// The length of a record to be filled: mostly right, or that of a record without its
/// number.
fn record_length(random: &mut Random) -> u16 {
    if random.once_in(16) {
        RECORD_NUMBER_AT as u16
    } else {
        nearly(random, RECORD_BYTES)
    }
}

/// One serving; two in five are for an editor.
pub fn serving(random: &mut Random) -> Call {
    let m = modulus(random);
    let n = count(random).min(if random.once_in(3) { 128 } else { 12 });
    let query = (m, terms(random, m, n));
    let mut slip = slip_of(m, &query.1);
    let records = shelf(random, &query);
    if random.once_in(4) {
        damage(random, &mut slip);
    }
    let shelf = lent(random, records);
    let lengths = [nearly(random, SLIP_BYTES), shelf.len() as u16, record_length(random)];
    let who = if random.below(5) < 2 { EDITOR as u32 } else { visitor(random) };
    let mut call = plain(random, Operation::LookUp, who, lengths);
    call.payload = [fitted(&slip, lengths[0]), shelf].concat();
    call
}

/// The shelf as it is lent: mostly whole, or with more or fewer bytes, or its records of
/// the size before A7, also filled up to the size that these records now have.
fn lent(random: &mut Random, shelf: Vec<u8>) -> Vec<u8> {
    let size = shelf.len();
    let length = match random.below(32) {
        0 => size + 1,
        1 => size.saturating_sub(1),
        2 => size + SLIP_BYTES,
        3 => size / 2,
        4 | 5 => return without_numbers(&shelf),
        6 => return fitted(&without_numbers(&shelf), size as u16),
        _ => size,
    };
    fitted(&shelf, length.min(65535) as u16)
}

/// The records without their numbers: "Old shelves we rewrite ourselves before we lend
/// them; the desk takes every shelf as one of the new size."
pub fn without_numbers(shelf: &[u8]) -> Vec<u8> {
    shelf.chunks(RECORD_BYTES).flat_map(|record| &record[..RECORD_NUMBER_AT]).copied().collect()
}

/// Records end to end: mostly few, sometimes 84, the most that the script's two
/// bytes can say.
fn shelf(random: &mut Random, query: &(u64, Vec<u64>)) -> Vec<u8> {
    let records = match random.below(20) {
        0..=2 => 0,
        3 => 84,
        4 => random.between(8, 83),
        _ => random.between(1, 6),
    };
    // On a long shelf the matches are rare, so that they stand at high numbers too.
    let rare = if records > 8 { records } else { 2 };
    let size = records as usize * RECORD_BYTES;
    let mut shelf = Vec::new();
    while shelf.len() < size {
        let mut record =
            if random.once_in(rare) { matching(random, query) } else { differing(random, query) };
        // Some stand there twice, as given by two donors.
        for _ in 0..if random.once_in(4) { 2 } else { 1 } {
            let number = accession(random);
            set_number(&mut record, number);
            shelf.extend(&record);
        }
    }
    shelf.truncate(size);
    shelf
}

pub fn made(m: u64, terms: &[u64]) -> Vec<u8> {
    record_with(&slip_of(m, terms), &register_of(m, terms))
}

/// A record whose first 260 bytes are the query's: as made, with another good
/// candidate, with a bad one, with one that fails its test, or with another last cell of b,
/// which the number comes right after.
pub fn matching(random: &mut Random, (m, terms): &(u64, Vec<u64>)) -> Vec<u8> {
    let mut register = register_of(*m, terms);
    let kind = random.below(12);
    match kind {
        0 => register = trivial(terms),
        1 => lengthen(random, &mut register),
        9 => {
            // As long as b, whose last cell no test of fewer than 128 terms looks at.
            register.length = TERMS_LIMIT;
            register.b[B_CELLS - 1] = random.below(*m);
        }
        _ => {}
    }
    let mut candidate = Candidate::of(*m, terms, &register);
    match kind {
        2 => change(random, &mut candidate),
        3..=7 => spoil(random, &mut candidate),
        _ => {}
    }
    let mut record = candidate.record(0);
    if kind == 8 {
        let place =
            random.pick(&[RECORD_NUMBER_AT - 1, RECORD_NUMBER_AT - 1, RECORD_NUMBER_AT - 2]);
        record[place] ^= 1 << random.below(8);
    }
    record
}

/// A record of another slip: near to the query's or far from it.
pub fn differing(random: &mut Random, (m, terms): &(u64, Vec<u64>)) -> Vec<u8> {
    match random.below(8) {
        0 => {
            // One byte of the first 260 differs.
            let mut record = made(*m, terms);
            let edge = random.pick(&[0, 1, 2, 3, 4, 258, 259]);
            let place = if random.once_in(2) { edge } else { random.place(SLIP_BYTES) };
            record[place] ^= 1 << random.below(8);
            record
        }
        1 | 2 => {
            // The same terms under another modulus.
            let least = terms.iter().max().map_or(2, |t| t + 1).max(2);
            let other = random.between(least, MODULUS_LIMIT);
            made(if other == *m { MODULUS_LIMIT } else { other }, terms)
        }
        3 => {
            // One term less or, as a zero, one term more.
            let mut other = terms.clone();
            if random.once_in(2) || other.len() == TERMS_LIMIT {
                other.pop();
            } else {
                other.push(0);
            }
            made(*m, &other)
        }
        4 => (0..RECORD_BYTES).map(|_| random.byte()).collect(),
        _ => {
            let other = modulus(random);
            let n = random.place(10);
            let terms = structured(random, other, n);
            made(other, &terms)
        }
    }
}
