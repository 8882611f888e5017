//! Random scripts: lists of calls on a reading, candidates for testing and running.

use crate::calls::{outputs, slip_of, zero_reading, Reading};
use crate::columns::{bad_reading, column};
use crate::join::{register as register_of, sheet_size, Register};
use crate::limits::*;
use crate::random::Random;
use crate::script::{line, Call, Operation};
use crate::sequences::{
    count, damage, good_slip, modulus, not_below, register, set_cell, terms, uniform,
};

/// Numbers that no modulus, term or length may be; the last ones would pass if
/// they were cut to two bytes.
const WILD_MODULI: [u32; 8] = [0, 1, 4096, 65535, 65536, 65536 + 9, 0x0001_0002, u32::MAX];

/// The lengths of a and b as a report must be lent them.
const REPORT_LENGTHS: [u16; 3] = [A_BYTES as u16, B_BYTES as u16, 0];

/// A buffer length that is mostly right, else 0, one less or one more.
pub fn nearly(random: &mut Random, right: usize) -> u16 {
    let length = match random.below(60) {
        0 => 0,
        1 => right.saturating_sub(1),
        2 => right + 1,
        _ => right,
    };
    length as u16
}

fn fill(random: &mut Random) -> u8 {
    let any = random.byte();
    random.pick(&[0, 0xff, 0xa5, any])
}

pub fn plain(random: &mut Random, operation: Operation, number: u32, lengths: [u16; 3]) -> Call {
    Call { operation, fill: fill(random), number, lengths, l: 0, payload: Vec::new() }
}

/// Cuts or stretches the bytes to the length.
pub fn fitted(bytes: &[u8], length: u16) -> Vec<u8> {
    let mut bytes = bytes.to_vec();
    bytes.resize(length as usize, 0);
    bytes
}

fn written(calls: &[Call]) -> Vec<u8> {
    calls.iter().flat_map(Call::bytes).collect()
}

// ---- lists of calls on a reading ----

/// A list under way and the reading held at its end, which tells the room that a
/// sheet needs there.
struct List {
    calls: Vec<Call>,
    held: Reading,
}

impl List {
    fn add(&mut self, call: Call) {
        // The others need not be made here.
        if changes_reading(call.operation) {
            line(&call, &mut self.held);
        }
        self.calls.push(call);
    }
}

/// Whether a call of this kind may change the reading held.
pub fn changes_reading(operation: Operation) -> bool {
    use Operation::*;
    matches!(operation, Open | Push | Forge | PushAll)
}

/// `calls SEED COUNT`: that many lists, each of which starts with an opening or a
/// forged reading and ends with a report and a profile, mostly followed by tracings, and
/// at times by tracings and columns of readings that are not sound.
pub fn calls(seed: u64, lists: u64) -> Vec<u8> {
    let mut random = Random::new(seed);
    let mut script = Vec::new();
    for _ in 0..lists {
        script.extend(written(&list(&mut random)));
    }
    script
}

fn list(random: &mut Random) -> Vec<Call> {
    let m = modulus(random);
    let mut list = List { calls: Vec::new(), held: zero_reading() };
    list.add(opening(random, m));
    offer_terms(random, m, &mut list);
    while random.once_in(2) {
        let call = side_call(random, m, &list.held);
        list.add(call);
    }
    list.add(plain(random, Operation::Register, 0, REPORT_LENGTHS));
    list.add(plain(random, Operation::Profile, 0, [PROFILE_BYTES as u16, 0, 0]));
    last_tracings(random, &mut list);
    if random.once_in(6) {
        unsound_columns(random, m, &mut list);
    }
    list.calls
}

/// The planned terms in order, singly and in columns, with other calls between them.
fn offer_terms(random: &mut Random, m: u64, list: &mut List) {
    let planned = planned_terms(random, m);
    let mut left = &planned[..];
    // Some lists are columns above all, others single takings.
    let rare = random.pick(&[6, 24, 96, 96]);
    while let Some((&term, later)) = left.split_first() {
        while random.once_in(8) {
            let call = side_call(random, m, &list.held);
            list.add(call);
        }
        // 3 with its least and its largest place, and 22 before 3.
        let edge = [0, 127, 128].contains(&list.held.count);
        if edge && random.once_in(2) {
            list.add(wrong_term(random, m));
        }
        // The reading of a refused opening would stay at 0.
        let often = edge && list.held.modulus > 0;
        if random.once_in(if often { 3 } else { rare }) {
            left = columns(random, m, list, left);
        } else {
            list.add(plain(random, Operation::Push, term as u32, [0; 3]));
            left = later;
        }
    }
    if random.once_in(3) {
        columns(random, m, list, &[]);
    }
}

/// A column of the terms that are left to be offered, or several in a row, with reports
/// after some: the terms taken before a refusal stay. What is then left comes back.
fn columns<'a>(
    random: &mut Random,
    m: u64,
    list: &mut List,
    mut left: &'a [u64],
) -> &'a [u64] {
    loop {
        let before = list.held.count;
        let bytes = column(random, m, &list.held, left);
        list.add(column_call(random, bytes));
        left = &left[left.len().min(usize::from(list.held.count - before))..];
        if random.once_in(4) {
            list.add(plain(random, Operation::Register, 0, REPORT_LENGTHS));
        }
        if !random.once_in(3) {
            return left;
        }
    }
}

fn column_call(random: &mut Random, bytes: Vec<u8>) -> Call {
    let mut call = plain(random, Operation::PushAll, 0, [bytes.len() as u16, 0, 0]);
    call.payload = bytes;
    call
}

/// Where the reading is not sound, for one reason alone: 21 for no term too, and 5 for an
/// odd number of bytes before 21.
fn unsound_columns(random: &mut Random, m: u64, list: &mut List) {
    let mut call = plain(random, Operation::Forge, 0, [SLIP_BYTES as u16, 0, 0]);
    call.payload = bad_reading(random);
    list.add(call);
    let cells = random.between(1, 4) as usize;
    for size in [0, 1, CELL_BYTES * cells + 1, CELL_BYTES * cells] {
        let terms = uniform(random, m, cells + 1);
        list.add(column_call(random, cells_of(&terms)[..size].to_vec()));
    }
}

/// Mostly one with right buffers, then perhaps others; in one list of six also those
/// of a reading that is mostly not sound.
fn last_tracings(random: &mut Random, list: &mut List) {
    if !random.once_in(4) {
        let room = room(random, &list.held);
        list.add(plain(random, Operation::Trace, room, REPORT_LENGTHS));
    }
    while random.once_in(2) {
        let call = tracing(random, &list.held);
        list.add(call);
    }
    if random.once_in(6) {
        list.add(forge(random));
        unsound_tracings(random, list);
    }
}

/// Where the reading is not sound: 21 before the 5 of a sheet, and the 5 of a, and of
/// b, before 21.
fn unsound_tracings(random: &mut Random, list: &mut List) {
    let [a, b, _] = REPORT_LENGTHS;
    for lengths in [[a, b, 0], [a - 1, b, 0], [a, b + 1, 0]] {
        let room = room(random, &list.held);
        list.add(plain(random, Operation::Trace, room, lengths));
    }
    list.add(plain(random, Operation::Trace, 0, REPORT_LENGTHS));
    list.add(plain(random, Operation::Trace, u32::MAX, REPORT_LENGTHS));
}

/// A tracing with buffers that are mostly right.
fn tracing(random: &mut Random, held: &Reading) -> Call {
    let lengths = [nearly(random, A_BYTES), nearly(random, B_BYTES), 0];
    let room = room(random, held);
    plain(random, Operation::Trace, room, lengths)
}

/// Records of a sheet: as many as are needed, one less, one more, or far from it. A
/// reading that is not sound is counted as if it were.
fn room(random: &mut Random, held: &Reading) -> u32 {
    let needed = sheet_size(u64::from(held.modulus), held.count as usize) as u32;
    let (short, long) = (needed.saturating_sub(1), needed + 1);
    random.pick(&[needed, needed, short, long, 0, SHEET_LIMIT as u32, u32::MAX])
}

/// Mostly a legal opening, sometimes a refused one or a forged reading.
fn opening(random: &mut Random, m: u64) -> Call {
    match random.below(24) {
        0 => {
            let wild = random.pick(&WILD_MODULI);
            plain(random, Operation::Open, wild, [0; 3])
        }
        1 => forge(random),
        _ => plain(random, Operation::Open, m as u32, [0; 3]),
    }
}

/// Terms to offer; one list in eight goes past the 128th.
fn planned_terms(random: &mut Random, m: u64) -> Vec<u64> {
    let n = count(random);
    if random.once_in(8) {
        let mut planned = terms(random, m, TERMS_LIMIT);
        let more = random.between(1, 4) as usize;
        planned.extend(uniform(random, m + 2, more));
        return planned;
    }
    terms(random, m, n)
}

/// A report, a profile, a term that is out of range, a tracing, now and then a
/// forged reading or another opening.
fn side_call(random: &mut Random, m: u64, held: &Reading) -> Call {
    match random.below(130) {
        0 => forge(random),
        1 => opening(random, m),
        2..=35 => {
            let lengths = [nearly(random, A_BYTES), nearly(random, B_BYTES), 0];
            plain(random, Operation::Register, 0, lengths)
        }
        36..=69 => {
            let lengths = [nearly(random, PROFILE_BYTES), 0, 0];
            plain(random, Operation::Profile, 0, lengths)
        }
        70..=99 => tracing(random, held),
        _ => wrong_term(random, m),
    }
}

/// A term that is out of range; some would not be if they were cut to two bytes.
fn wrong_term(random: &mut Random, m: u64) -> Call {
    let low = m as u32;
    let term = random.pick(&[low, low + 1, 65535, 65536, 65537, low + 65536, u32::MAX]);
    plain(random, Operation::Push, term, [0; 3])
}

/// A reading that is good, damaged, or plain noise.
fn forge(random: &mut Random) -> Call {
    let mut bytes = good_slip(random);
    match random.below(4) {
        0 => {}
        1 => bytes = (0..SLIP_BYTES).map(|_| random.byte()).collect(),
        _ => damage(random, &mut bytes),
    }
    let mut call = plain(random, Operation::Forge, 0, [SLIP_BYTES as u16, 0, 0]);
    call.payload = bytes;
    call
}

// ---- candidates for testing and running ----

/// A slip, and a claim to hold against it, to run, or to put on a shelf.
pub struct Candidate {
    pub m: u64,
    pub slip: Vec<u8>,
    pub a: Vec<u8>,
    pub b: Vec<u8>,
    pub l: u32,
}

impl Candidate {
    pub fn of(m: u64, terms: &[u64], register: &Register) -> Candidate {
        Candidate {
            m,
            slip: slip_of(m, terms),
            a: cells_of(&register.a),
            b: cells_of(&register.b),
            l: register.length as u32,
        }
    }

    /// l where two bytes must hold it; above 128 stays above 128.
    fn short_l(&self) -> u16 {
        self.l.min(65535) as u16
    }

    /// The slip and the claim as a record with this accession number.
    pub fn record(&self, number: u16) -> Vec<u8> {
        let (l, number) = (self.short_l().to_le_bytes(), number.to_le_bytes());
        [&self.slip[..], &l, &self.a, &self.b, &number].concat()
    }
}

/// `candidates SEED COUNT`: that many testings and runnings.
pub fn candidates(seed: u64, count: u64) -> Vec<u8> {
    let mut random = Random::new(seed);
    let mut script = Vec::new();
    for _ in 0..count {
        let candidate = candidate(&mut random);
        let call = if random.once_in(2) {
            running(&mut random, candidate)
        } else {
            testing(&mut random, candidate)
        };
        script.extend(call.bytes());
    }
    script
}

pub fn candidate(random: &mut Random) -> Candidate {
    let m = modulus(random);
    let n = count(random);
    let (terms, register) = claim(random, m, n);
    let mut candidate = Candidate::of(m, &terms, &register);
    if random.once_in(2) {
        spoil(random, &mut candidate);
    }
    if random.once_in(6) {
        damage(random, &mut candidate.slip);
    }
    candidate
}

pub fn cells_of(numbers: &[u64]) -> Vec<u8> {
    numbers.iter().flat_map(|&number| (number as u16).to_le_bytes()).collect()
}

/// Terms and a well-formed claim that mostly generates them.
fn claim(random: &mut Random, m: u64, n: usize) -> (Vec<u64>, Register) {
    match random.below(8) {
        0..=2 => {
            // The reported register, perhaps claimed longer than it is.
            let terms = terms(random, m, n);
            let mut register = register_of(m, &terms);
            if random.once_in(3) {
                lengthen(random, &mut register);
            }
            (terms, register)
        }
        3 => {
            let terms = terms(random, m, n);
            let register = trivial(&terms);
            (terms, register)
        }
        4 => {
            // Any register against any terms.
            let length = random.below(20) as usize;
            (terms(random, m, n), register(random, m, length))
        }
        5 => {
            // The first differing place is likely to be a late one.
            let (mut terms, register) = run_of_its_own(random, m, n);
            if n > 0 {
                let place = random.place(n);
                terms[place] = random.below(m);
            }
            (terms, register)
        }
        _ => run_of_its_own(random, m, n),
    }
}

/// A register of any length up to 128 and what it gives; l may exceed n.
fn run_of_its_own(random: &mut Random, m: u64, n: usize) -> (Vec<u64>, Register) {
    let longest = random.pick(&[4, 16, 128]);
    let length = random.between(0, longest) as usize;
    let register = register(random, m, length);
    (outputs(m, &register, n), register)
}

/// A claim may be longer than its degrees.
pub fn lengthen(random: &mut Random, register: &mut Register) {
    register.length = random.between(register.length as u64, TERMS_LIMIT as u64) as usize;
}

/// "a = 1 with l = n and b = S. It generates, and is seldom least."
pub fn trivial(terms: &[u64]) -> Register {
    let mut register = Register { length: terms.len(), a: vec![0; A_CELLS], b: terms.to_vec() };
    register.a[0] = 1;
    register.b.resize(B_CELLS, 0);
    register
}

/// Puts faults into a claim, each of 25, 6 and 26 alone and before the next, or changes
/// it so that it generates other terms.
pub fn spoil(random: &mut Random, candidate: &mut Candidate) {
    match random.below(18) {
        0 => too_long(random, candidate),
        1 => {
            // Nothing is past a length above 128, so this is the one 6 that is left.
            out_of_range(random, candidate);
            too_long(random, candidate);
        }
        2 => {
            wrong_start(random, candidate);
            too_long(random, candidate);
        }
        3..=5 => out_of_range(random, candidate),
        6..=8 => past_the_end(random, candidate),
        9..=10 => start_out_of_range(random, candidate),
        11 => {
            wrong_start(random, candidate);
            out_of_range(random, candidate);
        }
        12 => {
            wrong_start(random, candidate);
            past_the_end(random, candidate);
        }
        13..=15 => wrong_start(random, candidate),
        16 => change(random, candidate),
        _ => candidate.l = candidate.l.saturating_sub(1),
    }
}

/// 25. The last ones would pass if they were cut to two bytes.
fn too_long(random: &mut Random, candidate: &mut Candidate) {
    candidate.l = random.pick(&[129, 130, 255, 256, 65535, 65536, 65537, u32::MAX]);
}

/// 26: an a_0 below m that is not 1.
fn wrong_start(random: &mut Random, candidate: &mut Candidate) {
    let m = candidate.m as u16;
    let wrong: Vec<u16> =
        [0, 2, m - 1, 257].into_iter().filter(|&start| start != 1 && start < m).collect();
    set_cell(&mut candidate.a, 0, random.pick(&wrong));
}

/// 6 and not 26, though some of these are 1 modulo m.
fn start_out_of_range(random: &mut Random, candidate: &mut Candidate) {
    let wrong = not_below(random, candidate.m as u16);
    set_cell(&mut candidate.a, 0, wrong);
}

/// The cells of a from 1 on, or all of b: the first l of them belong to the claim, and
/// there are 128.
fn either<'a>(random: &mut Random, candidate: &'a mut Candidate) -> &'a mut [u8] {
    if random.once_in(2) {
        &mut candidate.a[CELL_BYTES..]
    } else {
        &mut candidate.b
    }
}

/// 6: a coefficient that is not below m, within the length if it has room.
fn out_of_range(random: &mut Random, candidate: &mut Candidate) {
    let wrong = not_below(random, candidate.m as u16);
    let place = random.place(candidate.l as usize);
    set_cell(either(random, candidate), place, wrong);
}

/// 6: "a nonzero a past l or b past l-1", where there is such a place.
fn past_the_end(random: &mut Random, candidate: &mut Candidate) {
    let (l, low) = (candidate.l as usize, candidate.m as u16);
    if l < TERMS_LIMIT {
        let any = l + random.place(TERMS_LIMIT - l);
        let place = random.pick(&[l, any, TERMS_LIMIT - 1]);
        let wrong = random.pick(&[1, 1, low - 1, low - 1, low, 256, 65535]);
        set_cell(either(random, candidate), place, wrong);
    }
}

/// Another coefficient that is below m; the claim stays well formed.
pub fn change(random: &mut Random, candidate: &mut Candidate) {
    if candidate.l > 0 {
        let other = random.below(candidate.m) as u16;
        let place = random.place(candidate.l as usize);
        set_cell(either(random, candidate), place, other);
    }
}

fn testing(random: &mut Random, candidate: Candidate) -> Call {
    let lengths =
        [nearly(random, SLIP_BYTES), nearly(random, A_BYTES), nearly(random, B_BYTES)];
    let mut call = plain(random, Operation::Verify, candidate.l, lengths);
    call.payload = fitted(&candidate.slip, lengths[0]);
    call.payload.extend(fitted(&candidate.a, lengths[1]));
    call.payload.extend(fitted(&candidate.b, lengths[2]));
    call
}

fn running(random: &mut Random, candidate: Candidate) -> Call {
    let cells = match random.below(12) {
        0 => random.pick(&[257, 258, 259, 260, 512, 65535]),
        1 => 2 * random.below(129) as u16 + 1,
        2 => 0,
        3..=5 => 256,
        _ => 2 * random.below(129) as u16,
    };
    let lengths = [nearly(random, A_BYTES), nearly(random, B_BYTES), cells];
    let m = if random.once_in(12) { random.pick(&WILD_MODULI) } else { candidate.m as u32 };
    let mut call = plain(random, Operation::Generate, m, lengths);
    call.l = candidate.short_l();
    call.payload = fitted(&candidate.a, lengths[0]);
    call.payload.extend(fitted(&candidate.b, lengths[1]));
    call
}
