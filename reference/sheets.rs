//! The self-test's random checks of the sheet, of tracings and of the working's text.

use crate::apply::apply;
use crate::calls::*;
use crate::cases::{padded, reading_of, SHEET_OF_TABLE_2};
use crate::checks::Group;
use crate::compact;
use crate::join;
use crate::limits::*;
use crate::listing::listing;
use crate::onlychecks::expected_only;
use crate::random::Random;
use crate::refusals::Refusal;
use crate::residue::{prime_powers, PrimePower};
use crate::scenarios;
use crate::script::{hash, record_bytes, replay, Call, Operation};
use crate::selftest::sample;
use crate::sequences;
use crate::starts::read_back;
use crate::steps::{History, StepRecord};
use crate::working::{working, SHEET_HEADER};

const MODULI: [u64; 12] = [2, 8, 9, 2048, 2187, 3125, 4095, 2310, 30, 12, 6, 97];

const WIDE_MODULI: [u64; 9] = [32768, 59049, 65521, 65535, 30030, 15625, 16807, 50625, 65534];

/// What every number of an untouched record holds; no prime power is as large.
const LENT: u32 = 0xa5a5_a5a5;

/// Terms for a modulus; in one round of twenty 128, else at most 40.
fn terms_of(random: &mut Random, m: u64, round: u64) -> Vec<u64> {
    let n = if round % 20 == 0 { TERMS_LIMIT } else { random.place(41) };
    sequences::terms(random, m, n)
}

/// The modulus and the terms of a round: each of the list above in turn, then any.
fn round_of(random: &mut Random, round: u64) -> (u64, Vec<u64>) {
    let turn = (round / 20) as usize % (MODULI.len() + 4);
    let m = MODULI.get(turn).copied().unwrap_or_else(|| sequences::modulus(random));
    let terms = terms_of(random, m, round);
    (m, terms)
}

/// The sheet alone leads to the register that is reported, and does not when a case of
/// its last step is left out.
pub fn applied(group: &mut Group) {
    let mut random = Random::new(19);
    for round in 0..8000 {
        let (m, terms) = round_of(&mut random, round);
        check_applied(group, m, &terms);
    }
}

/// The same with up to 15 rows, as they may come.
pub fn applied_wide(group: &mut Group) {
    let mut random = Random::new(20);
    for round in 0..2000 {
        let m = random.pick(&WIDE_MODULI);
        let terms = terms_of(&mut random, m, round);
        check_applied(group, m, &terms);
    }
}

fn check_applied(group: &mut Group, m: u64, terms: &[u64]) {
    let n = terms.len();
    let histories = join::histories(m, terms);
    let sheet = join::sheet(&histories);
    let register = Some(join::register_after(&histories, n));
    let words = || format!("modulo {m}: {terms:?}");
    group.check(apply(m, n, &sheet) == register, words);
    for place in last_changes(&histories, &sheet) {
        let mut spoiled = sheet.clone();
        spoiled[place].case = 1;
        group.check(apply(m, n, &spoiled) != register, words);
    }
}

/// The places in the sheet where a last step changed row 0.
fn last_changes(histories: &[History], sheet: &[StepRecord]) -> Vec<usize> {
    let mut places = Vec::new();
    let mut end = 0;
    for history in histories {
        let e = history.power.e;
        end += e * history.findings.len();
        if !history.findings.is_empty() && sheet[end - e].case != 1 {
            places.push(end - e);
        }
    }
    places
}

/// The number and the order of the records; what u, θ, g, the lengths and the case have
/// to do with each other; the lengths of row 0 are the profile.
pub fn rules(group: &mut Group) {
    let mut random = Random::new(21);
    for round in 0..4000 {
        let (m, terms) = round_of(&mut random, round);
        let n = terms.len();
        let sheet = join::sheet(&join::histories(m, &terms));
        let words = || format!("modulo {m}: {terms:?}");
        let powers = prime_powers(m);
        let rows: usize = powers.iter().map(|power| power.e).sum();
        group.check(sheet.len() == n * rows && sheet.len() <= SHEET_LIMIT, words);
        group.check(join::sheet_size(m, n) == sheet.len(), words);
        let mut profile = vec![0; n];
        let mut rest = &sheet[..];
        for power in powers {
            let (records, others) = rest.split_at(n * power.e);
            for (k, step) in records.chunks(power.e).enumerate() {
                group.check(right_step(power, k, step), words);
                profile[k] = step[0].length.max(profile[k]);
            }
            rest = others;
        }
        let lengths: Vec<usize> = profile.into_iter().map(|l| l as usize).collect();
        group.check(lengths == join::profile(m, &terms)[..n], words);
    }
}

/// The records of one step at a prime power.
fn right_step(power: PrimePower, k: usize, step: &[StepRecord]) -> bool {
    step.len() == power.e && (0..power.e).all(|eta| right_record(power, k, eta, step))
}

/// Row η's record among those of step k: "Row g has L = 0 at step k" makes case 2.
fn right_record(power: PrimePower, k: usize, eta: usize, step: &[StepRecord]) -> bool {
    let record = step[eta];
    let e = power.e as u32;
    let placed = u64::from(record.power) == power.modulus()
        && (record.k as usize, record.eta as usize) == (k, eta)
        && record.length as usize <= k;
    let found = match e.checked_sub(record.u) {
        None => false,
        Some(0) => (record.theta, record.g, record.case) == (1, e, 1),
        Some(left) => {
            let theta = u64::from(record.theta);
            let unit = theta % power.p != 0 && theta < power.power(left as usize);
            let empty = step[left as usize - 1].length == 0;
            unit && (record.g, record.case) == (left - 1, if empty { 2 } else { 3 })
        }
    };
    placed && found
}

/// Length, u and θ of every record are those that 000's computer-implementation version
/// meets.
pub fn versions(group: &mut Group) {
    let mut random = Random::new(22);
    for round in 0..6000 {
        let (m, terms) = round_of(&mut random, round);
        let sheet = join::sheet(&join::histories(m, &terms));
        let mut notes = Vec::new();
        for power in prime_powers(m) {
            notes.extend(compact::noted(power, &terms).1);
        }
        group.check(sheet.len() == notes.len(), || format!("modulo {m}: {terms:?}"));
        for (record, (length, u, theta)) in sheet.iter().zip(notes) {
            let noted = (length as u32, u as u32, theta as u32);
            let same = (record.length, record.u, record.theta) == noted;
            group.check(same, || format!("modulo {m}: {terms:?}: {record:?}"));
        }
    }
}

/// A tracing writes a and b as a report does, fills the records of the steps and leaves
/// those past the last; with a short sheet it leaves all.
pub fn tracings(group: &mut Group) {
    let mut random = Random::new(23);
    for _ in 0..4000 {
        let (m, terms) = sample(&mut random, 40);
        let reading = reading_of(m, &terms);
        let sheet = join::sheet(&join::histories(m, &terms));
        let words = || format!("modulo {m}: {terms:?}");
        let fill = random.byte();
        let (mut a, mut b) = ([fill; A_BYTES], [fill; B_BYTES]);
        let reported = register(&reading, &mut a, &mut b);
        let more = random.pick(&[0, 1, 2, 50, SHEET_LIMIT - sheet.len()]);
        let expected = [&sheet[..], &vec![StepRecord::of([LENT; 8]); more]].concat();
        let traced = trace_into(&reading, expected.len(), fill);
        group.check(traced == (reported, a, b, expected), words);
        if !sheet.is_empty() {
            let any = random.place(sheet.len());
            let less = random.pick(&[0, any, sheet.len() - 1]);
            let kept = vec![StepRecord::of([LENT; 8]); less];
            let traced = trace_into(&reading, less, fill);
            let lent = (Err(Refusal::Buffer), [fill; A_BYTES], [fill; B_BYTES], kept);
            group.check(traced == lent, words);
        }
    }
}

/// The reply of a tracing, a, b and the sheet after it.
type Traced = (Result<Reported, Refusal>, [u8; A_BYTES], [u8; B_BYTES], Vec<StepRecord>);

fn trace_into(reading: &Reading, room: usize, fill: u8) -> Traced {
    let (mut a, mut b) = ([fill; A_BYTES], [fill; B_BYTES]);
    let mut sheet = vec![StepRecord::of([LENT; 8]); room];
    let reply = trace(reading, &mut a, &mut b, &mut sheet);
    (reply, a, b, sheet)
}

/// Tracings in scripts, one by hand and random ones; the text of the working.
pub fn texts(group: &mut Group) {
    script_by_hand(group);
    let mut text = String::new();
    for seed in 0..40 {
        text.push_str(&replay(&scenarios::calls(seed, 8)).0);
    }
    for begin in ["trace length ", "trace refused 5 ", "trace refused 21 "] {
        let found = text.lines().filter(|line| line.starts_with(begin)).count();
        group.check(found >= 20, || format!("{found} lines with {begin}"));
    }
    for seed in 0..40 {
        let slips = sequences::slips(seed, 12);
        let shown = working(&slips);
        let listed = without_sheets(group, &shown);
        group.check(listed == listing(&slips), || format!("working of seed {seed}"));
    }
}

/// The example of 000 with several rooms, then a reading that is not sound.
fn script_by_hand(group: &mut Group) {
    let call = |operation, number, lengths: [usize; 2]| Call {
        operation,
        fill: 0xee,
        number,
        lengths: [lengths[0] as u16, lengths[1] as u16, 0],
        l: 0,
        payload: Vec::new(),
    };
    let right = [A_BYTES, B_BYTES];
    let mut calls = vec![call(Operation::Open, 9, [0, 0])];
    calls.extend([6, 3, 1, 5, 6].map(|term| call(Operation::Push, term, [0, 0])));
    calls.push(call(Operation::Register, 0, right));
    for room in [10, 11, 1920, u32::MAX, 9, 0] {
        calls.push(call(Operation::Trace, room, right));
    }
    calls.push(call(Operation::Trace, 10, [A_BYTES - 1, B_BYTES]));
    calls.push(call(Operation::Open, 1, [0, 0]));
    calls.push(call(Operation::Trace, 0, right));
    calls.push(call(Operation::Trace, u32::MAX, right));
    calls.push(call(Operation::Trace, 0, [A_BYTES, 0]));
    let script: Vec<u8> = calls.iter().flat_map(Call::bytes).collect();
    let (text, whole) = replay(&script);
    let lines: Vec<&str> = text.lines().collect();
    let hashes = lines[6].strip_prefix("register length 3 not told ").unwrap_or("");
    let bytes: Vec<u8> =
        SHEET_OF_TABLE_2.iter().flat_map(|&record| record_bytes(StepRecord::of(record))).collect();
    let filled = format!("trace length 3 not told {hashes} {:08x}", hash(&bytes));
    let lent = |number: u32, a: usize, b: usize| {
        let (a, b) = (hash(&vec![0xee; a]), hash(&vec![0xee; b]));
        format!("trace refused {number} {a:08x} {b:08x} 811c9dc5")
    };
    let expected = [
        (7, filled.clone()),
        (8, filled.clone()),
        (9, filled.clone()),
        (10, filled),
        (11, lent(5, A_BYTES, B_BYTES)),
        (12, lent(5, A_BYTES, B_BYTES)),
        (13, lent(5, A_BYTES - 1, B_BYTES)),
        (15, lent(21, A_BYTES, B_BYTES)),
        (16, lent(21, A_BYTES, B_BYTES)),
        (17, lent(5, A_BYTES, 0)),
    ];
    group.check(whole && lines.len() == 18, || text.clone());
    // The hashes were also computed apart from this program.
    let told = "trace length 3 not told c39cbc5e 396c93d2 a4dd8c8e";
    group.check(lines[7] == told, || format!("{} for {told}", lines[7]));
    for (place, line) in expected {
        group.check(lines[place] == line, || format!("{} for {line}", lines[place]));
    }
}

/// The text of a working less its sheets and the lines before them, which tell whether another
/// register is as short. Each sheet, read back from the text and applied, gives the register of
/// the listing's line.
fn without_sheets(group: &mut Group, text: &str) -> String {
    let mut listed = String::new();
    let mut lines = text.lines();
    while let Some(line) = lines.next() {
        listed.push_str(line);
        listed.push('\n');
        let Some(told) = read_back(line) else { continue };
        let only = expected_only(told.modulus, told.count, told.start).to_string();
        group.check(lines.next() == Some(only.as_str()), || format!("{only} after {line}"));
        group.check(lines.next() == Some(SHEET_HEADER), || format!("header after {line}"));
        let records = lines.by_ref().take(join::sheet_size(told.modulus, told.count));
        let sheet: Vec<StepRecord> = records.map(record_read).collect();
        let same = apply(told.modulus, told.count, &sheet).is_some_and(|register| {
            register.length == told.start
                && told.register.len() == told.order + 1
                && register.a == padded(&told.register, A_CELLS)
        });
        group.check(same, || format!("the sheet after {line}"));
    }
    listed
}

/// The record of a line; a line of another form gives one with a case that is none.
fn record_read(line: &str) -> StepRecord {
    let numbers: Vec<u32> = line.split(' ').filter_map(|number| number.parse().ok()).collect();
    StepRecord::of(numbers.try_into().unwrap_or([0; 8]))
}
