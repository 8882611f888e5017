//! The self-test's random checks of columns (02, A5): they do what single takings do, and
//! they stand anywhere in a list of calls.

use crate::calls::*;
use crate::cases::bytes_of;
use crate::checks::Group;
use crate::columns::{bad_reading, column};
use crate::join;
use crate::limits::*;
use crate::linear;
use crate::onlychecks::expected_only;
use crate::random::Random;
use crate::refusals::Refusal;
use crate::scenarios::{self, changes_reading};
use crate::script::{line, reading_bytes, reading_from, replay, Call, Operation};
use crate::sequences::{self, damage, not_below, uniform};

// ---- single takings ----

/// "One call takes a list and does what taking its terms singly does."
pub fn singly(group: &mut Group) {
    short_lists(group);
    let mut random = Random::new(26);
    for _ in 0..20000 {
        let before = any_reading(&mut random);
        let m = u64::from(before.modulus);
        let list = if random.once_in(2) {
            column(&mut random, 9, &before, &[])
        } else {
            near_list(&mut random, m)
        };
        check_singly(group, &before, &list);
    }
}

/// Every list of up to four of some cells, on readings that are empty, nearly full, full
/// and bad.
fn short_lists(group: &mut Group) {
    let mut readings: Vec<Reading> =
        [0, 1, 125, 126, 127, 128].map(|n| reading_from(&slip_of(3, &vec![2; n]))).to_vec();
    readings.push(zero_reading());
    for size in 0..=4 {
        let mut digits = vec![0; size];
        loop {
            let list: Vec<u64> =
                digits.iter().map(|&digit: &u64| [0, 2, 3, 65535][digit as usize]).collect();
            for before in &readings {
                check_singly(group, before, &bytes_of(&list, size));
            }
            if !linear::advance(&mut digits, 4) {
                break;
            }
        }
    }
}

/// A reading of any count, often a nearly full one; one in four is forged.
fn any_reading(random: &mut Random) -> Reading {
    let m = sequences::modulus(random);
    let any = sequences::count(random);
    let n = random.pick(&[any, any, 0, 120, 126, 127, 128]);
    let mut bytes = slip_of(m, &sequences::terms(random, m, n));
    match random.below(12) {
        0 => bytes = (0..SLIP_BYTES).map(|_| random.byte()).collect(),
        1 => bytes = bad_reading(random),
        2 => damage(random, &mut bytes),
        _ => {}
    }
    reading_from(&bytes)
}

/// A list of any number of bytes, whose terms are mostly right or next to the modulus.
fn near_list(random: &mut Random, m: u64) -> Vec<u8> {
    let size = random.pick(&[0, 1, 2, 3, 8, 130]);
    let wrong = random.pick(&[0, 1, 2]);
    let mut list = bytes_of(&uniform(random, (m + wrong).min(65536), size), size);
    if random.once_in(10) {
        list.pop();
    }
    list
}

/// The column against single takings, and what it replies against what it holds then.
fn check_singly(group: &mut Group, before: &Reading, list: &[u8]) {
    let (mut reading, mut single) = (before.clone(), before.clone());
    let reply = push_all(&mut reading, list);
    let bad = check_slip(&reading_bytes(before)).is_err();
    let expected = if list.len() % 2 == 1 {
        (0, Err(Refusal::Buffer))
    } else if bad {
        // Of an empty list there is no taking that would tell it.
        (0, Err(Refusal::Reading))
    } else {
        taken_singly(&mut single, list)
    };
    let words = || format!("{reply:?} for {expected:?}: {before:?}, {list:?}");
    group.check(reply == expected, words);
    group.check(reading == single, || format!("the reading: {}", words()));
    let (taken, outcome) = reply;
    let count = usize::from(before.count);
    let right = match outcome {
        Ok(()) => 2 * taken == list.len() && !bad,
        Err(Refusal::Buffer | Refusal::Reading) => taken == 0 && reading == *before,
        Err(Refusal::Full) => count + taken == TERMS_LIMIT && reading.count == 128,
        Err(refusal) => refusal == Refusal::Term(count + taken) && count + taken < TERMS_LIMIT,
    };
    group.check(right, || format!("the reply: {}", words()));
}

/// How many of the terms are taken singly up to the first refusal, and that.
fn taken_singly(reading: &mut Reading, list: &[u8]) -> (usize, Result<(), Refusal>) {
    let mut taken = 0;
    for term in cells(list) {
        match push(reading, term as u32) {
            Ok(()) => taken += 1,
            Err(refusal) => return (taken, Err(refusal)),
        }
    }
    (taken, Ok(()))
}

// ---- lists of calls ----

/// "A column may stand anywhere in demand 3's list of calls .. and the whole of demand 3
/// must hold then too."
pub fn anywhere(group: &mut Group) {
    let mut random = Random::new(27);
    for round in 0..3000 {
        let m = sequences::modulus(&mut random);
        let n = if round % 50 == 0 { TERMS_LIMIT } else { random.place(25) };
        let planned = sequences::terms(&mut random, m, n);
        let (mut reading, _) = open(m as u32);
        let mut taken = Taken { m, terms: Vec::new() };
        for _ in 0..random.between(1, 10) {
            let left = &planned[taken.terms.len().min(n)..];
            any_call(&mut random, &mut reading, &mut taken, left);
        }
        check_after(group, &reading, &taken);
    }
    as_single_takings(group);
}

/// "The terms taken are known from the calls alone." They are kept apart from the reading.
struct Taken {
    m: u64,
    terms: Vec<u64>,
}

impl Taken {
    /// "An offered term below m joins at the end while there are fewer than 128"; true if
    /// this one does.
    fn offer(&mut self, term: u64) -> bool {
        let joins = term < self.m && self.terms.len() < 128;
        if joins {
            self.terms.push(term);
        }
        joins
    }

    /// "As the takings of its terms in order up to the first refused one, or as none where
    /// it gets 5".
    fn offer_all(&mut self, list: &[u8]) {
        if list.len() % 2 == 0 {
            let _ = cells(list).into_iter().all(|term| self.offer(term));
        }
    }
}

/// A column, a single taking, a report or a profile, refused ones among them.
fn any_call(random: &mut Random, reading: &mut Reading, taken: &mut Taken, left: &[u64]) {
    let m = taken.m;
    match random.below(8) {
        0..=3 => {
            let list = column(random, m, reading, left);
            taken.offer_all(&list);
            let _ = push_all(reading, &list);
        }
        4..=5 => {
            let wrong = u64::from(not_below(random, m as u16));
            let next = left.first().copied().unwrap_or(0);
            let term = random.pick(&[next, next, next, wrong]);
            taken.offer(term);
            let _ = push(reading, term as u32);
        }
        6 => {
            let size = random.pick(&[A_BYTES, A_BYTES - 1]);
            let _ = register(reading, &mut vec![1; size], &mut [2; B_BYTES]);
        }
        _ => {
            let size = random.pick(&[PROFILE_BYTES, PROFILE_BYTES + 1]);
            let _ = profile(reading, &mut vec![3; size]);
        }
    }
}

/// The report and the profile are those of the terms taken, and the record made for these
/// has the same register; the lengths of short ones are also found by linear algebra.
fn check_after(group: &mut Group, reading: &Reading, taken: &Taken) {
    let Taken { m, terms } = taken;
    let words = || format!("modulo {m}: {terms:?}: {reading:?}");
    let slip = slip_of(*m, terms);
    group.check(reading_bytes(reading) == slip, words);
    let (mut a, mut b, mut lengths) = ([9; A_BYTES], [9; B_BYTES], [9; PROFILE_BYTES]);
    let reply = register(reading, &mut a, &mut b);
    let expected = join::register(*m, terms);
    let only = expected_only(*m, terms.len(), expected.length);
    let same = cells(&a) == expected.a && cells(&b) == expected.b;
    group.check(reply == Ok((expected.length, only)) && same, words);
    group.check(profile(reading, &mut lengths) == Ok(()), words);
    let told: Vec<usize> = cells(&lengths).into_iter().map(|length| length as usize).collect();
    let (within, past) = told.split_at(terms.len() + 1);
    group.check(within == join::profile(*m, terms) && past.iter().all(|&cell| cell == 0), words);
    group.check(reply.map(|(l, _)| l) == Ok(within[terms.len()]), words);
    if terms.len() <= 16 {
        group.check(within == linear::profile(*m, terms), words);
        let mut record = [9; RECORD_BYTES];
        let made = synthesize(&slip, &mut record);
        let same = record[RECORD_A_AT..] == [&a[..], &b, &[0, 0]].concat();
        group.check(made == Ok(()) && same, words);
    }
}

/// Scripts with their columns put as single takings: every other call has the same line.
fn as_single_takings(group: &mut Group) {
    let others = |text: String| -> Vec<String> {
        text.lines().filter(|line| !line.starts_with("push")).map(String::from).collect()
    };
    for seed in 0..16 {
        let script = scenarios::calls(seed, 8);
        let (single, replaced) = with_single_takings(&script);
        group.check(replaced > 0, || format!("seed {seed}: no columns"));
        let same = others(replay(&script).0) == others(replay(&single).0);
        group.check(same, || format!("seed {seed}: {replaced} columns as single takings"));
    }
}

/// The script with each column put as the takings of its terms up to the first refused
/// one, or as none where it gets 5; and how many columns there were.
fn with_single_takings(script: &[u8]) -> (Vec<u8>, usize) {
    let mut reading = zero_reading();
    let (mut calls, mut replaced) = (Vec::new(), 0);
    let mut rest = script;
    while let Ok((call, size)) = Call::parse(rest) {
        rest = &rest[size..];
        if call.operation != Operation::PushAll {
            if changes_reading(call.operation) {
                line(&call, &mut reading);
            }
            calls.extend(call.bytes());
            continue;
        }
        replaced += 1;
        let offered = if call.payload.len() % 2 == 0 { cells(&call.payload) } else { Vec::new() };
        for term in offered {
            let (operation, number) = (Operation::Push, term as u32);
            let taking = Call { operation, number, lengths: [0; 3], payload: vec![], ..call };
            calls.extend(taking.bytes());
            if push(&mut reading, number).is_err() {
                break;
            }
        }
    }
    (calls, replaced)
}
