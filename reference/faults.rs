//! The self-test's random checks of where a slip is wrong and how a claim is bad (02, A2).

use crate::calls::*;
use crate::checks::Group;
use crate::limits::*;
use crate::listing::{listing, HEADER};
use crate::random::Random;
use crate::refusals::Refusal;
use crate::scenarios::{candidate, Candidate};
use crate::sequences::{damage, good_slip, set_cell};
use crate::working::working;
use std::collections::BTreeSet;

/// A number of a slip or of a claim, from its two bytes.
pub fn number_at(bytes: &[u8], cell: usize) -> u64 {
    u64::from(bytes[2 * cell]) + 256 * u64::from(bytes[2 * cell + 1])
}

// ---- where a slip is wrong ----

/// Every place of a slip, among its count, whose term is not below the modulus. None if
/// the modulus or the count is refused before.
pub fn offending(slip: &[u8]) -> Vec<usize> {
    let (m, count) = (number_at(slip, 0), number_at(slip, 1));
    if !(2..=4095).contains(&m) || count > 128 {
        return Vec::new();
    }
    (0..128).filter(|&i| (i as u64) < count && number_at(slip, 2 + i) >= m).collect()
}

/// Every place of a period, among its whole cells, whose digit is neither 0 nor 1 (02, A10).
pub fn above_one(period: &[u8]) -> Vec<usize> {
    (0..period.len() / 2).filter(|&i| number_at(period, i) > 1).collect()
}

/// A slip with several kinds of faults, or with noise for terms, also past the count.
fn faulty_slip(random: &mut Random) -> Vec<u8> {
    let mut slip = good_slip(random);
    if random.once_in(8) {
        let high = random.pick(&[0, 15, 255]);
        for cell in slip[4..].chunks_mut(2) {
            cell.copy_from_slice(&[random.byte(), random.byte() & high]);
        }
    }
    for _ in 0..random.below(3) {
        damage(random, &mut slip);
    }
    slip
}

/// 3 is given exactly if some term among the count is not below the modulus and neither 1
/// nor 2 applies, and the place is one that no other comes before.
pub fn slips(group: &mut Group) {
    let mut random = Random::new(24);
    for _ in 0..30000 {
        let slip = faulty_slip(&mut random);
        let places = offending(&slip);
        let outcome = check_slip(&slip).map(|_| ());
        let words = || format!("{outcome:?}, out of range {places:?}, {slip:?}");
        match outcome {
            Err(Refusal::Term(place)) => {
                let (m, count) = (number_at(&slip, 0), number_at(&slip, 1));
                let right = (place as u64) < count
                    && (0..place).all(|i| number_at(&slip, 2 + i) < m)
                    && number_at(&slip, 2 + place) >= m;
                group.check(right && !places.is_empty(), words);
                check_passed_on(group, &slip, place);
            }
            _ => group.check(places.is_empty(), words),
        }
        check_taken_singly(group, &slip, places.first().copied());
    }
}

/// Every call that is handed the slip tells the same place, in numbers and in words, and
/// keeps what it was lent.
fn check_passed_on(group: &mut Group, slip: &[u8], place: usize) {
    let words = || format!("passed on {place}: {slip:?}");
    let refusal = Refusal::Term(place);
    let mut record = [0x5a; RECORD_BYTES];
    group.check(synthesize(slip, &mut record) == Err(refusal), words);
    for who in [0, 1] {
        let shelf = [slip, &[0; RECORD_BYTES - SLIP_BYTES]].concat();
        group.check(look_up(slip, &shelf, who, &mut record) == Err(refusal), words);
    }
    group.check(verify(slip, &[0; A_BYTES], &[9; B_BYTES], 129) == Err(refusal), words);
    let (short, zeros) = (slip_of(2, &[0]), [0; SLIP_BYTES]);
    for (first, second) in [(slip, slip), (slip, &zeros[..]), (&short[..], slip)] {
        let merging = merge(first, second, &mut record[..SLIP_BYTES]);
        group.check(merging == Err(refusal), words);
    }
    group.check(record == [0x5a; RECORD_BYTES], words);
    // In a bundle it is the reply, and the part is zeros.
    let (mut records, mut replies) = ([0x5a; 3 * RECORD_BYTES], [0x5a; 3]);
    let bundle = [slip, &short, slip].concat();
    let told = look_up_batch(&bundle, &[], 1, &mut records, &mut replies);
    let reply = 3 + 256 * place as u64;
    group.check(told == Ok(Counts { found: 0, made: 1, refused: 2 }), words);
    let zeros = [&records[..RECORD_BYTES], &records[2 * RECORD_BYTES..]].concat();
    group.check(replies == [reply, 0, reply] && zeros == [0; 2 * RECORD_BYTES], words);
    let text = format!("{HEADER}\nrefused 3 at {place}\n");
    group.check(listing(slip) == text && working(slip) == text, words);
}

/// The terms of a slip with a legal modulus and count, offered in order: the first that is
/// refused is so with the slip's place, which is then the reading's count; as one column
/// they get the same.
fn check_taken_singly(group: &mut Group, slip: &[u8], place: Option<usize>) {
    let (m, count) = (number_at(slip, 0), number_at(slip, 1));
    let (mut reading, opened) = open(m as u32);
    if opened.is_err() || count > 128 {
        return;
    }
    let mut offered = (0..count as usize).map(|i| number_at(slip, 2 + i) as u32);
    let refused = offered.find_map(|term| push(&mut reading, term).err());
    let taken = usize::from(reading.count);
    let right = match place {
        None => refused.is_none() && taken as u64 == count,
        Some(place) => refused == Some(Refusal::Term(place)) && taken == place,
    };
    group.check(right, || format!("taken singly: {refused:?} for {place:?}: {slip:?}"));
    let (mut other, _) = open(m as u32);
    let column = push_all(&mut other, &slip[4..][..2 * count as usize]);
    let same = column == (taken, refused.map_or(Ok(()), Err)) && other == reading;
    group.check(same, || format!("a column: {column:?} for {refused:?}: {slip:?}"));
}

// ---- how a claim is bad ----

/// What may be wrong with a claim, each for itself.
#[derive(Clone, Copy, PartialEq, Eq, PartialOrd, Ord, Debug)]
pub enum Fault {
    /// l is above 128.
    Long,
    /// a_0, another of a, or one of b is not below m.
    StartRange,
    RangeOfA,
    RangeOfB,
    /// Something but zero is past a_l or past b_(l-1).
    PastA,
    PastB,
    /// a_0 is below m and not 1.
    Start,
}

/// Everything that is wrong with a claim; what 01 gave 6 for is that there is something.
pub fn faults(m: u64, a: &[u8], b: &[u8], l: u64) -> BTreeSet<Fault> {
    let mut found = BTreeSet::new();
    let mut note = |fault: Fault, applies: bool| {
        if applies {
            found.insert(fault);
        }
    };
    note(Fault::Long, l > 128);
    for i in 0..=128 {
        let coefficient = number_at(a, i);
        note(if i == 0 { Fault::StartRange } else { Fault::RangeOfA }, coefficient >= m);
        note(Fault::PastA, coefficient > 0 && i as u64 > l);
        note(Fault::Start, i == 0 && coefficient < m && coefficient != 1);
    }
    for i in 0..128 {
        let coefficient = number_at(b, i);
        note(Fault::RangeOfB, coefficient >= m);
        note(Fault::PastB, coefficient > 0 && i as u64 >= l);
    }
    found
}

/// 25, 6 or 26 is given exactly if something is wrong; 25 if the length is; 26 if a_0 is
/// below m and a 1 in its place mends the claim; 6 if neither is so.
pub fn claims(group: &mut Group) {
    let mut random = Random::new(25);
    for _ in 0..30000 {
        let claim = candidate(&mut random);
        let wrong = faults(claim.m, &claim.a, &claim.b, u64::from(claim.l));
        let outcome = run_nothing(&claim, &claim.a);
        let words = || format!("{outcome:?} for {wrong:?} modulo {}, l {}", claim.m, claim.l);
        group.check(outcome.is_ok() == wrong.is_empty(), words);
        let long = outcome == Err(Refusal::ClaimLength);
        group.check(long == (claim.l > 128), words);
        let start = outcome == Err(Refusal::ClaimStart);
        group.check(start == (wrong == BTreeSet::from([Fault::Start])), words);
        let mut mended = claim.a.clone();
        set_cell(&mut mended, 0, 1);
        let below = number_at(&claim.a, 0) < claim.m;
        let mends = outcome.is_err() && below && run_nothing(&claim, &mended).is_ok();
        group.check(start == mends, words);
        let six = outcome == Err(Refusal::Claim);
        group.check(six == (!wrong.is_empty() && !long && !start), words);
        check_tested(group, &claim, outcome);
    }
}

/// Runs a claim, perhaps with another a, for no cells, which still meets 25, 6 and 26.
fn run_nothing(claim: &Candidate, a: &[u8]) -> Result<(), Refusal> {
    generate(claim.m as u32, a, &claim.b, claim.l, &mut [])
}

/// A testing gives the slip's refusal before that of the claim. A serving gives 24 for all
/// that is wrong with the claim, and for a test that says no, to editors and to visitors,
/// whatever the accession number is.
fn check_tested(group: &mut Group, claim: &Candidate, outcome: Result<(), Refusal>) {
    let slip = check_slip(&claim.slip).map(|_| ());
    let testing = verify(&claim.slip, &claim.a, &claim.b, claim.l);
    let words = || format!("{testing:?} for {slip:?}, {outcome:?}");
    group.check(testing.map(|_| ()) == slip.and(outcome), words);
    let expected = match (slip, testing) {
        (Err(refusal), _) => Err(refusal),
        (_, Ok(Verdict::Yes)) => Ok(Served::Found(0)),
        _ => Err(Refusal::Record),
    };
    for (who, number, shown) in [(1, 0, 0), (1, 0xf00f, 0xf00f), (0, 0xf00f, 0)] {
        let lent = vec![0x5a; RECORD_BYTES];
        let mut record = lent.clone();
        let serving = look_up(&claim.slip, &claim.record(number), who, &mut record);
        let told = || format!("{serving:?} for {who}, {}", words());
        group.check(serving == expected, told);
        let filled = if expected.is_ok() { claim.record(shown) } else { lent };
        group.check(record == filled, told);
        // Alone in a bundle: zeros where it is refused.
        let mut reply = [0x5a];
        let _ = look_up_batch(&claim.slip, &claim.record(number), who, &mut record, &mut reply);
        let zeros = vec![0; RECORD_BYTES];
        let part = if expected.is_ok() { claim.record(shown) } else { zeros };
        let code = match expected {
            Ok(_) => 256,
            Err(refusal) => refusal.number() as usize + 256 * refusal.place().unwrap_or(0),
        };
        group.check(record == part && reply == [code as u64], told);
    }
}
