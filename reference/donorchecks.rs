//! Accession numbers at random (02, A7): servings against what their bytes tell, two shelves
//! that differ in the numbers alone, and fetched records. Sizes and places are numbers here,
//! as the papers have them.

use crate::calls::*;
use crate::cases::{bare, reading_of, told, Told};
use crate::catalogues::{accession, rounds, serving};
use crate::checks::Group;
use crate::coverage::{count, often, Tally};
use crate::random::Random;
use crate::script::{reading_from, Call};
use crate::selftest::sample;
use crate::servings;

/// The buffers of a serving.
pub struct Serving {
    pub slip: Vec<u8>,
    pub shelf: Vec<u8>,
    pub lent: Vec<u8>,
}

/// The reply to a serving, and the lent record after it.
pub type Outcome = (Result<Served, Told>, Vec<u8>);

impl Serving {
    fn of(call: &Call) -> Serving {
        let [slip, shelf, lent] = call.buffers();
        Serving { slip, shelf, lent }
    }

    pub fn to(&self, who: u64) -> Outcome {
        let mut record = self.lent.clone();
        let reply = told(look_up(&self.slip, &self.shelf, who, &mut record));
        (reply, record)
    }
}

/// Anyone but 1; some of these are 1 in their low bits.
pub fn visitor(random: &mut Random) -> u64 {
    let any = random.next().max(2);
    let low = (any << random.between(1, 63)).max(2) | 1;
    random.pick(&[0, 2, 257, 65_537, (1 << 32) + 1, any, any, low, low, u64::MAX])
}

// ---- servings by their bytes ----

/// Every serving comes to what its bytes tell, for an editor, for a visitor of the script
/// and for one whose number is wider.
pub fn by_bytes(group: &mut Group) {
    let mut random = Random::new(42);
    for _ in 0..3000 {
        let call = serving(&mut random);
        let serving = Serving::of(&call);
        for who in [1, u64::from(call.number), visitor(&mut random)] {
            let (found, right) = (serving.to(who), expected(&serving, who));
            group.check(found == right, || format!("{:?} for {:?}, {who}", found.0, right.0));
        }
    }
    // The numbers are those of the script, also where they come again.
    for seed in 0..8 {
        servings::pairs(group, &rounds(seed, 60));
    }
}

/// What a serving has to come to, step by step in the order of its refusals.
pub fn expected(serving: &Serving, who: u64) -> Outcome {
    let Serving { slip, shelf, lent } = serving;
    let refused = |refusal| (Err(refusal), lent.clone());
    if slip.len() != 260 || lent.len() != 778 {
        return refused(bare(5));
    }
    if let Err(refusal) = told(check_slip(slip)) {
        return refused(refusal);
    }
    if shelf.len() % 778 != 0 {
        return refused(bare(23));
    }
    let matches = |place: &usize| shelf[778 * place..][..260] == slip[..];
    let Some(place) = (0..shelf.len() / 778).find(matches) else {
        return (Ok(Served::Made), [&reported(slip)[..], &[0, 0]].concat());
    };
    let record = &shelf[778 * place..][..778];
    let l = u32::from(record[260]) + 256 * u32::from(record[261]);
    if verify(slip, &record[262..520], &record[520..776], l) != Ok(Verdict::Yes) {
        return refused(bare(24));
    }
    let number = if who == 1 { [record[776], record[777]] } else { [0, 0] };
    (Ok(Served::Found(place)), [&record[..776], &number].concat())
}

/// A slip that passed its checks, then the length, a and b that a reading of its terms
/// reports.
fn reported(slip: &[u8]) -> Vec<u8> {
    let (mut a, mut b) = ([7; 258], [7; 256]);
    let l = register(&reading_from(slip), &mut a, &mut b).map_or(65_535, |(l, _)| l as u16);
    [slip, &l.to_le_bytes(), &a, &b].concat()
}

// ---- hidden from visitors ----

/// "Two shelves that differ only in accession numbers give a visitor the same replies,
/// refusals and found places included", and the same bytes; to an editor they differ where
/// the numbers of the record found do, and nowhere else.
pub fn hidden(group: &mut Group) {
    let mut random = Random::new(43);
    let mut tally = Tally::new();
    for _ in 0..6000 {
        let one = Serving::of(&serving(&mut random));
        let other = Serving {
            slip: one.slip.clone(),
            shelf: renumbered(&mut random, &one.shelf),
            lent: one.lent.clone(),
        };
        let seen = one.to(visitor(&mut random));
        let words = || format!("{:?}, a shelf of {} bytes", seen.0, one.shelf.len());
        // Another visitor too sees the same of either.
        for who in [visitor(&mut random), visitor(&mut random)] {
            group.check(one.to(who) == seen, words);
            group.check(other.to(who) == seen, words);
        }
        check_editor(group, [&one, &other], &seen);
        let kind = match seen.0 {
            Ok(Served::Found(0)) => String::from("found 0"),
            Ok(Served::Found(_)) => String::from("found later"),
            Ok(Served::Made) => String::from("made"),
            Err((number, _)) => number.to_string(),
        };
        count(&mut tally, kind);
    }
    let kinds = ["found 0", "found later", "made", "5", "1", "2", "3", "4", "23", "24"];
    for kind in kinds {
        let times = tally.get(kind).copied().unwrap_or(0);
        often(group, times / 10, || format!("servings from two shelves: {kind}"));
    }
    group.check(tally.len() == kinds.len(), || format!("servings from two shelves: {tally:?}"));
}

/// The same reply as to the visitor from both shelves, and the bytes that belong to it.
fn check_editor(group: &mut Group, [one, other]: [&Serving; 2], (reply, seen): &Outcome) {
    let (first, second) = (one.to(1), other.to(1));
    let words = || format!("{:?} and {:?}, a visitor {reply:?}", first.0, second.0);
    group.check(first.0 == *reply && second.0 == *reply, words);
    let differing = |left: &[u8], right: &[u8]| -> Vec<usize> {
        (0..left.len()).filter(|&i| left[i] != right[i]).collect()
    };
    let Ok(Served::Found(place)) = *reply else {
        group.check(first.1 == *seen && second.1 == *seen, words);
        return;
    };
    // The records found differ in their numbers alone, and are served as they stand.
    let there = 778 * place..778 * (place + 1);
    let found = [one, other].map(|serving| serving.shelf.get(there.clone()).unwrap_or(&[]));
    group.check(differing(found[0], found[1]).iter().all(|&byte| byte >= 776), words);
    group.check(differing(&first.1, &second.1) == differing(found[0], found[1]), words);
    group.check(first.1 == found[0] && second.1 == found[1], words);
    group.check(seen[..776] == first.1[..776] && seen[776..] == [0, 0], words);
}

/// The shelf with other accession numbers: none, others everywhere, one bit of one record, or
/// at random.
pub fn renumbered(random: &mut Random, shelf: &[u8]) -> Vec<u8> {
    let mut shelf = shelf.to_vec();
    let kind = random.below(4);
    let one = random.place(shelf.len() / 778);
    for (place, record) in shelf.chunks_exact_mut(778).enumerate() {
        let before = u16::from_le_bytes([record[776], record[777]]);
        let number = match kind {
            0 => 0,
            1 => !before,
            2 if place == one => before ^ 1 << random.below(16),
            2 => before,
            _ => accession(random),
        };
        record[776..].copy_from_slice(&number.to_le_bytes());
    }
    shelf
}

// ---- fetched records ----

/// "The promise about fetched records covers shelves of the new size whose records differ
/// from made ones only in that number": no serving is refused, and the length, a and b are
/// those of the report and of the record made.
pub fn fetched(group: &mut Group) {
    let mut random = Random::new(44);
    for round in 0..700 {
        let longest = if round % 20 == 0 { 128 } else { 24 };
        let sequences: Vec<(u64, Vec<u64>)> =
            (0..random.between(2, 5)).map(|_| sample(&mut random, longest)).collect();
        let mut shelf = Vec::new();
        let mut entries = Vec::new();
        for _ in 0..random.below(9) {
            let which = random.place(sequences.len());
            let number = accession(&mut random).to_le_bytes();
            let mut record = made(group, &sequences[which]);
            record[776..].copy_from_slice(&number);
            shelf.extend(record);
            entries.push((&sequences[which], number));
        }
        let who = visitor(&mut random);
        for sequence in &sequences {
            check_fetched(group, sequence, &shelf, &entries, who);
        }
    }
}

/// The record that a making writes, whatever was lent.
fn made(group: &mut Group, (m, terms): &(u64, Vec<u64>)) -> Vec<u8> {
    let mut record = vec![0x77; 778];
    let reply = synthesize(&slip_of(*m, terms), &mut record);
    group.check(reply == Ok(()) && record[776..] == [0, 0], || format!("made: {reply:?}"));
    record
}

/// Serves a sequence from the shelf with these entries, to an editor and to a visitor.
fn check_fetched(
    group: &mut Group,
    sequence: &(u64, Vec<u64>),
    shelf: &[u8],
    entries: &[(&(u64, Vec<u64>), [u8; 2])],
    visitor: u64,
) {
    let (m, terms) = sequence;
    let (mut a, mut b) = ([7; 258], [7; 256]);
    let l = register(&reading_of(*m, terms), &mut a, &mut b).map_or(65_535, |(l, _)| l as u16);
    let slip = slip_of(*m, terms);
    let report = [&slip[..], &l.to_le_bytes(), &a, &b].concat();
    let record = made(group, sequence);
    group.check(record[..776] == report, || format!("modulo {m}: {terms:?}"));
    let place = entries.iter().position(|(entry, _)| *entry == sequence);
    let (reply, number) = match place {
        None => (Served::Made, [0, 0]),
        Some(place) => (Served::Found(place), entries[place].1),
    };
    for (who, number) in [(1, number), (visitor, [0, 0])] {
        let mut record = vec![0x77; 778];
        let found = look_up(&slip, shelf, who, &mut record);
        let right = found == Ok(reply) && record == [&report[..], &number].concat();
        group.check(right, || format!("{found:?} for {reply:?}, {who}, modulo {m}: {terms:?}"));
    }
}
