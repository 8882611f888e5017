//! The self-test's checks of bundles (02, A12): each slip against its own serving and against its
//! bytes, the shelf cut after every record, two shelves that differ in the numbers alone, bundles
//! put together and parted, fetched records. Sizes and places are numbers here, as the papers have
//! them.

use crate::bundlecases::{served, Bundle, Outcome};
use crate::bundles::{any_bundle, asking};
use crate::calls::*;
use crate::cases::{told, Told};
use crate::catalogues::accession;
use crate::checks::Group;
use crate::coverage::{count, often, Tally};
use crate::donorchecks::{self, renumbered, visitor, Serving};
use crate::random::Random;
use crate::script::{reading_from, Call};
use crate::selftest::sample;

/// The reply of a slip as one number: a refusal, and 256 times its place; 256 times one more than
/// the place of the record found; 0 for a record made.
fn coded(reply: &Result<Served, Told>) -> u64 {
    match *reply {
        Ok(Served::Made) => 0,
        Ok(Served::Found(place)) => 256 * (place as u64 + 1),
        Err((number, Some(place))) => u64::from(number) + 256 * place as u64,
        Err((number, None)) => u64::from(number),
    }
}

/// The refusal of the whole call, by the lengths alone.
fn whole(bundle: &Bundle) -> Option<u32> {
    let count = bundle.slips.len() / 260;
    let right = [count * 260, count * 778, count];
    if [bundle.slips.len(), bundle.records.len(), bundle.replies.len()] != right {
        Some(5)
    } else if count > 16 {
        Some(34)
    } else if bundle.shelf.len() % 778 > 0 {
        Some(23)
    } else {
        None
    }
}

/// What a bundle comes to if each slip gets what `alone` gives for its serving, and zeros where
/// that is refused.
fn expected(bundle: &Bundle, alone: impl Fn(&Serving) -> donorchecks::Outcome) -> Outcome {
    if let Some(number) = whole(bundle) {
        return bundle.refused(number);
    }
    let mut parts = Vec::new();
    for slip in bundle.slips.chunks(260) {
        let (shelf, lent) = (bundle.shelf.clone(), vec![0x5a; 778]);
        let (reply, record) = alone(&Serving { slip: slip.to_vec(), shelf, lent });
        parts.push((coded(&reply), if reply.is_ok() { record } else { vec![0; 778] }));
    }
    let parts: Vec<(u64, &[u8])> = parts.iter().map(|(reply, part)| (*reply, &part[..])).collect();
    served(&parts)
}

/// A bundle that is not refused as a whole.
fn good_bundle(random: &mut Random) -> Bundle {
    loop {
        let bundle = Bundle::of(&any_bundle(random));
        if whole(&bundle).is_none() {
            return bundle;
        }
    }
}

// ---- each slip alone ----

/// "Every reply, refusal and found place is what that slip alone would get from the same shelf,
/// for an editor or a visitor": against single servings, and against what the bytes tell.
pub fn singly(group: &mut Group) {
    let mut random = Random::new(81);
    let mut tally = Tally::new();
    for _ in 0..1000 {
        let call = any_bundle(&mut random);
        let bundle = Bundle::of(&call);
        for who in [1, u64::from(call.number), visitor(&mut random)] {
            let found = bundle.to(who);
            let alone = expected(&bundle, |serving| serving.to(who));
            let words = || format!("{:?} for {:?}, {who}", found.counts, alone.counts);
            group.check(found == alone, words);
            check_counts(group, &bundle, &found);
            if who == 1 {
                let by_bytes = expected(&bundle, |serving| donorchecks::expected(serving, who));
                group.check(found == by_bytes, words);
            }
        }
        note(&mut tally, &bundle);
    }
    for kind in ["5", "34", "23", "0", "1", "2 to 15", "16"] {
        let times = tally.get(kind).copied().unwrap_or(0);
        often(group, times / 3, || format!("random bundles: {kind}"));
    }
}

fn note(tally: &mut Tally<&'static str>, bundle: &Bundle) {
    let kind = match (whole(bundle), bundle.replies.len()) {
        (Some(5), _) => "5",
        (Some(34), _) => "34",
        (Some(_), _) => "23",
        (None, 0) => "0",
        (None, 1) => "1",
        (None, 16) => "16",
        _ => "2 to 15",
    };
    count(tally, kind);
}

/// Each slip is "counted once (with 24 as refused)": the numbers tell the replies, and the zeros
/// stand where a slip is refused and nowhere else, since a record begins with its slip.
fn check_counts(group: &mut Group, bundle: &Bundle, found: &Outcome) {
    let Ok(Counts { found: matches, made, refused }) = found.counts else { return };
    let words = || format!("{:?}: {:?}", found.counts, found.replies);
    group.check(matches + made + refused == bundle.slips.len() / 260, words);
    let parts = found.records.chunks(778).zip(bundle.slips.chunks(260));
    let zeros = parts.clone().filter(|(part, _)| part.iter().all(|&byte| byte == 0)).count();
    group.check(zeros == refused, words);
    let begins = parts.filter(|(part, slip)| part.starts_with(slip)).count();
    // A slip of zeros is refused, and its part begins with zeros.
    let empty = bundle.slips.chunks(260).filter(|slip| slip.iter().all(|&byte| byte == 0)).count();
    group.check(begins == matches + made + empty, words);
}

// ---- the shelf cut after every record ----

/// "After its first j records, for every j, it holds for each slip that passes its own checks the
/// first match among them, or none": bundles served from the first j records. What a slip gets
/// there is what it gets from one record less, unless that has no match and the last one is.
pub fn cut(group: &mut Group) {
    let mut random = Random::new(82);
    let mut tally = Tally::new();
    for _ in 0..130 {
        let bundle = good_bundle(&mut random);
        let records = bundle.shelf.len() / 778;
        if records > 24 {
            continue;
        }
        let who = if random.once_in(2) { 1 } else { visitor(&mut random) };
        let mut before: Option<Outcome> = None;
        for j in 0..=records {
            let lent = Bundle { shelf: bundle.shelf[..778 * j].to_vec(), ..bundle.clone() };
            let found = lent.to(who);
            let alone = expected(&lent, |serving| serving.to(who));
            group.check(found == alone, || format!("the first {j} records: {:?}", found.counts));
            check_held(group, &lent, &found, before.as_ref(), &mut tally);
            before = Some(found);
        }
        let full = before == Some(bundle.to(who));
        group.check(full, || format!("all of {records} records"));
    }
    for kind in ["none", "the last record", "an earlier one", "bad, the last one", "bad, earlier"] {
        let times = tally.get(kind).copied().unwrap_or(0);
        often(group, times / 10, || format!("after j records: {kind}"));
    }
}

/// The replies after j records tell what is held: the first match among them.
fn check_held(
    group: &mut Group,
    lent: &Bundle,
    found: &Outcome,
    before: Option<&Outcome>,
    tally: &mut Tally<&'static str>,
) {
    let last = lent.shelf.chunks(778).count();
    for (i, slip) in lent.slips.chunks(260).enumerate() {
        let reply = found.replies[i];
        let mut records = lent.shelf.chunks(778);
        let first = records.position(|record| record.starts_with(slip));
        let passes = check_slip(slip).is_ok();
        let (bad, words) = (reply == 24, || format!("{first:?} of {last}: {reply}"));
        let right = match first {
            _ if !passes => [1, 2, 3, 4].contains(&(reply % 256)),
            None => reply == 0,
            Some(place) => bad || reply == 256 * (place as u64 + 1),
        };
        group.check(right, words);
        if passes {
            let ends = first.is_some_and(|place| place + 1 == last);
            let kind = match (first, bad) {
                (None, _) => "none",
                (Some(_), false) if ends => "the last record",
                (Some(_), false) => "an earlier one",
                (Some(_), true) if ends => "bad, the last one",
                (Some(_), true) => "bad, earlier",
            };
            count(tally, kind);
            let Some(before) = before else { continue };
            let part = |outcome: &Outcome| outcome.records[778 * i..778 * (i + 1)].to_vec();
            let same = before.replies[i] == reply && part(before) == part(found);
            group.check(same || (ends && before.replies[i] == 0), words);
        }
    }
}

// ---- hidden from visitors ----

/// 02, A7, for bundles: two shelves that differ only in accession numbers give every visitor the
/// same numbers, replies and bytes. An editor gets the same but for the last two bytes of parts.
pub fn hidden(group: &mut Group) {
    let mut random = Random::new(83);
    let mut told_apart = 0;
    for _ in 0..700 {
        let one = Bundle::of(&any_bundle(&mut random));
        let other = Bundle { shelf: renumbered(&mut random, &one.shelf), ..one.clone() };
        let seen = one.to(visitor(&mut random));
        let words = || format!("{:?}, a shelf of {} bytes", seen.counts, one.shelf.len());
        let who = visitor(&mut random);
        group.check(one.to(who) == seen && other.to(who) == seen, words);
        let (first, second) = (one.to(1), other.to(1));
        for editor in [&first, &second] {
            let same = editor.counts == seen.counts && editor.replies == seen.replies;
            group.check(same, words);
            let differing =
                (0..seen.records.len()).filter(|&i| editor.records[i] != seen.records[i]);
            group.check(differing.clone().all(|i| i % 778 >= 776), words);
        }
        for (i, reply) in seen.replies.iter().enumerate() {
            let Ok(_) = seen.counts else { break };
            let hides = seen.records[778 * i + 776..778 * (i + 1)] == [0, 0];
            group.check(hides, words);
            // An editor is served the record as it stands on either shelf.
            if *reply > 0 && *reply % 256 == 0 {
                let there = 778 * (*reply as usize / 256 - 1);
                for (lent, editor) in [(&one, &first), (&other, &second)] {
                    let stands = lent.shelf.get(there..there + 778);
                    group.check(stands == editor.records.get(778 * i..778 * (i + 1)), words);
                }
            }
        }
        told_apart += usize::from(first.records != second.records);
    }
    often(group, told_apart / 50, || String::from("shelves that an editor can tell apart"));
}

// ---- bundles put together and parted ----

/// The outcome of the parts with these numbers of another, in this order.
fn picked(outcome: &Outcome, order: &[usize]) -> Outcome {
    let part = |&i: &usize| (outcome.replies[i], &outcome.records[778 * i..778 * (i + 1)]);
    served(&order.iter().map(part).collect::<Vec<_>>())
}

fn picked_slips(slips: &[u8], order: &[usize]) -> Vec<u8> {
    order.iter().flat_map(|&i| &slips[260 * i..260 * (i + 1)]).copied().collect()
}

/// No slip has to do with another: in every order, with some left out, with some again, and
/// without the refused ones each gets the same; so do two bundles put together. What was lent has
/// no part in it either.
pub fn related(group: &mut Group) {
    let mut random = Random::new(84);
    for _ in 0..700 {
        let bundle = good_bundle(&mut random);
        let slips = bundle.slips.len() / 260;
        let who = if random.once_in(2) { 1 } else { visitor(&mut random) };
        let found = bundle.to(who);
        let turned = {
            let start = random.place(slips);
            (0..slips).map(|i| (i + start) % slips).collect::<Vec<_>>()
        };
        let backwards: Vec<usize> = (0..slips).rev().collect();
        let some: Vec<usize> = (0..slips).filter(|_| random.once_in(2)).collect();
        let again: Vec<usize> = match slips {
            0 => Vec::new(),
            _ => (0..random.place(17)).map(|_| random.place(slips)).collect(),
        };
        let passing = (0..slips).filter(|&i| found.replies[i] % 256 == 0).collect();
        for order in [turned, backwards, some, again, passing] {
            let other = picked_slips(&bundle.slips, &order);
            let reply = Bundle::right(&other, &bundle.shelf, random.byte()).to(who);
            let words = || format!("{order:?} of {:?}: {:?}", found.replies, reply.replies);
            group.check(reply == picked(&found, &order), words);
        }
        put_together(group, &mut random, &bundle, who);
    }
}

/// Two parts of a bundle by themselves, from the same shelf: their numbers add up, and their
/// replies and bytes come one after the other.
fn put_together(group: &mut Group, random: &mut Random, bundle: &Bundle, who: u64) {
    let found = bundle.to(who);
    let (first, second) = bundle.slips.split_at(260 * random.place(bundle.slips.len() / 260 + 1));
    let [one, other] =
        [first, second].map(|slips| Bundle::right(slips, &bundle.shelf, 0x11).to(who));
    let words = || format!("{:?} from {:?}, {:?}", found.counts, one.counts, other.counts);
    group.check(found.records == [&one.records[..], &other.records].concat(), words);
    group.check(found.replies == [&one.replies[..], &other.replies].concat(), words);
    let sum = |(x, y): (Counts, Counts)| Counts {
        found: x.found + y.found,
        made: x.made + y.made,
        refused: x.refused + y.refused,
    };
    let both = one.counts.and_then(|x| other.counts.map(|y| sum((x, y))));
    group.check(found.counts == both, words);
}

// ---- fetched records ----

/// From a shelf whose records differ from made ones only in the accession number no legal slip is
/// refused, and length, a and b are those of the report: for a whole bundle at once.
pub fn fetched(group: &mut Group) {
    let mut random = Random::new(85);
    for round in 0..250 {
        let longest = if round % 25 == 0 { 128 } else { 16 };
        let known: Vec<(u64, Vec<u64>)> =
            (0..random.between(1, 6)).map(|_| sample(&mut random, longest)).collect();
        let reports: Vec<Vec<u8>> = known.iter().map(|(m, terms)| report(*m, terms)).collect();
        let mut entries = Vec::new();
        for _ in 0..random.below(9) {
            entries.push((random.place(known.len()), accession(&mut random).to_le_bytes()));
        }
        let shelf: Vec<u8> =
            entries.iter().flat_map(|(i, number)| [&reports[*i][..], number].concat()).collect();
        let asked: Vec<usize> = (0..random.below(17)).map(|_| random.place(known.len())).collect();
        let slips: Vec<u8> = asked.iter().flat_map(|&i| reports[i][..260].to_vec()).collect();
        for who in [1, visitor(&mut random)] {
            let mut parts = Vec::new();
            for &i in &asked {
                let place = entries.iter().position(|entry| entry.0 == i);
                let number = place.filter(|_| who == 1).map_or([0, 0], |place| entries[place].1);
                let reply = place.map_or(0, |place| 256 * (place as u64 + 1));
                parts.push((reply, [&reports[i][..], &number].concat()));
            }
            let parts: Vec<(u64, &[u8])> = parts.iter().map(|(r, part)| (*r, &part[..])).collect();
            let found = Bundle::of(&asking_for(&slips, &shelf)).to(who);
            let right = found == served(&parts) && found.counts.is_ok_and(|told| told.refused == 0);
            group.check(right, || format!("{:?} of {asked:?}, {who}", found.replies));
        }
    }
}

/// With other bytes lent than a record has.
fn asking_for(slips: &[u8], shelf: &[u8]) -> Call {
    Call { fill: 0x77, ..asking(0, slips, shelf) }
}

/// A slip, then the length, a and b that a reading of its terms reports.
fn report(m: u64, terms: &[u64]) -> Vec<u8> {
    let slip = slip_of(m, terms);
    let (mut a, mut b) = ([7; 258], [7; 256]);
    let reply = told(register(&reading_from(&slip), &mut a, &mut b));
    let l = reply.map_or(65_535, |(l, _)| l as u16);
    [&slip[..], &l.to_le_bytes(), &a, &b].concat()
}
