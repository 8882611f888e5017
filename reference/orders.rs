//! The orders of the refusals, call by call, each kind of fault by hand, and the places.

use crate::calls::*;
use crate::cases::{bare, bytes_of, reading_of, term_at, told, Told, LENT};
use crate::checks::Group;
use crate::join;
use crate::limits::*;
use crate::listing::{listing, HEADER};
use crate::merges::{faulty, FAULTS};
use crate::only::Only::*;
use crate::refusals::Refusal;
use crate::script::{hash, reading_bytes, replay, Call, Operation};
use crate::sequences::set_cell;
use crate::steps::StepRecord;

/// The refusals that have to do with a slip, in their order; `faulty_slip` has the terms.
const OF_SLIP: [Told; 4] = [bare(1), bare(2), term_at(2), bare(4)];

/// 02, A2: "25 .. right before 6; 26 .. right after 6".
const OF_CLAIM: [Told; 3] = [bare(25), bare(6), bare(26)];

/// Each call gives the first of its refusals that applies: every set of its faults.
pub fn orders(group: &mut Group) {
    orders_of_testing(group);
    orders_of_running(group);
    orders_of_making(group);
    orders_of_serving(group);
    orders_of_taking(group);
    orders_of_reports(group);
    orders_of_listing(group);
    orders_of_lines(group);
    orders_of_columns(group);
    orders_of_merges(group);
    orders_of_periods(group);
    orders_of_numbers(group);
    orders_of_tallies(group);
    orders_of_bundles(group);
}

/// Each kind of fault for itself, with its number and place.
pub fn kinds(group: &mut Group) {
    numbers_and_words(group);
    wrong_slips(group);
    places_of_slips(group);
    places_of_takings(group);
    bad_readings(group);
    short_sheets(group);
    bad_claims(group);
    bad_starts(group);
    edges_of_running(group);
    bad_shelves(group);
}

// ---- every set of faults ----

/// Tells whether the fault with this number is to be put in.
type With<'a> = &'a dyn Fn(u32) -> bool;

/// Makes a call with every set of the faults in its order, none and all among them: the
/// first of the set is given, and a call without faults is not refused.
fn every_set<T>(
    group: &mut Group,
    call: &str,
    order: &[Told],
    reply: impl Fn(With) -> Result<T, Refusal>,
) {
    for set in 0..1u32 << order.len() {
        let with = |number| in_set(order, set, number);
        let expected = order.iter().find(|fault| with(fault.0));
        let refused = told(reply(&with)).err();
        group.check(refused.as_ref() == expected, || {
            format!("{call} with set {set:b} of {order:?}: {refused:?}")
        });
    }
}

/// Whether the fault with this number is in the set; bit i stands for place i of the
/// order.
fn in_set(order: &[Told], set: u32, number: u32) -> bool {
    order.iter().enumerate().any(|(i, fault)| fault.0 == number && set >> i & 1 == 1)
}

/// 6,3,1,5,6 modulo 9 with faults; out of range are places 2 and 4, so that neither the
/// last one nor the count is the place.
fn faulty_slip(with: With) -> Vec<u8> {
    let mut slip = slip_of(9, &[6, 3, 1, 5, 6]);
    let faults = [(1, 0, 4096), (2, 1, 129), (3, 4, 9), (3, 6, 65535), (4, 129, 9)];
    for (number, cell, value) in faults {
        if with(number) {
            set_cell(&mut slip, cell, value);
        }
    }
    slip
}

/// The register of those terms with faults.
fn faulty_claim(with: With) -> (Vec<u8>, Vec<u8>, u32) {
    let (mut a, mut b) = (bytes_of(&[1, 4, 7, 1], A_CELLS), bytes_of(&[6, 0, 1], B_CELLS));
    if with(6) {
        set_cell(&mut b, 1, 9);
    }
    if with(26) {
        set_cell(&mut a, 0, 0);
    }
    (a, b, if with(25) { 129 } else { 3 })
}

/// One byte less for the buffer that is to be short.
fn shortened(size: usize, short: bool) -> usize {
    size - usize::from(short)
}

fn orders_of_testing(group: &mut Group) {
    let order = [&[bare(5)][..], &OF_SLIP, &OF_CLAIM].concat();
    for short in 0..3 {
        every_set(group, "testing", &order, |with| {
            let (slip, (a, b, l)) = (faulty_slip(with), faulty_claim(with));
            let less = |buffer: usize| usize::from(with(5) && buffer == short);
            verify(&slip[less(0)..], &a[less(1)..], &b[less(2)..], l)
        });
    }
}

fn orders_of_running(group: &mut Group) {
    let order = [&[bare(5), bare(1), bare(2)][..], &OF_CLAIM].concat();
    for short in 0..3 {
        every_set(group, "running", &order, |with| {
            let (a, b, l) = faulty_claim(with);
            let less = |buffer: usize| usize::from(with(5) && buffer == short);
            let (m, size) = (if with(1) { 4096 } else { 9 }, if with(2) { 258 } else { 10 });
            let mut cells = vec![7; size - less(2)];
            let outcome = generate(m, &a[less(0)..], &b[less(1)..], l, &mut cells);
            kept(outcome, cells.iter().all(|&byte| byte == 7))
        });
    }
}

/// The outcome of a call. A refused one that wrote to what was lent is no outcome that
/// any order has.
fn kept<T>(outcome: Result<T, Refusal>, as_lent: bool) -> Result<T, Refusal> {
    if outcome.is_err() && !as_lent {
        return Err(Refusal::Term(usize::MAX));
    }
    outcome
}

fn orders_of_making(group: &mut Group) {
    let order = [&[bare(5)][..], &OF_SLIP].concat();
    for short in 0..2 {
        every_set(group, "making", &order, |with| {
            let less = |buffer: usize| usize::from(with(5) && buffer == short);
            let mut record = vec![7; RECORD_BYTES - less(1)];
            let outcome = synthesize(&faulty_slip(with)[less(0)..], &mut record);
            kept(outcome, record.iter().all(|&byte| byte == 7))
        });
    }
}

/// The record found has each kind of bad claim in turn, and at last one whose test says
/// no. It is on the shelf also where the slip itself is refused. Editors and visitors meet
/// the same, whatever the accession number is.
fn orders_of_serving(group: &mut Group) {
    let order = [&[bare(5)][..], &OF_SLIP, &[bare(23), bare(24)]].concat();
    let wide = (1 << 32) + 1;
    let asked = [(1, [0, 0]), (1, [9, 1]), (0, [9, 1]), (2, [1, 0]), (257, [0, 1]), (wide, [1, 0])];
    for (short, kind) in (0..2).flat_map(|short| [25, 6, 26, 0].map(|kind| (short, kind))) {
        for (who, number) in asked {
            every_set(group, "serving", &order, |with| {
                let slip = faulty_slip(with);
                let (mut a, b, l) = faulty_claim(&|number| with(24) && number == kind);
                if with(24) && kind == 0 {
                    set_cell(&mut a, 3, 2);
                }
                let mut shelf = [&slip[..], &(l as u16).to_le_bytes(), &a, &b, &number].concat();
                shelf.truncate(shortened(RECORD_BYTES, with(23)));
                let less = |buffer: usize| usize::from(with(5) && buffer == short);
                let mut record = vec![7; RECORD_BYTES - less(1)];
                let outcome = look_up(&slip[less(0)..], &shelf, who, &mut record);
                kept(outcome, record.iter().all(|&byte| byte == 7))
            });
        }
    }
}

fn orders_of_taking(group: &mut Group) {
    every_set(group, "taking", &[bare(21), bare(22), term_at(2)], |with| {
        let count = if with(22) { TERMS_LIMIT } else { 2 };
        let mut reading = reading_of(9, &[8; TERMS_LIMIT][..count]);
        if with(21) {
            reading.modulus = 8;
        }
        let before = reading.clone();
        let outcome = push(&mut reading, if with(3) { 9 } else { 0 });
        kept(outcome, reading == before)
    });
    every_set(group, "opening", &[bare(1)], |with| open(if with(1) { 4096 } else { 4095 }).1);
}

fn orders_of_reports(group: &mut Group) {
    let order = [bare(5), bare(21)];
    let reading = |with: With| {
        let modulus = if with(21) { 6 } else { 9 };
        Reading { modulus, ..reading_of(9, &[6]) }
    };
    for short in 0..2 {
        every_set(group, "report", &order, |with| {
            let mut a = vec![7; shortened(A_BYTES, with(5) && short == 0)];
            let mut b = vec![7; shortened(B_BYTES, with(5) && short == 1)];
            let outcome = register(&reading(with), &mut a, &mut b);
            kept(outcome, a.iter().chain(&b).all(|&byte| byte == 7))
        });
    }
    every_set(group, "profile", &order, |with| {
        let mut cells = vec![7; shortened(PROFILE_BYTES, with(5))];
        let outcome = profile(&reading(with), &mut cells);
        kept(outcome, cells.iter().all(|&byte| byte == 7))
    });
}

/// Also in text: 5 for a last piece that is cut short, then the slip's own.
fn orders_of_listing(group: &mut Group) {
    let order = [&[bare(5)][..], &OF_SLIP].concat();
    let words = ["refused 5", "refused 1", "refused 2", "refused 3 at 2", "refused 4"];
    for set in 1..1u32 << order.len() {
        let with = |number| in_set(&order, set, number);
        let slip = faulty_slip(&with);
        let text = listing(&slip[..shortened(SLIP_BYTES, with(5))]);
        let first = words[set.trailing_zeros() as usize];
        group.check(text == format!("{HEADER}\n{first}\n"), || format!("listing {set:b}: {text}"));
    }
}

/// 02, A3: "The reading runs left to right and both come after 5 and before 1": 27 before a
/// later 28 and after an earlier one.
fn orders_of_lines(group: &mut Group) {
    for breaks_first in [true, false] {
        let by_place = if breaks_first {
            [(27, Some(271)), (28, Some(282))]
        } else {
            [(28, Some(278)), (27, Some(282))]
        };
        let order = [&[bare(5)][..], &by_place, &[bare(1), bare(2)]].concat();
        every_set(group, "reading a line", &order, |with| {
            let line = faulty_line(with, breaks_first);
            let mut slip = vec![7; shortened(SLIP_BYTES, with(5))];
            let outcome = read_line(line.as_bytes(), &mut slip);
            kept(outcome, slip.iter().all(|&byte| byte == 7))
        });
    }
}

/// A line with 130 terms or with blanks in their place, then a blank inside a term and a
/// term out of range, or the other way round. No fault moves another.
fn faulty_line(with: With, breaks_first: bool) -> String {
    let modulus = if with(1) { "4096" } else { "0009" };
    let terms = if with(2) { "1,".repeat(130) } else { " ".repeat(260) };
    let broken = if with(27) { "1 1" } else { "1,1" };
    let passing = if with(28) { "2147483648" } else { "2147483647" };
    let (first, second) = if breaks_first { (broken, passing) } else { (passing, broken) };
    format!("mod {modulus}:{terms}{first},{second}")
}

/// 5, 21, 22, 3 for the first term of a column, and for the second, where the first one
/// stays taken if neither 5 nor 21 applies.
fn orders_of_columns(group: &mut Group) {
    for taken in [0, 1] {
        let order = [bare(5), bare(21), bare(22), term_at(2 + taken)];
        every_set(group, "a column", &order, |with| {
            let count = if with(22) { TERMS_LIMIT - taken } else { 2 };
            let mut reading = reading_of(9, &[8; TERMS_LIMIT][..count]);
            if with(21) {
                reading.modulus = 8;
            }
            let mut list = bytes_of(&[8, 8, 8], 3);
            if with(3) {
                set_cell(&mut list, taken, 9);
            }
            let mut after = reading.clone();
            if !with(5) && !with(21) {
                after = reading_of(9, &[8; TERMS_LIMIT][..count + taken]);
            }
            let (found, outcome) = push_all(&mut reading, &list[usize::from(with(5))..]);
            let right = found == usize::from(after.count) - count && reading == after;
            kept(outcome, right)
        });
    }
}

/// 02, A9: 29, 30 and 31 "follow 5 for all the buffers and then each slip's own checks, first
/// slip first, in this order". So a 4 of the first comes before a 1 of the second.
fn orders_of_merges(group: &mut Group) {
    let of_second = [bare(1), bare(2), term_at(3), bare(4)];
    let of_both = [bare(29), bare(30), (31, Some(1))];
    let order = [&OF_SLIP[..], &of_second, &of_both].concat();
    group.check(order.len() == FAULTS, || format!("{order:?}"));
    for set in 0..1u32 << FAULTS {
        let [first, second] = faulty(set);
        let first_fault = order.get(set.trailing_zeros() as usize).copied();
        for short in 0..4 {
            let less = |buffer: usize| usize::from(buffer == short);
            let mut slip = vec![7; SLIP_BYTES - less(2)];
            let outcome = merge(&first[less(0)..], &second[less(1)..], &mut slip);
            let refused = told(kept(outcome, slip.iter().all(|&byte| byte == 7))).err();
            // The last time no buffer is short.
            let expected = if short < 3 { Some(bare(5)) } else { first_fault };
            group.check(refused == expected, || format!("merging {set:b}: {refused:?}"));
        }
    }
}

/// 02, A10: "an odd number of bytes gets 5", and 32 "comes before 3", which is at the middle of
/// each of the seven periods and at the last place.
fn orders_of_periods(group: &mut Group) {
    for size in [1, 2, 4, 8, 16, 32, 64] {
        let order = [bare(5), bare(32), term_at(size / 2)];
        for (other, less) in [3 * size, 63, 65, 128].into_iter().flat_map(|n| [(n, 0), (n, 2)]) {
            every_set(group, "a period", &order, |with| {
                let count = if with(32) { other } else { size };
                let mut period = bytes_of(&[1, 0, 0, 1], count);
                if with(3) {
                    set_cell(&mut period, count - 1, 65535);
                    set_cell(&mut period, count / 2, 2);
                }
                if with(5) {
                    // One byte more, or one less.
                    period.push(1);
                    period.truncate(period.len() - less);
                }
                period_length(&period)
            });
        }
    }
}

/// 02, A11: "A buffer of another length gets 5", and 33 "follows 1 and 2".
const OF_CENSUS: [Told; 4] = [bare(5), bare(1), bare(2), bare(33)];

/// Moduli, counts and changes of a buffer's size that are wrong.
fn wrong_for_census() -> Vec<(u32, u32, [usize; 2])> {
    let mut all = Vec::new();
    for m in [0, 1, 4096, 65538, u32::MAX] {
        for n in [129, 256, 65539, u32::MAX] {
            all.extend([[1, 0], [0, 1], [13, 0]].map(|change| (m, n, change)));
        }
    }
    all
}

/// 33 is for the power, for the next number, or for one that is below it in 32 bits.
fn orders_of_numbers(group: &mut Group) {
    for (wrong, count, [less, more]) in wrong_for_census() {
        for (power, number) in [(13, 7), (128, u64::MAX), (3, 8), (3, 1 << 32), (3, u64::MAX)] {
            every_set(group, "a number", &OF_CENSUS, |with| {
                let m = if with(1) { wrong } else { 2 };
                let n = if with(33) { power } else { 3 };
                let n = if with(2) { count } else { n };
                let asked = if with(33) { number } else { 7 };
                let size = if with(5) { SLIP_BYTES + more - less } else { SLIP_BYTES };
                let mut slip = vec![7; size];
                let outcome = enumerate(m, n, asked, &mut slip);
                kept(outcome, slip.iter().all(|&byte| byte == 7))
            });
        }
    }
}

/// 33 is for the power alone.
fn orders_of_tallies(group: &mut Group) {
    for (wrong, count, [less, more]) in wrong_for_census() {
        for (modulus, power) in [(2, 13), (65, 2), (4095, 128)] {
            every_set(group, "a tally", &OF_CENSUS, |with| {
                let (m, n) = if with(33) { (modulus, power) } else { (2, 3) };
                let m = if with(1) { wrong } else { m };
                let n = if with(2) { count } else { n };
                let size = if with(5) { 26 + more - less } else { 26 };
                let mut cells = vec![7; size];
                let outcome = tally(m, n, &mut cells);
                kept(outcome, cells.iter().all(|&byte| byte == 7))
            });
        }
    }
}

/// 02, A12: 34 comes "after 5, before 23, and it concerns the whole call, as those two do". Then a
/// slip has its own, 1 to 4 and 24, in its reply: the first, the ninth and the last of 16.
fn orders_of_bundles(group: &mut Group) {
    let order = [&[bare(5), bare(34), bare(23)][..], &OF_SLIP, &[bare(24)]].concat();
    for (buffer, place) in (0..6).flat_map(|buffer| [0, 8, 15].map(|place| (buffer, place))) {
        every_set(group, "a bundle", &order, |with| in_bundle(with, buffer, place));
    }
}

/// What the faulty slip at this place gets in a bundle of 16, or of 17, or the whole call. One of
/// the three buffers is too short or too long, and the record found has a coefficient that is 9.
fn in_bundle(with: With, buffer: usize, place: usize) -> Result<(), Refusal> {
    let count = if with(34) { 17 } else { 16 };
    let (slip, good) = (faulty_slip(with), slip_of(2, &[]));
    let mut slips = [good.repeat(place), slip.clone(), good.repeat(count - 1 - place)].concat();
    let (a, b, l) = faulty_claim(&|number| with(24) && number == 6);
    let record = [&slip[..], &(l as u16).to_le_bytes(), &a, &b, &[7, 7]].concat();
    let shelf = record[..shortened(RECORD_BYTES, with(23))].to_vec();
    let (mut records, mut replies) = (vec![7; count * RECORD_BYTES], vec![7; count]);
    match (with(5), buffer) {
        (false, _) => {}
        (true, 0) => drop(slips.pop()),
        (true, 1) => slips.push(0),
        (true, 2) => drop(records.pop()),
        (true, 3) => records.push(7),
        (true, 4) => drop(replies.pop()),
        (true, _) => replies.push(7),
    }
    let outcome = look_up_batch(&slips, &shelf, 1, &mut records, &mut replies);
    let as_lent = records.iter().all(|&byte| byte == 7) && replies.iter().all(|&one| one == 7);
    kept(outcome, as_lent)?;
    let others = replies.iter().enumerate().all(|(i, &reply)| i == place || reply == 0);
    let reply = told_by(replies[place]);
    let part = &records[RECORD_BYTES * place..][..RECORD_BYTES];
    let zeros = part.iter().all(|&byte| byte == 0);
    kept(if others { reply } else { Err(Refusal::Bundle) }, zeros)
}

/// The refusal that a reply of a bundle tells; one that no slip has is no outcome of any order.
fn told_by(reply: u64) -> Result<(), Refusal> {
    match (reply % 256, reply as usize / 256) {
        (0, _) => Ok(()),
        (1, 0) => Err(Refusal::Modulus),
        (2, 0) => Err(Refusal::TooMany),
        (3, place) => Err(Refusal::Term(place)),
        (4, 0) => Err(Refusal::Padding),
        (24, 0) => Err(Refusal::Record),
        _ => Err(Refusal::Bundle),
    }
}

// ---- each kind of fault ----

/// Each refusal has its number in the papers, 3, 27, 28 and 31 alone have a place, and the
/// words tell both.
fn numbers_and_words(group: &mut Group) {
    let all = [
        (Refusal::Modulus, bare(1), "refused 1"),
        (Refusal::TooMany, bare(2), "refused 2"),
        (Refusal::Term(0), term_at(0), "refused 3 at 0"),
        (Refusal::Term(7), term_at(7), "refused 3 at 7"),
        (Refusal::Term(127), term_at(127), "refused 3 at 127"),
        (Refusal::Padding, bare(4), "refused 4"),
        (Refusal::Buffer, bare(5), "refused 5"),
        (Refusal::Claim, bare(6), "refused 6"),
        (Refusal::Reading, bare(21), "refused 21"),
        (Refusal::Full, bare(22), "refused 22"),
        (Refusal::Shelf, bare(23), "refused 23"),
        (Refusal::Record, bare(24), "refused 24"),
        (Refusal::ClaimLength, bare(25), "refused 25"),
        (Refusal::ClaimStart, bare(26), "refused 26"),
        (Refusal::LineForm(0), (27, Some(0)), "refused 27 at 0"),
        (Refusal::LineForm(65535), (27, Some(65535)), "refused 27 at 65535"),
        (Refusal::LineRange(15), (28, Some(15)), "refused 28 at 15"),
        (Refusal::Counts, bare(29), "refused 29"),
        (Refusal::Multiple, bare(30), "refused 30"),
        (Refusal::Disagreement(0), (31, Some(0)), "refused 31 at 0"),
        (Refusal::Disagreement(127), (31, Some(127)), "refused 31 at 127"),
        (Refusal::Period, bare(32), "refused 32"),
        (Refusal::Census, bare(33), "refused 33"),
        (Refusal::Bundle, bare(34), "refused 34"),
    ];
    for (refusal, expected, words) in all {
        group.check(told::<()>(Err(refusal)) == Err(expected), || format!("{refusal:?}"));
        group.check(refusal.to_string() == words, || format!("{refusal:?}: {refusal}"));
    }
}

/// 6,3 modulo 9 with some cells of the slip changed.
fn wrong_slips(group: &mut Group) {
    let faulty: [(&[(usize, u16)], Told); 16] = [
        (&[(0, 4096), (1, 129), (2, 65535)], bare(1)),
        (&[(0, 0), (129, 1)], bare(1)),
        (&[(0, 1)], bare(1)),
        (&[(1, 129), (2, 9), (129, 1)], bare(2)),
        (&[(1, 65535)], bare(2)),
        (&[(2, 9), (129, 1)], term_at(0)),
        (&[(2, 9), (3, 9)], term_at(0)),
        (&[(2, 256)], term_at(0)),
        (&[(3, 9)], term_at(1)),
        (&[(2, 8), (3, 65535), (4, 9)], term_at(1)),
        (&[(0, 3)], term_at(0)),
        (&[(0, 6), (2, 5), (3, 6)], term_at(1)),
        (&[(1, 128), (129, 9)], term_at(127)),
        (&[(4, 1)], bare(4)),
        (&[(4, 9), (5, 65535)], bare(4)),
        (&[(129, 0x8000)], bare(4)),
    ];
    for (faults, expected) in faulty {
        let mut slip = slip_of(9, &[6, 3]);
        for &(cell, value) in faults {
            set_cell(&mut slip, cell, value);
        }
        check_wrong_slip(group, &slip, expected, || format!("{faults:?}"));
    }
}

/// Making, serving, testing, merging, a bundle and the listing all pass on the refusal of a slip,
/// before anything that is wrong with the shelf, the claim or both slips.
fn check_wrong_slip(group: &mut Group, slip: &[u8], told_for_it: Told, words: impl Fn() -> String) {
    let mut record = [5; RECORD_BYTES];
    let expected = Some(told_for_it);
    let making = told(synthesize(slip, &mut record)).err();
    group.check(making == expected, || format!("making {}: {making:?}", words()));
    for who in [0, 1] {
        let serving = told(look_up(slip, &[0; 3], who, &mut record)).err();
        group.check(serving == expected, || format!("serving {}: {serving:?}", words()));
    }
    let testing = told(verify(slip, &[0; A_BYTES], &[0; B_BYTES], 200)).err();
    group.check(testing == expected, || format!("testing {}: {testing:?}", words()));
    let (empty, zeros) = (slip_of(4093, &[]), [0; SLIP_BYTES]);
    for (first, second) in [(slip, slip), (slip, &zeros[..]), (&empty[..], slip)] {
        let merging = told(merge(first, second, &mut record[..SLIP_BYTES])).err();
        group.check(merging == expected, || format!("merging {}: {merging:?}", words()));
    }
    group.check(record == [5; RECORD_BYTES], || String::from("the record stays"));
    let (number, place) = told_for_it;
    let reply = u64::from(number) + 256 * place.unwrap_or(0) as u64;
    group.check(replies_around(slip) == [0, reply, 0], || format!("in a bundle: {}", words()));
    let at = place.map_or(String::new(), |place| format!(" at {place}"));
    let line = format!("{HEADER}\nrefused {number}{at}\n");
    group.check(listing(slip) == line, || format!("listing {}: {}", words(), listing(slip)));
}

/// The replies of a bundle that has the slip between two good ones, from a shelf where it stands;
/// none if the numbers or the bytes of the parts are others than those of two records made and a
/// slip refused.
fn replies_around(slip: &[u8]) -> Vec<u64> {
    let empty = slip_of(4093, &[]);
    let shelf = [slip, &[0; RECORD_BYTES - SLIP_BYTES]].concat();
    let (mut records, mut replies) = ([5; 3 * RECORD_BYTES], [5; 3]);
    let slips = [&empty[..], slip, &empty].concat();
    let counts = look_up_batch(&slips, &shelf, 1, &mut records, &mut replies);
    let made = record_with(&empty, &join::register(4093, &[]));
    let parts = [&made[..], &[0; RECORD_BYTES], &made].concat();
    let right = counts == Ok(Counts { found: 0, made: 2, refused: 1 }) && records[..] == parts;
    if right {
        replies.to_vec()
    } else {
        Vec::new()
    }
}

/// Every place of every count: one term out of range there, and others after it too; a
/// cell past the count is a matter of 4.
fn places_of_slips(group: &mut Group) {
    for count in 0..=TERMS_LIMIT {
        for place in 0..TERMS_LIMIT {
            let mut slip = slip_of(9, &vec![8; count]);
            set_cell(&mut slip, 2 + place, if place % 2 == 0 { 9 } else { 65535 });
            let expected = if place < count { term_at(place) } else { bare(4) };
            let alone = told(check_slip(&slip)).err();
            for later in place + 1..TERMS_LIMIT {
                set_cell(&mut slip, 2 + later, 9);
            }
            let first = told(check_slip(&slip)).err();
            let right = (alone, first) == (Some(expected), Some(expected));
            group.check(right, || format!("{place} of {count}: {alone:?}, {first:?}"));
            if [0, 1, 64, 127].contains(&place) {
                check_wrong_slip(group, &slip, expected, || format!("{place} of {count}"));
            }
        }
    }
}

/// 3 carries the count at every count, and the replay prints it; at 128 it is 22. The
/// first two lines are those of README.md.
fn places_of_takings(group: &mut Group) {
    let mut calls = vec![(Operation::Open, 60), (Operation::Push, 60), (Operation::Open, 9)];
    let mut expected = vec![
        String::from("open ok 79898889"),
        String::from("push refused 3 at 0 79898889"),
        format!("open ok {}", hashed(&reading_of(9, &[]))),
    ];
    for count in 0..TERMS_LIMIT {
        let (before, after) = (&[8; TERMS_LIMIT][..count], &[8; TERMS_LIMIT][..=count]);
        for term in [9, 65536, u32::MAX] {
            calls.push((Operation::Push, term));
            let held = hashed(&reading_of(9, before));
            expected.push(format!("push refused 3 at {count} {held}"));
        }
        calls.push((Operation::Push, 8));
        expected.push(format!("push ok {}", hashed(&reading_of(9, after))));
    }
    calls.push((Operation::Push, 9));
    let full = hashed(&reading_of(9, &[8; TERMS_LIMIT]));
    expected.push(format!("push refused 22 {full}"));
    let call = |(operation, number)| Call {
        operation,
        fill: 0,
        number,
        lengths: [0; 3],
        l: 0,
        payload: Vec::new(),
    };
    let script: Vec<u8> = calls.into_iter().flat_map(|one| call(one).bytes()).collect();
    let (text, whole) = replay(&script);
    group.check(whole && text.lines().count() == expected.len(), || String::from("takings"));
    for (line, right) in text.lines().zip(expected) {
        group.check(line == right, || format!("{line} for {right}"));
    }
}

fn hashed(reading: &Reading) -> String {
    format!("{:08x}", hash(&reading_bytes(reading)))
}

/// Readings that get 21, each for another reason.
pub fn unsound() -> Vec<Reading> {
    let good = reading_of(9, &[6, 3]);
    let mut forged = vec![zero_reading(); 6];
    forged[1] = Reading { modulus: 4096, ..good.clone() };
    forged[2] = Reading { count: 129, ..good.clone() };
    forged[3] = Reading { count: 1, ..good.clone() };
    forged[4].modulus = 1;
    forged[5] = Reading { modulus: 6, ..good.clone() };
    forged
}

/// 21 carries no place, though it may be for a term.
fn bad_readings(group: &mut Group) {
    for reading in unsound() {
        let (mut a, mut b, mut cells) = ([1; A_BYTES], [2; B_BYTES], [3; PROFILE_BYTES]);
        let mut after = reading.clone();
        let taking = told(push(&mut after, 70000));
        group.check(taking == Err(bare(21)) && after == reading, || format!("{reading:?}"));
        let outcome = told(register(&reading, &mut a, &mut b));
        group.check(outcome == Err(bare(21)), || format!("report: {outcome:?}"));
        let outcome = told(register(&reading, &mut a, &mut b[1..]));
        group.check(outcome == Err(bare(5)), || format!("report, short b: {outcome:?}"));
        let outcome = told(profile(&reading, &mut cells));
        group.check(outcome == Err(bare(21)), || format!("profile: {outcome:?}"));
        let outcome = told(profile(&reading, &mut cells[2..]));
        group.check(outcome == Err(bare(5)), || format!("profile, short: {outcome:?}"));
        let kept = a == [1; A_BYTES] && b == [2; B_BYTES] && cells == [3; PROFILE_BYTES];
        group.check(kept, || String::from("the buffers stay"));
    }
}

/// 5 for a and b, 21, 5 for the sheet, in this order; all is as lent then.
fn short_sheets(group: &mut Group) {
    let good = reading_of(9, &[6, 3, 1, 5, 6]);
    let fresh = reading_of(2048, &[]);
    let full = reading_of(2048, &[1; TERMS_LIMIT]);
    let (a, b) = (A_BYTES, B_BYTES);
    let mut orders = vec![
        (good.clone(), a, b, 10, Ok((3, NotTold))),
        (good.clone(), a, b, 11, Ok((3, NotTold))),
        (good.clone(), a, b, SHEET_LIMIT, Ok((3, NotTold))),
        (good.clone(), a, b, 9, Err(bare(5))),
        (good.clone(), a, b, 0, Err(bare(5))),
        (good.clone(), a - 1, b, 10, Err(bare(5))),
        (good.clone(), a + 1, b, 9, Err(bare(5))),
        (good.clone(), a, b - 1, 10, Err(bare(5))),
        (good.clone(), a, b + 1, 10, Err(bare(5))),
        (good.clone(), 0, 0, 0, Err(bare(5))),
        (fresh.clone(), a, b, 0, Ok((0, NotTold))),
        (fresh.clone(), a, b, 1, Ok((0, NotTold))),
        (fresh.clone(), a, 0, 0, Err(bare(5))),
        (full.clone(), a, b, 128 * 11, Ok((1, NotTold))),
        (full.clone(), a, b, 128 * 11 - 1, Err(bare(5))),
    ];
    for reading in unsound() {
        for room in [0, 1, 3, 4, SHEET_LIMIT] {
            orders.push((reading.clone(), a, b, room, Err(bare(21))));
            orders.push((reading.clone(), a - 1, b, room, Err(bare(5))));
            orders.push((reading.clone(), a, b + 1, room, Err(bare(5))));
        }
    }
    for (reading, a, b, room, expected) in orders {
        let (mut a, mut b) = (vec![1; a], vec![2; b]);
        let lent = (a.clone(), b.clone(), vec![StepRecord::of(LENT); room]);
        let mut sheet = lent.2.clone();
        let outcome = told(trace(&reading, &mut a, &mut b, &mut sheet));
        group.check(outcome == expected, || format!("room {room}: {outcome:?}"));
        let kept = expected.is_ok() || (a, b, sheet) == lent;
        group.check(kept, || format!("room {room}: all as lent"));
    }
}

/// a, b and l of a claim against 6,3,1,5,6 modulo 9.
type Claimed<'a> = (&'a [u64], &'a [u64], u32);

const GOOD_CLAIMS: [(Claimed, Verdict); 5] = [
    ((&[1, 4, 7, 1], &[6, 0, 1], 3), Verdict::Yes),
    ((&[1, 4, 7, 1], &[6, 0, 1], 128), Verdict::Yes),
    ((&[1], &[6, 3, 1, 5, 6], 5), Verdict::Yes),
    ((&[1, 4, 7, 2], &[6, 0, 1], 3), Verdict::No(3)),
    ((&[1], &[], 0), Verdict::No(0)),
];

const BAD_CLAIMS: [(Claimed, u32); 32] = [
    // The length, whatever else is wrong.
    ((&[1, 4, 7, 1], &[6, 0, 1], 129), 25),
    ((&[1, 4, 7, 1], &[6, 0, 1], 256), 25),
    ((&[1, 4, 7, 1], &[6, 0, 1], 65535), 25),
    ((&[1, 4, 7, 1], &[6, 0, 1], 65536 + 3), 25),
    ((&[1, 4, 7, 1], &[6, 0, 1], u32::MAX), 25),
    ((&[1, 9, 7, 1], &[6, 0, 1], 129), 25),
    ((&[1, 4, 7, 1], &[6, 9, 1], 129), 25),
    ((&[9, 4, 7, 1], &[6, 0, 1], 129), 25),
    ((&[0, 4, 7, 1], &[6, 0, 1], 129), 25),
    ((&[2, 4, 7, 9], &[6, 0, 1], 129), 25),
    // A coefficient not below m; 10 is 1 modulo 9.
    ((&[1, 9, 7, 1], &[6, 0, 1], 3), 6),
    ((&[1, 4, 7, 10], &[6, 0, 1], 3), 6),
    ((&[1, 4, 7, 1], &[9, 0, 1], 3), 6),
    ((&[1, 4, 7, 1], &[6, 0, 65535], 3), 6),
    ((&[9, 4, 7, 1], &[6, 0, 1], 3), 6),
    ((&[10, 4, 7, 1], &[6, 0, 1], 3), 6),
    ((&[65535, 4, 7, 1], &[6, 0, 1], 3), 6),
    // Something past the end, of both, of a alone, of b alone.
    ((&[1, 4, 7, 1], &[6, 0, 1], 2), 6),
    ((&[1, 4, 7, 1], &[6, 0], 2), 6),
    ((&[1, 4, 7], &[6, 0, 1], 2), 6),
    ((&[1, 4, 7, 1], &[6, 0, 1, 1], 3), 6),
    ((&[1, 1], &[], 0), 6),
    ((&[1], &[6], 0), 6),
    ((&[1, 4, 7, 1, 9], &[6, 0, 1, 9], 3), 6),
    // The same with an a_0 that is below m and not 1.
    ((&[0, 4, 7, 9], &[6, 0, 1], 3), 6),
    ((&[2, 4, 7, 1], &[6, 0, 9], 3), 6),
    ((&[8, 4, 7, 1], &[6, 0], 2), 6),
    ((&[0], &[6], 0), 6),
    // That alone.
    ((&[0, 4, 7, 1], &[6, 0, 1], 3), 26),
    ((&[2, 4, 7, 1], &[6, 0, 1], 3), 26),
    ((&[8, 4, 7, 1], &[6, 0, 1], 128), 26),
    ((&[], &[], 0), 26),
];

/// Testing and running tell a bad claim alike; on a shelf each is 24.
fn bad_claims(group: &mut Group) {
    let slip = slip_of(9, &[6, 3, 1, 5, 6]);
    for ((a, b, l), verdict) in GOOD_CLAIMS {
        check_claimed(group, 9, &slip, (a, b, l), Ok(verdict));
    }
    for ((a, b, l), number) in BAD_CLAIMS {
        check_claimed(group, 9, &slip, (a, b, l), Err(bare(number)));
    }
    // The last cells: a_128 is past 127 and b_127 past 126; with l 128 nothing is past.
    let mut a = [0; A_CELLS];
    (a[0], a[128]) = (1, 8);
    let mut b = [0; B_CELLS];
    b[127] = 8;
    check_claimed(group, 9, &slip, (&a, &[], 128), Ok(Verdict::No(0)));
    check_claimed(group, 9, &slip, (&a, &[], 127), Err(bare(6)));
    check_claimed(group, 9, &slip, (&[1], &b, 128), Ok(Verdict::No(0)));
    check_claimed(group, 9, &slip, (&[1], &b, 127), Err(bare(6)));
}

/// The values of a_0 next to 1 and to the modulus, and those whose low byte is 1 or 0.
fn bad_starts(group: &mut Group) {
    let starts: [(u64, u64, Option<u32>); 16] = [
        (2, 0, Some(26)),
        (2, 1, None),
        (2, 2, Some(6)),
        (2, 3, Some(6)),
        (3, 0, Some(26)),
        (3, 2, Some(26)),
        (3, 3, Some(6)),
        (256, 256, Some(6)),
        (256, 257, Some(6)),
        (257, 256, Some(26)),
        (258, 257, Some(26)),
        (4095, 0, Some(26)),
        (4095, 257, Some(26)),
        (4095, 4094, Some(26)),
        (4095, 4095, Some(6)),
        (4095, 4096, Some(6)),
    ];
    for (m, start, number) in starts {
        let expected = number.map_or(Ok(Verdict::Yes), |number| Err(bare(number)));
        for l in [0, 1, 128] {
            check_claimed(group, m, &slip_of(m, &[]), (&[start], &[], l), expected);
            check_claimed(group, m, &slip_of(m, &[0, 0]), (&[start], &[], l), expected);
        }
    }
}

/// The edges of 5, 1 and 2 where the claim would get 26; 65,545 is 9 in two bytes.
fn edges_of_running(group: &mut Group) {
    let (a, b) = (bytes_of(&[0], A_CELLS), bytes_of(&[], B_CELLS));
    let mut cells = [7; 260];
    let edges: [(u32, usize, u32); 10] = [
        (0, 259, 5),
        (9, 257, 5),
        (0, 258, 1),
        (1, 0, 1),
        (4096, 0, 1),
        (65545, 0, 1),
        (9, 258, 2),
        (9, 256, 26),
        (9, 0, 26),
        (4095, 256, 26),
    ];
    for (m, size, number) in edges {
        let outcome = told(generate(m, &a, &b, 0, &mut cells[..size]));
        group.check(outcome == Err(bare(number)), || format!("{m}, {size} bytes: {outcome:?}"));
    }
    group.check(cells == [7; 260], || String::from("the cells stay"));
}

/// What a testing of the claim, a running and a serving of it as a record reply.
fn check_claimed(
    group: &mut Group,
    m: u64,
    slip: &[u8],
    (a, b, l): Claimed,
    expected: Result<Verdict, Told>,
) {
    let words = || format!("modulo {m}, a {a:?}, b {b:?}, l {l}");
    let (a_cells, b_cells) = (bytes_of(a, A_CELLS), bytes_of(b, B_CELLS));
    let testing = told(verify(slip, &a_cells, &b_cells, l));
    group.check(testing == expected, || format!("testing {}: {testing:?}", words()));
    for size in [0, 10] {
        let mut cells = vec![7; size];
        let running = told(generate(m as u32, &a_cells, &b_cells, l, &mut cells));
        let right = running == expected.map(|_| ());
        group.check(right, || format!("running {}: {running:?}", words()));
        let kept = running.is_ok() || cells == vec![7; size];
        group.check(kept, || format!("running {}: the cells stay", words()));
    }
    let length = l.min(65535) as u16;
    let claimed = [slip, &length.to_le_bytes(), &a_cells, &b_cells].concat();
    let good = expected == Ok(Verdict::Yes);
    let served = if good { Ok(Served::Found(0)) } else { Err(bare(24)) };
    // A number that could not stand in b changes nothing.
    for (who, shown) in [(1, [255, 255]), (0, [0, 0])] {
        let shelf = [&claimed[..], &[255, 255]].concat();
        let mut record = vec![7; RECORD_BYTES];
        let serving = told(look_up(slip, &shelf, who, &mut record));
        group.check(serving == served, || format!("serving {}: {serving:?}", words()));
        let filled = [&claimed[..], &shown].concat();
        let right = record == if good { filled } else { vec![7; RECORD_BYTES] };
        group.check(right, || format!("serving {}: the record", words()));
    }
}

/// The first match alone decides, and 23 comes before it.
fn bad_shelves(group: &mut Group) {
    let (slip, longer) = (slip_of(4, &[2, 2]), slip_of(4, &[2, 2, 0]));
    let good = record_with(&slip, &join::register(4, &[2, 2]));
    // A test that says no, then 25, 6 and 26 as claims.
    let bad = [(RECORD_A_AT + 2, 2), (RECORD_LENGTH_AT, 129), (RECORD_B_AT, 4), (RECORD_A_AT, 3)];
    let other = record_with(&slip_of(8, &[2, 2]), &join::register(8, &[2, 2]));
    let mut record = [5; RECORD_BYTES];
    for (byte, value) in bad {
        let mut bad = good.clone();
        set_cell(&mut bad[byte..], 0, value);
        let shelves = [
            ([&bad[..], &good[..]].concat(), 24),
            ([&other[..], &bad[..]].concat(), 24),
            ([&bad[..], &good[..777]].concat(), 23),
            ([&bad[..], &good[..776]].concat(), 23),
            (vec![0; 1], 23),
        ];
        for ((shelf, number), who) in shelves.iter().flat_map(|one| [0, 1].map(|who| (one, who))) {
            let outcome = told(look_up(&slip, shelf, who, &mut record));
            group.check(outcome == Err(bare(*number)), || format!("byte {byte}: {outcome:?}"));
            group.check(record == [5; RECORD_BYTES], || String::from("the record stays"));
        }
        let shelf = [&other[..], &good[..], &bad[..]].concat();
        let outcome = told(look_up(&slip, &shelf, 1, &mut record));
        let found = outcome == Ok(Served::Found(1)) && record[..] == good;
        group.check(found, || format!("good before byte {byte}: {outcome:?}"));
        let outcome = told(look_up(&longer, &shelf, 1, &mut record));
        group.check(outcome == Ok(Served::Made), || format!("another count: {outcome:?}"));
        record = [5; RECORD_BYTES];
    }
    let outcome = told(look_up(&slip, &[0; 1], 0, &mut record[1..]));
    group.check(outcome == Err(bare(5)), || format!("5 before 23: {outcome:?}"));
    let outcome = told(look_up(&slip, &[], 0, &mut record));
    group.check(outcome == Ok(Served::Made) && record[..] == good, || format!("{outcome:?}"));
}
