//! Accession numbers by hand (02, A7): each sentence of the request, on records that are
//! written byte by byte. Sizes and places are numbers here, as the papers have them.

use crate::calls::*;
use crate::cases::{bare, told, Told};
use crate::checks::Group;
use crate::script::{replay, Call, Operation};

/// Who asks, and whether it is an editor. The others would be one if their number were cut
/// to 8, 16 or 32 bits, or if 0, or any number but 0, meant one.
pub const ASKERS: [(u64, bool); 12] = [
    (0, false),
    (1, true),
    (2, false),
    (256, false),
    (257, false),
    (65_535, false),
    (65_536, false),
    (65_537, false),
    (1 << 32, false),
    ((1 << 32) + 1, false),
    (1 << 63, false),
    (u64::MAX, false),
];

/// Accession numbers as their two bytes: none, a byte alone, both, the modulus of case 3.
const NUMBERS: [[u8; 2]; 10] = [
    [0, 0],
    [1, 0],
    [0, 1],
    [255, 0],
    [0, 255],
    [255, 255],
    [0x34, 0x12],
    [9, 0],
    [128, 0],
    [0, 128],
];

pub fn by_hand(group: &mut Group) {
    just_made(group);
    served_to_each(group);
    who_is_an_editor(group);
    numbers_ignored(group);
    first_match_decides(group);
    bad_whatever_the_number(group);
    lengths_of_shelves(group);
    lengths_of_records(group);
    old_shelves(group);
    replayed(group);
}

// ---- records ----

/// 778 bytes: these at these places, then the number, and 0 elsewhere.
pub fn written(bytes: &[(usize, u8)], [low, high]: [u8; 2]) -> Vec<u8> {
    let mut record = vec![0; 778];
    for &(place, byte) in bytes.iter().chain(&[(776, low), (777, high)]) {
        record[place] = byte;
    }
    record
}

/// Case 3 of 01: 6,3,1,5,6 modulo 9 has l 3, a 1,4,7,1 and b 6,0,1.
pub const CASE_3: [(usize, u8); 14] = [
    (0, 9),
    (2, 5),
    (4, 6),
    (6, 3),
    (8, 1),
    (10, 5),
    (12, 6),
    (260, 3),
    (262, 1),
    (264, 4),
    (266, 7),
    (268, 1),
    (520, 6),
    (524, 1),
];

pub fn case_3(number: [u8; 2]) -> Vec<u8> {
    written(&CASE_3, number)
}

/// Case 6 of 01: 2,1 modulo 4 has l 2, a 1,0,0 and b 2,1.
pub fn case_6(number: [u8; 2]) -> Vec<u8> {
    let bytes = [(0, 4), (2, 2), (4, 2), (6, 1), (260, 2), (262, 1), (520, 2), (522, 1)];
    written(&bytes, number)
}

/// 128 terms modulo 4,095, l 128, a 1 and b the terms: a good claim, whose record has other
/// bytes than 0 right before the number.
pub fn full(number: [u8; 2]) -> Vec<u8> {
    let start = [(0, 0xff), (1, 0x0f), (2, 128), (260, 128), (262, 1)];
    let cells = (0..128).flat_map(|i| [4 + 2 * i, 520 + 2 * i]);
    let bytes = cells.flat_map(|at| [(at, 0x0d), (at + 1, 0x0e)]);
    written(&start.into_iter().chain(bytes).collect::<Vec<_>>(), number)
}

/// The slip of case 3, which is what is asked for here.
fn query() -> Vec<u8> {
    case_3([0, 0])[..260].to_vec()
}

/// What a serving must come to: the reply and all of the record, or a refusal that leaves
/// every byte as it was lent.
type Expected<'a> = Result<(Served, &'a [u8]), Told>;

/// Serves case 3's slip.
fn check(group: &mut Group, words: &str, shelf: &[u8], who: u64, expected: Expected) {
    check_served(group, words, &query(), shelf, who, expected);
}

/// Serves a slip to a buffer that is lent with several contents.
fn check_served(
    group: &mut Group,
    words: &str,
    slip: &[u8],
    shelf: &[u8],
    who: u64,
    expected: Expected,
) {
    for fill in [0, 7, 0xff] {
        let mut record = vec![fill; 778];
        let reply = told(look_up(slip, shelf, who, &mut record));
        let right = match expected {
            Ok((served, bytes)) => reply == Ok(served) && record == bytes,
            Err(refusal) => reply == Err(refusal) && record == [fill; 778],
        };
        group.check(right, || format!("{words}, for {who}, lent {fill}: {reply:?}"));
    }
}

// ---- the sentences ----

/// "A record grows by two bytes to 778, the last two an accession number, 0 in a record
/// just made": by a making, and by a serving that finds none, whoever asks.
fn just_made(group: &mut Group) {
    for fill in 0..=255 {
        let mut record = [fill; 778];
        let reply = synthesize(&query(), &mut record);
        let right = reply == Ok(()) && record[..] == case_3([0, 0]);
        group.check(right, || format!("made where {fill} was lent: {reply:?}"));
    }
    let record = case_3([0, 0]);
    let made: Expected = Ok((Served::Made, &record));
    for (who, _) in ASKERS {
        check(group, "made, no record", &[], who, made);
        for number in NUMBERS {
            check(group, "made, another record", &case_6(number), who, made);
            // A number next to a slip that differs in its last byte.
            let mut other = case_3(number);
            other[259] = 1;
            check(group, "made, nearly that record", &other, who, made);
        }
    }
}

/// "Editors must know who gave an entry; visitors must not", so: "An editor is served all
/// of it, a visitor sees 0 there." Nothing else of the record depends on who asks.
fn served_to_each(group: &mut Group) {
    for (number, (who, editor)) in
        NUMBERS.iter().flat_map(|number| ASKERS.map(|asker| (*number, asker)))
    {
        let seen = case_3(if editor { number } else { [0, 0] });
        check(group, "alone", &case_3(number), who, Ok((Served::Found(0), &seen)));
        let (there, seen_of_full) = (full(number), full(if editor { number } else { [0, 0] }));
        let expected: Expected = Ok((Served::Found(0), &seen_of_full));
        check_served(group, "of few zeros", &there[..260], &there, who, expected);
        for other in NUMBERS {
            let shelf = [case_6(other), case_3(number), case_6(other)].concat();
            check(group, "among others", &shelf, who, Ok((Served::Found(1), &seen)));
        }
    }
}

/// "Serving is told 1 for an editor; any other number means a visitor": every number up to
/// 70,000, and those next to a power of 2, with 1 in their low bits or all ones but few.
fn who_is_an_editor(group: &mut Group) {
    let shelf = case_3([0x34, 0x12]);
    let (editors, visitors) = (case_3([0x34, 0x12]), case_3([0, 0]));
    let mut ask = |who: u64, seen: &[u8]| {
        let mut record = [7; 778];
        let reply = look_up(&shelf[..260], &shelf, who, &mut record);
        let right = reply == Ok(Served::Found(0)) && record == seen;
        group.check(right, || format!("served to {who}: {reply:?}"));
    };
    ask(1, &editors);
    ask(0, &visitors);
    for who in 2..=70_000 {
        ask(who, &visitors);
    }
    for power in (1..64).map(|bit| 1u64 << bit) {
        for who in [power, power + 1, power.wrapping_neg(), power.wrapping_neg() + 1] {
            ask(who, &visitors);
        }
        if power > 2 {
            ask(power - 1, &visitors);
        }
    }
}

/// "Matching and the test behind 24 ignore it": every number there is.
fn numbers_ignored(group: &mut Group) {
    let mut shelf = case_3([0, 0]);
    let visitors = case_3([0, 0]);
    for number in 0..=65_535u16 {
        shelf[776..].copy_from_slice(&number.to_le_bytes());
        for who in [0, 1] {
            let mut record = [7; 778];
            let reply = look_up(&shelf[..260], &shelf, who, &mut record);
            let seen = if who == 1 { &shelf } else { &visitors };
            let right = reply == Ok(Served::Found(0)) && record[..] == seen[..];
            group.check(right, || format!("number {number} for {who}: {reply:?}"));
        }
    }
    // A claim as long as b: what comes after b is not past its end either.
    for (number, (who, editor)) in
        NUMBERS.iter().flat_map(|number| ASKERS.map(|asker| (*number, asker)))
    {
        let long = |number| written(&[&CASE_3[..], &[(260, 128)]].concat(), number);
        let seen = long(if editor { number } else { [0, 0] });
        check(group, "of length 128", &long(number), who, Ok((Served::Found(0), &seen)));
    }
}

/// The first match is served, with its own number, also if only a later one has a number.
fn first_match_decides(group: &mut Group) {
    for (first, second) in NUMBERS.iter().flat_map(|first| NUMBERS.map(|later| (*first, later))) {
        let shelf = [case_6(second), case_3(first), case_3(second)].concat();
        for (who, number) in [(1, first), (0, [0, 0]), (2, [0, 0]), (257, [0, 0])] {
            let seen = case_3(number);
            check(group, "twice there", &shelf, who, Ok((Served::Found(1), &seen)));
        }
    }
}

/// What 24 is for: a length of 129, a coefficient that is 9, an a_0 of 2, a test that says no
/// (case 11), and each byte of the last cell of b, which the number comes right after.
pub const BAD: [(usize, u8); 7] =
    [(260, 129), (522, 9), (264, 9), (262, 2), (268, 2), (774, 1), (775, 1)];

/// "The test behind 24" ignores the number: 24 whatever it is, also if the next one is good.
fn bad_whatever_the_number(group: &mut Group) {
    for (number, (who, _)) in NUMBERS.iter().flat_map(|number| ASKERS.map(|asker| (*number, asker)))
    {
        for fault in BAD {
            let bad = written(&[&CASE_3[..], &[fault]].concat(), number);
            let words = format!("byte {} is {}", fault.0, fault.1);
            check(group, &words, &bad, who, Err(bare(24)));
            let shelf = [&bad[..], &case_3(number)].concat();
            check(group, &words, &shelf, who, Err(bare(24)));
        }
    }
}

/// "Refusal 23 now counts in 778s": every length up to that of four records and some more.
fn lengths_of_shelves(group: &mut Group) {
    let shelf = [case_3([1, 2]), case_6([3, 4]), case_3([5, 6]), case_6([7, 8]), case_6([9, 9])];
    let shelf = shelf.concat();
    for (size, who) in (0..=3200).flat_map(|size| [0, 1, 2].map(|who| (size, who))) {
        let seen = case_3(if who == 1 { [1, 2] } else { [0, 0] });
        let (reply, bytes) = match size {
            0 => (Ok(Served::Made), case_3([0, 0])),
            778 | 1556 | 2334 | 3112 => (Ok(Served::Found(0)), seen),
            _ => (Err(bare(23)), vec![7; 778]),
        };
        let mut record = vec![7; 778];
        let found = told(look_up(&query(), &shelf[..size], who, &mut record));
        group.check(found == reply && record == bytes, || format!("{size} bytes: {found:?}"));
    }
    // One byte too few, too many, records of 776 bytes, halves of 778.
    for size in [1, 388, 389, 775, 776, 777, 779, 1552, 1555, 1557, 1167, 2328, 2333] {
        for (who, _) in ASKERS {
            check(group, &format!("{size} bytes"), &shelf[..size], who, Err(bare(23)));
        }
    }
}

/// "5 measures records by 778": every length up to that of two records, in a making, and in a
/// serving that would find one, make one or be refused.
fn lengths_of_records(group: &mut Group) {
    let (slip, shelf, bad) = (query(), case_3([1, 2]), written(&CASE_3[..7], [1, 2]));
    for size in (0..=1600).filter(|&size| size != 778) {
        let mut record = vec![7; size];
        let reply = told(synthesize(&slip, &mut record));
        let right = reply == Err(bare(5)) && record == vec![7; size];
        group.check(right, || format!("made in {size} bytes: {reply:?}"));
        let shelves = [&shelf[..], &bad, &[], &[0]];
        for (shelf, who) in shelves.iter().flat_map(|shelf| [0, 1].map(|who| (*shelf, who))) {
            let reply = told(look_up(&slip, shelf, who, &mut record));
            let right = reply == Err(bare(5)) && record == vec![7; size];
            group.check(right, || format!("served in {size} bytes: {reply:?}"));
        }
    }
    let mut record = [7; 778];
    group.check(synthesize(&slip, &mut record).is_ok(), || String::from("made in 778 bytes"));
    let reply = look_up(&slip, &shelf, 1, &mut record);
    group.check(reply == Ok(Served::Found(0)), || String::from("served in 778 bytes"));
}

/// "Old shelves we rewrite ourselves before we lend them; the desk takes every shelf as one
/// of the new size." One of old records mostly gets 23. 389 of these have the length of 388
/// new ones, and are taken as such.
fn old_shelves(group: &mut Group) {
    let (asked, other) = (&case_3([0, 0])[..776], &case_6([0, 0])[..776]);
    for (who, editor) in ASKERS {
        check(group, "an old record", asked, who, Err(bare(23)));
        check(group, "two old records", &[asked, other].concat(), who, Err(bare(23)));
        check(group, "388 old records", &asked.repeat(388), who, Err(bare(23)));
        // The next old record begins with its modulus, where the number is now.
        let old = [asked, &other.repeat(388)].concat();
        let seen = case_3(if editor { [4, 0] } else { [0, 0] });
        check(group, "389 old records", &old, who, Ok((Served::Found(0), &seen)));
        for place in [1, 2, 194, 387, 388] {
            let old = [&other.repeat(place), asked, &other.repeat(388 - place)].concat();
            let made = case_3([0, 0]);
            check(group, "between old records", &old, who, Ok((Served::Made, &made)));
        }
        let new = [case_6([7, 7]).repeat(387), case_3([0x34, 0x12])].concat();
        group.check(new.len() == 776 * 389, || String::from("388 records"));
        let seen = case_3(if editor { [0x34, 0x12] } else { [0, 0] });
        check(group, "the last of 388", &new, who, Ok((Served::Found(387), &seen)));
        check(group, "a byte less", &new[1..], who, Err(bare(23)));
    }
}

/// In a script who asks is the number of the header. The hashes were computed apart from
/// this program; the first three lines are those of README.md.
fn replayed(group: &mut Group) {
    let (made, all, hidden) = ("made 6e3901c9", "found 1 b41b5ae7", "found 1 6e3901c9");
    let shelf = [case_6([9, 9]), case_3([0x34, 0x12])].concat();
    let mut calls = vec![
        (1, shelf.clone(), 778, all),
        (257, shelf.clone(), 778, hidden),
        (1, vec![], 778, made),
        (0, vec![], 778, made),
        (1, shelf[..1552].to_vec(), 778, "refused 23 c30d062d"),
        (2, shelf[..1552].to_vec(), 778, "refused 23 c30d062d"),
        (1, shelf.clone(), 776, "refused 5 c0892d65"),
        (0, shelf.clone(), 776, "refused 5 c0892d65"),
        (1, shelf.clone(), 779, "refused 5 d081a4f9"),
        (1, written(&CASE_3[..7], [1, 2]), 778, "refused 24 c30d062d"),
        (0, written(&CASE_3[..7], [1, 2]), 778, "refused 24 c30d062d"),
        (1, case_3([1, 0]), 778, "found 0 48368760"),
        (1, case_3([0, 1]), 778, "found 0 6d390036"),
    ];
    for who in [0, 2, 255, 256, 65_535, 65_536, 65_537, 16_777_217, 1 << 31, u32::MAX] {
        calls.push((who, shelf.clone(), 778, hidden));
    }
    for (who, shelf, size, expected) in calls {
        let call = Call {
            operation: Operation::LookUp,
            fill: 0xee,
            number: who,
            lengths: [260, shelf.len() as u16, size],
            l: 0,
            payload: [query(), shelf].concat(),
        };
        let (text, whole) = replay(&call.bytes());
        let right = whole && text == format!("look_up {expected}\n");
        group.check(right, || format!("replay for {who}: {text}"));
    }
}
