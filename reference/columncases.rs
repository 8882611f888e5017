//! Columns by hand (02, A5): the words of the request and what was read from them.

use crate::calls::*;
use crate::cases::{bare, bytes_of, padded, term_at, told, Told};
use crate::checks::Group;
use crate::limits::*;
use crate::only::Only::{self, *};
use crate::orders::unsound;
use crate::script::{hash, reading_from, replay, Call, Operation};

/// The columns that are written down, then what reports and the replay make of some.
pub fn by_hand(group: &mut Group) {
    for (m, held, list, taken, refused) in SHORT {
        check(group, m, held, list, taken, refused);
    }
    for (count, list, taken, refused) in NEARLY_FULL {
        check(group, 9, &[8; TERMS_LIMIT][..count], list, taken, refused);
    }
    long_lists(group);
    odd_lists(group);
    bad_readings(group);
    bytes_of_cells(group);
    answers(group);
    replayed(group);
}

/// The modulus, the terms held, the list, how many are taken, and the refusal if any.
type Short<'a> = (u64, &'a [u64], &'a [u64], usize, Option<Told>);

const SHORT: [Short; 24] = [
    (9, &[], &[6, 3, 1, 5, 6], 5, None),
    (9, &[6, 3], &[1, 5, 6], 3, None),
    (9, &[6, 3, 1, 5], &[6], 1, None),
    (2, &[], &[1], 1, None),
    (4095, &[4094], &[0, 4094], 2, None),
    (257, &[], &[256, 1, 255], 3, None),
    // "An empty list takes none."
    (9, &[], &[], 0, None),
    (9, &[6, 3], &[], 0, None),
    // "Terms taken before a refusal stay", and it ends there.
    (9, &[], &[6, 3, 9, 5], 2, Some(term_at(2))),
    (9, &[], &[6, 9, 10, 5], 1, Some(term_at(1))),
    (9, &[], &[8, 8, 8, 9], 3, Some(term_at(3))),
    (2, &[], &[1, 0, 2, 1], 2, Some(term_at(2))),
    (4095, &[], &[4094, 4095, 4094], 1, Some(term_at(1))),
    (257, &[], &[256, 257], 1, Some(term_at(1))),
    // None before it.
    (9, &[], &[9], 0, Some(term_at(0))),
    (9, &[], &[10, 1], 0, Some(term_at(0))),
    (9, &[], &[65535, 65535], 0, Some(term_at(0))),
    (9, &[], &[256], 0, Some(term_at(0))),
    // "A 3 carries the reading's count at that moment", not the place in the list.
    (9, &[1], &[6, 3, 9, 5], 2, Some(term_at(3))),
    (9, &[6, 3], &[1, 5, 6, 9], 3, Some(term_at(5))),
    (9, &[1, 2, 3], &[9, 1], 0, Some(term_at(3))),
    (9, &[8], &[65535], 0, Some(term_at(1))),
    (2, &[0, 0, 0, 0, 0, 0, 0], &[1, 1, 2, 3], 2, Some(term_at(9))),
    (4095, &[0, 0], &[4095], 0, Some(term_at(2))),
];

/// Columns on a reading modulo 9 that holds so many terms, next to the 128th.
const NEARLY_FULL: [(usize, &[u64], usize, Option<Told>); 20] = [
    (126, &[8, 8], 2, None),
    (126, &[8, 8, 8], 2, Some(bare(22))),
    (126, &[8, 8, 9], 2, Some(bare(22))),
    (126, &[8, 8, 8, 9], 2, Some(bare(22))),
    (126, &[8, 9], 1, Some(term_at(127))),
    (126, &[8, 9, 9], 1, Some(term_at(127))),
    (126, &[9, 8, 8], 0, Some(term_at(126))),
    (127, &[], 0, None),
    (127, &[8], 1, None),
    (127, &[8, 8], 1, Some(bare(22))),
    // The second term is reached when 128 are held: 22 before 3.
    (127, &[8, 9], 1, Some(bare(22))),
    (127, &[8, 65535, 8], 1, Some(bare(22))),
    (127, &[9], 0, Some(term_at(127))),
    (127, &[9, 8], 0, Some(term_at(127))),
    // An empty list reaches no term.
    (128, &[], 0, None),
    (128, &[8], 0, Some(bare(22))),
    (128, &[9], 0, Some(bare(22))),
    (128, &[8, 9], 0, Some(bare(22))),
    (128, &[9, 8], 0, Some(bare(22))),
    (128, &[65535, 65535, 65535], 0, Some(bare(22))),
];

/// The reading that holds these terms, made of its bytes.
fn holding(m: u64, terms: &[u64]) -> Reading {
    reading_from(&slip_of(m, terms))
}

/// Takes the column and looks at all that it has to do with.
fn check(
    group: &mut Group,
    m: u64,
    held: &[u64],
    list: &[u64],
    taken: usize,
    refused: Option<Told>,
) {
    let mut reading = holding(m, held);
    let (found, outcome) = push_all(&mut reading, &bytes_of(list, list.len()));
    let outcome = told(outcome).err();
    let count = held.len();
    let words = || format!("modulo {m}, {count} held, {} cells: {found}, {outcome:?}", list.len());
    group.check((found, outcome) == (taken, refused), words);
    let after = [held, &list[..taken]].concat();
    group.check(reading == holding(m, &after), || format!("{}: the reading", words()));
}

/// "Copying a column means up to 128 calls", but a list may be longer and never gets 2.
fn long_lists(group: &mut Group) {
    check(group, 2, &[], &[1; 130], 128, Some(bare(22)));
    check(group, 2, &[], &[1; 128], 128, None);
    check(group, 2, &[], &[1; 127], 127, None);
    for size in [129, 200, 256, 257, 1000, 32767] {
        check(group, 2, &[], &vec![1; size], 128, Some(bare(22)));
        check(group, 2, &[0; 50], &vec![1; size], 78, Some(bare(22)));
        check(group, 2, &[0; 128], &vec![1; size], 0, Some(bare(22)));
        let wrong = |place: usize| {
            let mut list = vec![1; size];
            list[place] = 2;
            list
        };
        check(group, 2, &[], &wrong(0), 0, Some(term_at(0)));
        check(group, 2, &[], &wrong(64), 64, Some(term_at(64)));
        check(group, 2, &[], &wrong(127), 127, Some(term_at(127)));
        check(group, 2, &[], &wrong(128), 128, Some(bare(22)));
        check(group, 2, &[], &wrong(size - 1), 128, Some(bare(22)));
        check(group, 2, &[0; 50], &wrong(77), 77, Some(term_at(127)));
        check(group, 2, &[0; 50], &wrong(78), 78, Some(bare(22)));
    }
}

/// "An odd number of bytes gets 5", and takes none, whatever the reading holds.
fn odd_lists(group: &mut Group) {
    let readings = [holding(9, &[]), holding(9, &[6, 3]), holding(9, &[8; 128])];
    for before in readings.into_iter().chain(unsound()) {
        for size in [1, 3, 5, 255, 257, 259, 65535] {
            for byte in [0, 1, 255] {
                let mut reading = before.clone();
                let (taken, outcome) = push_all(&mut reading, &vec![byte; size]);
                let right = (taken, told(outcome)) == (0, Err(bare(5))) && reading == before;
                group.check(right, || format!("{size} bytes: {taken}, {outcome:?}"));
            }
        }
    }
}

/// "A bad reading gets 21 even then", when the list is empty.
fn bad_readings(group: &mut Group) {
    for before in unsound() {
        for list in [&[][..], &[0], &[1, 1], &[65535], &[0; 129], &[9; 1000]] {
            let mut reading = before.clone();
            let (taken, outcome) = push_all(&mut reading, &bytes_of(list, list.len()));
            let right = (taken, told(outcome)) == (0, Err(bare(21))) && reading == before;
            group.check(right, || format!("{before:?}, {list:?}: {taken}, {outcome:?}"));
        }
    }
}

/// "A cell is two bytes, low byte first."
fn bytes_of_cells(group: &mut Group) {
    let columns: [(u64, &[u8], usize, Option<Told>); 5] = [
        (256, &[255, 0, 1, 0], 2, None),
        (256, &[255, 0, 0, 1], 1, Some(term_at(1))),
        (257, &[0, 1, 1, 1], 1, Some(term_at(1))),
        (4095, &[254, 15, 255, 15], 1, Some(term_at(1))),
        (4095, &[254, 15, 15, 254], 1, Some(term_at(1))),
    ];
    for (m, bytes, taken, refused) in columns {
        let mut reading = holding(m, &[]);
        let (found, outcome) = push_all(&mut reading, bytes);
        let right = (found, told(outcome).err()) == (taken, refused);
        group.check(right, || format!("modulo {m}, {bytes:?}: {found}, {outcome:?}"));
    }
}

/// What a report returns, its a and b, and the profile, each less the zeros past its end.
type Answer<'a> = ((usize, Only), &'a [u64], &'a [u64], &'a [u64]);

/// Cases 3 and 4 of 01, for 6,3,1,5,6 modulo 9.
const CASE_3: Answer = ((3, NotTold), &[1, 4, 7, 1], &[6, 0, 1], &[0, 1, 1, 3, 3, 3]);

const NO_TERMS: Answer = ((0, NotTold), &[1], &[], &[0]);

/// The length 1 for each k from 1 on.
const LENGTH_1: [u64; PROFILE_CELLS] = {
    let mut lengths = [1; PROFILE_CELLS];
    lengths[0] = 0;
    lengths
};

/// A modulus, several columns, and what is told after them.
const ANSWERS: [(u64, &[&[u64]], Answer); 9] = [
    (9, &[&[6, 3, 1, 5, 6]], CASE_3),
    (9, &[&[6, 3, 9, 5], &[1, 5, 6]], CASE_3),
    (9, &[&[], &[6], &[3, 10, 8], &[9], &[1, 5, 6, 65535]], CASE_3),
    // (6 + 3x)(1 + 4x) is 6 modulo 9, as far as x.
    (9, &[&[6, 3, 9, 5]], ((1, NotTold), &[1, 4], &[6], &[0, 1, 1])),
    (9, &[&[9, 6, 3]], NO_TERMS),
    (9, &[&[]], NO_TERMS),
    // Case 6, then case 7 with a wrong term in each column.
    (4, &[&[2, 4], &[1]], ((2, NotTold), &[1], &[2, 1], &[0, 1, 2])),
    (2, &[&[0, 2, 1], &[0, 3, 1], &[1, 2, 1]], ((3, Several), &[1], &[0, 0, 1], &[0, 0, 0, 3])),
    // (1 + x + x^2 + ..)(1 + x) is 1 modulo 2; 128 terms are taken.
    (2, &[&[1; 130]], ((1, Sole), &[1, 1], &[1], &LENGTH_1)),
];

fn answers(group: &mut Group) {
    for (m, columns, (reported, a, b, lengths)) in ANSWERS {
        let (mut reading, _) = open(m as u32);
        for list in columns {
            let _ = push_all(&mut reading, &bytes_of(list, list.len()));
        }
        let words = || format!("modulo {m}, {columns:?}");
        let (mut a_bytes, mut b_bytes) = ([0xff; A_BYTES], [0xff; B_BYTES]);
        let found = register(&reading, &mut a_bytes, &mut b_bytes);
        let right = found == Ok(reported)
            && cells(&a_bytes) == padded(a, A_CELLS)
            && cells(&b_bytes) == padded(b, B_CELLS);
        group.check(right, || format!("{}: {found:?}", words()));
        let mut buffer = [0xff; PROFILE_BYTES];
        let found = profile(&reading, &mut buffer);
        let right = found == Ok(()) && cells(&buffer) == padded(lengths, PROFILE_CELLS);
        group.check(right, || format!("{}: the profile", words()));
    }
}

fn call(operation: Operation, number: u32, payload: &[u8]) -> Vec<u8> {
    let lengths = match operation {
        Operation::Register => [A_BYTES as u16, B_BYTES as u16, 0],
        _ => [payload.len() as u16, 0, 0],
    };
    Call { operation, fill: 0xee, number, lengths, l: 0, payload: payload.to_vec() }.bytes()
}

/// The lines of README.md: 6,3,1,5,6 and 6,3,9,5 modulo 9. The hashes that stand here in
/// digits were computed apart from this program.
const ALL_TAKEN: &str = "push_all taken 5 ok 2f8aa196 17edca52";
const TWO_TAKEN: &str = "push_all taken 2 refused 3 at 2 e97730e3 2cee80fc";

/// 32,767 cells of 257 modulo 258.
const MANY_OFFERED: &str = "push_all taken 128 refused 22 4f58936c 3320c063";

/// A script by hand.
fn replayed(group: &mut Group) {
    use Operation::*;
    let good = bytes_of(&[6, 3, 1, 5, 6], 5);
    let wrong = bytes_of(&[6, 3, 9, 5], 4);
    let many = vec![1; 65534];
    let hashed = |bytes: &[u8]| format!("{:08x}", hash(bytes));
    let (fresh, seven) = (hashed(&slip_of(9, &[])), hashed(&[7]));
    let (two, three) = (hashed(&slip_of(9, &[6, 3])), hashed(&slip_of(9, &[6, 3, 7])));
    let (five, zeros) = (hashed(&slip_of(9, &[6, 3, 7, 6, 3])), hashed(&[0; SLIP_BYTES]));
    let script = [
        (call(Open, 9, &[]), format!("open ok {fresh}")),
        (call(PushAll, 0, &good), String::from(ALL_TAKEN)),
        (call(Register, 0, &[]), String::from("register length 3 not told c39cbc5e 396c93d2")),
        (call(Open, 9, &[]), format!("open ok {fresh}")),
        (call(PushAll, 0, &wrong), String::from(TWO_TAKEN)),
        (call(PushAll, 0, &[]), format!("push_all taken 0 ok {two} 811c9dc5")),
        (call(PushAll, 0, &[7]), format!("push_all taken 0 refused 5 {two} {seven}")),
        (call(Push, 7, &[]), format!("push ok {three}")),
        (call(PushAll, 0, &wrong), format!("push_all taken 2 refused 3 at 5 {five} 2cee80fc")),
        (call(Open, 1, &[]), format!("open refused 1 {zeros}")),
        (call(PushAll, 0, &[]), format!("push_all taken 0 refused 21 {zeros} 811c9dc5")),
        (call(PushAll, 0, &[7]), format!("push_all taken 0 refused 5 {zeros} {seven}")),
        (call(Open, 258, &[]), format!("open ok {}", hashed(&slip_of(258, &[])))),
        (call(PushAll, 0, &many), String::from(MANY_OFFERED)),
    ];
    let bytes: Vec<u8> = script.iter().flat_map(|(call, _)| call.clone()).collect();
    let (text, whole) = replay(&bytes);
    group.check(whole && text.lines().count() == script.len(), || text.clone());
    for (line, (_, expected)) in text.lines().zip(&script) {
        group.check(line == expected, || format!("{line} for {expected}"));
    }
    // Cut inside the last list.
    let (text, whole) = replay(&bytes[..bytes.len() - 1]);
    let cut = !whole && text.ends_with("\nscript cut short\n");
    group.check(cut && text.lines().count() == script.len(), || text.clone());
}
