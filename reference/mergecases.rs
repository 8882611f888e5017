//! Merges by hand (02, A9): the words of the request, with numbers that were worked out by hand.

use crate::calls::{cells, merge, slip_of};
use crate::cases::{bare, padded, term_at, told, Told};
use crate::checks::Group;
use crate::join;
use crate::merges::merging;
use crate::script::{replay, Call, Operation};
use crate::sequences::set_cell;

/// What a slip buffer is filled with before it is lent.
const LENT: u8 = 0xa5;

/// A modulus and terms.
type Counted<'a> = (u64, &'a [u64]);

/// Two terms disagree.
pub const fn disagree_at(place: usize) -> Told {
    (31, Some(place))
}

/// Merges two slips; the slip written. A refused merge leaves the buffer as lent.
pub fn outcome(group: &mut Group, first: &[u8], second: &[u8]) -> Result<Vec<u8>, Told> {
    let lent = vec![LENT; 260];
    let mut slip = lent.clone();
    let reply = told(merge(first, second, &mut slip));
    let kept = reply.is_ok() || slip == lent;
    group.check(kept, || format!("{reply:?}, not as lent: {slip:?}"));
    reply.map(|()| slip)
}

pub fn by_hand(group: &mut Group) {
    joined(group);
    lengths(group);
    refused(group);
    counts(group);
    sizes(group);
    first_slip_first(group);
    places(group);
    replayed(group);
}

// ---- joined ----

/// 0 to 35 modulo 36, and what they leave modulo 12 and modulo 18.
const MODULO_36: [u64; 36] = [
    0, 1, 2, 3, 4, 5, 6, 7, 8, 9, 10, 11, 12, 13, 14, 15, 16, 17, 18, 19, 20, 21, 22, 23, 24, 25,
    26, 27, 28, 29, 30, 31, 32, 33, 34, 35,
];
const MODULO_12: [u64; 36] = [
    0, 1, 2, 3, 4, 5, 6, 7, 8, 9, 10, 11, 0, 1, 2, 3, 4, 5, 6, 7, 8, 9, 10, 11, 0, 1, 2, 3, 4, 5,
    6, 7, 8, 9, 10, 11,
];
const MODULO_18: [u64; 36] = [
    0, 1, 2, 3, 4, 5, 6, 7, 8, 9, 10, 11, 12, 13, 14, 15, 16, 17, 0, 1, 2, 3, 4, 5, 6, 7, 8, 9, 10,
    11, 12, 13, 14, 15, 16, 17,
];

/// Two slips and the one that they are joined to.
const JOINED: [[Counted; 3]; 29] = [
    // 25 is 1 modulo 12 and 7 modulo 18; 19 is 7 and 1; 29, 24 and 23 likewise.
    [(12, &[1, 7, 5, 0, 11]), (18, &[7, 1, 11, 6, 5]), (36, &[25, 19, 29, 24, 23])],
    [(12, &MODULO_12), (18, &MODULO_18), (36, &MODULO_36)],
    // Fibonacci's numbers, up to 55, 89 and 144.
    [
        (12, &[1, 1, 2, 3, 5, 8, 1, 9, 10, 7, 5, 0]),
        (18, &[1, 1, 2, 3, 5, 8, 13, 3, 16, 1, 17, 0]),
        (36, &[1, 1, 2, 3, 5, 8, 13, 21, 34, 19, 17, 0]),
    ],
    // Prime to each other: any two terms go together.
    [(2, &[0, 1, 0, 1, 0, 1]), (3, &[0, 1, 2, 0, 1, 2]), (6, &[0, 1, 2, 3, 4, 5])],
    [(4, &[3, 0, 1]), (9, &[8, 1, 0]), (36, &[35, 28, 9])],
    // 2,080 is 33 × 63 + 1 and 32 × 65, 2,016 is 32 × 63 and 31 × 65 + 1.
    [(63, &[62, 1, 0, 0]), (65, &[64, 0, 1, 0]), (4095, &[4094, 2080, 2016, 0])],
    // 3,416 is 56 × 61 and 50 × 67 + 66, 670 is 10 × 61 + 60 and 10 × 67.
    [(61, &[0, 60]), (67, &[66, 0]), (4087, &[3416, 670])],
    [(2047, &[2046, 0, 1]), (2, &[1, 1, 0]), (4094, &[4093, 2047, 2048])],
    [(5, &[4, 0]), (819, &[818, 0]), (4095, &[4094, 0])],
    // 2,926 is 7 × 418 and 5 × 585 + 1.
    [(7, &[0]), (585, &[1]), (4095, &[2926])],
    // The common divisors 2, 4, 10, 3.
    [(4, &[3, 1, 0, 2]), (6, &[5, 3, 2, 0]), (12, &[11, 9, 8, 6])],
    [(8, &[7, 1, 4]), (12, &[11, 5, 0]), (24, &[23, 17, 12])],
    [(50, &[49, 10]), (30, &[29, 0]), (150, &[149, 60])],
    // 2,729 is 1,365 + 1,364 and 6 × 454 + 5; 1,368 is 1,365 + 3 and 6 × 228.
    [(1365, &[1364, 0, 3]), (6, &[5, 3, 0]), (2730, &[2729, 1365, 1368])],
    // Exactly at the limit with the common divisors 3, 91 and 45: 3,276 is 4 × 819 and
    // 7 × 455 + 91; 630 is 585 + 45 and 2 × 315.
    [(1365, &[1364, 0]), (9, &[8, 6]), (4095, &[4094, 1365])],
    [(819, &[0]), (455, &[91]), (4095, &[3276])],
    [(585, &[45]), (315, &[0]), (4095, &[630])],
    // One divides the other.
    [(6, &[5, 3, 0]), (12, &[11, 3, 6]), (12, &[11, 3, 6])],
    [(2, &[0, 1]), (4, &[2, 3]), (4, &[2, 3])],
    [(2048, &[2047, 5]), (4, &[3, 1]), (2048, &[2047, 5])],
    [(1365, &[1364, 0]), (4095, &[4094, 2730]), (4095, &[4094, 2730])],
    [(4094, &[4093, 0]), (2, &[1, 0]), (4094, &[4093, 0])],
    // Equal.
    [(12, &[5, 6]), (12, &[5, 6]), (12, &[5, 6])],
    [(2, &[0, 1, 1]), (2, &[0, 1, 1]), (2, &[0, 1, 1])],
    [(4095, &[4094]), (4095, &[4094]), (4095, &[4094])],
    // No terms.
    [(12, &[]), (18, &[]), (36, &[])],
    [(63, &[]), (65, &[]), (4095, &[])],
    [(4095, &[]), (4095, &[]), (4095, &[])],
    // Zeros stay zeros.
    [(12, &[0, 0, 0]), (18, &[0, 0, 0]), (36, &[0, 0, 0])],
];

/// In this order and in the other; the cells one by one.
fn joined(group: &mut Group) {
    for [(x, s), (y, t), (m, terms)] in JOINED {
        let (first, second) = (slip_of(x, s), slip_of(y, t));
        let expected = padded(&[&[m, terms.len() as u64], terms].concat(), 130);
        for (one, other) in [(&first, &second), (&second, &first)] {
            let found = outcome(group, one, other).map(|slip| cells(&slip));
            let right = found.as_ref() == Ok(&expected);
            group.check(right, || format!("{x}: {s:?}, {y}: {t:?}: {found:?}"));
        }
    }
}

// ---- lengths ----

/// Two slips, the joined one, and the least lengths for the first k terms of each.
const LENGTHS: [([Counted; 3], [&[usize]; 3]); 7] = [
    // Fibonacci's numbers: 1,1 has the length 1, and from 1,1,2 on it is 2.
    (
        [(12, &[1, 1, 2, 3, 5]), (18, &[1, 1, 2, 3, 5]), (36, &[1, 1, 2, 3, 5])],
        [&[0, 1, 1, 2, 2, 2], &[0, 1, 1, 2, 2, 2], &[0, 1, 1, 2, 2, 2]],
    ),
    // Ones modulo 2, Fibonacci's numbers modulo 3.
    (
        [(2, &[1, 1, 1, 1]), (3, &[1, 1, 2, 0]), (6, &[1, 1, 5, 3])],
        [&[0, 1, 1, 1, 1], &[0, 1, 1, 2, 2], &[0, 1, 1, 2, 2]],
    ),
    // First the second is longer, then the first.
    ([(2, &[0, 1]), (3, &[1, 1]), (6, &[4, 1])], [&[0, 0, 2], &[0, 1, 1], &[0, 1, 2]]),
    (
        [(4, &[0, 0, 2]), (6, &[2, 4, 2]), (12, &[8, 4, 2])],
        [&[0, 0, 0, 3], &[0, 1, 1, 1], &[0, 1, 1, 3]],
    ),
    // Cases 6 and 5 of 01 with others: 2,1 modulo 4 with 0,1, and 2,2 modulo 4 with 0,0.
    ([(4, &[2, 1]), (6, &[0, 1]), (12, &[6, 1])], [&[0, 1, 2], &[0, 0, 2], &[0, 1, 2]]),
    ([(4, &[2, 2]), (6, &[0, 0]), (12, &[6, 6])], [&[0, 1, 1], &[0, 0, 0], &[0, 1, 1]]),
    // Case 4 of 01, and what it leaves modulo 3: 0,0,1,2,0 has 0 up to the second term and then
    // 3, since three coefficients give any two terms after 0,0,1.
    (
        [(9, &[6, 3, 1, 5, 6]), (3, &[0, 0, 1, 2, 0]), (9, &[6, 3, 1, 5, 6])],
        [&[0, 1, 1, 3, 3, 3], &[0, 0, 0, 3, 3, 3], &[0, 1, 1, 3, 3, 3]],
    ),
];

/// "Its least length is the larger of the two; .. for every k as well."
fn lengths(group: &mut Group) {
    for (counted, lengths) in LENGTHS {
        let [first, second, third] = counted.map(|(m, terms)| slip_of(m, terms));
        let found = outcome(group, &first, &second);
        group.check(found.as_ref() == Ok(&third), || format!("{counted:?}: {found:?}"));
        for ((m, terms), lengths) in counted.into_iter().zip(lengths) {
            let found = join::profile(m, terms);
            group.check(found == lengths, || format!("{terms:?} modulo {m}: {found:?}"));
        }
        let [one, other, larger] = lengths;
        let right = (0..larger.len()).all(|k| larger[k] == one[k].max(other[k]));
        group.check(right, || format!("{lengths:?}"));
    }
}

// ---- refused ----

/// Slips that are good for themselves, and what they get in both orders.
const REFUSED: [(Counted, Counted, Told); 44] = [
    // 29, whatever the terms and the multiple are.
    ((12, &[1]), (18, &[]), bare(29)),
    ((12, &[1, 2, 3]), (18, &[1, 2]), bare(29)),
    ((12, &[1, 2, 3, 4, 5]), (18, &[1]), bare(29)),
    ((12, &[5, 0]), (12, &[5]), bare(29)),
    ((12, &[1, 2]), (18, &[2]), bare(29)),
    ((12, &[0]), (12, &[1, 1]), bare(29)),
    ((64, &[1]), (65, &[]), bare(29)),
    ((4095, &[1, 1]), (4094, &[1]), bare(29)),
    ((4092, &[1, 1]), (18, &[2]), bare(29)),
    // 30: 4,097 and 4,098, then 4,160, 6,300 and far above; 4,096 is no such multiple.
    ((17, &[1]), (241, &[1]), bare(30)),
    ((2, &[1]), (2049, &[1]), bare(30)),
    ((3, &[]), (1366, &[]), bare(30)),
    ((6, &[5]), (683, &[682]), bare(30)),
    ((64, &[1, 2]), (65, &[1, 2]), bare(30)),
    ((64, &[]), (65, &[]), bare(30)),
    ((1260, &[0]), (1050, &[0]), bare(30)),
    ((4093, &[1]), (2, &[1]), bare(30)),
    ((4095, &[0]), (2, &[0]), bare(30)),
    ((2, &[]), (4095, &[]), bare(30)),
    ((4095, &[4094]), (4094, &[4093]), bare(30)),
    // 66,560, 133,120, 65,572 and 65,538 in two bytes would be 1,024, 2,048, 36 and 2.
    ((1024, &[0]), (65, &[0]), bare(30)),
    ((2048, &[0]), (65, &[0]), bare(30)),
    ((676, &[0]), (97, &[0]), bare(30)),
    ((198, &[0]), (331, &[0]), bare(30)),
    // 30 before 31: the common divisors are 2, 6 and 35.
    ((50, &[0]), (164, &[1]), bare(30)),
    ((4092, &[1, 2]), (18, &[2, 3]), bare(30)),
    ((4095, &[0]), (70, &[1]), bare(30)),
    // 31: modulo 6.
    ((12, &[1]), (18, &[2]), disagree_at(0)),
    ((12, &[0, 0, 0]), (18, &[0, 6, 1]), disagree_at(2)),
    ((12, &[0, 1, 2, 3, 4]), (18, &[0, 2, 2, 4, 4]), disagree_at(1)),
    ((12, &[11, 11]), (18, &[17, 16]), disagree_at(1)),
    // The same modulo 3 and modulo 2 alone, then modulo 2 of 4, and modulo 3 of 9.
    ((12, &[0]), (18, &[3]), disagree_at(0)),
    ((12, &[0]), (18, &[2]), disagree_at(0)),
    ((8, &[0]), (12, &[2]), disagree_at(0)),
    ((9, &[4, 1]), (27, &[13, 4]), disagree_at(1)),
    // Equal moduli: the terms must be equal, though these are so modulo 6.
    ((12, &[5]), (12, &[11]), disagree_at(0)),
    ((12, &[5, 6]), (12, &[5, 7]), disagree_at(1)),
    ((2, &[0, 1, 0, 1]), (2, &[0, 1, 1, 0]), disagree_at(2)),
    ((4095, &[0, 4094]), (4095, &[0, 4093]), disagree_at(1)),
    // One divides the other: the terms must be the same modulo the smaller one.
    ((6, &[5]), (12, &[10]), disagree_at(0)),
    ((2048, &[2047, 4]), (4, &[3, 1]), disagree_at(1)),
    ((1365, &[0, 0, 1]), (4095, &[0, 1365, 0]), disagree_at(2)),
    // The product is above the limit, and the multiple is not.
    ((1365, &[0]), (6, &[1]), disagree_at(0)),
    ((819, &[0, 1]), (455, &[90, 1]), disagree_at(0)),
];

fn refused(group: &mut Group) {
    for ((x, s), (y, t), expected) in REFUSED {
        let (first, second) = (slip_of(x, s), slip_of(y, t));
        for (one, other) in [(&first, &second), (&second, &first)] {
            let found = outcome(group, one, other);
            let right = found == Err(expected);
            group.check(right, || format!("{x}: {s:?}, {y}: {t:?}: {found:?}"));
        }
    }
}

/// Ones of every two counts, modulo 12 and 18, and modulo 64 and 65: 29 where they differ.
fn counts(group: &mut Group) {
    for (n, other) in (0..=128).flat_map(|n| (0..=128).map(move |other| (n, other))) {
        let ones = |m: u64, n: usize| slip_of(m, &vec![1; n]);
        let found = outcome(group, &ones(12, n), &ones(18, other));
        let expected = if n == other { Ok(ones(36, n)) } else { Err(bare(29)) };
        group.check(found == expected, || format!("{n} and {other}: {found:?}"));
        let found = outcome(group, &ones(64, n), &ones(65, other));
        let expected = Err(bare(if n == other { 30 } else { 29 }));
        group.check(found == expected, || format!("{n} and {other}: {found:?}"));
    }
}

/// 5 for every other size than 260 of each buffer, good slips or bad.
fn sizes(group: &mut Group) {
    for size in (0..600).filter(|&size| size != 260) {
        for buffer in 0..3 {
            for (x, y) in [(12, 18), (0, 0), (64, 65)] {
                let mut lent = [slip_of(x, &[1]), slip_of(y, &[1]), vec![LENT; 260]];
                lent[buffer].resize(size, 0);
                let [first, second, mut slip] = lent.clone();
                let reply = told(merge(&first, &second, &mut slip));
                let right = reply == Err(bare(5)) && slip == lent[2];
                group.check(right, || format!("buffer {buffer} of {size}: {reply:?}"));
            }
        }
    }
}

/// What a slip of five ones is given, and the refusal: one for each of 1 to 4.
const OWN: [(&[(usize, u16)], Told); 9] = [
    (&[(0, 0)], bare(1)),
    (&[(0, 1), (1, 129)], bare(1)),
    (&[(0, 4096)], bare(1)),
    (&[(1, 129), (2, 18)], bare(2)),
    (&[(1, 65535)], bare(2)),
    (&[(2, 18), (6, 18)], term_at(0)),
    (&[(6, 65535), (7, 1)], term_at(4)),
    (&[(7, 1)], bare(4)),
    (&[(129, 4096)], bare(4)),
];

/// "Each slip's own checks, first slip first": whatever the first gets, the second does not
/// matter, so that a 4 of the first comes before a 1 of the second. Both come before 29, 30
/// and 31: the other slip has another count, a large multiple, terms that disagree.
fn first_slip_first(group: &mut Group) {
    let spoiled = |m: u64, faults: &[(usize, u16)]| {
        let mut slip = slip_of(m, &[1; 5]);
        faults.iter().for_each(|&(cell, value)| set_cell(&mut slip, cell, value));
        slip
    };
    for (faults, expected) in OWN {
        let mut others: Vec<Vec<u8>> = OWN.iter().map(|(other, _)| spoiled(18, other)).collect();
        let good = [(18, 1, 5), (18, 1, 4), (4093, 1, 5), (4093, 1, 0), (18, 2, 5)];
        let good = good.map(|(m, term, n)| slip_of(m, &vec![term; n]));
        others.extend(good.clone());
        for second in others {
            let found = outcome(group, &spoiled(12, faults), &second);
            group.check(found == Err(expected), || format!("{faults:?} first: {found:?}"));
        }
        for first in good {
            let found = outcome(group, &first, &spoiled(18, faults));
            group.check(found == Err(expected), || format!("{faults:?} second: {found:?}"));
        }
    }
}

/// 31 at each place of 128, alone and with all later ones; 3 likewise, of each slip.
fn places(group: &mut Group) {
    let good = [12, 18].map(|m| slip_of(m, &[1; 128]));
    for place in 0..128 {
        let at = |slip: &[u8], value: u16, end: usize| {
            let mut slip = slip.to_vec();
            (place..end).for_each(|place| set_cell(&mut slip, 2 + place, value));
            slip
        };
        for end in [place + 1, 128] {
            // 8 is 2 modulo 6, and 7 is 1.
            let all = [
                (at(&good[0], 8, end), good[1].clone(), disagree_at(place)),
                (good[0].clone(), at(&good[1], 8, end), disagree_at(place)),
                (at(&good[0], 12, end), good[1].clone(), term_at(place)),
                (good[0].clone(), at(&good[1], 18, end), term_at(place)),
            ];
            for (first, second, expected) in all {
                let found = outcome(group, &first, &second);
                group.check(found == Err(expected), || format!("{expected:?}: {found:?}"));
            }
            // 7 modulo 12 and 1 modulo 18 is 19.
            let found = outcome(group, &at(&good[0], 7, end), &good[1]);
            let expected = at(&slip_of(36, &[1; 128]), 19, end);
            group.check(found == Ok(expected), || format!("19 at {place}: {found:?}"));
        }
    }
}

// ---- the replay ----

/// A column for the reading that is held, which no merge touches.
fn column(list: &[u8]) -> Call {
    let (operation, lengths) = (Operation::PushAll, [list.len() as u16, 0, 0]);
    Call { operation, fill: 0xee, number: 0, lengths, l: 0, payload: list.to_vec() }
}

/// A merge of terms modulo 12 and modulo 18 with some cells of the slips changed.
fn call(terms: [&[u64]; 2], cells: [&[(usize, u16)]; 2], sizes: [usize; 3]) -> Call {
    let mut slips = [slip_of(12, terms[0]), slip_of(18, terms[1])];
    for (slip, changes) in slips.iter_mut().zip(cells) {
        changes.iter().for_each(|&(cell, value)| set_cell(slip, cell, value));
    }
    merging(&slips, sizes, 0xee)
}

/// Each call with its line. The hashes were computed apart from this program: that of the slip
/// of 25,19,29,24,23 modulo 36, those of 260, 259 and 261 bytes 238, and those of README.md.
fn script() -> Vec<(Call, &'static str)> {
    let terms: [&[u64]; 2] = [&[1, 7, 5, 0, 11], &[7, 1, 11, 6, 5]];
    let right = [260; 3];
    let opening = Call { operation: Operation::Open, number: 9, ..column(&[]) };
    vec![
        (opening, "open ok 50315e8c"),
        (column(&[6, 0, 3, 0, 1, 0, 5, 0, 6, 0]), "push_all taken 5 ok 2f8aa196 17edca52"),
        (call(terms, [&[], &[]], right), "merge ok f8c20e0c"),
        (call(terms, [&[], &[(3, 2), (5, 7)]], right), "merge refused 31 at 1 0de6c695"),
        (call([&[1; 128]; 2], [&[(129, 2)], &[]], right), "merge refused 31 at 127 0de6c695"),
        (call(terms, [&[(0, 4092)], &[(2, 8)]], right), "merge refused 30 0de6c695"),
        (call(terms, [&[(0, 4092)], &[(1, 6)]], right), "merge refused 29 0de6c695"),
        (call(terms, [&[], &[(7, 1), (1, 4)]], right), "merge refused 4 0de6c695"),
        (call(terms, [&[], &[(6, 18), (7, 1)]], right), "merge refused 3 at 4 0de6c695"),
        (call(terms, [&[(4, 12)], &[(2, 18)]], right), "merge refused 3 at 2 0de6c695"),
        (call(terms, [&[(129, 1)], &[(0, 0)]], right), "merge refused 4 0de6c695"),
        (call(terms, [&[], &[(1, 129)]], right), "merge refused 2 0de6c695"),
        (call(terms, [&[(0, 4096)], &[]], right), "merge refused 1 0de6c695"),
        (call(terms, [&[(0, 0)], &[(0, 0)]], [260, 260, 259]), "merge refused 5 9345d0d9"),
        (call(terms, [&[], &[]], [260, 260, 261]), "merge refused 5 5d4a73a1"),
        (call(terms, [&[], &[]], [259, 261, 260]), "merge refused 5 0de6c695"),
        (call(terms, [&[], &[]], [0, 520, 0]), "merge refused 5 811c9dc5"),
        (column(&[]), "push_all taken 0 ok 2f8aa196 811c9dc5"),
        (call(terms, [&[], &[]], right), "merge ok f8c20e0c"),
    ]
}

/// The lines one by one, the bytes of a call, and a script that is cut inside the second slip.
fn replayed(group: &mut Group) {
    let script = script();
    let bytes: Vec<u8> = script.iter().flat_map(|(call, _)| call.bytes()).collect();
    let (text, whole) = replay(&bytes);
    group.check(whole && text.lines().count() == script.len(), || text.clone());
    for (line, (_, expected)) in text.lines().zip(&script) {
        group.check(line == *expected, || format!("{line} for {expected}"));
    }
    let (call, line) = &script[2];
    let header = [12, 0xee, 0, 0, 0, 0, 0, 0, 4, 1, 4, 1, 4, 1, 0, 0];
    let first = [12, 0, 5, 0, 1, 0, 7, 0, 5, 0, 0, 0, 11, 0];
    let second = [18, 0, 5, 0, 7, 0, 1, 0, 11, 0, 6, 0, 5, 0];
    let parts = [&header[..], &first, &[0; 246], &second, &[0; 246]].concat();
    group.check(call.bytes() == parts, || format!("{:?}", call.bytes()));
    group.check(replay(&parts) == (format!("{line}\n"), true), || format!("{line}"));
    let (text, whole) = replay(&parts[..parts.len() - 1]);
    group.check(!whole && text == "script cut short\n", || text.clone());
}
