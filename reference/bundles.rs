//! A script of bundles of slips (02, A12): first each size, each kind of slip at each place, each
//! kind of shelf and each refusal by hand, then random ones.

use crate::calls::{record_with, slip_of, synthesize};
use crate::catalogues::{
    accession, differing, made, matching, put, set_number, visitor, without_numbers, ASKERS, BAD,
    WRONG,
};
use crate::limits::*;
use crate::random::Random;
use crate::scenarios::{fitted, plain, trivial};
use crate::script::{Call, Operation};
use crate::sequences::{self, damage, set_cell};

/// What the lent bytes are where the bundles are not random.
const FILL: u8 = 0xa5;

/// A modulus and terms.
type Asked = (u64, Vec<u64>);

/// `bundles SEED COUNT`: the bundles by hand, then that many random ones.
pub fn bundles(seed: u64, count: u64) -> Vec<u8> {
    let mut script: Vec<u8> = by_hand().iter().flat_map(Call::bytes).collect();
    script.extend(rounds(seed, count));
    script
}

/// A bundle with buffers for these sizes; replies are counted in numbers.
pub fn lending(who: u32, slips: &[u8], shelf: &[u8], records: usize, replies: usize) -> Call {
    Call {
        operation: Operation::LookUpBatch,
        fill: FILL,
        number: who,
        lengths: [slips.len() as u16, shelf.len() as u16, records as u16],
        l: replies as u16,
        payload: [slips, shelf].concat(),
    }
}

/// A bundle of whole slips with the right buffers.
pub fn asking(who: u32, slips: &[u8], shelf: &[u8]) -> Call {
    let count = slips.len() / SLIP_BYTES;
    lending(who, slips, shelf, count * RECORD_BYTES, count)
}

/// A bundle for an editor, and the same for a visitor.
fn both(slips: &[u8], shelf: &[u8]) -> [Call; 2] {
    [1, 0].map(|who| asking(who, slips, shelf))
}

// ---- slips and records ----

/// 6,3,1,5,6 modulo 9, which is the slip that matters in most bundles by hand.
const TERMS: [u64; 5] = [6, 3, 1, 5, 6];

/// Slips of several kinds. The first ones are found on most shelves by hand.
fn slips() -> Vec<Vec<u8>> {
    let short: [(u64, &[u64]); 15] = [
        (9, &TERMS),
        (4, &[2, 1]),
        (7, &[1, 1, 2, 3, 5, 1]),
        (2, &[]),
        (6, &[3, 3]),
        (5, &[0, 0, 0]),
        (4, &[2, 2]),
        (2, &[0, 0, 1]),
        (6, &[1, 0]),
        (9, &[]),
        (4095, &[4094]),
        (2048, &[1024, 512]),
        (30, &[1, 29, 7]),
        (4093, &[0, 1]),
        (256, &[255, 1]),
    ];
    let mut all: Vec<Vec<u8>> = short.iter().map(|(m, terms)| slip_of(*m, terms)).collect();
    all.push(full_record(0)[..SLIP_BYTES].to_vec());
    all
}

/// That many slips end to end; after the 16th they come again.
fn some_slips(count: usize) -> Vec<u8> {
    slips().into_iter().cycle().take(count).flatten().collect()
}

fn query() -> Vec<u8> {
    slip_of(9, &TERMS)
}

/// The record of that slip with a number.
fn record(number: u16) -> Vec<u8> {
    numbered(9, &TERMS, number)
}

fn numbered(m: u64, terms: &[u64], number: u16) -> Vec<u8> {
    let mut record = made(m, terms);
    set_number(&mut record, number);
    record
}

/// A good record that has few zeros: 128 terms modulo 4,095 as b, with a = 1.
fn full_record(number: u16) -> Vec<u8> {
    let terms = [0x0e0d; TERMS_LIMIT];
    let mut record = record_with(&slip_of(4095, &terms), &trivial(&terms));
    set_number(&mut record, number);
    record
}

/// The record with a fault that gets 24.
fn bad_record(fault: (usize, u8), number: u16) -> Vec<u8> {
    let mut bad = record(number);
    put(&mut bad, &[fault]);
    bad
}

/// Of the slips the last, the third, the first and the second, with numbers; the first twice.
fn some_shelf() -> Vec<u8> {
    let records = [
        full_record(0x1234),
        numbered(7, &[1, 1, 2, 3, 5, 1], 7),
        record(256),
        numbered(4, &[2, 1], 65535),
        record(9),
    ];
    records.concat()
}

// ---- by hand ----

fn by_hand() -> Vec<Call> {
    [
        sizes(),
        the_same_slip(),
        duplicates(),
        refused_slips(),
        bad_records(),
        near_records(),
        same_start(),
        places(),
        askers(),
        wrong_slips_lengths(),
        wrong_records_lengths(),
        wrong_replies_lengths(),
        wrong_shelves(),
        orders(),
        fills(),
    ]
    .concat()
}

/// No slip, one and more, up to 84, for which the script can still tell the right buffers, then
/// more, up to what it can tell at all; from an empty shelf too.
fn sizes() -> Vec<Call> {
    let mut all = Vec::new();
    for count in [0, 1, 2, 3, 8, 14, 15, 16, 17, 18, 19, 24, 31, 32, 33, 48, 64, 84] {
        all.extend(both(&some_slips(count), &some_shelf()));
    }
    for count in [0, 1, 2, 15, 16, 17, 18] {
        all.extend(both(&some_slips(count), &[]));
    }
    for (count, records) in [(85, 84 * RECORD_BYTES), (128, 65535), (252, 252 * 256)] {
        all.push(lending(1, &some_slips(count), &some_shelf(), records, count));
    }
    all
}

/// The slip with these faults.
fn wrong_slip(faults: &[(usize, u8)]) -> Vec<u8> {
    let mut slip = query();
    put(&mut slip, faults);
    slip
}

/// 16 times the same slip: found at several places, made, refused for each reason.
fn the_same_slip() -> Vec<Call> {
    let other = numbered(4, &[2, 1], 3);
    let bad = bad_record(BAD[0], 5);
    let mut shelves = vec![record(7), Vec::new(), other.clone(), [record(7), bad.clone()].concat()];
    shelves.push([other.clone(), other, record(7)].concat());
    shelves.push([bad, record(7)].concat());
    let mut all: Vec<Call> =
        shelves.iter().flat_map(|shelf| both(&query().repeat(16), shelf)).collect();
    for faults in WRONG {
        all.extend(both(&wrong_slip(faults).repeat(16), &record(7)));
    }
    all
}

/// Two slips in several orders: one that is found, and one that is found as well, made, or refused
/// by itself or for its record.
fn duplicates() -> Vec<Call> {
    let (found, other, wrong) = (query(), slip_of(4, &[2, 1]), wrong_slip(WRONG[3]));
    let mut bad = numbered(4, &[2, 1], 2);
    put(&mut bad, &[BAD[0]]);
    let good = [numbered(4, &[2, 1], 1), record(7)].concat();
    let shelves = [record(7), good, [record(7), bad].concat()];
    let mut all = Vec::new();
    for (second, shelf) in
        [&other, &wrong].into_iter().flat_map(|s| shelves.iter().map(move |t| (s, t)))
    {
        for order in ["aa", "bb", "aab", "aba", "baa", "abab", "bbaab", "abba"] {
            let slips: Vec<u8> = order
                .bytes()
                .flat_map(|letter| if letter == b'a' { found.clone() } else { second.clone() })
                .collect();
            all.extend(both(&slips, shelf));
        }
    }
    all
}

/// What makes the slip a wrong one: besides those of single servings other moduli and counts, more
/// places, and several faults.
fn faults_of_slips() -> Vec<Vec<u8>> {
    let more: [&[(usize, u16)]; 13] = [
        &[(0, 0)],
        &[(0, 4096)],
        &[(0, 65535)],
        &[(1, 65535)],
        &[(1, 256)],
        &[(4, 9)],
        &[(6, 65535)],
        &[(1, 128), (66, 9)],
        &[(3, 9), (5, 9)],
        &[(7, 1)],
        &[(0, 1), (1, 129), (2, 9), (129, 1)],
        &[(1, 129), (2, 9), (129, 1)],
        &[(2, 256), (129, 1)],
    ];
    let mut all: Vec<Vec<u8>> = WRONG.into_iter().map(wrong_slip).collect();
    for faults in more {
        let mut slip = query();
        faults.iter().for_each(|&(cell, value)| set_cell(&mut slip, cell, value));
        all.push(slip);
    }
    all
}

/// The slips with another one as the first, in the middle and as the last.
fn with_another(slips: &[Vec<u8>], other: &[u8]) -> Vec<Vec<u8>> {
    let with = |place: usize| [&slips[..place].concat(), other, &slips[place..].concat()].concat();
    vec![with(0), with(slips.len() / 2), with(slips.len())]
}

/// Wrong slips at each place of a bundle, from a shelf that has a record with that very slip, and
/// several of them in a row.
fn refused_slips() -> Vec<Call> {
    let good: Vec<Vec<u8>> = slips().into_iter().take(4).collect();
    let mut all = Vec::new();
    for wrong in faults_of_slips() {
        let there = [&wrong[..], &record(8)[SLIP_BYTES..]].concat();
        let shelf = [there, record(7), numbered(4, &[2, 1], 1)].concat();
        all.extend(with_another(&good, &wrong).iter().flat_map(|slips| both(slips, &shelf)));
        all.push(asking(1, &wrong, &shelf));
        all.push(asking(0, &[&wrong[..], &wrong, &query(), &wrong].concat(), &shelf));
    }
    let wrong = faults_of_slips();
    all.extend(both(&wrong[..16].concat(), &record(7)));
    all.extend(both(&wrong[3..].concat(), &[]));
    all
}

/// Records that get 24, at each place of a bundle: alone on the shelf, with a good one of the same
/// slip after them, and after a good one.
fn bad_records() -> Vec<Call> {
    let good: Vec<Vec<u8>> = slips().into_iter().skip(1).take(4).collect();
    let mut all = Vec::new();
    for fault in BAD {
        let (bad, other) = (bad_record(fault, 0x0101), numbered(4, &[2, 1], 1));
        for shelf in [
            [&other[..], &bad].concat(),
            [&bad[..], &other, &record(7)].concat(),
            [&record(7)[..], &bad, &other].concat(),
        ] {
            let bundles = with_another(&good, &query());
            all.extend(bundles.iter().flat_map(|slips| both(slips, &shelf)));
        }
    }
    let bad: Vec<u8> = BAD.into_iter().flat_map(|fault| bad_record(fault, 3)).collect();
    let (first, last) = ([&record(1)[..], &bad].concat(), [&bad[..], &record(1)].concat());
    for shelf in [first, last] {
        all.extend(both(&[query(), query()].concat(), &shelf));
    }
    all
}

/// Bytes of a slip: its modulus, its count, the first terms, the next and the last ones.
const BYTES: [usize; 22] =
    [0, 1, 2, 3, 4, 5, 6, 7, 8, 9, 10, 11, 12, 13, 14, 15, 67, 131, 132, 257, 258, 259];

/// A record that differs from a match in one byte of the slip: alone, before the match and after
/// it. Both slips are in the bundle, and one between them.
fn near_records() -> Vec<Call> {
    let mut all = Vec::new();
    for byte in BYTES {
        let mut near = record(3);
        near[byte] ^= 2;
        let slips = [&query()[..], &slip_of(4, &[2, 1]), &near[..SLIP_BYTES]].concat();
        for shelf in
            [near.clone(), [&near[..], &record(7)].concat(), [&record(7)[..], &near].concat()]
        {
            all.extend(both(&slips, &shelf));
        }
    }
    all
}

/// Slips that have the same first four terms, which are bytes 4 to 11: under other moduli, with
/// more and fewer terms, with other terms after these.
fn same_terms() -> Vec<Asked> {
    let mut last = [0; TERMS_LIMIT];
    last[..5].copy_from_slice(&TERMS);
    last[127] = 8;
    vec![
        (9, TERMS.to_vec()),
        (10, TERMS.to_vec()),
        (4095, TERMS.to_vec()),
        (9, vec![6, 3, 1, 5]),
        (9, vec![6, 3, 1, 5, 6, 0]),
        (9, vec![6, 3, 1, 5, 6, 0, 0]),
        (9, vec![6, 3, 1, 5, 7]),
        (9, vec![6, 3, 1, 5, 6, 1]),
        (9, last.to_vec()),
    ]
}

/// Those in one bundle, from shelves that have them in each turned order and in the other
/// direction, and from shelves that lack one; then two and two of them.
fn same_start() -> Vec<Call> {
    let asked = same_terms();
    let slips: Vec<Vec<u8>> = asked.iter().map(|(m, terms)| slip_of(*m, terms)).collect();
    let records: Vec<Vec<u8>> =
        asked.iter().zip(1..).map(|((m, terms), number)| numbered(*m, terms, number)).collect();
    let bundle = slips.concat();
    let mut all = Vec::new();
    for place in 0..records.len() {
        let turned = [&records[place..], &records[..place]].concat();
        let backwards: Vec<Vec<u8>> = turned.iter().rev().cloned().collect();
        all.push(asking(1, &bundle, &turned.concat()));
        all.push(asking(257, &bundle, &backwards.concat()));
        all.push(asking(1, &bundle, &turned[1..].concat()));
    }
    for (i, j) in (0..slips.len()).flat_map(|i| [1, 2, 3].map(|d| (i, (i + d) % slips.len()))) {
        let pair = [&slips[i][..], &slips[j]].concat();
        all.push(asking(1, &pair, &records[j]));
        all.push(asking(0, &pair, &[&records[j][..], &records[i]].concat()));
    }
    all
}

/// A match as the first record and as the last of one, two, 16 and 84, the most that the script
/// can tell; 16 slips from shelves that have them in their order and in the other.
fn places() -> Vec<Call> {
    let (asked, other) = (record(0x0201), numbered(4, &[2, 2], 5));
    let slips = [slip_of(4, &[2, 1]), query(), slip_of(4, &[2, 2])].concat();
    let mut all = Vec::new();
    for count in [1, 2, 16, 84] {
        let others = other.repeat(count - 1);
        all.push(asking(1, &slips, &[&asked[..], &others].concat()));
        all.push(asking(2, &slips, &[&others[..], &asked].concat()));
    }
    let mut records: Vec<Vec<u8>> = Vec::new();
    for (slip, number) in self::slips().iter().zip(0x0300..) {
        let mut record = vec![0; RECORD_BYTES];
        synthesize(slip, &mut record).expect("a good slip");
        set_number(&mut record, number);
        records.push(record);
    }
    let in_order = records.concat();
    records.reverse();
    for shelf in [in_order, records.concat()] {
        all.extend(both(&some_slips(16), &shelf));
    }
    all
}

/// Everyone who matters before records with numbers, one that gets 24 and one that is made; then
/// the same for three of them with other numbers on the shelf.
fn askers() -> Vec<Call> {
    let slips =
        [query(), slip_of(4, &[2, 1]), slip_of(6, &[3, 3]), slip_of(2, &[]), query()].concat();
    let shelf = |numbers: [u16; 3]| {
        let mut bad = numbered(6, &[3, 3], numbers[1]);
        put(&mut bad, &[BAD[0]]);
        [record(numbers[0]), bad, numbered(4, &[2, 1], numbers[2])].concat()
    };
    let mut all: Vec<Call> =
        ASKERS.iter().map(|&who| asking(who, &slips, &shelf([0x1234, 1, 256]))).collect();
    for who in [0, 257, 1] {
        for numbers in [[0, 0, 0], [1, 0, 0], [1, 65535, 0], [1, 65535, 256], [7, 7, 7]] {
            all.push(asking(who, &slips, &shelf(numbers)));
        }
    }
    all
}

/// Other lengths of the slips, with buffers for as many whole ones as there are, and for one more.
fn wrong_slips_lengths() -> Vec<Call> {
    let (slips, shelf) = (some_slips(18), some_shelf());
    let mut all = Vec::new();
    for size in [1, 2, 130, 258, 259, 261, 262, 519, 521, 776, 778, 4159, 4161, 4419, 4421, 4679] {
        for count in [size / SLIP_BYTES, size / SLIP_BYTES + 1] {
            all.push(lending(1, &slips[..size], &shelf, count * RECORD_BYTES, count));
        }
    }
    all
}

/// Other lengths of the records: none, a byte or a record less or more, 776 for each.
fn wrong_records_lengths() -> Vec<Call> {
    let mut all = Vec::new();
    for count in [0, 1, 2, 16, 17, 18] {
        let (slips, right) = (some_slips(count), count * RECORD_BYTES);
        let less = [1, 2, RECORD_BYTES].map(|less| right.checked_sub(less));
        let more = [1, 2, RECORD_BYTES].map(|more| Some(right + more));
        let other = [0, 776 * count, 777 * count, 779 * count, SLIP_BYTES * count].map(Some);
        for size in less.into_iter().chain(more).chain(other).flatten() {
            if size != right {
                all.push(lending(1, &slips, &some_shelf(), size, count));
            }
        }
    }
    all
}

/// Other lengths of the replies: none, one fewer, one more, and as many as there are bytes.
fn wrong_replies_lengths() -> Vec<Call> {
    let mut all = Vec::new();
    for count in [0, 1, 2, 15, 16, 17, 18] {
        let slips = some_slips(count);
        for replies in [0, count.max(1) - 1, count + 1, 2 * count, 8 * count, 16, 17, 65535] {
            if replies != count {
                all.push(lending(0, &slips, &some_shelf(), count * RECORD_BYTES, replies));
            }
        }
    }
    all
}

/// Shelves of another length, also with no slip and with wrong ones, and old shelves, of 776 bytes
/// for each record, also filled up to a length that is right.
fn wrong_shelves() -> Vec<Call> {
    let wrong = [wrong_slip(WRONG[0]), query(), wrong_slip(WRONG[3])].concat();
    let shelf = some_shelf();
    let mut all = Vec::new();
    for size in [1, 260, 388, 776, 777, 779, 1552, 1555, 1557, 2328, 3104, 3880, 3889] {
        for slips in [&[][..], &query(), &wrong, &some_slips(16)] {
            all.push(asking(1, slips, &shelf[..size]));
        }
        all.push(asking(0, &query(), &shelf[..size]));
    }
    for records in [[record(0), numbered(4, &[2, 1], 0)], [numbered(4, &[2, 1], 0), record(0)]] {
        let old = without_numbers(&records.concat());
        all.extend(both(&some_slips(3), &old));
        all.extend(both(&some_slips(3), &fitted(&old, 2 * RECORD_BYTES as u16)));
    }
    all
}

/// Every set of faults of the whole call: each of the three buffers with another length, more than
/// 16 slips, a shelf of another length. The slips and the records have faults of their own.
fn orders() -> Vec<Call> {
    let shelves = [bad_record(BAD[1], 7), record(7)];
    let mut all = Vec::new();
    for (set, kind) in (0..32).flat_map(|set| [0, 1, 2].map(|kind| (set, kind))) {
        let with = |place: u32| set >> place & 1 == 1;
        let count = if with(3) { [17, 18, 40][kind] } else { [16, 2, 1][kind] };
        let mut slips = wrong_slip(WRONG[kind]).repeat(count);
        slips[SLIP_BYTES * (count - 1)..].copy_from_slice(&query());
        let change =
            |size: usize, wrong: bool| if wrong { [size - 1, size + 1, 0][kind] } else { size };
        // A length of slips that is no multiple of 260, and never 0, which is one.
        let size = slips.len() + if with(0) { [259, 1, 130][kind] } else { 0 };
        let slips = fitted(&slips, size as u16);
        let (records, replies) = (change(count * RECORD_BYTES, with(1)), change(count, with(2)));
        let shelf = shelves[kind % 2].repeat(3);
        let shelf = &shelf[..if with(4) { [776, 1557, 2333][kind] } else { 1556 }];
        all.push(lending(kind as u32, &slips, shelf, records, replies));
    }
    all
}

/// Found, made and refused slips where other bytes are lent.
fn fills() -> Vec<Call> {
    let slips = [query(), slip_of(2, &[]), wrong_slip(WRONG[4]), slip_of(4, &[2, 1])].concat();
    let mut bad = numbered(4, &[2, 1], 5);
    put(&mut bad, &[BAD[0]]);
    let shelf = [bad, record(7)].concat();
    let mut all = Vec::new();
    for fill in [0, 1, 0x80, 0xff] {
        all.extend(both(&slips, &shelf).map(|call| Call { fill, ..call }));
        all.push(Call { fill, ..lending(0, &slips, &shelf, 4 * RECORD_BYTES, 5) });
        all.push(Call { fill, ..asking(1, &slips.repeat(5), &shelf) });
        all.push(Call { fill, ..asking(1, &slips, &shelf[1..]) });
    }
    all
}

// ---- random ----

/// The random ones.
pub fn rounds(seed: u64, count: u64) -> Vec<u8> {
    let mut random = Random::new(seed);
    (0..count).flat_map(|_| round(&mut random)).flat_map(|call| call.bytes()).collect()
}

/// A bundle; one in eight of those with few records comes again with other accession numbers, and
/// then for an editor from both shelves.
fn round(random: &mut Random) -> Vec<Call> {
    let call = any_bundle(random);
    let size = usize::from(call.lengths[1]);
    if size < RECORD_BYTES || size > 6 * RECORD_BYTES || !random.once_in(8) {
        return vec![call];
    }
    let first = Call { number: visitor(random), ..call };
    let mut second = first.clone();
    let shelf = &mut second.payload[usize::from(first.lengths[0])..];
    for record in shelf.chunks_exact_mut(RECORD_BYTES) {
        let number = accession(random);
        set_number(record, number);
    }
    let editors = [&second, &first].map(|call| Call { number: EDITOR as u32, ..call.clone() });
    [first, second].into_iter().chain(editors).collect()
}

/// One bundle; two in five are for an editor. In one of eight a length is wrong, in some two.
pub fn any_bundle(random: &mut Random) -> Call {
    let asked = some_asked(random);
    let count = how_many(random);
    let slips: Vec<Vec<u8>> = (0..count).map(|_| any_slip(random, &asked)).collect();
    let shelf = any_shelf(random, &asked, &slips);
    let who = if random.below(5) < 2 { EDITOR as u32 } else { visitor(random) };
    let fill = plain(random, Operation::LookUpBatch, 0, [0; 3]).fill;
    let mut call = Call { fill, ..asking(who, &slips.concat(), &shelf) };
    if random.once_in(8) {
        spoil(random, &mut call);
        if random.once_in(3) {
            spoil(random, &mut call);
        }
    }
    call
}

/// How many slips: none, one, 16 and 17 above all, and up to 18.
fn how_many(random: &mut Random) -> usize {
    let any = random.place(19);
    random.pick(&[0, 1, 1, 15, 16, 16, 16, 17, any, any, any, any, any, any])
}

/// Sequences that are asked for, one to nine. Some have others next to them: under another
/// modulus, with a term more or less, with other terms after the first four.
fn some_asked(random: &mut Random) -> Vec<Asked> {
    let mut asked: Vec<Asked> = Vec::new();
    for _ in 0..random.between(1, 4) {
        let m = sequences::modulus(random);
        let n = sequences::count(random).min(if random.once_in(8) { TERMS_LIMIT } else { 9 });
        asked.push((m, sequences::terms(random, m, n)));
    }
    for _ in 0..random.below(6) {
        let near = next_to(random, &asked);
        asked.push(near);
    }
    asked
}

/// Next to one of these sequences.
fn next_to(random: &mut Random, asked: &[Asked]) -> Asked {
    let (m, mut terms) = asked[random.place(asked.len())].clone();
    let least = terms.iter().max().map_or(2, |term| term + 1).max(2);
    let n = terms.len();
    match random.below(5) {
        0 => return (random.between(least, MODULUS_LIMIT), terms),
        1 if n < TERMS_LIMIT => terms.push(0),
        2 if n < TERMS_LIMIT => terms.push(random.below(m)),
        3 if n > 0 => drop(terms.pop()),
        _ if n > 4 => terms[random.between(4, n as u64 - 1) as usize] = random.below(m),
        _ => {}
    }
    (m, terms)
}

/// A slip of a bundle: one of those that are asked for, and one in six is damaged.
fn any_slip(random: &mut Random, asked: &[Asked]) -> Vec<u8> {
    let (m, terms) = &asked[random.place(asked.len())];
    let mut slip = slip_of(*m, terms);
    if random.once_in(6) {
        damage(random, &mut slip);
    }
    slip
}

/// Records end to end: mostly few, at times 84. Most have a slip that is asked for, as made or with
/// another claim, good or bad, or one that is near to it; some have a slip of the bundle as it is,
/// wrong or not.
fn any_shelf(random: &mut Random, asked: &[Asked], slips: &[Vec<u8>]) -> Vec<u8> {
    let count = match random.below(40) {
        0..=4 => 0,
        5 => 84,
        6 => random.between(10, 83),
        _ => random.between(1, 9),
    };
    // On a long shelf the matches are rare, so that they stand at high numbers too.
    let rare = if count > 9 { count / 4 } else { 2 };
    let mut shelf = Vec::new();
    for _ in 0..count {
        let query = &asked[random.place(asked.len())];
        let mut record = match random.below(12) {
            0 if !slips.is_empty() => {
                let slip = &slips[random.place(slips.len())];
                [&slip[..], &made(query.0, &query.1)[SLIP_BYTES..]].concat()
            }
            _ if random.once_in(rare) => matching(random, query),
            1..=5 if count < 10 => made(query.0, &query.1),
            _ => differing(random, query),
        };
        let number = accession(random);
        set_number(&mut record, number);
        shelf.extend(record);
    }
    shelf
}

/// Makes one length wrong: of the slips, of the records, of the replies or of the shelf.
fn spoil(random: &mut Random, call: &mut Call) {
    let [slips, shelf, records] = call.buffers();
    let count = slips.len() / SLIP_BYTES;
    match random.below(8) {
        0..=1 => {
            let right = slips.len() as u16;
            let size = random.pick(&[right.max(1) - 1, right + 1, right.max(130) - 130, right + 1]);
            call.lengths[0] = size;
            call.payload = [fitted(&slips, size), shelf].concat();
        }
        2..=3 => call.lengths[2] = wrong_records(random, records.len(), count) as u16,
        4..=5 => {
            let right = count as u16;
            call.l =
                random.pick(&[0, right.max(1) - 1, right + 1, right + 1, 2 * right, 778, 65535]);
        }
        _ => {
            let size = shelf.len();
            let old = without_numbers(&shelf[..size - size % RECORD_BYTES]);
            let other = random.pick(&[1, size + 1, size.max(1) - 1, size / 2, old.len()]);
            let shelf = if other == old.len() { old } else { fitted(&shelf, other as u16) };
            call.lengths[1] = shelf.len() as u16;
            call.payload = [slips, shelf].concat();
        }
    }
}

/// Mostly another size of the records than the right one.
fn wrong_records(random: &mut Random, right: usize, count: usize) -> usize {
    let less = right.saturating_sub(RECORD_BYTES);
    random.pick(&[0, right.max(1) - 1, right + 1, right + RECORD_BYTES, less, 776 * count])
}
