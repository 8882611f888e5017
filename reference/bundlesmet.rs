//! What the bundles of a script meet (02, A12): how many slips, what each gets at which place of
//! the bundle, what stands on the shelf next to it, who asks, each length, each refusal of the
//! whole call and what it comes before. Sizes and places are numbers here, as the papers have them.

use crate::calls::{cells, check_slip, look_up, zero_reading, Served};
use crate::cases::{told, Told};
use crate::checks::Group;
use crate::coverage::{count, often, Kinds, Tally};
use crate::script::{line, Call, Operation};

/// What bundles must be, by hand and at random.
const KINDS: [&str; 56] = [
    "served, no slip, no record",
    "served, no slip, records",
    "served, one slip",
    "served, two slips",
    "served, 15 slips",
    "served, 16 slips",
    "served, no record, slips",
    "all found, several",
    "all made, several",
    "all refused, several",
    "found, made and refused",
    "16 slips, three of them the same",
    "for an editor, numbers found",
    "for 0, numbers found",
    "for 2, numbers found",
    "for 257, numbers found",
    "for 65,537, numbers found",
    "for 4,294,967,295, numbers found",
    "refused slips, other bytes lent than 0",
    "refused slips, 0 lent",
    "34, 17 slips",
    "34, 18 slips",
    "34, for an editor",
    "34, for a visitor",
    "34, the shelf is wrong too",
    "34, other bytes lent than 0",
    "23, a byte more",
    "23, a byte less",
    "23, a multiple of 776",
    "23, for an editor",
    "23, for a visitor",
    "23, no slip",
    "23, a wrong slip",
    "23, 16 slips",
    "5, slips, a byte less",
    "5, slips, a byte more",
    "5, slips, another length",
    "5, records, none",
    "5, records, a byte less",
    "5, records, a byte more",
    "5, records, one less",
    "5, records, one more",
    "5, records of 776 bytes",
    "5, replies, none",
    "5, replies, one less",
    "5, replies, one more",
    "5, replies, another number",
    "5 for the slips alone",
    "5 for the records alone",
    "5 for the replies alone",
    "5 for two of them",
    "5, no slip",
    "5, 16 slips",
    "5, 17 slips",
    "5, the shelf is wrong too",
    "5, a wrong slip",
];

/// What those by hand must be besides.
const KINDS_BY_HAND: [&str; 14] = [
    "16 times the same slip, found",
    "16 times the same slip, made",
    "16 times the same slip, 24",
    "16 times the same slip, refused for itself",
    "16 found in the shelf's order",
    "16 found in the other order",
    "34, from 19 to 83 slips",
    "34, 84 slips",
    "5, 85 slips and more",
    "5, 252 slips",
    "5 for all three, 34 and 23 too",
    "23, 776 bytes",
    "5, 259 bytes of slips",
    "5, 261 bytes of slips",
];

/// What slips of served bundles must be.
const KINDS_OF_SLIPS: [&str; 43] = [
    "found, the first record",
    "found, the last of several records",
    "found, neither the first nor the last",
    "found at 16 or later",
    "found, a bad one of the same slip later",
    "found, a good one of the same slip later",
    "24, a good one of the same slip later",
    "24, a bad one of the same slip later",
    "24, the last record",
    "found, a record before it differs in one byte of the modulus",
    "found, a record before it differs in one byte of the count",
    "found, a record before it differs in one byte of the first four terms",
    "found, a record before it differs in one later byte",
    "made, a record differs in one byte of the modulus",
    "made, a record differs in one byte of the count",
    "made, a record differs in one byte of the first four terms",
    "made, a record differs in one later byte",
    "found, the same terms under another modulus before it",
    "made, the same terms under another modulus there",
    "found, the same first four terms before it",
    "made, the same first four terms there",
    "there again in the bundle, found",
    "there again in the bundle, made",
    "there again in the bundle, 24",
    "there again in the bundle, refused for itself",
    "another with the same first four terms, both found",
    "another with the same first four terms, one found and one made",
    "another with the same first four terms, both made",
    "found, then one found before it on the shelf",
    "found, then one found behind it on the shelf",
    "found, with a number, for an editor",
    "found, with a number, for a visitor",
    "refused for itself, a record of that very slip there",
    "refused between two that are not",
    "not refused between two that are",
    "3 at 0",
    "3 at 1",
    "3 at 127",
    "3 at another place",
    "3, the first of several",
    "128 terms, found",
    "128 terms, made",
    "no terms, found or made",
];

/// The lengths and the buffers of a bundle.
struct Lent {
    who: u32,
    fill: u8,
    slips: Vec<u8>,
    shelf: Vec<u8>,
    records: usize,
    replies: usize,
}

impl Lent {
    fn of(call: &Call) -> Option<Lent> {
        if call.operation != Operation::LookUpBatch {
            return None;
        }
        let [slips, shelf, records] = call.buffers();
        let (records, replies) = (records.len(), call.replies().len());
        Some(Lent { who: call.number, fill: call.fill, slips, shelf, records, replies })
    }

    /// How many whole slips there are.
    fn count(&self) -> usize {
        self.slips.len() / 260
    }

    fn slip(&self, i: usize) -> &[u8] {
        &self.slips[260 * i..260 * (i + 1)]
    }

    /// Which of the slips, the records and the replies have a wrong length.
    fn wrong_lengths(&self) -> [bool; 3] {
        let count = self.count();
        [self.slips.len() % 260 > 0, self.records != 778 * count, self.replies != count]
    }

    /// All that is wrong with the whole call, in the order of the refusals.
    fn wrong(&self) -> Vec<u32> {
        let mut wrong = Vec::new();
        wrong.extend(self.wrong_lengths().contains(&true).then_some(5));
        wrong.extend((self.count() > 16).then_some(34));
        wrong.extend((self.shelf.len() % 778 > 0).then_some(23));
        wrong
    }

    /// What each slip gets by itself.
    fn alone(&self) -> Vec<Alone> {
        let serve = |i| {
            let (slip, mut record) = (self.slip(i), [0; 778]);
            let reply = told(look_up(slip, &self.shelf, u64::from(self.who), &mut record));
            let first = self.shelf.chunks_exact(778).position(|record| record.starts_with(slip));
            Alone { reply, first }
        };
        (0..self.count()).map(serve).collect()
    }

    fn has_wrong_slip(&self) -> bool {
        self.slips.chunks_exact(260).any(|slip| check_slip(slip).is_err())
    }
}

/// The reply to one slip, and the first record that has it.
struct Alone {
    reply: Result<Served, Told>,
    first: Option<usize>,
}

impl Alone {
    fn kind(&self) -> &'static str {
        match self.reply {
            Ok(Served::Found(_)) => "found",
            Ok(Served::Made) => "made",
            Err((1, _)) => "1",
            Err((2, _)) => "2",
            Err((3, _)) => "3",
            Err((4, _)) => "4",
            Err(_) => "24",
        }
    }

    fn is(&self, kind: &str) -> bool {
        self.kind() == kind
    }

    /// Refused by one of 1 to 4.
    fn wrong(&self) -> bool {
        ["1", "2", "3", "4"].contains(&self.kind())
    }
}

/// What the bundles of a script meet.
#[derive(Default)]
struct Met {
    bundles: Tally<&'static str>,
    slips: Tally<&'static str>,
    /// What a slip gets as the first, in the middle or as the last of several.
    places: Tally<(&'static str, &'static str)>,
    orders: Tally<(u32, u32)>,
}

fn met_in(script: &[u8]) -> Met {
    let mut met = Met::default();
    let mut rest = script;
    while let Ok((call, size)) = Call::parse(rest) {
        rest = &rest[size..];
        if let Some(lent) = Lent::of(&call) {
            met.note(&lent);
        }
    }
    met
}

/// Each kind that random bundles have as well.
pub fn met(group: &mut Group, script: &[u8]) {
    let met = met_in(script);
    met_among(group, "bundles", &met.bundles, &KINDS);
    met_among(group, "slips of bundles", &met.slips, &KINDS_OF_SLIPS);
    for kind in ["found", "made", "24", "1", "2", "3", "4"] {
        for place in ["first", "middle", "last"] {
            let times = met.places.get(&(kind, place)).copied().unwrap_or(0);
            often(group, times, || format!("bundles: {kind}, {place}"));
        }
    }
    for pair in [(5, 34), (5, 23), (34, 23)] {
        let times = met.orders.get(&pair).copied().unwrap_or(0);
        often(group, times, || format!("bundles: {} before {}", pair.0, pair.1));
    }
    let known = met.bundles.len() + met.slips.len();
    let all = KINDS.len() + KINDS_BY_HAND.len() + KINDS_OF_SLIPS.len();
    group.check(known == all, || format!("kinds of bundles: {:?}, {:?}", met.bundles, met.slips));
    twice(group, script);
}

/// Each kind that those by hand have, once at least.
pub fn by_hand_met(group: &mut Group, script: &[u8]) {
    let met = met_in(script);
    for kind in KINDS_BY_HAND {
        let times = met.bundles.get(kind).copied().unwrap_or(0);
        group.check(times > 0, || format!("bundles: {kind}"));
    }
}

fn met_among(group: &mut Group, name: &str, tally: &Tally<&str>, kinds: &[&'static str]) {
    for kind in kinds {
        often(group, tally.get(kind).copied().unwrap_or(0), || format!("{name}: {kind}"));
    }
}

impl Met {
    fn note(&mut self, lent: &Lent) {
        let wrong = lent.wrong();
        if let Some((&first, later)) = wrong.split_first() {
            later.iter().for_each(|&next| count(&mut self.orders, (first, next)));
        }
        let kinds = match wrong.first() {
            None => self.note_served(lent),
            Some(5) => kinds_of_5(lent, &wrong),
            Some(34) => kinds_of_34(lent, &wrong),
            Some(_) => kinds_of_23(lent),
        };
        for (kind, applies) in kinds {
            *self.bundles.entry(kind).or_insert(0) += usize::from(applies);
        }
    }

    /// A bundle that is served, and each slip of it.
    fn note_served(&mut self, lent: &Lent) -> Kinds {
        let alone = lent.alone();
        for i in 0..alone.len() {
            let mut kinds = kinds_of_slip(lent, &alone[i], i);
            kinds.extend(kinds_of_others(lent, &alone, i));
            for (kind, applies) in kinds {
                *self.slips.entry(kind).or_insert(0) += usize::from(applies);
            }
            let place = match i {
                _ if alone.len() == 1 => continue,
                0 => "first",
                _ if i + 1 == alone.len() => "last",
                _ => "middle",
            };
            count(&mut self.places, (alone[i].kind(), place));
        }
        let mut kinds = kinds_of_served(lent, &alone);
        kinds.extend(kinds_of_same(lent, &alone));
        kinds
    }
}

// ---- kinds of the whole call ----

fn kinds_of_served(lent: &Lent, alone: &[Alone]) -> Kinds {
    let (slips, records) = (alone.len(), lent.shelf.len() / 778);
    let all = |kind: fn(&Alone) -> bool| slips > 1 && alone.iter().all(kind);
    let some = |kind: fn(&Alone) -> bool| alone.iter().any(kind);
    let numbers = alone.iter().filter(|one| one.is("found")).filter_map(|one| one.first);
    let numbered = numbers.filter(|&i| lent.shelf[778 * i + 776..778 * (i + 1)] != [0, 0]).count();
    let asked = |who: u32| lent.who == who && numbered > 0;
    let refused = some(|one| one.reply.is_err());
    vec![
        ("served, no slip, no record", slips == 0 && records == 0),
        ("served, no slip, records", slips == 0 && records > 0),
        ("served, one slip", slips == 1),
        ("served, two slips", slips == 2),
        ("served, 15 slips", slips == 15),
        ("served, 16 slips", slips == 16),
        ("served, no record, slips", slips > 0 && records == 0),
        ("all found, several", all(|one| one.is("found"))),
        ("all made, several", all(|one| one.is("made"))),
        ("all refused, several", all(|one| one.reply.is_err())),
        (
            "found, made and refused",
            some(|one| one.is("found")) && some(|one| one.is("made")) && refused,
        ),
        ("for an editor, numbers found", asked(1)),
        ("for 0, numbers found", asked(0)),
        ("for 2, numbers found", asked(2)),
        ("for 257, numbers found", asked(257)),
        ("for 65,537, numbers found", asked(65_537)),
        ("for 4,294,967,295, numbers found", asked(u32::MAX)),
        ("refused slips, other bytes lent than 0", refused && lent.fill != 0),
        ("refused slips, 0 lent", refused && lent.fill == 0),
    ]
}

/// Of 16 slips: how many are the same, and in which order they are found.
fn kinds_of_same(lent: &Lent, alone: &[Alone]) -> Kinds {
    let times = |i: usize| (0..alone.len()).filter(|&j| lent.slip(j) == lent.slip(i)).count();
    let sixteen = alone.len() == 16;
    let same = |kind: fn(&Alone) -> bool| sixteen && times(0) == 16 && kind(&alone[0]);
    let found: Vec<usize> =
        alone.iter().filter(|one| one.is("found")).filter_map(|one| one.first).collect();
    let rising = found.len() == 16 && found.windows(2).all(|two| two[0] < two[1]);
    let falling = found.len() == 16 && found.windows(2).all(|two| two[0] > two[1]);
    vec![
        ("16 slips, three of them the same", sixteen && (0..16).any(|i| times(i) == 3)),
        ("16 times the same slip, found", same(|one| one.is("found"))),
        ("16 times the same slip, made", same(|one| one.is("made"))),
        ("16 times the same slip, 24", same(|one| one.is("24"))),
        ("16 times the same slip, refused for itself", same(Alone::wrong)),
        ("16 found in the shelf's order", rising),
        ("16 found in the other order", falling),
    ]
}

fn kinds_of_34(lent: &Lent, wrong: &[u32]) -> Kinds {
    let slips = lent.count();
    vec![
        ("34, 17 slips", slips == 17),
        ("34, 18 slips", slips == 18),
        ("34, from 19 to 83 slips", (19..84).contains(&slips)),
        ("34, 84 slips", slips == 84),
        ("34, for an editor", lent.who == 1),
        ("34, for a visitor", lent.who != 1),
        ("34, the shelf is wrong too", wrong.contains(&23)),
        ("34, other bytes lent than 0", lent.fill != 0),
    ]
}

fn kinds_of_23(lent: &Lent) -> Kinds {
    let size = lent.shelf.len();
    vec![
        ("23, a byte more", size % 778 == 1),
        ("23, a byte less", size % 778 == 777),
        ("23, a multiple of 776", size % 776 == 0),
        ("23, 776 bytes", size == 776),
        ("23, for an editor", lent.who == 1),
        ("23, for a visitor", lent.who != 1),
        ("23, no slip", lent.count() == 0),
        ("23, a wrong slip", lent.has_wrong_slip()),
        ("23, 16 slips", lent.count() == 16),
    ]
}

fn kinds_of_5(lent: &Lent, wrong: &[u32]) -> Kinds {
    let (count, lengths) = (lent.count(), lent.wrong_lengths());
    let left = lent.slips.len() % 260;
    let all_three = lengths == [true; 3] && wrong == [5, 34, 23];
    let mut kinds = vec![
        ("5, slips, a byte less", left == 259),
        ("5, slips, a byte more", left == 1),
        ("5, slips, another length", left > 1 && left < 259),
        ("5, 259 bytes of slips", lent.slips.len() == 259),
        ("5, 261 bytes of slips", lent.slips.len() == 261),
        ("5 for the slips alone", lengths == [true, false, false]),
        ("5 for the records alone", lengths == [false, true, false]),
        ("5 for the replies alone", lengths == [false, false, true]),
        ("5 for two of them", lengths.iter().filter(|&&wrong| wrong).count() == 2),
        ("5 for all three, 34 and 23 too", all_three),
        ("5, no slip", count == 0 && left == 0),
        ("5, 16 slips", count == 16 && left == 0),
        ("5, 17 slips", count == 17 && left == 0),
        ("5, 85 slips and more", count >= 85),
        ("5, 252 slips", count == 252),
        ("5, the shelf is wrong too", wrong.contains(&23)),
        ("5, a wrong slip", lent.has_wrong_slip()),
    ];
    kinds.extend(kinds_of_lengths(lent));
    kinds
}

/// The records and the replies, where the slips are whole ones.
fn kinds_of_lengths(lent: &Lent) -> Kinds {
    let (count, [slips, records, replies]) = (lent.count(), lent.wrong_lengths());
    let (records, replies) = (records && !slips, replies && !slips);
    let size = lent.records;
    let one = [count + 1, count.max(1) - 1, 0].contains(&lent.replies);
    vec![
        ("5, records, none", records && size == 0),
        ("5, records, a byte less", records && size + 1 == 778 * count),
        ("5, records, a byte more", records && size == 778 * count + 1),
        ("5, records, one less", records && size + 778 == 778 * count),
        ("5, records, one more", records && size == 778 * count + 778),
        ("5, records of 776 bytes", records && count > 0 && size == 776 * count),
        ("5, replies, none", replies && lent.replies == 0),
        ("5, replies, one less", replies && lent.replies + 1 == count),
        ("5, replies, one more", replies && lent.replies == count + 1),
        ("5, replies, another number", replies && !one),
    ]
}

// ---- kinds of a slip ----

/// Where a record has another byte than the slip, if it is one byte of it.
fn one_byte(slip: &[u8], record: &[u8]) -> Option<usize> {
    let mut differing = (0..260).filter(|&i| slip[i] != record[i]);
    match (differing.next(), differing.next()) {
        (Some(place), None) => Some(place),
        _ => None,
    }
}

/// The slip has four terms or more, and the record or the other slip has the same four.
fn same_four(slip: &[u8], other: &[u8]) -> bool {
    slip[..260] != other[..260] && cells(slip)[1] >= 4 && slip[4..12] == other[4..12]
}

fn kinds_of_slip(lent: &Lent, one: &Alone, i: usize) -> Kinds {
    let slip = lent.slip(i);
    let records: Vec<&[u8]> = lent.shelf.chunks(778).collect();
    let mut kinds = match (one.kind(), one.first) {
        ("found", Some(first)) => kinds_of_found(lent.who, slip, &records, first),
        ("24", Some(first)) => kinds_of_bad(slip, &records, first),
        ("made", _) => kinds_of_made(slip, &records),
        _ => kinds_of_refused(slip, one),
    };
    let served = one.reply.is_ok();
    kinds.extend([
        ("128 terms, found", one.is("found") && cells(slip)[1] == 128),
        ("128 terms, made", one.is("made") && cells(slip)[1] == 128),
        ("no terms, found or made", served && cells(slip)[1] == 0),
    ]);
    kinds
}

/// Whether the record would be served.
fn good(record: &[u8]) -> bool {
    look_up(&record[..260], record, 0, &mut [0; 778]) == Ok(Served::Found(0))
}

fn kinds_of_found(who: u32, slip: &[u8], records: &[&[u8]], first: usize) -> Kinds {
    let (before, behind) = (&records[..first], &records[first + 1..]);
    let again: Vec<&&[u8]> = behind.iter().filter(|record| record.starts_with(slip)).collect();
    let near: Vec<usize> = before.iter().filter_map(|record| one_byte(slip, record)).collect();
    let near = |from: usize, to: usize| near.iter().any(|place| (from..to).contains(place));
    let numbered = records[first][776..] != [0, 0];
    let last = first + 1 == records.len();
    vec![
        ("found, the first record", first == 0),
        ("found, the last of several records", first > 0 && last),
        ("found, neither the first nor the last", first > 0 && !last),
        ("found at 16 or later", first >= 16),
        ("found, a bad one of the same slip later", again.iter().any(|record| !good(record))),
        ("found, a good one of the same slip later", again.iter().any(|record| good(record))),
        ("found, a record before it differs in one byte of the modulus", near(0, 2)),
        ("found, a record before it differs in one byte of the count", near(2, 4)),
        ("found, a record before it differs in one byte of the first four terms", near(4, 12)),
        ("found, a record before it differs in one later byte", near(12, 260)),
        ("found, the same terms under another modulus before it", under_another(slip, before)),
        ("found, the same first four terms before it", before.iter().any(|r| same_four(slip, r))),
        ("found, with a number, for an editor", numbered && who == 1),
        ("found, with a number, for a visitor", numbered && who != 1),
    ]
}

/// The same terms, some at least, and another modulus.
fn under_another(slip: &[u8], records: &[&[u8]]) -> bool {
    let same = |record: &&&[u8]| record[2..260] == slip[2..] && record[..2] != slip[..2];
    cells(slip)[1] > 0 && records.iter().any(|record| same(&record))
}

fn kinds_of_bad(slip: &[u8], records: &[&[u8]], first: usize) -> Kinds {
    let behind = &records[first + 1..];
    let again: Vec<&&[u8]> = behind.iter().filter(|record| record.starts_with(slip)).collect();
    vec![
        ("24, a good one of the same slip later", again.iter().any(|record| good(record))),
        ("24, a bad one of the same slip later", again.iter().any(|record| !good(record))),
        ("24, the last record", first + 1 == records.len()),
    ]
}

fn kinds_of_made(slip: &[u8], records: &[&[u8]]) -> Kinds {
    let near: Vec<usize> = records.iter().filter_map(|record| one_byte(slip, record)).collect();
    let near = |from: usize, to: usize| near.iter().any(|place| (from..to).contains(place));
    vec![
        ("made, a record differs in one byte of the modulus", near(0, 2)),
        ("made, a record differs in one byte of the count", near(2, 4)),
        ("made, a record differs in one byte of the first four terms", near(4, 12)),
        ("made, a record differs in one later byte", near(12, 260)),
        ("made, the same terms under another modulus there", under_another(slip, records)),
        ("made, the same first four terms there", records.iter().any(|r| same_four(slip, r))),
    ]
}

/// Refused by one of 1 to 4.
fn kinds_of_refused(slip: &[u8], one: &Alone) -> Kinds {
    let there = one.first.is_some();
    let mut kinds = vec![("refused for itself, a record of that very slip there", there)];
    if let Err((3, Some(place))) = one.reply {
        let numbers = cells(slip);
        let terms = &numbers[2..][..numbers[1] as usize];
        let out = terms.iter().filter(|&&term| term >= numbers[0]).count();
        kinds.extend([
            ("3 at 0", place == 0),
            ("3 at 1", place == 1),
            ("3 at 127", place == 127),
            ("3 at another place", (2..127).contains(&place)),
            ("3, the first of several", out > 1),
        ]);
    }
    kinds
}

/// A slip and the others of its bundle.
fn kinds_of_others(lent: &Lent, alone: &[Alone], i: usize) -> Kinds {
    let one = &alone[i];
    let others = || (0..alone.len()).filter(move |&j| j != i);
    let again = others().any(|j| lent.slip(j) == lent.slip(i));
    let near =
        |kind: &str| others().any(|j| same_four(lent.slip(i), lent.slip(j)) && alone[j].is(kind));
    let next = alone.get(i + 1).filter(|next| one.is("found") && next.is("found"));
    let next = next.and_then(|next| next.first);
    let around = |refused: bool| {
        let is = |j: usize| alone.get(j).is_some_and(|other| other.reply.is_err() == refused);
        i > 0 && is(i - 1) && is(i + 1)
    };
    vec![
        ("there again in the bundle, found", again && one.is("found")),
        ("there again in the bundle, made", again && one.is("made")),
        ("there again in the bundle, 24", again && one.is("24")),
        ("there again in the bundle, refused for itself", again && one.wrong()),
        ("another with the same first four terms, both found", one.is("found") && near("found")),
        (
            "another with the same first four terms, one found and one made",
            one.is("found") && near("made"),
        ),
        ("another with the same first four terms, both made", one.is("made") && near("made")),
        ("found, then one found before it on the shelf", next.is_some_and(|p| Some(p) < one.first)),
        ("found, then one found behind it on the shelf", next.is_some_and(|p| Some(p) > one.first)),
        ("refused between two that are not", one.reply.is_err() && around(false)),
        ("not refused between two that are", one.reply.is_ok() && around(true)),
    ]
}

// ---- the same bundle twice ----

/// Bundles that come twice in a row, from shelves that differ in the numbers alone: a visitor gets
/// the same line. An editor does not where one of the records found has another number.
fn twice(group: &mut Group, script: &[u8]) {
    let (mut calls, mut rest) = (Vec::new(), script);
    while let Ok((call, size)) = Call::parse(rest) {
        rest = &rest[size..];
        calls.push(call);
    }
    let mut tally = Tally::new();
    for two in calls.windows(2) {
        let [first, second] = two else { continue };
        if !differ_in_numbers(first, second) {
            continue;
        }
        let lines = [first, second].map(|call| line(call, &mut zero_reading()));
        let same = lines[0] == lines[1];
        group.check(same || first.number == 1, || format!("{lines:?} for {}", first.number));
        let who = if first.number == 1 { "an editor" } else { "a visitor" };
        count(&mut tally, (who, same));
    }
    for kind in [("a visitor", true), ("an editor", true), ("an editor", false)] {
        let times = tally.get(&kind).copied().unwrap_or(0);
        often(group, times, || format!("bundles, the same twice: {kind:?}"));
    }
}

/// The same bundle but for accession numbers on the shelf.
fn differ_in_numbers(first: &Call, second: &Call) -> bool {
    let without = |call: &Call| {
        let [slips, mut shelf, records] = call.buffers();
        shelf.chunks_exact_mut(778).for_each(|record| record[776..].fill(0));
        (call.operation, call.number, call.fill, call.l, slips, shelf, records)
    };
    let bundle = first.operation == Operation::LookUpBatch;
    bundle && first != second && without(first) == without(second)
}
