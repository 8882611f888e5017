//! Bundles by hand (02, A12): each sentence of the request, on records that are written byte by
//! byte, every length of each buffer, every place, lines of the replay. Sizes and places are
//! numbers here, as the papers have them.

use crate::bundles::{asking, lending};
use crate::calls::*;
use crate::cases::{bare, told, Told};
use crate::checks::Group;
use crate::donorcases::{case_3, case_6, full, written, ASKERS, BAD, CASE_3};
use crate::script::{replay, Call, Operation};

/// What is lent to a bundle.
#[derive(Clone)]
pub struct Bundle {
    pub slips: Vec<u8>,
    pub shelf: Vec<u8>,
    pub records: Vec<u8>,
    pub replies: Vec<u64>,
}

/// The reply to a bundle, and what was lent for writing after it.
#[derive(Clone, PartialEq, Eq, Debug)]
pub struct Outcome {
    pub counts: Result<Counts, Told>,
    pub records: Vec<u8>,
    pub replies: Vec<u64>,
}

impl Bundle {
    pub fn of(call: &Call) -> Bundle {
        let [slips, shelf, records] = call.buffers();
        Bundle { slips, shelf, records, replies: call.replies() }
    }

    /// With room for each whole slip.
    pub fn right(slips: &[u8], shelf: &[u8], fill: u8) -> Bundle {
        let count = slips.len() / 260;
        Bundle {
            slips: slips.to_vec(),
            shelf: shelf.to_vec(),
            records: vec![fill; 778 * count],
            replies: vec![u64::from_le_bytes([fill; 8]); count],
        }
    }

    pub fn to(&self, who: u64) -> Outcome {
        let (mut records, mut replies) = (self.records.clone(), self.replies.clone());
        let reply = look_up_batch(&self.slips, &self.shelf, who, &mut records, &mut replies);
        Outcome { counts: told(reply), records, replies }
    }

    /// The whole call refused: all is as it was lent.
    pub fn refused(&self, number: u32) -> Outcome {
        let (records, replies) = (self.records.clone(), self.replies.clone());
        Outcome { counts: Err(bare(number)), records, replies }
    }
}

/// The outcome that has these replies and parts. The numbers are told by the replies: 0 is made,
/// a multiple of 256 found, anything else refused.
pub fn served(parts: &[(u64, &[u8])]) -> Outcome {
    let times = |kind: fn(u64) -> bool| parts.iter().filter(|part| kind(part.0)).count();
    Outcome {
        counts: Ok(Counts {
            found: times(|reply| reply > 0 && reply % 256 == 0),
            made: times(|reply| reply == 0),
            refused: times(|reply| reply % 256 > 0),
        }),
        records: parts.iter().flat_map(|part| part.1).copied().collect(),
        replies: parts.iter().map(|part| part.0).collect(),
    }
}

/// Serves a bundle with right buffers that are lent with several contents.
fn check(
    group: &mut Group,
    words: &str,
    (slips, shelf): (&[u8], &[u8]),
    who: u64,
    expected: &[(u64, &[u8])],
) {
    for fill in [0, 7, 0xff] {
        let found = Bundle::right(slips, shelf, fill).to(who);
        let right = found == served(expected);
        group.check(right, || format!("{words}, for {who}, lent {fill}: {:?}", found.replies));
    }
}

/// Nothing of what is lent changes, whatever it is.
fn check_refused(group: &mut Group, words: &str, bundle: &Bundle, number: u32) {
    for who in [0, 1, 257] {
        let found = bundle.to(who);
        let right = found == bundle.refused(number);
        group.check(right, || format!("{words}, for {who}: {:?} for {number}", found.counts));
    }
}

pub fn by_hand(group: &mut Group) {
    in_one_bundle(group);
    every_kind_beside_every_kind(group);
    sixteen_and_more(group);
    no_slip(group);
    the_same_again(group);
    first_match(group);
    every_place(group);
    who_asks(group);
    lengths(group);
    shelves(group);
    order_of_the_whole(group);
    replayed(group);
}

// ---- slips and what they get ----

const ZEROS: [u8; 778] = [0; 778];

/// Case 3's slip with these bytes.
fn wrong(bytes: &[(usize, u8)]) -> Vec<u8> {
    written(&[&CASE_3[..7], bytes].concat(), [0, 0])[..260].to_vec()
}

fn slip(record: &[u8]) -> Vec<u8> {
    record[..260].to_vec()
}

/// 3,3 modulo 6 (case 8 of 01): l 1, a 1,3, b 3. It is on no shelf here.
fn case_8() -> Vec<u8> {
    let bytes = [(0, 6), (2, 2), (4, 3), (6, 3), (260, 1), (262, 1), (264, 3), (520, 3)];
    written(&bytes, [0, 0])
}

/// 1,0 modulo 6 (case 12 of 01) with an a_0 of 2: its record is found and gets 24.
fn bad_12() -> Vec<u8> {
    let bytes = [(0, 6), (2, 2), (4, 1), (260, 1), (262, 2), (520, 1)];
    written(&bytes, [3, 3])
}

/// A shelf of four: case 6, case 3, the bad one and the full one, with numbers.
fn shelf() -> Vec<u8> {
    [case_6([9, 9]), case_3([0x34, 0x12]), bad_12(), full([1, 1])].concat()
}

/// A slip, its reply from that shelf, and its part for an editor and for a visitor.
type Kind = (Vec<u8>, u64, [Vec<u8>; 2]);

/// Slips of every kind. The replies are worked out by hand: found at 1 is 256 times 2, a term out
/// of range at place 2 is 3 and 256 times 2.
fn kinds() -> Vec<Kind> {
    let refused = |slip: Vec<u8>, reply| (slip, reply, [ZEROS.to_vec(), ZEROS.to_vec()]);
    vec![
        (slip(&case_3([0, 0])), 512, [case_3([0x34, 0x12]), case_3([0, 0])]),
        (slip(&case_6([0, 0])), 256, [case_6([9, 9]), case_6([0, 0])]),
        (slip(&full([0, 0])), 1024, [full([1, 1]), full([0, 0])]),
        (slip(&case_8()), 0, [case_8(), case_8()]),
        refused(slip(&bad_12()), 24),
        refused(wrong(&[(0, 1)]), 1),
        refused(wrong(&[(0, 0), (1, 16)]), 1),
        refused(wrong(&[(2, 129)]), 2),
        refused(wrong(&[(4, 9)]), 3),
        refused(wrong(&[(8, 9), (12, 9)]), 3 + 256 * 2),
        refused(wrong(&[(2, 128), (258, 9)]), 3 + 256 * 127),
        refused(wrong(&[(14, 1)]), 4),
        refused(wrong(&[(259, 1)]), 4),
    ]
}

/// The slips of these kinds, and what they get.
fn bundled(kinds: &[&Kind], editor: bool) -> (Vec<u8>, Vec<(u64, Vec<u8>)>) {
    let slips = kinds.iter().flat_map(|kind| kind.0.clone()).collect();
    let part = |kind: &&Kind| (kind.1, kind.2[usize::from(!editor)].clone());
    (slips, kinds.iter().map(part).collect())
}

fn check_kinds(group: &mut Group, words: &str, kinds: &[&Kind], askers: &[(u64, bool)]) {
    for &(who, editor) in askers {
        let (slips, parts) = bundled(kinds, editor);
        let parts: Vec<(u64, &[u8])> =
            parts.iter().map(|(reply, part)| (*reply, &part[..])).collect();
        check(group, words, (&slips, &shelf()), who, &parts);
    }
}

/// All kinds in one bundle, and each alone: "every reply, refusal and found place is what that
/// slip alone would get from the same shelf, for an editor or a visitor".
fn in_one_bundle(group: &mut Group) {
    let kinds = kinds();
    let all: Vec<&Kind> = kinds.iter().collect();
    check_kinds(group, "all kinds", &all, &ASKERS);
    let backwards: Vec<&Kind> = kinds.iter().rev().collect();
    check_kinds(group, "all kinds backwards", &backwards, &ASKERS);
    for kind in &kinds {
        check_kinds(group, "alone", &[kind], &ASKERS);
    }
    let counts = Bundle::right(&bundled(&all, true).0, &shelf(), 7).to(1).counts;
    let right = counts == Ok(Counts { found: 3, made: 1, refused: 9 });
    group.check(right, || format!("all kinds: {counts:?}"));
}

/// Each kind right before, right after and around each other one, and as the first, the middle and
/// the last of 16.
fn every_kind_beside_every_kind(group: &mut Group) {
    let kinds = kinds();
    for (one, other) in kinds.iter().flat_map(|one| kinds.iter().map(move |other| (one, other))) {
        for bundle in [&[one, other][..], &[one, other, one], &[one, one, other]] {
            check_kinds(group, "two kinds", bundle, &[(1, true), (257, false)]);
        }
    }
    for (place, kind) in
        [0, 7, 15].into_iter().flat_map(|place| kinds.iter().map(move |k| (place, k)))
    {
        let mut bundle = [&kinds[0]; 16];
        bundle[place] = kind;
        check_kinds(group, "one among 16", &bundle, &[(1, true), (0, false)]);
    }
}

/// "Up to 16 slips": each number up to 300 with the right buffers, from several shelves.
fn sixteen_and_more(group: &mut Group) {
    let one = slip(&case_3([0, 0]));
    for count in 0..=300 {
        let slips = one.repeat(count);
        if count <= 16 {
            let (record, made) = (case_3([0x34, 0x12]), case_3([0, 0]));
            check(group, "found", (&slips, &shelf()), 1, &vec![(512, &record[..]); count]);
            check(group, "made", (&slips, &[]), 1, &vec![(0, &made[..]); count]);
        } else {
            for shelf in [&shelf()[..], &[], &[0]] {
                let words = format!("{count} slips");
                check_refused(group, &words, &Bundle::right(&slips, shelf, 7), 34);
            }
        }
    }
}

/// "An empty bundle tells 0 for each", for every shelf that is one.
fn no_slip(group: &mut Group) {
    for ((who, _), shelf) in
        ASKERS.iter().flat_map(|asker| [&[][..], &shelf(), &[7; 778]].map(|s| (*asker, s.to_vec())))
    {
        let found = Bundle::right(&[], &shelf, 7).to(who);
        let counts = Ok(Counts { found: 0, made: 0, refused: 0 });
        let right = found == Outcome { counts, records: Vec::new(), replies: Vec::new() };
        group.check(right, || format!("no slip for {who}: {found:?}"));
    }
}

/// A slip that comes several times is served each time.
fn the_same_again(group: &mut Group) {
    for (kind, times) in kinds().iter().flat_map(|kind| [2, 3, 16].map(|times| (kind, times))) {
        check_kinds(group, "again", &vec![kind; times], &[(1, true), (0, false)]);
    }
}

/// "The first match among them": a later one of the same slip changes nothing, whether it is good
/// or bad.
fn first_match(group: &mut Group) {
    let slips = [slip(&case_6([0, 0])), slip(&case_3([0, 0]))].concat();
    let six = case_6([2, 2]);
    for fault in BAD {
        let bad = written(&[&CASE_3[..], &[fault]].concat(), [5, 5]);
        let good = case_3([7, 7]);
        let words = format!("byte {} is {}", fault.0, fault.1);
        let first_bad = [&bad[..], &good, &six, &case_6([1, 1])].concat();
        check(group, &words, (&slips, &first_bad), 1, &[(768, &six), (24, &ZEROS)]);
        let first_good = [&six[..], &good, &bad, &case_3([8, 8])].concat();
        check(group, &words, (&slips, &first_good), 1, &[(256, &six), (512, &good)]);
        let hidden = [case_6([0, 0]), case_3([0, 0])];
        let visitor = [(256, &hidden[0][..]), (512, &hidden[1])];
        check(group, &words, (&slips, &first_good), 2, &visitor);
    }
}

/// A match at each place up to 399, and a term out of range at each place of a slip: the replies
/// tell both.
fn every_place(group: &mut Group) {
    let slips = [slip(&case_8()), slip(&case_3([0, 0]))].concat();
    let (made, record) = (case_8(), case_3([1, 2]));
    for place in (0..20).chain([83, 84, 127, 128, 254, 255, 256, 387, 388, 399]) {
        let shelf = [case_6([1, 1]).repeat(place), record.clone(), case_3([3, 3])].concat();
        let reply = 256 + 256 * place as u64;
        let words = format!("found at {place}");
        check(group, &words, (&slips, &shelf), 1, &[(0, &made), (reply, &record)]);
    }
    for place in 0..128 {
        let mut wrong = slip(&full([0, 0]));
        wrong[4 + 2 * place..].fill(0xff);
        let slips = [wrong, slips.clone()].concat();
        let reply = 3 + 256 * place as u64;
        let parts: [(u64, &[u8]); 3] = [(reply, &ZEROS), (0, &made), (256, &record)];
        check(group, &format!("3 at {place}"), (&slips, &record), 1, &parts);
    }
}

/// 1 is an editor, "any other number means a visitor": those up to 600 and next to powers of 2.
fn who_asks(group: &mut Group) {
    let kinds = kinds();
    let bundle = [&kinds[0], &kinds[4], &kinds[3], &kinds[1]];
    let powers = (9..64).map(|bit| 1u64 << bit);
    let wide = powers.flat_map(|power| [power - 1, power, power + 1, power.wrapping_neg() + 1]);
    for who in (0..=600).chain(wide) {
        check_kinds(group, "who asks", &bundle, &[(who, who == 1)]);
    }
}

// ---- lengths ----

/// "A wrong buffer length gets 5": every length of the slips up to that of some more than 16,
/// every length of the records of two slips and of 16, every number of replies up to 40.
fn lengths(group: &mut Group) {
    let one = slip(&case_3([0, 0]));
    let slips = one.repeat(19);
    for size in (0..=19 * 260).filter(|size| size % 260 != 0) {
        // With room for the whole ones.
        let bundle = Bundle::right(&slips[..size], &shelf(), 7);
        let found = bundle.to(1);
        let right = found == bundle.refused(5);
        group.check(right, || format!("slips of {size} bytes: {:?}", found.counts));
    }
    for (count, sizes) in [(0, 0..=1600), (1, 0..=1600), (2, 0..=1600), (16, 12400..=12500)] {
        for size in sizes.filter(|&size| size != 778 * count) {
            let right = Bundle::right(&one.repeat(count), &shelf(), 7);
            let words = format!("records of {size} bytes for {count}");
            check_refused(group, &words, &Bundle { records: vec![7; size], ..right }, 5);
        }
    }
    for (count, size) in (0..=18).flat_map(|count| (0..=40).map(move |size| (count, size))) {
        if size != count {
            let right = Bundle::right(&one.repeat(count), &shelf(), 7);
            let words = format!("{size} replies for {count}");
            check_refused(group, &words, &Bundle { replies: vec![7; size], ..right }, 5);
        }
    }
}

/// 23 for the whole call, whatever the slips are: no slip, good ones, wrong ones alone.
fn shelves(group: &mut Group) {
    let kinds = kinds();
    let all: Vec<&Kind> = kinds.iter().collect();
    let wrong: Vec<&Kind> = kinds.iter().skip(5).collect();
    let long = [shelf(), shelf()].concat();
    for size in (0..=3200).filter(|size| size % 778 != 0) {
        for slips in [Vec::new(), bundled(&all[..1], true).0, bundled(&wrong, true).0] {
            let bundle = Bundle::right(&slips, &long[..size], 7);
            let found = bundle.to(1);
            let right = found == bundle.refused(23);
            group.check(right, || format!("a shelf of {size} bytes: {:?}", found.counts));
        }
    }
    // Old records: a shelf of 389 has the length of 388 new ones, and is taken as such.
    let (asked, other) = (&case_3([0, 0])[..776], &case_6([0, 0])[..776]);
    for old in [asked.to_vec(), [asked, other].concat(), asked.repeat(388)] {
        check_refused(group, "old", &Bundle::right(&bundled(&all, true).0, &old, 7), 23);
    }
    let old = [asked, &other.repeat(388)].concat();
    // The next old record begins with its modulus, where the number is now.
    let (seen, made) = (case_3([4, 0]), case_6([0, 0]));
    let slips = [slip(&case_6([0, 0])), slip(&case_3([0, 0]))].concat();
    check(group, "389 old records", (&slips, &old), 1, &[(0, &made), (256, &seen)]);
}

/// 34 "after 5, before 23, and it concerns the whole call, as those two do": every set of the
/// three, 5 for each buffer.
fn order_of_the_whole(group: &mut Group) {
    for (set, buffer) in (0..8).flat_map(|set| [0, 1, 2].map(|buffer| (set, buffer))) {
        let with = |place: u32| set >> place & 1 == 1;
        let count = if with(1) { 17 } else { 16 };
        let lent = shelf();
        let shelf = &lent[usize::from(with(2))..];
        let mut bundle = Bundle::right(&wrong(&[(0, 1)]).repeat(count), shelf, 7);
        match (with(0), buffer) {
            (false, _) => {}
            (true, 0) => drop(bundle.slips.pop()),
            (true, 1) => drop(bundle.records.pop()),
            (true, _) => drop(bundle.replies.pop()),
        }
        match [5, 34, 23].iter().enumerate().find(|(place, _)| with(*place as u32)) {
            Some((_, &number)) => check_refused(group, &format!("set {set:b}"), &bundle, number),
            None => {
                let right = bundle.to(1) == served(&vec![(1, &ZEROS[..]); 16]);
                group.check(right, || String::from("no fault of the whole call"));
            }
        }
    }
}

// ---- the replay ----

/// An opening or a column for the reading that is held, which a bundle does not touch.
fn held(operation: Operation, number: u32, list: &[u8]) -> Call {
    let lengths = [list.len() as u16, 0, 0];
    Call { operation, fill: 0xee, number, lengths, l: 0, payload: list.to_vec() }
}

/// 6,3,1,5,6 modulo 9, 3,3 modulo 6, a slip that gets 3 at 2, and 2,1 modulo 4.
fn four() -> Vec<u8> {
    let three = [slip(&case_3([0, 0])), slip(&case_8()), wrong(&[(8, 9), (12, 9)])];
    [three.concat(), slip(&case_6([0, 0]))].concat()
}

fn filled(call: Call) -> Call {
    Call { fill: 0xee, ..call }
}

/// Each bundle that is served, with its line after the name. The hashes were computed apart from
/// this program, from the bytes that the papers ask for: those of README.md among them.
fn served_lines() -> Vec<(Call, &'static str)> {
    let ask = |who, slips: &[u8]| filled(asking(who, slips, &shelf()));
    let (one, mixed) = (slip(&case_3([0, 0])), "found 2 made 1 refused 1 e1ffc560 0f4aa0fd");
    let none = "found 0 made 0 refused 0 811c9dc5 811c9dc5";
    let refused = [wrong(&[(2, 129)]), wrong(&[(2, 128), (258, 9)]), wrong(&[(259, 1)])].concat();
    let bad = [slip(&bad_12()), slip(&case_8())].concat();
    let sixteen = wrong(&[(0, 1)]).repeat(16);
    vec![
        (ask(1, &four()), "found 2 made 1 refused 1 36138854 0f4aa0fd"),
        (ask(257, &four()), mixed),
        (ask(0, &four()), mixed),
        (ask(65_537, &four()), mixed),
        (ask(u32::MAX, &four()), mixed),
        (ask(1, &[]), none),
        (filled(asking(0, &[], &[])), none),
        (ask(0, &bad), "found 0 made 1 refused 1 60e2d501 51fd4f1d"),
        (ask(1, &one.repeat(16)), "found 16 made 0 refused 0 335585c5 6c71b1c5"),
        (ask(2, &one.repeat(16)), "found 16 made 0 refused 0 826deac5 6c71b1c5"),
        (ask(1, &sixteen), "found 0 made 0 refused 16 72f23e45 020f3ec5"),
        (ask(1, &refused), "found 0 made 0 refused 3 12f1fb7d c6a2f205"),
    ]
}

/// The same for those that are refused as a whole.
fn refused_lines() -> Vec<(Call, &'static str)> {
    let (one, four, shelf) = (slip(&case_3([0, 0])), four(), shelf());
    let ask = |who, slips: &[u8], shelf: &[u8]| filled(asking(who, slips, shelf));
    let lend = |slips: &[u8], records, replies| filled(lending(1, slips, &shelf, records, replies));
    vec![
        (ask(1, &one.repeat(17), &shelf), "refused 34 bdfb9ead 68456365"),
        (ask(0, &one.repeat(17), &shelf[1..]), "refused 34 bdfb9ead 68456365"),
        (ask(1, &one.repeat(84), &shelf), "refused 34 5fd8fe65 16b0a245"),
        (ask(1, &four, &shelf[1..]), "refused 23 948379e5 635b1845"),
        (ask(0, &four, &shelf[..776]), "refused 23 948379e5 635b1845"),
        (ask(1, &[], &shelf[..776]), "refused 23 811c9dc5 811c9dc5"),
        (lend(&four, 4 * 778 - 1, 4), "refused 5 8887a149 635b1845"),
        (lend(&four, 4 * 776, 4), "refused 5 609f4845 635b1845"),
        (lend(&four, 4 * 778, 3), "refused 5 948379e5 f3d770a5"),
        (lend(&four[1..], 4 * 778, 4), "refused 5 948379e5 635b1845"),
        (lend(&one.repeat(17), 16 * 778, 17), "refused 5 141b5a45 68456365"),
        (lend(&one.repeat(17), 17 * 778, 16), "refused 5 bdfb9ead 3be31fc5"),
    ]
}

/// A script of these, between an opening and an empty column, which show the reading held.
fn script() -> Vec<(Call, String)> {
    let mut script = vec![(held(Operation::Open, 9, &[]), String::from("open ok 50315e8c"))];
    let bundles = served_lines().into_iter().chain(refused_lines());
    script.extend(bundles.map(|(call, line)| (call, format!("look_up_batch {line}"))));
    let last = String::from("push_all taken 0 ok 50315e8c 811c9dc5");
    script.push((held(Operation::PushAll, 0, &[]), last));
    script
}

/// The lines one by one, the bytes of a call, and scripts that are cut inside it.
fn replayed(group: &mut Group) {
    let script = script();
    let bytes: Vec<u8> = script.iter().flat_map(|(call, _)| call.bytes()).collect();
    let (text, whole) = replay(&bytes);
    group.check(whole && text.lines().count() == script.len(), || text.clone());
    for (line, (_, expected)) in text.lines().zip(&script) {
        group.check(line == *expected, || format!("{line} for {expected}"));
    }
    // 1,040 bytes of slips, 3,112 of shelf and of records, four replies.
    let header = [16, 0xee, 0, 0, 1, 0, 0, 0, 0x10, 4, 0x28, 12, 0x28, 12, 4, 0];
    let (call, line) = &script[1];
    let parts = [&header[..], &four(), &shelf()].concat();
    group.check(call.bytes() == parts, || format!("{:?}", call.bytes()));
    group.check(replay(&parts) == (format!("{line}\n"), true), || format!("{line}"));
    for cut in (1..40).chain([275, 276, 1055, 1056, 1057, 4167]) {
        let (text, whole) = replay(&parts[..cut]);
        group.check(!whole && text == "script cut short\n", || format!("{cut}: {text}"));
    }
}
