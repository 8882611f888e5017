//! What the random slips, scripts and typed lines meet: every refusal of every call, the
//! places, the kinds of bad claims, of lines, of columns, of servings, of answers of A8, of
//! merges, of periods, of numbers, tallies and lines of the census, of bundles, and how the orders
//! stand to the starts. The seeds are those that tests/expectations.sh uses.

use crate::ask::{self, ask, LINE_LIMIT};
use crate::bundles;
use crate::bundlesmet;
use crate::calls::*;
use crate::cases::{told, Told};
use crate::catalogues::{catalogues, rounds};
use crate::checks::Group;
use crate::faults::{faults, offending, Fault};
use crate::limits::*;
use crate::linecalls::linecalls;
use crate::listing::listing;
use crate::merges;
use crate::mergesmet;
use crate::numbers;
use crate::numbersmet;
use crate::onlymet;
use crate::pairs::pairs;
use crate::periods;
use crate::periodsmet;
use crate::printed::census;
use crate::scenarios;
use crate::script::{line, reading_bytes, replay, Call, Operation};
use crate::sequences;
use crate::servings;
use crate::starts::{self, read_back};
use crate::typed::typed;
use crate::working::working;
use std::collections::{BTreeMap, BTreeSet};

/// How often each thing must be met at least.
const LEAST: usize = 3;

/// The calls and the refusals that each has.
const REFUSALS: [(&str, &[u32]); 19] = [
    ("open", &[1]),
    ("push", &[21, 22, 3]),
    ("register", &[5, 21]),
    ("profile", &[5, 21]),
    ("verify", &[5, 1, 2, 3, 4, 25, 6, 26]),
    ("generate", &[5, 1, 2, 25, 6, 26]),
    ("synthesize", &[5, 1, 2, 3, 4]),
    ("look_up", &[5, 1, 2, 3, 4, 23, 24]),
    ("trace", &[5, 21]),
    ("read_line", &[5, 27, 28, 1, 2]),
    ("push_all", &[5, 21, 22, 3]),
    ("merge", &[5, 1, 2, 3, 4, 29, 30, 31]),
    ("period_length", &[5, 32, 3]),
    ("enumerate", &[5, 1, 2, 33]),
    ("tally", &[5, 1, 2, 33]),
    // Those of the whole call; a slip's own stand in its reply.
    ("look_up_batch", &[5, 34, 23]),
    // A piece that is too short is put after the slips.
    ("listing", &[1, 2, 3, 4]),
    ("ask", &[5, 27, 28, 1, 2]),
    ("census", &[1, 2, 33]),
];

/// How often each thing was met, by name.
pub type Tally<T> = BTreeMap<T, usize>;

pub fn count<T: Ord>(tally: &mut Tally<T>, thing: T) {
    *tally.entry(thing).or_insert(0) += 1;
}

/// The scripts, slips and lines of the seeds, each with the text that they lead to.
pub fn met(group: &mut Group) {
    let script = [
        scenarios::calls(11, 700),
        scenarios::candidates(12, 1000),
        catalogues(14, 300),
        linecalls(15, 2000),
        merges::merges(16, 1500),
        periods::periods(17, 600),
        numbers::numbers(18, 600),
        bundles::bundles(19, 400),
    ]
    .concat();
    let slips = sequences::slips(21, 2400);
    let (input, lines) = (typed(41, 1600), pairs(51, 400));
    let (text, whole) = replay(&script);
    group.check(whole, || String::from("the script is whole"));
    let (listed, asked) = (named("listing", &listing(&slips)), named("ask", &ask(&input)));
    let counted = named("census", &census(&lines));
    refusals_met(group, &[&text[..], &listed, &asked, &counted].concat());
    let worked = working(&sequences::slips(46, 160));
    starts_met(group, &[listed, named("working", &worked), asked].concat());
    onlymet::met(group, &script, &text, &worked);
    slips_met(group, &slips);
    claims_met(group, &script);
    lines_met(group, &script, &input);
    longest_met(group, &input);
    columns_met(group, &script);
    servings::met(group, &script);
    mergesmet::met(group, &script);
    periodsmet::met(group, &script);
    numbersmet::met(group, &script);
    numbersmet::tallies_met(group, &script);
    numbersmet::lines_met(group, &lines);
    bundlesmet::met(group, &script);
    bundlesmet::by_hand_met(group, &script);
    met_at_random(group);
}

/// Those by hand have each kind; without them it takes more.
fn met_at_random(group: &mut Group) {
    servings::met(group, &rounds(14, 2000));
    mergesmet::met(group, &merges::rounds(16, 40000));
    periodsmet::met(group, &periods::rounds(17, 40000));
    numbersmet::met(group, &numbers::rounds(18, 40000));
    bundlesmet::met(group, &bundles::rounds(19, 1300));
}

/// The text with the name of its command before each line.
fn named(command: &str, text: &str) -> String {
    text.lines().map(|line| format!("{command} {line}\n")).collect()
}

pub fn often(group: &mut Group, times: usize, words: impl Fn() -> String) {
    group.check(times >= LEAST, || format!("{}: {times} times", words()));
}

/// How often each call gave 3 or 31 at each place.
type Places<'a> = Tally<(&'a str, u32, usize)>;

/// Each call meets all its refusals and no other. Each 3, 27, 28 and 31 and nothing else has a
/// place.
fn refusals_met(group: &mut Group, text: &str) {
    let mut tally = Tally::new();
    let mut places = Places::new();
    for line in text.lines() {
        let words: Vec<&str> = line.split(' ').collect();
        // A column tells first how many were taken.
        let ([call, "taken", _, "refused", number, rest @ ..]
        | [call, "refused", number, rest @ ..]) = &words[..]
        else {
            continue;
        };
        let number = number.parse().unwrap_or(0);
        count(&mut tally, (*call, number));
        let place = match rest {
            ["at", place, ..] => Some(*place),
            _ => None,
        };
        let placed = [3, 27, 28, 31].contains(&number);
        group.check(place.is_some() == placed, || format!("the place in: {line}"));
        if let Some(place) = place.and_then(|place| place.parse::<usize>().ok()) {
            count(&mut places, (*call, number, place));
        }
    }
    let expected: BTreeSet<(&str, u32)> =
        REFUSALS.iter().flat_map(|(call, all)| all.iter().map(|&number| (*call, number))).collect();
    for &(call, number) in expected.iter().chain(tally.keys()) {
        group.check(expected.contains(&(call, number)), || format!("{call} refused {number}"));
        let times = tally.get(&(call, number)).copied().unwrap_or(0);
        often(group, times, || format!("{call} refused {number}"));
    }
    places_met(group, &places);
}

/// Every call that gives 3 has the least place, the largest and others, and so has 31.
fn places_met(group: &mut Group, places: &Places) {
    let takings = ["push", "push_all"].into_iter();
    let of_takings = takings.flat_map(|call| [0, 1, 2, 10, 127].map(|place| (call, place)));
    let of_periods = [0, 1, 2, 31, 32, 63].map(|place| ("period_length", place));
    for (call, place) in of_takings.chain(of_periods) {
        let times = places.get(&(call, 3, place)).copied().unwrap_or(0);
        often(group, times, || format!("{call} refused 3 at {place}"));
    }
    let of_slips = ["verify", "synthesize", "look_up", "listing", "merge"].map(|call| (call, 3));
    for (call, number) in of_slips.into_iter().chain([("merge", 31)]) {
        let other = |key: &&(&str, u32, usize)| (key.0, key.1) == (call, number) && key.2 > 0;
        let others = places.keys().filter(other).count();
        often(group, others, || format!("{call} refused {number} at other places than 0"));
        for place in [0, TERMS_LIMIT - 1] {
            let times = places.get(&(call, number, place)).copied().unwrap_or(0);
            often(group, times, || format!("{call} refused {number} at {place}"));
        }
    }
}

/// 02, A6: each command prints orders that are 0, between 0 and the start, and the start, and
/// starts of 0, so that a listing with the one for the other is found out.
fn starts_met(group: &mut Group, text: &str) {
    let mut tally = Tally::new();
    for (command, line) in text.lines().filter_map(|line| line.split_once(' ')) {
        if let Some(told) = read_back(line) {
            count(&mut tally, (command, told.kind()));
        }
    }
    let commands = ["listing", "working", "ask"];
    for (command, kind) in commands.iter().flat_map(|c| starts::KINDS.map(|kind| (*c, kind))) {
        let times = tally.get(&(command, kind)).copied().unwrap_or(0);
        often(group, times, || format!("{command}, lines: {kind}"));
    }
    let all = tally.len() == commands.len() * starts::KINDS.len();
    group.check(all, || format!("kinds of orders: {tally:?}"));
}

/// What the slips must have: terms out of range, alone and several, of each value, and 4.
const KINDS_OF_SLIPS: [&str; 13] = [
    "one, at 127",
    "one, at the start",
    "one, at the end",
    "one, in the middle",
    "several, from the start on",
    "several, up to the end",
    "several, in the middle",
    "the modulus",
    "another term",
    "65,535",
    "a low byte in range",
    "past the count alone",
    "another 4",
];

fn slips_met(group: &mut Group, slips: &[u8]) {
    let mut tally = Tally::new();
    for slip in slips.chunks_exact(SLIP_BYTES) {
        for kind in kinds_of_slip(slip) {
            count(&mut tally, kind);
        }
    }
    for kind in KINDS_OF_SLIPS {
        often(group, tally.get(kind).copied().unwrap_or(0), || format!("slips: {kind}"));
    }
}

/// The kinds that one slip is of.
fn kinds_of_slip(slip: &[u8]) -> Vec<&'static str> {
    let numbers = cells(slip);
    let (m, terms) = (numbers[0], &numbers[2..]);
    let last = (numbers[1] as usize).saturating_sub(1);
    let places = offending(slip);
    let Some(&place) = places.first() else {
        let four = check_slip(slip).is_err_and(|refusal| refusal.number() == 4);
        let large = terms.iter().skip(last + 1).any(|&cell| cell >= m);
        let kind = if large { "past the count alone" } else { "another 4" };
        return if four { vec![kind] } else { Vec::new() };
    };
    let value = terms[place];
    let mut kinds = vec![kind_of_places(&places, last)];
    kinds.push(if value == m { "the modulus" } else { "another term" });
    if value == 65535 {
        kinds.push("65,535");
    }
    if value % 256 < m && m <= 256 {
        kinds.push("a low byte in range");
    }
    kinds
}

/// Where the terms out of range stand; there is at least one.
fn kind_of_places(places: &[usize], last: usize) -> &'static str {
    match places {
        [127] => "one, at 127",
        [0] => "one, at the start",
        [place] if *place == last => "one, at the end",
        [_] => "one, in the middle",
        [0, ..] => "several, from the start on",
        [.., end] if *end == last => "several, up to the end",
        _ => "several, in the middle",
    }
}

/// A claim that a call gets to look at, and the slip that it is held against, if any.
struct Looked {
    slip: Option<Vec<u8>>,
    m: u64,
    a: Vec<u8>,
    b: Vec<u8>,
    l: u64,
}

/// The kinds of claims, and whether this one is of the kind.
fn kinds_of(claim: &Looked) -> [(&'static str, bool); 18] {
    use Fault::*;
    let wrong = faults(claim.m, &claim.a, &claim.b, claim.l);
    let only = |faults: &[Fault]| wrong == faults.iter().copied().collect();
    let has = |fault: Fault| wrong.contains(&fault);
    let six = [StartRange, RangeOfA, RangeOfB, PastA, PastB].into_iter().any(has);
    let start = cells(&claim.a)[0];
    [
        ("25", has(Long)),
        ("25 alone", only(&[Long])),
        ("25 with 6", has(Long) && six),
        ("25 with 26", only(&[Long, Start])),
        ("6", !has(Long) && six),
        ("6, a_0 not below m", only(&[StartRange])),
        ("6, a not below m", only(&[RangeOfA])),
        ("6, b not below m", only(&[RangeOfB])),
        ("6, a past l", only(&[PastA])),
        ("6, b past l-1", only(&[PastB])),
        ("6 with 26, not below m", only(&[RangeOfA, Start]) || only(&[RangeOfB, Start])),
        ("6 with 26, past the end", only(&[PastA, Start]) || only(&[PastB, Start])),
        ("26", only(&[Start])),
        ("26, a_0 is 0", only(&[Start]) && start == 0),
        ("26, a_0 is 2", only(&[Start]) && start == 2),
        ("26, a_0 is m-1", only(&[Start]) && start == claim.m - 1),
        ("good", only(&[])),
        ("good, and the test says no", fails(claim)),
    ]
}

fn fails(claim: &Looked) -> bool {
    let against = |slip: &Vec<u8>| verify(slip, &claim.a, &claim.b, claim.l as u32);
    matches!(claim.slip.as_ref().map(against), Some(Ok(Verdict::No(_))))
}

/// Every kind of claim in testings and in runnings, which have no test, and the kinds
/// that 24 is given for in records found.
fn claims_met(group: &mut Group, script: &[u8]) {
    let mut tally = Tally::new();
    let mut rest = script;
    while let Ok((call, size)) = Call::parse(rest) {
        rest = &rest[size..];
        for (kind, applies) in claim_of(&call).iter().flat_map(kinds_of) {
            *tally.entry((call.operation as u8, kind)).or_insert(0) += usize::from(applies);
        }
    }
    group.check(tally.len() == 3 * 18, || format!("kinds of claims: {tally:?}"));
    let on_shelves = ["25", "6", "26", "good", "good, and the test says no"];
    for ((call, kind), times) in tally {
        let needed = if call == Operation::LookUp as u8 {
            on_shelves.contains(&kind)
        } else {
            call == Operation::Verify as u8 || !kind.ends_with("says no")
        };
        if needed {
            often(group, times, || format!("claims in operation {call}: {kind}"));
        }
    }
}

/// The claim of a call that is not refused before its claim is looked at.
fn claim_of(call: &Call) -> Option<Looked> {
    let [first, second, third] = call.buffers();
    match (call.operation, [first.len(), second.len(), third.len()]) {
        (Operation::Verify, [SLIP_BYTES, A_BYTES, B_BYTES]) => {
            let m = check_slip(&first).ok()?.modulus;
            Some(Looked { slip: Some(first), m, a: second, b: third, l: u64::from(call.number) })
        }
        (Operation::Generate, [A_BYTES, B_BYTES, 0..=256]) if third.len() % 2 == 0 => {
            let m = u64::from(call.number);
            let legal = (2..=MODULUS_LIMIT).contains(&m);
            legal.then(|| Looked { slip: None, m, a: first, b: second, l: u64::from(call.l) })
        }
        (Operation::LookUp, [SLIP_BYTES, size, RECORD_BYTES]) if size % RECORD_BYTES == 0 => {
            let m = check_slip(&first).ok()?.modulus;
            let found = second.chunks(RECORD_BYTES).find(|record| record[..SLIP_BYTES] == first)?;
            let l = cells(&found[RECORD_LENGTH_AT..RECORD_A_AT])[0];
            let a = found[RECORD_A_AT..RECORD_B_AT].to_vec();
            let b = found[RECORD_B_AT..RECORD_NUMBER_AT].to_vec();
            Some(Looked { slip: Some(first), m, a, b, l })
        }
        _ => None,
    }
}

// ---- typed lines ----

/// What the lines must be, in the script and as they are typed.
const KINDS_OF_LINES: [&str; 39] = [
    "27, too short",
    "27, the fixed text",
    "27, the modulus",
    "27, after the colon",
    "27, a digit",
    "27, a comma",
    "27, a minus",
    "27, a blank",
    "27, a colon",
    "27, a carriage return",
    "27, another byte",
    "27, then a number out of its range",
    "27, in a line above 1,000 bytes",
    "27, after the 128th term",
    "27, with a modulus that is not legal",
    "28, the modulus",
    "28, a term after a minus",
    "28, a term without a minus",
    "28, the tenth digit",
    "28, the eleventh digit",
    "28, after leading zeros",
    "28, then another byte",
    "28, in a line above 1,000 bytes",
    "28, after the 128th term",
    "1, below 2",
    "1, above 4,095",
    "1, with more than 128 terms",
    "2, 129 terms",
    "2, more terms",
    "read, no byte after the colon",
    "read, only blanks",
    "read, 127 terms",
    "read, 128 terms",
    "read, -2147483648",
    "read, 2147483647",
    "read, -0",
    "read, -1",
    "read, leading zeros",
    "read, above 1,000 bytes",
];

/// Each kind among the readings of the script, and among the lines that are asked.
fn lines_met(group: &mut Group, script: &[u8], input: &[u8]) {
    let mut tally = Tally::new();
    let mut rest = script;
    while let Ok((call, size)) = Call::parse(rest) {
        rest = &rest[size..];
        if call.operation == Operation::ReadLine && usize::from(call.lengths[1]) == SLIP_BYTES {
            count_kinds(&mut tally, "read_line", &call.payload);
        }
    }
    for line in ask::lines(input).filter(|line| line.len() <= LINE_LIMIT) {
        count_kinds(&mut tally, "ask", line);
    }
    for (call, kind) in
        ["read_line", "ask"].iter().flat_map(|call| KINDS_OF_LINES.map(|k| (call, k)))
    {
        let times = tally.get(&(*call, kind)).copied().unwrap_or(0);
        often(group, times, || format!("{call}, lines: {kind}"));
    }
    group.check(tally.len() == 2 * KINDS_OF_LINES.len(), || format!("kinds of lines: {tally:?}"));
}

fn count_kinds(tally: &mut Tally<(&'static str, &'static str)>, call: &'static str, line: &[u8]) {
    let refused = told(read_line(line, &mut [0; SLIP_BYTES])).err();
    for (kind, applies) in kinds_of_line(line, refused) {
        if applies {
            count(tally, (call, kind));
        }
    }
}

/// Lines next to the limit of what is read, with each end mark and with carriage returns
/// that are none; a last line without an end mark.
fn longest_met(group: &mut Group, input: &[u8]) {
    let pieces: Vec<&[u8]> = input.split(|&byte| byte == b'\n').collect();
    let ends: [(usize, &[u8]); 5] =
        [(65_536, b""), (65_536, b"\r"), (65_537, b""), (65_535, b"\r\r"), (65_536, b"\r\r")];
    for (size, end) in ends {
        let has = |piece: &&[u8]| {
            piece.strip_suffix(end).is_some_and(|line| line.len() == size && !line.ends_with(b"\r"))
        };
        let words = || format!("a line of {size} bytes, then {}", end.escape_ascii());
        group.check(pieces.iter().any(has), words);
    }
    let far = pieces.iter().any(|piece| piece.len() > 140_000);
    group.check(far, || String::from("a line far above the limit"));
    let within = |piece: &&[u8]| piece.len() > 65_538 && piece[65_536] == b'\r';
    group.check(pieces.iter().any(within), || String::from("a line that goes on after one"));
    group.check(!input.ends_with(b"\n"), || String::from("a last line without an end mark"));
}

pub type Kinds = Vec<(&'static str, bool)>;

fn kinds_of_line(line: &[u8], refused: Option<Told>) -> Kinds {
    let text = String::from_utf8_lossy(line);
    match refused {
        Some((27, Some(place))) => kinds_of_form(line, place),
        Some((28, Some(place))) => kinds_of_range(line, place),
        Some((1, _)) => vec![
            ("1, below 2", modulus_of(line) < 2),
            ("1, above 4,095", modulus_of(line) > 4095),
            ("1, with more than 128 terms", commas(line) >= 128),
        ],
        Some(_) => {
            vec![("2, 129 terms", commas(line) == 128), ("2, more terms", commas(line) > 128)]
        }
        None => vec![
            ("read, no byte after the colon", text.ends_with(':')),
            ("read, only blanks", text.ends_with(": ") || text.ends_with(":  ")),
            ("read, 127 terms", commas(line) == 126),
            ("read, 128 terms", commas(line) == 127),
            ("read, -2147483648", text.contains("-2147483648")),
            ("read, 2147483647", text.contains(",2147483647")),
            ("read, -0", text.contains("-0,")),
            ("read, -1", text.contains("-1,")),
            ("read, leading zeros", text.starts_with("mod 0") && text.contains(",00")),
            ("read, above 1,000 bytes", line.len() > 1000),
        ],
    }
}

fn commas(text: &[u8]) -> usize {
    text.iter().filter(|&&byte| byte == b',').count()
}

/// The number between the fixed text and the colon.
fn modulus_of(line: &[u8]) -> u64 {
    let text = String::from_utf8_lossy(line);
    let digits = text.strip_prefix("mod ").and_then(|rest| rest.split(':').next());
    digits.and_then(|digits| digits.parse().ok()).unwrap_or(0)
}

/// What the byte at the place is, and what is before and after it.
fn kinds_of_form(line: &[u8], place: usize) -> Kinds {
    let (before, after) = line.split_at(place);
    let rest = String::from_utf8_lossy(after);
    let colon = before.contains(&b':');
    let is = |allowed: &[u8]| after.first().is_some_and(|byte| allowed.contains(byte));
    let known = after.is_empty() || is(b"0123456789,- :\r");
    vec![
        ("27, too short", after.is_empty()),
        ("27, the fixed text", place < 4 && !after.is_empty()),
        ("27, the modulus", place >= 4 && !colon && !after.is_empty()),
        ("27, after the colon", colon && !after.is_empty()),
        ("27, a digit", is(b"0123456789")),
        ("27, a comma", is(b",")),
        ("27, a minus", is(b"-")),
        ("27, a blank", is(b" ")),
        ("27, a colon", is(b":")),
        ("27, a carriage return", is(b"\r")),
        ("27, another byte", !known),
        ("27, then a number out of its range", rest.contains(",2147483648")),
        ("27, in a line above 1,000 bytes", line.len() > 1000),
        ("27, after the 128th term", commas(before) >= 128),
        ("27, with a modulus that is not legal", colon && !(2..=4095).contains(&modulus_of(line))),
    ]
}

/// Which number has the digit at the place, and what is after it.
fn kinds_of_range(line: &[u8], place: usize) -> Kinds {
    let other = |byte: &u8| !b"0123456789,- :".contains(byte);
    let digits = line[..=place].rsplit(|byte| !byte.is_ascii_digit()).next().unwrap_or(&[]);
    let before = &line[..=place - digits.len()];
    let zeros = digits.iter().take_while(|&&digit| digit == b'0').count();
    vec![
        ("28, the modulus", before.ends_with(b"mod ")),
        ("28, a term after a minus", before.ends_with(b"-")),
        ("28, a term without a minus", before.contains(&b':') && !before.ends_with(b"-")),
        ("28, the tenth digit", digits.len() - zeros == 10),
        ("28, the eleventh digit", digits.len() - zeros == 11),
        ("28, after leading zeros", zeros > 0),
        ("28, then another byte", line[place..].iter().any(other)),
        ("28, in a line above 1,000 bytes", line.len() > 1000),
        ("28, after the 128th term", commas(before) >= 128),
    ]
}

// ---- columns ----

/// What the columns must be, and what must come after some of them.
const KINDS_OF_COLUMNS: [&str; 66] = [
    "ok, no cell",
    "ok, no cell, 128 held",
    "ok, one cell",
    "ok, more cells",
    "ok, some held before",
    "ok, up to the 128th",
    "ok, 128 cells",
    "5, one byte",
    "5, more bytes",
    "5, above 256 bytes",
    "5, above 10,000 bytes",
    "5, 128 held",
    "5, a bad modulus",
    "5, a bad count",
    "5, a bad term",
    "5, something past the count",
    "21, a bad modulus, no cell",
    "21, a bad count, no cell",
    "21, a bad term, no cell",
    "21, something past the count, no cell",
    "21, a bad modulus, cells",
    "21, a bad count, cells",
    "21, a bad term, cells",
    "21, something past the count, cells",
    "21, a wrong term",
    "22, none taken",
    "22, some taken",
    "22, 128 taken",
    "22, one more than fits",
    "22, none taken, and a wrong term",
    "22, some taken, and a wrong term",
    "22, a right term, and a wrong one later",
    "22, 129 cells",
    "22, 200 cells",
    "22, 1,000 cells",
    "22, above 10,000 cells",
    "22, 129 cells, none held",
    "22, 200 cells, none held",
    "22, 1,000 cells, none held",
    "22, above 10,000 cells, none held",
    "3, none taken",
    "3, some taken",
    "3 at 0",
    "3 at 127",
    "3 at 127, some taken",
    "3, some held before, some taken",
    "3, one cell",
    "3, the first of several",
    "3, the last of several",
    "3, in the middle",
    "3, the modulus",
    "3, the modulus and 1",
    "3, 65,535",
    "3, another term",
    "3, a low byte in range",
    "3, right terms later",
    "3, another wrong term later",
    "3, above 128 cells",
    "3, then more than fits",
    "some taken, as by another before",
    "some taken, as by another and singly before",
    "right after a refused one that took some",
    "right after a refused one that took none",
    "register after a refused one that took some",
    "profile after a refused one that took some",
    "trace after a refused one that took some",
];

fn columns_met(group: &mut Group, script: &[u8]) {
    let mut tally = Tally::new();
    let mut trail = Trail::of(zero_reading());
    let mut rest = script;
    while let Ok((call, size)) = Call::parse(rest) {
        rest = &rest[size..];
        for (kind, applies) in trail.follow(&call) {
            *tally.entry(kind).or_insert(0) += usize::from(applies);
        }
    }
    for kind in KINDS_OF_COLUMNS {
        often(group, tally.get(kind).copied().unwrap_or(0), || format!("columns: {kind}"));
    }
    let all = tally.len() == KINDS_OF_COLUMNS.len();
    group.check(all, || format!("kinds of columns: {tally:?}"));
}

/// The reading held along a script, and what came since it was opened or forged.
struct Trail {
    held: Reading,
    /// A column took some; a single taking was not refused after it.
    column: bool,
    taking: bool,
    /// The last call was a refused column, with how many it took.
    just_refused: Option<usize>,
    /// A refused column took some, and nothing was taken since.
    stays: bool,
}

impl Trail {
    fn of(held: Reading) -> Trail {
        Trail { held, column: false, taking: false, just_refused: None, stays: false }
    }

    /// Makes the call; the kinds that it is of.
    fn follow(&mut self, call: &Call) -> Kinds {
        let just_refused = self.just_refused.take();
        match call.operation {
            Operation::Open | Operation::Forge => {
                line(call, &mut self.held);
                *self = Trail::of(self.held.clone());
            }
            Operation::Push => {
                if push(&mut self.held, call.number).is_ok() {
                    (self.taking, self.stays) = (self.column, false);
                }
            }
            Operation::PushAll => return self.column(&call.payload, just_refused),
            Operation::Register => {
                let right = self.stays && call.lengths[..2] == [A_BYTES as u16, B_BYTES as u16];
                return vec![("register after a refused one that took some", right)];
            }
            Operation::Profile => {
                let right = self.stays && call.lengths[0] == PROFILE_BYTES as u16;
                return vec![("profile after a refused one that took some", right)];
            }
            Operation::Trace => {
                let right = self.stays && call.lengths[..2] == [A_BYTES as u16, B_BYTES as u16];
                return vec![("trace after a refused one that took some", right)];
            }
            _ => {}
        }
        Vec::new()
    }

    fn column(&mut self, list: &[u8], just_refused: Option<usize>) -> Kinds {
        let before = self.held.clone();
        let (taken, outcome) = push_all(&mut self.held, list);
        let (some, refused) = (taken > 0, told(outcome).err());
        let mut kinds = kinds_of_column(&before, list, taken, refused);
        kinds.extend([
            ("some taken, as by another before", some && self.column),
            ("some taken, as by another and singly before", some && self.taking),
            ("right after a refused one that took some", just_refused.is_some_and(|n| n > 0)),
            ("right after a refused one that took none", just_refused == Some(0)),
        ]);
        if some {
            (self.column, self.taking, self.stays) = (true, false, refused.is_some());
        }
        self.just_refused = refused.map(|_| taken);
        kinds
    }
}

fn kinds_of_column(before: &Reading, list: &[u8], taken: usize, refused: Option<Told>) -> Kinds {
    let (m, count) = (u64::from(before.modulus), usize::from(before.count));
    let terms = cells(list);
    match refused {
        None => vec![
            ("ok, no cell", terms.is_empty()),
            ("ok, no cell, 128 held", terms.is_empty() && count == 128),
            ("ok, one cell", terms.len() == 1),
            ("ok, more cells", terms.len() > 1),
            ("ok, some held before", taken > 0 && count > 0),
            ("ok, up to the 128th", taken > 0 && count + taken == 128),
            ("ok, 128 cells", taken == 128),
        ],
        Some((5, _)) => {
            let bad = badness(before);
            vec![
                ("5, one byte", list.len() == 1),
                ("5, more bytes", list.len() > 1),
                ("5, above 256 bytes", list.len() > 256),
                ("5, above 10,000 bytes", list.len() > 10_000),
                ("5, 128 held", bad == 0 && count == 128),
                ("5, a bad modulus", bad == 1),
                ("5, a bad count", bad == 2),
                ("5, a bad term", bad == 3),
                ("5, something past the count", bad == 4),
            ]
        }
        Some((21, _)) => {
            let (bad, empty) = (badness(before), terms.is_empty());
            let wrong = m > 1 && terms.iter().any(|&term| term >= m);
            vec![
                ("21, a bad modulus, no cell", bad == 1 && empty),
                ("21, a bad count, no cell", bad == 2 && empty),
                ("21, a bad term, no cell", bad == 3 && empty),
                ("21, something past the count, no cell", bad == 4 && empty),
                ("21, a bad modulus, cells", bad == 1 && !empty),
                ("21, a bad count, cells", bad == 2 && !empty),
                ("21, a bad term, cells", bad == 3 && !empty),
                ("21, something past the count, cells", bad == 4 && !empty),
                ("21, a wrong term", wrong),
            ]
        }
        Some((number, _)) => match terms.get(taken..).and_then(<[u64]>::split_first) {
            Some((&term, later)) if number == 22 => kinds_of_full(m, taken, term, later),
            Some((&term, later)) => kinds_of_wrong(m, count, taken, term, later),
            None => Vec::new(),
        },
    }
}

/// What a slip with the reading's bytes gets, 1 to 4, or 0 for nothing.
fn badness(reading: &Reading) -> u32 {
    check_slip(&reading_bytes(reading)).map_or_else(|refusal| refusal.number(), |_| 0)
}

/// The kinds of a column that gets 22 for the term after those taken.
fn kinds_of_full(m: u64, taken: usize, term: u64, later: &[u64]) -> Kinds {
    let size = taken + 1 + later.len();
    let wrong = term >= m;
    let wrong_later = later.iter().any(|&term| term >= m);
    vec![
        ("22, none taken", taken == 0),
        ("22, some taken", taken > 0),
        ("22, 128 taken", taken == 128),
        ("22, one more than fits", taken > 0 && later.is_empty()),
        ("22, none taken, and a wrong term", taken == 0 && wrong),
        ("22, some taken, and a wrong term", taken > 0 && wrong),
        ("22, a right term, and a wrong one later", !wrong && wrong_later),
        ("22, 129 cells", size == 129),
        ("22, 200 cells", size == 200),
        ("22, 1,000 cells", size == 1000),
        ("22, above 10,000 cells", size > 10_000),
        ("22, 129 cells, none held", size == 129 && taken == 128),
        ("22, 200 cells, none held", size == 200 && taken == 128),
        ("22, 1,000 cells, none held", size == 1000 && taken == 128),
        ("22, above 10,000 cells, none held", size > 10_000 && taken == 128),
    ]
}

/// The kinds of a column that gets 3 for the term after those taken.
fn kinds_of_wrong(m: u64, count: usize, taken: usize, term: u64, later: &[u64]) -> Kinds {
    let end = count + taken;
    vec![
        ("3, none taken", taken == 0),
        ("3, some taken", taken > 0),
        ("3 at 0", end == 0),
        ("3 at 127", end == 127),
        ("3 at 127, some taken", end == 127 && taken > 0),
        ("3, some held before, some taken", count > 0 && taken > 0),
        ("3, one cell", taken == 0 && later.is_empty()),
        ("3, the first of several", taken == 0 && !later.is_empty()),
        ("3, the last of several", taken > 0 && later.is_empty()),
        ("3, in the middle", taken > 0 && !later.is_empty()),
        ("3, the modulus", term == m),
        ("3, the modulus and 1", term == m + 1),
        ("3, 65,535", term == 65535),
        ("3, another term", term > m + 1 && term < 65535),
        ("3, a low byte in range", term % 256 < m && m <= 256),
        ("3, right terms later", !later.is_empty() && later.iter().all(|&term| term < m)),
        ("3, another wrong term later", later.iter().any(|&term| term >= m)),
        ("3, above 128 cells", taken + 1 + later.len() > 128),
        ("3, then more than fits", end + later.len() > 128),
    ]
}
