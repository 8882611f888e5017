//! What the servings and makings of a script meet (02, A7): who asks, which accession numbers
//! stand there, what was lent, and the same serving from two shelves that differ in the
//! numbers alone. Sizes and places are numbers here, as the papers have them.

use crate::calls::zero_reading;
use crate::checks::Group;
use crate::coverage::{count, often, Kinds, Tally};
use crate::script::{line, Call, Operation};

const KINDS: [&str; 60] = [
    "found by an editor, number 0",
    "found by an editor, the low byte alone",
    "found by an editor, the high byte alone",
    "found by an editor, both bytes",
    "found by a visitor, number 0",
    "found by a visitor, the low byte alone",
    "found by a visitor, the high byte alone",
    "found by a visitor, both bytes",
    "found by 0, a number",
    "found by 2, a number",
    "found by 3, a number",
    "found by 256, a number",
    "found by 257, a number",
    "found by 65,536, a number",
    "found by 65,537, a number",
    "found by 16,777,217, a number",
    "found by 2^31, a number",
    "found by 2^31 + 1, a number",
    "found by 2^32 - 1, a number",
    "found by another, a number",
    "found, number 1",
    "found, number 256",
    "found, number 65,535",
    "found, a number not below the modulus",
    "found after other records, a number",
    "found at 10 or later, a number",
    "found by an editor, there again with another number",
    "found by a visitor, there again with another number",
    "found, there again with another claim",
    "found by an editor, the last byte of b not 0",
    "found by a visitor, the last byte of b not 0",
    "made for an editor, no record",
    "made for an editor, records",
    "made for a visitor, no record",
    "made for a visitor, records",
    "made for an editor, other bytes lent than 0",
    "made for a visitor, other bytes lent than 0",
    "made, the slip stands at a multiple of 776",
    "24 for an editor, a number",
    "24 for a visitor, a number",
    "24, number 0",
    "24 for an editor, other bytes lent than 0",
    "24 for a visitor, other bytes lent than 0",
    "24, the last byte of b",
    "24, a number not below the modulus",
    "23 for an editor",
    "23 for a visitor",
    "23, a byte more",
    "23, a byte less",
    "23, a multiple of 776",
    "23, 776 bytes",
    "23, the slip stands first",
    "5, a record of 776 bytes, for an editor",
    "5, a record of 776 bytes, for a visitor",
    "5, a record of 777 bytes",
    "5, a record of 779 bytes",
    "a slip refused, for an editor",
    "a slip refused, for a visitor",
    "a making, other bytes lent than 0",
    "a making, 5, a record of 776 bytes",
];

/// Twice in a row from shelves that differ in the numbers alone.
const TWICE: [&str; 10] = [
    "twice for a visitor, found, other numbers",
    "twice for a visitor, made",
    "twice for a visitor, refused 23",
    "twice for a visitor, refused 24",
    "twice for a visitor, another refusal",
    "twice for an editor, found, other numbers",
    "twice for an editor, made",
    "twice for an editor, refused 23",
    "twice for an editor, refused 24",
    "twice for an editor, another refusal",
];

/// Each kind in the script.
pub fn met(group: &mut Group, script: &[u8]) {
    let mut tally = Tally::new();
    for (call, line) in lines(script) {
        for (kind, applies) in kinds_of(&call, &line) {
            *tally.entry(kind).or_insert(0) += usize::from(applies);
        }
    }
    for kind in KINDS {
        often(group, tally.get(kind).copied().unwrap_or(0), || format!("servings: {kind}"));
    }
    group.check(tally.len() == KINDS.len(), || format!("kinds of servings: {tally:?}"));
    let twice = pairs(group, script);
    for kind in TWICE {
        often(group, twice.get(kind).copied().unwrap_or(0), || format!("servings: {kind}"));
    }
}

/// The calls of a script with their lines, but only the servings and makings, which do not
/// look at the reading held.
fn lines(script: &[u8]) -> Vec<(Call, String)> {
    let mut lines = Vec::new();
    let mut rest = script;
    while let Ok((call, size)) = Call::parse(rest) {
        rest = &rest[size..];
        if matches!(call.operation, Operation::LookUp | Operation::Synthesize) {
            let line = line(&call, &mut zero_reading());
            lines.push((call, line));
        }
    }
    lines
}

// ---- kinds ----

fn kinds_of(call: &Call, line: &str) -> Kinds {
    let words: Vec<&str> = line.split(' ').collect();
    let [slip, shelf, record] = call.buffers();
    let editor = call.number == 1;
    match words[..] {
        ["synthesize", "ok", ..] => vec![("a making, other bytes lent than 0", call.fill != 0)],
        ["synthesize", _, number, ..] => {
            vec![("a making, 5, a record of 776 bytes", number == "5" && shelf.len() == 776)]
        }
        ["look_up", "found", ..] => kinds_of_found(call, &slip, &shelf),
        ["look_up", "made", ..] => kinds_of_made(call, &slip, &shelf),
        ["look_up", _, "24", ..] => kinds_of_bad(call, &slip, &shelf),
        ["look_up", _, "23", ..] => kinds_of_23(call, &slip, &shelf),
        ["look_up", _, "5", ..] => vec![
            ("5, a record of 776 bytes, for an editor", editor && record.len() == 776),
            ("5, a record of 776 bytes, for a visitor", !editor && record.len() == 776),
            ("5, a record of 777 bytes", record.len() == 777),
            ("5, a record of 779 bytes", record.len() == 779),
        ],
        _ => vec![
            ("a slip refused, for an editor", editor),
            ("a slip refused, for a visitor", !editor),
        ],
    }
}

fn kinds_of_made(call: &Call, slip: &[u8], shelf: &[u8]) -> Kinds {
    let (editor, lent) = (call.number == 1, call.fill != 0);
    vec![
        ("made for an editor, no record", editor && shelf.is_empty()),
        ("made for an editor, records", editor && !shelf.is_empty()),
        ("made for a visitor, no record", !editor && shelf.is_empty()),
        ("made for a visitor, records", !editor && !shelf.is_empty()),
        ("made for an editor, other bytes lent than 0", editor && lent),
        ("made for a visitor, other bytes lent than 0", !editor && lent),
        ("made, the slip stands at a multiple of 776", stands_at_776s(slip, shelf)),
    ]
}

fn kinds_of_23(call: &Call, slip: &[u8], shelf: &[u8]) -> Kinds {
    let editor = call.number == 1;
    vec![
        ("23 for an editor", editor),
        ("23 for a visitor", !editor),
        ("23, a byte more", shelf.len() % 778 == 1),
        ("23, a byte less", shelf.len() % 778 == 777),
        ("23, a multiple of 776", shelf.len() % 776 == 0),
        ("23, 776 bytes", shelf.len() == 776),
        ("23, the slip stands first", shelf.starts_with(slip)),
    ]
}

/// The first record of the shelf with this slip, and its place.
fn first_match<'a>(slip: &[u8], shelf: &'a [u8]) -> Option<(usize, &'a [u8])> {
    let mut records = shelf.chunks_exact(778).enumerate();
    records.find(|(_, record)| record[..260] == *slip)
}

fn number_of(record: &[u8]) -> u32 {
    u32::from(record[776]) + 256 * u32::from(record[777])
}

/// The number is none that b could have: the slip's modulus is not above it.
fn not_below(slip: &[u8], number: u32) -> bool {
    number >= u32::from(slip[0]) + 256 * u32::from(slip[1])
}

/// Whether a walk in the steps of old records would meet the slip, after the first.
fn stands_at_776s(slip: &[u8], shelf: &[u8]) -> bool {
    (1..)
        .map(|place| 776 * place)
        .take_while(|&at| at < shelf.len())
        .any(|at| shelf[at..].starts_with(slip))
}

fn kinds_of_found(call: &Call, slip: &[u8], shelf: &[u8]) -> Kinds {
    let Some((place, found)) = first_match(slip, shelf) else { return Vec::new() };
    let number = number_of(found);
    let editor = call.number == 1;
    let mut kinds = kinds_of_asker(call.number, number);
    kinds.extend(kinds_of_again(editor, slip, found, &shelf[778 * (place + 1)..]));
    kinds.extend([
        ("found, number 1", number == 1),
        ("found, number 256", number == 256),
        ("found, number 65,535", number == 65_535),
        ("found, a number not below the modulus", number > 0 && not_below(slip, number)),
        ("found after other records, a number", place > 0 && number > 0),
        ("found at 10 or later, a number", place >= 10 && number > 0),
        ("found by an editor, the last byte of b not 0", editor && found[775] > 0),
        ("found by a visitor, the last byte of b not 0", !editor && found[775] > 0),
    ]);
    kinds
}

/// Who found a record with this number.
fn kinds_of_asker(who: u32, number: u32) -> Kinds {
    let (some, editor) = (number > 0, who == 1);
    let (low, high) = (some && number < 256, some && number % 256 == 0);
    let both = some && !low && !high;
    let known =
        [0, 1, 2, 3, 256, 257, 65_536, 65_537, 16_777_217, 1 << 31, (1 << 31) + 1, u32::MAX];
    vec![
        ("found by an editor, number 0", editor && !some),
        ("found by an editor, the low byte alone", editor && low),
        ("found by an editor, the high byte alone", editor && high),
        ("found by an editor, both bytes", editor && both),
        ("found by a visitor, number 0", !editor && !some),
        ("found by a visitor, the low byte alone", !editor && low),
        ("found by a visitor, the high byte alone", !editor && high),
        ("found by a visitor, both bytes", !editor && both),
        ("found by 0, a number", who == 0 && some),
        ("found by 2, a number", who == 2 && some),
        ("found by 3, a number", who == 3 && some),
        ("found by 256, a number", who == 256 && some),
        ("found by 257, a number", who == 257 && some),
        ("found by 65,536, a number", who == 65_536 && some),
        ("found by 65,537, a number", who == 65_537 && some),
        ("found by 16,777,217, a number", who == 16_777_217 && some),
        ("found by 2^31, a number", who == 1 << 31 && some),
        ("found by 2^31 + 1, a number", who == (1 << 31) + 1 && some),
        ("found by 2^32 - 1, a number", who == u32::MAX && some),
        ("found by another, a number", !known.contains(&who) && some),
    ]
}

/// What stands on the shelf behind a record found.
fn kinds_of_again(editor: bool, slip: &[u8], found: &[u8], behind: &[u8]) -> Kinds {
    let later = behind.chunks_exact(778);
    let numbered = |record: &[u8]| record[..776] == found[..776] && record[776..] != found[776..];
    let again = later.clone().any(numbered);
    // The same slip with another claim, so that it matters which is served.
    let mut others = later.filter(|record| record[..260] == *slip);
    let differs = others.any(|record| record[260..776] != found[260..776]);
    vec![
        ("found by an editor, there again with another number", editor && again),
        ("found by a visitor, there again with another number", !editor && again),
        ("found, there again with another claim", differs),
    ]
}

/// A record found that gets 24.
fn kinds_of_bad(call: &Call, slip: &[u8], shelf: &[u8]) -> Kinds {
    let Some((_, found)) = first_match(slip, shelf) else { return Vec::new() };
    let number = number_of(found);
    let (some, editor, lent) = (number > 0, call.number == 1, call.fill != 0);
    vec![
        ("24 for an editor, a number", editor && some),
        ("24 for a visitor, a number", !editor && some),
        ("24, number 0", !some),
        ("24 for an editor, other bytes lent than 0", editor && lent),
        ("24 for a visitor, other bytes lent than 0", !editor && lent),
        ("24, the last byte of b", found[775] > 0),
        ("24, a number not below the modulus", some && not_below(slip, number)),
    ]
}

// ---- the same serving twice ----

/// Servings that come twice in a row, from shelves that differ in the numbers alone: a visitor
/// gets the same line, and an editor does unless the number of the record found is another.
pub fn pairs(group: &mut Group, script: &[u8]) -> Tally<String> {
    let mut tally = Tally::new();
    for two in lines(script).windows(2) {
        let [(first, line), (second, next)] = two else { continue };
        if !differ_in_numbers(first, second) {
            continue;
        }
        let [slip, shelf, _] = first.buffers();
        let [_, other, _] = second.buffers();
        let words: Vec<&str> = line.split(' ').collect();
        let kind = match words[1..] {
            ["found", ..] => {
                let number = |shelf| first_match(&slip, shelf).map(|(_, found)| number_of(found));
                let same = number(&shelf) == number(&other);
                if same {
                    "found"
                } else {
                    "found, other numbers"
                }
            }
            ["made", ..] => "made",
            [_, "23", ..] => "refused 23",
            [_, "24", ..] => "refused 24",
            _ => "another refusal",
        };
        let editor = first.number == 1;
        let told = editor && kind == "found, other numbers";
        group.check((line == next) != told, || format!("{line}, {next} for {}", first.number));
        let who = if editor { "an editor" } else { "a visitor" };
        count(&mut tally, format!("twice for {who}, {kind}"));
    }
    tally
}

/// The same call but for accession numbers on the shelf.
fn differ_in_numbers(first: &Call, second: &Call) -> bool {
    let without = |call: &Call| {
        let [slip, mut shelf, record] = call.buffers();
        for record in shelf.chunks_exact_mut(778) {
            record[776..].fill(0);
        }
        (call.operation, call.number, call.fill, slip, shelf, record)
    };
    first.operation == Operation::LookUp && first != second && without(first) == without(second)
}
