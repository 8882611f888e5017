//! The self-test's checks of typed lines (02, A3): every byte, every short line, and lines
//! made from known numbers.

use crate::ask::ask;
use crate::calls::slip_of;
use crate::cases::{bare, Told};
use crate::checks::Group;
use crate::limits::*;
use crate::linecases::{check, form_at, outcome, range_at, shown, Outcome};
use crate::listing::{listing, HEADER};
use crate::random::Random;
use crate::sequences::{self, uniform};
use crate::typed;
use crate::working::{working, working_lines};
use std::collections::{BTreeMap, BTreeSet};

// ---- the form ----

/// Starts of lines, and the bytes that may come next: "each place in the line takes only
/// some of these".
const PLACES: [(&str, &[u8]); 19] = [
    ("", b"m"),
    ("m", b"o"),
    ("mo", b"d"),
    ("mod", b" "),
    ("mod ", b"0123456789"),
    ("mod 1", b"0123456789:"),
    ("mod 00", b"0123456789:"),
    ("mod 12:", b"0123456789- "),
    ("mod 12: ", b"0123456789- "),
    ("mod 12:  ", b"0123456789- "),
    ("mod 12: -", b"0123456789"),
    ("mod 12: -3", b"0123456789, "),
    ("mod 12:0", b"0123456789, "),
    ("mod 12:5 ", b", "),
    ("mod 12:-5  ", b", "),
    ("mod 12:5 ,", b"0123456789- "),
    ("mod 12:5, ", b"0123456789- "),
    ("mod 12:5,-", b"0123456789"),
    ("mod 12:5,6 ", b", "),
];

/// Every byte at each kind of place, last and with others after it.
pub fn places(group: &mut Group) {
    for (start, allowed) in PLACES {
        for byte in 0..=255 {
            for tail in ["", "x", ":", "0", " 1,", "2147483648"] {
                let line = [start.as_bytes(), &[byte], tail.as_bytes()].concat();
                let place = outcome(group, &line).err().and_then(|refusal| refusal.1);
                let right = if allowed.contains(&byte) {
                    place.is_none_or(|place| place > start.len())
                } else {
                    outcome(group, &line) == Err(form_at(start.len()))
                };
                group.check(right, || format!("{}: {place:?}", shown(&line)));
            }
        }
    }
    short_lines(group);
}

/// The bytes that the short lines are made of.
const LETTERS: &[u8] = b"01,- :xm";

/// All short texts behind some starts: 27 and its place by the words, where the lines with
/// the same bytes before a place are found among all lines up to some length.
fn short_lines(group: &mut Group) {
    let lines = all_lines(14);
    let starts: BTreeSet<&[u8]> =
        lines.keys().flat_map(|line| (0..=line.len()).map(|size| &line[..size])).collect();
    let texts = [
        ("", &b"01,- :xmod"[..]),
        ("mod ", LETTERS),
        ("mod 1", LETTERS),
        ("mod 11:", LETTERS),
        ("mod 11:1", LETTERS),
    ];
    for (start, letters) in texts {
        for_each_text(&mut start.as_bytes().to_vec(), letters, 5, &mut |text| {
            let broken = (0..text.len()).find(|&place| !starts.contains(&text[..=place]));
            let expected = match (broken, lines.get(text)) {
                (Some(place), _) => Err(form_at(place)),
                (None, None) => Err(form_at(text.len())),
                (None, Some(read)) => read.clone(),
            };
            check(group, text, expected);
        });
    }
}

/// The text itself, and all that come from it with up to so many letters more.
fn for_each_text(text: &mut Vec<u8>, letters: &[u8], more: usize, work: &mut impl FnMut(&[u8])) {
    work(text);
    if more > 0 {
        for &letter in letters {
            text.push(letter);
            for_each_text(text, letters, more - 1, work);
            text.pop();
        }
    }
}

/// All lines up to some length with the digits 0 and 1, and what each is read as.
fn all_lines(longest: usize) -> BTreeMap<Vec<u8>, Outcome> {
    let mut lines = BTreeMap::new();
    for size in 1..=longest - 5 {
        for (digits, m) in all_digits(size) {
            for rest in 0..=longest - 5 - size {
                let nothing = (vec![b' '; rest], Vec::new());
                for (list, terms) in all_lists(rest).into_iter().chain([nothing]) {
                    let line = [b"mod ", &digits[..], b":", &list].concat();
                    lines.insert(line, read_as(m, &terms));
                }
            }
        }
    }
    lines
}

fn read_as(m: i64, terms: &[i64]) -> Outcome {
    if !(2..=4095).contains(&m) {
        return Err(bare(1));
    }
    Ok((m as u64, terms.iter().map(|&term| ((term % m + m) % m) as u64).collect()))
}

/// All texts of this many digits 0 and 1, with their values.
fn all_digits(size: usize) -> Vec<(Vec<u8>, i64)> {
    let mut all = vec![(Vec::new(), 0)];
    for _ in 0..size {
        let longer = |(text, value): &(Vec<u8>, i64)| {
            let with = |digit: u8| [&text[..], &[b'0' + digit]].concat();
            [(with(0), 10 * value), (with(1), 10 * value + 1)]
        };
        all = all.iter().flat_map(longer).collect();
    }
    all
}

/// All terms of this many bytes: blanks, perhaps a minus, digits, blanks.
fn all_terms(size: usize) -> Vec<(Vec<u8>, i64)> {
    let mut all = Vec::new();
    for (before, after) in (0..size).flat_map(|before| (0..size).map(move |after| (before, after)))
    {
        for (minus, sign) in [("", 1), ("-", -1)] {
            let taken = before + after + minus.len();
            if taken < size {
                for (digits, value) in all_digits(size - taken) {
                    let (before, after) = (" ".repeat(before), " ".repeat(after));
                    let text = [before.as_bytes(), minus.as_bytes(), &digits, after.as_bytes()];
                    all.push((text.concat(), sign * value));
                }
            }
        }
    }
    all
}

/// All lists of one term or more with this many bytes.
fn all_lists(size: usize) -> Vec<(Vec<u8>, Vec<i64>)> {
    let alone = all_terms(size).into_iter().map(|(text, value)| (text, vec![value]));
    let mut all: Vec<(Vec<u8>, Vec<i64>)> = alone.collect();
    for first in 1..size.saturating_sub(1) {
        let rest = all_lists(size - first - 1);
        for (term, value) in all_terms(first) {
            for (list, values) in &rest {
                all.push(([&term, &b","[..], list].concat(), [&[value], &values[..]].concat()));
            }
        }
    }
    all
}

// ---- the numbers ----

/// The moduli that numbers are read with as terms.
const MODULI: [u64; 8] = [2, 3, 9, 10, 256, 1000, 4093, 4095];

/// Numbers next to the ends of the ranges, next to zero and next to powers of two, with
/// zeros before and digits after them, then random digits.
pub fn numbers(group: &mut Group) {
    let mut random = Random::new(31);
    let mut middles: Vec<u128> = vec![0, 4095, 999_999_999, 10_000_000_000, 21_474_836_475];
    middles.extend([16, 31, 32, 63, 64, 80].map(|bits| 1 << bits));
    for middle in middles {
        for value in middle.saturating_sub(12)..=middle + 12 {
            for zeros in ["", "0", "000", "000000000000"] {
                for more in ["", "0", "9", "123456789"] {
                    check_number(group, &mut random, &format!("{zeros}{value}{more}"));
                }
            }
        }
    }
    for _ in 0..20000 {
        let size = random.between(1, 36);
        let zeros = random.pick(&[0, 0, 1, 10, 30]);
        let digits: String =
            (0..size).map(|i| if i < zeros { 0 } else { random.below(10) }.to_string()).collect();
        check_number(group, &mut random, &digits);
    }
}

/// The first digit with which the number is above the limit, by its value.
fn passing(digits: &str, limit: u128) -> Option<usize> {
    let mut value = 0u128;
    digits.bytes().position(|digit| {
        value = value.saturating_mul(10).saturating_add(u128::from(digit - b'0'));
        value > limit
    })
}

/// "Its remainder from 0 to m-1": below m, and the difference is a multiple of m.
fn stands_for(number: &str, term: u64, m: u64) -> bool {
    let multiple = |value: i128| (value - i128::from(term)) % i128::from(m) == 0;
    term < m && number.parse().is_ok_and(multiple)
}

/// The digits as a term without and with a minus, and as the modulus.
fn check_number(group: &mut Group, random: &mut Random, digits: &str) {
    let m = random.pick(&MODULI);
    for (sign, limit) in [("", 2_147_483_647), ("-", 2_147_483_648)] {
        let start = format!("mod {m}:{}{sign}", random.pick(&["", " ", "0,", "-1 , "]));
        let line = format!("{start}{digits}{}", random.pick(&["", " ", ",1", " , -1"]));
        let found = outcome(group, line.as_bytes());
        let right = match passing(digits, limit) {
            Some(place) => found == Err(range_at(start.len() + place)),
            None => {
                let before = start.bytes().filter(|&byte| byte == b',').count();
                let term = found.as_ref().ok().and_then(|(_, terms)| terms.get(before));
                term.is_some_and(|&term| stands_for(&format!("{sign}{digits}"), term, m))
            }
        };
        group.check(right, || format!("{line}: {found:?}"));
    }
    let expected = match passing(digits, 2_147_483_647) {
        Some(place) => Err(range_at(4 + place)),
        None => read_as(digits.parse().unwrap_or(0), &[]),
    };
    check(group, format!("mod {digits}:").as_bytes(), expected);
}

// ---- lines made from known numbers ----

/// A line made from known numbers.
struct Made {
    m: u64,
    /// The terms of the slip.
    terms: Vec<u64>,
    text: Vec<u8>,
    /// Where the digits of the modulus end, and where each term begins, with its blanks.
    colon: usize,
    places: Vec<usize>,
}

fn made(random: &mut Random, longest: usize) -> Made {
    let m = sequences::modulus(random);
    let n = random.place(longest + 1);
    let terms = if n <= TERMS_LIMIT && random.once_in(2) {
        sequences::terms(random, m, n)
    } else {
        uniform(random, m, n)
    };
    let mut text = format!("mod {}{m}", "0".repeat(random.pick(&[0, 0, 1, 12]))).into_bytes();
    let (colon, mut places) = (text.len(), Vec::new());
    for &term in &terms {
        text.push(if places.is_empty() { b':' } else { b',' });
        places.push(text.len());
        text.extend(typed_as(random, m as i64, term as i64).bytes());
    }
    if terms.is_empty() {
        text.extend([":", ": ", ":    "][random.place(3)].bytes());
    }
    Made { m, terms, text, colon, places }
}

/// Any number of the range that stands for the term, with blanks and zeros. No remainder is
/// taken for it.
fn typed_as(random: &mut Random, m: i64, term: i64) -> String {
    let (least, most) = (-((1 << 31) + term) / m, ((1 << 31) - 1 - term) / m);
    let any = least + random.below((most - least + 1) as u64) as i64;
    let value = term + m * random.pick(&[0, 0, -1, least, most, any]);
    let sign = if value < 0 || (value == 0 && random.once_in(2)) { "-" } else { "" };
    let zeros = "0".repeat(random.pick(&[0, 0, 0, 1, 9, 20]));
    let (before, after) = (random.pick(&["", "", " ", "   "]), random.pick(&["", "", " ", "  "]));
    format!("{before}{sign}{zeros}{}{after}", value.unsigned_abs())
}

/// What may stand where a term should, and the refusal counted from there; nothing that
/// comes after it changes that.
const SPOILED: [(&str, Told); 20] = [
    ("2147483648", range_at(9)),
    ("-2147483649", range_at(10)),
    (" 99999999999", range_at(10)),
    ("  -0009999999999", range_at(15)),
    ("10000000000", range_at(10)),
    ("-000000000021474836480", range_at(21)),
    ("18446744073709551617", range_at(10)),
    ("x", form_at(0)),
    ("+1", form_at(0)),
    (":", form_at(0)),
    ("\r", form_at(0)),
    (" \n", form_at(1)),
    ("  ,", form_at(2)),
    ("-,", form_at(1)),
    ("- 1", form_at(1)),
    ("--1", form_at(1)),
    ("0 1", form_at(2)),
    ("2147483647-", form_at(10)),
    ("-12.", form_at(3)),
    ("5 2147483648", form_at(2)),
];

/// The same where the line ends.
const CUT: [(&str, Told); 5] = [
    ("-", form_at(1)),
    ("   -", form_at(4)),
    // These where there is a term before.
    ("", form_at(0)),
    (" ", form_at(1)),
    ("   ", form_at(3)),
];

/// The refusal with its place counted from here.
fn moved((number, place): Told, by: usize) -> Told {
    (number, place.map(|place| place + by))
}

/// Lines of known numbers, then with another modulus and with a fault at one of the terms.
pub fn made_lines(group: &mut Group) {
    let mut random = Random::new(32);
    for round in 0..4000 {
        let made = made(&mut random, if round % 10 == 0 { 140 } else { 12 });
        let many = made.terms.len() > TERMS_LIMIT;
        let expected = if many { Err(bare(2)) } else { Ok((made.m, made.terms.clone())) };
        check(group, &made.text, expected);
        let modulus = random.pick(&["0", "1", "4096", "65545", "2147483647", "00004294"]);
        let other = [b"mod ", modulus.as_bytes(), &made.text[made.colon..]].concat();
        check(group, &other, Err(bare(1)));
        if let Some(&place) = made.places.get(random.place(made.places.len())) {
            // Also where 1 would be given, and 2.
            check_spoiled(group, &mut random, &made.text, place);
            check_spoiled(group, &mut random, &other, place + other.len() - made.text.len());
        }
    }
}

/// A line with a fault in place of the term there, and anything or the other terms after it.
fn check_spoiled(group: &mut Group, random: &mut Random, line: &[u8], place: usize) {
    let start = &line[..place];
    let (text, refusal) = random.pick(&SPOILED);
    let noise: Vec<u8> = (0..random.place(20)).map(|_| random.byte()).collect();
    for rest in [&b""[..], b",2147483648", b",x", &noise, &line[place..]] {
        check(group, &[start, text.as_bytes(), rest].concat(), Err(moved(refusal, place)));
    }
    let first = start.ends_with(b":");
    let (text, refusal) = random.pick(if first { &CUT[..2] } else { &CUT });
    check(group, &[start, text.as_bytes()].concat(), Err(moved(refusal, place)));
}

// ---- random lines ----

/// "The reading runs left to right": what comes after the place that is told does not
/// matter, and no start of the line is refused for a byte before that place.
pub fn left_to_right(group: &mut Group) {
    let mut random = Random::new(33);
    for _ in 0..4000 {
        let line = typed::line(&mut random);
        let whole = outcome(group, &line);
        let told = whole.as_ref().err().and_then(|refusal| refusal.1);
        let place = told.unwrap_or(line.len()).min(line.len());
        let any = random.place(place + 1);
        for size in [any, place.saturating_sub(1), place] {
            let start = outcome(group, &line[..size]);
            let early = start.as_ref().err().and_then(|refusal| refusal.1).unwrap_or(size);
            group.check(early == size, || format!("{} of {}: {start:?}", size, shown(&line)));
        }
        if place < line.len() {
            let noise = [&line[..=place], &[random.byte(), random.byte(), b'7']].concat();
            check(group, &line[..=place], whole.clone());
            check(group, &noise, whole);
        }
    }
}

/// "The result is a slip, and its answer is the one a slip written by hand would get":
/// lines of known numbers with their end marks, refused ones among them.
pub fn asked(group: &mut Group) {
    let mut random = Random::new(34);
    for round in 0..400 {
        let (mut input, mut listed, mut worked) = (Vec::new(), String::new(), String::new());
        for _ in 0..random.between(1, 8) {
            let made = made(&mut random, if round % 20 == 0 { TERMS_LIMIT } else { 20 });
            let slip = slip_of(made.m, &made.terms);
            input.extend(&made.text);
            let refused = random.once_in(4);
            if refused {
                input.extend(b"\r?");
                let line = format!("refused 27 at {}\n", made.text.len());
                listed.push_str(&line);
                worked.push_str(&line);
            } else {
                listed.push_str(after_header(&listing(&slip)));
                worked.push_str(after_header(&working(&slip)));
            }
            input.extend(random.pick(&[&b"\n"[..], b"\r\n"]));
        }
        if random.once_in(2) {
            input.truncate(input.len() - if input.ends_with(b"\r\n") { 2 } else { 1 });
        }
        group.check(after_header(&ask(&input)) == listed, || shown(&input));
        group.check(after_header(&working_lines(&input)) == worked, || shown(&input));
    }
}

/// The text less its first line, which is the listing's header.
fn after_header(text: &str) -> &str {
    text.strip_prefix(HEADER).and_then(|rest| rest.strip_prefix('\n')).unwrap_or("no header")
}
