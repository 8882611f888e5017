//! The self-test's checks of the census printed (02, A11): lines by hand, end marks, lines of
//! another form, the longest lines, random ones.

use crate::calls::{cells, tally};
use crate::cases::told;
use crate::checks::Group;
use crate::pairs::pairs;
use crate::printed::census;
use crate::random::Random;

const HEADER: &str = "modulus count tally\n";
const ENDED: &str = "not a modulus and a count\n";

/// What is typed, and the text after the header. A line of another form ends it.
const INPUTS: [(&str, &str); 32] = [
    ("", ""),
    ("2 3", "2 3 1,2,4,1\n"),
    ("2 3\n", "2 3 1,2,4,1\n"),
    ("2 3\r\n", "2 3 1,2,4,1\n"),
    ("4 2\n2 3\r\n4 2", "4 2 1,10,5\n2 3 1,2,4,1\n4 2 1,10,5\n"),
    ("2 0\n", "2 0 1\n"),
    ("4095 0\n", "4095 0 1\n"),
    ("4095 1\n", "4095 1 1,4094\n"),
    ("2 12\n", "2 12 1,2,8,32,128,512,2048,1024,256,64,16,4,1\n"),
    ("64 2\n", "64 2 1,2730,1365\n"),
    // Zeros before a number, also many of them, and a number 0.
    ("002 3\n", "2 3 1,2,4,1\n"),
    ("2 0003\n", "2 3 1,2,4,1\n"),
    ("00000000000000000000002 00000000000000000000000\n", "2 0 1\n"),
    ("0 0\n", "refused 1\n"),
    ("000 00\n", "refused 1\n"),
    ("1 3\n", "refused 1\n"),
    ("4096 0\n", "refused 1\n"),
    ("65538 3\n", "refused 1\n"),
    ("4294967295 0\n", "refused 1\n"),
    ("4294967295 4294967295\n", "refused 1\n"),
    ("1 129\n", "refused 1\n"),
    ("2 129\n", "refused 2\n"),
    ("2 65539\n", "refused 2\n"),
    ("2 4294967295\n", "refused 2\n"),
    ("02 004294967295\n", "refused 2\n"),
    ("2 13\n", "refused 33\n"),
    ("2 128\n", "refused 33\n"),
    ("65 2\n", "refused 33\n"),
    ("4095 2\n", "refused 33\n"),
    // A refusal does not end it.
    ("1 1\n2 129\n65 2\n3 1\n", "refused 1\nrefused 2\nrefused 33\n3 1 1,2\n"),
    // Nothing after the last line feed is no line.
    ("3 1\r\n3 1\n", "3 1 1,2\n3 1 1,2\n"),
    // Up to l: 1, 3, 7, 8 modulo 2 times 1, 21, 121, 125 modulo 5.
    ("10 3\n", "10 3 1,62,784,153\n"),
];

/// Lines of another form.
const OTHERS: [&[u8]; 59] = [
    b"",
    b" ",
    b"  ",
    b"2",
    b"23",
    b"2 ",
    b" 3",
    b"2  3",
    b" 2 3",
    b"2 3 ",
    b"2 3  ",
    b"2 3 4",
    b"2 3 4 5",
    b"\t",
    b"2\t3",
    b"2 \t3",
    b"2 3\t",
    b"\t2 3",
    b"-2 3",
    b"2 -3",
    b"- 3",
    b"2 -0",
    b"+2 3",
    b"2 +3",
    b"+ 3",
    b"2,3",
    b"2, 3",
    b"2 3,",
    b"2 ,3",
    b"1,024 1",
    b"2.0 3",
    b"2 3.",
    b"a 3",
    b"2 b",
    b"2a 3",
    b"2 3b",
    b"0x2 3",
    b"2 3e0",
    b"mod 2: 3",
    b"modulus count tally",
    b"4294967296 0",
    b"2 4294967296",
    b"4294967298 3",
    b"2 4294967299",
    b"04294967296 3",
    b"4294967300 3",
    b"5000000000 3",
    b"9999999999 3",
    b"10000000000 3",
    b"2 18446744073709551619",
    b"18446744073709551618 3",
    b"340282366920938463463374607431768211458 3",
    b"2 99999999999999999999999999999999999999999999999999",
    b"2\r3",
    b"2 \r3",
    b"\r2 3",
    b"2 3\0",
    b"2\xa03",
    b"2 \xb3",
];

/// Bytes above 127 that stand for digits elsewhere, and blanks of other kinds.
const WIDER: [&str; 6] = ["２ 3", "2 ３", "2\u{a0}3", "2\u{2003}3", "²  3", "2 ٣"];

fn check(group: &mut Group, input: &[u8], expected: &str) {
    let text = census(input);
    let right = text == format!("{HEADER}{expected}");
    group.check(right, || format!("{}: {text} for {expected}", shown(input)));
}

/// Some of the input in plain text.
fn shown(input: &[u8]) -> String {
    format!("{} bytes, {}", input.len(), input[..input.len().min(60)].escape_ascii())
}

pub fn by_hand(group: &mut Group) {
    for (input, expected) in INPUTS {
        check(group, input.as_bytes(), expected);
    }
    let wider = WIDER.iter().map(|line| line.as_bytes());
    for line in OTHERS.into_iter().chain(wider) {
        check_other(group, line);
    }
    end_marks(group);
    every_byte(group);
    longest(group);
}

/// A line of another form: alone, after lines of the right form, and with more after it, which
/// is not read.
fn check_other(group: &mut Group, line: &[u8]) {
    for mark in [&b"\n"[..], b"\r\n"] {
        let first = [line, mark].concat();
        check(group, &first, ENDED);
        check(group, &[&first[..], b"2 3\n"].concat(), ENDED);
        check(group, &[&first[..], line, mark].concat(), ENDED);
        let after = [b"2 3\n1 0\n", &first[..], b"2 3\n"].concat();
        check(group, &after, &format!("2 3 1,2,4,1\nrefused 1\n{ENDED}"));
    }
    // Without an end mark nothing is no line.
    check(group, line, if line.is_empty() { "" } else { ENDED });
}

/// A carriage return that is no part of an end mark.
fn end_marks(group: &mut Group) {
    let inputs: [(&[u8], &str); 8] = [
        (b"\n", ENDED),
        (b"\r\n", ENDED),
        (b"2 3\r", ENDED),
        (b"2 3\r\r\n", ENDED),
        (b"2 3\n\r\n", "2 3 1,2,4,1\nnot a modulus and a count\n"),
        (b"2 3\n\n2 3\n", "2 3 1,2,4,1\nnot a modulus and a count\n"),
        (b"2 3\r2 3\n", ENDED),
        (b"2 3\r\n2 3\r", "2 3 1,2,4,1\nnot a modulus and a count\n"),
    ];
    for (input, expected) in inputs {
        check(group, input, expected);
    }
}

/// Every byte but a line feed in the place of each byte of a line, and between them: only digits
/// keep the form, and a carriage return at the end.
fn every_byte(group: &mut Group) {
    for byte in (0..=255).filter(|&byte| byte != b'\n') {
        let digit = byte.is_ascii_digit();
        for place in [0, 1, 3, 4] {
            let mut line = b"13 01".to_vec();
            line[place] = byte;
            check_form(group, &line, digit || (byte == b'\r' && place == 4));
        }
        for place in 0..=5 {
            let line = [&b"13 01"[..place], &[byte], &b"13 01"[place..]].concat();
            check_form(group, &line, digit || (byte == b'\r' && place == 5));
        }
        check_form(group, &[b'1', byte, b'1'], byte == b' ');
    }
}

/// Whether the line has the right form, by the answer to the next one.
fn check_form(group: &mut Group, line: &[u8], right: bool) {
    let text = census(&[line, b"\n3 1\n"].concat());
    let found = text.ends_with("\n3 1 1,2\n") && text.lines().count() == 3;
    let ended = text == format!("{HEADER}{ENDED}");
    group.check(found == right && ended != right, || format!("{}: {text}", shown(line)));
}

/// A line of 65,536 bytes is read and a longer one is of another form, whatever it holds; the end
/// mark does not count.
fn longest(group: &mut Group) {
    let line = |size: usize| [&vec![b'0'; size - 3][..], b"2 3"].concat();
    for mark in [&b""[..], b"\n", b"\r\n"] {
        for size in [3, 4, 1000, 65_535, 65_536] {
            check(group, &[&line(size)[..], mark].concat(), "2 3 1,2,4,1\n");
        }
        for size in [65_537, 65_538, 70_000, 200_000] {
            check(group, &[&line(size)[..], mark].concat(), ENDED);
        }
    }
    for tail in [&b"\n2 3"[..], b"\r\n2 3\n"] {
        let after = [&line(65_536)[..], tail].concat();
        check(group, &after, "2 3 1,2,4,1\n2 3 1,2,4,1\n");
        check(group, &[&line(65_537)[..], tail].concat(), ENDED);
    }
    check(group, &[&line(65_536)[..], b"\r"].concat(), ENDED);
    let late = [&b"2 "[..], &vec![b'0'; 65_533], b"3"].concat();
    check(group, &late, "2 3 1,2,4,1\n");
    check(group, &[&late[..], b"3"].concat(), ENDED);
}

// ---- random lines ----

/// A number as it may be written, read as text: without the zeros before it, it has fewer digits
/// than 4,294,967,295, or as many and comes no later in a dictionary.
fn plain(piece: &str) -> Option<&str> {
    let digits = piece.trim_start_matches('0');
    let all = !piece.is_empty() && piece.chars().all(|c| "0123456789".contains(c));
    let low = digits.len() < 10 || (digits.len() == 10 && digits <= "4294967295");
    (all && low).then_some(if digits.is_empty() { "0" } else { digits })
}

/// The line that answers, from the text of the two numbers.
fn expected_line(line: &str) -> Option<String> {
    let (m, n) = line.split_once(' ')?;
    let (m, n) = (plain(m)?, plain(n)?);
    let mut buffer = [0; 26];
    let outcome = tally(m.parse().ok()?, n.parse().ok()?, &mut buffer);
    Some(match told(outcome) {
        Ok(()) => {
            let count: usize = n.parse().ok()?;
            let told: Vec<String> = cells(&buffer).iter().map(u64::to_string).collect();
            format!("{m} {n} {}\n", told[..=count].join(","))
        }
        Err((number, _)) => format!("refused {number}\n"),
    })
}

/// Random lines, each read by its text: as they are, and with one byte changed, put in or taken
/// out, after which those of another form end it.
pub fn random_lines(group: &mut Group) {
    let mut random = Random::new(72);
    let mut ended = 0;
    for seed in 0..300 {
        let mut input = pairs(seed, 40);
        group.check(input == pairs(seed, 40), || format!("pairs {seed}"));
        group.check(input.iter().filter(|&&byte| byte == b'\n').count() == 40, || shown(&input));
        for times in 0..2 {
            let text = String::from_utf8_lossy(&input).into_owned();
            let expected = expected_text(&text);
            ended += usize::from(expected.ends_with(ENDED));
            group.check(times == 1 || !expected.ends_with(ENDED), || shown(&input));
            check(group, &input, &expected);
            spoil(&mut random, &mut input);
        }
    }
    group.check((30..270).contains(&ended), || format!("{ended} of 300 ended"));
}

/// The lines that answer, up to the first one of another form.
fn expected_text(text: &str) -> String {
    let mut expected = String::new();
    for piece in text.split_inclusive('\n') {
        let line = piece.strip_suffix('\n').map_or(piece, |line| line.trim_end_matches('\r'));
        // More than one carriage return is more than an end mark.
        let returns = piece.len() - line.len() > 2;
        let Some(answer) = expected_line(line).filter(|_| !returns) else {
            return expected + ENDED;
        };
        expected.push_str(&answer);
    }
    expected
}

/// One byte changed, put in or taken out.
fn spoil(random: &mut Random, input: &mut Vec<u8>) {
    let place = random.place(input.len());
    let byte = random.pick(b"0123456789   ,-+x\t\r\n");
    match random.below(3) {
        0 => input[place] = byte,
        1 => input.insert(place, byte),
        _ => {
            input.remove(place);
        }
    }
}
