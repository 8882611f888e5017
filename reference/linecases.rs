//! Typed lines by hand (02, A3): the words of the request and what was read from them.

use crate::ask::ask;
use crate::calls::{check_slip, read_line};
use crate::cases::{bare, told, Told};
use crate::checks::Group;
use crate::limits::SLIP_BYTES;
use crate::linecalls::reading;
use crate::listing::HEADER;
use crate::script::{hash, replay};
use crate::working::working_lines;

/// What a slip buffer is filled with before it is lent.
const LENT: u8 = 0xa5;

/// The modulus and the terms of the slip, or the refusal.
pub type Outcome = Result<(u64, Vec<u64>), Told>;

/// The line breaks its form.
pub const fn form_at(place: usize) -> Told {
    (27, Some(place))
}

/// A number is out of its range.
pub const fn range_at(place: usize) -> Told {
    (28, Some(place))
}

/// Reads a line. A slip that was written is one that gets no refusal; a refused reading
/// leaves the buffer as lent.
pub fn outcome(group: &mut Group, line: &[u8]) -> Outcome {
    let mut slip = [LENT; SLIP_BYTES];
    let words = |slip: &[u8]| format!("{}: the slip {slip:?}", shown(line));
    match told(read_line(line, &mut slip)) {
        Err(refusal) => {
            group.check(slip == [LENT; SLIP_BYTES], || words(&slip));
            Err(refusal)
        }
        Ok(()) => {
            let sequence = check_slip(&slip);
            group.check(sequence.is_ok(), || words(&slip));
            Ok(sequence.map_or((0, Vec::new()), |sequence| (sequence.modulus, sequence.terms)))
        }
    }
}

pub fn check(group: &mut Group, line: &[u8], expected: Outcome) {
    let found = outcome(group, line);
    group.check(found == expected, || format!("{}: {found:?} for {expected:?}", shown(line)));
}

/// The start of a line in words.
pub fn shown(line: &[u8]) -> String {
    format!("{} bytes \"{}\"", line.len(), line[..line.len().min(80)].escape_ascii())
}

// ---- by hand ----

/// Lines that read well, with the modulus and the terms of their slips.
const GOOD: [(&str, u64, &[u64]); 20] = [
    ("mod 9: 6,3,1,-4,6", 9, &[6, 3, 1, 5, 6]),
    // "Nothing or only blanks after the colon means no terms."
    ("mod 9:", 9, &[]),
    ("mod 9: ", 9, &[]),
    ("mod 9:     ", 9, &[]),
    // "Blanks allowed around a term".
    ("mod 9:1,2", 9, &[1, 2]),
    ("mod 9: 1,2 ", 9, &[1, 2]),
    ("mod 9:   1   ,   2   ", 9, &[1, 2]),
    // "Leading zeros allowed in the modulus and the terms".
    ("mod 0009:007,-0001,0000", 9, &[7, 8, 0]),
    ("mod 0000000000000000000002:00000000000000000000000000000000001", 2, &[1]),
    // "-1 is m-1 and -0 is 0."
    ("mod 9:-1,-0,-8,-9,-10,8,9,10", 9, &[8, 0, 1, 0, 8, 8, 0, 1]),
    ("mod 4095:-1,-0,-000,-4095,4095", 4095, &[4094, 0, 0, 0, 0]),
    ("mod 2:-1", 2, &[1]),
    // "From -2,147,483,648 to 2,147,483,647".
    ("mod 2:-2147483648,-2147483647,2147483647,2147483646", 2, &[0, 1, 1, 0]),
    ("mod 9:-2147483648,2147483647", 9, &[7, 1]),
    ("mod 10:-2147483648,2147483647", 10, &[2, 7]),
    ("mod 4095:-2147483648,2147483647", 4095, &[3967, 127]),
    ("mod 4093: -0000002147483648 , 0000002147483647 ", 4093, &[2941, 1151]),
    // "m from 2 to 4,095".
    ("mod 2:", 2, &[]),
    ("mod 4095:4096", 4095, &[1]),
    ("mod 00000000000000004095:1", 4095, &[1]),
];

/// Lines that break their form, and where.
const BROKEN: [(&str, usize); 64] = [
    // They end too soon.
    ("", 0),
    ("m", 1),
    ("mo", 2),
    ("mod", 3),
    ("mod ", 4),
    ("mod 9", 5),
    ("mod 009", 7),
    ("mod 9:-", 7),
    ("mod 9: -", 8),
    ("mod 9:1,", 8),
    ("mod 9:1, ", 9),
    ("mod 9:1 ,  ", 11),
    ("mod 9:1,-", 9),
    // The fixed text is met as itself.
    ("Mod 9:", 0),
    ("MOD 9:", 0),
    ("nod 9:", 0),
    (" mod 9:", 0),
    ("md 9:", 1),
    ("mo 9:", 2),
    ("mod9:", 3),
    ("mod\t9:", 3),
    ("9:1", 0),
    // "The modulus in digits without a sign, a colon".
    ("mod  9:", 4),
    ("mod -9:", 4),
    ("mod +9:", 4),
    ("mod :", 4),
    ("mod ,", 4),
    ("mod x", 4),
    ("mod 9 :", 5),
    ("mod 9;", 5),
    ("mod 9,1", 5),
    ("mod 9-:", 5),
    ("mod 9x:", 5),
    ("mod 1 2:", 5),
    // "Then terms by commas".
    ("mod 9::", 6),
    ("mod 9:,", 6),
    ("mod 9: ,", 7),
    ("mod 9:,1", 6),
    ("mod 9:1,,2", 8),
    ("mod 9:1, ,2", 9),
    ("mod 9:1:", 7),
    ("mod 9:1;2", 7),
    ("mod 9:1.5", 7),
    ("mod 9:0x1", 7),
    ("mod 9:a", 6),
    ("mod 9:1a", 7),
    // "Blanks allowed around a term and none inside it".
    ("mod 9:1 2", 8),
    ("mod 9:1  2", 9),
    ("mod 9: 1 2 ", 9),
    ("mod 9:- 1", 7),
    ("mod 9:1,2 3,4", 10),
    // A minus stands directly before the digits.
    ("mod 9:--1", 7),
    ("mod 9:1-", 7),
    ("mod 9:1-2", 7),
    ("mod 9:1 -2", 8),
    ("mod 9:-,1", 7),
    ("mod 9:+1", 6),
    // "A blank is byte 32, and the line comes without its end mark."
    ("mod 9:\t1", 6),
    ("mod 9:1\t", 7),
    ("mod 9:1\n", 7),
    ("mod 9:1\r", 7),
    ("mod 9:\r\n", 6),
    ("mod 9:1\0", 7),
    ("mod 9:\u{a0}1", 6),
];

/// Lines with a number out of its range, and the digit that passes it.
const OUT_OF_RANGE: [(&str, usize); 30] = [
    ("mod 9:2147483648", 15),
    ("mod 9:2147483649", 15),
    ("mod 9:-2147483649", 16),
    ("mod 9:-2147483650", 16),
    ("mod 9:3000000000", 15),
    ("mod 9:9999999999", 15),
    ("mod 9:99999999999", 15),
    ("mod 9:-99999999999", 16),
    // The tenth digit is within the range, the next passes it.
    ("mod 9:10000000000", 16),
    ("mod 9:21474836470", 16),
    ("mod 9:-21474836480", 17),
    ("mod 9:11111111111111111111", 16),
    // Cut to four or to eight bytes these would be 1.
    ("mod 9:4294967297", 15),
    ("mod 9:18446744073709551617", 16),
    // Leading zeros do not count.
    ("mod 9:00002147483648", 19),
    ("mod 9:-02147483649", 17),
    ("mod 9:000000000010000000000", 26),
    // The first one that passes.
    ("mod 9:2147483647,2147483648", 26),
    ("mod 9:1, 2147483648,-2147483649", 18),
    // The modulus.
    ("mod 2147483648:", 13),
    ("mod 2147483648", 13),
    ("mod 21474836470:", 14),
    ("mod 00002147483648:", 17),
    ("mod 4294967305:1", 13),
    ("mod 2147483648:2147483648", 13),
    // A later fault does not hide it.
    ("mod 9:2147483648x", 15),
    ("mod 9:2147483648 1", 15),
    ("mod 9:2147483648,", 15),
    ("mod 99999999999x", 13),
    ("mod 9:21474836480x", 15),
];

/// Lines that meet something after the reading, or something before it.
const ORDERED: [(&str, Told); 16] = [
    ("mod 0:", bare(1)),
    ("mod 1:", bare(1)),
    ("mod 4096:", bare(1)),
    ("mod 4096:1,2,3", bare(1)),
    ("mod 00000:-1", bare(1)),
    ("mod 65538:1", bare(1)),
    ("mod 2147483647:-1", bare(1)),
    ("mod 0:x", form_at(6)),
    ("mod 1:1,", form_at(8)),
    ("mod 4096", form_at(8)),
    ("mod 0:2147483648", range_at(15)),
    ("mod 4096:-2147483649", range_at(19)),
    ("mod 9:1 2147483648", form_at(8)),
    ("mod 9:x2147483648", form_at(6)),
    ("mod 9:1,,2147483648", form_at(8)),
    ("mod 9:-2147483649 1", range_at(16)),
];

/// The words of A3, each sentence, and what was read from them.
pub fn by_hand(group: &mut Group) {
    for (line, m, terms) in GOOD {
        check(group, line.as_bytes(), Ok((m, terms.to_vec())));
    }
    for (line, place) in BROKEN {
        check(group, line.as_bytes(), Err(form_at(place)));
    }
    for (line, place) in OUT_OF_RANGE {
        check(group, line.as_bytes(), Err(range_at(place)));
    }
    for (line, refusal) in ORDERED {
        check(group, line.as_bytes(), Err(refusal));
    }
    counts(group);
    sizes_of_slips(group);
    script_by_hand(group);
    end_marks(group);
    longest_lines(group);
}

/// Each count of terms up to 300, and two that would fit if they were cut to two bytes: 128
/// fit, and more are 2.
fn counts(group: &mut Group) {
    for n in (0..300).chain([65536, 65536 + 128]) {
        for piece in ["-1", " 00 "] {
            let line = format!("mod 7:{}", vec![piece; n].join(","));
            let term = if piece == "-1" { 6 } else { 0 };
            let expected = if n <= 128 { Ok((7, vec![term; n])) } else { Err(bare(2)) };
            check(group, line.as_bytes(), expected);
            // The line is read to its end.
            if n > 0 {
                let broken = format!("{line},");
                check(group, broken.as_bytes(), Err(form_at(broken.len())));
                let passing = format!("{line},2147483648");
                check(group, passing.as_bytes(), Err(range_at(passing.len() - 1)));
            }
        }
    }
}

/// 5 for every other size than 260, before all that a line may be refused for.
fn sizes_of_slips(group: &mut Group) {
    let many = format!("mod 9:{}", vec!["1"; 129].join(","));
    let lines = ["mod 9:1", "", "mod 9:x", "mod 9:2147483648", "mod 1:", &many];
    for size in (0..600).filter(|&size| size != SLIP_BYTES) {
        for line in lines {
            let mut slip = vec![LENT; size];
            let reply = told(read_line(line.as_bytes(), &mut slip));
            let right = reply == Err(bare(5)) && slip == vec![LENT; size];
            group.check(right, || format!("{size} bytes for {line}: {reply:?}"));
        }
    }
}

/// The replay's text. The first three hashes were also computed apart from this program.
fn script_by_hand(group: &mut Group) {
    let call = |line: &str, size: usize| reading(line.as_bytes().to_vec(), size, 0xee).bytes();
    let script = [
        call("mod 9: 6,3,1,-4,6", 260),
        call("mod  9:", 260),
        call("mod 9:2147483648x", 259),
        call("mod 9:2147483648x", 260),
        call("mod 4096:", 260),
        call("", 0),
    ]
    .concat();
    let lent = format!("{:08x}", hash(&[0xee; 260]));
    let expected = [
        String::from("read_line ok 2f8aa196"),
        String::from("read_line refused 27 at 4 0de6c695"),
        String::from("read_line refused 5 9345d0d9"),
        format!("read_line refused 28 at 15 {lent}"),
        format!("read_line refused 1 {lent}"),
        String::from("read_line refused 5 811c9dc5"),
    ];
    let (text, whole) = replay(&script);
    group.check(whole && text.lines().count() == expected.len(), || text.clone());
    for (line, right) in text.lines().zip(expected) {
        group.check(line == right, || format!("{line} for {right}"));
    }
}

/// What is typed and the text after the header, with the end marks of each kind.
const INPUTS: [(&str, &str); 20] = [
    ("", ""),
    ("\n", "refused 27 at 0\n"),
    ("\r\n", "refused 27 at 0\n"),
    ("\r", "refused 27 at 0\n"),
    ("\n\n", "refused 27 at 0\nrefused 27 at 0\n"),
    ("\r\r\n", "refused 27 at 0\n"),
    ("mod 9:1", "9 1 0 1 1\n"),
    ("mod 9:1\n", "9 1 0 1 1\n"),
    ("mod 9:1\r\n", "9 1 0 1 1\n"),
    ("mod 9:1\r", "refused 27 at 7\n"),
    ("mod 9:1\r\r\n", "refused 27 at 7\n"),
    ("mod 9:1\n\r", "9 1 0 1 1\nrefused 27 at 0\n"),
    ("mod 9:1\rmod 9:1\n", "refused 27 at 7\n"),
    ("mod 9:1\n ", "9 1 0 1 1\nrefused 27 at 0\n"),
    ("\nmod 9:", "refused 27 at 0\n9 0 0 0 1\n"),
    ("# mod 9:\nmod 9: # 1\n", "refused 27 at 0\nrefused 27 at 7\n"),
    ("mod 9: 6,3,1,-4,6\r\nmod  9:\n", "9 5 3 3 1,4,7,1\nrefused 27 at 4\n"),
    // The example of A6, as a reader may type it: -2 is 2 and 5 is 1 modulo 4.
    ("mod 4: -2,5\n", "4 2 0 2 1\n"),
    ("mod 9:2147483648x\nmod 1:\n", "refused 28 at 15\nrefused 1\n"),
    ("\u{fe}\nmod 9:-\u{ff}", "refused 27 at 0\nrefused 27 at 7\n"),
];

fn end_marks(group: &mut Group) {
    for (input, lines) in INPUTS {
        let text = ask(input.as_bytes());
        group.check(text == format!("{HEADER}\n{lines}"), || format!("{input:?}: {text}"));
    }
    let text = working_lines(b"mod 6:-3,9\nmod 9:x\r\nmod 4:-2,5\nmod 2: ");
    let sheet = "power k row length u theta g case";
    let of_six = "2 0 0 0 0 1 0 2\n2 1 0 1 0 1 0 3\n3 0 0 0 1 1 1 1\n3 1 0 0 1 1 1 1";
    let of_four = "4 0 0 0 1 1 0 2\n4 0 1 0 2 1 2 1\n4 1 0 1 0 1 1 2\n4 1 1 0 1 1 0 3";
    let expected = [
        format!("{HEADER}\n6 2 1 1 1,3\nnot told\n{sheet}\n{of_six}\nrefused 27 at 6\n"),
        format!("4 2 0 2 1\nnot told\n{sheet}\n{of_four}\n2 0 0 0 1\nsole\n{sheet}\n"),
    ]
    .concat();
    group.check(text == expected, || text.clone());
}

/// The bytes of the longest line that is read.
const LONGEST: usize = 65_536;

/// A line of 65,536 bytes is read, and 5 is given for a longer one, whatever it holds. Its
/// end mark does not count.
fn longest_lines(group: &mut Group) {
    let line = |size: usize| [b"mod 9:1", &vec![b' '; size - 7][..]].concat();
    let (read, long) = ("9 1 0 1 1", "refused 5");
    let cut = |size: usize| format!("refused 27 at {size}");
    let all: [(Vec<u8>, &[u8], &str); 15] = [
        (line(LONGEST - 1), b"", read),
        (line(LONGEST), b"", read),
        (line(LONGEST), b"\n", read),
        (line(LONGEST), b"\r\n", read),
        (line(LONGEST), b"\r", long),
        (line(LONGEST), b"\r\r\n", long),
        (line(LONGEST), b"\rmod 9:1\n", long),
        (line(LONGEST + 1), b"", long),
        (line(LONGEST + 1), b"\n", long),
        (line(LONGEST + 1), b"\r\n", long),
        (line(3 * LONGEST), b"\n", long),
        (vec![b'x'; LONGEST + 1], b"\n", long),
        (vec![0; LONGEST], b"\n", "refused 27 at 0"),
        (line(LONGEST - 1), b"\r", &cut(LONGEST - 1)),
        (line(LONGEST - 1), b"\r\r\n", &cut(LONGEST - 1)),
    ];
    for (line, mark, expected) in all {
        let text = ask(&[&line[..], mark].concat());
        let words = || format!("{} then {}: {text}", shown(&line), mark.escape_ascii());
        group.check(text == format!("{HEADER}\n{expected}\n"), words);
        if mark.ends_with(b"\n") {
            // What comes after it is read as ever.
            let text = ask(&[&line[..], mark, b"mod 9:1"].concat());
            group.check(text == format!("{HEADER}\n{expected}\n{read}\n"), words);
        }
    }
}
