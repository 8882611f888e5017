//! "The only one?" (02, A8): what reports, tracings and the texts say, by hand, against all
//! lists of coefficients, and against the rank of the equations for them.

use crate::ask::ask;
use crate::calls::*;
use crate::cases::{bytes_of, reading_of, LENT};
use crate::checks::Group;
use crate::coverage::{count, Tally};
use crate::join;
use crate::limits::*;
use crate::linear::{advance, least_by_trying};
use crate::listing::listing;
use crate::only::{only, Only};
use crate::random::Random;
use crate::refusals::Refusal;
use crate::residue::{inverse, prime_powers, PrimePower};
use crate::script::{hash, record_bytes, replay, Call, Operation};
use crate::sequences;
use crate::starts::kind_of_modulus;
use crate::steps::StepRecord;
use crate::working::{working, working_lines};

/// The answer from the prime powers of m, for the other checks.
pub fn expected_only(m: u64, n: usize, l: usize) -> Only {
    match prime_powers(m)[..] {
        [PrimePower { e: 1, .. }] if n < 2 * l => Only::Several,
        [PrimePower { e: 1, .. }] => Only::Sole,
        _ => Only::NotTold,
    }
}

/// What a report of the terms returns, and what a tracing does.
fn replies(m: u64, terms: &[u64]) -> [Result<Reported, Refusal>; 2] {
    let reading = reading_of(m, terms);
    let (mut a, mut b) = ([0xff; A_BYTES], [0xff; B_BYTES]);
    let mut sheet = vec![StepRecord::of(LENT); join::sheet_size(m, terms.len())];
    let reported = register(&reading, &mut a, &mut b);
    [reported, trace(&reading, &mut a, &mut b, &mut sheet)]
}

/// Both return this length and the answer with this word.
fn check_told(group: &mut Group, m: u64, terms: &[u64], l: usize, word: &str) {
    for reply in replies(m, terms) {
        let right = reply.is_ok_and(|(length, only)| length == l && only.to_string() == word);
        group.check(right, || format!("modulo {m}: {terms:?}: {reply:?} for {l}, {word}"));
    }
}

// ---- all lists ----

/// "S × a and b agree modulo m in every coefficient 0 to n-1", a being 1 and the list, for
/// some b: its l cells can be what the product has there, and it has none from place l on.
fn generates(list: &[u64], terms: &[u64], m: u64) -> bool {
    (list.len()..terms.len()).all(|j| {
        let others: u64 = list.iter().zip(terms[..j].iter().rev()).map(|(a, s)| a * s).sum();
        (terms[j] + others) % m == 0
    })
}

/// All lists of l coefficients that generate the terms.
fn lists_of(m: u64, terms: &[u64], l: usize) -> Vec<Vec<u64>> {
    let mut found = Vec::new();
    let mut list = vec![0; l];
    loop {
        if generates(&list, terms, m) {
            found.push(list.clone());
        }
        if !advance(&mut list, m) {
            return found;
        }
    }
}

/// Those of the least l that has some.
pub fn shortest_lists(m: u64, terms: &[u64]) -> Vec<Vec<u64>> {
    let lengths = 0..=terms.len();
    let mut tried = lengths.map(|l| lists_of(m, terms, l));
    tried.find(|lists| !lists.is_empty()).expect("every list of n coefficients generates")
}

/// Moduli, each with the largest count: primes, higher powers, products.
const SMALL: [(u64, usize); 18] = [
    (2, 9), (3, 6), (5, 5), (7, 4), (11, 3), (13, 3), (17, 2), (4, 6), (8, 4), (9, 4), (16, 3),
    (25, 2), (49, 2), (6, 4), (10, 3), (12, 3), (15, 3), (30, 2),
];

/// How often each kind of sequence was met: the kind of modulus, whether there is one list,
/// and whether 2l ≤ n.
type Counted = Tally<(&'static str, bool, bool)>;

/// The kinds that there are. With 2l > n there are several lists, whatever the modulus.
const KINDS: [(&str, bool, bool); 8] = [
    ("a prime", true, true),
    ("a prime", false, false),
    ("a higher power of one", true, true),
    ("a higher power of one", false, true),
    ("a higher power of one", false, false),
    ("several primes", true, true),
    ("several primes", false, true),
    ("several primes", false, false),
];

/// All sequences for small m and n, each with all its lists.
pub fn all_lists(group: &mut Group) {
    let mut tally = Counted::new();
    for (m, longest) in SMALL {
        for n in 0..=longest {
            let mut terms = vec![0; n];
            loop {
                check_counted(group, &mut tally, m, &terms);
                if !advance(&mut terms, m) {
                    break;
                }
            }
        }
    }
    for kind in KINDS {
        let times = tally.get(&kind).copied().unwrap_or(0);
        group.check(times >= 50, || format!("{kind:?}: {times} times"));
    }
    group.check(tally.len() == KINDS.len(), || format!("{tally:?}"));
}

/// "Sole is said exactly when no second list of l coefficients after the leading 1 generates
/// the terms; .. this is when 2l ≤ n, and .. otherwise there are m to the power 2l-n of them."
fn check_counted(group: &mut Group, tally: &mut Counted, m: u64, terms: &[u64]) {
    let lists = shortest_lists(m, terms);
    let (n, l, one) = (terms.len(), lists[0].len(), lists.len() == 1);
    let words = || format!("modulo {m}: {terms:?}: {} lists of {l}", lists.len());
    let kind = kind_of_modulus(m);
    count(tally, (kind, one, 2 * l <= n));
    group.check(l == least_by_trying(m, terms), words);
    group.check(lists.contains(&join::register(m, terms).a[1..=l].to_vec()), words);
    if kind == "a prime" {
        let power = if 2 * l <= n { 0 } else { 2 * l - n };
        group.check(lists.len() as u64 == m.pow(power as u32), words);
        check_told(group, m, terms, l, if one { "sole" } else { "several" });
    } else {
        check_told(group, m, terms, l, "not told");
    }
}

// ---- ranks ----

const PRIMES: [u64; 10] = [2, 3, 5, 7, 61, 257, 1021, 2053, 4091, 4093];

/// Long sequences modulo primes: l coefficients that are to solve equations of rank r can be
/// chosen in m to the power l-r ways, if at all.
pub fn by_rank(group: &mut Group) {
    let mut random = Random::new(45);
    let mut tally = Tally::new();
    let mut longest = Tally::new();
    for round in 0..4000 {
        let m = random.pick(&PRIMES);
        let n = if round % 10 == 0 { 120 + random.place(9) } else { random.place(41) };
        let terms = match random.below(3) {
            0 => sequences::uniform(&mut random, m, n),
            1 => half_as_long(&mut random, m, n),
            _ => sequences::terms(&mut random, m, n),
        };
        let l = join::register(m, &terms).length;
        check_ranked(group, m, &terms, l);
        count(&mut tally, (m, side(n, l)));
        if n >= 120 {
            count(&mut longest, side(n, l));
        }
    }
    let met = |times: Option<&usize>| times.copied().unwrap_or(0) >= 10;
    for side in SIDES {
        group.check(met(longest.get(side)), || format!("120 terms or more, {side}"));
        for m in PRIMES {
            group.check(met(tally.get(&(m, side))), || format!("modulo {m}, {side}"));
        }
    }
}

/// How 2l stands to n.
const SIDES: [&str; 4] = ["2l below n", "2l = n", "2l = n+1", "2l above n+1"];

fn side(n: usize, l: usize) -> &'static str {
    if 2 * l <= n {
        SIDES[usize::from(2 * l == n)]
    } else {
        SIDES[2 + usize::from(2 * l > n + 1)]
    }
}

/// What a register of about half the length gives.
fn half_as_long(random: &mut Random, m: u64, n: usize) -> Vec<u64> {
    let length = (n + random.place(3)) / 2;
    outputs(m, &sequences::register(random, m, length), n)
}

fn check_ranked(group: &mut Group, m: u64, terms: &[u64], l: usize) {
    let n = terms.len();
    let words = || format!("modulo {m}: {terms:?}: {l}");
    let (rank, some) = ranked(m, terms, l);
    let shorter = l > 0 && ranked(m, terms, l - 1).1;
    group.check(some && !shorter, words);
    let free = l - rank;
    group.check(free == (2 * l).saturating_sub(n), words);
    check_told(group, m, terms, l, if free == 0 { "sole" } else { "several" });
}

/// The rank modulo a prime of the equations for l coefficients, of which each place from l on
/// gives one, and whether there is a solution.
pub fn ranked(m: u64, terms: &[u64], l: usize) -> (usize, bool) {
    let mut rows: Vec<Vec<u64>> =
        (l..terms.len()).map(|j| terms[j - l..=j].iter().rev().copied().collect()).collect();
    // The right side, which is the term at the place itself, comes first.
    let mut rank = 0;
    for column in 1..=l {
        let Some(at) = (rank..rows.len()).find(|&i| rows[i][column] != 0) else { continue };
        rows.swap(rank, at);
        let pivot = rows[rank].clone();
        let reciprocal = inverse(pivot[column], m).expect("not 0 modulo a prime");
        for row in &mut rows[rank + 1..] {
            let factor = (m - row[column]) * reciprocal % m;
            for (entry, above) in row.iter_mut().zip(&pivot) {
                *entry = (*entry + factor * above) % m;
            }
        }
        rank += 1;
    }
    (rank, rows[rank..].iter().all(|row| row[0] == 0))
}

// ---- every modulus ----

/// Lengths with counts next to twice them.
const NEAR: [(usize, usize); 9] =
    [(0, 0), (1, 0), (1, 1), (2, 1), (3, 2), (128, 64), (127, 64), (128, 65), (128, 128)];

/// Told for a modulus from 2 on that is no product of two numbers from 2 on, and for no other.
pub fn every_modulus(group: &mut Group) {
    let mut product = vec![false; 65536];
    for x in 2..256 {
        for y in x..=65535 / x {
            product[x * y] = true;
        }
    }
    for (m, product) in product.into_iter().enumerate().skip(2) {
        let m = m as u64;
        let word = |n: usize, l: usize| match (product, 2 * l <= n) {
            (true, _) => "not told",
            (false, true) => "sole",
            (false, false) => "several",
        };
        for (n, l) in NEAR {
            let found = only(m, n, l).to_string();
            group.check(found == word(n, l), || format!("modulo {m}, {n}, {l}: {found}"));
        }
        if m <= MODULUS_LIMIT {
            check_told(group, m, &[1], 1, word(1, 1));
            check_told(group, m, &[m - 1, 1], 1, word(2, 1));
        }
    }
}

// ---- by hand ----

/// Modulus, terms, their length, the answer, and how many lists there are.
type ByHand<'a> = (u64, &'a [u64], usize, &'a str, usize);

const BY_HAND: [ByHand; 49] = [
    // "3,0 modulo 9 has l = 1 and three registers, with a_1 0, 3 or 6."
    (9, &[3, 0], 1, "not told", 3),
    // The cases of 01 that name a register.
    (2, &[], 0, "sole", 1),
    (5, &[0, 0, 0], 0, "sole", 1),
    (9, &[6, 3, 1, 5, 6], 3, "not told", 9),
    (4, &[2, 2], 1, "not told", 2),
    (4, &[2, 1], 2, "not told", 16),
    (2, &[0, 0, 1], 3, "several", 8),
    (6, &[3, 3], 1, "not told", 3),
    (7, &[1, 1, 2, 3, 5, 1], 2, "sole", 1),
    (6, &[1, 0], 1, "not told", 1),
    // No coefficients: the list of none is the only one.
    (2, &[0], 0, "sole", 1),
    (3, &[], 0, "sole", 1),
    (7, &[0; 128], 0, "sole", 1),
    (4093, &[], 0, "sole", 1),
    (4093, &[0; 127], 0, "sole", 1),
    (4, &[], 0, "not told", 1),
    (9, &[0, 0, 0], 0, "not told", 1),
    (6, &[], 0, "not told", 1),
    (4095, &[0; 128], 0, "not told", 1),
    // Modulo 2: 2l is n+1, n twice, n+2, n+1, n, then 2 and 126 below n.
    (2, &[1], 1, "several", 2),
    (2, &[1, 1], 1, "sole", 1),
    (2, &[1, 0], 1, "sole", 1),
    (2, &[0, 1], 2, "several", 4),
    (2, &[1, 0, 1], 2, "several", 2),
    (2, &[1, 0, 1, 1], 2, "sole", 1),
    (2, &[1, 1, 1, 1], 1, "sole", 1),
    (2, &[1; 128], 1, "sole", 1),
    // Fibonacci's numbers: what was one of seven is the only one from the fourth term on.
    (7, &[1, 1], 1, "sole", 1),
    (7, &[1, 1, 2], 2, "several", 7),
    (7, &[1, 1, 2, 3], 2, "sole", 1),
    (7, &[1, 1, 2, 3, 5], 2, "sole", 1),
    // A wrong term makes several of the sole one.
    (7, &[1, 1, 2, 3, 6], 3, "several", 7),
    (3, &[0, 0, 0, 0, 1], 5, "several", 243),
    (5, &[0, 1, 0], 2, "several", 5),
    // The largest prime, the largest modulus and others.
    (4093, &[1], 1, "several", 4093),
    (4093, &[4092, 1], 1, "sole", 1),
    (4091, &[1, 4090, 1], 1, "sole", 1),
    (4095, &[1], 1, "not told", 4095),
    (4095, &[1, 4094], 1, "not told", 1),
    (4095, &[1365, 0], 1, "not told", 1365),
    // 61 times 67; squares of primes.
    (4087, &[1, 2], 1, "not told", 1),
    (4087, &[61, 0], 1, "not told", 61),
    (3721, &[1, 2], 1, "not told", 1),
    (3721, &[61, 0], 1, "not told", 61),
    (4, &[1], 1, "not told", 4),
    (4, &[1, 1], 1, "not told", 1),
    (9, &[1, 1], 1, "not told", 1),
    (6, &[1], 1, "not told", 6),
    (6, &[1, 1], 1, "not told", 1),
];

pub fn by_hand(group: &mut Group) {
    for (m, terms, l, word, lists) in BY_HAND {
        let found = shortest_lists(m, terms);
        let right = found.len() == lists && found[0].len() == l;
        group.check(right, || format!("modulo {m}: {terms:?}: {} lists", found.len()));
        check_told(group, m, terms, l, word);
        check_texts(group, m, terms, l, word);
    }
    let three = [[0], [3], [6]];
    group.check(shortest_lists(9, &[3, 0]) == three, || String::from("3,0 modulo 9"));
    // 1 at place 127 alone: every list of 128 coefficients.
    let mut late = [0; TERMS_LIMIT];
    late[TERMS_LIMIT - 1] = 1;
    for (m, word) in [(2, "several"), (4093, "several"), (4095, "not told"), (2048, "not told")] {
        check_told(group, m, &late, 128, word);
        check_texts(group, m, &late, 128, word);
    }
    let text = working(&WORKED.map(|(m, terms)| slip_of(m, terms)).concat());
    group.check(text == WORKING, || text.clone());
    replayed(group);
}

/// The word stands in the working, between the listing's line and the sheet, and in a replay,
/// between the length and the hashes. The listing and the asking do without.
fn check_texts(group: &mut Group, m: u64, terms: &[u64], l: usize, word: &str) {
    let words = || format!("modulo {m}: {terms:?}: {word}");
    let slip = slip_of(m, terms);
    let numbers: Vec<String> = terms.iter().map(u64::to_string).collect();
    let typed = format!("mod {m}:{}", numbers.join(","));
    let listed = listing(&slip);
    group.check(listed.lines().count() == 2 && ask(typed.as_bytes()) == listed, words);
    let start = format!("{listed}{word}\npower k row length u theta g case\n");
    let size = join::sheet_size(m, terms.len());
    for text in [working(&slip), working_lines(typed.as_bytes())] {
        let sheet = text.strip_prefix(&start);
        group.check(sheet.is_some_and(|sheet| sheet.lines().count() == size), || text.clone());
    }
    let mut script = call(Operation::Forge, 0, [SLIP_BYTES, 0]).bytes();
    script.extend(slip);
    for operation in [Operation::Register, Operation::Trace] {
        script.extend(call(operation, 1920, [A_BYTES, B_BYTES]).bytes());
    }
    let text = replay(&script).0;
    let lines: Vec<&str> = text.lines().skip(1).collect();
    let register = join::register(m, terms);
    let (a, b) = (bytes_of(&register.a, A_CELLS), bytes_of(&register.b, B_CELLS));
    let told = format!("length {l} {word} {:08x} {:08x}", hash(&a), hash(&b));
    let reported = lines[0] == format!("register {told}");
    // The hash of the records is left: 8 digits.
    let traced = lines[1].strip_prefix(&format!("trace {told} "));
    let traced = traced.is_some_and(|hash| hash.len() == 8);
    group.check(reported && traced && lines.len() == 2, || text.clone());
}

fn call(operation: Operation, number: u32, [first, second]: [usize; 2]) -> Call {
    let lengths = [first as u16, second as u16, 0];
    Call { operation, fill: 0xee, number, lengths, l: 0, payload: Vec::new() }
}

/// What the text below has in it; the third and the sixth are refused.
const WORKED: [(u64, &[u64]); 7] =
    [(9, &[3, 0]), (2, &[1, 1]), (1, &[]), (2, &[0, 1]), (7, &[]), (7, &[7]), (4093, &[1])];

const WORKING: &str = "modulus count order start register
9 2 0 1 1
not told
power k row length u theta g case
9 0 0 0 1 1 0 2
9 0 1 0 2 1 2 1
9 1 0 1 2 1 2 1
9 1 1 0 2 1 2 1
2 2 1 1 1,1
sole
power k row length u theta g case
2 0 0 0 0 1 0 2
2 1 0 1 0 1 0 3
refused 1
2 2 0 2 1
several
power k row length u theta g case
2 0 0 0 1 1 1 1
2 1 0 0 0 1 0 2
7 0 0 0 1
sole
power k row length u theta g case
refused 3 at 0
4093 1 0 1 1
several
power k row length u theta g case
4093 0 0 0 0 1 0 2
";

/// 1,1 modulo 2, term by term, then 3,0 modulo 9, with reports and tracings between the terms;
/// refused ones say nothing of it. Each call with its line.
fn told_script() -> Vec<(Call, String)> {
    use Operation::*;
    let right = [A_BYTES, B_BYTES];
    let cells = |a: &[u64], b: &[u64]| {
        format!("{:08x} {:08x}", hash(&bytes_of(a, A_CELLS)), hash(&bytes_of(b, B_CELLS)))
    };
    let sheet = |records: &[[u32; 8]]| {
        let bytes = records.iter().flat_map(|&record| record_bytes(StepRecord::of(record)));
        format!("{:08x}", hash(&bytes.collect::<Vec<u8>>()))
    };
    let lent = format!("{:08x} {:08x}", hash(&[0xee; A_BYTES]), hash(&[0xee; B_BYTES]));
    let held = |m: u64, terms: &[u64]| format!("{:08x}", hash(&slip_of(m, terms)));
    let (none, one, both) = (cells(&[1], &[]), cells(&[1], &[1]), cells(&[1, 1], &[1]));
    let three = cells(&[1], &[3]);
    let first = [2, 0, 0, 0, 0, 1, 0, 2];
    let of_one = sheet(&[first]);
    let of_both = sheet(&[first, [2, 1, 0, 1, 0, 1, 0, 3]]);
    let of_three = sheet(&[[9, 0, 0, 0, 1, 1, 0, 2], [9, 0, 1, 0, 2, 1, 2, 1]]);
    vec![
        (call(Open, 2, [0, 0]), format!("open ok {}", held(2, &[]))),
        (call(Register, 0, right), format!("register length 0 sole {none}")),
        (call(Trace, 0, right), format!("trace length 0 sole {none} 811c9dc5")),
        (call(Push, 1, [0, 0]), format!("push ok {}", held(2, &[1]))),
        (call(Register, 0, right), format!("register length 1 several {one}")),
        (call(Trace, 1, right), format!("trace length 1 several {one} {of_one}")),
        (call(Trace, 0, right), format!("trace refused 5 {lent} 811c9dc5")),
        (call(Push, 1, [0, 0]), format!("push ok {}", held(2, &[1, 1]))),
        (call(Register, 0, right), format!("register length 1 sole {both}")),
        (call(Trace, 2, right), format!("trace length 1 sole {both} {of_both}")),
        (call(Open, 9, [0, 0]), format!("open ok {}", held(9, &[]))),
        (call(Register, 0, right), format!("register length 0 not told {none}")),
        (call(Push, 3, [0, 0]), format!("push ok {}", held(9, &[3]))),
        (call(Trace, 2, right), format!("trace length 1 not told {three} {of_three}")),
        (call(Push, 0, [0, 0]), format!("push ok {}", held(9, &[3, 0]))),
        (call(Register, 0, right), format!("register length 1 not told {three}")),
        (call(Open, 1, [0, 0]), format!("open refused 1 {}", held(0, &[]))),
        (call(Register, 0, right), format!("register refused 21 {lent}")),
        (call(Trace, 9, right), format!("trace refused 21 {lent} 811c9dc5")),
    ]
}

fn replayed(group: &mut Group) {
    let script = told_script();
    let bytes: Vec<u8> = script.iter().flat_map(|(call, _)| call.bytes()).collect();
    let (text, whole) = replay(&bytes);
    group.check(whole && text.lines().count() == script.len(), || text.clone());
    for (line, (_, expected)) in text.lines().zip(&script) {
        group.check(line == expected, || format!("{line} for {expected}"));
    }
}
