//! The self-test: one line for each group, with the number of checks.

use crate::bundlecases;
use crate::bundlechecks;
use crate::bundles;
use crate::calls::*;
use crate::cases;
use crate::catalogues;
use crate::censuscases;
use crate::censuschecks;
use crate::censuslines;
use crate::checks::{group, Group};
use crate::columncases;
use crate::columnchecks;
use crate::compact;
use crate::coverage;
use crate::donorcases;
use crate::donorchecks;
use crate::faults;
use crate::join::{self, Register};
use crate::limits::*;
use crate::linear;
use crate::linecalls;
use crate::linecases;
use crate::linechecks;
use crate::listing::listing;
use crate::mergecases;
use crate::mergechecks;
use crate::merges;
use crate::numbers;
use crate::onlychecks;
use crate::orders;
use crate::periodcases;
use crate::periodchecks;
use crate::periods;
use crate::random::Random;
use crate::refusals::Refusal;
use crate::residue::{inverse, prime_powers};
use crate::scenarios;
use crate::script::replay;
use crate::sequences;
use crate::sheets;
use crate::starts;
use crate::steps::{self, coefficient, length, Pair};
use crate::typed;

/// The groups in the order in which they run.
const GROUPS: [(&str, fn(&mut Group)); 73] = [
    ("cases 1 to 15", cases::cases),
    ("tables 1 and 2 of 000", cases::tables),
    ("sheets and their text by hand", cases::sheets_by_hand),
    ("registers named in the papers", cases::named_registers),
    ("refusals, every set of faults of each call", orders::orders),
    ("refusals, each kind of fault and each place", orders::kinds),
    ("inverses, prime powers, remainders", arithmetic),
    ("rows of the steps keep their congruence", rows),
    ("full history and compact version agree", versions),
    ("profile and linear algebra, short", linear_short),
    ("profile and linear algebra, long", linear_long),
    ("profile and linear algebra, moduli to 65,535", linear_wide),
    ("profile and all lists of coefficients", tried),
    ("reported registers", registers),
    ("lists of calls, making and serving", desk),
    ("scripts and listing", scripts),
    ("order, start and register in the listing", starts::lines),
    ("random slips, where they are wrong", faults::slips),
    ("random claims, how they are bad", faults::claims),
    ("scripts, slips and lines meet every refusal", coverage::met),
    ("sheets applied give the register", sheets::applied),
    ("sheets applied, moduli to 65,535", sheets::applied_wide),
    ("sheets keep the rules of the steps", sheets::rules),
    ("sheets and the compact version agree", sheets::versions),
    ("tracings, what is filled and what stays", sheets::tracings),
    ("tracings in scripts, and the working's text", sheets::texts),
    ("typed lines by hand", linecases::by_hand),
    ("typed lines, every byte and every short line", linechecks::places),
    ("typed lines, ranges and remainders", linechecks::numbers),
    ("typed lines made from known numbers", linechecks::made_lines),
    ("typed lines, read left to right", linechecks::left_to_right),
    ("typed lines asked, and their working", linechecks::asked),
    ("columns by hand", columncases::by_hand),
    ("columns do what single takings do", columnchecks::singly),
    ("columns anywhere in lists of calls", columnchecks::anywhere),
    ("accession numbers by hand", donorcases::by_hand),
    ("accession numbers, servings by their bytes", donorchecks::by_bytes),
    ("accession numbers, hidden from visitors", donorchecks::hidden),
    ("accession numbers, fetched records", donorchecks::fetched),
    ("the only one, by hand", onlychecks::by_hand),
    ("the only one, all lists of coefficients", onlychecks::all_lists),
    ("the only one, long sequences by rank", onlychecks::by_rank),
    ("the only one, every modulus", onlychecks::every_modulus),
    ("merges by hand", mergecases::by_hand),
    ("merges, all terms of small moduli", mergechecks::all_terms),
    ("merges, all short sequences by all coefficients", mergechecks::all_sequences),
    ("merges, random ones by their bytes", mergechecks::by_bytes),
    ("merges, the larger least length for every k", mergechecks::lengths),
    ("merges, 12 and 18 at length", mergechecks::twelve_and_eighteen),
    ("merges of merged slips", mergechecks::again),
    ("merges, moduli to 65,535", mergechecks::wide),
    ("periods by hand", periodcases::by_hand),
    ("periods, the halving and the steps", periodchecks::by_steps),
    ("periods, the halving and linear algebra", periodchecks::by_algebra),
    ("periods, any number of terms from two of them on", periodchecks::more_terms),
    ("periods, whose register is the only one", periodchecks::only_one),
    ("periods, random ones by their bytes", periodchecks::by_bytes),
    ("periods turned, added and doubled", periodchecks::related),
    ("census by hand", censuscases::by_hand),
    ("census, the whole dictionaries", censuschecks::dictionary),
    ("census, tallies and the steps", censuschecks::by_steps),
    ("census, tallies and all lists of coefficients", censuschecks::by_trying),
    ("census, tallies and all registers", censuschecks::by_registers),
    ("census, what is known of the tallies", censuschecks::known),
    ("census, random calls by their bytes", censuschecks::by_bytes),
    ("census printed, by hand", censuslines::by_hand),
    ("census printed, random lines", censuslines::random_lines),
    ("bundles by hand", bundlecases::by_hand),
    ("bundles, each slip as if alone", bundlechecks::singly),
    ("bundles, the shelf cut after every record", bundlechecks::cut),
    ("bundles, numbers hidden from visitors", bundlechecks::hidden),
    ("bundles put together, parted and turned", bundlechecks::related),
    ("bundles, fetched records", bundlechecks::fetched),
];

/// True if every group passes.
pub fn selftest() -> bool {
    let mut passed = true;
    for (name, work) in GROUPS {
        passed &= group(name, work);
    }
    println!("{}", if passed { "all groups passed" } else { "SOME GROUP FAILED" });
    passed
}

/// Every unit of some prime powers, every number up to the limit, every residue
/// of some products.
fn arithmetic(group: &mut Group) {
    for q in [2, 4, 9, 27, 125, 343, 1024, 2048, 2187, 4093] {
        let p = prime_powers(q)[0].p;
        for x in 0..q {
            let found = inverse(x, q);
            let right = found.map_or(x % p == 0, |y| y < q && x * y % q == 1);
            group.check(right, || format!("inverse of {x} modulo {q}"));
        }
    }
    for m in 2..=MODULUS_LIMIT {
        let powers = prime_powers(m);
        let product: u64 = powers.iter().map(|power| power.modulus()).product();
        let rising = powers.windows(2).all(|two| two[0].p < two[1].p);
        let prime = powers.iter().all(|power| (2..power.p).all(|d| power.p % d != 0));
        group.check(product == m && rising && prime, || format!("prime powers of {m}"));
    }
    for m in [6, 12, 60, 2310, 4095] {
        let powers = prime_powers(m);
        for x in 0..m {
            let parts: Vec<(u64, u64)> =
                powers.iter().map(|power| (x % power.modulus(), power.modulus())).collect();
            group.check(join::chinese_remainder(&parts) == x, || format!("{x} modulo {m}"));
        }
    }
}

/// A random legal modulus with terms of a random kind.
pub fn sample(random: &mut Random, longest: usize) -> (u64, Vec<u64>) {
    let m = sequences::modulus(random);
    let n = random.between(0, longest as u64) as usize;
    let terms = sequences::terms(random, m, n);
    (m, terms)
}

/// (3) of 000 for every row before every step: a(0) = p^η, and S × a and b agree
/// below x^k. Lengths fall with η and do not fall with k, (8), and are at most k.
fn rows(group: &mut Group) {
    let mut random = Random::new(11);
    for _ in 0..2000 {
        let (m, terms) = sample(&mut random, 40);
        for history in join::histories(m, &terms) {
            let power = history.power;
            let q = power.modulus();
            for (k, rows) in history.rows.iter().enumerate() {
                let right = rows.iter().enumerate().all(|(eta, row)| {
                    row.a[0] == power.power(eta)
                        && length(row) <= k
                        && (eta == 0 || length(row) <= length(&rows[eta - 1]))
                        && (k == 0 || length(row) >= length(&history.rows[k - 1][eta]))
                        && agrees(&terms, row, k, q)
                });
                group.check(right, || format!("rows modulo {q} at {k} for {terms:?}"));
            }
        }
    }
}

/// S × a and b agree modulo q in the coefficients below n.
fn agrees(terms: &[u64], pair: &Pair, n: usize, q: u64) -> bool {
    (0..n).all(|j| steps::product_coefficient(terms, &pair.a, j, q) == coefficient(&pair.b, j))
}

/// Coefficient by coefficient, at each prime power.
fn versions(group: &mut Group) {
    let mut random = Random::new(12);
    for round in 0..20000 {
        let longest = if round % 20 == 0 { 128 } else { 30 };
        let (m, terms) = sample(&mut random, longest);
        for power in prime_powers(m) {
            let history = steps::run(power, &terms);
            let same = history.rows[terms.len()][0] == compact::synthesize(power, &terms);
            group.check(same, || format!("{power:?} {terms:?}"));
        }
    }
}

/// Every l from 0 up is tried at every k.
fn linear_short(group: &mut Group) {
    let mut random = Random::new(13);
    for _ in 0..60000 {
        let (m, terms) = sample(&mut random, 14);
        let profile = join::profile(m, &terms);
        let right = (0..=terms.len()).all(|k| profile[k] == linear::least_length(m, &terms[..k]));
        group.check(right, || format!("modulo {m}: {terms:?}"));
    }
}

fn linear_long(group: &mut Group) {
    let mut random = Random::new(14);
    for round in 0..6000 {
        let longest = if round % 20 == 0 { 128 } else { 48 };
        let (m, mut terms) = sample(&mut random, longest);
        if longest == 128 {
            terms = sequences::terms(&mut random, m, 128);
        }
        let right = join::profile(m, &terms) == linear::profile(m, &terms);
        group.check(right, || format!("modulo {m}: {terms:?}"));
    }
}

/// The arithmetic is wide enough for what may come.
fn linear_wide(group: &mut Group) {
    let mut random = Random::new(15);
    for _ in 0..4000 {
        let m = random.pick(&[32768, 59049, 65521, 65535, 30030, 15625, 16807, 50625, 65534]);
        let n = random.place(25);
        let terms = sequences::terms(&mut random, m, n);
        let right = join::profile(m, &terms) == linear::profile(m, &terms);
        group.check(right, || format!("modulo {m}: {terms:?}"));
        for power in prime_powers(m) {
            let pair = &steps::run(power, &terms).rows[n][0];
            let same = *pair == compact::synthesize(power, &terms);
            group.check(same && agrees(&terms, pair, n, power.modulus()), || format!("{power:?}"));
        }
    }
}

/// All sequences for tiny m and n, directly modulo m.
fn tried(group: &mut Group) {
    let sizes = [
        (2, 9), (3, 6), (4, 6), (5, 4), (6, 5), (7, 4), (8, 4), (9, 4), (10, 4), (12, 4), (16, 3),
        (18, 3), (27, 3), (30, 3), (36, 2),
    ];
    for (m, n) in sizes {
        let mut terms = vec![0; n];
        loop {
            let profile = join::profile(m, &terms);
            let right = (0..=n).all(|k| profile[k] == linear::least_by_trying(m, &terms[..k]));
            group.check(right, || format!("modulo {m}: {terms:?}: {profile:?}"));
            if !linear::advance(&mut terms, m) {
                break;
            }
        }
    }
}

/// What a report promises: it generates, a_0 is 1, l is L of the pair and the last
/// cell of the profile; a test says yes, a run gives the terms; the profile is that
/// of the prefixes taken by themselves.
fn registers(group: &mut Group) {
    let mut random = Random::new(16);
    for round in 0..6000 {
        let (m, terms) = sample(&mut random, if round % 25 == 0 { 128 } else { 24 });
        let n = terms.len();
        let register = join::register(m, &terms);
        let pair = Pair { a: register.a.clone(), b: register.b.clone() };
        let profile = join::profile(m, &terms);
        let words = || format!("modulo {m}: {terms:?}: {register:?}");
        group.check(register.a[0] == 1 && agrees(&terms, &pair, n, m), words);
        group.check(register.length == length(&pair) && register.length == profile[n], words);
        group.check(below(&register, m), words);
        group.check(outputs(m, &register, n) == terms, words);
        let negatives: Vec<u64> =
            (1..=register.length).map(|i| (m - register.a[i]) % m).collect();
        group.check(linear::gives(&negatives, &terms, m), words);
        if n <= 24 {
            let alone = (0..=n).all(|k| join::register(m, &terms[..k]).length == profile[k]);
            group.check(alone, words);
        }
    }
}

fn below(register: &Register, m: u64) -> bool {
    register.a.iter().chain(&register.b).all(|&c| c < m)
}

/// A list of calls with refused ones among them, then the report, the record made
/// and the record served agree, a test says yes and a run gives the terms.
fn desk(group: &mut Group) {
    let mut random = Random::new(17);
    for _ in 0..3000 {
        let (m, terms) = sample(&mut random, 30);
        let (l, a, b) = report_after_calls(group, m, &terms);
        let record = record_made(group, m, &terms);
        let words = || format!("modulo {m}: {terms:?}");
        group.check(record[RECORD_LENGTH_AT..RECORD_A_AT] == (l as u16).to_le_bytes(), words);
        let same = record[RECORD_A_AT..] == [&a[..], &b, &[0, 0]].concat();
        group.check(same, words);
        let slip = slip_of(m, &terms);
        group.check(verify(&slip, &a, &b, l) == Ok(Verdict::Yes), words);
        let mut run = vec![3; CELL_BYTES * terms.len()];
        let ran = generate(m as u32, &a, &b, l, &mut run);
        group.check(ran == Ok(()) && cells(&run) == terms, words);
    }
}

/// The report after takings with refused calls between them.
fn report_after_calls(group: &mut Group, m: u64, terms: &[u64]) -> (u32, Vec<u8>, Vec<u8>) {
    let words = || format!("calls modulo {m}: {terms:?}");
    let (mut reading, opened) = open(m as u32);
    group.check(opened.is_ok(), words);
    let (mut a, mut b) = (vec![0xa5; A_BYTES], vec![0x5a; B_BYTES]);
    for (i, &term) in terms.iter().enumerate() {
        let refused = push(&mut reading, m as u32 + term as u32);
        group.check(refused == Err(Refusal::Term(i)), words);
        group.check(register(&reading, &mut a[1..], &mut b) == Err(Refusal::Buffer), words);
        group.check(push(&mut reading, term as u32).is_ok(), words);
    }
    group.check(a == [0xa5; A_BYTES] && b == [0x5a; B_BYTES], words);
    let l = register(&reading, &mut a, &mut b);
    group.check(l.is_ok(), words);
    (l.map_or(0, |(l, _)| l as u32), a, b)
}

/// The record made for a slip, served alike from a shelf and from an empty one, to an
/// editor and to a visitor.
fn record_made(group: &mut Group, m: u64, terms: &[u64]) -> Vec<u8> {
    let words = || format!("records modulo {m}: {terms:?}");
    let slip = slip_of(m, terms);
    let mut record = vec![7; RECORD_BYTES];
    group.check(synthesize(&slip, &mut record) == Ok(()), words);
    group.check(record[..SLIP_BYTES] == slip, words);
    let shelf = [made_for(m, &[1, 0, 1]), record.clone(), made_for(m, terms)].concat();
    let expected = Served::Found(usize::from(terms != [1, 0, 1]));
    for who in [0, 1] {
        let mut served = vec![9; RECORD_BYTES];
        group.check(look_up(&slip, &shelf, who, &mut served) == Ok(expected), words);
        group.check(served == record, words);
        served.fill(9);
        group.check(look_up(&slip, &[], who, &mut served) == Ok(Served::Made), words);
        group.check(served == record, words);
    }
    record
}

fn made_for(m: u64, terms: &[u64]) -> Vec<u8> {
    record_with(&slip_of(m, terms), &join::register(m, terms))
}

/// A seed gives the same bytes and a script the same text, also when it is cut.
fn scripts(group: &mut Group) {
    let makers: [(&str, fn(u64, u64) -> Vec<u8>); 3] = [
        ("calls", scenarios::calls),
        ("candidates", scenarios::candidates),
        ("catalogues", catalogues::rounds),
    ];
    let mut random = Random::new(18);
    for (name, make) in makers {
        for seed in 0..40 {
            let script = make(seed, 8);
            group.check(script == make(seed, 8), || format!("{name} {seed}: bytes"));
            let (text, whole) = replay(&script);
            group.check(whole && text == replay(&script).0, || format!("{name} {seed}: text"));
            let (cut, _) = replay(&script[..random.place(script.len())]);
            let begun = cut.strip_suffix("script cut short\n").unwrap_or(&cut);
            group.check(text.starts_with(begun), || format!("{name} {seed}: cut"));
        }
    }
    scripts_of_lines(group);
    scripts_of_catalogues(group);
    scripts_of_merges(group);
    scripts_of_periods(group);
    scripts_of_numbers(group);
    scripts_of_bundles(group);
    group.check(replay(&[]) == (String::new(), true), || String::from("no calls"));
    group.check(replay(&[17; 16]).0 == "script unknown 17\n", || String::from("unknown"));
    listings(group);
}

/// The same for readings of lines, whose scripts are long, and for lines; every script has
/// the readings by hand in front.
fn scripts_of_lines(group: &mut Group) {
    let by_hand = linecalls::linecalls(0, 0);
    let expected = replay(&by_hand).0;
    for seed in 0..4 {
        let script = linecalls::linecalls(seed, 300);
        group.check(script == linecalls::linecalls(seed, 300), || format!("lines {seed}: bytes"));
        group.check(script.starts_with(&by_hand), || format!("lines {seed}: by hand"));
        let (text, whole) = replay(&script);
        let lines = text.lines().count() - expected.lines().count();
        let right = whole && text.starts_with(&expected) && lines == 300;
        group.check(right, || format!("lines {seed}: {lines}"));
        let (cut, whole) = replay(&script[..script.len() - 1]);
        let begun = cut.strip_suffix("script cut short\n").unwrap_or("");
        let left = begun.lines().count() + 1;
        let right = !whole && text.starts_with(begun) && left == text.lines().count();
        group.check(right, || format!("lines {seed}: cut to {left}"));
        let input = typed::typed(seed, 60);
        group.check(input == typed::typed(seed, 60), || format!("typed {seed}"));
    }
}

/// Every script of servings and makings has those by hand in front.
fn scripts_of_catalogues(group: &mut Group) {
    let by_hand = catalogues::catalogues(0, 0);
    let lines = replay(&by_hand).0.lines().count();
    group.check(lines == 313, || format!("{lines} servings and makings by hand"));
    for seed in 0..4 {
        let script = catalogues::catalogues(seed, 60);
        group.check(script.starts_with(&by_hand), || format!("catalogues {seed}: by hand"));
        let random = catalogues::rounds(seed, 60);
        group.check(script.ends_with(&random), || format!("catalogues {seed}: random"));
        let found = replay(&random).0.lines().count();
        group.check(found > 60, || format!("catalogues {seed}: {found} random calls"));
    }
}

/// Every script of merges has those by hand in front; it is below 1.2 million bytes with the
/// count of tests/expectations.sh.
fn scripts_of_merges(group: &mut Group) {
    let by_hand = merges::merges(0, 0);
    let lines = replay(&by_hand).0.lines().count();
    group.check(lines == 673, || format!("{lines} merges by hand"));
    for seed in 0..4 {
        let script = merges::merges(seed, 60);
        group.check(script == merges::merges(seed, 60), || format!("merges {seed}: bytes"));
        let random = merges::rounds(seed, 60);
        let right = script == [&by_hand[..], &random].concat();
        group.check(right, || format!("merges {seed}: by hand, then random"));
        let (text, whole) = replay(&random);
        let right = whole && text.lines().count() == 60;
        group.check(right && text.lines().all(|line| line.starts_with("merge ")), || text.clone());
        let (cut, whole) = replay(&random[..random.len() - 1]);
        let begun = cut.strip_suffix("script cut short\n").unwrap_or("x");
        let right = !whole && text.starts_with(begun) && begun.lines().count() == 59;
        group.check(right, || format!("merges {seed}: cut"));
    }
    let size = merges::merges(16, 1500).len();
    group.check(size < 1_200_000, || format!("{size} bytes of merges"));
}

/// Every script of periods has those by hand in front; it is below 300,000 bytes with the count
/// of tests/expectations.sh.
fn scripts_of_periods(group: &mut Group) {
    let by_hand = periods::periods(0, 0);
    let lines = replay(&by_hand).0.lines().count();
    group.check(lines == 833, || format!("{lines} periods by hand"));
    for seed in 0..4 {
        let script = periods::periods(seed, 60);
        group.check(script == periods::periods(seed, 60), || format!("periods {seed}: bytes"));
        let random = periods::rounds(seed, 60);
        let right = script == [&by_hand[..], &random].concat();
        group.check(right, || format!("periods {seed}: by hand, then random"));
        let (text, whole) = replay(&random);
        let named = text.lines().all(|line| line.starts_with("period_length "));
        group.check(whole && named && text.lines().count() == 60, || text.clone());
    }
    let size = periods::periods(17, 600).len();
    group.check(size < 300_000, || format!("{size} bytes of periods"));
}

/// Every script of numbers has those by hand in front; it is below 60,000 bytes with the count
/// of tests/expectations.sh.
fn scripts_of_numbers(group: &mut Group) {
    let by_hand = numbers::numbers(0, 0);
    let lines = replay(&by_hand).0.lines().count();
    group.check(lines == 1318, || format!("{lines} numbers and tallies by hand"));
    for seed in 0..4 {
        let script = numbers::numbers(seed, 60);
        group.check(script == numbers::numbers(seed, 60), || format!("numbers {seed}: bytes"));
        let random = numbers::rounds(seed, 60);
        let right = script == [&by_hand[..], &random].concat();
        group.check(right, || format!("numbers {seed}: by hand, then random"));
        let (text, whole) = replay(&random);
        let named = |line: &str| line.starts_with("enumerate ") || line.starts_with("tally ");
        let right = whole && text.lines().all(named) && text.lines().count() == 60;
        group.check(right, || text.clone());
    }
    let size = numbers::numbers(18, 600).len();
    group.check(size < 60_000, || format!("{size} bytes of numbers"));
}

/// Every script of bundles has those by hand in front; it is below 12 million bytes with the count
/// of tests/expectations.sh.
fn scripts_of_bundles(group: &mut Group) {
    let by_hand = bundles::bundles(0, 0);
    let lines = replay(&by_hand).0.lines().count();
    group.check(lines == 1024, || format!("{lines} bundles by hand"));
    for seed in 0..4 {
        let script = bundles::bundles(seed, 12);
        group.check(script == bundles::bundles(seed, 12), || format!("bundles {seed}: bytes"));
        let random = bundles::rounds(seed, 12);
        let right = script == [&by_hand[..], &random].concat();
        group.check(right, || format!("bundles {seed}: by hand, then random"));
        let (text, whole) = replay(&random);
        let named = text.lines().all(|line| line.starts_with("look_up_batch "));
        group.check(whole && named && text.lines().count() >= 12, || text.clone());
    }
    let size = bundles::bundles(19, 400).len();
    group.check(size < 12_000_000, || format!("{size} bytes of bundles"));
}

/// The listing of random slips and of pieces of every size.
fn listings(group: &mut Group) {
    for seed in 0..40 {
        let slips = sequences::slips(seed, 10);
        let text = listing(&slips);
        group.check(text.lines().count() == 11, || format!("lines of seed {seed}"));
        group.check(text.ends_with('\n'), || format!("end of seed {seed}"));
        group.check(slips == sequences::slips(seed, 10), || format!("slips of seed {seed}"));
    }
    let header = "modulus count order start register\n";
    group.check(listing(&[]) == header, || String::from("no slips"));
    for size in 1..SLIP_BYTES {
        let text = listing(&vec![0; size]);
        group.check(text == format!("{header}refused 5\n"), || format!("{size} bytes"));
    }
}
