//! The self-test's checks of merges (02, A9): all terms of small moduli, random merges by their
//! bytes, the least lengths for every k, what merges have to do with each other.

use crate::calls::{cells, check_slip, merge, slip_of};
use crate::cases::{bare, term_at, told, Told};
use crate::checks::Group;
use crate::faults::{number_at, offending};
use crate::join;
use crate::linear::{self, advance, least_by_trying};
use crate::merge::{common_multiple, joined_term};
use crate::mergecases::{disagree_at, outcome};
use crate::merges::{any_merge, moduli, same};
use crate::random::Random;
use crate::sequences::{self, uniform};

/// "The common divisor": the greatest of all numbers that divide both.
pub fn common_divisor(x: u64, y: u64) -> u64 {
    (1..=x.min(y)).rev().find(|d| x % d == 0 && y % d == 0).expect("1 divides both")
}

/// "The least common multiple": the least of all numbers from 1 on that both divide.
fn least_multiple(x: u64, y: u64) -> u64 {
    (1..).find(|number| number % x == 0 && number % y == 0).expect("x times y is one")
}

/// All numbers below the multiple that leave s modulo x and t modulo y.
fn leaving((s, x): (u64, u64), (t, y): (u64, u64)) -> Vec<u64> {
    let leaves = |number: &u64| number % x == s && number % y == t;
    (0..least_multiple(x, y)).filter(leaves).collect()
}

/// The remainders of the numbers.
fn modulo(m: u64, numbers: &[u64]) -> Vec<u64> {
    numbers.iter().map(|number| number % m).collect()
}

// ---- all terms ----

/// All moduli up to 40 and all their terms: a joined term is the only number below the multiple
/// that leaves both remainders, and there is none exactly where the terms disagree modulo the
/// common divisor.
pub fn all_terms(group: &mut Group) {
    for (x, y) in (2..=40).flat_map(|x| (2..=40).map(move |y| (x, y))) {
        let (multiple, divisor) = (least_multiple(x, y), common_divisor(x, y));
        let right = common_multiple(x, y) == multiple && multiple * divisor == x * y;
        group.check(right, || format!("{x} and {y}: {multiple}, {divisor}"));
        // Place s × y + t has the numbers that leave s and t.
        let mut leaving = vec![Vec::new(); (x * y) as usize];
        for number in 0..multiple {
            leaving[(number % x * y + number % y) as usize].push(number);
        }
        for (s, t) in (0..x).flat_map(|s| (0..y).map(move |t| (s, t))) {
            let found = outcome(group, &slip_of(x, &[s]), &slip_of(y, &[t]));
            let agree = s % divisor == t % divisor;
            let right = match leaving[(s * y + t) as usize][..] {
                [] => found == Err(disagree_at(0)) && !agree,
                [number] => found == Ok(slip_of(multiple, &[number])) && agree,
                _ => false,
            };
            group.check(right, || format!("{s} modulo {x}, {t} modulo {y}: {found:?}"));
        }
    }
}

/// Moduli, each two with a count, of which all sequences are merged.
const ALL: [([u64; 2], usize); 14] = [
    ([2, 2], 6),
    ([2, 3], 5),
    ([2, 4], 5),
    ([4, 2], 5),
    ([3, 3], 5),
    ([3, 6], 4),
    ([2, 5], 3),
    ([4, 6], 3),
    ([6, 4], 3),
    ([8, 4], 3),
    ([6, 9], 3),
    ([4, 9], 2),
    ([10, 15], 2),
    ([12, 18], 2),
];

/// All sequences modulo the multiple of small moduli: their remainders are merged to them, and
/// the least length of the first k is the larger of the two, for every k, where each is found
/// by trying all lists of coefficients. Then all pairs of short sequences.
pub fn all_sequences(group: &mut Group) {
    for ([x, y], n) in ALL {
        let multiple = least_multiple(x, y);
        let mut terms = vec![0; n];
        loop {
            let [first, second] = same([x, y], &terms);
            let found = outcome(group, &first, &second);
            let words = || format!("{terms:?} modulo {x} and {y}");
            group.check(found == Ok(slip_of(multiple, &terms)), words);
            let (s, t) = (modulo(x, &terms), modulo(y, &terms));
            for k in 0..=n {
                let larger = least_by_trying(x, &s[..k]).max(least_by_trying(y, &t[..k]));
                group.check(least_by_trying(multiple, &terms[..k]) == larger, words);
            }
            if !advance(&mut terms, multiple) {
                break;
            }
        }
    }
    for (x, y, n) in [(2, 2, 4), (2, 4, 3), (4, 2, 3), (4, 4, 2), (4, 6, 2), (6, 4, 2), (6, 6, 2)] {
        all_pairs(group, x, y, n);
    }
}

/// All pairs of sequences of n terms: 31 has the first place where no number leaves both.
fn all_pairs(group: &mut Group, x: u64, y: u64, n: usize) {
    let mut first = vec![0; n];
    loop {
        let mut second = vec![0; n];
        loop {
            let terms = first.iter().zip(&second);
            let numbers: Vec<Vec<u64>> = terms.map(|(&s, &t)| leaving((s, x), (t, y))).collect();
            let expected = match numbers.iter().position(Vec::is_empty) {
                Some(place) => Err(disagree_at(place)),
                None => Ok(slip_of(least_multiple(x, y), &numbers.concat())),
            };
            let found = outcome(group, &slip_of(x, &first), &slip_of(y, &second));
            group.check(found == expected, || format!("{first:?}, {second:?}: {found:?}"));
            if !advance(&mut second, y) {
                break;
            }
        }
        if !advance(&mut first, x) {
            break;
        }
    }
}

// ---- by bytes ----

/// A slip's own refusal, from its bytes.
pub fn own(slip: &[u8]) -> Option<Told> {
    let (m, count) = (number_at(slip, 0), number_at(slip, 1));
    let past = (0..128).any(|i| i as u64 >= count && number_at(slip, 2 + i) > 0);
    match offending(slip).first() {
        _ if !(2..=4095).contains(&m) => Some(bare(1)),
        _ if count > 128 => Some(bare(2)),
        Some(&place) => Some(term_at(place)),
        None => past.then_some(bare(4)),
    }
}

/// What a merge is refused for, from the bytes of its buffers.
fn expected_refusal([first, second, third]: &[Vec<u8>; 3]) -> Option<Told> {
    if [first, second, third].iter().any(|buffer| buffer.len() != 260) {
        return Some(bare(5));
    }
    let of_slips = own(first).or_else(|| own(second));
    of_slips.or_else(|| {
        let [x, y] = [first, second].map(|slip| number_at(slip, 0));
        let [n, other] = [first, second].map(|slip| number_at(slip, 1));
        let divisor = common_divisor(x, y);
        let differs =
            |&i: &usize| number_at(first, 2 + i) % divisor != number_at(second, 2 + i) % divisor;
        if n != other {
            Some(bare(29))
        } else if (1..=4095).all(|number| number % x > 0 || number % y > 0) {
            Some(bare(30))
        } else {
            (0..n as usize).find(differs).map(disagree_at)
        }
    })
}

/// Random merges: the refusal, or each cell of the slip.
pub fn by_bytes(group: &mut Group) {
    let mut random = Random::new(51);
    for _ in 0..30000 {
        let lent = any_merge(&mut random).buffers();
        let [first, second, mut slip] = lent.clone();
        let reply = told(merge(&first, &second, &mut slip));
        let expected = expected_refusal(&lent);
        let words = || format!("{reply:?} for {expected:?}: {first:?}, {second:?}, {slip:?}");
        group.check(reply.err() == expected, words);
        match reply {
            Err(refusal) => {
                group.check(slip == lent[2], words);
                check_other_order(group, &lent, refusal);
            }
            Ok(()) => {
                check_joined(group, &first, &second, &slip);
                let mut other = lent[2].clone();
                let reversed = told(merge(&second, &first, &mut other));
                group.check(reversed == Ok(()) && other == slip, words);
            }
        }
        check_first_place(group, &first, &second, reply);
    }
}

/// Every cell of the slip: the least number that both moduli divide, the count, terms below it
/// that leave both remainders, and zeros. It is a good slip.
fn check_joined(group: &mut Group, first: &[u8], second: &[u8], slip: &[u8]) {
    let words = || format!("{first:?}, {second:?}, {slip:?}");
    let [x, y, m] = [first, second, slip].map(|slip| number_at(slip, 0));
    let [n, other, count] = [first, second, slip].map(|slip| number_at(slip, 1));
    group.check(m == least_multiple(x, y) && n == other && n == count, words);
    let right = (0..128).all(|i| {
        let [s, t, term] = [first, second, slip].map(|slip| number_at(slip, 2 + i));
        // Past the count all three are 0.
        term < m && term % x == s && term % y == t && ((i as u64) < n || term == 0)
    });
    group.check(right, words);
    let terms = &cells(slip)[2..][..n as usize];
    let good = check_slip(slip).is_ok_and(|sequence| sequence.terms == terms);
    group.check(good, words);
}

/// "First slip first": in the other order another slip's own refusal may come, and nothing else
/// may change.
fn check_other_order(group: &mut Group, [first, second, third]: &[Vec<u8>; 3], refusal: Told) {
    let mut slip = third.clone();
    let reversed = told(merge(second, first, &mut slip)).err();
    let both = refusal.0 < 5 && own(first).is_some() && own(second).is_some();
    let expected = if both { own(second) } else { Some(refusal) };
    group.check(reversed == expected && slip == *third, || format!("{refusal:?}, {reversed:?}"));
}

/// 31's place: no number leaves both remainders there, and at each place before some number
/// does.
fn check_first_place(group: &mut Group, first: &[u8], second: &[u8], reply: Result<(), Told>) {
    let Err((31, Some(place))) = reply else { return };
    let [x, y] = [first, second].map(|slip| number_at(slip, 0));
    let numbers = |i: usize| leaving((number_at(first, 2 + i), x), (number_at(second, 2 + i), y));
    let right = numbers(place).is_empty() && (0..place).all(|i| numbers(i).len() == 1);
    group.check(right, || format!("{place}: {first:?}, {second:?}"));
}

// ---- least lengths ----

/// "Its least length is the larger of the two; prove this for every k as well": by the steps,
/// and for short sequences by linear algebra. All moduli up to 40, then others.
pub fn lengths(group: &mut Group) {
    let mut random = Random::new(52);
    let mut met = [0; 4];
    for (x, y) in (2..=40).flat_map(|x| (2..=40).map(move |y| (x, y))) {
        let n = random.between(1, 16) as usize;
        let numbers = sequences::terms(&mut random, least_multiple(x, y), n);
        met[check_lengths(group, [x, y], &numbers)] += 1;
    }
    for round in 0..6000 {
        let [x, y] = legal_moduli(&mut random);
        let n = if round % 20 == 0 { 120 + random.place(9) } else { random.place(33) };
        let numbers = sequences::terms(&mut random, least_multiple(x, y), n);
        met[check_lengths(group, [x, y], &numbers)] += 1;
    }
    // Neither is longer at any k, the first is at some k, the second is, each is.
    group.check(met.iter().all(|&times| times > 100), || format!("{met:?}"));
}

/// Numbers below the multiple, merged from their remainders, and every k; 1 if the first is
/// longer than the second at some k, 2 if the second is longer than the first, 3 for both and
/// 0 for none.
fn check_lengths(group: &mut Group, [x, y]: [u64; 2], numbers: &[u64]) -> usize {
    let (s, t) = (modulo(x, numbers), modulo(y, numbers));
    let multiple = least_multiple(x, y);
    let words = || format!("{numbers:?} modulo {x} and {y}");
    let found = outcome(group, &slip_of(x, &s), &slip_of(y, &t));
    group.check(found == Ok(slip_of(multiple, numbers)), words);
    let profiles = [join::profile(x, &s), join::profile(y, &t)];
    let joined = join::profile(multiple, numbers);
    let larger: Vec<usize> = profiles[0].iter().zip(&profiles[1]).map(|(l, r)| *l.max(r)).collect();
    group.check(joined == larger, words);
    if numbers.len() <= 16 {
        let by_algebra = linear::profile(x, &s) == profiles[0]
            && linear::profile(y, &t) == profiles[1]
            && linear::profile(multiple, numbers) == larger;
        group.check(by_algebra, words);
    }
    let longer = |one: usize| (0..larger.len()).any(|k| profiles[one][k] > profiles[1 - one][k]);
    usize::from(longer(0)) + 2 * usize::from(longer(1))
}

/// Moduli whose multiple is legal.
fn legal_moduli(random: &mut Random) -> [u64; 2] {
    loop {
        let [x, y] = moduli(random);
        if common_multiple(x, y) <= 4095 {
            return [x, y];
        }
    }
}

/// 12 and 18 at length: 128 terms, as they are and with the terms of one slip changed at some
/// places by less than the common divisor, then by the common divisor.
pub fn twelve_and_eighteen(group: &mut Group) {
    let mut random = Random::new(53);
    for _ in 0..1500 {
        let numbers = sequences::terms(&mut random, 36, 128);
        let (s, mut t) = (modulo(12, &numbers), modulo(18, &numbers));
        let first = slip_of(12, &s);
        check_lengths(group, [12, 18], &numbers);
        let places: Vec<usize> = (0..random.between(1, 4)).map(|_| random.place(128)).collect();
        places.iter().for_each(|&place| t[place] = (t[place] + 6) % 18);
        let found = outcome(group, &first, &slip_of(18, &t));
        let joined: Vec<u64> = (0..128).map(|i| leaving((s[i], 12), (t[i], 18))[0]).collect();
        group.check(found == Ok(slip_of(36, &joined)), || format!("{s:?}, {t:?}: {found:?}"));
        for &place in &places {
            t[place] = (numbers[place] + random.between(1, 5)) % 18;
        }
        let found = outcome(group, &first, &slip_of(18, &t));
        let expected = places.iter().min().map(|&place| disagree_at(place));
        group.check(found.clone().err() == expected, || format!("{s:?}, {t:?}: {found:?}"));
    }
}

// ---- merges again ----

/// A slip with itself gives itself; with what it leaves modulo a divisor too; a joined slip
/// with one of the two gives the joined one; of three slips it is the same which two are
/// joined first.
pub fn again(group: &mut Group) {
    let mut random = Random::new(54);
    for _ in 0..4000 {
        let [x, y] = legal_moduli(&mut random);
        let multiple = common_multiple(x, y);
        let n = random.place(20);
        let numbers = sequences::terms(&mut random, multiple, n);
        let of = |m: u64| slip_of(m, &modulo(m, &numbers));
        let (first, second, joined) = (of(x), of(y), of(multiple));
        let mut all = vec![
            (&first, &first, &first),
            (&joined, &joined, &joined),
            (&first, &second, &joined),
            (&second, &first, &joined),
            (&joined, &first, &joined),
            (&first, &joined, &joined),
            (&second, &joined, &joined),
        ];
        let divisors: Vec<u64> = (2..=multiple).filter(|d| multiple % d == 0).collect();
        let (d, other) = (random.pick(&divisors), random.pick(&divisors));
        let (part, third) = (of(d), of(other));
        all.extend([(&joined, &part, &joined), (&part, &joined, &joined)]);
        let left = of(common_multiple(common_multiple(x, d), other));
        let [early, late] = [of(common_multiple(x, d)), of(common_multiple(d, other))];
        all.extend([(&first, &part, &early), (&part, &third, &late)]);
        all.extend([(&early, &third, &left), (&first, &late, &left)]);
        for (one, two, expected) in all {
            let found = outcome(group, one, two);
            let right = found.as_ref() == Ok(expected);
            group.check(right, || format!("{numbers:?} modulo {x}, {y}, {d}, {other}: {found:?}"));
        }
    }
}

// ---- moduli to 65,535 ----

/// The search is wide enough for what may come: multiples up to 65,535, and those that are
/// refused.
pub fn wide(group: &mut Group) {
    let mut random = Random::new(55);
    let multiples = [32768, 59049, 65535, 65534, 65520, 64260, 30030, 46080, 65025, 36];
    for _ in 0..1500 {
        let multiple = random.pick(&multiples);
        let divisors: Vec<u64> = (2..=multiple).filter(|d| multiple % d == 0).collect();
        let (x, y) = (random.pick(&divisors), random.pick(&divisors));
        let least = common_multiple(x, y);
        let divisor = common_divisor(x, y);
        group.check(least == least_multiple(x, y), || format!("{x} and {y}: {least}"));
        for number in uniform(&mut random, least, 4) {
            let (s, t) = (number % x, number % y);
            let found = joined_term((s, x), (t, y));
            group.check(found == Some(number), || format!("{number}, {x}, {y}: {found:?}"));
            let other = random.below(y);
            let found = joined_term((s, x), (other, y));
            let right = match found {
                Some(number) => number < least && number % x == s && number % y == other,
                None => s % divisor != other % divisor,
            };
            group.check(right, || format!("{s} modulo {x}, {other} modulo {y}: {found:?}"));
        }
    }
    for (x, y, least) in [
        (4095, 4094, 16_764_930),
        (65535, 65534, 4_294_770_690),
        (65535, 65535, 65535),
        (32768, 65534, 1_073_709_056),
        (2, 65535, 131_070),
    ] {
        for found in [common_multiple(x, y), common_multiple(y, x)] {
            group.check(found == least, || format!("{x} and {y}: {found}"));
        }
    }
}
