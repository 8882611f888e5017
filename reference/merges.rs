//! A script of merges (02, A9): first each refusal, each order and each kind of moduli by
//! hand, then random ones.

use crate::calls::slip_of;
use crate::limits::*;
use crate::merge::common_multiple;
use crate::random::Random;
use crate::residue::prime_powers;
use crate::scenarios::{fitted, plain};
use crate::script::{Call, Operation};
use crate::sequences::{self, damage, set_cell, uniform};

/// Two slips as they are handed in.
pub type Slips = [Vec<u8>; 2];

/// The sizes that the three buffers must have.
pub const RIGHT: [usize; 3] = [SLIP_BYTES; 3];

/// Sizes that none of them may have.
const WRONG_SIZES: [usize; 4] = [0, 259, 261, 520];

/// What a slip buffer is filled with where the merges are not random.
const FILL: u8 = 0xa5;

/// `merges SEED COUNT`: the merges by hand, then that many random ones.
pub fn merges(seed: u64, count: u64) -> Vec<u8> {
    let mut script = Vec::new();
    for (slips, sizes) in by_hand() {
        script.extend(merging(&slips, sizes, FILL).bytes());
    }
    script.extend(rounds(seed, count));
    script
}

/// A call; the slips are cut or stretched to the first two sizes.
pub fn merging(slips: &Slips, sizes: [usize; 3], fill: u8) -> Call {
    let lengths = sizes.map(|size| size as u16);
    let payload = [fitted(&slips[0], lengths[0]), fitted(&slips[1], lengths[1])].concat();
    Call { operation: Operation::Merge, fill, number: 0, lengths, l: 0, payload }
}

// ---- by hand ----

/// The slips of each merge and the sizes of the three buffers.
fn by_hand() -> Vec<(Slips, [usize; 3])> {
    let slips = [
        kinds_of_moduli(),
        small_moduli(),
        pairs_of_terms(),
        counts(),
        disagreements(),
        parts_of_divisors(),
        wrong_slips(),
        different_counts(),
        orders(),
    ]
    .concat();
    let mut all: Vec<(Slips, [usize; 3])> = slips.into_iter().map(|two| (two, RIGHT)).collect();
    all.extend(wrong_sizes());
    all
}

/// The same numbers modulo x and modulo y.
pub fn same([x, y]: [u64; 2], numbers: &[u64]) -> Slips {
    [x, y].map(|m| slip_of(m, &numbers.iter().map(|number| number % m).collect::<Vec<u64>>()))
}

/// n numbers, soon above every modulus: 1, 14, 183, and so on.
fn numbers(n: usize) -> Vec<u64> {
    let next = |&number: &u64| Some((13 * number + 1) % 1_000_003);
    std::iter::successors(Some(1), next).take(n).collect()
}

/// Moduli of each kind, with multiples exactly at the limit, next below and next above it.
const MODULI: [[u64; 2]; 67] = [
    // Prime to each other.
    [2, 3],
    [3, 2],
    [4, 9],
    [25, 27],
    [64, 63],
    [61, 67],
    [16, 255],
    [2, 1365],
    [3, 1364],
    [2, 2047],
    [2047, 2],
    [46, 89],
    // The multiple is 4,095: prime to each other, then not.
    [63, 65],
    [65, 63],
    [5, 819],
    [585, 7],
    [9, 455],
    [13, 315],
    [91, 45],
    [117, 35],
    [63, 195],
    [117, 105],
    [585, 315],
    [819, 455],
    [1365, 9],
    [9, 1365],
    [4095, 3],
    [1365, 4095],
    [4095, 4095],
    // Equal.
    [2, 2],
    [12, 12],
    [2048, 2048],
    [4093, 4093],
    [4094, 4094],
    // One divides the other.
    [2, 4],
    [4, 2],
    [2048, 4],
    [4, 2048],
    [2, 2048],
    [3, 1365],
    [2047, 4094],
    [4094, 2],
    [60, 2520],
    // Neither does, and they have a common divisor.
    [12, 18],
    [18, 12],
    [4, 6],
    [6, 10],
    [8, 12],
    [6, 1365],
    [1365, 6],
    [1024, 1536],
    [46, 178],
    // 4,097, three times 4,098, then 4,100, 4,104, 4,112 and 4,160.
    [17, 241],
    [2, 2049],
    [6, 683],
    [3, 1366],
    [50, 164],
    [216, 57],
    [16, 257],
    [64, 65],
    // Far above the limit: in two bytes the next three would be 1,024, 36 and 2; the last is the
    // largest that there is.
    [1260, 1050],
    [4093, 2],
    [2, 4095],
    [1024, 65],
    [676, 97],
    [198, 331],
    [4095, 4094],
];

/// The largest joined term there is, the least ones, the moduli, then other numbers.
fn kinds_of_moduli() -> Vec<Slips> {
    let of = |(i, [x, y]): (usize, [u64; 2])| {
        let ends = [common_multiple(x, y) - 1, 0, 1, x, y];
        let base = [&ends[..], &numbers(TERMS_LIMIT)].concat();
        same([x, y], &base[..[5, 1, 12, 2, 128, 127, 3][i % 7]])
    };
    MODULI.into_iter().enumerate().map(of).collect()
}

/// All moduli from 2 to 9 with all numbers below their multiple, which is at most 72.
fn small_moduli() -> Vec<Slips> {
    let moduli = (2..=9).flat_map(|x| (2..=9).map(move |y| [x, y]));
    let below = |[x, y]: [u64; 2]| (0..common_multiple(x, y)).collect::<Vec<u64>>();
    moduli.map(|two| same(two, &below(two))).collect()
}

/// Every two terms of some moduli, most of which disagree; all numbers modulo 12 and 18.
fn pairs_of_terms() -> Vec<Slips> {
    let mut all = Vec::new();
    for [x, y] in [[2, 2], [4, 6], [6, 4], [3, 6], [6, 9]] {
        for (s, t) in (0..x).flat_map(|s| (0..y).map(move |t| (s, t))) {
            all.push([slip_of(x, &[s]), slip_of(y, &[t])]);
        }
    }
    let below: Vec<u64> = (0..36).collect();
    all.extend([[12, 18], [18, 12]].map(|two| same(two, &below)));
    all
}

fn counts() -> Vec<Slips> {
    let counts = [0, 1, 2, 64, 126, 127, 128];
    let moduli = [[12, 18], [63, 65], [9, 9], [2048, 4]];
    moduli.into_iter().flat_map(|two| counts.map(|n| same(two, &numbers(n)))).collect()
}

/// The same n numbers, but those of the second slip are moved by a step at the places.
fn moved([x, y]: [u64; 2], n: usize, places: &[usize], step: u64) -> Slips {
    let mut slips = same([x, y], &numbers(n));
    for &place in places {
        let term = (numbers(n)[place] + step) % y;
        set_cell(&mut slips[1], 2 + place, term as u16);
    }
    slips
}

/// Two terms disagree: at the first place, the last, in the middle, at several, at all.
fn disagreements() -> Vec<Slips> {
    let moduli = [
        [12, 18],
        [18, 12],
        [12, 12],
        [6, 12],
        [12, 6],
        [8, 12],
        [4095, 1365],
        [4095, 4095],
        [1365, 6],
        [50, 30],
    ];
    let places: [(usize, &[usize]); 11] = [
        (1, &[0]),
        (5, &[0]),
        (5, &[4]),
        (5, &[2]),
        (5, &[1, 3]),
        (5, &[0, 1, 2, 3, 4]),
        (127, &[126]),
        (128, &[0]),
        (128, &[127]),
        (128, &[64]),
        (128, &[126, 127]),
    ];
    moduli.into_iter().flat_map(|two| places.map(|(n, at)| moved(two, n, at, 1))).collect()
}

/// Moduli and steps: the terms stay the same modulo a part of the common divisor, so that they
/// disagree, or modulo all of it, so that they agree, though not modulo the smaller modulus.
fn parts_of_divisors() -> Vec<Slips> {
    let steps: [([u64; 2], &[u64]); 10] = [
        ([12, 18], &[2, 3, 4, 6, 12]),
        ([18, 12], &[2, 3, 4, 6]),
        ([12, 12], &[2, 3, 4, 6]),
        ([6, 12], &[2, 3, 6]),
        ([12, 6], &[2, 3]),
        ([8, 12], &[2, 4, 8]),
        ([9, 27], &[3, 9]),
        ([4095, 1365], &[105, 195, 273, 455]),
        ([4095, 4095], &[819, 1365]),
        ([1365, 6], &[2, 3]),
    ];
    let mut all = Vec::new();
    for (two, steps) in steps {
        all.extend(steps.iter().map(|&step| moved(two, 5, &[2, 4], step)));
    }
    all
}

/// Cells of a slip and what is put there, in one of five terms modulo 12 or 18: 1, 2, 3, 4.
const WRONG: [&[(usize, u16)]; 13] = [
    &[(0, 0)],
    &[(0, 1)],
    &[(0, 4096)],
    &[(0, 65535)],
    &[(1, 129)],
    &[(1, 256 + 5)],
    &[(1, 65535)],
    &[(2, 18)],
    &[(4, 256), (6, 65535)],
    &[(6, 18)],
    &[(7, 1)],
    &[(129, 256)],
    &[(7, 18), (129, 65535)],
];

/// Each in the first slip and in the second; then 3 among 128 terms, at the first place, in
/// the middle and at the last, alone, twice, and in both slips.
fn wrong_slips() -> Vec<Slips> {
    let mut all = Vec::new();
    for side in [0, 1] {
        for faults in WRONG {
            let mut slips = same([12, 18], &numbers(5));
            faults.iter().for_each(|&(cell, value)| set_cell(&mut slips[side], cell, value));
            all.push(slips);
        }
    }
    let places: [[&[usize]; 2]; 10] = [
        [&[0], &[]],
        [&[64], &[]],
        [&[127], &[]],
        [&[3, 90], &[]],
        [&[], &[0]],
        [&[], &[64]],
        [&[], &[127]],
        [&[], &[3, 90]],
        [&[90], &[3]],
        [&[3], &[90]],
    ];
    for wrong in places {
        let mut slips = same([12, 18], &numbers(TERMS_LIMIT));
        for (slip, places) in slips.iter_mut().zip(wrong) {
            places.iter().for_each(|place| set_cell(slip, 2 + place, 18));
        }
        all.push(slips);
    }
    all
}

/// One more, one less and several; also with a multiple above the limit, and with terms that
/// disagree at the first place.
fn different_counts() -> Vec<Slips> {
    let counts = [
        (0, 1),
        (1, 0),
        (4, 5),
        (5, 4),
        (127, 128),
        (128, 127),
        (0, 128),
        (128, 0),
        (3, 9),
        (9, 3),
    ];
    let of = |n: usize, m: u64| same([m, m], &numbers(n))[0].clone();
    let mut all = Vec::new();
    for (n, other) in counts {
        all.extend([[12, 18], [9, 9], [64, 65]].map(|[x, y]| [of(n, x), of(other, y)]));
        let mut second = of(other, 18);
        if other > 0 {
            set_cell(&mut second, 2, 2);
        }
        all.push([of(n, 12), second]);
    }
    all
}

/// How many faults `faulty` knows.
pub const FAULTS: usize = 11;

/// Five terms modulo 12 and modulo 18 with a set of faults, bit i for the i-th in the order of
/// the refusals: 1, 2, 3 (places 2 and 4) and 4 of the first slip, 1, 2, 3 (places 3 and 4) and
/// 4 of the second, 29, 30, 31 (places 1 and 2). A fault that takes the cell of another is one
/// that comes before it.
pub fn faulty(set: u32) -> Slips {
    let has = |fault: usize| set >> fault & 1 == 1;
    // With 18 both moduli have the common divisor 6; the multiple of 4,092 is 12,276.
    let modulus = if has(9) { 4092 } else { 12 };
    let mut slips = same([modulus, 18], &[6, 3, 1, 5, 12]);
    let cells: [(usize, usize, &[(usize, u16)]); 10] = [
        (8, 1, &[(1, 6)]),
        (10, 1, &[(3, 4), (4, 2)]),
        (0, 0, &[(0, 4096)]),
        (1, 0, &[(1, 129)]),
        (2, 0, &[(4, 65535), (6, 65535)]),
        (3, 0, &[(129, 1)]),
        (4, 1, &[(0, 1)]),
        (5, 1, &[(1, 200)]),
        (6, 1, &[(5, 18), (6, 65535)]),
        (7, 1, &[(128, 9)]),
    ];
    for (_, side, changes) in cells.into_iter().filter(|&(fault, ..)| has(fault)) {
        changes.iter().for_each(|&(cell, value)| set_cell(&mut slips[side], cell, value));
    }
    slips
}

/// No fault, each fault alone, every two, and all from each on.
fn orders() -> Vec<Slips> {
    let mut sets = vec![0];
    for first in 0..FAULTS {
        sets.push(1 << first);
        sets.extend((first + 1..FAULTS).map(|second| 1 << first | 1 << second));
        sets.push((1 << FAULTS) - (1 << first));
    }
    sets.into_iter().map(faulty).collect()
}

/// 5 for each buffer, before 1 of the first slip, 4 of the second, 29, 30, 31 and all of them;
/// 5 for several, also where the sizes together are right.
fn wrong_sizes() -> Vec<(Slips, [usize; 3])> {
    let mut all = Vec::new();
    for (buffer, size) in (0..3).flat_map(|buffer| WRONG_SIZES.map(|size| (buffer, size))) {
        let mut sizes = RIGHT;
        sizes[buffer] = size;
        for set in [0, 1 << 0, 1 << 7, 1 << 8, 1 << 9, 1 << 10, (1 << FAULTS) - 1] {
            all.push((faulty(set), sizes));
        }
    }
    let several = [
        [259, 261, 260],
        [261, 259, 260],
        [520, 0, 260],
        [0, 520, 260],
        [260, 0, 520],
        [520, 260, 0],
        [0, 0, 0],
        [259, 259, 259],
        [261, 261, 261],
    ];
    all.extend(several.map(|sizes| (faulty(0), sizes)));
    all
}

// ---- random ----

/// The random ones.
pub fn rounds(seed: u64, count: u64) -> Vec<u8> {
    let mut random = Random::new(seed);
    (0..count).flat_map(|_| any_merge(&mut random).bytes()).collect()
}

/// One merge: mostly of good slips and with right buffers.
pub fn any_merge(random: &mut Random) -> Call {
    let mut slips = two_slips(random);
    for slip in &mut slips {
        if random.once_in(8) {
            damage(random, slip);
        }
    }
    let mut sizes = RIGHT;
    if random.once_in(12) {
        for _ in 0..random.pick(&[1, 1, 1, 2]) {
            sizes[random.place(3)] = random.pick(&WRONG_SIZES);
        }
    }
    let lent = plain(random, Operation::Merge, 0, [0; 3]);
    merging(&slips, sizes, lent.fill)
}

/// Two good slips: mostly of the same sequence, at times with terms that disagree or with
/// counts that differ.
pub fn two_slips(random: &mut Random) -> Slips {
    let moduli = moduli(random);
    let n = sequences::count(random);
    let mut terms = counted(random, moduli, n);
    if random.once_in(3) {
        move_terms(random, moduli, &mut terms);
    }
    if random.once_in(8) {
        miscount(random, moduli, &mut terms);
    }
    [slip_of(moduli[0], &terms[0]), slip_of(moduli[1], &terms[1])]
}

/// Two moduli. Mostly some number is their least common multiple: one of them has all of each
/// of its prime powers, and the other has all of it, a part or nothing.
pub fn moduli(random: &mut Random) -> [u64; 2] {
    loop {
        let kind = random.below(16);
        let mut two = [1, 1];
        for power in prime_powers(multiple(random)) {
            let any = random.between(0, power.e as u64) as usize;
            let (side, part) = match kind {
                0..=1 => (0, power.e),
                2..=4 => (0, any),
                5..=8 => (random.place(2), 0),
                _ => (random.place(2), any),
            };
            two[side] *= power.modulus();
            two[1 - side] *= power.power(part);
        }
        if kind == 15 {
            two = [sequences::modulus(random), sequences::modulus(random)];
        }
        if random.once_in(2) {
            two.reverse();
        }
        if two.iter().all(|m| (2..=MODULUS_LIMIT).contains(m)) {
            return two;
        }
    }
}

/// A number to be the multiple: the limit, next to it on both sides, above it, 36 as for 12
/// and 18, one with several small primes, a small one, or any legal modulus.
fn multiple(random: &mut Random) -> u64 {
    match random.below(18) {
        0..=1 => MODULUS_LIMIT,
        2..=3 => random.between(MODULUS_LIMIT - 15, MODULUS_LIMIT),
        4..=5 => random.between(MODULUS_LIMIT + 1, MODULUS_LIMIT + 25),
        6 => random.between(MODULUS_LIMIT + 1, 8 * MODULUS_LIMIT),
        7..=8 => 36,
        9..=11 => random.pick(&[12, 30, 60, 72, 180, 210, 360, 420, 720, 1260, 2310, 2520]),
        12..=13 => random.between(2, 60),
        _ => sequences::modulus(random),
    }
}

/// The remainders of one sequence, or two sequences that have nothing to do with each other.
fn counted(random: &mut Random, moduli: [u64; 2], n: usize) -> [Vec<u64>; 2] {
    if random.once_in(12) {
        return moduli.map(|m| sequences::terms(random, m, n));
    }
    let multiple = common_multiple(moduli[0], moduli[1]);
    let numbers = if multiple < 1 << 16 {
        sequences::terms(random, multiple, n)
    } else {
        uniform(random, multiple, n)
    };
    moduli.map(|m| numbers.iter().map(|number| number % m).collect())
}

/// Moves terms of one of the two, at the first place, at the last, at any, at some or at all:
/// by 1, by any number, by a part of the common divisor, or by all of it, which they still
/// agree after.
fn move_terms(random: &mut Random, moduli: [u64; 2], terms: &mut [Vec<u64>; 2]) {
    let n = terms[0].len();
    if n == 0 {
        return;
    }
    let any = random.place(n);
    let places: Vec<usize> = match random.below(8) {
        0 => vec![0],
        1..=2 => vec![n - 1],
        3..=4 => vec![any],
        5 => (any..n).collect(),
        6 => (0..n).collect(),
        _ => (0..random.between(2, 4)).map(|_| random.place(n)).collect(),
    };
    let divisor = moduli[0] * moduli[1] / common_multiple(moduli[0], moduli[1]);
    let prime = prime_powers(divisor).first().map_or(1, |power| power.p);
    let side = random.place(2);
    let m = moduli[side];
    for place in places {
        let any = random.between(1, m - 1);
        let step = random.pick(&[1, any, divisor / prime, divisor]);
        terms[side][place] = (terms[side][place] + step) % m;
    }
}

/// Makes one of the two longer or shorter, mostly by one.
fn miscount(random: &mut Random, moduli: [u64; 2], terms: &mut [Vec<u64>; 2]) {
    let side = random.place(2);
    let n = terms[side].len();
    let (less, any) = (n.saturating_sub(1), random.place(TERMS_LIMIT + 1));
    let other = random.pick(&[less, less, n + 1, n + 1, 0, any]).min(TERMS_LIMIT);
    let last = random.below(moduli[side]);
    terms[side].resize(other, last);
}
