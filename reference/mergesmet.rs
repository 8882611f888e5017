//! What the merges of a script meet (02, A9): each refusal and what it comes before, each kind
//! of moduli, multiples next to the limit, places, counts and lengths. Sizes and limits are
//! numbers here, as the papers have them.

use crate::calls::{cells, merge};
use crate::cases::told;
use crate::checks::Group;
use crate::coverage::{count, often, Kinds, Tally};
use crate::faults::offending;
use crate::join;
use crate::merge::common_multiple;
use crate::mergechecks::{common_divisor, own};
use crate::script::{Call, Operation};

/// What merges of slips that are good for themselves must be.
const KINDS: [&str; 60] = [
    "ok, prime to each other",
    "ok, equal",
    "ok, the first divides the second",
    "ok, the second divides the first",
    "ok, neither divides",
    "ok, 12 and 18",
    "ok, 18 and 12",
    "ok, 4,095",
    "ok, 4,095, prime to each other",
    "ok, 4,095, neither divides",
    "ok, 4,094",
    "ok, 4,080 to 4,093",
    "ok, the product is above 4,095",
    "ok, no terms",
    "ok, one term",
    "ok, 127 terms",
    "ok, 128 terms",
    "ok, not the same modulo the smaller modulus",
    "ok, a term that is neither of the two",
    "ok, the largest term",
    "ok, the first is longer at some k",
    "ok, the second is longer at some k",
    "ok, each is longer at some k",
    "29, one more in the first",
    "29, one more in the second",
    "29, several more",
    "29, no terms in one",
    "29, 127 and 128",
    "29, and 30",
    "29, and 31",
    "29, nothing else",
    "30, 4,096 to 4,100",
    "30, 4,101 to 4,160",
    "30, above 65,535",
    "30, within the limit in two bytes",
    "30, prime to each other",
    "30, neither divides",
    "30, no terms",
    "30, 128 terms",
    "30, and 31",
    "30, the terms agree",
    "31 at 0",
    "31 at 127",
    "31 in the middle",
    "31 at the last place of fewer than 128 terms",
    "31, one place",
    "31, two places or more",
    "31, all places",
    "31, equal",
    "31, the first divides the second",
    "31, the second divides the first",
    "31, neither divides",
    "31, 12 and 18",
    "31, 18 and 12",
    "31, 4,095",
    "31, the product is above 4,095",
    "31, the same modulo a part of the divisor",
    "31, one term",
    "31, 127 terms",
    "31, 128 terms",
];

/// What is wrong with a merge: 5 of a buffer, a slip's own, 29 to 31 of both.
type Wrong = (&'static str, u32);

const FIRST: &str = "the first slip";
const SECOND: &str = "the second slip";
const BUFFER: &str = "the buffer";
const BOTH: &str = "both";

/// What the merges of a script meet.
struct Met {
    kinds: Tally<&'static str>,
    /// The buffer that alone has a wrong size, and that size.
    sizes: Tally<(&'static str, usize)>,
    /// What is refused, and something else that is wrong.
    orders: Tally<(Wrong, Wrong)>,
    /// The slip that gets 3, the place, and whether there are others.
    places: Tally<(&'static str, usize, bool)>,
}

pub fn met(group: &mut Group, script: &[u8]) {
    let mut met = Met {
        kinds: Tally::new(),
        sizes: Tally::new(),
        orders: Tally::new(),
        places: Tally::new(),
    };
    let mut rest = script;
    while let Ok((call, size)) = Call::parse(rest) {
        rest = &rest[size..];
        if call.operation == Operation::Merge {
            met.note(&call.buffers());
        }
    }
    for kind in KINDS {
        often(group, met.kinds.get(kind).copied().unwrap_or(0), || format!("merges: {kind}"));
    }
    let all = met.kinds.len() == KINDS.len();
    group.check(all, || format!("kinds of merges: {:?}", met.kinds));
    sizes_met(group, &met);
    places_met(group, &met);
    orders_met(group, &met);
}

impl Met {
    fn note(&mut self, lent: &[Vec<u8>; 3]) {
        let wrong = wrong_with(lent);
        let sizes: Vec<usize> = lent.iter().map(Vec::len).filter(|&size| size != 260).collect();
        match (&wrong[..], &sizes[..]) {
            ([(name, _), ..], [size]) => count(&mut self.sizes, (*name, *size)),
            ([(name, 3), ..], []) => {
                let places = offending(&lent[usize::from(*name == SECOND)]);
                count(&mut self.places, (*name, places[0], places.len() > 1));
            }
            _ => {}
        }
        if let Some((&first, later)) = wrong.split_first() {
            later.iter().for_each(|&next| count(&mut self.orders, (first, next)));
        }
        for (kind, applies) in kinds_of(lent) {
            *self.kinds.entry(kind).or_insert(0) += usize::from(applies);
        }
    }
}

/// Each wrong size of each buffer.
fn sizes_met(group: &mut Group, met: &Met) {
    for name in [FIRST, SECOND, BUFFER] {
        for size in [0, 259, 261, 520] {
            let times = met.sizes.get(&(name, size)).copied().unwrap_or(0);
            often(group, times, || format!("merges: {name} alone has {size} bytes"));
        }
    }
}

/// 3 of each slip at the first place, at the last and between them; one and several.
fn places_met(group: &mut Group, met: &Met) {
    for name in [FIRST, SECOND] {
        let times = |holds: &dyn Fn(usize, bool) -> bool| -> usize {
            let those = met
                .places
                .iter()
                .filter(|((slip, at, more), _)| *slip == name && holds(*at, *more));
            those.map(|(_, times)| times).sum()
        };
        often(group, times(&|at, _| at == 0), || format!("merges: 3 of {name} at 0"));
        often(group, times(&|at, _| at == 127), || format!("merges: 3 of {name} at 127"));
        let between = times(&|at, _| at > 0 && at < 127);
        often(group, between, || format!("merges: 3 of {name} in the middle"));
        often(group, times(&|_, more| more), || format!("merges: 3 of {name}, several"));
        often(group, times(&|_, more| !more), || format!("merges: 3 of {name}, one"));
    }
}

/// Every two that can meet, in their order. A wrong modulus has no multiple and no divisor, and
/// a slip of a wrong size is not looked at.
fn orders_met(group: &mut Group, met: &Met) {
    let own = |name: &'static str| (1..=4).map(move |number| (name, number));
    let both = [29, 30, 31].map(|number| (BOTH, number));
    let mut pairs: Vec<(Wrong, Wrong)> = Vec::new();
    for first in own(FIRST) {
        pairs.extend(own(SECOND).map(|second| (first, second)));
    }
    for slip in own(FIRST).chain(own(SECOND)) {
        let meets = |later: &Wrong| slip.1 != 1 || later.1 == 29;
        pairs.extend(both.into_iter().filter(meets).map(|later| (slip, later)));
    }
    pairs.extend([(both[0], both[1]), (both[0], both[2]), (both[1], both[2])]);
    for later in [(FIRST, 1), (SECOND, 4)].into_iter().chain(both) {
        pairs.push(((BUFFER, 5), later));
    }
    pairs.extend([((FIRST, 5), (SECOND, 4)), ((SECOND, 5), (FIRST, 1))]);
    for pair in pairs {
        let some = met.orders.contains_key(&pair);
        group.check(some, || format!("merges: {:?} before {:?}", pair.0, pair.1));
    }
}

/// All that is wrong with a merge, as far as it can be told, in the order of the refusals. A
/// slip's own is the first of 1 to 4.
fn wrong_with(lent: &[Vec<u8>; 3]) -> Vec<Wrong> {
    let mut wrong: Vec<Wrong> = Vec::new();
    let names = [FIRST, SECOND, BUFFER];
    wrong.extend(names.into_iter().zip(lent).filter(|(_, b)| b.len() != 260).map(|(n, _)| (n, 5)));
    let slips = [(FIRST, &lent[0]), (SECOND, &lent[1])];
    let whole = slips.into_iter().filter(|(_, slip)| slip.len() == 260);
    wrong.extend(whole.filter_map(|(name, slip)| own(slip).map(|told| (name, told.0))));
    if lent[0].len() == 260 && lent[1].len() == 260 {
        let two = Two::of(lent);
        wrong.extend(two.counts_differ().then_some((BOTH, 29)));
        wrong.extend(two.is_above().then_some((BOTH, 30)));
        wrong.extend((!two.disagreeing().is_empty()).then_some((BOTH, 31)));
    }
    wrong
}

/// The moduli, the counts and the terms of two slips of 260 bytes.
struct Two {
    x: u64,
    y: u64,
    counts: [u64; 2],
    terms: [Vec<u64>; 2],
}

impl Two {
    fn of(lent: &[Vec<u8>; 3]) -> Two {
        let [first, second] = [&lent[0], &lent[1]].map(|slip| cells(slip));
        let terms = [first[2..].to_vec(), second[2..].to_vec()];
        Two { x: first[0], y: second[0], counts: [first[1], second[1]], terms }
    }

    /// Neither modulus gets 1, so that there are a multiple and a divisor.
    fn legal(&self) -> bool {
        [self.x, self.y].iter().all(|m| (2..=4095).contains(m))
    }

    fn counts_differ(&self) -> bool {
        self.counts[0] != self.counts[1]
    }

    fn multiple(&self) -> u64 {
        common_multiple(self.x, self.y)
    }

    fn divisor(&self) -> u64 {
        common_divisor(self.x, self.y)
    }

    fn is_above(&self) -> bool {
        self.legal() && self.multiple() > 4095
    }

    /// How many terms both have.
    fn shared(&self) -> usize {
        self.counts[0].min(self.counts[1]).min(128) as usize
    }

    /// The places of these whose terms are not the same modulo a number.
    fn differing(&self, m: u64) -> Vec<usize> {
        let [s, t] = &self.terms;
        (0..self.shared()).filter(|&i| s[i] % m != t[i] % m).collect()
    }

    fn disagreeing(&self) -> Vec<usize> {
        if self.legal() {
            self.differing(self.divisor())
        } else {
            Vec::new()
        }
    }

    fn neither_divides(&self) -> bool {
        self.divisor() > 1 && self.x % self.y > 0 && self.y % self.x > 0
    }
}

// ---- kinds ----

fn kinds_of(lent: &[Vec<u8>; 3]) -> Kinds {
    let [first, second, mut slip] = lent.clone();
    match told(merge(&first, &second, &mut slip)) {
        Ok(()) => {
            let two = Two::of(lent);
            let mut kinds = kinds_of_joined(&two, &cells(&slip)[2..]);
            kinds.extend(kinds_of_lengths(&two, &cells(&slip)));
            kinds
        }
        Err((29, _)) => kinds_of_counts(&Two::of(lent)),
        Err((30, _)) => kinds_of_multiple(&Two::of(lent)),
        Err((31, Some(place))) => kinds_of_disagreement(&Two::of(lent), place),
        Err(_) => Vec::new(),
    }
}

fn kinds_of_joined(two: &Two, terms: &[u64]) -> Kinds {
    let (x, y, n, multiple) = (two.x, two.y, two.shared(), two.multiple());
    let prime = two.divisor() == 1;
    let [s, t] = &two.terms;
    let other = (0..n).any(|i| terms[i] != s[i] && terms[i] != t[i]);
    vec![
        ("ok, prime to each other", prime),
        ("ok, equal", x == y),
        ("ok, the first divides the second", x < y && y % x == 0),
        ("ok, the second divides the first", y < x && x % y == 0),
        ("ok, neither divides", two.neither_divides()),
        ("ok, 12 and 18", (x, y) == (12, 18)),
        ("ok, 18 and 12", (x, y) == (18, 12)),
        ("ok, 4,095", multiple == 4095),
        ("ok, 4,095, prime to each other", multiple == 4095 && prime),
        ("ok, 4,095, neither divides", multiple == 4095 && two.neither_divides()),
        ("ok, 4,094", multiple == 4094),
        ("ok, 4,080 to 4,093", (4080..4094).contains(&multiple)),
        ("ok, the product is above 4,095", x * y > 4095),
        ("ok, no terms", n == 0),
        ("ok, one term", n == 1),
        ("ok, 127 terms", n == 127),
        ("ok, 128 terms", n == 128),
        (
            "ok, not the same modulo the smaller modulus",
            !prime && !two.differing(x.min(y)).is_empty(),
        ),
        ("ok, a term that is neither of the two", other),
        ("ok, the largest term", terms[..n].contains(&(multiple - 1))),
    ]
}

/// Which of the two has the larger least length for the first k terms.
fn kinds_of_lengths(two: &Two, joined: &[u64]) -> Kinds {
    let n = joined[1] as usize;
    let first = join::profile(two.x, &two.terms[0][..n]);
    let second = join::profile(two.y, &two.terms[1][..n]);
    let longer = (0..=n).any(|k| first[k] > second[k]);
    let shorter = (0..=n).any(|k| first[k] < second[k]);
    vec![
        ("ok, the first is longer at some k", longer),
        ("ok, the second is longer at some k", shorter),
        ("ok, each is longer at some k", longer && shorter),
    ]
}

fn kinds_of_counts(two: &Two) -> Kinds {
    let [n, other] = two.counts;
    let (above, disagree) = (two.is_above(), !two.disagreeing().is_empty());
    vec![
        ("29, one more in the first", n == other + 1),
        ("29, one more in the second", n + 1 == other),
        ("29, several more", n.abs_diff(other) > 1),
        ("29, no terms in one", n == 0 || other == 0),
        ("29, 127 and 128", n + other == 255),
        ("29, and 30", above),
        ("29, and 31", disagree),
        ("29, nothing else", !above && !disagree),
    ]
}

fn kinds_of_multiple(two: &Two) -> Kinds {
    let (multiple, n) = (two.multiple(), two.shared());
    let disagree = !two.disagreeing().is_empty();
    vec![
        ("30, 4,096 to 4,100", multiple <= 4100),
        ("30, 4,101 to 4,160", multiple > 4100 && multiple <= 4160),
        ("30, above 65,535", multiple > 65535),
        ("30, within the limit in two bytes", (2..=4095).contains(&(multiple % 65536))),
        ("30, prime to each other", two.divisor() == 1),
        ("30, neither divides", two.neither_divides()),
        ("30, no terms", n == 0),
        ("30, 128 terms", n == 128),
        ("30, and 31", disagree),
        ("30, the terms agree", n > 0 && !disagree),
    ]
}

fn kinds_of_disagreement(two: &Two, place: usize) -> Kinds {
    let (x, y, n) = (two.x, two.y, two.shared());
    let all = two.disagreeing().len();
    let apart = two.terms[0][place].abs_diff(two.terms[1][place]);
    let part = apart > 0 && common_divisor(apart, two.divisor()) > 1;
    vec![
        ("31 at 0", place == 0),
        ("31 at 127", place == 127),
        ("31 in the middle", place > 0 && place + 1 < n),
        ("31 at the last place of fewer than 128 terms", place + 1 == n && n > 1 && n < 128),
        ("31, one place", all == 1),
        ("31, two places or more", all > 1),
        ("31, all places", all == n && n > 1),
        ("31, equal", x == y),
        ("31, the first divides the second", x < y && y % x == 0),
        ("31, the second divides the first", y < x && x % y == 0),
        ("31, neither divides", two.neither_divides()),
        ("31, 12 and 18", (x, y) == (12, 18)),
        ("31, 18 and 12", (x, y) == (18, 12)),
        ("31, 4,095", two.multiple() == 4095),
        ("31, the product is above 4,095", x * y > 4095),
        ("31, the same modulo a part of the divisor", part),
        ("31, one term", n == 1),
        ("31, 127 terms", n == 127),
        ("31, 128 terms", n == 128),
    ]
}
