//! What the reports and tracings of a script, and the working of slips, meet of "The only
//! one?" (02, A8): each answer for each kind of modulus, and next to 2l = n.

use crate::calls::zero_reading;
use crate::checks::Group;
use crate::coverage::{count, often, Kinds, Tally};
use crate::onlychecks::expected_only;
use crate::scenarios::changes_reading;
use crate::script::{line, Call, Operation};
use crate::starts::{kind_of_modulus, read_back};

/// What reports must be, and tracings.
const KINDS: [&str; 26] = [
    "sole",
    "sole, no terms",
    "sole, l = 0, some terms",
    "sole, 2l = n",
    "sole, 2l below n",
    "sole, 128 terms",
    "sole, 2l = n = 128",
    "sole, modulo 2",
    "sole, modulo 2, 2l = n",
    "sole, modulo a prime above 1,000",
    "sole, modulo a prime above 1,000, 2l = n",
    "sole, after several",
    "several",
    "several, 2l = n+1",
    "several, 2l above n+1",
    "several, modulo 2",
    "several, modulo 2, 2l = n+1",
    "several, modulo a prime above 1,000",
    "several, modulo a prime above 1,000, 2l = n+1",
    "several, after sole",
    "not told",
    "not told, l = 0",
    "not told, a higher power of one, 2l up to n",
    "not told, a higher power of one, 2l above n",
    "not told, several primes, 2l up to n",
    "not told, several primes, 2l above n",
];

/// What a report tells, with the modulus and the count of the reading.
#[derive(Clone, Copy)]
struct Told<'a> {
    m: u64,
    n: usize,
    l: usize,
    word: &'a str,
}

/// The script and its replay, and the text of a working.
pub fn met(group: &mut Group, script: &[u8], text: &str, worked: &str) {
    let mut tally = Tally::new();
    let mut held = zero_reading();
    let mut before = None;
    let mut rest = script;
    for reply in text.lines() {
        let Ok((call, size)) = Call::parse(rest) else { break };
        rest = &rest[size..];
        if changes_reading(call.operation) {
            line(&call, &mut held);
        }
        if matches!(call.operation, Operation::Open | Operation::Forge) {
            before = None;
        }
        let Some((name, l, word)) = read_reply(reply) else { continue };
        let told = Told { m: u64::from(held.modulus), n: usize::from(held.count), l, word };
        check_word(group, told);
        for (kind, applies) in kinds_of(told, before) {
            *tally.entry((name, kind)).or_insert(0) += usize::from(applies);
        }
        before = Some(word);
    }
    for (name, kind) in ["register", "trace"].iter().flat_map(|name| KINDS.map(|k| (*name, k))) {
        let times = tally.get(&(name, kind)).copied().unwrap_or(0);
        often(group, times, || format!("{name}: {kind}"));
    }
    let all = tally.len() == 2 * KINDS.len();
    group.check(all, || format!("kinds of answers: {tally:?}"));
    worked_met(group, worked);
}

/// The call, the length and the word of a report or a tracing that was not refused.
fn read_reply(reply: &str) -> Option<(&str, usize, &str)> {
    let (name, rest) = reply.split_once(" length ")?;
    let (l, rest) = rest.split_once(' ')?;
    let word = ["sole", "several", "not told"].into_iter().find(|word| rest.starts_with(word))?;
    Some((name, l.parse().ok()?, word))
}

fn check_word(group: &mut Group, told: Told) {
    let Told { m, n, l, word } = told;
    let right = expected_only(m, n, l).to_string() == word;
    group.check(right, || format!("modulo {m}, {n} terms, length {l}: {word}"));
}

/// The kinds that a report is of; `before` is the word of the one before it on the reading.
fn kinds_of(told: Told, before: Option<&str>) -> Kinds {
    let Told { m, n, l, word } = told;
    let [sole, several, not_told] = ["sole", "several", "not told"].map(|w| w == word);
    let (two, large) = (m == 2, m > 1000);
    let (even, odd) = (l > 0 && 2 * l == n, 2 * l == n + 1);
    let [power, product] =
        ["a higher power of one", "several primes"].map(|k| not_told && kind_of_modulus(m) == k);
    vec![
        ("sole", sole),
        ("sole, no terms", sole && n == 0),
        ("sole, l = 0, some terms", sole && l == 0 && n > 0),
        ("sole, 2l = n", sole && even),
        ("sole, 2l below n", sole && l > 0 && 2 * l < n),
        ("sole, 128 terms", sole && l > 0 && n == 128),
        ("sole, 2l = n = 128", sole && even && n == 128),
        ("sole, modulo 2", sole && two),
        ("sole, modulo 2, 2l = n", sole && two && even),
        ("sole, modulo a prime above 1,000", sole && large),
        ("sole, modulo a prime above 1,000, 2l = n", sole && large && even),
        ("sole, after several", sole && before == Some("several")),
        ("several", several),
        ("several, 2l = n+1", several && odd),
        ("several, 2l above n+1", several && 2 * l > n + 1),
        ("several, modulo 2", several && two),
        ("several, modulo 2, 2l = n+1", several && two && odd),
        ("several, modulo a prime above 1,000", several && large),
        ("several, modulo a prime above 1,000, 2l = n+1", several && large && odd),
        ("several, after sole", several && before == Some("sole")),
        ("not told", not_told),
        ("not told, l = 0", not_told && l == 0),
        ("not told, a higher power of one, 2l up to n", power && l > 0 && 2 * l <= n),
        ("not told, a higher power of one, 2l above n", power && 2 * l > n),
        ("not told, several primes, 2l up to n", product && l > 0 && 2 * l <= n),
        ("not told, several primes, 2l above n", product && 2 * l > n),
    ]
}

/// Each of the words in the text of a working, where it belongs to the listing's line before.
fn worked_met(group: &mut Group, worked: &str) {
    let mut tally = Tally::new();
    for (line, word) in worked.lines().zip(worked.lines().skip(1)) {
        if let Some(listed) = read_back(line) {
            check_word(group, Told { m: listed.modulus, n: listed.count, l: listed.start, word });
            count(&mut tally, word);
        }
    }
    for word in ["sole", "several", "not told"] {
        group.check(tally.contains_key(word), || format!("working: {word}"));
    }
}
