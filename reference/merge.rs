//! "Two people counted the same thing" (02, A9): the numbers behind it, by search.

/// "The least common multiple": of the multiples of x in turn, the first that y divides. The
/// y-th is one, so the search ends there at the latest.
pub fn common_multiple(x: u64, y: u64) -> u64 {
    let mut multiple = x;
    while multiple % y != 0 {
        multiple += x;
    }
    multiple
}

/// "Each joined term leaves the given remainders": s modulo x and t modulo y. The numbers that
/// leave s are s itself and then x more each time; those below the multiple are tried for one
/// that leaves t.
///
/// The paper's 31 is for terms that "disagree modulo the common divisor". Here the definition
/// is that two terms disagree if no number below the multiple leaves both remainders. That it
/// comes to the same is left to the self-test, which has the common divisor.
pub fn joined_term((s, x): (u64, u64), (t, y): (u64, u64)) -> Option<u64> {
    let multiple = common_multiple(x, y);
    let mut number = s;
    while number < multiple {
        if number % y == t {
            return Some(number);
        }
        number += x;
    }
    None
}
