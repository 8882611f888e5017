//! "The only one?" (02, A8): whether another register is as short as the one reported.

use std::fmt;

/// What a report says beside the length.
#[derive(Clone, Copy, PartialEq, Eq, Debug)]
pub enum Only {
    Sole,
    Several,
    NotTold,
}

/// For n terms modulo m of the least length l. "For a prime modulus the report says sole or
/// several, and sole is said exactly when no second list of l coefficients after the leading
/// 1 generates the terms"; "this is when 2l ≤ n", which the self-test holds against all the
/// lists. "For other moduli it says not told", also where there is only one.
pub fn only(m: u64, n: usize, l: usize) -> Only {
    if !is_prime(m) {
        Only::NotTold
    } else if 2 * l <= n {
        Only::Sole
    } else {
        Only::Several
    }
}

/// A number above 1 that no number from 2 up to its square root divides.
fn is_prime(m: u64) -> bool {
    m > 1 && (2..).take_while(|d| d * d <= m).all(|d| m % d != 0)
}

/// The words of the working and of a replay.
impl fmt::Display for Only {
    fn fmt(&self, text: &mut fmt::Formatter) -> fmt::Result {
        text.write_str(match self {
            Only::Sole => "sole",
            Only::Several => "several",
            Only::NotTold => "not told",
        })
    }
}
