//! "Binary wheels" (02, A10): the length of a binary sequence from one of its periods.

/// "Games-Chan halving": "compare the halves; if equal go on with one; if not, add half the size
/// to the total and go on with their sum modulo 2; at size 1 add the last digit." The digits are
/// 0 or 1, and there are as many as one of the seven periods has.
pub fn halved_length(period: &[u64]) -> usize {
    let mut digits = period.to_vec();
    let mut total = 0;
    while digits.len() > 1 {
        let half = digits.len() / 2;
        let (first, second) = digits.split_at(half);
        digits = if first == second {
            first.to_vec()
        } else {
            total += half;
            first.iter().zip(second).map(|(x, y)| (x + y) % 2).collect()
        };
    }
    total + digits[0] as usize
}
