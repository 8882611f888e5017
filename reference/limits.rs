//! The limits and sizes of document 01 and of requests A7 and A10 to A12 in 02, each in one place.

/// "m from 2 to 4,095": the largest legal modulus. The arithmetic is wide
/// enough for any value up to 65,535.
pub const MODULUS_LIMIT: u64 = 4095;

/// "n from 0 to 128": terms of a slip, terms of a reading, cells to run, l of a claim.
pub const TERMS_LIMIT: usize = 128;

/// "a to 129 cells and b to 128"; the profile has 129 cells as well.
pub const A_CELLS: usize = TERMS_LIMIT + 1;
pub const B_CELLS: usize = TERMS_LIMIT;
pub const PROFILE_CELLS: usize = TERMS_LIMIT + 1;

/// "A cell is two bytes, low byte first."
pub const CELL_BYTES: usize = 2;
pub const A_BYTES: usize = A_CELLS * CELL_BYTES;
pub const B_BYTES: usize = B_CELLS * CELL_BYTES;
pub const PROFILE_BYTES: usize = PROFILE_CELLS * CELL_BYTES;

/// "A slip is 260 bytes: modulus, count, 128 terms."
pub const SLIP_BYTES: usize = 260;

/// "A record is 776 bytes: the slip (0 to 259), length (260), a (262 to 519),
/// b (520 to 775)." 02, A7: "A record grows by two bytes to 778, the last two an
/// accession number"; so its place is where the record ended before.
pub const RECORD_BYTES: usize = 778;
pub const RECORD_LENGTH_AT: usize = 260;
pub const RECORD_A_AT: usize = 262;
pub const RECORD_B_AT: usize = 520;
pub const RECORD_NUMBER_AT: usize = 776;

/// 02, A7: "Serving is told 1 for an editor; any other number means a visitor."
pub const EDITOR: u64 = 1;

/// 02, A10: "period N = 1, 2, 4 up to 64, doubling"; "these seven".
pub const PERIODS: [usize; 7] = [1, 2, 4, 8, 16, 32, 64];

/// 02, A11: "m to the power n at most 4,096". It has nothing to do with the largest modulus, and
/// stays when that one changes.
pub const CENSUS_LIMIT: u64 = 4096;

/// 02, A11: "tallies the least lengths in 13 cells". 2 to the power 12 is 4,096, so that n is at
/// most 12.
pub const TALLY_CELLS: usize = 13;
pub const TALLY_BYTES: usize = TALLY_CELLS * CELL_BYTES;

/// 02, A12: "Up to 16 slips end to end".
pub const BUNDLE_LIMIT: usize = 16;

/// The step records of the longest sheet there can be: n times the sum of the e, and
/// that sum is at most 15, because 2^16 is above 65,535.
pub const SHEET_LIMIT: usize = TERMS_LIMIT * 15;
