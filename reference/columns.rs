//! Random columns of terms (02, A5) for the lists of calls, and readings that get 21 for
//! one reason alone.

use crate::calls::{slip_of, Reading};
use crate::limits::*;
use crate::random::Random;
use crate::sequences::{modulus, not_below, set_cell, terms};

/// The most cells that the script's two bytes can say.
const MOST_CELLS: u64 = 32_767;

/// The bytes of a column for the reading held. Its terms are the next ones that are
/// planned, so that those taken stay a sequence of their kind, and others past these.
pub fn column(random: &mut Random, m: u64, held: &Reading, next: &[u64]) -> Vec<u8> {
    let room = TERMS_LIMIT.saturating_sub(usize::from(held.count));
    // A forged reading may have another modulus.
    let other = u64::from(held.modulus);
    let m = if (2..=MODULUS_LIMIT).contains(&other) { other } else { m };
    let (size, wrong) = shape(random, room, next.len());
    let more = terms(random, m, TERMS_LIMIT);
    let cells = next.iter().chain(more.iter().cycle()).take(size);
    let mut bytes: Vec<u8> = cells.flat_map(|&term| (term as u16).to_le_bytes()).collect();
    for place in wrong.into_iter().filter(|&place| place < size) {
        let value = not_below(random, m as u16);
        set_cell(&mut bytes, place, value);
    }
    if random.once_in(8) {
        odd(random, &mut bytes);
    }
    bytes
}

/// How many cells, and the places of those that are out of range. Most columns leave room
/// for others; more long ones are offered to an empty reading, which takes 128 of them.
fn shape(random: &mut Random, room: usize, planned: usize) -> (usize, Vec<usize>) {
    let near = room <= planned || room <= 8 || random.once_in(6);
    if room == TERMS_LIMIT && random.once_in(6) {
        (long(random), vec![])
    } else if near && random.once_in(2) {
        filling(random, room)
    } else {
        within(random, room, planned)
    }
}

/// Columns that reach the 128th term, or have one to reach it.
fn filling(random: &mut Random, room: usize) -> (usize, Vec<usize>) {
    let few = random.between(1, 8) as usize;
    match random.below(9) {
        0 => (room, vec![]),
        1 => (room + 1, vec![]),
        // 22 before 3: the wrong term is reached when 128 are held, or is not reached.
        2 => (room + few, vec![room]),
        3 => (room + 1 + few, vec![room + few]),
        // 3 with the largest place.
        4 => (room, vec![room.saturating_sub(1)]),
        5 => (room + few, vec![room.saturating_sub(1), room]),
        6 => (long(random), vec![random.place(room)]),
        _ => (long(random), vec![]),
    }
}

/// Columns that mostly leave room.
fn within(random: &mut Random, room: usize, planned: usize) -> (usize, Vec<usize>) {
    let few = random.between(1, 8) as usize;
    let size = random.pick(&[1, few, few, planned]).min(room);
    let last = size.saturating_sub(1);
    let any = random.place(size);
    match random.below(10) {
        0 => (0, vec![]),
        1..=4 => (size, vec![]),
        5 => (size + few, vec![0]),
        6 => (size, vec![last]),
        7 => (size + few, vec![any]),
        8 => (size + few, vec![any, size]),
        _ => (size, (any..size).collect()),
    }
}

/// More cells than a reading can take; seldom tens of thousands of bytes.
fn long(random: &mut Random) -> usize {
    let usual = random.pick(&[129, 200, 1000]);
    let most = random.between(10_001, MOST_CELLS);
    let cells = if random.once_in(8) { most } else { usual };
    cells as usize
}

/// Makes the number of bytes odd: one alone, one more, one less, seldom very many.
fn odd(random: &mut Random, bytes: &mut Vec<u8>) {
    let most = random.between(5_001, MOST_CELLS) as usize;
    match random.below(32) {
        0 => bytes.resize(CELL_BYTES * most, 1),
        1..=10 => bytes.clear(),
        _ => {}
    }
    if bytes.is_empty() || random.once_in(2) {
        bytes.push(random.byte());
    } else {
        bytes.pop();
    }
}

/// A reading with one fault: a bad modulus, a bad count, a term out of range, or something
/// past the count.
pub fn bad_reading(random: &mut Random) -> Vec<u8> {
    let m = modulus(random);
    let n = random.between(1, TERMS_LIMIT as u64 - 1) as usize;
    let mut reading = slip_of(m, &terms(random, m, n));
    let (cell, value) = match random.below(4) {
        0 => (0, random.pick(&[0, 1, 4096, 65535])),
        1 => (1, random.pick(&[129, 256, 65535])),
        2 => (2 + random.place(n), not_below(random, m as u16)),
        _ => (2 + n + random.place(TERMS_LIMIT - n), random.pick(&[1, 256, 65535])),
    };
    set_cell(&mut reading, cell, value);
    reading
}
