//! The byte script of calls, and its replay as text. README.md has the format.

use crate::calls::{self, Counts, Reading, Reported, Served, Verdict};
use crate::limits::{SHEET_LIMIT, SLIP_BYTES};
use crate::refusals::Refusal;
use crate::steps::StepRecord;

pub const HEADER_BYTES: usize = 16;

/// The operations, each with its number in byte 0 of the header.
#[derive(Clone, Copy, PartialEq, Eq, Debug)]
pub enum Operation {
    Open = 0,
    Push = 1,
    Register = 2,
    Profile = 3,
    Verify = 4,
    Generate = 5,
    Synthesize = 6,
    LookUp = 7,
    Forge = 8,
    Trace = 9,
    ReadLine = 10,
    PushAll = 11,
    Merge = 12,
    PeriodLength = 13,
    Enumerate = 14,
    Tally = 15,
    LookUpBatch = 16,
}

const OPERATIONS: [(Operation, &str); 17] = [
    (Operation::Open, "open"),
    (Operation::Push, "push"),
    (Operation::Register, "register"),
    (Operation::Profile, "profile"),
    (Operation::Verify, "verify"),
    (Operation::Generate, "generate"),
    (Operation::Synthesize, "synthesize"),
    (Operation::LookUp, "look_up"),
    (Operation::Forge, "forge"),
    (Operation::Trace, "trace"),
    (Operation::ReadLine, "read_line"),
    (Operation::PushAll, "push_all"),
    (Operation::Merge, "merge"),
    (Operation::PeriodLength, "period_length"),
    (Operation::Enumerate, "enumerate"),
    (Operation::Tally, "tally"),
    (Operation::LookUpBatch, "look_up_batch"),
];

/// One call of a script. `number` is the modulus, the term, the l of a test, who asks in
/// a serving or the records of a sheet; `l` is the l of a run, or how many replies a bundle
/// has room for. The payload is the bytes of buffers, or the numbers of a call of the census.
#[derive(Clone, PartialEq, Eq, Debug)]
pub struct Call {
    pub operation: Operation,
    pub fill: u8,
    pub number: u32,
    pub lengths: [u16; 3],
    pub l: u16,
    pub payload: Vec<u8>,
}

impl Call {
    /// Which of the three buffers have their bytes in the payload; the others are
    /// lent filled with the fill byte.
    fn in_payload(operation: Operation) -> [bool; 3] {
        match operation {
            Operation::Verify => [true, true, true],
            Operation::Generate
            | Operation::LookUp
            | Operation::Merge
            | Operation::LookUpBatch => [true, true, false],
            Operation::Synthesize
            | Operation::Forge
            | Operation::ReadLine
            | Operation::PushAll
            | Operation::PeriodLength => [true, false, false],
            _ => [false, false, false],
        }
    }

    /// The bytes of the numbers that the payload has where the header has no room for them: a
    /// count of terms, and a sequence's number after it.
    fn numbers_in_payload(operation: Operation) -> usize {
        match operation {
            Operation::Enumerate => 12,
            Operation::Tally => 4,
            _ => 0,
        }
    }

    pub fn bytes(&self) -> Vec<u8> {
        let mut bytes = vec![self.operation as u8, self.fill, 0, 0];
        bytes.extend(self.number.to_le_bytes());
        for length in self.lengths {
            bytes.extend(length.to_le_bytes());
        }
        bytes.extend(self.l.to_le_bytes());
        bytes.extend(&self.payload);
        bytes
    }

    /// The first call of the script and how many bytes it has, or why there is none.
    pub fn parse(script: &[u8]) -> Result<(Call, usize), String> {
        let header = script.get(..HEADER_BYTES).ok_or("cut short")?;
        let pair = |at: usize| u16::from_le_bytes([header[at], header[at + 1]]);
        let named = OPERATIONS.get(header[0] as usize);
        let (operation, _) = *named.ok_or(format!("unknown {}", header[0]))?;
        let mut call = Call {
            operation,
            fill: header[1],
            number: u32::from_le_bytes([header[4], header[5], header[6], header[7]]),
            lengths: [pair(8), pair(10), pair(12)],
            l: pair(14),
            payload: Vec::new(),
        };
        // A reading that is forged has exactly the bytes of a slip.
        if operation == Operation::Forge && call.lengths[0] as usize != SLIP_BYTES {
            return Err(String::from("bad forge"));
        }
        let held = Call::in_payload(operation);
        let lent: usize = (0..3).filter(|&i| held[i]).map(|i| call.lengths[i] as usize).sum();
        let size = lent + Call::numbers_in_payload(operation);
        let payload = script.get(HEADER_BYTES..HEADER_BYTES + size).ok_or("cut short")?;
        call.payload = payload.to_vec();
        Ok((call, HEADER_BYTES + size))
    }

    /// The three buffers as they are lent.
    pub fn buffers(&self) -> [Vec<u8>; 3] {
        let held = Call::in_payload(self.operation);
        let mut at = 0;
        let mut buffers = [Vec::new(), Vec::new(), Vec::new()];
        for (i, buffer) in buffers.iter_mut().enumerate() {
            let length = self.lengths[i] as usize;
            if held[i] {
                buffer.extend(&self.payload[at..at + length]);
                at += length;
            } else {
                buffer.resize(length, self.fill);
            }
        }
        buffers
    }

    /// The replies of a bundle as they are lent, eight fill bytes each; no other call has any.
    pub fn replies(&self) -> Vec<u64> {
        let has = self.operation == Operation::LookUpBatch;
        vec![u64::from_le_bytes([self.fill; 8]); if has { self.l as usize } else { 0 }]
    }
}

/// The number that up to eight bytes give, low byte first.
fn low_first(bytes: &[u8]) -> u64 {
    bytes.iter().rev().fold(0, |number, &byte| number << 8 | u64::from(byte))
}

/// FNV-1a with 32 bits.
pub fn hash(bytes: &[u8]) -> u32 {
    let step = |state: u32, &byte: &u8| (state ^ u32::from(byte)).wrapping_mul(0x0100_0193);
    bytes.iter().fold(0x811c_9dc5, step)
}

/// A reading as its 260 bytes: modulus, count, 128 terms.
pub fn reading_bytes(reading: &Reading) -> Vec<u8> {
    let mut bytes = Vec::new();
    bytes.extend(reading.modulus.to_le_bytes());
    bytes.extend(reading.count.to_le_bytes());
    for term in reading.terms {
        bytes.extend(term.to_le_bytes());
    }
    bytes
}

/// The reading with these 260 bytes, whatever they hold.
pub fn reading_from(bytes: &[u8]) -> Reading {
    let numbers = calls::cells(bytes);
    let mut reading = calls::zero_reading();
    reading.modulus = numbers[0] as u16;
    reading.count = numbers[1] as u16;
    for (cell, &number) in reading.terms.iter_mut().zip(&numbers[2..]) {
        *cell = number as u16;
    }
    reading
}

/// The expected text, and whether the script was whole. The reading held at the
/// start is the one of zeros.
pub fn replay(script: &[u8]) -> (String, bool) {
    let mut text = String::new();
    let mut reading = calls::zero_reading();
    let mut rest = script;
    while !rest.is_empty() {
        match Call::parse(rest) {
            Ok((call, size)) => {
                text.push_str(&line(&call, &mut reading));
                text.push('\n');
                rest = &rest[size..];
            }
            Err(fault) => {
                text.push_str(&format!("script {fault}\n"));
                return (text, false);
            }
        }
    }
    (text, true)
}

/// The name, the reply, and a hash for each writable thing that was lent, and for a column
/// of the list too, which "still keeps its content", as do the cells of a period.
pub fn line(call: &Call, reading: &mut Reading) -> String {
    let (mut buffers, mut replies) = (call.buffers(), call.replies());
    let reply = match perform(call, reading, &mut buffers, &mut replies) {
        Ok(reply) => reply,
        Err(refusal) => refusal.to_string(),
    };
    let replies: Vec<u8> = replies.into_iter().flat_map(u64::to_le_bytes).collect();
    let [first, second, third] = &buffers;
    let held = reading_bytes(reading);
    let hashed: Vec<&Vec<u8>> = match call.operation {
        Operation::Open | Operation::Push | Operation::Forge => vec![&held],
        Operation::Register => vec![first, second],
        Operation::Profile
        | Operation::PeriodLength
        | Operation::Enumerate
        | Operation::Tally => vec![first],
        Operation::Verify => vec![],
        Operation::Generate | Operation::LookUp | Operation::Merge => vec![third],
        Operation::Synthesize | Operation::ReadLine => vec![second],
        Operation::Trace => vec![first, second, third],
        Operation::PushAll => vec![&held, first],
        Operation::LookUpBatch => vec![third, &replies],
    };
    let mut line = format!("{} {}", OPERATIONS[call.operation as usize].1, reply);
    for bytes in hashed {
        line.push_str(&format!(" {:08x}", hash(bytes)));
    }
    line
}

/// Makes the call and words its reply.
fn perform(
    call: &Call,
    reading: &mut Reading,
    [first, second, third]: &mut [Vec<u8>; 3],
    replies: &mut [u64],
) -> Result<String, Refusal> {
    let ok = |_: ()| String::from("ok");
    let who = u64::from(call.number);
    match call.operation {
        Operation::Open | Operation::Forge => {
            let (held, outcome) = replaced(call, first);
            *reading = held;
            outcome.map(ok)
        }
        Operation::Push => calls::push(reading, call.number).map(ok),
        Operation::Register => calls::register(reading, first, second).map(reported_word),
        Operation::Profile => calls::profile(reading, first).map(ok),
        Operation::Verify => calls::verify(first, second, third, call.number).map(verdict_word),
        Operation::Generate => {
            calls::generate(call.number, first, second, u32::from(call.l), third).map(ok)
        }
        Operation::Synthesize => calls::synthesize(first, second).map(ok),
        Operation::LookUp => calls::look_up(first, second, who, third).map(served_word),
        Operation::Trace => {
            let (outcome, filled) = traced(call, reading, first, second);
            *third = filled;
            outcome.map(reported_word)
        }
        Operation::ReadLine => calls::read_line(first, second).map(ok),
        Operation::PushAll => Ok(column_word(calls::push_all(reading, first))),
        Operation::Merge => calls::merge(first, second, third).map(ok),
        Operation::PeriodLength => calls::period_length(first).map(length_word),
        Operation::Enumerate | Operation::Tally => counted(call, first).map(ok),
        Operation::LookUpBatch => {
            calls::look_up_batch(first, second, who, third, replies).map(counts_word)
        }
    }
}

/// The reading that is held after an opening or a forging.
fn replaced(call: &Call, bytes: &[u8]) -> (Reading, Result<(), Refusal>) {
    match call.operation {
        Operation::Open => calls::open(call.number),
        _ => (reading_from(bytes), Ok(())),
    }
}

/// Makes a call of the census: the count of terms is in the payload, and a sequence's number
/// comes after it.
fn counted(call: &Call, buffer: &mut [u8]) -> Result<(), Refusal> {
    let (count, number) = call.payload.split_at(4);
    let count = low_first(count) as u32;
    match call.operation {
        Operation::Enumerate => calls::enumerate(call.number, count, low_first(number), buffer),
        _ => calls::tally(call.number, count, buffer),
    }
}

/// Makes a tracing; its outcome, and the bytes of the records that were filled. The
/// script may tell of more room than there is memory for. What is past the longest
/// sheet would only stay as it is, so it is not lent.
fn traced(
    call: &Call,
    reading: &Reading,
    a: &mut [u8],
    b: &mut [u8],
) -> (Result<Reported, Refusal>, Vec<u8>) {
    let lent = StepRecord::of([u32::from_le_bytes([call.fill; 4]); 8]);
    let mut sheet = vec![lent; (call.number as usize).min(SHEET_LIMIT)];
    let outcome = calls::trace(reading, a, b, &mut sheet);
    // A filled record is not as lent: no prime power here has four equal bytes.
    let filled = sheet.into_iter().filter(|record| *record != lent);
    (outcome, filled.flat_map(record_bytes).collect())
}

/// The eight numbers of a record, four bytes each, low byte first.
pub fn record_bytes(record: StepRecord) -> Vec<u8> {
    record.numbers().into_iter().flat_map(u32::to_le_bytes).collect()
}

fn reported_word((length, only): Reported) -> String {
    format!("length {length} {only}")
}

fn length_word(length: usize) -> String {
    format!("length {length}")
}

/// A refused column too tells how many were taken.
fn column_word((taken, outcome): (usize, Result<(), Refusal>)) -> String {
    let ended = outcome.map_or_else(|refusal| refusal.to_string(), |()| String::from("ok"));
    format!("taken {taken} {ended}")
}

fn verdict_word(verdict: Verdict) -> String {
    match verdict {
        Verdict::Yes => String::from("yes"),
        Verdict::No(place) => format!("no {place}"),
    }
}

fn counts_word(Counts { found, made, refused }: Counts) -> String {
    format!("found {found} made {made} refused {refused}")
}

fn served_word(served: Served) -> String {
    match served {
        Served::Found(index) => format!("found {index}"),
        Served::Made => String::from("made"),
    }
}
