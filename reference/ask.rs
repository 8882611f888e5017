//! Typed lines on standard input (02, A3): their end marks, and the answers to them.

use crate::calls::{check_slip, read_line, Sequence};
use crate::limits::SLIP_BYTES;
use crate::listing::{answer, answers};
use crate::refusals::Refusal;

/// The bytes of the longest line that is read, without its end mark.
pub const LINE_LIMIT: usize = 65_536;

/// The listing of the slips that the lines stand for; a refused line has its refusal.
pub fn ask(input: &[u8]) -> String {
    answers(queries(input), answer)
}

/// What each line of the input asks for, or why it asks for nothing.
pub fn queries(input: &[u8]) -> impl Iterator<Item = Result<Sequence, Refusal>> + '_ {
    lines(input).map(query)
}

/// The lines without their end marks. Nothing after the last line feed is no line.
pub fn lines(input: &[u8]) -> impl Iterator<Item = &[u8]> {
    input.split_inclusive(|&byte| byte == b'\n').map(without_end_mark)
}

/// An end mark is a line feed with or without a carriage return before it; a carriage
/// return elsewhere belongs to the line.
fn without_end_mark(piece: &[u8]) -> &[u8] {
    match piece.strip_suffix(b"\n") {
        Some(line) => line.strip_suffix(b"\r").unwrap_or(line),
        None => piece,
    }
}

/// 5 for a line that is too long, whatever it holds. "The result is a slip, and its answer
/// is the one a slip written by hand would get."
fn query(line: &[u8]) -> Result<Sequence, Refusal> {
    if line.len() > LINE_LIMIT {
        return Err(Refusal::Buffer);
    }
    let mut slip = [0; SLIP_BYTES];
    read_line(line, &mut slip)?;
    check_slip(&slip)
}
