//! The answer of a line: the call is made, and its answer is written in the grammar of document 01, 'Lines'.

use crate::call::{call_of, fault_without_newline, Call};
use crate::names::Lists;
use crate::planner::refusal::Refusal;
use crate::planner::requests::{Entry, Place};
use crate::planner::{Calls, Turn, LIST};

/// More than the longest answer: a turn's six `take` lines, twenty-two `set` lines and `ok` have 665 bytes.
pub const LONGEST_ANSWER: usize = 1024;

/// A `set` line with zeros for its digits.
const SET_LINE: &[u8] = b"set\t0000\t0000000000000000\n";

/// Bytes on their way out, in a lent block.
pub struct Output<'a> {
    pub block: &'a mut [u8],
    pub used: usize,
}

impl Output<'_> {
    fn text(&mut self, text: &[u8]) {
        self.block[self.used..self.used + text.len()].copy_from_slice(text);
        self.used += text.len();
    }

    /// The next bytes of the block.
    fn next(&mut self, count: usize) -> &mut [u8] {
        self.used += count;
        &mut self.block[self.used - count..self.used]
    }

    /// A decimal without a leading zero.
    fn decimal(&mut self, number: u64) {
        let mut rest = number;
        for byte in self.next(width_of(number)).iter_mut().rev() {
            *byte = b'0' + (rest % 10) as u8;
            rest /= 10;
        }
    }

    fn take(&mut self, id: u64, counter: u8, register: u8) {
        self.text(b"take\t");
        self.decimal(id);
        self.text(&[b'\t', b'0' + counter, b'\t', register, b'\n']);
    }

    /// A `set` line. Most values are 0 or have a lower half alone: of those the zeros stand already.
    fn set(&mut self, address: u64, value: u64) {
        let line = self.next(SET_LINE.len());
        line.copy_from_slice(SET_LINE);
        put_hex(&mut line[4..8], address);
        if value >> 32 != 0 {
            put_hex(&mut line[9..17], value >> 32);
        }
        if value != 0 {
            put_hex(&mut line[17..25], value);
        }
    }

    /// A refusal's number and its field.
    fn refuse(&mut self, refusal: Refusal) {
        self.text(b"no\t");
        self.decimal(refusal.number as u64);
        self.text(&[b'\t', b'0' + refusal.field, b'\n']);
    }

    /// What a turn took, in the order taken, then its writes.
    fn turn(&mut self, turn: &Turn, list: &[u64]) {
        for (&Entry { id, .. }, place) in turn.taken.iter().zip(turn.places).take(turn.count) {
            match place {
                Place::Counter(counter) => self.take(id, counter, b'-'),
                Place::WithRsp(counter, rsp) => self.take(id, counter, b'0' + rsp),
                Place::Pair(first, second) => {
                    self.take(id, first, b'0');
                    self.take(id, second, b'1');
                }
            }
        }
        for write in list.chunks_exact(2).take(turn.writes) {
            self.set(write[0], write[1]);
        }
    }
}

/// The number of digits of a decimal.
fn width_of(number: u64) -> usize {
    let mut width = 1;
    let mut rest = number;
    while rest > 9 {
        rest /= 10;
        width += 1;
    }
    width
}

/// The lowest digits of a number in upper case hex.
fn put_hex(digits: &mut [u8], number: u64) {
    let mut rest = number;
    for digit in digits.iter_mut().rev() {
        *digit = b"0123456789ABCDEF"[(rest & 15) as usize];
        rest >>= 4;
    }
}

/// Makes the call of a line (without its newline) and writes the answer; there is room for the longest. Only a `named` line
/// looks at the lists.
pub fn answer(session: &mut impl Calls, lists: &impl Lists, line: &[u8], out: &mut Output) {
    let outcome = match call_of(line) {
        Err(field) => Err(Refusal::at(1, field)),
        Ok(Call::Open(opening)) => session.open(opening),
        Ok(Call::Add { id, request }) => session.add(id, request),
        Ok(Call::Named { id, name, allowed }) => lists.look_up(name).and_then(|row| session.add_named(id, row, allowed)),
        Ok(Call::Drop { id }) => session.drop(id),
        Ok(Call::Turn) => {
            let mut list = [0; LIST];
            session.turn(&mut list).map(|turn| out.turn(&turn, &list))
        }
    };
    match outcome {
        Ok(()) => out.text(b"ok\n"),
        Err(refusal) => out.refuse(refusal),
    }
}

/// The answer to the last line where its newline is missing.
#[allow(dead_code)] // by the programs that read no whole text
pub fn answer_unfinished(line: &[u8], out: &mut Output) {
    out.refuse(Refusal::at(1, fault_without_newline(line)));
}
