//! The line program in Rust, written from documents 01 and 02: lines on standard input, answers on standard output.
//! `line_program [SITE HOUSE]`, where the two files are the lists of names.
//! With `--cfg same_road` it takes the road of the proved planner, otherwise the fastest one known.
//! One session behind `&mut`, its queue in a fixed array; two fixed blocks; no heap between the first line and the last.

mod answer;
mod call;
#[path = "../names/mod.rs"]
mod names;
#[path = "../planner/mod.rs"]
mod planner;

use answer::{answer, answer_unfinished, Output, LONGEST_ANSWER};
use call::LINE_LIMIT;
#[cfg(not(same_road))]
use names::index::Index as NamesOf;
#[cfg(same_road)]
use names::road::EachTime as NamesOf;
use names::{files, Lists};
#[cfg(same_road)]
use planner::fast::session::SameRoad as Session;
#[cfg(not(same_road))]
use planner::fast::session::Session;
use planner::Calls;
use std::fs::File;
use std::io::{ErrorKind, Read, Result, Write};
use std::mem::ManuallyDrop;
use std::os::fd::FromRawFd;

const BLOCK: usize = 64 * 1024;

/// The bytes that came, or none at the end of the input.
fn read(input: &mut File, room: &mut [u8]) -> Result<usize> {
    loop {
        match input.read(room) {
            Err(error) if error.kind() == ErrorKind::Interrupted => {}
            outcome => return outcome,
        }
    }
}

fn flush(output: &mut File, out: &mut Output) -> Result<()> {
    output.write_all(&out.block[..out.used])?;
    out.used = 0;
    Ok(())
}

/// Where the first line ends. A call of its own: inside the loop of lines each byte takes an instruction more.
#[inline(never)]
fn line_end(bytes: &[u8]) -> Option<usize> {
    bytes.iter().position(|&byte| byte == b'\n')
}

/// Answers every line. An unfinished line waits at the front of the block, of an overlong one its first 80 bytes: they are as
/// little in the grammar as the whole line, at the same field.
fn answer_lines(input: &mut File, output: &mut File, lists: &impl Lists) -> Result<()> {
    let mut session = Session::new();
    let mut block = [0; LINE_LIMIT + BLOCK];
    let mut out = Output { block: &mut [0; BLOCK], used: 0 };
    let mut held = 0;
    loop {
        let count = read(input, &mut block[held..held + BLOCK])?;
        if count == 0 {
            break;
        }
        let mut rest = &block[..held + count];
        while let Some(length) = line_end(rest) {
            answer(&mut session, lists, &rest[..length], &mut out);
            rest = &rest[length + 1..];
            if out.block.len() - out.used < LONGEST_ANSWER {
                flush(output, &mut out)?;
            }
        }
        let start = held + count - rest.len();
        held = rest.len().min(LINE_LIMIT);
        block.copy_within(start..start + held, 0);
        flush(output, &mut out)?;
    }
    if held > 0 {
        answer_unfinished(&block[..held], &mut out);
    }
    flush(output, &mut out)
}

fn main() {
    let texts = files::given("line_program");
    let lists = NamesOf::of(&texts);
    // The two files stay open: they are the process's, not ours.
    let (input, output) = unsafe { (File::from_raw_fd(0), File::from_raw_fd(1)) };
    // A closed output ends the program quietly: nobody is left to be told.
    let _ = answer_lines(&mut ManuallyDrop::new(input), &mut ManuallyDrop::new(output), &lists);
}
