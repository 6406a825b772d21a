//! The answers of a whole transcript, line by line from the model. The grammar is held to its table at each line.
#![allow(dead_code)]

use crate::answer::{answer, answer_unfinished, Output, LONGEST_ANSWER};
use crate::call::{call_of, fault_without_newline};
use crate::grammar;
use crate::names::model::Plain;
use crate::names::Texts;
use crate::planner::model::Session;
use crate::planner::Calls;

/// All answers of a transcript, and how many bytes of them there are after each newline of it.
pub struct Expected {
    pub bytes: Vec<u8>,
    pub after: Vec<usize>,
}

/// Whether a line is in the grammar, or where it is not, by its table as by the reader of lines.
fn check_grammar(line: &[u8], newline: bool) {
    let read = if newline { call_of(line).err() } else { Some(fault_without_newline(line)) };
    assert_eq!(read.map(usize::from), grammar::fault(line, newline), "{}", line.escape_ascii());
}

/// Answers a transcript with these lists, and shows of each line the session before it, its bytes, with its newline if it has
/// one, and its answer.
pub fn expected(transcript: &[u8], texts: &Texts, mut show: impl FnMut(&Session, &[u8], &[u8])) -> Expected {
    let mut session = Session::new();
    let lists = Plain::of(texts);
    let mut block = [0; LONGEST_ANSWER];
    let mut expected = Expected { bytes: Vec::new(), after: Vec::new() };
    for part in transcript.split_inclusive(|&byte| byte == b'\n') {
        let before = session.clone();
        let mut out = Output { block: &mut block, used: 0 };
        let line = part.strip_suffix(b"\n");
        check_grammar(line.unwrap_or(part), line.is_some());
        match line {
            Some(line) => answer(&mut session, &lists, line, &mut out),
            None => answer_unfinished(part, &mut out),
        }
        let answered = &out.block[..out.used];
        show(&before, part, answered);
        expected.bytes.extend_from_slice(answered);
        if line.is_some() {
            expected.after.push(expected.bytes.len());
        }
    }
    expected
}
