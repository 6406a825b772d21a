//! The feed that keeps what it needs: the session, and of an unfinished line its first 80 bytes. They are as little in the
//! grammar as a line that is too long, at the same field.

use super::{put, Feed};
use crate::answer::{answer, answer_unfinished, Output, LONGEST_ANSWER};
use crate::call::LINE_LIMIT;
use crate::names::road::EachTime;
use crate::names::Texts;
use crate::planner::refusal::Refusal;
use crate::planner::Calls;

#[derive(Clone)]
pub struct Kept<Session> {
    session: Session,
    line: Vec<u8>,
    ended: bool,
}

impl<Session: Calls> Kept<Session> {
    fn keep(&mut self, bytes: &[u8]) {
        let room = LINE_LIMIT - self.line.len();
        self.line.extend_from_slice(&bytes[..bytes.len().min(room)]);
    }

    /// Answers the line that is kept, and begins the next.
    fn close(&mut self, answers: &mut Vec<u8>) {
        let (mut block, no_names) = ([0; LONGEST_ANSWER], Texts::default());
        let mut out = Output { block: &mut block, used: 0 };
        answer(&mut self.session, &EachTime::of(&no_names), &self.line, &mut out);
        answers.extend_from_slice(&out.block[..out.used]);
        self.line.clear();
    }
}

/// The answer to an unfinished line; none to an empty one.
fn unfinished(line: &[u8]) -> Vec<u8> {
    let mut block = [0; LONGEST_ANSWER];
    let mut out = Output { block: &mut block, used: 0 };
    if !line.is_empty() {
        answer_unfinished(line, &mut out);
    }
    out.block[..out.used].to_vec()
}

impl<Session: Calls + Clone> Feed for Kept<Session> {
    fn new() -> Kept<Session> {
        Kept { session: Session::new(), line: Vec::new(), ended: false }
    }

    /// A copy takes the piece, so that it can be refused.
    fn piece(&mut self, text: &[u8], output: &mut [u8]) -> Result<usize, Refusal> {
        if self.ended {
            return Err(Refusal::whole(2));
        }
        let (mut after, mut answers) = (self.clone(), Vec::new());
        for part in text.split_inclusive(|&byte| byte == b'\n') {
            match part.strip_suffix(b"\n") {
                None => after.keep(part),
                Some(line) => {
                    after.keep(line);
                    after.close(&mut answers);
                }
            }
        }
        let count = put(&answers, output)?;
        *self = after;
        Ok(count)
    }

    fn end(&mut self, output: &mut [u8]) -> Result<usize, Refusal> {
        if self.ended {
            return Err(Refusal::whole(2));
        }
        let count = put(&unfinished(&self.line), output)?;
        (self.line, self.ended) = (Vec::new(), true);
        Ok(count)
    }
}
