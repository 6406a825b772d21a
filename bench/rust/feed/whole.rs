//! The feed as order 13 words it: however the text is cut, its answers are those of the whole text given at once. So each call
//! answers all that came before it anew, and gives what that is longer by.

use super::{put, Feed};
use crate::expected::expected;
use crate::names::Texts;
use crate::planner::refusal::Refusal;

#[derive(Clone)]
pub struct Whole {
    /// All that was accepted.
    pub text: Vec<u8>,
    pub ended: bool,
}

/// The answers to a text, and how many bytes of them are due before its end is declared.
fn answers(text: &[u8]) -> (Vec<u8>, usize) {
    let expected = expected(text, &Texts::default(), |_, _, _| {});
    let due = expected.after.last().copied().unwrap_or(0);
    (expected.bytes, due)
}

impl Feed for Whole {
    fn new() -> Whole {
        Whole { text: Vec::new(), ended: false }
    }

    fn piece(&mut self, text: &[u8], output: &mut [u8]) -> Result<usize, Refusal> {
        if self.ended {
            return Err(Refusal::whole(2));
        }
        let longer = [&self.text, text].concat();
        let (_, before) = answers(&self.text);
        let (all, due) = answers(&longer);
        let count = put(&all[before..due], output)?;
        self.text = longer;
        Ok(count)
    }

    fn end(&mut self, output: &mut [u8]) -> Result<usize, Refusal> {
        if self.ended {
            return Err(Refusal::whole(2));
        }
        let (all, before) = answers(&self.text);
        let count = put(&all[before..], output)?;
        self.ended = true;
        Ok(count)
    }
}
