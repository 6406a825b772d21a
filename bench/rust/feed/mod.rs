//! The field feed (order 13): a text that comes in pieces of any size, and its declared end. Here the lists of names are empty.
//! `whole` says what is answered; `kept` keeps of the text at most 80 bytes.

pub mod kept;
pub mod whole;

use crate::planner::fast::road::Road;
use crate::planner::fast::session::SessionOn;
use crate::planner::refusal::Refusal;
use crate::planner::{model, Calls};

/// The calls of a feed. The answers go to the front of the lent output, and the call tells how many bytes they have. Refuses
/// with 2 after the end, then with 14 where the answers do not fit; a refused call changes nothing.
pub trait Feed: Clone {
    fn new() -> Self;
    fn piece(&mut self, text: &[u8], output: &mut [u8]) -> Result<usize, Refusal>;
    fn end(&mut self, output: &mut [u8]) -> Result<usize, Refusal>;
}

/// A planner that lines can be fed to.
pub trait Fed: Calls {
    type Feed: Feed;
}

impl Fed for model::Session {
    type Feed = whole::Whole;
}

impl<R: Road + Clone> Fed for SessionOn<R> {
    type Feed = kept::Kept<SessionOn<R>>;
}

/// Puts the answers of a call into its output.
fn put(answers: &[u8], output: &mut [u8]) -> Result<usize, Refusal> {
    output.get_mut(..answers.len()).ok_or(Refusal::whole(14))?.copy_from_slice(answers);
    Ok(answers.len())
}
