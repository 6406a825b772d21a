//! The promises held to the lines of transcripts and their answers.

use crate::call::{call_of, Call};
use crate::names::model::Plain;
use crate::names::{Lists, Texts};
use crate::planner::devices::Setup;
use crate::planner::requests::Entry;
use crate::promises::{History, PromiseTally};

#[derive(Default)]
pub struct LinePromises {
    history: History,
    pub tally: PromiseTally,
}

/// The ids that a turn's answer takes.
fn plan_in(answered: &[u8]) -> Vec<u64> {
    let text = String::from_utf8_lossy(answered);
    let takes = text.lines().filter_map(|line| line.strip_prefix("take\t"));
    takes.map(|fields| fields.split('\t').next().expect("an id").parse().expect("a number")).collect()
}

/// The entry of an accepted add by a name.
fn named(texts: &Texts, id: u64, name: &[u8], allowed: u64) -> Entry {
    let row = Plain::of(texts).look_up(name).expect("good lists").expect("a row");
    Entry { id, request: row.request(allowed) }
}

impl LinePromises {
    /// A line without its newline, the lists that it was given with, and its answer. A transcript starts with an accepted open.
    pub fn count(&mut self, line: &[u8], texts: &Texts, answered: &[u8]) {
        if !answered.ends_with(b"ok\n") {
            return;
        }
        match call_of(line).expect("an accepted call") {
            Call::Open(opening) => self.history = History::starts(Setup::of(opening).expect("a setup"), &[]),
            Call::Add { id, request } => self.history.added(Entry { id, request }),
            Call::Named { id, name, allowed } => self.history.added(named(texts, id, name, allowed)),
            Call::Drop { id } => self.history.dropped(id),
            Call::Turn => self.history.turned(&plan_in(answered), &mut self.tally),
        }
    }
}
