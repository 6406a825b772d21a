//! The lent session as order 8 words it: each call does what a session with as many places as there are rows would do on the
//! queue that the rows stand for.

use super::{rules, setup_of, Session};
use crate::planner::devices::{Opening, Setup};
use crate::planner::refusal::Refusal;
use crate::planner::requests::{Entry, Request, VACANT};
use crate::planner::{Calls, LentCalls, Turn, RECORDS};

#[derive(Clone)]
pub struct Lent {
    pub setup: Option<Setup>,
}

/// Whether so many records can be lent.
fn lendable(rows: &[Entry]) -> bool {
    (1..=RECORDS).contains(&rows.len())
}

/// The waiting ones first, and vacant ones behind them.
fn put_back(rows: &mut [Entry], queue: &[Entry]) {
    rows.fill(VACANT);
    rows[..queue.len()].copy_from_slice(queue);
}

impl Lent {
    /// Makes a call of that session, and puts its queue into the rows where it is accepted.
    fn through<T>(&self, rows: &mut [Entry], call: impl FnOnce(&mut Session) -> Result<T, Refusal>) -> Result<T, Refusal> {
        let setup = self.setup.ok_or(Refusal::whole(2))?;
        if !lendable(rows) || !rules::sound(setup, rows) {
            return Err(Refusal::whole(3));
        }
        let queue = rules::waiting(rows).copied().collect();
        let mut session = Session { setup: self.setup, queue, limit: rows.len() };
        let answer = call(&mut session)?;
        put_back(rows, &session.queue);
        Ok(answer)
    }
}

impl LentCalls for Lent {
    fn new() -> Lent {
        Lent { setup: None }
    }

    fn open(&mut self, rows: &mut [Entry], opening: Opening) -> Result<(), Refusal> {
        match self.setup {
            Some(_) => return Err(Refusal::whole(2)),
            None if !lendable(rows) => return Err(Refusal::whole(3)),
            None => self.setup = Some(setup_of(opening)?),
        }
        put_back(rows, &[]);
        Ok(())
    }

    fn add(&self, rows: &mut [Entry], id: u64, request: Request) -> Result<(), Refusal> {
        self.through(rows, |session| session.add(id, request))
    }

    fn drop(&self, rows: &mut [Entry], id: u64) -> Result<(), Refusal> {
        self.through(rows, |session| session.drop(id))
    }

    fn turn(&self, rows: &mut [Entry], list: &mut [u64]) -> Result<Turn, Refusal> {
        self.through(rows, |session| session.turn(list))
    }
}
