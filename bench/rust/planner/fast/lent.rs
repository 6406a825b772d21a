//! The lent session (order 8): the queue lies in the rows that the host lends, and every call changes them in place.

use super::road::{Fastest, Proved, Road};
use super::rules::{lendable, waiting};
use super::writes::write_list;
use crate::planner::devices::{Opening, Setup};
use crate::planner::refusal::Refusal;
use crate::planner::requests::{refusal_of, Entry, Place, Request, VACANT};
use crate::planner::{LentCalls, Turn, PLACES};
use std::marker::PhantomData;

pub struct LentOn<R> {
    setup: Option<Setup>,
    road: PhantomData<R>,
}

/// The lent session on the fastest road known.
pub type Lent = LentOn<Fastest>;
/// The lent session on the road of the proved planner.
pub type SameRoad = LentOn<Proved>;

impl<R> Clone for LentOn<R> {
    fn clone(&self) -> LentOn<R> {
        LentOn { setup: self.setup, road: PhantomData }
    }
}

impl<R: Road> LentOn<R> {
    /// The setup and the number of rows that wait, where the session is open and the rows break no rule.
    fn judged(&self, rows: &[Entry]) -> Result<(Setup, usize), Refusal> {
        let setup = self.setup.ok_or(Refusal::whole(2))?;
        Ok((setup, waiting::<R>(setup, rows).ok_or(Refusal::whole(3))?))
    }
}

fn position(queue: &[Entry], id: u64) -> Option<usize> {
    queue.iter().position(|row| row.id == id)
}

/// Those passed over close up, stretch by stretch, and the taken ones go behind them.
fn requeue(queue: &mut [Entry], taken_at: &[usize], taken: &[Entry]) {
    let ends = taken_at.iter().skip(1).copied().chain([queue.len()]);
    for (before, (&at, end)) in taken_at.iter().zip(ends).enumerate() {
        queue.copy_within(at + 1..end, at - before);
    }
    let passed = queue.len() - taken.len();
    queue[passed..].copy_from_slice(taken);
}

impl<R: Road> LentCalls for LentOn<R> {
    fn new() -> LentOn<R> {
        LentOn { setup: None, road: PhantomData }
    }

    fn open(&mut self, rows: &mut [Entry], opening: Opening) -> Result<(), Refusal> {
        if self.setup.is_some() {
            return Err(Refusal::whole(2));
        }
        if !lendable(rows) {
            return Err(Refusal::whole(3));
        }
        self.setup = Some(Setup::of(opening)?);
        rows.fill(VACANT);
        Ok(())
    }

    fn add(&self, rows: &mut [Entry], id: u64, request: Request) -> Result<(), Refusal> {
        let (setup, count) = self.judged(rows)?;
        if id == 0 || id > 65535 {
            return Err(Refusal::at(4, 1));
        }
        if position(&rows[..count], id).is_some() {
            return Err(Refusal::at(5, 1));
        }
        if let Some(refusal) = refusal_of(setup.device, request) {
            return Err(refusal);
        }
        if !R::plans_alone(setup, request) {
            return Err(Refusal::whole(12));
        }
        *rows.get_mut(count).ok_or(Refusal::whole(13))? = Entry { id, request };
        Ok(())
    }

    fn drop(&self, rows: &mut [Entry], id: u64) -> Result<(), Refusal> {
        let (_, count) = self.judged(rows)?;
        if id == 0 || id > 65535 {
            return Err(Refusal::at(4, 1));
        }
        let at = position(&rows[..count], id).ok_or(Refusal::at(6, 1))?;
        rows.copy_within(at + 1..count, at);
        rows[count - 1] = VACANT;
        Ok(())
    }

    fn turn(&self, rows: &mut [Entry], list: &mut [u64]) -> Result<Turn, Refusal> {
        let (setup, count) = self.judged(rows)?;
        let queue = &mut rows[..count];
        let mut turn = Turn { taken: [VACANT; PLACES], places: [Place::Counter(0); PLACES], count: 0, writes: 0 };
        let (mut taken_at, mut marked) = ([0; PLACES], 0);
        R::choose(setup, queue, &mut turn, |at| {
            taken_at[marked] = at;
            marked += 1;
        });
        let taken = &turn.taken[..turn.count];
        turn.writes = write_list(setup, taken, &turn.places, list).ok_or(Refusal::whole(14))?;
        requeue(queue, &taken_at[..marked], taken);
        Ok(turn)
    }
}
