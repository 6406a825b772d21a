//! The session behind `&mut`: its queue lies in a fixed array, and every call changes it in place.

use super::lent::LentOn;
use super::road::{Fastest, Proved, Road};
use super::writes::write_list;
use crate::planner::devices::{Opening, Setup};
use crate::planner::refusal::Refusal;
use crate::planner::requests::{refusal_of, Entry, NamedEvent, Place, Request, VACANT};
use crate::planner::{Calls, Turn, LIMIT, LIST, PLACES, SHIFT};
use std::marker::PhantomData;

#[derive(Clone)]
pub struct SessionOn<R> {
    setup: Option<Setup>,
    queue: [Entry; LIMIT],
    waiting: usize,
    road: PhantomData<R>,
}

/// The session on the fastest road known.
pub type Session = SessionOn<Fastest>;
/// The session on the road of the proved planner.
pub type SameRoad = SessionOn<Proved>;

impl<R> SessionOn<R> {
    fn position(&self, id: u64) -> Option<usize> {
        self.queue[..self.waiting].iter().position(|entry| entry.id == id)
    }

    /// What every add checks first: 2, 4 and 5.
    fn setup_for(&self, id: u64) -> Result<Setup, Refusal> {
        let setup = self.setup.ok_or(Refusal::whole(2))?;
        if id == 0 || id > 65535 {
            return Err(Refusal::at(4, 1));
        }
        match self.position(id) {
            Some(_) => Err(Refusal::at(5, 1)),
            None => Ok(setup),
        }
    }

    /// Those passed over close up, and the taken ones go behind them.
    fn requeue(&mut self, at: u64, taken: &[Entry]) {
        let mut passed = 0;
        for place in 0..self.waiting {
            if at >> place & 1 == 0 {
                self.queue[passed] = self.queue[place];
                passed += 1;
            }
        }
        self.queue[passed..self.waiting].copy_from_slice(taken);
    }
}

impl<R: Road> Calls for SessionOn<R> {
    type Lent = LentOn<R>;

    fn new() -> SessionOn<R> {
        SessionOn { setup: None, queue: [VACANT; LIMIT], waiting: 0, road: PhantomData }
    }

    fn queue(&self) -> &[Entry] {
        &self.queue[..self.waiting]
    }

    fn open(&mut self, opening: Opening) -> Result<(), Refusal> {
        if self.setup.is_some() {
            return Err(Refusal::whole(2));
        }
        self.setup = Some(Setup::of(opening)?);
        Ok(())
    }

    /// Inlined in both of its places: with a call of its own every add would be slower.
    #[inline(always)]
    fn add(&mut self, id: u64, request: Request) -> Result<(), Refusal> {
        let setup = self.setup_for(id)?;
        if let Some(refusal) = refusal_of(setup.device, request) {
            return Err(refusal);
        }
        if !R::plans_alone(setup, request) {
            return Err(Refusal::whole(12));
        }
        if self.waiting == LIMIT {
            return Err(Refusal::whole(13));
        }
        self.queue[self.waiting] = Entry { id, request };
        self.waiting += 1;
        Ok(())
    }

    /// A row of this device goes the way of every add; what the name is refused with comes behind the first checks.
    fn add_named(&mut self, id: u64, row: Option<NamedEvent>, allowed: u64) -> Result<(), Refusal> {
        match (self.setup, row) {
            (Some(setup), Some(row)) if row.letter == setup.device.letter => {
                self.add(id, row.request(allowed)).map_err(Refusal::by_name)
            }
            (_, Some(_)) => self.setup_for(id).and(Err(Refusal::whole(7))),
            (_, None) => self.setup_for(id).and(Err(Refusal::at(8, 2))),
        }
    }

    fn drop(&mut self, id: u64) -> Result<(), Refusal> {
        self.setup.ok_or(Refusal::whole(2))?;
        if id == 0 || id > 65535 {
            return Err(Refusal::at(4, 1));
        }
        let at = self.position(id).ok_or(Refusal::at(6, 1))?;
        self.queue.copy_within(at + 1..self.waiting, at);
        self.waiting -= 1;
        Ok(())
    }

    fn turn(&mut self, list: &mut [u64]) -> Result<Turn, Refusal> {
        let setup = self.setup.ok_or(Refusal::whole(2))?;
        let mut turn = Turn { taken: [VACANT; PLACES], places: [Place::Counter(0); PLACES], count: 0, writes: 0 };
        let mut at = 0;
        R::choose(setup, self.queue(), &mut turn, |place| at |= 1 << place);
        let taken = &turn.taken[..turn.count];
        turn.writes = write_list(setup, taken, &turn.places, list).ok_or(Refusal::whole(14))?;
        self.requeue(at, taken);
        Ok(turn)
    }

    /// A copy makes the turns first, to tell how long their lists are; then each is written where the last one ended.
    fn turns(&mut self, count: u64, lists: &mut [u64], ends: &mut [u64]) -> Result<(), Refusal> {
        self.setup.ok_or(Refusal::whole(2))?;
        if count > SHIFT {
            return Err(Refusal::at(10, 1));
        }
        let mut copy = SessionOn::<R> { road: PhantomData, ..*self };
        let mut needed = 0;
        for _ in 0..count {
            needed += 2 * copy.turn(&mut [0; LIST])?.writes;
        }
        if lists.len() < needed || ends.len() < count as usize {
            return Err(Refusal::whole(14));
        }
        let mut end = 0;
        for place in &mut ends[..count as usize] {
            end += 2 * self.turn(&mut lists[end..])?.writes;
            *place = end as u64;
        }
        Ok(())
    }
}
