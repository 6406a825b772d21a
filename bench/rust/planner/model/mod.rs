//! The slow clear model: the answers as document 01 words them, with lists on the heap and a search for every candidate.
//! The stored outputs of the program crates come from it, and the fast planner is compared with it. It is never timed.

pub mod applied;
pub mod c_box;
mod checks;
pub mod lent;
pub mod plan;
pub mod reader;
pub mod rules;
pub mod sandy_bridge;
pub mod writes;

use super::devices::{Opening, Setup};
use super::refusal::Refusal;
use super::requests::{Entry, NamedEvent, Place, Request, VACANT};
use super::{Calls, Turn, LIMIT, LIST, PLACES, SHIFT};
pub use checks::{refusal_of, setup_of};
use plan::first_plan;

#[derive(Clone)]
pub struct Session {
    pub setup: Option<Setup>,
    pub queue: Vec<Entry>,
    /// The most requests that can wait.
    pub limit: usize,
}

pub fn requests_of(entries: &[Entry]) -> Vec<Request> {
    entries.iter().map(|entry| entry.request).collect()
}

/// The refusal of an event where its name is typed (order 11): what is at its code or its mask is at the name, and the set
/// stands one field before that of an event.
fn in_named_line(Refusal { number, field }: Refusal) -> Refusal {
    match field {
        3 => Refusal { number, field: 2 },
        4 => Refusal { number, field: 3 },
        _ => Refusal { number, field },
    }
}

/// The requests taken and those passed over. A request is taken exactly when it and those already taken have a plan.
pub fn select(setup: Setup, queue: &[Entry]) -> (Vec<Entry>, Vec<Entry>) {
    let (mut taken, mut passed) = (Vec::new(), Vec::new());
    for &entry in queue {
        taken.push(entry);
        if first_plan(setup, &requests_of(&taken)).is_none() {
            taken.pop();
            passed.push(entry);
        }
    }
    (taken, passed)
}

fn turn_of(taken: &[Entry], plan: &[Place], writes: usize) -> Turn {
    let mut turn = Turn { taken: [VACANT; PLACES], places: [Place::Counter(0); PLACES], count: taken.len(), writes };
    turn.taken[..taken.len()].copy_from_slice(taken);
    turn.places[..plan.len()].copy_from_slice(plan);
    turn
}

impl Session {
    /// What every add checks first: 2, 4 and 5.
    fn setup_for(&self, id: u64) -> Result<Setup, Refusal> {
        let setup = self.setup.ok_or(Refusal::whole(2))?;
        if id == 0 || id > 65535 {
            return Err(Refusal::at(4, 1));
        }
        if self.queue.iter().any(|entry| entry.id == id) {
            return Err(Refusal::at(5, 1));
        }
        Ok(setup)
    }
}

impl Calls for Session {
    type Lent = lent::Lent;

    fn new() -> Session {
        Session { setup: None, queue: Vec::new(), limit: LIMIT }
    }

    fn queue(&self) -> &[Entry] {
        &self.queue
    }

    fn open(&mut self, opening: Opening) -> Result<(), Refusal> {
        if self.setup.is_some() {
            return Err(Refusal::whole(2));
        }
        self.setup = Some(setup_of(opening)?);
        Ok(())
    }

    fn add(&mut self, id: u64, request: Request) -> Result<(), Refusal> {
        let setup = self.setup_for(id)?;
        if let Some(refusal) = refusal_of(setup.device, request) {
            return Err(refusal);
        }
        if first_plan(setup, &[request]).is_none() {
            return Err(Refusal::whole(12));
        }
        if self.queue.len() >= self.limit {
            return Err(Refusal::whole(13));
        }
        self.queue.push(Entry { id, request });
        Ok(())
    }

    fn add_named(&mut self, id: u64, row: Option<NamedEvent>, allowed: u64) -> Result<(), Refusal> {
        let setup = self.setup_for(id)?;
        let row = row.ok_or(Refusal::at(8, 2))?;
        if row.letter != setup.device.letter {
            return Err(Refusal::whole(7));
        }
        self.add(id, row.request(allowed)).map_err(in_named_line)
    }

    fn drop(&mut self, id: u64) -> Result<(), Refusal> {
        self.setup.ok_or(Refusal::whole(2))?;
        if id == 0 || id > 65535 {
            return Err(Refusal::at(4, 1));
        }
        if self.queue.iter().all(|entry| entry.id != id) {
            return Err(Refusal::at(6, 1));
        }
        self.queue.retain(|entry| entry.id != id);
        Ok(())
    }

    fn turn(&mut self, list: &mut [u64]) -> Result<Turn, Refusal> {
        let setup = self.setup.ok_or(Refusal::whole(2))?;
        let (taken, passed) = select(setup, &self.queue);
        let requests = requests_of(&taken);
        let plan = first_plan(setup, &requests).expect("what is taken has a plan");
        let writes = writes::list_of(setup, &requests, &plan);
        if list.len() < 2 * writes.len() {
            return Err(Refusal::whole(14));
        }
        for (pair, (address, value)) in list.chunks_mut(2).zip(&writes) {
            pair.copy_from_slice(&[*address, *value]);
        }
        self.queue = [passed, taken.clone()].concat();
        Ok(turn_of(&taken, &plan, writes.len()))
    }

    /// The single turns are made by a copy of the session, each into a slice of its own; only then are both lengths judged.
    fn turns(&mut self, count: u64, lists: &mut [u64], ends: &mut [u64]) -> Result<(), Refusal> {
        self.setup.ok_or(Refusal::whole(2))?;
        if count > SHIFT {
            return Err(Refusal::at(10, 1));
        }
        let (mut after, mut written, mut places) = (self.clone(), Vec::new(), Vec::new());
        for _ in 0..count {
            let mut list = [0; LIST];
            let turn = after.turn(&mut list)?;
            written.extend_from_slice(&list[..2 * turn.writes]);
            places.push(written.len() as u64);
        }
        if lists.len() < written.len() || ends.len() < places.len() {
            return Err(Refusal::whole(14));
        }
        lists[..written.len()].copy_from_slice(&written);
        ends[..places.len()].copy_from_slice(&places);
        *self = after;
        Ok(())
    }
}
