//! Demand 3 and order 14 held to what calls were answered: a plain queue is fed the accepted calls, and at every place of a
//! history the promises to each request that waits are read off it.

pub mod table;

use crate::planner::devices::Setup;
use crate::planner::requests::Entry;
use table::{Waits, PROMISES};

/// A request that waits, and of each promise the turns in one of which it is due.
#[derive(Clone)]
struct Waiting {
    entry: Entry,
    due: [Option<u64>; PROMISES.len()],
}

/// How often a promise was kept, and how often it was broken.
#[derive(Clone, Copy, Default)]
struct Count {
    kept: u64,
    broken: u64,
}

/// Counts of all histories that they were given to.
#[derive(Default)]
pub struct PromiseTally {
    counts: [Count; PROMISES.len()],
}

/// The plain queue of a history, closed or with what the accepted open was given.
#[derive(Default)]
pub struct History {
    setup: Option<Setup>,
    queue: Vec<Waiting>,
}

fn waiting(entry: &Entry) -> Waiting {
    Waiting { entry: *entry, due: [None; PROMISES.len()] }
}

fn earlier(one: Option<u64>, other: Option<u64>) -> Option<u64> {
    one.into_iter().chain(other).min()
}

impl History {
    /// A history that starts with this queue.
    pub fn starts(setup: Setup, queue: &[Entry]) -> History {
        let mut history = History { setup: Some(setup), queue: queue.iter().map(waiting).collect() };
        history.promise();
        history
    }

    pub fn added(&mut self, entry: Entry) {
        self.queue.push(waiting(&entry));
        self.promise();
    }

    pub fn dropped(&mut self, id: u64) {
        self.queue.retain(|waiting| waiting.entry.id != id);
        self.promise();
    }

    /// A completed turn whose plan has these ids: those passed over stand first, then the taken ones.
    pub fn turned(&mut self, ids: &[u64], tally: &mut PromiseTally) {
        let (taken, mut passed): (Vec<Waiting>, Vec<Waiting>) =
            self.queue.drain(..).partition(|waiting| ids.contains(&waiting.entry.id));
        taken.iter().for_each(|waiting| tally.taken(waiting));
        passed.iter_mut().for_each(|waiting| tally.passed_over(waiting));
        passed.extend(taken.iter().map(|taken| waiting(&taken.entry)));
        self.queue = passed;
        self.promise();
    }

    /// What is promised to each at this place, beside what was promised before.
    fn promise(&mut self) {
        let Some(setup) = self.setup else { return };
        let entries: Vec<Entry> = self.queue.iter().map(|waiting| waiting.entry).collect();
        for (at, waiting) in self.queue.iter_mut().enumerate() {
            let waits = Waits { setup, ahead: &entries[..at], mine: waiting.entry.request };
            for (due, promise) in waiting.due.iter_mut().zip(PROMISES) {
                *due = earlier(*due, (promise.turns)(&waits).filter(|turns| *turns > 0));
            }
        }
    }
}

impl PromiseTally {
    fn taken(&mut self, waiting: &Waiting) {
        for (count, due) in self.counts.iter_mut().zip(waiting.due) {
            count.kept += due.is_some() as u64;
        }
    }

    /// One turn less for what is due; where none is left the promise is broken.
    fn passed_over(&mut self, waiting: &mut Waiting) {
        for ((count, promise), due) in self.counts.iter_mut().zip(PROMISES).zip(&mut waiting.due) {
            let broken = *due == Some(1);
            assert!(!(broken && promise.made), "BROKEN: {} to {:?}", promise.name, waiting.entry);
            count.broken += broken as u64;
            *due = due.map(|turns| turns - 1).filter(|turns| *turns > 0);
        }
    }

    pub fn print(&self) {
        println!("{:58}{:>8}{:>8}", "promises", "kept", "broken");
        for (promise, Count { kept, broken }) in PROMISES.iter().zip(self.counts) {
            println!("{:58}{kept:>8}{broken:>8}", promise.name);
        }
    }

    /// What is promised was kept, and what is not was broken, or the check says too little.
    pub fn nothing_missed(&self) {
        for (promise, Count { kept, broken }) in PROMISES.iter().zip(self.counts) {
            assert!(if promise.made { kept > 0 } else { broken > 0 }, "never tried: {}", promise.name);
        }
    }
}
