//! What is promised to a request that waits: demand 3, the shorter promise of order 14, and promises that nobody makes, each of
//! which some history must break.

use crate::planner::devices::Setup;
use crate::planner::requests::{Entry, Request};

/// A request that waits, and those ahead of it.
pub struct Waits<'a> {
    pub setup: Setup,
    pub ahead: &'a [Entry],
    pub mine: Request,
}

/// A promise by its name: whether it is made, and the number of completed turns in one of which the request is, if it speaks of it.
pub struct Promise {
    pub name: &'static str,
    pub made: bool,
    pub turns: fn(&Waits) -> Option<u64>,
}

const fn made(name: &'static str, turns: fn(&Waits) -> Option<u64>) -> Promise {
    Promise { name, made: true, turns }
}

const fn not_made(name: &'static str, turns: fn(&Waits) -> Option<u64>) -> Promise {
    Promise { name, made: false, turns }
}

pub const PROMISES: [Promise; 9] = [
    made("p + 1", |waits| Some(waits.p() + 1)),
    made("p ÷ u + 1 behind free events", |waits| waits.is_meant().then(|| waits.rounds())),
    not_made("p", |waits| Some(waits.p())),
    not_made("p ÷ u behind free events", |waits| waits.is_meant().then(|| waits.p() / waits.u())),
    not_made("(p + 1) ÷ u behind free events", |waits| waits.is_meant().then(|| (waits.p() + 1) / waits.u())),
    not_made("p ÷ u + 1 for two counters", |waits| {
        (waits.is_shorter() && waits.all_free() && !waits.needs_one()).then(|| waits.rounds())
    }),
    not_made("p ÷ u + 1 behind pinned events", |waits| {
        (waits.is_shorter() && waits.needs_one() && waits.all(is_event)).then(|| waits.rounds())
    }),
    not_made("p ÷ u + 1 behind filters that allow all", |waits| {
        (waits.is_shorter() && waits.needs_one() && waits.all_allow_all()).then(|| waits.rounds())
    }),
    not_made("p ÷ u + 1 on B", |waits| (!waits.is_shorter() && waits.all_free() && waits.needs_one()).then(|| waits.rounds())),
];

fn is_event(request: Request) -> bool {
    matches!(request, Request::Event { .. })
}

/// The counters that a request for one of them allows.
fn allowed(request: Request) -> Option<u64> {
    match request {
        Request::Event { allowed, .. } | Request::Packet { allowed, .. } | Request::Offcore { allowed, .. } => Some(allowed),
        Request::Latency { .. } => None,
    }
}

impl Waits<'_> {
    fn p(&self) -> u64 {
        self.ahead.len() as u64
    }

    fn u(&self) -> u64 {
        self.setup.usable.count_ones() as u64
    }

    fn rounds(&self) -> u64 {
        self.p() / self.u() + 1
    }

    fn all(&self, test: impl Fn(Request) -> bool) -> bool {
        self.ahead.iter().all(|entry| test(entry.request))
    }

    /// Those ahead each need one counter, and any usable one will do.
    fn all_allow_all(&self) -> bool {
        self.all(|request| allowed(request).is_some_and(|allowed| self.setup.usable & !allowed == 0))
    }

    fn all_free(&self) -> bool {
        self.all(is_event) && self.all_allow_all()
    }

    fn needs_one(&self) -> bool {
        allowed(self.mine).is_some()
    }

    /// Whether the device is one of those that the shorter promise speaks of.
    fn is_shorter(&self) -> bool {
        [b'G', b'S', b'C'].contains(&self.setup.device.letter)
    }

    /// Order 14: every request ahead is an event that allows all usable counters, and this one needs one.
    fn is_meant(&self) -> bool {
        self.is_shorter() && self.all_free() && self.needs_one()
    }
}
