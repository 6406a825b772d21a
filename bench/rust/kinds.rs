//! Kinds of turns that a wrong planner would stumble over.

use crate::planner::devices::Setup;
use crate::planner::model::plan::{first_plan, legal, places_for};
use crate::planner::model::sandy_bridge::{is_pdir, is_precise_store, is_sandy_bridge};
use crate::planner::model::{requests_of, select};
use crate::planner::requests::{Entry, Place, Request};
use crate::planner::LIMIT;

/// A turn: the queue before it, what it takes with its plan, and what it passes over.
pub struct Turned {
    setup: Setup,
    queue: Vec<Entry>,
    taken: Vec<Entry>,
    passed: Vec<Entry>,
    requests: Vec<Request>,
    plan: Vec<Place>,
}

type Test = fn(&Turned) -> bool;

pub const KINDS: [(&str, Test); 22] = [
    ("the queue is full", |turned| turned.queue.len() == LIMIT),
    ("one is taken behind one passed over", Turned::skips),
    ("first fit without going back gets stuck", Turned::first_fit_stuck),
    ("one waits by its words alone", Turned::words_refuse),
    ("a pair waits, and one behind it is taken", Turned::pair_skipped),
    ("latency and offcore together", |turned| turned.takes(is_latency) > 0 && turned.takes(is_offcore) > 0),
    ("offcore makes room for a latency behind it", Turned::offcore_in_second),
    ("two offcore words", |turned| turned.registers() == [true; 2] && turned.takes(is_latency) == 0),
    ("two requests on one filter register", Turned::shares),
    ("fixed counters are on", |turned| turned.setup.fixed != 0),
    ("more than four requests are taken", |turned| turned.taken.len() > 4),
    ("a box that is not the first", |turned| turned.setup.box_number != 0),
    ("an overflow only freezes", |turned| turned.setup.freeze != 0 && turned.setup.core.is_none()),
    ("an overflow only interrupts a core", |turned| turned.setup.freeze == 0 && turned.setup.core.is_some()),
    ("an overflow does both", |turned| turned.setup.freeze != 0 && turned.setup.core.is_some()),
    ("nothing asked on the uncore", |turned| turned.setup.device.uncore && !turned.setup.asks()),
    ("all wait behind an event that must be alone", |turned| turned.has_pdir(&turned.taken) && !turned.passed.is_empty()),
    ("an event that must be alone waits", |turned| turned.has_pdir(&turned.passed) && !turned.has_pdir(&turned.taken)),
    ("two events that must be alone", |turned| turned.has_pdir(&turned.taken) && turned.has_pdir(&turned.passed)),
    ("a precise store beside others", |turned| turned.has_store(&turned.taken) && turned.taken.len() > 1),
    ("a precise store waits for another", |turned| turned.has_store(&turned.taken) && turned.has_store(&turned.passed)),
    ("a precise store, and a counter of others", |turned| turned.has_store(&turned.taken) && turned.setup.others() != 0),
];

fn is_latency(request: &Request) -> bool {
    matches!(request, Request::Latency { .. })
}

fn is_offcore(request: &Request) -> bool {
    matches!(request, Request::Offcore { .. })
}

fn is_packet(request: &Request) -> bool {
    matches!(request, Request::Packet { .. })
}

/// A request for the same counters that no filter word can refuse.
fn without_words(request: Request) -> Request {
    match request {
        Request::Packet { allowed, .. } | Request::Offcore { allowed, .. } => Request::Event { code: 0, mask: 0, allowed },
        Request::Latency { first, second, .. } => Request::Latency { types: 1, first, second },
        event => event,
    }
}

impl Turned {
    /// The turn that a session with this setup and queue makes.
    pub fn of(setup: Setup, queue: &[Entry]) -> Turned {
        let (taken, passed) = select(setup, queue);
        let requests = requests_of(&taken);
        let plan = first_plan(setup, &requests).expect("what is taken has a plan");
        Turned { setup, queue: queue.to_vec(), taken, passed, requests, plan }
    }

    fn takes(&self, kind: fn(&Request) -> bool) -> usize {
        self.requests.iter().filter(|request| kind(request)).count()
    }

    fn has(&self, entries: &[Entry], kind: fn(Request) -> bool) -> bool {
        is_sandy_bridge(self.setup.device) && entries.iter().any(|entry| kind(entry.request))
    }

    fn has_pdir(&self, entries: &[Entry]) -> bool {
        self.has(entries, is_pdir)
    }

    fn has_store(&self, entries: &[Entry]) -> bool {
        self.has(entries, is_precise_store)
    }

    /// Those taken are not the front of the queue.
    fn skips(&self) -> bool {
        !self.queue.starts_with(&self.taken)
    }

    /// Each taken request at its first place beside those before it, until one has none.
    fn first_fit_stuck(&self) -> bool {
        let mut plan = Vec::new();
        for request in &self.requests {
            let fits = |place: &Place| legal(self.setup, &self.requests, &[plan.clone(), vec![*place]].concat());
            match places_for(self.setup.device, *request).into_iter().find(fits) {
                Some(place) => plan.push(place),
                None => return true,
            }
        }
        false
    }

    /// A request passed over would have its counters beside all that is taken.
    fn words_refuse(&self) -> bool {
        self.passed.iter().any(|entry| {
            let all: Vec<Request> = self.requests.iter().chain([&entry.request]).copied().map(without_words).collect();
            first_plan(self.setup, &all).is_some()
        })
    }

    fn pair_skipped(&self) -> bool {
        let waits = |entry: &Entry| is_latency(&entry.request) && self.passed.contains(entry);
        let first = self.queue.iter().position(waits);
        first.is_some_and(|at| self.queue[at..].iter().any(|entry| self.taken.contains(entry)))
    }

    /// The first offcore request has RSP1, though no other offcore word is before it.
    fn offcore_in_second(&self) -> bool {
        let first = self.plan.iter().zip(&self.requests).find(|(_, request)| is_offcore(request) || is_latency(request));
        first.is_some_and(|(place, _)| matches!(place, Place::WithRsp(_, 1)))
    }

    /// The registers that offcore requests have.
    fn registers(&self) -> [bool; 2] {
        [0, 1].map(|rsp| self.plan.iter().any(|place| matches!(place, Place::WithRsp(_, at) if *at == rsp)))
    }

    fn shares(&self) -> bool {
        let registers = self.registers().iter().filter(|used| **used).count();
        self.takes(is_offcore) > registers || self.takes(is_packet) > 1 || self.takes(is_latency) > 1
    }
}
