//! Two roads to the requests that a turn takes and to their plan.

use super::left::{sets_after, Left};
use super::precise;
use super::search::first_plan;
use crate::planner::devices::Setup;
use crate::planner::requests::{Entry, Place, Request};
use crate::planner::Turn;

pub trait Road {
    /// Whether a request that no rule narrows has a place by itself.
    fn has_place(setup: &Setup, request: &Request) -> bool;

    /// Goes through the queue from the front, takes what has a plan together, and gives the places; tells where in the queue
    /// each stood that is taken. Requests are taken as they are asked for, and passed over where that is nothing.
    fn choose_from(
        setup: Setup,
        queue: &[Entry],
        asked: impl Fn(Request) -> Option<Request>,
        turn: &mut Turn,
        taken_at: impl FnMut(usize),
    );

    /// Whether a well-formed request has a plan alone.
    #[inline(always)]
    fn plans_alone(setup: Setup, request: Request) -> bool {
        match setup.device.has_precise() {
            false => Self::has_place(&setup, &request),
            true => Self::plans_precise(&setup, &request),
        }
    }

    /// The same where some events are precise.
    fn plans_precise(setup: &Setup, request: &Request) -> bool {
        precise::by_itself(setup, *request).is_some_and(|request| Self::has_place(setup, &request))
    }

    /// The requests that a turn takes from a queue in which each has a plan alone.
    #[inline(always)]
    fn choose(setup: Setup, queue: &[Entry], turn: &mut Turn, taken_at: impl FnMut(usize)) {
        match setup.device.has_precise() {
            false => Self::choose_from(setup, queue, Some, turn, taken_at),
            true => Self::choose_precise(setup, queue, turn, taken_at),
        }
    }

    #[inline(never)]
    fn choose_precise(setup: Setup, queue: &[Entry], turn: &mut Turn, taken_at: impl FnMut(usize)) {
        match precise::reachable(setup.device, queue) {
            head @ [_] => Self::choose_from(setup, head, |request| precise::by_itself(&setup, request), turn, taken_at),
            queue => Self::choose_from(setup, queue, |request| precise::beside(setup.device, request), turn, taken_at),
        }
    }
}

/// What is left of counters and of filter words decides what is taken, and a turn searches once.
#[derive(Clone)]
pub struct Fastest;

/// Whether there is a counter of each set, and not the same one.
fn pair_fits(first: u64, second: u64) -> bool {
    first != 0 && second != 0 && (first | second).count_ones() > 1
}

impl Road for Fastest {
    #[inline(always)]
    fn has_place(setup: &Setup, request: &Request) -> bool {
        match *request {
            Request::Event { allowed, .. } | Request::Packet { allowed, .. } | Request::Offcore { allowed, .. } => {
                allowed & setup.usable != 0
            }
            Request::Latency { first, second, .. } => pair_fits(first & setup.usable, second & setup.usable),
        }
    }

    #[inline(always)]
    fn choose_from(
        setup: Setup,
        queue: &[Entry],
        asked: impl Fn(Request) -> Option<Request>,
        turn: &mut Turn,
        mut taken_at: impl FnMut(usize),
    ) {
        let mut left = Left::all(setup.usable);
        for (place, entry) in queue.iter().enumerate() {
            if left.no_counter() {
                break;
            }
            if asked(entry.request).is_some_and(|request| left.take(request)) {
                turn.taken[turn.count] = *entry;
                turn.count += 1;
                taken_at(place);
            }
        }
        turn.places = first_plan(setup, &turn.taken[..turn.count]).expect("what is taken has a plan");
    }
}

/// The road of the proved planner: only where the sets of counters leave one is a plan looked for, with those taken. An event
/// extends their plan where a counter is free beside it; otherwise it is searched for.
#[derive(Clone)]
pub struct Proved;

/// The counters that a place uses.
fn counters_of(place: Place) -> u64 {
    match place {
        Place::Counter(k) | Place::WithRsp(k, _) => 1 << k,
        Place::Pair(j, k) => 1 << j | 1 << k,
    }
}

/// Takes an entry, asked for like this, behind the others if it has a plan with them.
#[inline(always)]
fn extend(setup: Setup, entry: &Entry, asked: Request, turn: &mut Turn) -> bool {
    let count = turn.count;
    turn.taken[count] = *entry;
    if let Request::Event { allowed, .. } = asked {
        let used = turn.places[..count].iter().fold(0, |used, &place| used | counters_of(place));
        let free = allowed & setup.usable & !used;
        if free != 0 {
            turn.places[count] = Place::Counter(free.trailing_zeros() as u8);
            turn.count += 1;
            return true;
        }
    }
    let Some(places) = first_plan(setup, &turn.taken[..count + 1]) else { return false };
    turn.places = places;
    turn.count += 1;
    true
}

impl Road for Proved {
    #[inline(always)]
    fn has_place(setup: &Setup, request: &Request) -> bool {
        match *request {
            Request::Event { allowed, .. } | Request::Packet { allowed, .. } | Request::Offcore { allowed, .. } => {
                allowed & setup.usable != 0
            }
            Request::Latency { .. } => first_plan(*setup, &[Entry { id: 0, request: *request }]).is_some(),
        }
    }

    fn choose_from(
        setup: Setup,
        queue: &[Entry],
        asked: impl Fn(Request) -> Option<Request>,
        turn: &mut Turn,
        mut taken_at: impl FnMut(usize),
    ) {
        let most = setup.usable.count_ones() as usize;
        let mut sets = 1 << setup.usable;
        for (place, entry) in queue.iter().enumerate() {
            if turn.count == most {
                break;
            }
            let Some(request) = asked(entry.request) else { continue };
            let left = sets_after(sets, request);
            if left != 0 && extend(setup, entry, request, turn) {
                sets = left;
                taken_at(place);
            }
        }
    }
}
