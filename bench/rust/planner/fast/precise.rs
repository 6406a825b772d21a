//! Precise events (order 12) on the way of the others: each allows the counter that it runs on alone, and one that must be
//! alone is taken at the head of the queue, or not at all.

use crate::planner::devices::{Device, Setup};
use crate::planner::pebs::row_of;
use crate::planner::requests::{Entry, Request, VACANT};
use crate::planner::PLACES;

/// A request with what its rule leaves of the counters that it allows; none where it must be alone and may not be here.
#[inline(always)]
fn narrowed(device: &Device, request: Request, alone: bool) -> Option<Request> {
    match (row_of(device.precise, request), request) {
        (Some(row), _) if row.alone && !alone => None,
        (Some(row), Request::Event { code, mask, allowed }) => {
            Some(Request::Event { code, mask, allowed: allowed & 1 << row.counter })
        }
        _ => Some(request),
    }
}

/// A request as it stands by itself; none where somebody else's counter could not be quieted for it.
#[inline(always)]
pub fn by_itself(setup: &Setup, request: Request) -> Option<Request> {
    narrowed(setup.device, request, setup.usable == setup.device.all())
}

/// A request as it stands beside others; none where it must be alone.
#[inline(always)]
pub fn beside(device: &Device, request: Request) -> Option<Request> {
    narrowed(device, request, false)
}

/// Requests as the search takes them; none where one that must be alone is not.
pub fn searched(setup: Setup, entries: &[Entry]) -> Option<[Entry; PLACES]> {
    let mut searched = [VACANT; PLACES];
    for (place, entry) in searched.iter_mut().zip(entries) {
        let request = match entries.len() {
            1 => by_itself(&setup, entry.request)?,
            _ => beside(setup.device, entry.request)?,
        };
        *place = Entry { id: entry.id, request };
    }
    Some(searched)
}

/// The part of a queue that a turn can take from: the head where it must be alone.
pub fn reachable<'a>(device: &Device, queue: &'a [Entry]) -> &'a [Entry] {
    match queue {
        [head, ..] if beside(device, head.request).is_none() => &queue[..1],
        _ => queue,
    }
}
