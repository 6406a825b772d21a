//! Legal plans, and the first of them: places are tried in their order, and what they make together is judged as a plan.

use super::sandy_bridge;
use crate::planner::devices::{Device, Setup};
use crate::planner::requests::{latency_words, Place, Request};

/// The places that there are for a request, in their order: by counter (a pair's first, then its second), then by register.
pub fn places_for(device: &Device, request: Request) -> Vec<Place> {
    let counters = 0..device.counters as u8;
    match request {
        Request::Event { .. } | Request::Packet { .. } => counters.map(Place::Counter).collect(),
        Request::Offcore { .. } => counters.flat_map(|k| [Place::WithRsp(k, 0), Place::WithRsp(k, 1)]).collect(),
        Request::Latency { .. } => counters.clone().flat_map(|j| counters.clone().map(move |k| Place::Pair(j, k))).collect(),
    }
}

fn has(set: u64, counter: u8) -> bool {
    set >> counter & 1 == 1
}

/// Whether the counters of a place are usable and allowed, and those of a pair differ.
fn fits(usable: u64, request: Request, place: Place) -> bool {
    let may = |counter, allowed| has(usable, counter) && has(allowed, counter);
    match (request, place) {
        (Request::Event { allowed, .. }, Place::Counter(k)) => may(k, allowed),
        (Request::Packet { allowed, .. }, Place::Counter(k)) => may(k, allowed),
        (Request::Offcore { allowed, .. }, Place::WithRsp(k, _)) => may(k, allowed),
        (Request::Latency { first, second, .. }, Place::Pair(j, k)) => j != k && may(j, first) && may(k, second),
        _ => false,
    }
}

/// The counters of a place, as a set.
fn counters_of(place: Place) -> u64 {
    match place {
        Place::Counter(k) | Place::WithRsp(k, _) => 1 << k,
        Place::Pair(j, k) => 1 << j | 1 << k,
    }
}

/// The word that a request asks of an RSP register.
fn rsp_word(request: Request, place: Place, rsp: u8) -> Option<u64> {
    match (request, place) {
        (Request::Offcore { word, .. }, Place::WithRsp(_, at)) if at == rsp => Some(word),
        (Request::Latency { types, .. }, _) => Some(latency_words(types)[rsp as usize]),
        _ => None,
    }
}

fn packet_words(request: Request) -> Option<(u64, u64)> {
    match request {
        Request::Packet { match_word, mask_word, .. } => Some((match_word, mask_word)),
        _ => None,
    }
}

/// Whether not both ask, or both ask the same.
fn same<T: PartialEq>(one: Option<T>, other: Option<T>) -> bool {
    one.is_none() || other.is_none() || one == other
}

/// Whether two requests can be in one plan at these places.
fn agree(one: (Request, Place), other: (Request, Place)) -> bool {
    counters_of(one.1) & counters_of(other.1) == 0
        && (0..2).all(|rsp| same(rsp_word(one.0, one.1, rsp), rsp_word(other.0, other.1, rsp)))
        && same(packet_words(one.0), packet_words(other.0))
}

/// Document 01: "legal". The plan gives places to the first requests; it is legal by what holds of each and of every two, and on
/// B by the rules of two events.
pub fn legal(setup: Setup, requests: &[Request], plan: &[Place]) -> bool {
    let given: Vec<(Request, Place)> = requests.iter().copied().zip(plan.iter().copied()).collect();
    given.iter().all(|&(request, place)| fits(setup.usable, request, place))
        && (0..given.len()).all(|i| given[..i].iter().all(|&earlier| agree(earlier, given[i])))
        && sandy_bridge::keeps_rules(setup, &given)
}

/// The first legal plan that begins with these places.
fn first_from(setup: Setup, requests: &[Request], plan: &mut Vec<Place>) -> bool {
    if plan.len() == requests.len() {
        return true;
    }
    for place in places_for(setup.device, requests[plan.len()]) {
        plan.push(place);
        if legal(setup, requests, plan) && first_from(setup, requests, plan) {
            return true;
        }
        plan.pop();
    }
    false
}

/// How many counters a request needs.
fn needed(request: &Request) -> u32 {
    match request {
        Request::Latency { .. } => 2,
        _ => 1,
    }
}

/// The first legal plan. It is not looked for where more counters are needed than are usable: with hundreds waiting, most turns
/// would end in such searches.
pub fn first_plan(setup: Setup, requests: &[Request]) -> Option<Vec<Place>> {
    if requests.iter().map(needed).sum::<u32>() > setup.usable.count_ones() {
        return None;
    }
    let mut plan = Vec::new();
    first_from(setup, requests, &mut plan).then_some(plan)
}
