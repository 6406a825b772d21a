//! The write list of a plan, in the order of document 01, 'Writes, in order'. On B the register of the precise events comes just
//! before the last write (order 12).

use super::sandy_bridge::{enables, is_sandy_bridge};
use crate::planner::devices::{Filters, Setup};
use crate::planner::requests::{latency_words, Place, Request};
use crate::planner::{pebs, u_box};

/// An address and the value to write there.
pub type Write = (u64, u64);

/// The event word: code and unit mask beside the session's enable bits.
fn event_word(setup: Setup, code: u64, mask: u64) -> u64 {
    setup.enable() + 0x100 * mask + code
}

/// The counters that a request uses, each with its event word.
fn words_of(setup: Setup, request: Request, place: Place) -> Vec<(u8, u64)> {
    match (request, place) {
        (Request::Event { code, mask, .. }, Place::Counter(k)) => vec![(k, event_word(setup, code as u64, mask as u64))],
        (Request::Packet { .. }, Place::Counter(k)) => vec![(k, event_word(setup, 0, 0))],
        (Request::Offcore { .. }, Place::WithRsp(k, rsp)) => vec![(k, event_word(setup, 0xB7, rsp as u64 + 1))],
        (Request::Latency { .. }, Place::Pair(j, k)) => vec![(j, event_word(setup, 0xB7, 1)), (k, event_word(setup, 0xB7, 2))],
        _ => panic!("{place:?} is no place for {request:?}"),
    }
}

/// 01A6 then 01A7, 0 where unused.
fn offcore_response(requests: &[Request], plan: &[Place]) -> Vec<Write> {
    let mut held = [0; 2];
    for (request, place) in requests.iter().zip(plan) {
        match (*request, *place) {
            (Request::Offcore { word, .. }, Place::WithRsp(_, rsp)) => held[rsp as usize] = word,
            (Request::Latency { types, .. }, _) => held = latency_words(types),
            _ => {}
        }
    }
    vec![(0x1A6, held[0]), (0x1A7, held[1])]
}

/// MM_CFG = 0, and where a packet request is taken then MATCH, MASK, MM_CFG = 2^63.
fn packet_match(requests: &[Request]) -> Vec<Write> {
    for request in requests {
        if let Request::Packet { match_word, mask_word, .. } = *request {
            return vec![(0xE48, 0), (0xE49, match_word), (0xE4A, mask_word), (0xE48, 1 << 63)];
        }
    }
    vec![(0xE48, 0)]
}

/// The writes to the registers of the device itself.
fn device_list(setup: Setup, requests: &[Request], plan: &[Place]) -> Vec<Write> {
    let device = setup.device;
    let at = setup.addresses();
    let given = requests.iter().zip(plan);
    let mut words: Vec<(u8, u64)> = given.flat_map(|(request, place)| words_of(setup, *request, *place)).collect();
    words.sort();
    let usable = (0..device.counters).filter(|k| setup.usable >> k & 1 == 1);
    let used: u64 = words.iter().map(|(k, _)| 1 << k).sum();
    let filters = match device.filters {
        Filters::OffcoreResponse => offcore_response(requests, plan),
        Filters::PacketMatch => packet_match(requests),
        Filters::Absent => Vec::new(),
    };
    let mut list = vec![(at.global, setup.global(0))];
    list.extend(usable.map(|k| (at.control + at.step * k, 0)));
    list.extend(filters);
    list.extend(words.iter().map(|&(k, _)| (at.counter + at.step * k as u64, 0)));
    list.extend(words.iter().map(|&(k, word)| (at.control + at.step * k as u64, word)));
    if is_sandy_bridge(device) {
        list.push((pebs::ADDRESS, enables(requests)));
    }
    list.push((at.global, setup.global(used)));
    list
}

/// Order 7: where something is asked of an overflow, the U-Box register is written before and after, first with 0.
pub fn list_of(setup: Setup, requests: &[Request], plan: &[Place]) -> Vec<Write> {
    let list = device_list(setup, requests, plan);
    match setup.u_box() {
        None => list,
        Some(value) => [vec![(u_box::ADDRESS, 0)], list, vec![(u_box::ADDRESS, value)]].concat(),
    }
}
