//! The reader: register values back to what each counter counts.

use super::sandy_bridge::{enables, is_sandy_bridge, keeps_rules};
use super::{refusal_of, setup_of};
use crate::planner::devices::{Filters, Opening, Setup};
use crate::planner::requests::{latency_words, Place, Request, OUTSTANDING};
use crate::planner::PLACES;

/// The values that the reader is given; what a device does not have is not looked at.
#[derive(Clone, Copy, PartialEq, Eq, Debug)]
pub struct Registers {
    pub control: [u64; PLACES],
    pub rsp: [u64; 2],
    pub mm_cfg: u64,
    pub match_word: u64,
    pub mask_word: u64,
    pub global: u64,
    pub u_box: u64,
    pub pebs: u64,
}

#[derive(Clone, Copy, PartialEq, Eq, Debug)]
pub enum State {
    NotOurs,
    Off,
    Counts { code: u64, mask: u64, register: Option<u64>, words: [Option<u64>; 2] },
}

/// What a usable counter with this control value does; nothing where no request gives it the value.
fn state_of(setup: Setup, r: &Registers, word: u64) -> Option<State> {
    let (enable, code, mask) = (word & !0xFFFF, word & 0xFF, word >> 8 & 0xFF);
    let counts = |register, words| Some(State::Counts { code, mask, register, words });
    match (setup.device.filters, code, mask) {
        _ if word == 0 => Some(State::Off),
        _ if enable != setup.enable() => None,
        (Filters::OffcoreResponse, 0xB7, 1 | 2) => counts(Some(mask - 1), [Some(r.rsp[mask as usize - 1]), None]),
        (Filters::PacketMatch, 0, 0) => counts(None, [Some(r.match_word), Some(r.mask_word)]),
        _ => {
            let event = Request::Event { code: code as u8, mask: mask as u8, allowed: 0 };
            match refusal_of(setup.device, event) {
                None => counts(None, [None, None]),
                Some(_) => None,
            }
        }
    }
}

/// How many counters count each RSP register, and how many the packets.
fn users_of(states: &[State]) -> ([u64; 2], u64) {
    let (mut on, mut packets) = ([0, 0], 0);
    for state in states {
        match state {
            State::Counts { register: Some(i), .. } => on[*i as usize] += 1,
            State::Counts { register: None, words: [Some(_), _], .. } => packets += 1,
            _ => {}
        }
    }
    (on, packets)
}

/// Whether RSP0 holds a latency request's word, with its other word in RSP1 and a counter on RSP1 for each on RSP0.
fn latency_held(setup: Setup, r: &Registers, on: [u64; 2]) -> bool {
    let types = r.rsp[0] & !OUTSTANDING;
    types <= 0xFFFF
        && refusal_of(setup.device, Request::Latency { types: types as u16, first: 0, second: 0 }).is_none()
        && r.rsp == latency_words(types as u16)
        && on[0] <= on[1]
}

fn filters_held(setup: Setup, r: &Registers, states: &[State]) -> bool {
    let (on, packets) = users_of(states);
    let offcore = |word| refusal_of(setup.device, Request::Offcore { word, allowed: 0 }).is_none();
    let packet = Request::Packet { match_word: r.match_word, mask_word: r.mask_word, allowed: 0 };
    match setup.device.filters {
        Filters::OffcoreResponse => {
            (if on[1] == 0 { r.rsp[1] == 0 } else { offcore(r.rsp[1]) })
                && (if on[0] == 0 { r.rsp[0] == 0 } else { offcore(r.rsp[0]) || latency_held(setup, r, on) })
        }
        Filters::PacketMatch if packets == 0 => r.mm_cfg == 0,
        Filters::PacketMatch => r.mm_cfg == 1 << 63 && refusal_of(setup.device, packet).is_none(),
        Filters::Absent => true,
    }
}

/// The events that count, each at its counter.
fn counted(states: &[State]) -> Vec<(Request, Place)> {
    let event = |(k, state): (usize, &State)| match *state {
        State::Counts { code, mask, .. } => {
            Some((Request::Event { code: code as u8, mask: mask as u8, allowed: 1 << k }, Place::Counter(k as u8)))
        }
        _ => None,
    };
    states.iter().enumerate().filter_map(event).collect()
}

/// Order 12: what counts on B keeps the rules of its two events, and their register is as a turn would leave it.
fn precise_held(setup: Setup, r: &Registers, states: &[State]) -> bool {
    let given = counted(states);
    let requests: Vec<Request> = given.iter().map(|(request, _)| *request).collect();
    !is_sandy_bridge(setup.device) || keeps_rules(setup, &given) && r.pebs == enables(&requests)
}

/// What the reader answers: the state of each counter, or the number of the refusal, which is no check of a request and has no
/// field: 3 for every opening that is refused. The U-Box register is looked at only where something is asked of an overflow.
pub fn read(opening: Opening, r: &Registers) -> Result<Vec<State>, u64> {
    let setup = setup_of(opening).map_err(|_| 3u64)?;
    let mut states = Vec::new();
    let mut used = 0;
    for k in 0..setup.device.counters {
        states.push(match setup.usable >> k & 1 {
            0 => State::NotOurs,
            _ => state_of(setup, r, r.control[k as usize]).ok_or(15u64)?,
        });
        if let State::Counts { .. } = states[k as usize] {
            used |= 1 << k;
        }
    }
    let enabled = r.global == setup.global(used) && setup.u_box().is_none_or(|value| r.u_box == value);
    match filters_held(setup, r, &states) && precise_held(setup, r, &states) && enabled {
        true => Ok(states),
        false => Err(15),
    }
}
