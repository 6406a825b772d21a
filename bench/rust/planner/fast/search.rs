//! The first plan: requests placed one after another, each at its first place that leaves a plan for the rest.

use super::{counters, precise};
use crate::planner::devices::Setup;
use crate::planner::requests::{latency_words, Entry, Place, Request};
use crate::planner::PLACES;

/// A search on its way: what the filter registers hold, and the places given last.
struct Search<'a> {
    entries: &'a [Entry],
    rsp: [Option<u64>; 2],
    packet: Option<(u64, u64)>,
    plan: [Place; PLACES],
}

/// Whether a register can hold what is asked: it is unused, or holds the same.
fn holds<T: PartialEq>(register: Option<T>, asked: T) -> bool {
    match register {
        None => true,
        Some(held) => held == asked,
    }
}

impl Search<'_> {
    /// Places the requests from `at` on in the free counters. Where that fails the registers hold what they held before.
    fn place_from(&mut self, at: usize, free: u64) -> bool {
        let Some(entry) = self.entries.get(at) else { return true };
        match entry.request {
            Request::Event { allowed, .. } => self.place_counter(at, free, allowed),
            Request::Packet { match_word, mask_word, allowed } => self.place_packet(at, free, (match_word, mask_word), allowed),
            Request::Offcore { word, allowed } => self.place_offcore(at, free, word, allowed),
            Request::Latency { types, first, second } => self.place_latency(at, free, latency_words(types), first, second),
        }
    }

    /// A request that needs one counter and no RSP register.
    fn place_counter(&mut self, at: usize, free: u64, allowed: u64) -> bool {
        for counter in counters(free & allowed) {
            if self.place_from(at + 1, free & !(1 << counter)) {
                self.plan[at] = Place::Counter(counter);
                return true;
            }
        }
        false
    }

    fn place_packet(&mut self, at: usize, free: u64, words: (u64, u64), allowed: u64) -> bool {
        let before = self.packet;
        if !holds(before, words) {
            return false;
        }
        self.packet = Some(words);
        let placed = self.place_counter(at, free, allowed);
        self.packet = before;
        placed
    }

    fn place_offcore(&mut self, at: usize, free: u64, word: u64, allowed: u64) -> bool {
        let before = self.rsp;
        let fits = before.map(|held| holds(held, word));
        if fits == [false; 2] {
            return false;
        }
        for counter in counters(free & allowed) {
            for rsp in 0..2 {
                if fits[rsp] {
                    self.rsp[rsp] = Some(word);
                    if self.place_from(at + 1, free & !(1 << counter)) {
                        self.plan[at] = Place::WithRsp(counter, rsp as u8);
                        return true;
                    }
                    self.rsp[rsp] = before[rsp];
                }
            }
        }
        false
    }

    fn place_latency(&mut self, at: usize, free: u64, words: [u64; 2], first: u64, second: u64) -> bool {
        let before = self.rsp;
        if !holds(before[0], words[0]) || !holds(before[1], words[1]) {
            return false;
        }
        self.rsp = words.map(Some);
        for j in counters(free & first) {
            let left = free & !(1 << j);
            for k in counters(left & second) {
                if self.place_from(at + 1, left & !(1 << k)) {
                    self.plan[at] = Place::Pair(j, k);
                    return true;
                }
            }
        }
        self.rsp = before;
        false
    }
}

/// The first plan of requests that no rule narrows.
#[inline(always)]
fn searched(setup: Setup, entries: &[Entry]) -> Option<[Place; PLACES]> {
    let mut search = Search { entries, rsp: [None; 2], packet: None, plan: [Place::Counter(0); PLACES] };
    search.place_from(0, setup.usable & setup.device.all()).then_some(search.plan)
}

/// A call of its own, as all that precise events need: the others lose nothing by them.
#[inline(never)]
fn searched_precise(setup: Setup, entries: &[Entry]) -> Option<[Place; PLACES]> {
    searched(setup, &precise::searched(setup, entries)?[..entries.len()])
}

/// The first legal plan of at most `PLACES` requests.
pub fn first_plan(setup: Setup, entries: &[Entry]) -> Option<[Place; PLACES]> {
    match setup.device.has_precise() {
        false => searched(setup, entries),
        true => searched_precise(setup, entries),
    }
}
