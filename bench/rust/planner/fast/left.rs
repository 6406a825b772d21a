//! What the requests taken in a turn can leave to the others: the test that stands before the search.
//! Counters and filter words do not depend on each other, so requests have a plan where both are left.

use crate::planner::requests::{latency_words, Request};

/// For each counter the sets that have it: bit f stands for the set f, of up to six counters.
const HAVING: [u64; 6] = [
    0xAAAA_AAAA_AAAA_AAAA,
    0xCCCC_CCCC_CCCC_CCCC,
    0xF0F0_F0F0_F0F0_F0F0,
    0xFF00_FF00_FF00_FF00,
    0xFFFF_0000_FFFF_0000,
    0xFFFF_FFFF_0000_0000,
];

pub struct Left {
    /// The sets of counters that the requests can leave free, as the bits of one number.
    sets: u64,
    /// The words that the RSP registers hold; with a latency request among them, in this order.
    words: [Option<u64>; 2],
    latency: bool,
    packet: Option<(u64, u64)>,
}

/// The sets that are left where one of the allowed counters is taken from each. All six are gone through without a branch,
/// which is quicker than going through the allowed ones alone.
fn without_one(sets: u64, allowed: u64) -> u64 {
    HAVING.iter().enumerate().fold(0, |left, (k, having)| {
        let allows = (allowed >> k & 1).wrapping_neg();
        left | (sets & having) >> (1 << k) & allows
    })
}

/// The sets that a request leaves.
#[inline(always)]
pub fn sets_after(sets: u64, request: Request) -> u64 {
    match request {
        Request::Event { allowed, .. } | Request::Packet { allowed, .. } | Request::Offcore { allowed, .. } => {
            without_one(sets, allowed)
        }
        Request::Latency { first, second, .. } => without_one(without_one(sets, first), second),
    }
}

impl Left {
    /// What is left where nothing is taken: all usable counters, and every filter register.
    pub fn all(usable: u64) -> Left {
        Left { sets: 1 << usable, words: [None; 2], latency: false, packet: None }
    }

    /// Whether no counter is left.
    pub fn no_counter(&self) -> bool {
        self.sets == 1
    }

    /// Takes counters; not where no set is left.
    fn take_sets(&mut self, sets: u64) -> bool {
        if sets != 0 {
            self.sets = sets;
        }
        sets != 0
    }

    /// The words with one more offcore word, in the register that it gets; none where both registers hold others.
    fn words_with(&self, word: u64) -> Option<[Option<u64>; 2]> {
        match self.words {
            [None, _] => Some([Some(word), None]),
            [Some(held), other] if held == word => Some([Some(held), other]),
            [held, None] => Some([held, Some(word)]),
            [_, Some(held)] if held == word => Some(self.words),
            _ => None,
        }
    }

    /// Whether the registers can hold the words of a latency request, in its order: a word held so far may have to move.
    fn can_hold(&self, words: [u64; 2]) -> bool {
        match self.latency {
            true => self.words[0] == Some(words[0]),
            false => self.words.iter().flatten().all(|held| words.contains(held)),
        }
    }

    fn take_packet(&mut self, words: (u64, u64), allowed: u64) -> bool {
        if self.packet.is_some_and(|held| held != words) || !self.take_sets(without_one(self.sets, allowed)) {
            return false;
        }
        self.packet = Some(words);
        true
    }

    fn take_offcore(&mut self, word: u64, allowed: u64) -> bool {
        let Some(words) = self.words_with(word) else { return false };
        if !self.take_sets(without_one(self.sets, allowed)) {
            return false;
        }
        self.words = words;
        true
    }

    fn take_latency(&mut self, types: u16, first: u64, second: u64) -> bool {
        let words = latency_words(types);
        if !self.can_hold(words) || !self.take_sets(without_one(without_one(self.sets, first), second)) {
            return false;
        }
        self.words = words.map(Some);
        self.latency = true;
        true
    }

    /// Takes a well-formed request if it has a plan together with those taken before.
    pub fn take(&mut self, request: Request) -> bool {
        match request {
            Request::Event { allowed, .. } => self.take_sets(without_one(self.sets, allowed)),
            Request::Packet { match_word, mask_word, allowed } => self.take_packet((match_word, mask_word), allowed),
            Request::Offcore { word, allowed } => self.take_offcore(word, allowed),
            Request::Latency { types, first, second } => self.take_latency(types, first, second),
        }
    }
}
