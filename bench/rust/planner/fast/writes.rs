//! The writes of a plan, from the requests taken and their places straight into the lent slice.

use super::counters;
use crate::planner::devices::{Addresses, Filters, Setup};
use crate::planner::requests::{latency_words, Entry, Place, Request};
use crate::planner::{pebs, u_box, PLACES};
use std::slice::ChunksExactMut;

/// The event words by counter, the counters that have one, and the words of the filter registers.
struct Settings {
    used: u64,
    words: [u64; PLACES],
    rsp: [u64; 2],
    packet: Option<(u64, u64)>,
}

impl Settings {
    fn set(&mut self, counter: u8, word: u64) {
        self.used |= 1 << counter;
        self.words[counter as usize] = word;
    }

    /// The settings of one more request.
    fn add(&mut self, enable: u64, request: Request, place: Place) {
        match (request, place) {
            (Request::Event { code, mask, .. }, Place::Counter(k)) => self.set(k, enable + 0x100 * mask as u64 + code as u64),
            (Request::Packet { match_word, mask_word, .. }, Place::Counter(k)) => {
                self.set(k, enable);
                self.packet = Some((match_word, mask_word));
            }
            (Request::Offcore { word, .. }, Place::WithRsp(k, rsp)) => {
                self.set(k, enable + 0x1B7 + 0x100 * rsp as u64);
                self.rsp[rsp as usize] = word;
            }
            (Request::Latency { types, .. }, Place::Pair(j, k)) => {
                self.set(j, enable + 0x1B7);
                self.set(k, enable + 0x2B7);
                self.rsp = latency_words(types);
            }
            _ => unreachable!("a place of another kind"),
        }
    }

    fn of(setup: Setup, taken: &[Entry], plan: &[Place; PLACES]) -> Settings {
        let mut settings = Settings { used: 0, words: [0; PLACES], rsp: [0; 2], packet: None };
        let enable = setup.enable();
        for (entry, place) in taken.iter().zip(plan) {
            settings.add(enable, entry.request, *place);
        }
        settings
    }

    fn filter_writes(&self, filters: Filters) -> usize {
        match (filters, self.packet) {
            (Filters::OffcoreResponse, _) => 2,
            (Filters::PacketMatch, None) => 1,
            (Filters::PacketMatch, Some(_)) => 4,
            (Filters::Absent, _) => 0,
        }
    }

    fn count(&self, setup: Setup) -> usize {
        let (usable, used) = (setup.usable.count_ones() as usize, self.used.count_ones() as usize);
        let frame = if setup.asks() { 2 } else { 0 };
        let precise = setup.device.has_precise() as usize;
        2 + usable + self.filter_writes(setup.device.filters) + 2 * used + precise + frame
    }
}

/// The part of the lent slice that is not yet filled, in pairs of address and value.
struct List<'a> {
    rest: ChunksExactMut<'a, u64>,
}

impl List<'_> {
    fn put(&mut self, address: u64, value: u64) {
        self.rest.next().expect("as many pairs as writes").copy_from_slice(&[address, value]);
    }

    fn put_filters(&mut self, filters: Filters, settings: &Settings) {
        match (filters, settings.packet) {
            (Filters::OffcoreResponse, _) => {
                self.put(0x1A6, settings.rsp[0]);
                self.put(0x1A7, settings.rsp[1]);
            }
            (Filters::PacketMatch, None) => self.put(0xE48, 0),
            (Filters::PacketMatch, Some((match_word, mask_word))) => {
                self.put(0xE48, 0);
                self.put(0xE49, match_word);
                self.put(0xE4A, mask_word);
                self.put(0xE48, 1 << 63);
            }
            (Filters::Absent, _) => {}
        }
    }
}

/// What enables the precise events that are taken.
fn enables(setup: Setup, taken: &[Entry]) -> u64 {
    taken.iter().filter_map(|entry| pebs::row_of(setup.device.precise, entry.request)).fold(0, |bits, row| bits | row.enable)
}

/// Puts the writes, address then value, and tells how many; none where the slice is too short.
#[inline(always)]
pub fn write_list(setup: Setup, taken: &[Entry], plan: &[Place; PLACES], out: &mut [u64]) -> Option<usize> {
    let settings = Settings::of(setup, taken, plan);
    let count = settings.count(setup);
    let mut list = List { rest: out.get_mut(..2 * count)?.chunks_exact_mut(2) };
    let Addresses { global, control, counter, step } = setup.addresses();
    let u_box = setup.u_box();
    if u_box.is_some() {
        list.put(u_box::ADDRESS, 0);
    }
    list.put(global, setup.global(0));
    for k in counters(setup.usable) {
        list.put(control + step * k as u64, 0);
    }
    list.put_filters(setup.device.filters, &settings);
    for k in counters(settings.used) {
        list.put(counter + step * k as u64, 0);
    }
    for k in counters(settings.used) {
        list.put(control + step * k as u64, settings.words[k as usize]);
    }
    if setup.device.has_precise() {
        list.put(pebs::ADDRESS, enables(setup, taken));
    }
    list.put(global, setup.global(settings.used));
    if let Some(value) = u_box {
        list.put(u_box::ADDRESS, value);
    }
    Some(count)
}
