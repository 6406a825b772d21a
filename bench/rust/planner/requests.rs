//! Requests and their places, and the checks 7 to 11 of a request.

use super::devices::{Device, Filters};
use super::refusal::Refusal;

/// The fields of the line of a request stand in this order behind the verb and the id: the first of them is field 2.
#[derive(Clone, Copy, PartialEq, Eq, Debug)]
pub enum Request {
    Event { code: u8, mask: u8, allowed: u64 },
    Packet { match_word: u64, mask_word: u64, allowed: u64 },
    Offcore { word: u64, allowed: u64 },
    Latency { types: u16, first: u64, second: u64 },
}

/// The counter of a request, with the RSP register of an offcore request, or the two counters of a latency request.
#[derive(Clone, Copy, PartialEq, Eq, Debug)]
pub enum Place {
    Counter(u8),
    WithRsp(u8, u8),
    Pair(u8, u8),
}

#[derive(Clone, Copy, PartialEq, Eq, Debug)]
pub struct Entry {
    pub id: u64,
    pub request: Request,
}

/// The event that a row of a list of names gives, and the letter of its device (order 9).
#[derive(Clone, Copy, PartialEq, Eq, Debug)]
pub struct NamedEvent {
    pub letter: u8,
    pub code: u8,
    pub mask: u8,
}

impl NamedEvent {
    /// The same request typed in numbers.
    pub fn request(self, allowed: u64) -> Request {
        Request::Event { code: self.code, mask: self.mask, allowed }
    }
}

pub const VACANT: Entry = Entry { id: 0, request: Request::Event { code: 0, mask: 0, allowed: 0 } };

const TYPES: u64 = 0xFFBF;
const ANY_RESPONSE: u64 = 1 << 16;
/// The answers that can stand together but not beside ANY_RESPONSE: L2_HIT (Table 18-16, order 1) and the snoop answers.
const ANSWERS: u64 = 1 << 18 | 1 << 33 | 1 << 34 | 1 << 36 | 1 << 37;
pub const OUTSTANDING: u64 = 1 << 38;
const PERMITTED: u64 = TYPES | ANY_RESPONSE | ANSWERS | OUTSTANDING;

/// The bits of S_MSR_MATCH: all of them, since document 004 as we hold it lacks the table that would name its fields.
pub const MATCH_BITS: u64 = u64::MAX;
/// The fields of S_MSR_MASK (document 004, Table 2-35): the address, 38:1, and the home node, 0.
pub const MASK_BITS: u64 = 0x7F_FFFF_FFFF;

/// The words of a latency request: RSP0's and RSP1's.
pub fn latency_words(types: u16) -> [u64; 2] {
    [types as u64 + OUTSTANDING, types as u64 + ANY_RESPONSE]
}

/// The refusal of an event, by the number that refuses its code and mask: 8 stands before 10, and that before 9.
pub fn event_refusal(device: &Device, of_pair: Option<u64>, allowed: u64) -> Option<Refusal> {
    match of_pair {
        Some(8) => Some(Refusal::at(8, 2)),
        Some(10) => Some(Refusal::at(10, 3)),
        _ if allowed > device.all() => Some(Refusal::at(10, 4)),
        Some(_) => Some(Refusal::at(9, 3)),
        None => None,
    }
}

/// The refusal with 10 at the leftmost field that is out of range; of each field from 2 on it is told whether it is.
fn out_of_range(fields: [bool; 3]) -> Option<Refusal> {
    match fields {
        [true, ..] => Some(Refusal::at(10, 2)),
        [_, true, _] => Some(Refusal::at(10, 3)),
        [.., true] => Some(Refusal::at(10, 4)),
        _ => None,
    }
}

/// Order 5: bits outside the fields of the registers are refused with 10, as a counter too many in the set is.
fn packet_refusal(device: &Device, match_word: u64, mask_word: u64, allowed: u64) -> Option<Refusal> {
    out_of_range([match_word & !MATCH_BITS != 0, mask_word & !MASK_BITS != 0, allowed > device.all()])
}

fn offcore_refusal(device: &Device, word: u64, allowed: u64) -> Option<Refusal> {
    let (any, answered, outstanding) = (word & ANY_RESPONSE != 0, word & ANSWERS != 0, word & OUTSTANDING != 0);
    let incomplete = word & TYPES == 0 || !(any || answered || outstanding);
    let range = out_of_range([word & !PERMITTED != 0, allowed > device.all(), false]);
    match (range, incomplete, outstanding || any && answered) {
        (None, true, _) => Some(Refusal::at(9, 2)),
        (None, _, true) => Some(Refusal::at(11, 2)),
        _ => range,
    }
}

fn latency_refusal(device: &Device, types: u16, first: u64, second: u64) -> Option<Refusal> {
    let (types, all) = (types as u64, device.all());
    match out_of_range([types & !TYPES != 0, first > all, second > all]) {
        None if types == 0 => Some(Refusal::at(9, 2)),
        range => range,
    }
}

/// The refusal of a request on this device by the checks 7, 8, 10, 9 and 11.
pub fn refusal_of(device: &Device, request: Request) -> Option<Refusal> {
    match (request, device.filters) {
        (Request::Event { code, mask, allowed }, _) => event_refusal(device, device.event_refusal(code, mask), allowed),
        (Request::Packet { match_word, mask_word, allowed }, Filters::PacketMatch) => {
            packet_refusal(device, match_word, mask_word, allowed)
        }
        (Request::Offcore { word, allowed }, Filters::OffcoreResponse) => offcore_refusal(device, word, allowed),
        (Request::Latency { types, first, second }, Filters::OffcoreResponse) => latency_refusal(device, types, first, second),
        _ => Some(Refusal::whole(7)),
    }
}
