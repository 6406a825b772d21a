//! Device B as order 12 words it: its pairs, the two rules of document 003, and what they put into IA32_PEBS_ENABLE.

use crate::planner::devices::{Device, Setup};
use crate::planner::requests::{Place, Request};

/// Document 01's seven pairs for G, and two more.
const PAIRS: [(u8, u8); 9] =
    [(0x3C, 0x00), (0xC0, 0x00), (0x3C, 0x01), (0x2E, 0x4F), (0x2E, 0x41), (0xC4, 0x00), (0xC5, 0x00), (0xC0, 0x01), (0xCD, 0x02)];

/// The number that refuses an event's code and mask.
pub fn event_refusal(code: u8, mask: u8) -> Option<u64> {
    (!PAIRS.contains(&(code, mask))).then_some(8)
}

pub fn is_sandy_bridge(device: &Device) -> bool {
    device.letter == b'B'
}

/// INST_RETIRED.ALL in its PDIR use.
pub fn is_pdir(request: Request) -> bool {
    matches!(request, Request::Event { code: 0xC0, mask: 0x01, .. })
}

/// MEM_TRANS_RETIRED.PRECISE_STORE.
pub fn is_precise_store(request: Request) -> bool {
    matches!(request, Request::Event { code: 0xCD, mask: 0x02, .. })
}

/// Whether requests at their places keep the rules: the first on counter 1, with no other request and the usable set 15; the
/// second on counter 3 only.
pub fn keeps_rules(setup: Setup, given: &[(Request, Place)]) -> bool {
    let keeps = |&(request, place): &(Request, Place)| match request {
        _ if is_pdir(request) => place == Place::Counter(1) && given.len() == 1 && setup.usable == 15,
        _ if is_precise_store(request) => place == Place::Counter(3),
        _ => true,
    };
    !is_sandy_bridge(setup.device) || given.iter().all(keeps)
}

/// IA32_PEBS_ENABLE: bit 1 for the first, 3 and 63 for the second, and 0 when neither is taken.
pub fn enables(requests: &[Request]) -> u64 {
    let taken = |kind: fn(Request) -> bool| requests.iter().any(|request| kind(*request));
    match (taken(is_pdir), taken(is_precise_store)) {
        (true, _) => 0x0000_0000_0000_0002,
        (_, true) => 0x8000_0000_0000_0008,
        _ => 0,
    }
}
