//! The events that each device lists, rising by code: those of G and S stand in document 01, those of C in section 2.3.5 of
//! document 004, and those of B in order 12.

/// The unit masks that are listed for a code.
#[derive(Clone, Copy, Debug)]
pub enum Masks {
    /// Those from the first to the last.
    Range(u8, u8),
    /// These alone.
    Only(&'static [u8]),
}

#[derive(Clone, Copy, Debug)]
pub struct Event {
    pub code: u8,
    pub masks: Masks,
}

impl Masks {
    pub fn has(&self, mask: u8) -> bool {
        match *self {
            Masks::Range(first, last) => first <= mask && mask <= last,
            Masks::Only(masks) => masks.contains(&mask),
        }
    }

    /// All of them, rising.
    pub fn all(&self) -> Vec<u8> {
        (0..=255).filter(|mask| self.has(*mask)).collect()
    }
}

/// A table by code: the row of each.
pub type ByCode = [Option<Event>; 256];

const fn by_code(events: &[Event]) -> ByCode {
    let (mut table, mut at) = ([None; 256], 0);
    while at < events.len() {
        table[events[at].code as usize] = Some(events[at]);
        at += 1;
    }
    table
}

const fn range(code: u8, first: u8, last: u8) -> Event {
    Event { code, masks: Masks::Range(first, last) }
}

const fn only(code: u8, masks: &'static [u8]) -> Event {
    Event { code, masks: Masks::Only(masks) }
}

/// An event without a list of masks: 0 alone.
const fn plain(code: u8) -> Event {
    range(code, 0, 0)
}

/// The SDM's architectural events.
pub const G: &[Event] = &[only(0x2E, &[0x41, 0x4F]), range(0x3C, 0, 1), plain(0xC0), plain(0xC4), plain(0xC5)];

/// Those of G, and two more: C0/01, INST_RETIRED.ALL, and CD/02, MEM_TRANS_RETIRED.PRECISE_STORE.
pub const B: &[Event] =
    &[only(0x2E, &[0x41, 0x4F]), range(0x3C, 0, 1), range(0xC0, 0, 1), plain(0xC4), plain(0xC5), only(0xCD, &[0x02])];

pub const S: &[Event] = &[plain(0x2B), plain(0x2D), plain(0x2F), range(0x31, 1, 3), range(0x51, 1, 3), plain(0x52)];

/// The rings of ARB_WINS and ARB_LOSSES: AD, AK and BL in either direction and in both, IV, and all.
const RINGS: &[u8] = &[0x01, 0x02, 0x03, 0x04, 0x08, 0x0C, 0x10, 0x20, 0x30, 0x40, 0x7F];
/// The egress queues of STARVED_EGRESS, one by one and summed.
const EGRESSES: &[u8] = &[0x01, 0x02, 0x03, 0x04, 0x07, 0x08, 0x10, 0x18, 0x20, 0x40, 0x60, 0x80];

/// The list of 0E (INGRESS_BYPASS_WINS_AD) is lost, so no mask of it is accepted.
pub const C: &[Event] = &[
    range(0x01, 1, 3),
    range(0x02, 1, 3),
    range(0x03, 1, 3),
    plain(0x04),
    only(0x05, &[1, 2, 4]),
    only(0x06, &[1, 2, 4]),
    only(0x07, &[1, 2, 4]),
    plain(0x08),
    only(0x09, RINGS),
    only(0x0A, RINGS),
    only(0x0B, EGRESSES),
    only(0x0C, &[0x01, 0x02, 0x04, 0x08, 0x10, 0x20, 0x40, 0x80]),
    only(0x0E, &[]),
    range(0x14, 1, 7),
    range(0x16, 1, 0x0F),
    range(0x17, 1, 0x1F),
    plain(0x18),
    plain(0x19),
    plain(0x1A),
    plain(0x1B),
    plain(0x1C),
    plain(0x1D),
    plain(0x1E),
    plain(0x1F),
    plain(0x20),
    plain(0x21),
    plain(0x22),
    plain(0x23),
    range(0x27, 1, 3),
    range(0x28, 1, 0xFF),
];

pub static G_BY_CODE: ByCode = by_code(G);
pub static S_BY_CODE: ByCode = by_code(S);
pub static C_BY_CODE: ByCode = by_code(C);
pub static B_BY_CODE: ByCode = by_code(B);
