//! The precise events of a Sandy Bridge core, and the register that enables them, IA32_PEBS_ENABLE (document 003; order 12).

use super::requests::Request;

pub const ADDRESS: u64 = 0x3F1;

/// An event that runs on one counter only.
#[derive(Debug)]
pub struct Precise {
    pub code: u8,
    pub mask: u8,
    pub counter: u64,
    /// What the register holds where the event is taken.
    pub enable: u64,
    /// Whether every other general counter must be quiet.
    pub alone: bool,
}

/// INST_RETIRED.ALL in its PDIR use, and MEM_TRANS_RETIRED.PRECISE_STORE, whose facility has a bit of its own.
pub const SANDY_BRIDGE: &[Precise] = &[
    Precise { code: 0xC0, mask: 0x01, counter: 1, enable: 1 << 1, alone: true },
    Precise { code: 0xCD, mask: 0x02, counter: 3, enable: 1 << 3 | 1 << 63, alone: false },
];

/// The row of a request that is such an event.
pub fn row_of(rows: &'static [Precise], request: Request) -> Option<&'static Precise> {
    match request {
        Request::Event { code, mask, .. } => rows.iter().find(|row| (row.code, row.mask) == (code, mask)),
        _ => None,
    }
}
