//! The registers that a write list leaves.

use super::reader::Registers;
use super::writes::Write;
use crate::planner::devices::Setup;
use crate::planner::{pebs, u_box, PLACES};

/// The registers after the writes, from registers with all bits set.
pub fn applied(setup: Setup, writes: &[Write]) -> Registers {
    let all = u64::MAX;
    let mut r = Registers {
        control: [all; PLACES],
        rsp: [all; 2],
        mm_cfg: all,
        match_word: all,
        mask_word: all,
        global: all,
        u_box: all,
        pebs: all,
    };
    for (address, value) in writes {
        if let Some(register) = register(setup, &mut r, *address) {
            *register = *value;
        }
    }
    r
}

/// The register at an address; nothing for a counter's, which the reader is not given.
pub fn register(setup: Setup, r: &mut Registers, address: u64) -> Option<&mut u64> {
    let at = setup.addresses();
    match (0..setup.device.counters).find(|k| address == at.control + at.step * k) {
        Some(k) => return Some(&mut r.control[k as usize]),
        None if address == at.global => return Some(&mut r.global),
        None => {}
    }
    match address {
        0x1A6 | 0x1A7 => Some(&mut r.rsp[address as usize - 0x1A6]),
        0xE48 => Some(&mut r.mm_cfg),
        0xE49 => Some(&mut r.match_word),
        0xE4A => Some(&mut r.mask_word),
        u_box::ADDRESS => Some(&mut r.u_box),
        pebs::ADDRESS => Some(&mut r.pebs),
        _ => None,
    }
}
