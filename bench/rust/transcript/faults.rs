//! Calls in the grammar of which any fields are refused, one or several together: the answer is at the leftmost of its number.

use super::calls::Bench;
use crate::planner::devices::{Filters, Opening};

/// So many of a hundred fields are spoilt.
const SPOILT: u64 = 35;

/// Codes that no device lists.
const CODES: [u8; 3] = [0x00, 0xB7, 0xFF];
const MASKS: [u8; 5] = [0x00, 0x04, 0x05, 0x80, 0xFF];
/// Offcore words with a reserved bit, with no type or no response, and with bit 38 or two kinds of responses.
const WORDS: [u64; 7] = [0x10040, 1 << 63 | 0x10001, 0, 1, 0x10000, 0x40_0000_0001, 0x50001];
/// Latency types with the reserved bit, and none.
const TYPES: [u64; 3] = [0x40, 0x41, 0];
/// Masks of a packet with a bit outside the register's fields.
const MASK_WORDS: [u64; 3] = [1 << 39, 1 << 63, u64::MAX];

/// The field's own value, or one of these.
fn field<T: Copy>(bench: &mut Bench, own: T, others: &[T]) -> T {
    match bench.numbers.chance(SPOILT) {
        true => bench.numbers.pick(others),
        false => own,
    }
}

fn set(bench: &mut Bench) -> u64 {
    let all = bench.device.all();
    field(bench, bench.usable, &[0, all + 1, all + 1, 99999])
}

/// The bench's opening with spoilt numbers; a box also where the device has one alone, which no line can name.
pub fn opening(bench: &mut Bench) -> Opening {
    let (own, device) = (bench.opening(), bench.device);
    let boxes = device.boxes.len() as u64;
    let (freeze, core) = (bench.bad_freeze(), bench.bad_core());
    Opening {
        usable: field(bench, own.usable, &[0, device.all() + 1, 99999]),
        fixed: field(bench, own.fixed, &[device.fixed + 1, 99999]),
        box_number: field(bench, own.box_number, &[boxes, 99999]),
        freeze: field(bench, own.freeze, &[freeze]),
        core: field(bench, own.core, &[core]),
        ..own
    }
}

/// An add of any kind, mostly one of the device's, with an id that may be waiting.
pub fn add(bench: &mut Bench) -> String {
    let waiting = bench.numbers.below(bench.ids) + 1;
    let id = bench.numbers.pick(&[waiting, waiting, waiting, waiting, 0, 65536]);
    let kinds: &[&str] = match bench.device.filters {
        Filters::OffcoreResponse => &["event", "packet", "offcore", "offcore", "latency", "latency"],
        Filters::PacketMatch => &["event", "event", "packet", "packet", "offcore", "latency"],
        Filters::Absent => &["event", "event", "event", "packet", "offcore", "latency"],
    };
    match bench.numbers.pick(kinds) {
        "event" => {
            let (code, mask) = bench.numbers.pick(&bench.device.pairs());
            let (code, mask) = (field(bench, code, &CODES), field(bench, mask, &MASKS));
            format!("event\t{id}\t{code:02X}\t{mask:02X}\t{}", set(bench))
        }
        "packet" => format!("packet\t{id}\t{:016X}\t{:016X}\t{}", bench.numbers.below(4), field(bench, 0, &MASK_WORDS), set(bench)),
        "offcore" => format!("offcore\t{id}\t{:016X}\t{}", field(bench, 0x10001, &WORDS), set(bench)),
        _ => format!("latency\t{id}\t{:04X}\t{}\t{}", field(bench, 1, &TYPES), set(bench), set(bench)),
    }
}
